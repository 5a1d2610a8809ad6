//! What a state's text says, held to what the commands do in that state: the text is read back, and each
//! command that a line speaks of is tried.

use crate::command::{Command, MOST_SAVES};
use crate::engine::{Answer, Engine, Entry, Lock, Verdict};
use crate::report;
use crate::state_lines::{CopyFields, CopyLine, EntryLine, Lines, SaveLine};

/// A text and the state that it is of.
struct Told<'a> {
    lines: Lines,
    state: &'a Engine,
}

/// Checks the text of a state; gives its lines.
pub fn check(state: &Engine, text: &str) -> Result<Lines, String> {
    if !text.starts_with(&report::lines(state)) {
        return Err("report: the text begins otherwise".to_string());
    }
    let told = Told { lines: Lines::read(text)?, state };
    told.check_order()?;
    told.check_places()?;
    told.check_takes()?;
    for number in 0..MOST_SAVES {
        let line = told.lines.saves.iter().find(|line| line.save == number);
        if line.is_none() != told.state.refusal(Command::Begin { save: number }).is_none() {
            return Err(format!("begin: save {number}"));
        }
        if let Some(line) = line {
            told.check_phase(line)?;
            told.check_run(line)?;
            told.check_decide(line)?;
            told.check_apply(line)?;
        }
    }
    told.lines.copies.iter().try_for_each(|line| told.check_copy(line))?;
    told.check_queues()?;
    Ok(told.lines)
}

impl Told<'_> {
    fn sheets_of(&self, save: usize) -> impl Iterator<Item = &CopyLine> {
        self.lines.copies.iter().filter(move |line| line.save == save)
    }

    fn entry_of(&self, save: usize, sheet: usize) -> Option<&EntryLine> {
        self.lines.entries.iter().find(|line| line.save == save && line.sheet == sheet)
    }

    /// The state after a command that is accepted.
    fn after(&self, command: Command) -> (Engine, Answer) {
        let mut state = self.state.clone();
        let answer = state.step(command).expect("an accepted command");
        (state, answer)
    }

    /// Saves rise, claims and copies by save and then by sheet; entries rise by sheet.
    fn check_order(&self) -> Result<(), String> {
        let saves = self.lines.saves.is_sorted_by(|one, two| one.save < two.save);
        let copies = self.lines.copies.iter().map(|line| (line.save, line.sheet));
        let entries = self.lines.entries.iter().map(|line| line.sheet);
        let sorted = saves && copies.is_sorted_by(|one, two| one < two) && entries.is_sorted();
        let nodes = self.lines.taken.len() == self.state.taken.len();
        (sorted && nodes).then_some(()).ok_or("order: the lines stand otherwise".to_string())
    }

    /// The last place of a save is the last line of the order that names it; the rows are these saves.
    fn check_places(&self) -> Result<(), String> {
        let places = &self.lines.places;
        for line in &self.lines.saves {
            let last = places.iter().rposition(|place| place.save == line.save);
            let row = self.lines.rows.iter().find(|row| row.save == line.save);
            let outcome = if matches!(line.phase, 'C' | 'D') { line.phase } else { 'U' };
            let row_fits =
                row.map(|row| (row.runs, row.outcome)) == last.map(|_| (line.runs, outcome));
            if last != line.place || !row_fits {
                return Err(format!("place: {line:?}"));
            }
        }
        for (number, place) in places.iter().enumerate() {
            let line = self.lines.saves.iter().find(|line| line.save == place.save);
            if line.is_none_or(|line| place.last != (line.place == Some(number))) {
                return Err(format!("place: {place:?} at {number}"));
            }
        }
        Ok(())
    }

    /// A node takes the place behind those that it has taken.
    fn check_takes(&self) -> Result<(), String> {
        for (node, &taken) in self.lines.taken.iter().enumerate() {
            let take = Command::Take { node };
            let fits = match (self.lines.places.get(taken), self.state.refusal(take)) {
                (None, refusal) => refusal == Some(9) && taken == self.lines.places.len(),
                (Some(place), None) => {
                    let valid = !place.last || !self.fails(place.save, node);
                    match self.after(take).1 {
                        Answer::Taken { save, verdict } => {
                            save == place.save && valid == (verdict == Verdict::Valid)
                        }
                        _ => false,
                    }
                }
                (Some(_), Some(_)) => false,
            };
            if !fits {
                return Err(format!("take: node {node} behind {taken} places"));
            }
        }
        Ok(())
    }

    /// Does an X or a copy that is behind fail the save at a claimed sheet of the node?
    fn fails(&self, save: usize, node: usize) -> bool {
        let x_at = |sheet| {
            self.lines.entries.iter().any(|line| line.sheet == sheet && line.lock == Lock::X)
        };
        let here =
            |line: &&CopyLine| line.claim.is_some() && self.state.sheets[line.sheet].owner == node;
        self.sheets_of(save)
            .filter(here)
            .any(|line| x_at(line.sheet) || line.copy.as_ref().is_some_and(|copy| copy.behind))
    }

    /// A running save can be given up, one that is over is refused with 14; only the first run is one.
    fn check_phase(&self, line: &SaveLine) -> Result<(), String> {
        let refusal = self.state.refusal(Command::GiveUp { save: line.save });
        let fits = match line.phase {
            'F' => refusal.is_none() && line.runs == 1,
            'L' => refusal.is_none() && line.runs > 1,
            'S' => refusal == Some(5),
            _ => refusal == Some(14),
        };
        fits.then_some(()).ok_or(format!("phase: {line:?}"))
    }

    /// SUBMIT of a first run and of a wide one takes a place, with a claim for each copy; else it commits.
    fn check_run(&self, line: &SaveLine) -> Result<(), String> {
        let running = matches!(line.phase, 'F' | 'L');
        if !running {
            return (!line.wide).then_some(()).ok_or(format!("submit: {line:?}"));
        }
        let (state, _) = self.after(Command::Submit { save: line.save });
        let placed = state.order.len() > self.state.order.len();
        let joined = |line: &CopyLine| {
            let written = line.copy.as_ref().is_some_and(|copy| copy.written);
            let lock = if written { Some(Lock::X) } else { line.claim.or(Some(Lock::S)) };
            state.saves[line.save].claim.get(&line.sheet).copied() == lock
        };
        let claims = state.saves[line.save].claim.len() == self.sheets_of(line.save).count();
        let joined = !placed || claims && self.sheets_of(line.save).all(joined);
        let first = line.phase == 'F';
        let fits = placed == (first || line.wide) && !(first && line.wide) && joined;
        fits.then_some(()).ok_or(format!("submit: {line:?}"))
    }

    /// A submitted save is decided where it has a granted entry for each sheet of its claim, and runs again
    /// where it is marked failed.
    fn check_decide(&self, line: &SaveLine) -> Result<(), String> {
        let decide = Command::Decide { save: line.save };
        let mut claim = self.sheets_of(line.save).filter(|copy| copy.claim.is_some());
        let granted = |copy: &CopyLine| {
            self.entry_of(copy.save, copy.sheet).is_some_and(|entry| entry.granted)
        };
        let fits = match self.state.refusal(decide) {
            None => {
                let answer = if line.failed { Answer::SecondRun } else { Answer::Committed };
                line.phase == 'S' && claim.all(granted) && self.after(decide).1 == answer
            }
            Some(10) => line.phase == 'S' && !claim.all(granted),
            // The mark stays in a later run and behind it.
            Some(_) => line.phase != 'S' && (line.phase != 'L' || line.failed),
        };
        fits.then_some(()).ok_or(format!("decide: {line:?}"))
    }

    /// APPLY is for a save that is over and has an entry at the node.
    fn check_apply(&self, line: &SaveLine) -> Result<(), String> {
        let over = matches!(line.phase, 'C' | 'D');
        for node in 0..self.lines.taken.len() {
            let at_node = |entry: &&EntryLine| self.state.sheets[entry.sheet].owner == node;
            let entries = self.lines.entries.iter().filter(|entry| entry.save == line.save);
            let here: Vec<usize> = entries.filter(at_node).map(|entry| entry.sheet).collect();
            let applies = over && !here.is_empty();
            let refusal = self.state.refusal(Command::Apply { node, save: line.save });
            if applies != refusal.is_none() || applies && !self.stores(line, node, &here) {
                return Err(format!("apply: {line:?} at node {node}"));
            }
        }
        Ok(())
    }

    /// Does an APPLY leave what a committed save's copies say at these sheets, and the rest as it was?
    fn stores(&self, line: &SaveLine, node: usize, here: &[usize]) -> bool {
        let (state, _) = self.after(Command::Apply { node, save: line.save });
        state.sheets.iter().zip(&self.lines.sheets).enumerate().all(|(number, (sheet, before))| {
            let copy = self.sheets_of(line.save).find(|copy| copy.sheet == number);
            let copy = copy.and_then(|line| line.copy.as_ref()).filter(|copy| copy.written);
            let stored = copy.filter(|_| line.phase == 'C' && here.contains(&number));
            sheet.content == stored.map_or(before.content, |copy| copy.content)
        })
    }

    /// A running save's READ is answered from its copy, and its WRITE needs one; the counter of a copy is behind
    /// where it is below the sheet's own.
    fn check_copy(&self, line: &CopyLine) -> Result<(), String> {
        let (save, sheet) = (line.save, line.sheet);
        let wct = self.lines.sheets[sheet].wct;
        let behind = |copy: &CopyFields| copy.behind == (copy.wct_seen < wct);
        let something = line.claim.is_some() || line.copy.is_some();
        let own = match (&line.copy, self.state.refusal(Command::GiveUp { save })) {
            (Some(copy), None) => {
                self.after(Command::Read { save, sheet }).1 == Answer::Content(copy.content)
            }
            (None, None) => {
                self.state.refusal(Command::Write { save, sheet, content: 0 }) == Some(7)
            }
            _ => true,
        };
        let fits = line.copy.as_ref().is_none_or(behind) && something && own;
        fits.then_some(()).ok_or(format!("copy: {line:?}"))
    }

    /// The lines of each sheet are its queue, from the front; each entry is what its save claims there.
    fn check_queues(&self) -> Result<(), String> {
        let claimed = |entry: &EntryLine| {
            let mut lines = self.sheets_of(entry.save);
            lines.any(|line| line.sheet == entry.sheet && line.claim == Some(entry.lock))
        };
        if let Some(entry) = self.lines.entries.iter().find(|entry| !claimed(entry)) {
            return Err(format!("claim: {entry:?}"));
        }
        for (number, sheet) in self.state.sheets.iter().enumerate() {
            let lines = self.lines.entries.iter().filter(|line| line.sheet == number);
            let fits = lines.clone().count() == sheet.queue.len()
                && lines.enumerate().all(|(place, line)| entry_fits(&sheet.queue[..=place], line));
            if !fits {
                return Err(format!("queue: sheet {number}"));
            }
        }
        Ok(())
    }
}

/// An entry, the last of these, is granted where nothing stands in its way. With all of that gone it would be,
/// and with one of them left it would not.
fn entry_fits(queue: &[Entry], line: &EntryLine) -> bool {
    let (entry, before) = queue.split_last().expect("an entry");
    let way = &line.in_the_way;
    let free_without = |gone: &dyn Fn(usize) -> bool| {
        let mut left = before.iter().filter(|other| !gone(other.save));
        match entry.lock {
            Lock::S => left.all(|other| other.lock == Lock::S),
            Lock::X => left.next().is_none(),
        }
    };
    let from_the_front = before.iter().map(|other| other.save).filter(|save| way.contains(save));
    (line.save, line.lock) == (entry.save, entry.lock)
        && line.granted == way.is_empty()
        && from_the_front.eq(way.iter().copied())
        && free_without(&|save| way.contains(&save))
        && way.iter().all(|left| !free_without(&|save| save != *left && way.contains(&save)))
}
