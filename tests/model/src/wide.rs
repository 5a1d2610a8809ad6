//! Second runs that open another sheet. What the commands alone say of a save, its claim, its places, its runs
//! and whether its run is wide, must be what the state has after each of them; and a SUBMIT of a later run, a
//! TAKE of a former place, a DECIDE and a GIVE UP must change what their words name and nothing else.

use crate::command::{read_command, Command, MOST_SAVES};
use crate::demand3::fed;
use crate::engine::{Answer, Engine, Entry, Lock, Phase, Rule, Sheet, Verdict};
use crate::report::report;
use crate::serial::Histories;
use crate::session::{Refused, Session, Step};
use std::collections::BTreeMap;

/// How often the words had something to say.
#[derive(Clone, Copy, Debug, Default, PartialEq, Eq)]
pub struct Met {
    /// SUBMITs of wide runs: with a sheet outside the claim only, with an S written only, with both.
    pub submits: [u64; 3],
    /// SUBMITs of wide runs that kept an X of an earlier run: the sheet was only read, was not touched.
    pub kept: [u64; 2],
    /// SUBMITs of wide runs that removed entries at two nodes or more.
    pub nodes: u64,
    /// TAKEs of a former place: of a save submitted, in a later run, committed, dropped.
    pub former: [u64; 4],
    /// TAKEs of a former place with two more of the same save before the node.
    pub lagging: u64,
    /// Claimed sheets without a copy at a TAKE: passed though their WCT has risen, failed by an X.
    pub without_copy: [u64; 2],
    /// First READs of a later run, outside the claim, of a sheet whose front entry is an X.
    pub past_x: u64,
    /// Wide runs that were given up.
    pub given_up: u64,
    /// Third and further runs that a DECIDE has entered.
    pub again: u64,
    /// Commits of saves with a former place: by DECIDE, by SUBMIT.
    pub commits: [u64; 2],
    /// Saves with eight places or more, with a hundred runs or more; sessions with more than 256 places.
    pub deep: [u64; 3],
    pub most_places: usize,
    pub most_runs: u32,
    pub longest_order: usize,
}

impl Met {
    pub fn add(&mut self, other: Met) {
        let add = |sums: &mut [u64], more: &[u64]| {
            sums.iter_mut().zip(more).for_each(|(sum, more)| *sum += more);
        };
        add(&mut self.submits, &other.submits);
        add(&mut self.kept, &other.kept);
        add(&mut self.former, &other.former);
        add(&mut self.without_copy, &other.without_copy);
        add(&mut self.commits, &other.commits);
        add(&mut self.deep, &other.deep);
        self.nodes += other.nodes;
        self.lagging += other.lagging;
        self.past_x += other.past_x;
        self.given_up += other.given_up;
        self.again += other.again;
        self.most_places = self.most_places.max(other.most_places);
        self.most_runs = self.most_runs.max(other.most_runs);
        self.longest_order = self.longest_order.max(other.longest_order);
    }

    pub fn counts(&self) -> Vec<u64> {
        let single = [self.nodes, self.lagging, self.past_x, self.given_up, self.again];
        let paired = [self.kept, self.without_copy, self.commits].concat();
        [&self.submits[..], &self.former, &self.deep, &single, &paired].concat()
    }
}

/// The commands of a session up to a state, and what the next state is held to.
pub struct Watch {
    histories: Histories,
    passed: usize,
    /// The saves committed by a DECIDE or a SUBMIT: in the first run, in a later one.
    commits: [u32; 2],
    /// The whole state that the last step must have led to, where its words name all that it changes.
    expected: Option<(&'static str, Engine)>,
    pub met: Met,
}

impl Watch {
    pub fn new() -> Watch {
        Watch {
            histories: Histories::new(),
            passed: 0,
            commits: [0; 2],
            expected: None,
            met: Met::default(),
        }
    }

    /// Takes note of the step that is accepted next in this state.
    pub fn note(&mut self, state: &Engine, step: &Step) -> Result<(), String> {
        match step.command {
            Command::Read { save, sheet } => self.note_read(state, save, sheet),
            Command::Submit { save } => self.note_submit(state, save),
            Command::Take { node } => self.note_take(state, node, step.answer)?,
            Command::Decide { save } => self.note_decide(state, save, step.answer)?,
            Command::GiveUp { save } => {
                self.met.given_up += self.histories.saves[save].wide() as u64;
                let mut after = state.clone();
                after.saves[save].phase = Phase::Dropped;
                self.expect("give up", after);
            }
            _ => {}
        }
        self.histories.feed(self.passed, fed(step));
        self.passed += 1;
        Ok(())
    }

    /// The step's words name all that it changes, besides the count of commands.
    fn expect(&mut self, clause: &'static str, mut after: Engine) {
        after.tally.accepted += 1;
        self.expected = Some((clause, after));
    }

    fn note_read(&mut self, state: &Engine, save: usize, sheet: usize) {
        let reader = &self.histories.saves[save];
        let new = !reader.touched.contains_key(&sheet) && !reader.claim.contains_key(&sheet);
        let held = state.sheets[sheet].queue.first().is_some_and(is_x);
        self.met.past_x += (reader.runs > 1 && new && held) as u64;
    }

    fn note_submit(&mut self, state: &Engine, save: usize) {
        let history = &self.histories.saves[save];
        let mut after = state.clone();
        if history.runs == 1 {
            after.saves[save].claim = history.touched.clone();
            self.expect("submit", with_place(after, save));
        } else if history.wide() {
            let claim = joined(&history.claim, &history.touched);
            self.count_submit(state, save);
            for sheet in &mut after.sheets {
                sheet.queue.retain(|entry| entry.save != save);
            }
            after.saves[save].failed = false;
            after.saves[save].claim = claim;
            self.expect("wide submit", with_place(after, save));
        } else {
            self.met.commits[1] += (history.places > 1) as u64;
            self.commits[1] += 1;
            after.saves[save].phase = Phase::Committed;
            after.tally.second_run_commits += 1;
            self.expect("commit", after);
        }
    }

    fn count_submit(&mut self, state: &Engine, save: usize) {
        let history = &self.histories.saves[save];
        let [mut outside, mut raised] = [false; 2];
        for (sheet, lock) in &history.touched {
            outside |= !history.claim.contains_key(sheet);
            raised |= history.claim.get(sheet) == Some(&Lock::S) && *lock == Lock::X;
        }
        self.met.submits[if outside { 2 * raised as usize } else { 1 }] += 1;
        let mut kept = [false; 2];
        for (sheet, _) in history.claim.iter().filter(|(_, lock)| **lock == Lock::X) {
            kept[0] |= history.touched.get(sheet) == Some(&Lock::S);
            kept[1] |= !history.touched.contains_key(sheet);
        }
        self.met.kept[0] += kept[0] as u64;
        self.met.kept[1] += kept[1] as u64;
        let holds = |sheet: &&Sheet| sheet.queue.iter().any(|entry| entry.save == save);
        let mut nodes = state.sheets.iter().filter(holds).map(|sheet| sheet.owner);
        let first = nodes.next();
        self.met.nodes += nodes.any(|node| Some(node) != first) as u64;
    }

    fn note_take(&mut self, state: &Engine, node: usize, answer: Answer) -> Result<(), String> {
        let place = state.taken[node];
        let save = state.order[place];
        if self.histories.saves[save].place == Some(place) {
            self.count_checked(state, node, save, answer);
            return Ok(());
        }
        if answer != (Answer::Taken { save, verdict: Verdict::Valid }) {
            return Err(format!("former: node {node} answers {answer:?} at place {place}"));
        }
        let mut after = state.clone();
        after.taken[node] += 1;
        self.expect("former", after);
        let phases = [Phase::Submitted, Phase::SecondRun, Phase::Committed, Phase::Dropped];
        for (count, phase) in self.met.former.iter_mut().zip(phases) {
            *count += (state.saves[save].phase == phase) as u64;
        }
        let ahead = state.order[place..].iter().filter(|&&other| other == save).count();
        self.met.lagging += (ahead > 3) as u64;
        Ok(())
    }

    /// Counts the claimed sheets without a copy at a last place.
    fn count_checked(&mut self, state: &Engine, node: usize, save: usize, answer: Answer) {
        let Answer::Taken { verdict, .. } = answer else { return };
        let taken = &self.histories.saves[save];
        for (&number, _) in
            taken.claim.iter().filter(|(sheet, _)| !taken.touched.contains_key(sheet))
        {
            let sheet = &state.sheets[number];
            if sheet.owner != node || state.saves[save].phase != Phase::Submitted {
                continue;
            }
            match verdict {
                Verdict::Valid => self.met.without_copy[0] += (sheet.wct > 0) as u64,
                Verdict::Invalid(cause) => {
                    let by_x = cause.sheet == number && cause.rule != Rule::CounterBehind;
                    self.met.without_copy[1] += by_x as u64;
                }
            }
        }
    }

    fn note_decide(&mut self, state: &Engine, save: usize, answer: Answer) -> Result<(), String> {
        if !self.decidable(state, save) {
            return Err(format!("decide: {answer:?} of save {save} too early"));
        }
        let history = &self.histories.saves[save];
        let mut after = state.clone();
        let decided = &mut after.saves[save];
        if answer == Answer::Committed {
            let later = (history.runs > 1) as usize;
            self.met.commits[0] += (history.places > 1) as u64;
            self.commits[later] += 1;
            decided.phase = Phase::Committed;
            after.tally.first_run_commits += 1 - later as u32;
            after.tally.second_run_commits += later as u32;
        } else {
            self.met.again += (history.runs > 1) as u64;
            decided.copies.clear();
            decided.phase = Phase::SecondRun;
            decided.runs += 1;
        }
        self.expect("decide", after);
        Ok(())
    }

    /// Has every owner of a claimed sheet taken the last place, and is each entry granted?
    fn decidable(&self, state: &Engine, save: usize) -> bool {
        let history = &self.histories.saves[save];
        history.claim.iter().all(|(&number, &lock)| {
            let sheet = &state.sheets[number];
            let mut before = sheet.queue.iter().take_while(|entry| entry.save != save);
            let stands = sheet.queue.iter().any(|entry| entry.save == save);
            let granted = !before.any(|entry| lock == Lock::X || entry.lock == Lock::X);
            history.place.is_some_and(|place| place < state.taken[sheet.owner]) && stands && granted
        })
    }

    /// Holds the state to the step that has led to it.
    pub fn check_state(&mut self, state: &Engine, step: Option<&Step>) -> Result<(), String> {
        if let Some((clause, expected)) = self.expected.take() {
            if *state != expected {
                return Err(format!("{clause}: {state:?}, in place of {expected:?}"));
            }
        }
        let Some(step) = step else { return Ok(()) };
        if let Some(save) = step.command.save() {
            self.check_save(state, save)?;
        }
        if matches!(step.command, Command::Take { .. } | Command::Submit { .. }) {
            self.check_entries(state)?;
        }
        Ok(())
    }

    /// What the commands say of a save is what the state has.
    fn check_save(&self, state: &Engine, number: usize) -> Result<(), String> {
        let (save, history) = (&state.saves[number], &self.histories.saves[number]);
        let fits = [
            ("claim", save.claim == history.claim),
            ("runs", save.runs == history.runs),
            ("runs", history.runs as usize <= 2 * state.sheets.len() + 1),
            // Each place of a wide run has a larger claim than the one before it.
            ("places", history.places <= rank(&history.claim).max(1)),
            ("wide", save.wide() == history.wide()),
            ("outcome", (save.phase == Phase::Committed) == history.committed),
        ];
        match fits.iter().find(|(_, fits)| !fits) {
            Some((clause, _)) => Err(format!("{clause}: save {number} has {save:?}")),
            None => Ok(()),
        }
    }

    /// A save that is not over has entries exactly at its claimed sheets whose nodes have taken its last
    /// place, one at each; one that is over has no others.
    fn check_entries(&self, state: &Engine) -> Result<(), String> {
        for (number, sheet) in state.sheets.iter().enumerate() {
            let mut entries = [0; MOST_SAVES];
            for entry in &sheet.queue {
                let history = &self.histories.saves[entry.save];
                let taken = history.place.is_some_and(|place| place < state.taken[sheet.owner]);
                entries[entry.save] += 1;
                let claimed = history.claim.get(&number) == Some(&entry.lock);
                if !taken || !claimed || entries[entry.save] > 1 {
                    return Err(format!("entry: {entry:?} at sheet {number}"));
                }
            }
            for (save, history) in self.histories.saves.iter().enumerate() {
                let taken = history.place.is_some_and(|place| place < state.taken[sheet.owner]);
                let waits = matches!(state.saves[save].phase, Phase::Submitted | Phase::SecondRun);
                let due = taken && waits && history.claim.contains_key(&number);
                if due && entries[save] == 0 {
                    return Err(format!("entry: none of save {save} at sheet {number}"));
                }
            }
        }
        Ok(())
    }

    /// What holds at the end of a session, of which `run` is the run.
    fn check_end(&mut self, state: &Engine, run: &Session) -> Result<(), String> {
        for save in 0..MOST_SAVES {
            self.check_save(state, save)?;
        }
        let tally = [state.tally.first_run_commits, state.tally.second_run_commits];
        let committed = state.saves.iter().filter(|save| save.phase == Phase::Committed).count();
        if tally != self.commits || tally.iter().sum::<u32>() as usize != committed {
            return Err(format!("tally: {tally:?} for {committed} committed saves"));
        }
        self.count_depth();
        self.check_rows(state, run)
    }

    /// One row for each save with a place, by last place, with all runs entered.
    fn check_rows(&self, state: &Engine, run: &Session) -> Result<(), String> {
        let saves = &self.histories.saves;
        let mut rows: Vec<(usize, usize)> = (0..MOST_SAVES)
            .filter_map(|save| saves[save].place.map(|place| (place, save)))
            .collect();
        rows.sort();
        let rows: Vec<String> = rows
            .iter()
            .map(|&(_, save)| {
                let outcome = match state.saves[save].phase {
                    Phase::Committed => "C",
                    Phase::Dropped => "D",
                    _ => "U",
                };
                format!("P {save} {} {outcome}", saves[save].runs)
            })
            .collect();
        let report = String::from_utf8(report(run)).expect("figures and letters");
        let lines: Vec<&str> = report.lines().filter(|line| line.starts_with('P')).collect();
        match lines == rows && state.order.len() == self.histories.places {
            true => Ok(()),
            false => Err(format!("rows: {lines:?}, in place of {rows:?}")),
        }
    }

    fn count_depth(&mut self) {
        for history in &self.histories.saves {
            self.met.deep[0] += (history.places >= 8) as u64;
            self.met.deep[1] += (history.runs >= 100) as u64;
            self.met.most_places = self.met.most_places.max(history.places);
            self.met.most_runs = self.met.most_runs.max(history.runs);
        }
        self.met.deep[2] += (self.histories.places > 256) as u64;
        self.met.longest_order = self.histories.places;
    }

    /// Nothing is refused with 8; a later run's READ never, its WRITE only without a copy; a DECIDE with
    /// 10 only where a node or an entry is wanting.
    fn check_refused(
        &self,
        state: &Engine,
        refused: Refused,
        command: Command,
    ) -> Result<(), String> {
        let later = refused.cell.is_some_and(|(_, phase)| phase == Phase::SecondRun);
        let right = match command {
            Command::Read { .. } => !later,
            Command::Write { save, sheet, .. } if later => {
                refused.number == 7 && !self.histories.saves[save].touched.contains_key(&sheet)
            }
            Command::Decide { save } => refused.number != 10 || !self.decidable(state, save),
            _ => true,
        };
        match right && refused.number != 8 {
            true => Ok(()),
            false => Err(format!("refused: {command:?} with {}", refused.number)),
        }
    }
}

impl Default for Watch {
    fn default() -> Watch {
        Watch::new()
    }
}

fn is_x(entry: &Entry) -> bool {
    entry.lock == Lock::X
}

fn with_place(mut state: Engine, save: usize) -> Engine {
    state.saves[save].phase = Phase::Submitted;
    state.order.push(save);
    state
}

/// Sheet by sheet the larger of the two.
fn joined(one: &BTreeMap<usize, Lock>, two: &BTreeMap<usize, Lock>) -> BTreeMap<usize, Lock> {
    let sheets = one.keys().chain(two.keys());
    let larger = |&sheet: &usize| one.get(&sheet).max(two.get(&sheet)).copied();
    sheets.filter_map(|sheet| larger(sheet).map(|lock| (*sheet, lock))).collect()
}

/// 1 for each S and 2 for each X.
fn rank(claim: &BTreeMap<usize, Lock>) -> usize {
    claim.values().map(|&lock| 1 + (lock == Lock::X) as usize).sum()
}

/// Checks each state of a session, of which `run` is the run.
pub fn check(bytes: &[u8], run: &Session) -> Result<Met, String> {
    let Some((header, end)) = &run.started else { return Ok(Met::default()) };
    let mut watch = Watch::new();
    let mut steps = run.steps.iter();
    let mut last = None;
    let mut checked = Ok(());
    Session::run_watched(bytes, |_, state| {
        if checked.is_ok() {
            checked = watch.check_state(state, last);
        }
        last = steps.next();
        if let (Ok(()), Some(step)) = (&checked, last) {
            checked = watch.note(state, step);
        }
    });
    checked?;
    watch.check_end(end, run)?;
    if let Some(refused) = run.refused {
        // One that could not be read has a number below 5.
        if let Ok((command, _)) = read_command(header, &bytes[refused.offset..]) {
            watch.check_refused(end, refused, command)?;
        }
    }
    Ok(watch.met)
}
