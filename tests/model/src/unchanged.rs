//! Saves that saved nothing: a content that is stored again is no modification. So a sheet's WCT counts how
//! often its content changed, and a copy with the sheet's own WCT was read from the content that is there;
//! where an APPLY stores, that is what the save's last run has read; but an X stands wherever there was a
//! WRITE, whatever it wrote, in a run that joined the claim.

use crate::command::{Command, Header, MOST_SAVES};
use crate::engine::{Answer, Cause, Engine, Entry, Lock, Phase, Rule, Sheet, Verdict};
use crate::session::{Session, Step};
use std::collections::{BTreeMap, BTreeSet};

/// How often the words had something to say.
#[derive(Clone, Copy, Debug, Default, PartialEq, Eq)]
pub struct Met {
    /// Contents stored that were there already.
    pub same: u64,
    /// Readers from before such a store whom a TAKE then did not fail at that sheet.
    pub passed: u64,
    /// Readers of a content that went away and came back, whom the counter then failed.
    pub came_back: u64,
    /// Saves that nothing failed at their cause's sheet but the X of a committed save that stores the content
    /// there.
    pub failed_by_x: u64,
}

impl Met {
    pub fn add(&mut self, other: Met) {
        self.same += other.same;
        self.passed += other.passed;
        self.came_back += other.came_back;
        self.failed_by_x += other.failed_by_x;
    }

    pub fn counts(&self) -> [u64; 4] {
        [self.same, self.passed, self.came_back, self.failed_by_x]
    }
}

/// The first READ of a sheet in the present run of a save.
struct Reading {
    answered: u32,
    /// Was the content that is there stored again since?
    stored_again: bool,
}

/// What the steps of a session have done up to a state, told without its counters; which contents an APPLY
/// stores is the state's own word.
pub struct Watch {
    contents: Vec<u32>,
    /// After how many steps each sheet's content was another than before.
    changes: Vec<u32>,
    /// By save and sheet.
    readings: Vec<BTreeMap<usize, Reading>>,
    /// The sheets that each save has written in its present run; in its runs that a SUBMIT has ended. Of
    /// these the last is one that joined the claim, or wrote nothing that the claim did not have as X.
    writing: Vec<BTreeSet<usize>>,
    written: Vec<BTreeSet<usize>>,
    pub met: Met,
}

impl Watch {
    pub fn new(header: &Header) -> Watch {
        Watch {
            contents: vec![0; header.sheets()],
            changes: vec![0; header.sheets()],
            readings: (0..MOST_SAVES).map(|_| BTreeMap::new()).collect(),
            writing: vec![BTreeSet::new(); MOST_SAVES],
            written: vec![BTreeSet::new(); MOST_SAVES],
            met: Met::default(),
        }
    }

    /// Checks the state that the steps have led to.
    pub fn check_state(&mut self, state: &Engine) -> Result<(), String> {
        for (number, sheet) in state.sheets.iter().enumerate() {
            self.changes[number] += (sheet.content != self.contents[number]) as u32;
            self.contents[number] = sheet.content;
            self.check_sheet(number, sheet)?;
        }
        for save in 0..MOST_SAVES {
            self.check_reader(state, save)?;
        }
        Ok(())
    }

    fn check_sheet(&self, number: usize, sheet: &Sheet) -> Result<(), String> {
        let changes = self.changes[number];
        if sheet.wct != changes {
            return Err(format!("count: sheet {number} has {} for {changes} changes", sheet.wct));
        }
        let wrong = |entry: &&_| is_x(entry) != self.written[entry.save].contains(&number);
        match sheet.queue.iter().find(wrong) {
            Some(entry) => Err(format!("entry: {entry:?} at sheet {number}")),
            None => Ok(()),
        }
    }

    /// No copy has seen more than the sheet's WCT, and one that has seen as much is as good as a new one.
    fn check_reader(&self, state: &Engine, save: usize) -> Result<(), String> {
        for (number, copy) in &state.saves[save].copies {
            let sheet = &state.sheets[*number];
            let (seen, wct, content) = (copy.wct_seen, sheet.wct, sheet.content);
            let answered = self.readings[save].get(number).map(|reading| reading.answered);
            if seen > wct {
                return Err(format!("ahead: save {save} has seen {seen} of {wct} at {number}"));
            }
            if seen == wct && answered != Some(content) {
                return Err(format!(
                    "reader: save {save} has read {answered:?} at {number}, where {content} stands"
                ));
            }
        }
        Ok(())
    }

    /// Takes note of the step that is accepted next in this state.
    fn note(&mut self, state: &Engine, step: &Step) -> Result<(), String> {
        match (step.command, step.answer) {
            (Command::Begin { save }, _) | (Command::Decide { save }, Answer::SecondRun) => {
                self.readings[save].clear();
                self.writing[save].clear();
            }
            (Command::Read { save, sheet }, Answer::Content(answered)) => {
                let first = Reading { answered, stored_again: false };
                self.readings[save].entry(sheet).or_insert(first);
            }
            (Command::Write { save, sheet, .. }, _) => {
                self.writing[save].insert(sheet);
            }
            (Command::Submit { save }, _) => self.written[save].extend(&self.writing[save]),
            (Command::Apply { node, save }, _) => self.note_apply(state, node, save)?,
            (Command::Take { node }, Answer::Taken { save, verdict }) => {
                self.note_take(state, node, save, verdict);
            }
            _ => {}
        }
        Ok(())
    }

    fn note_apply(&mut self, state: &Engine, node: usize, save: usize) -> Result<(), String> {
        for (number, sheet) in state.sheets.iter().enumerate() {
            let Some(content) = stored(state, save, number) else { continue };
            if sheet.owner != node {
                continue;
            }
            let read = self.readings[save].get(&number).map(|reading| reading.answered);
            let there = sheet.content;
            if read != Some(there) {
                return Err(format!("over: save {save} has read {read:?} at {number} for {there}"));
            }
            if content == there {
                self.met.same += 1;
                for reading in self.readings.iter_mut().filter_map(|own| own.get_mut(&number)) {
                    reading.stored_again = true;
                }
            }
        }
        Ok(())
    }

    fn note_take(&mut self, state: &Engine, node: usize, save: usize, verdict: Verdict) {
        let failed = match verdict {
            Verdict::Valid => None,
            Verdict::Invalid(cause) => Some(cause),
        };
        let checked = !state.former(state.taken[node]);
        for (&number, reading) in &self.readings[save] {
            // The cause is the first: below its sheet there is none.
            let valid = failed.is_none_or(|cause| number < cause.sheet);
            let here = checked && state.sheets[number].owner == node;
            let claimed = state.saves[save].claim.contains_key(&number);
            self.met.passed += (here && claimed && valid && reading.stored_again) as u64;
        }
        let Some(Cause { sheet, rule }) = failed else { return };
        if rule == Rule::CounterBehind {
            let answered = self.readings[save].get(&sheet).map(|reading| reading.answered);
            self.met.came_back += (answered == Some(state.sheets[sheet].content)) as u64;
        } else {
            let mut x = state.sheets[sheet].queue.iter().filter(is_x);
            let only = x.next().filter(|_| x.next().is_none());
            let there = state.sheets[sheet].content;
            let saves_nothing = only.is_some_and(|x| stored(state, x.save, sheet) == Some(there));
            let copy = state.saves[save].copies.get(&sheet);
            let behind = copy.is_some_and(|copy| copy.wct_seen < state.sheets[sheet].wct);
            self.met.failed_by_x += (saves_nothing && !behind) as u64;
        }
    }
}

fn is_x(entry: &&Entry) -> bool {
    entry.lock == Lock::X
}

/// What a save that is committed has to store to the sheet.
fn stored(state: &Engine, save: usize, sheet: usize) -> Option<u32> {
    let save = &state.saves[save];
    let copy = save.copies.get(&sheet).filter(|copy| copy.written);
    copy.filter(|_| save.phase == Phase::Committed).map(|copy| copy.content)
}

/// Checks each state of a session, of which `run` is the run.
pub fn check(bytes: &[u8], run: &Session) -> Result<Met, String> {
    let Some((header, _)) = &run.started else { return Ok(Met::default()) };
    let mut watch = Watch::new(header);
    let mut steps = run.steps.iter();
    let mut checked = Ok(());
    Session::run_watched(bytes, |_, state| {
        if checked.is_ok() {
            checked = watch.check_state(state);
        }
        if let (Ok(()), Some(step)) = (&checked, steps.next()) {
            checked = watch.note(state, step);
        }
    });
    checked.map(|()| watch.met)
}
