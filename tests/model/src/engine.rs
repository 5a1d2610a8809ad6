//! The step rules: what each command does to the nodes, the queues and the saves.

use crate::command::{Command, Header, MOST_SAVES};
use std::collections::BTreeMap;

#[derive(Clone, Copy, Debug, PartialEq, Eq, PartialOrd, Ord, Hash)]
pub enum Phase {
    Unused,
    FirstRun,
    Submitted,
    /// Any run after the first.
    SecondRun,
    Committed,
    Dropped,
}

impl Phase {
    pub const ALL: [Phase; 6] = [
        Phase::Unused,
        Phase::FirstRun,
        Phase::Submitted,
        Phase::SecondRun,
        Phase::Committed,
        Phase::Dropped,
    ];
}

/// S is shared, X exclusive; X is the larger.
#[derive(Clone, Copy, Debug, PartialEq, Eq, PartialOrd, Ord, Hash)]
pub enum Lock {
    S,
    X,
}

/// A save's own copy of a sheet, made in its current or last run.
#[derive(Clone, Copy, Debug, PartialEq, Eq, Hash)]
pub struct Copy {
    pub content: u32,
    pub wct_seen: u32,
    pub written: bool,
}

impl Copy {
    /// What the copy asks of a claim.
    pub fn lock(&self) -> Lock {
        if self.written {
            Lock::X
        } else {
            Lock::S
        }
    }
}

#[derive(Clone, Debug, PartialEq, Eq, Hash)]
pub struct Save {
    pub phase: Phase,
    pub runs: u32,
    pub copies: BTreeMap<usize, Copy>,
    pub claim: BTreeMap<usize, Lock>,
    pub failed: bool,
}

impl Save {
    /// Does some copy exceed the claim? In a later run this is a sheet outside the claim that was touched, or
    /// one that is only S and was written.
    fn exceeds_claim(&self) -> bool {
        self.copies.iter().any(|(sheet, copy)| self.claim.get(sheet) < Some(&copy.lock()))
    }

    /// Is the save in a later run that is wide?
    pub fn wide(&self) -> bool {
        self.phase == Phase::SecondRun && self.exceeds_claim()
    }

    /// Each sheet's new claim is the larger of claim and copy.
    fn join_copies(&mut self) {
        for (&sheet, copy) in &self.copies {
            let lock = self.claim.entry(sheet).or_insert(Lock::S);
            *lock = copy.lock().max(*lock);
        }
    }
}

#[derive(Clone, Copy, Debug, PartialEq, Eq, Hash)]
pub struct Entry {
    pub save: usize,
    pub lock: Lock,
}

#[derive(Clone, Debug, PartialEq, Eq, Hash)]
pub struct Sheet {
    pub owner: usize,
    pub content: u32,
    pub wct: u32,
    pub queue: Vec<Entry>,
}

impl Sheet {
    /// An S is granted when no X stands before it, an X when it stands first.
    pub fn granted(&self, place: usize) -> bool {
        match self.queue[place].lock {
            Lock::S => self.queue[..place].iter().all(|entry| entry.lock == Lock::S),
            Lock::X => place == 0,
        }
    }

    /// The first rule by which the sheet fails a save with this copy, or with none: an X comes before the
    /// counter, which is compared with a copy only.
    fn fails(&self, copy: Option<&Copy>) -> Option<Rule> {
        let is_x = |entry: &Entry| entry.lock == Lock::X;
        if self.queue.first().is_some_and(is_x) {
            Some(Rule::XGranted)
        } else if self.queue.iter().any(is_x) {
            Some(Rule::XWaiting)
        } else if copy.is_some_and(|copy| copy.wct_seen < self.wct) {
            Some(Rule::CounterBehind)
        } else {
            None
        }
    }
}

/// What fails a save at a sheet, in the order in which the rules count there.
#[derive(Clone, Copy, Debug, PartialEq, Eq, PartialOrd, Ord, Hash)]
pub enum Rule {
    XGranted,
    XWaiting,
    CounterBehind,
}

impl Rule {
    pub const ALL: [Rule; 3] = [Rule::XGranted, Rule::XWaiting, Rule::CounterBehind];
}

/// Where a save failed, and by which rule.
#[derive(Clone, Copy, Debug, PartialEq, Eq, PartialOrd, Ord, Hash)]
pub struct Cause {
    pub sheet: usize,
    pub rule: Rule,
}

/// What one node found of a save; an invalid one has the first cause that the node met.
#[derive(Clone, Copy, Debug, PartialEq, Eq, Hash)]
pub enum Verdict {
    Valid,
    Invalid(Cause),
}

#[derive(Clone, Copy, Debug, Default, PartialEq, Eq, Hash)]
pub struct Tally {
    pub accepted: u32,
    pub first_run_commits: u32,
    pub second_run_commits: u32,
}

/// The answer of an accepted command.
#[derive(Clone, Copy, Debug, PartialEq, Eq, Hash)]
pub enum Answer {
    Accepted,
    Content(u32),
    Taken { save: usize, verdict: Verdict },
    Committed,
    SecondRun,
}

#[derive(Clone, Debug, PartialEq, Eq, Hash)]
pub struct Engine {
    pub sheets: Vec<Sheet>,
    pub saves: Vec<Save>,
    /// The places: the save of each first-run SUBMIT and of each SUBMIT of a wide run. The last place of a
    /// save is the one that counts, the others are former ones.
    pub order: Vec<usize>,
    /// For each node, how many places of the order it has taken.
    pub taken: Vec<usize>,
    pub tally: Tally,
}

impl Engine {
    pub fn new(header: &Header) -> Engine {
        let sheet = |&owner: &usize| Sheet { owner, content: 0, wct: 0, queue: Vec::new() };
        let unused = Save {
            phase: Phase::Unused,
            runs: 0,
            copies: BTreeMap::new(),
            claim: BTreeMap::new(),
            failed: false,
        };
        Engine {
            sheets: header.owner.iter().map(sheet).collect(),
            saves: vec![unused; MOST_SAVES],
            order: Vec::new(),
            taken: vec![0; header.nodes],
            tally: Tally::default(),
        }
    }

    /// Carries the command out, or refuses it with its number and changes nothing.
    pub fn step(&mut self, command: Command) -> Result<Answer, u8> {
        if let Some(number) = self.refusal(command) {
            return Err(number);
        }
        let answer = self.carry_out(command);
        self.tally.accepted += 1;
        Ok(answer)
    }

    /// The number that the command, well formed and in range, is refused with: 5, 6, 7, 9, 10, 11, 13 or 14.
    /// Nothing gives 8 any more.
    pub fn refusal(&self, command: Command) -> Option<u8> {
        if let Some(number) = self.refusal_of_phase(command) {
            return Some(number);
        }
        match command {
            Command::Read { save, sheet } => self.refusal_of_read(save, sheet),
            Command::Write { save, sheet, .. } => self.refusal_of_write(save, sheet),
            Command::Take { node } if self.taken[node] == self.order.len() => Some(9),
            Command::Decide { save } if !self.decidable(save) => Some(10),
            Command::Apply { node, save } if !self.has_entry_at(save, node) => Some(11),
            _ => None,
        }
    }

    /// 13 for any command but BEGIN on an unused save, 14 for any command but APPLY on a committed
    /// or dropped one; then 5, which is so kept for a save begun and not over.
    fn refusal_of_phase(&self, command: Command) -> Option<u8> {
        let begins = matches!(command, Command::Begin { .. });
        let applies = matches!(command, Command::Apply { .. });
        match command.save().map(|save| self.saves[save].phase) {
            Some(Phase::Unused) if !begins => Some(13),
            Some(Phase::Committed | Phase::Dropped) if !applies => Some(14),
            _ if !self.phase_allows(command) => Some(5),
            _ => None,
        }
    }

    fn phase_allows(&self, command: Command) -> bool {
        let phase = |save: usize| self.saves[save].phase;
        match command {
            Command::Begin { save } => phase(save) == Phase::Unused,
            Command::Read { save, .. }
            | Command::Write { save, .. }
            | Command::Submit { save }
            | Command::GiveUp { save } => {
                matches!(phase(save), Phase::FirstRun | Phase::SecondRun)
            }
            Command::Take { .. } => true,
            Command::Decide { save } => phase(save) == Phase::Submitted,
            Command::Apply { save, .. } => {
                matches!(phase(save), Phase::Committed | Phase::Dropped)
            }
        }
    }

    /// An X holds first-run READs only.
    fn refusal_of_read(&self, save: usize, sheet: usize) -> Option<u8> {
        let reader = &self.saves[save];
        let own = reader.copies.contains_key(&sheet);
        match self.sheets[sheet].queue.first() {
            Some(Entry { lock: Lock::X, .. }) if reader.phase == Phase::FirstRun && !own => Some(6),
            _ => None,
        }
    }

    fn refusal_of_write(&self, save: usize, sheet: usize) -> Option<u8> {
        let own = self.saves[save].copies.contains_key(&sheet);
        (!own).then_some(7)
    }

    /// Is the place not its save's last?
    pub fn former(&self, place: usize) -> bool {
        self.order[place + 1..].contains(&self.order[place])
    }

    /// The last place taken by every node that owns a claimed sheet, and all entries granted.
    fn decidable(&self, save: usize) -> bool {
        let place = self.order.iter().rposition(|&other| other == save);
        let place = place.expect("a submitted save has a place in the order");
        let taken_at = |sheet: usize| self.taken[self.sheets[sheet].owner] > place;
        let granted_at = |sheet: usize| {
            let sheet = &self.sheets[sheet];
            let entry = sheet.queue.iter().position(|entry| entry.save == save);
            entry.is_some_and(|entry| sheet.granted(entry))
        };
        self.saves[save].claim.keys().all(|&sheet| taken_at(sheet) && granted_at(sheet))
    }

    fn has_entry_at(&self, save: usize, node: usize) -> bool {
        self.sheets
            .iter()
            .any(|sheet| sheet.owner == node && sheet.queue.iter().any(|entry| entry.save == save))
    }

    fn carry_out(&mut self, command: Command) -> Answer {
        match command {
            Command::Begin { save } => {
                self.saves[save].phase = Phase::FirstRun;
                self.saves[save].runs = 1;
                Answer::Accepted
            }
            Command::Read { save, sheet } => {
                let owners = &self.sheets[sheet];
                let fresh = Copy { content: owners.content, wct_seen: owners.wct, written: false };
                let own = self.saves[save].copies.entry(sheet).or_insert(fresh);
                Answer::Content(own.content)
            }
            Command::Write { save, sheet, content } => {
                let own = self.saves[save].copies.get_mut(&sheet).expect("WRITE needs a copy");
                own.content = content;
                own.written = true;
                Answer::Accepted
            }
            Command::Submit { save } => {
                if self.saves[save].phase == Phase::FirstRun {
                    self.take_place(save);
                } else if self.saves[save].wide() {
                    self.withdraw(save);
                    self.take_place(save);
                } else {
                    self.commit(save);
                }
                Answer::Accepted
            }
            Command::Take { node } => self.take(node),
            Command::Decide { save } => {
                let decided = &mut self.saves[save];
                if decided.failed {
                    decided.copies.clear();
                    decided.phase = Phase::SecondRun;
                    decided.runs += 1;
                    Answer::SecondRun
                } else {
                    self.commit(save);
                    Answer::Committed
                }
            }
            Command::Apply { node, save } => {
                self.apply(node, save);
                Answer::Accepted
            }
            Command::GiveUp { save } => {
                self.saves[save].phase = Phase::Dropped;
                Answer::Accepted
            }
        }
    }

    /// Joins the end of the order, with a claim for all copies.
    fn take_place(&mut self, save: usize) {
        let submitted = &mut self.saves[save];
        submitted.join_copies();
        submitted.phase = Phase::Submitted;
        self.order.push(save);
    }

    /// Takes back what the nodes did at the save's last place, which is a former one now.
    fn withdraw(&mut self, save: usize) {
        for sheet in &mut self.sheets {
            sheet.queue.retain(|entry| entry.save != save);
        }
        self.saves[save].failed = false;
    }

    fn commit(&mut self, save: usize) {
        let committed = &mut self.saves[save];
        committed.phase = Phase::Committed;
        if committed.runs == 1 {
            self.tally.first_run_commits += 1;
        } else {
            self.tally.second_run_commits += 1;
        }
    }

    fn take(&mut self, node: usize) -> Answer {
        let place = self.taken[node];
        let save = self.order[place];
        self.taken[node] += 1;
        if self.former(place) {
            return Answer::Taken { save, verdict: Verdict::Valid };
        }
        let taken = &mut self.saves[save];
        let mut verdict = Verdict::Valid;
        // Every claimed sheet gets its entry, also after a failing one: the second run needs it.
        for (&number, &lock) in &taken.claim {
            let sheet = &mut self.sheets[number];
            if sheet.owner != node {
                continue;
            }
            let fails = sheet.fails(taken.copies.get(&number));
            if let (Verdict::Valid, Some(rule)) = (verdict, fails) {
                verdict = Verdict::Invalid(Cause { sheet: number, rule });
            }
            sheet.queue.push(Entry { save, lock });
        }
        taken.failed |= verdict != Verdict::Valid;
        Answer::Taken { save, verdict }
    }

    fn apply(&mut self, node: usize, save: usize) {
        let outcome = &self.saves[save];
        for (number, sheet) in self.sheets.iter_mut().enumerate() {
            if sheet.owner != node {
                continue;
            }
            if outcome.phase == Phase::Committed {
                if let Some(copy) = outcome.copies.get(&number).filter(|copy| copy.written) {
                    // A content that is stored again is no modification.
                    sheet.wct += (copy.content != sheet.content) as u32;
                    sheet.content = copy.content;
                }
            }
            sheet.queue.retain(|entry| entry.save != save);
        }
    }
}
