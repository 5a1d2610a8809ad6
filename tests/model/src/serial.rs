//! The serial run. It is fed a session's header, its accepted commands and DECIDE's answers, and
//! nothing else, so it says what the saves would have met one after the other.

use crate::command::{Command, Header, MOST_SAVES};
use crate::engine::Lock;
use std::collections::BTreeMap;

/// An accepted command as the serial run sees it.
#[derive(Clone, Copy, Debug, PartialEq, Eq)]
pub enum Fed {
    Command(Command),
    Decided { save: usize, committed: bool },
}

#[derive(Clone, Debug, PartialEq, Eq)]
pub struct Met {
    /// The place of the READ among the accepted commands.
    pub step: usize,
    pub content: u32,
}

#[derive(Clone, Debug, PartialEq, Eq)]
pub struct Serial {
    /// What each first READ of a sheet in the last run of a committed save meets.
    pub met: Vec<Met>,
    /// Content and WCT of every sheet at the end.
    pub store: Vec<(u32, u32)>,
    /// The committed saves, by last place.
    pub committed: Vec<usize>,
    /// How many runs each save has entered.
    pub runs: Vec<u32>,
    /// All places of the order, former ones too.
    pub places: usize,
    /// The saves that are in a wide run at the end.
    pub wide: usize,
}

/// What the fed commands say of one save.
#[derive(Clone, Default)]
pub struct History {
    /// The last place in the order, from 0, and how many places the save has had.
    pub place: Option<usize>,
    pub places: usize,
    pub claim: BTreeMap<usize, Lock>,
    /// The sheets touched in the present or last run; X where written.
    pub touched: BTreeMap<usize, Lock>,
    pub committed: bool,
    pub runs: u32,
    running: bool,
    /// The accepted READs and WRITEs since the last run was entered, with their places.
    last_run: Vec<(usize, Command)>,
}

impl History {
    fn enter_run(&mut self) {
        self.running = true;
        self.runs += 1;
        self.touched.clear();
        self.last_run.clear();
    }

    fn touch(&mut self, sheet: usize, lock: Lock) {
        let touched = self.touched.entry(sheet).or_insert(lock);
        *touched = lock.max(*touched);
    }

    /// Is the save in a later run that has touched more than its claim holds?
    pub fn wide(&self) -> bool {
        let more = |(sheet, lock)| self.claim.get(sheet) < Some(lock);
        self.running && self.runs > 1 && self.touched.iter().any(more)
    }

    /// A SUBMIT: the first and that of a wide run take the next place, any other commits.
    fn submit(&mut self, next: usize) {
        self.committed = self.runs > 1 && !self.wide();
        if !self.committed {
            for (&sheet, &lock) in &self.touched {
                let held = self.claim.entry(sheet).or_insert(lock);
                *held = lock.max(*held);
            }
            self.place = Some(next);
            self.places += 1;
        }
        self.running = false;
    }
}

/// What the fed commands say of all saves.
#[derive(Clone)]
pub struct Histories {
    pub saves: Vec<History>,
    /// All places of the order, former ones too.
    pub places: usize,
}

impl Histories {
    pub fn new() -> Histories {
        Histories { saves: vec![History::default(); MOST_SAVES], places: 0 }
    }

    /// Takes in the accepted command with this place among them.
    pub fn feed(&mut self, step: usize, fed: Fed) {
        match fed {
            Fed::Command(Command::Begin { save }) => self.saves[save].enter_run(),
            Fed::Command(command @ Command::Read { save, sheet }) => {
                self.saves[save].touch(sheet, Lock::S);
                self.saves[save].last_run.push((step, command));
            }
            Fed::Command(command @ Command::Write { save, sheet, .. }) => {
                self.saves[save].touch(sheet, Lock::X);
                self.saves[save].last_run.push((step, command));
            }
            Fed::Command(Command::Submit { save }) => {
                self.saves[save].submit(self.places);
                self.places += !self.saves[save].committed as usize;
            }
            Fed::Command(Command::GiveUp { save }) => self.saves[save].running = false,
            Fed::Decided { save, committed: true } => self.saves[save].committed = true,
            Fed::Decided { save, committed: false } => self.saves[save].enter_run(),
            Fed::Command(_) => {}
        }
    }
}

impl Default for Histories {
    fn default() -> Histories {
        Histories::new()
    }
}

pub fn serial_run(header: &Header, fed: &[Fed]) -> Serial {
    let mut histories = Histories::new();
    for (step, &fed) in fed.iter().enumerate() {
        histories.feed(step, fed);
    }
    let Histories { saves, places } = histories;
    let mut order: Vec<usize> = (0..MOST_SAVES).filter(|&save| saves[save].committed).collect();
    order.sort_by_key(|&save| saves[save].place);

    let mut store = vec![(0, 0); header.sheets()];
    let mut met = Vec::new();
    for &save in &order {
        let mut seen = vec![false; header.sheets()];
        let mut written = vec![None; header.sheets()];
        for &(step, command) in &saves[save].last_run {
            match command {
                Command::Read { sheet, .. } if !seen[sheet] => {
                    seen[sheet] = true;
                    met.push(Met { step, content: store[sheet].0 });
                }
                Command::Write { sheet, content, .. } => written[sheet] = Some(content),
                _ => {}
            }
        }
        for (sheet, content) in written.into_iter().enumerate() {
            if let Some(content) = content {
                let (there, wct) = store[sheet];
                store[sheet] = (content, wct + (content != there) as u32);
            }
        }
    }
    let runs = saves.iter().map(|save| save.runs).collect();
    let wide = saves.iter().filter(|save| save.wide()).count();
    Serial { met, store, committed: order, runs, places, wide }
}
