//! A whole session: it runs to its end or to its first refusal.

use crate::command::{read_command, read_header, Command, Header};
use crate::engine::{Answer, Cause, Engine, Phase, Rule, Verdict};

/// A command's byte with the phase of its save when it came: a cell of the exam desk's table.
pub type Cell = (u8, Phase);

#[derive(Clone, Copy, Debug, PartialEq, Eq)]
pub struct Refused {
    pub offset: usize,
    pub number: u8,
    /// How many bytes of the session, from `offset`, hold the refused command.
    pub shown: usize,
    /// Nothing where the command could not be read, and for TAKE.
    pub cell: Option<Cell>,
}

/// An accepted command with its answer, and where the session goes on after it.
#[derive(Clone, Copy, Debug, PartialEq, Eq)]
pub struct Step {
    pub command: Command,
    pub answer: Answer,
    pub end: usize,
    /// Nothing for TAKE.
    pub cell: Option<Cell>,
}

#[derive(Clone, Debug)]
pub struct Session {
    /// The length of the session in bytes.
    pub length: usize,
    /// The header and the state after the accepted commands; nothing after refusal 1.
    pub started: Option<(Header, Engine)>,
    pub steps: Vec<Step>,
    pub refused: Option<Refused>,
}

impl Session {
    pub fn run(bytes: &[u8]) -> Session {
        Session::run_watched(bytes, |_, _| {})
    }

    /// Runs the session and shows the state at the start and after each accepted command.
    pub fn run_watched(bytes: &[u8], mut watch: impl FnMut(&Header, &Engine)) -> Session {
        let mut session =
            Session { length: bytes.len(), started: None, steps: Vec::new(), refused: None };
        let Some(header) = read_header(bytes) else {
            session.refused = Some(Refused { offset: 0, number: 1, shown: 0, cell: None });
            return session;
        };
        let mut engine = Engine::new(&header);
        watch(&header, &engine);
        let mut offset = 2 + header.sheets();
        while offset < bytes.len() {
            let (command, length) = match read_command(&header, &bytes[offset..]) {
                Ok(read) => read,
                Err(bad) => {
                    session.refused =
                        Some(Refused { offset, number: bad.number, shown: bad.shown, cell: None });
                    break;
                }
            };
            let cell = command.save().map(|save| (bytes[offset], engine.saves[save].phase));
            match engine.step(command) {
                Ok(answer) => {
                    offset += length;
                    session.steps.push(Step { command, answer, end: offset, cell });
                    watch(&header, &engine);
                }
                Err(number) => {
                    session.refused = Some(Refused { offset, number, shown: length, cell });
                    break;
                }
            }
        }
        session.started = Some((header, engine));
        session
    }

    /// The answer of the call, as kind * 2^48 + value * 2^8 + number.
    pub fn answer(&self) -> u64 {
        if let Some(refused) = self.refused {
            return coded(7, refused.offset as u64, refused.number);
        }
        match self.steps.last() {
            None => coded(0, 0, 0),
            Some(step) => coded_answer(step.answer),
        }
    }

    /// The part of the session that is shown: where it starts, and its size.
    pub fn shown(&self) -> (usize, usize) {
        match self.refused {
            Some(refused) => (refused.offset, refused.shown),
            None => (self.length, 0),
        }
    }
}

/// The answer of an accepted command. A save found invalid has the sheet of its cause before it in the
/// value, as sheet * 2^16 + save, and the rule as the number.
pub fn coded_answer(answer: Answer) -> u64 {
    match answer {
        Answer::Accepted => coded(1, 0, 0),
        Answer::Content(content) => coded(2, content as u64, 0),
        Answer::Taken { save, verdict: Verdict::Valid } => coded(3, save as u64, 0),
        Answer::Taken { save, verdict: Verdict::Invalid(Cause { sheet, rule }) } => {
            coded(4, ((sheet as u64) << 16) + save as u64, rule_number(rule))
        }
        Answer::Committed => coded(5, 0, 0),
        Answer::SecondRun => coded(6, 0, 0),
    }
}

fn rule_number(rule: Rule) -> u8 {
    match rule {
        Rule::XGranted => 1,
        Rule::XWaiting => 2,
        Rule::CounterBehind => 3,
    }
}

pub fn coded(kind: u64, value: u64, number: u8) -> u64 {
    (kind << 48) + (value << 8) + number as u64
}
