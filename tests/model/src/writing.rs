//! Writing a session from a header and a list of steps, and reading them back from a session.

use crate::command::{in_range, read_command, read_header, Command, Header, MOST_BYTES};
use crate::session::coded;

/// A step is so many words: the command's number, then its operands in the order of its bytes. A
/// word that the command has no operand for is 0.
pub const STEP_WORDS: usize = 4;

/// A header and the words of a list of steps as they are handed over, good or bad.
#[derive(Clone, Debug, PartialEq, Eq)]
pub struct List {
    pub nodes: usize,
    pub sheets: usize,
    pub owners: Vec<u8>,
    pub words: Vec<u32>,
}

/// A refused writing or reading. The place is a step's number or a command's offset where one of
/// them earns the refusal, the number of steps or bytes where these are too many, and else 0.
#[derive(Clone, Copy, Debug, PartialEq, Eq)]
pub struct Refusal {
    pub number: u8,
    pub place: usize,
}

impl Refusal {
    /// As an answer; a place that 32 bits do not hold is told as their largest number.
    pub fn coded(self) -> u64 {
        coded(7, u32::try_from(self.place).unwrap_or(u32::MAX).into(), self.number)
    }
}

fn refused<T>(number: u8, place: usize) -> Result<T, Refusal> {
    Err(Refusal { number, place })
}

/// The words of a step.
pub fn words(command: Command) -> [u32; STEP_WORDS] {
    let (number, one, two, content) = match command {
        Command::Begin { save } => (1, save, 0, 0),
        Command::Read { save, sheet } => (2, save, sheet, 0),
        Command::Write { save, sheet, content } => (3, save, sheet, content),
        Command::Submit { save } => (4, save, 0, 0),
        Command::Take { node } => (5, node, 0, 0),
        Command::Decide { save } => (6, save, 0, 0),
        Command::Apply { node, save } => (7, node, save, 0),
        Command::GiveUp { save } => (8, save, 0, 0),
    };
    [number, one as u32, two as u32, content]
}

/// The command of a step, or the refusal that the step earns; it may be cut short, but has a word.
fn command(header: &Header, step: &[u32]) -> Result<Command, u8> {
    if !(1..=8).contains(&step[0]) {
        return Err(2);
    }
    let &[number, one, two, content] = step else { return Err(4) };
    let (one, two) = (one as usize, two as usize);
    let command = match number {
        1 => Command::Begin { save: one },
        2 => Command::Read { save: one, sheet: two },
        3 => Command::Write { save: one, sheet: two, content },
        4 => Command::Submit { save: one },
        5 => Command::Take { node: one },
        6 => Command::Decide { save: one },
        7 => Command::Apply { node: one, save: two },
        _ => Command::GiveUp { save: one },
    };
    // The command's own words have 0 where it has no operand, so another number there is seen.
    if words(command) != step || !in_range(header, command) {
        return Err(4);
    }
    Ok(command)
}

/// The session of a list, for a buffer of `room` bytes.
pub fn write(list: &List, room: usize) -> Result<Vec<u8>, Refusal> {
    let Some(header) = Header::new(list.nodes, list.sheets, &list.owners) else {
        return refused(1, 0);
    };
    let mut session = header.bytes();
    let steps = list.words.chunks(STEP_WORDS);
    let count = steps.len();
    for (place, step) in steps.enumerate() {
        match command(&header, step) {
            Ok(command) => session.extend(command.bytes()),
            Err(number) => return refused(number, place),
        }
    }
    if session.len() > MOST_BYTES {
        return refused(1, count);
    }
    if session.len() > room {
        return refused(15, session.len());
    }
    Ok(session)
}

/// The header and all steps of a session, past any stop of the engine, for a room of so many words.
pub fn read(session: &[u8], room: usize) -> Result<(Header, Vec<Command>), Refusal> {
    let Some(header) = read_header(session) else {
        return refused(1, 0);
    };
    let mut steps = Vec::new();
    let mut offset = 2 + header.sheets();
    while offset < session.len() {
        match read_command(&header, &session[offset..]) {
            Ok((command, length)) => {
                steps.push(command);
                offset += length;
            }
            Err(bad) => return refused(bad.number, offset),
        }
    }
    if STEP_WORDS * steps.len() > room {
        return refused(15, steps.len());
    }
    Ok((header, steps))
}

/// What the call makes of a buffer: the answer, with the session at the buffer's front.
pub fn write_session(list: &List, buffer: &mut [u8]) -> u64 {
    match write(list, buffer.len()) {
        Ok(session) => {
            buffer[..session.len()].copy_from_slice(&session);
            coded(8, session.len() as u64, 0)
        }
        Err(refusal) => refusal.coded(),
    }
}

/// What the call makes of the words lent: the answer, with the steps' words at the front.
pub fn read_session(session: &[u8], lent: &mut [u32]) -> u64 {
    match read(session, lent.len()) {
        Ok((header, steps)) => {
            for (step, &command) in lent.chunks_exact_mut(STEP_WORDS).zip(&steps) {
                step.copy_from_slice(&words(command));
            }
            let (nodes, sheets) = (header.nodes as u64, header.sheets() as u64);
            coded(9, (nodes << 32) + (sheets << 16) + steps.len() as u64, 0)
        }
        Err(refusal) => refusal.coded(),
    }
}

/// The part of the session that holds the owners, as offset * 2^32 + size; 0 after refusal 1.
pub fn owners(session: &[u8]) -> u64 {
    read_header(session).map_or(0, |header| (2 << 32) + header.sheets() as u64)
}
