//! The state after a session's accepted commands, as text: a line for each thing that it has.

use crate::engine::{Copy, Engine, Lock, Phase, Save, Sheet};
use crate::report;
use crate::session::Session;
use std::collections::{BTreeMap, BTreeSet};

/// No state's text is longer.
pub const MOST_BYTES: usize = 524_288;

/// Nothing where the session earns refusal 1. A refused command has changed nothing.
pub fn text(session: &Session) -> Option<String> {
    session.started.as_ref().map(|(_, engine)| of_state(engine))
}

pub fn of_state(engine: &Engine) -> String {
    let last = last_places(engine);
    let has_begun = |(_, save): &(usize, &Save)| save.phase != Phase::Unused;
    let begun = || engine.saves.iter().enumerate().filter(has_begun);
    let mut text = report::lines(engine);
    for (number, save) in begun() {
        text += &save_line(number, save, last.get(&number));
    }
    for (place, save) in engine.order.iter().enumerate() {
        let x = if last[save] == place { 'L' } else { 'F' };
        text += &format!("L {place} {save} {x}\n");
    }
    for (node, taken) in engine.taken.iter().enumerate() {
        text += &format!("N {node} {taken}\n");
    }
    for (number, save) in begun() {
        text += &copy_lines(number, save, &engine.sheets);
    }
    for (number, sheet) in engine.sheets.iter().enumerate() {
        text += &queue_lines(number, sheet);
    }
    text
}

/// The last place of each save that has one.
fn last_places(engine: &Engine) -> BTreeMap<usize, usize> {
    // A later place of the same save takes the place of an earlier one.
    engine.order.iter().enumerate().map(|(place, &save)| (save, place)).collect()
}

fn mark(set: bool, letter: char) -> char {
    if set {
        letter
    } else {
        '-'
    }
}

fn phase_letter(phase: Phase) -> char {
    match phase {
        Phase::Unused => '-',
        Phase::FirstRun => 'F',
        Phase::Submitted => 'S',
        Phase::SecondRun => 'L',
        Phase::Committed => 'C',
        Phase::Dropped => 'D',
    }
}

fn lock_letter(lock: Lock) -> char {
    match lock {
        Lock::S => 'S',
        Lock::X => 'X',
    }
}

/// `S t p r f w q`.
fn save_line(number: usize, save: &Save, last: Option<&usize>) -> String {
    let phase = phase_letter(save.phase);
    let (failed, wide) = (mark(save.failed, 'F'), mark(save.wide(), 'W'));
    let place = last.map_or("-".to_string(), |place| place.to_string());
    format!("S {number} {phase} {} {failed} {wide} {place}\n", save.runs)
}

/// `C t k c m` for each sheet that the save claims or has a copy of, with `v w b` behind it where it has one.
fn copy_lines(number: usize, save: &Save, sheets: &[Sheet]) -> String {
    let touched: BTreeSet<usize> = save.claim.keys().chain(save.copies.keys()).copied().collect();
    let line = |sheet: usize| {
        let claim = save.claim.get(&sheet).map_or('-', |&lock| lock_letter(lock));
        let copy = save.copies.get(&sheet).map_or("-".to_string(), |copy| {
            let behind = mark(copy.wct_seen < sheets[sheet].wct, 'B');
            format!("{} {behind}", copy_fields(copy))
        });
        format!("C {number} {sheet} {claim} {copy}\n")
    };
    touched.into_iter().map(line).collect()
}

fn copy_fields(copy: &Copy) -> String {
    let letter = if copy.written { 'W' } else { 'R' };
    format!("{letter} {} {}", copy.content, copy.wct_seen)
}

/// `Q k t c g u ..` for each entry, from the front.
fn queue_lines(number: usize, sheet: &Sheet) -> String {
    let line = |place: usize| {
        let entry = sheet.queue[place];
        let lock = lock_letter(entry.lock);
        let mut text = format!("Q {number} {} {lock} ", entry.save);
        if sheet.granted(place) {
            text.push('G');
        } else {
            text.push('W');
            text.extend(in_the_way(sheet, place).iter().map(|save| format!(" {save}")));
        }
        text + "\n"
    };
    (0..sheet.queue.len()).map(line).collect()
}

/// The saves that an entry waits for: an X for all before it, an S for the X among them.
fn in_the_way(sheet: &Sheet, place: usize) -> Vec<usize> {
    let own = sheet.queue[place].lock;
    let before = sheet.queue[..place].iter();
    before.filter(|entry| own == Lock::X || entry.lock == Lock::X).map(|entry| entry.save).collect()
}
