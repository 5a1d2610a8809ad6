//! Headers and lists of steps from a seed, to be written: good ones, and ones that came to harm.

use crate::command::{Header, MOST_BYTES, MOST_NODES, MOST_SAVES, MOST_SHEETS};
use crate::generate::{command_on, header};
use crate::prng::Prng;
use crate::writing::{words, List, STEP_WORDS};

pub fn list(prng: &mut Prng) -> List {
    let (nodes, sheets) = match prng.below(8) {
        0 => (MOST_NODES, MOST_SHEETS),
        1 => (1, 1),
        _ => (prng.between(1, MOST_NODES), prng.between(1, 12)),
    };
    let header = header(prng, nodes, sheets);
    let owners = header.owner.iter().map(|&node| node as u8).collect();
    let mut list = List { nodes, sheets, owners, words: steps(prng, &header) };
    // More than one harm shows which refusal comes first.
    for _ in 0..prng.pick(&[0, 0, 0, 0, 1, 1, 1, 2, 3]) {
        if prng.one_in(4) {
            harm_header(prng, &mut list);
        } else {
            harm_steps(prng, &mut list);
        }
    }
    list
}

/// Steps in range, whatever the engine would say of them, whose session has a telling length.
fn steps(prng: &mut Prng, header: &Header) -> Vec<u32> {
    let length = match prng.below(40) {
        0 => 0,
        1 => prng.between(MOST_BYTES - 2, MOST_BYTES + 2),
        2 if prng.one_in(4) => prng.between(MOST_BYTES, 2 * MOST_BYTES),
        3..=8 => prng.below(1_500),
        _ => prng.below(200),
    };
    let mut list = Vec::new();
    let mut left = length.saturating_sub(2 + header.sheets());
    while left > 1 {
        let save = prng.below(MOST_SAVES);
        let command = command_on(prng, header, save);
        let size = command.bytes().len();
        // No command has one byte, so that much must not be left over.
        if size <= left && left - size != 1 {
            list.extend(words(command));
            left -= size;
        }
    }
    list
}

fn harm_header(prng: &mut Prng, list: &mut List) {
    // Numbers that are in range once cut to a byte or to 32 bits must not pass.
    let huge = prng.pick(&[1 << 8, 1 << 16, 1 << 32, 1 << 63]);
    let count = list.owners.len();
    match prng.below(5) {
        0 => list.nodes = prng.pick(&[0, 1, 8, 9, 255, list.nodes.wrapping_add(huge)]),
        1 => list.sheets = prng.pick(&[0, 1, 64, 65, 255, list.sheets.wrapping_add(huge)]),
        2 => list.owners.resize(prng.pick(&[0, count.max(1) - 1, count + 1, count + 256]), 0),
        3 => {
            // The counts agree and are too large.
            list.sheets = prng.pick(&[65, 66, 256, 256 + count]);
            list.owners.resize(list.sheets, 0);
        }
        _ if count > 0 => {
            list.owners[prng.below(count)] = prng.pick(&[list.nodes as u8, 8, 255]);
        }
        _ => {}
    }
}

fn harm_steps(prng: &mut Prng, list: &mut List) {
    let whole = list.words.len() / STEP_WORDS;
    if whole == 0 {
        list.words = vec![prng.pick(&[0, 1, 3, 9]); prng.between(1, 7)];
        return;
    }
    // The last step stands behind all that could end a writing too early.
    let step = STEP_WORDS * if prng.one_in(3) { whole - 1 } else { prng.below(whole) };
    let operand = step + prng.between(1, 3);
    let high = prng.pick(&[1 << 8, 1 << 16, 1 << 31]);
    let limits = [MOST_SAVES as u32, list.sheets as u32, list.nodes as u32];
    let words = &mut list.words;
    match prng.below(6) {
        0 => {
            let number = words[step].wrapping_add(high);
            words[step] = prng.pick(&[0, 9, 10, 11, 12, 13, 255, u32::MAX, number]);
        }
        1 | 2 => words[operand] = prng.pick(&limits),
        3 => words[operand] = words[operand].wrapping_add(high),
        4 => words[operand] = prng.pick(&[1, 31, 33, 63, 255, u32::MAX]),
        _ => words.truncate(operand),
    }
}
