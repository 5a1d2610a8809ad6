//! The rooms lent to a call that writes: the engine must answer as the model does in each of them, and leave
//! it as the model does.

use crate::{answer_text, GUARD};
use std::collections::{BTreeMap, BTreeSet};
use std::fmt::Debug;

/// How many lists, or sessions, had each outcome in one of the rooms that they were given.
pub type Tally = BTreeMap<&'static str, u64>;

pub const WHOLE: &str = "whole";

pub fn times(tally: &Tally, outcome: &str) -> u64 {
    tally.get(outcome).copied().unwrap_or(0)
}

pub fn refusals(tally: &Tally, all: &[&str]) -> String {
    let texts: Vec<String> =
        all.iter().map(|outcome| format!("{outcome}:{}", times(tally, outcome))).collect();
    texts.join(" ")
}

/// More room than a call needs, one less, none and, at the end, the exact one; for a call that is
/// refused in any room, none and the most that it could ask for.
pub fn rooms(need: Option<usize>, most: usize) -> Vec<usize> {
    need.map_or(vec![0, most], |need| vec![need + 5, need.saturating_sub(1), 0, need])
}

/// Makes a call in each of these rooms. The engine must answer as the model does, and leave the room
/// and the guards around it as the model does. Gives the answer and the room at the end, or nothing
/// for a refused call; on a difference, the room's size and what both did.
pub fn in_rooms<T: Copy + PartialEq + Debug>(
    rooms: &[usize],
    mut noise: impl FnMut() -> T,
    model: impl Fn(&mut [T]) -> u64,
    engine: impl Fn(&mut [T]) -> u64,
    tally: &mut Tally,
) -> Result<Option<(u64, Vec<T>)>, [String; 3]> {
    let mut outcomes = BTreeSet::new();
    let mut whole = None;
    for &room in rooms {
        let lent = GUARD..GUARD + room;
        let mut expected: Vec<T> = (0..GUARD + room + GUARD).map(|_| noise()).collect();
        let mut given = expected.clone();
        let answer = model(&mut expected[lent.clone()]);
        let given_answer = engine(&mut given[lent.clone()]);
        if given_answer != answer || given != expected {
            let same = given.iter().zip(&expected).take_while(|(one, two)| one == two).count();
            let text = |answer: u64, all: &[T]| match all.get(same) {
                Some(other) => {
                    format!("{}, {other:?} at {}", answer_text(answer), same as i64 - GUARD as i64)
                }
                None => answer_text(answer),
            };
            return Err([room.to_string(), text(answer, &expected), text(given_answer, &given)]);
        }
        outcomes.insert(outcome(answer));
        whole = (outcome(answer) == WHOLE).then(|| (answer, given[lent].to_vec()));
    }
    outcomes.into_iter().for_each(|outcome| *tally.entry(outcome).or_default() += 1);
    Ok(whole)
}

/// The outcome that an answer tells. Refusal 1 has a place only where the steps are too long.
fn outcome(answer: u64) -> &'static str {
    let place = answer >> 8 & 0xffff_ffff;
    match (answer >> 48, answer & 0xff) {
        (7, 1) if place == 0 => "1",
        (7, 1) => "1(total)",
        (7, 2) => "2",
        (7, 3) => "3",
        (7, 4) => "4",
        (7, 15) => "15",
        _ => WHOLE,
    }
}
