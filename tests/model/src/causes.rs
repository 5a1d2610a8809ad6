//! Why a TAKE found its save invalid. TAKE keeps the first cause on its way over the sheets; here all
//! causes in the state before it are listed, and the least must be the answer's.

use crate::command::Command;
use crate::engine::{Answer, Cause, Copy, Engine, Lock, Rule, Sheet, Verdict};
use crate::session::Session;

/// Every cause against the save that the node takes next, by sheet and then by rule; at a former place of
/// the save there is none.
fn causes(state: &Engine, node: usize) -> Vec<Cause> {
    let mut ahead = state.order[state.taken[node]..].iter();
    let save = ahead.next().expect("a place to take");
    let mut all = Vec::new();
    if ahead.any(|later| later == save) {
        return all;
    }
    let taken = &state.saves[*save];
    for rule in Rule::ALL {
        for &number in taken.claim.keys().filter(|&&number| state.sheets[number].owner == node) {
            if stands(rule, &state.sheets[number], taken.copies.get(&number)) {
                all.push(Cause { sheet: number, rule });
            }
        }
    }
    all.sort();
    all
}

/// Each rule by itself, whatever the others say: an X that waits may stand behind a granted one. A sheet of
/// an earlier run's claim need not have a copy.
fn stands(rule: Rule, sheet: &Sheet, copy: Option<&Copy>) -> bool {
    let x_at = |fits: fn(usize) -> bool| {
        let mut places = sheet.queue.iter().enumerate();
        places.any(|(place, entry)| entry.lock == Lock::X && fits(place))
    };
    match rule {
        Rule::XGranted => x_at(|place| place == 0),
        Rule::XWaiting => x_at(|place| place > 0),
        Rule::CounterBehind => copy.is_some_and(|copy| copy.wct_seen < sheet.wct),
    }
}

/// Holds a TAKE's answer to the state before it; gives all causes that stood there.
fn check_take(state: &Engine, node: usize, answer: Answer) -> Result<Vec<Cause>, String> {
    let save = state.order[state.taken[node]];
    let all = causes(state, node);
    let verdict = all.first().map_or(Verdict::Valid, |&first| Verdict::Invalid(first));
    if answer == (Answer::Taken { save, verdict }) {
        return Ok(all);
    }
    let invalid = matches!(answer, Answer::Taken { verdict: Verdict::Invalid(_), .. });
    let clause = if invalid && !all.is_empty() { "first" } else { "verdict" };
    Err(format!("{clause}: {answer:?}, where the causes against save {save} are {all:?}"))
}

/// Checks each TAKE of a session, of which `run` is the run; gives the causes of each that found its
/// save invalid.
pub fn check(bytes: &[u8], run: &Session) -> Result<Vec<Vec<Cause>>, String> {
    let mut steps = run.steps.iter();
    let mut checked = Vec::new();
    Session::run_watched(bytes, |_, state| {
        if let Some(step) = steps.next() {
            if let Command::Take { node } = step.command {
                checked.push(check_take(state, node, step.answer));
            }
        }
    });
    checked.retain(|causes| causes != &Ok(Vec::new()));
    checked.into_iter().collect()
}
