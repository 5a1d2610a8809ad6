//! How APPLY raises the counters. APPLY goes over its node's sheets; here every sheet of the session has a
//! mark, 0 or 1, from the state before the step, and its WCT after must be the WCT before plus the mark.

use crate::command::Command;
use crate::engine::{Engine, Phase};
use crate::session::Session;

/// The mark of a sheet at an accepted APPLY: 1 where the sheet is the node's, was written in the last run of
/// a committed save, and receives another content than it has. For a dropped save nothing is written.
fn mark(state: &Engine, node: usize, save: usize, sheet: usize) -> u32 {
    let committed = state.saves[save].phase == Phase::Committed;
    let of_node = state.sheets[sheet].owner == node;
    let written = state.saves[save].copies.get(&sheet).filter(|copy| copy.written);
    let another = written.is_some_and(|copy| copy.content != state.sheets[sheet].content);
    (committed && of_node && another) as u32
}

/// The marks of all sheets at a step that is accepted in this state; no step but APPLY has a 1.
fn marks(state: &Engine, step: Command) -> Vec<u32> {
    let mark = |sheet: usize| match step {
        Command::Apply { node, save } => mark(state, node, save, sheet),
        _ => 0,
    };
    (0..state.sheets.len()).map(mark).collect()
}

/// One equation over all sheets: the WCT after is the WCT before plus the mark.
pub fn adds_up(before: &[u32], marks: &[u32], after: &[u32]) -> bool {
    let sums = before.iter().zip(marks).map(|(wct, &mark)| wct.checked_add(mark));
    before.len() == marks.len() && sums.eq(after.iter().copied().map(Some))
}

/// Checks each step of a session, of which `run` is the run; gives the marks of each APPLY, with its
/// place among the steps.
pub fn check(bytes: &[u8], run: &Session) -> Result<Vec<(usize, Vec<u32>)>, String> {
    let mut wcts: Vec<Vec<u32>> = Vec::new();
    let mut marked = Vec::new();
    Session::run_watched(bytes, |_, state| {
        wcts.push(state.sheets.iter().map(|sheet| sheet.wct).collect());
        marked.extend(run.steps.get(marked.len()).map(|step| marks(state, step.command)));
    });
    let mut applied = Vec::new();
    for (place, (step, marks)) in run.steps.iter().zip(marked).enumerate() {
        let (before, after) = (&wcts[place], &wcts[place + 1]);
        let applies = matches!(step.command, Command::Apply { .. });
        if !adds_up(before, &marks, after) {
            let clause = if applies { "sum" } else { "other step" };
            let command = step.command;
            return Err(format!(
                "{clause}: {command:?}: {before:?} plus {marks:?} is not {after:?}"
            ));
        }
        if applies {
            applied.push((place, marks));
        }
    }
    Ok(applied)
}
