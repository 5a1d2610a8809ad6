//! Every command's answer.

use crate::command::{read_command, read_header};
use crate::session::{coded_answer, Session};

/// No session has more: 8,190 commands of two bytes behind a header of three, and one byte that is left.
pub const MOST_ANSWERS: usize = 8_191;

/// One for each command up to and with the first refused one; nothing where the session earns refusal 1.
pub fn answers(session: &Session) -> Option<Vec<u64>> {
    session.started.as_ref()?;
    let accepted = session.steps.iter().map(|step| coded_answer(step.answer));
    let refusal = session.refused.map(|_| session.answer());
    Some(accepted.chain(refusal).collect())
}

/// Where the session is cut behind each command that has an answer: a refused one ends with the part shown.
pub fn cuts(session: &Session) -> Vec<usize> {
    let refused = session.refused.map(|refused| refused.offset + refused.shown);
    session.steps.iter().map(|step| step.end).chain(refused).collect()
}

/// The list by its words: the call's answer on the session cut behind one command after the other, until one
/// is a refusal.
fn one_by_one(bytes: &[u8]) -> Option<Vec<u64>> {
    let header = read_header(bytes)?;
    let mut end = 2 + header.sheets();
    let mut list: Vec<u64> = Vec::new();
    while end < bytes.len() && list.last().is_none_or(|answer| answer >> 48 != 7) {
        end += match read_command(&header, &bytes[end..]) {
            Ok((_, length)) => length,
            Err(bad) => bad.shown,
        };
        list.push(Session::run(&bytes[..end]).answer());
    }
    Some(list)
}

/// Holds the list of a session, of which `run` is the run, to its words; gives how many answers it has.
pub fn check(bytes: &[u8], run: &Session) -> Result<usize, String> {
    let (listed, expected) = (answers(run), one_by_one(bytes));
    let count = |list: &Option<Vec<u64>>| list.as_ref().map(Vec::len);
    if count(&listed) != count(&expected) {
        return Err(format!("count: {:?} of {:?} answers", count(&listed), count(&expected)));
    }
    let (listed, expected) = (listed.unwrap_or_default(), expected.unwrap_or_default());
    match listed.iter().zip(&expected).position(|(one, two)| one != two) {
        Some(place) => {
            let [one, two] = [listed[place], expected[place]];
            Err(format!("cut: {one:x} at {place}, where the session cut there gives {two:x}"))
        }
        None => Ok(listed.len()),
    }
}
