//! The report, and what the call leaves in the caller's buffer.

use crate::engine::{Engine, Phase};
use crate::session::Session;

pub const LEAST_BUFFER: usize = 4_096;

/// The report's bytes.
pub fn report(session: &Session) -> Vec<u8> {
    let mut text = session.started.as_ref().map_or(String::new(), |(_, engine)| lines(engine));
    if let Some(refused) = session.refused {
        text += &format!("R {} {}\n", refused.offset, refused.number);
    }
    text.into_bytes()
}

/// The lines that tell of a state: all but that of a refusal.
pub fn lines(engine: &Engine) -> String {
    let mut text = String::new();
    let last = |&(place, _): &(usize, &usize)| !engine.former(place);
    for (_, &save) in engine.order.iter().enumerate().filter(last) {
        let outcome = match engine.saves[save].phase {
            Phase::Committed => 'C',
            Phase::Dropped => 'D',
            _ => 'U',
        };
        text += &format!("P {} {} {}\n", save, engine.saves[save].runs, outcome);
    }
    for (number, sheet) in engine.sheets.iter().enumerate() {
        text += &format!("O {} {} {}\n", number, sheet.content, sheet.wct);
    }
    let tally = engine.tally;
    text +=
        &format!("T {} {} {}\n", tally.accepted, tally.first_run_commits, tally.second_run_commits);
    text
}

/// What the call makes of a report buffer: the length returned, 0 for refusal 12.
pub fn write_report(session: &Session, buffer: &mut [u8]) -> usize {
    if buffer.len() < LEAST_BUFFER {
        return 0;
    }
    let report = report(session);
    buffer[..report.len()].copy_from_slice(&report);
    report.len()
}
