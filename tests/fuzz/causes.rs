//! Why TAKEs found their saves invalid: the model's answers against every cause that stood there.

use crate::shown;
use model::causes::check;
use model::engine::{Cause, Rule};
use model::session::Session;

/// The invalid TAKEs by rule, and those at which there was more than one cause to choose from.
#[derive(Default)]
pub struct Counts {
    rules: [u64; Rule::ALL.len()],
    /// On the sheet of the answer an X granted with another X waiting; an X with the counter behind.
    one_sheet: [u64; 2],
    /// A cause on a higher sheet too; there by a rule that comes before the answer's.
    two_sheets: [u64; 2],
}

impl Counts {
    fn count(&mut self, causes: &[Cause]) {
        let first = causes[0];
        let here = |rule: Rule| causes.contains(&Cause { rule, ..first });
        let x_here = first.rule != Rule::CounterBehind;
        self.rules[first.rule as usize] += 1;
        self.one_sheet[0] += (here(Rule::XGranted) && here(Rule::XWaiting)) as u64;
        self.one_sheet[1] += (x_here && here(Rule::CounterBehind)) as u64;
        self.two_sheets[0] += causes.iter().any(|cause| cause.sheet > first.sheet) as u64;
        self.two_sheets[1] += causes.iter().any(|cause| cause.rule < first.rule) as u64;
    }

    /// Prints the counts; says whether one of them is 0.
    pub fn close(&self) -> bool {
        println!(
            "causes: X granted {} X waiting {} counter behind {}; more than one: on one sheet X \
             granted and waiting {} X and counter {}, on two sheets {} ({} of them with an earlier \
             rule on a higher one)",
            self.rules[0],
            self.rules[1],
            self.rules[2],
            self.one_sheet[0],
            self.one_sheet[1],
            self.two_sheets[0],
            self.two_sheets[1],
        );
        [&self.rules[..], &self.one_sheet, &self.two_sheets].concat().contains(&0)
    }
}

/// Each TAKE of a session in the model.
pub fn one_session(session: &[u8], run: &Session, counts: &mut Counts) -> Result<(), String> {
    let found = check(session, run)
        .map_err(|trouble| format!("causes in the model: {trouble}\n{}", shown(session)))?;
    found.iter().for_each(|causes| counts.count(causes));
    Ok(())
}
