//! Saves that saved nothing: the counters, the readers beside them and the X entries in every state of the
//! model.

use crate::shown;
use model::session::Session;
use model::unchanged::{check, Met};

#[derive(Default)]
pub struct Counts(Met);

impl Counts {
    /// Prints the counts; says whether one of them is 0.
    pub fn close(&self) -> bool {
        let Met { same, passed, came_back, failed_by_x } = self.0;
        println!(
            "unchanged: the same content stored {same}, readers from before it not failed there {passed}, \
             readers failed whose content came back {came_back}, failed by the X of a save that stores \
             the same {failed_by_x}"
        );
        self.0.counts().contains(&0)
    }
}

/// Each state of a session in the model.
pub fn one_session(session: &[u8], run: &Session, counts: &mut Counts) -> Result<(), String> {
    let met = check(session, run)
        .map_err(|trouble| format!("unchanged in the model: {trouble}\n{}", shown(session)))?;
    counts.0.add(met);
    Ok(())
}
