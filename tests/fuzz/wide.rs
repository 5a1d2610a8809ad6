//! Second runs that open another sheet: what the commands say of each save in every state of the model, and
//! all that the steps of later runs and at former places change.

use crate::shown;
use model::session::Session;
use model::wide::{check, Met};

#[derive(Default)]
pub struct Counts(Met);

impl Counts {
    /// Prints the counts; says whether one of them is 0.
    pub fn close(&self) -> bool {
        let met = &self.0;
        println!(
            "wide: SUBMITs with a sheet outside the claim {} an S written {} both {} (an X kept that was \
             only read {} not touched {}; entries removed at two nodes {}); former places passed of a save \
             submitted {} in a later run {} committed {} dropped {} (two more of it before the node {}); \
             sheets without a copy passed though their WCT has risen {} failed by an X {}; READs past an X \
             {}; given up while wide {}; third and further runs {}; commits after a former place by DECIDE \
             {} by SUBMIT {}; saves with eight places {} with a hundred runs {}, sessions with more than \
             256 places {}; at most {} places and {} runs of a save, {} places in all",
            met.submits[0],
            met.submits[1],
            met.submits[2],
            met.kept[0],
            met.kept[1],
            met.nodes,
            met.former[0],
            met.former[1],
            met.former[2],
            met.former[3],
            met.lagging,
            met.without_copy[0],
            met.without_copy[1],
            met.past_x,
            met.given_up,
            met.again,
            met.commits[0],
            met.commits[1],
            met.deep[0],
            met.deep[1],
            met.deep[2],
            met.most_places,
            met.most_runs,
            met.longest_order,
        );
        met.counts().contains(&0)
    }
}

/// Each state of a session in the model.
pub fn one_session(session: &[u8], run: &Session, counts: &mut Counts) -> Result<(), String> {
    let met = check(session, run)
        .map_err(|trouble| format!("wide in the model: {trouble}\n{}", shown(session)))?;
    counts.0.add(met);
    Ok(())
}
