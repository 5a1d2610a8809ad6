//! Every command's answer: the engine's list against the model's, and against its own answers on the session
//! cut behind a command.

use crate::rooms::{in_rooms, refusals, times, Tally, WHOLE};
use crate::{answer_text, difference, engine};
use model::answers::{answers, cuts, MOST_ANSWERS};
use model::prng::Prng;
use model::room::put;
use model::session::Session;

/// The session is cut behind so many of its commands, or behind each where it has no more.
const MOST_CUTS: usize = 10;

/// The room has place for the longest list once in so many sessions.
const PLENTY: usize = 16;

const REFUSALS: [&str; 2] = ["1", "15"];

#[derive(Default)]
pub struct Counts {
    lists: Tally,
    longest: usize,
    cuts: u64,
    empty: u64,
    whole: u64,
    /// Stopped by 2, by 3, by 4 and by a step rule.
    stopped: [u64; 4],
}

impl Counts {
    fn count(&mut self, list: &[u64], run: &Session) {
        self.longest = self.longest.max(list.len());
        self.empty += list.is_empty() as u64;
        match run.refused {
            None => self.whole += 1,
            Some(refused) => self.stopped[refused.number.min(5) as usize - 2] += 1,
        }
    }

    /// Prints the counts; says whether one of them is 0.
    pub fn close(&self) -> bool {
        println!(
            "answers: {} lists, of at most {}; without a stop {} (empty {}), stopped by 2 {} by 3 {} by 4 {} \
             by a step rule {}; refusals {}; {} sessions cut behind a command",
            times(&self.lists, WHOLE),
            self.longest,
            self.whole,
            self.empty,
            self.stopped[0],
            self.stopped[1],
            self.stopped[2],
            self.stopped[3],
            refusals(&self.lists, &REFUSALS),
            self.cuts,
        );
        let single = [self.empty, self.whole, self.cuts];
        [&self.stopped[..], &single].concat().contains(&0) || self.lists.len() <= REFUSALS.len()
    }
}

/// The list of a session in every room, and some of its answers by themselves.
pub fn one_session(
    session: &[u8],
    run: &Session,
    prng: &mut Prng,
    counts: &mut Counts,
) -> Result<(), String> {
    let plenty = if prng.one_in(PLENTY) { MOST_ANSWERS } else { 0 };
    let Some(list) = compare(session, run, plenty, prng, &mut counts.lists)? else {
        return Ok(());
    };
    counts.cuts += compare_cuts(session, run, &list, prng)?;
    counts.count(&list, run);
    Ok(())
}

/// The engine's list, or nothing where it refuses the session. The largest of the rooms has `plenty` places, or
/// some more than are needed.
pub fn compare(
    session: &[u8],
    run: &Session,
    plenty: usize,
    prng: &mut Prng,
    tally: &mut Tally,
) -> Result<Option<Vec<u64>>, String> {
    let list = answers(run);
    let input = session.to_vec();
    let rooms = match &list {
        Some(list) => vec![plenty.max(list.len() + 5), list.len().saturating_sub(1), 0, list.len()],
        None => vec![0, MOST_ANSWERS],
    };
    let whole = in_rooms(
        &rooms,
        || prng.draw(),
        |lent| put(list.as_deref(), lent),
        |lent| engine::answers(&input, lent),
        tally,
    )
    .map_err(|[room, model, engine]| {
        difference(session, &format!("list of answers in {room} places"), &model, &engine)
    })?;
    if input != session {
        return Err(difference(session, "session", "left alone", "written to"));
    }
    Ok(whole.map(|(_, list)| list))
}

/// Each number of the engine's list is its own answer on the session cut behind the command; gives how many
/// were compared.
fn compare_cuts(
    session: &[u8],
    run: &Session,
    list: &[u64],
    prng: &mut Prng,
) -> Result<u64, String> {
    let cuts = cuts(run);
    let places: Vec<usize> = if list.len() <= MOST_CUTS {
        (0..list.len()).collect()
    } else {
        // The last one is a refusal where the session is stopped.
        (1..MOST_CUTS).map(|_| prng.below(list.len())).chain([list.len() - 1]).collect()
    };
    for &place in &places {
        let cut = &session[..cuts[place]];
        let given = engine::answer(cut);
        if given != list[place] {
            let what = format!("answer of the session cut behind command {place}");
            let [listed, given] = [list[place], given].map(answer_text);
            return Err(difference(cut, &what, &format!("listed {listed}"), &given));
        }
    }
    Ok(places.len() as u64)
}
