//! The state's text: the engine's against the model's at a session's end and on its way, and the model's held
//! to the commands.

use crate::rooms::{in_rooms, refusals, times, Tally, WHOLE};
use crate::{difference, engine, shown};
use model::engine::{Engine, Lock};
use model::prng::Prng;
use model::room::put;
use model::session::Session;
use model::state_laws;
use model::state_lines::Lines;
use model::state_text::{of_state, text, MOST_BYTES};
use std::collections::BTreeSet;

/// So many states on a session's way are compared, or all where it has no more.
const ON_THE_WAY: usize = 5;

/// The room has place for the longest text once in so many sessions, and the text is held to the commands once
/// in so many.
const PLENTY: usize = 200;
const LAWS: usize = 8;

const REFUSALS: [&str; 2] = ["1", "15"];

const PHASES: [char; 5] = ['F', 'S', 'L', 'C', 'D'];

#[derive(Default)]
pub struct Counts {
    texts: Tally,
    on_the_way: u64,
    held: u64,
    longest: usize,
    phases: [u64; 5],
    /// Marked failed; of these in a later run, committed, dropped.
    failed: [u64; 4],
    wide: u64,
    without_place: u64,
    former: u64,
    behind: u64,
    /// A claim without a copy, a copy without a claim.
    alone: [u64; 2],
    /// An S that waits; one that an S before it does not hold up; an X that waits; one that an S holds up.
    waiting: [u64; 4],
}

impl Counts {
    fn count(&mut self, text: &str) -> Result<(), String> {
        let lines = Lines::read(text)?;
        self.longest = self.longest.max(text.len());
        for save in &lines.saves {
            let phase = PHASES.iter().position(|&letter| letter == save.phase);
            phase.into_iter().for_each(|phase| self.phases[phase] += 1);
            self.failed[0] += save.failed as u64;
            let marked = phase.filter(|&phase| save.failed && phase >= 2);
            marked.into_iter().for_each(|phase| self.failed[phase - 1] += 1);
            self.wide += save.wide as u64;
            self.without_place += save.place.is_none() as u64;
        }
        self.former += lines.places.iter().filter(|place| !place.last).count() as u64;
        for line in &lines.copies {
            self.behind += line.copy.as_ref().is_some_and(|copy| copy.behind) as u64;
            self.alone[0] += line.copy.is_none() as u64;
            self.alone[1] += line.claim.is_none() as u64;
        }
        self.count_waiting(&lines);
        Ok(())
    }

    fn count_waiting(&mut self, lines: &Lines) {
        for queue in lines.entries.chunk_by(|one, two| one.sheet == two.sheet) {
            for (place, entry) in queue.iter().enumerate().filter(|(_, entry)| !entry.granted) {
                let s_before = queue[..place].iter().any(|before| before.lock == Lock::S);
                let first = if entry.lock == Lock::S { 0 } else { 2 };
                self.waiting[first] += 1;
                self.waiting[first + 1] += s_before as u64;
            }
        }
    }

    /// Prints the counts; says whether one of them is 0.
    pub fn close(&self) -> bool {
        let phases: Vec<String> = PHASES
            .iter()
            .zip(self.phases)
            .map(|(letter, times)| format!("{letter}:{times}"))
            .collect();
        println!(
            "state: {} texts at the end, of at most {} bytes, {} on the way, {} held to the commands; saves \
             {}, failed {} (in a later run {} committed {} dropped {}), wide {}, without a place {}; former \
             places {}; copies behind {}, claims without a copy {}, copies without a claim {}; waiting S {} \
             (past an S {}), X {} (for an S {}); refusals {}",
            times(&self.texts, WHOLE),
            self.longest,
            self.on_the_way,
            self.held,
            phases.join(" "),
            self.failed[0],
            self.failed[1],
            self.failed[2],
            self.failed[3],
            self.wide,
            self.without_place,
            self.former,
            self.behind,
            self.alone[0],
            self.alone[1],
            self.waiting[0],
            self.waiting[1],
            self.waiting[2],
            self.waiting[3],
            refusals(&self.texts, &REFUSALS),
        );
        let single =
            [self.on_the_way, self.held, self.wide, self.without_place, self.former, self.behind];
        let lists: [&[u64]; 5] = [&self.phases, &self.failed, &single, &self.alone, &self.waiting];
        lists.concat().contains(&0) || self.texts.len() <= REFUSALS.len()
    }
}

/// The text at a session's end in every room, and, where they are wanted, some on its way.
pub fn one_session(
    session: &[u8],
    run: &Session,
    on_the_way: bool,
    prng: &mut Prng,
    counts: &mut Counts,
) -> Result<(), String> {
    let plenty = if prng.one_in(PLENTY) { MOST_BYTES } else { 0 };
    let text = compare(session, run, plenty, prng, &mut counts.texts)?;
    let (Some(text), Some((_, state))) = (text, &run.started) else { return Ok(()) };
    counts.count(&text)?;
    if prng.one_in(LAWS) {
        hold(session, state)?;
        counts.held += 1;
    }
    if on_the_way {
        compare_on_the_way(session, run, prng, counts)?;
    }
    Ok(())
}

/// The text, or nothing where the session earns refusal 1. The largest of the rooms has `plenty` bytes, or some
/// more than are needed.
pub fn compare(
    session: &[u8],
    run: &Session,
    plenty: usize,
    prng: &mut Prng,
    tally: &mut Tally,
) -> Result<Option<String>, String> {
    let text = text(run);
    let rooms = match &text {
        Some(text) => vec![plenty.max(text.len() + 5), text.len() - 1, 0, text.len()],
        None => vec![0, 4_096],
    };
    in_these(session, text.as_deref(), &rooms, prng, tally)?;
    Ok(text)
}

fn in_these(
    session: &[u8],
    text: Option<&str>,
    rooms: &[usize],
    prng: &mut Prng,
    tally: &mut Tally,
) -> Result<(), String> {
    let input = session.to_vec();
    in_rooms(
        rooms,
        || prng.draw() as u8,
        |lent| put(text.map(str::as_bytes), lent),
        |lent| engine::state(&input, lent),
        tally,
    )
    .map_err(|[room, model, engine]| {
        let model = format!("{model}\n{}", text.unwrap_or_default());
        let engine = format!("{engine}\n{}", engines_text(&input));
        difference(session, &format!("state in {room} bytes"), &model, &engine)
    })?;
    if input != session {
        return Err(difference(session, "session", "left alone", "written to"));
    }
    Ok(())
}

fn engines_text(session: &[u8]) -> String {
    let mut room = vec![0; MOST_BYTES];
    let answer = engine::state(session, &mut room);
    let length = if answer >> 48 == 8 { (answer >> 8) as u32 as usize } else { 0 };
    String::from_utf8_lossy(&room[..length.min(MOST_BYTES)]).into_owned()
}

/// The text of one state, in a room that it fills.
fn compare_state(session: &[u8], state: &Engine, prng: &mut Prng) -> Result<String, String> {
    let text = of_state(state);
    in_these(session, Some(&text), &[text.len()], prng, &mut Tally::new())?;
    Ok(text)
}

/// Holds the model's text of a state to the commands there.
pub fn hold(session: &[u8], state: &Engine) -> Result<(), String> {
    state_laws::check(state, &of_state(state))
        .map(|_| ())
        .map_err(|trouble| format!("state in the model: {trouble}\n{}", shown(session)))
}

/// States after some of the accepted commands, the start and the end among them where there are few.
fn compare_on_the_way(
    session: &[u8],
    run: &Session,
    prng: &mut Prng,
    counts: &mut Counts,
) -> Result<(), String> {
    let steps = run.steps.len();
    let places: BTreeSet<usize> = if steps <= ON_THE_WAY {
        (0..=steps).collect()
    } else {
        (0..ON_THE_WAY).map(|_| prng.below(steps + 1)).collect()
    };
    let start = run.started.as_ref().map_or(0, |(header, _)| 2 + header.sheets());
    let mut compared = Ok(());
    let mut place = 0;
    Session::run_watched(session, |_, state| {
        if places.contains(&place) && compared.is_ok() {
            let end = if place == 0 { start } else { run.steps[place - 1].end };
            compared = compare_state(&session[..end], state, prng).and_then(|text| {
                counts.on_the_way += 1;
                counts.count(&text)
            });
        }
        place += 1;
    });
    compared
}
