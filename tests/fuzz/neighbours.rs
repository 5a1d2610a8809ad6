//! Neighbouring steps at two nodes: an accepted session before and after they are swapped, and single
//! steps in either order after a part of it.

use crate::{compare, compare_answer, shown, with_smaller};
use model::command::{Command, Header};
use model::neighbours::{check, check_pair, Kind, Pair, Swapped};
use model::prng::Prng;
use model::report::LEAST_BUFFER;
use model::session::{coded, coded_answer, Session, Step};
use std::collections::BTreeMap;

/// What a step at a node can be refused with.
const REFUSALS: [u8; 5] = [4, 5, 9, 11, 13];

#[derive(Default)]
pub struct Counts {
    sessions: u64,
    once: u64,
    swaps: usize,
    most: usize,
    kinds: BTreeMap<Kind, u64>,
    /// The accepted pairs by how many of the two are APPLYs.
    accepted: [u64; 3],
    refusals: BTreeMap<u8, u64>,
}

impl Counts {
    fn count_swapped(&mut self, swaps: usize) {
        self.sessions += 1;
        self.once += (swaps == 1) as u64;
        self.swaps += swaps;
        self.most = self.most.max(swaps);
    }

    fn count_pair(&mut self, pair: &Pair) {
        *self.kinds.entry(pair.kind()).or_default() += 1;
        if pair.kind() == Kind::BothAccepted {
            let applies = |step: &&Command| matches!(step, Command::Apply { .. });
            self.accepted[pair.steps.iter().filter(applies).count()] += 1;
        }
        for number in pair.answers.iter().filter_map(|answer| answer.err()) {
            *self.refusals.entry(number).or_default() += 1;
        }
    }

    /// Prints the counts; says whether one of them is 0.
    pub fn close(&self) -> bool {
        let kinds = Kind::ALL.map(|kind| self.kinds.get(&kind).copied().unwrap_or(0));
        let refusals = REFUSALS.map(|number| self.refusals.get(&number).copied().unwrap_or(0));
        let numbered: Vec<String> = REFUSALS
            .iter()
            .zip(refusals)
            .map(|(number, times)| format!("{number}:{times}"))
            .collect();
        println!(
            "neighbours: {} sessions swapped ({} of them once), {} swaps, {} at most; single steps: \
             {} both accepted (TAKE/TAKE {} TAKE/APPLY {} APPLY/APPLY {}), {} first refused, {} \
             second refused, {} both refused, refusals {}",
            self.sessions,
            self.once,
            self.swaps,
            self.most,
            kinds[0],
            self.accepted[0],
            self.accepted[1],
            self.accepted[2],
            kinds[1],
            kinds[2],
            kinds[3],
            numbered.join(" "),
        );
        let never = |counts: &[u64]| counts.contains(&0);
        never(&[self.once]) || never(&kinds) || never(&self.accepted) || never(&refusals)
    }
}

/// A session up to its refused command, with neighbours swapped and with single steps on its way.
pub fn one_session(
    session: &[u8],
    run: &Session,
    prng: &mut Prng,
    counts: &mut Counts,
) -> Result<(), String> {
    let checked = check(session, run, prng).map_err(|trouble| in_model(&trouble, session))?;
    let Some((header, _)) = &checked.run.started else { return Ok(()) };
    let mut buffer = vec![0; LEAST_BUFFER];
    prng.fill(&mut buffer);
    let mut same = |session: &[u8], run: &Session| {
        compare(session, run, &buffer, prng)
            .map_err(|trouble| with_smaller(trouble, session, &buffer))
    };
    // The model has one report for both, so the engine has too where it is equal to the model.
    if let Some(Swapped { session, run, swaps }) = checked.swapped {
        same(checked.accepted, &checked.run)
            .and_then(|()| same(&session, &run))
            .map_err(|trouble| format!("{swaps} neighbours swapped: {trouble}"))?;
        counts.count_swapped(swaps);
    }
    for (length, pair) in &checked.pairs {
        for order in [[0, 1], [1, 0]] {
            compare_order(header, &checked.accepted[..*length], pair, order)
                .and_then(|accepted| accepted.map_or(Ok(()), |(session, run)| same(&session, &run)))
                .map_err(|trouble| format!("neighbours {:?}: {trouble}", pair.steps))?;
        }
        counts.count_pair(pair);
    }
    Ok(())
}

/// The answers to one order of two steps after a part of a session, up to a refused one: each is as
/// in the other order. Where both are accepted, gives the session and its run.
fn compare_order(
    header: &Header,
    prefix: &[u8],
    pair: &Pair,
    order: [usize; 2],
) -> Result<Option<(Vec<u8>, Session)>, String> {
    let mut session = prefix.to_vec();
    let mut steps = Vec::new();
    for (command, answer) in order.map(|place| (pair.steps[place], pair.answers[place])) {
        let start = session.len();
        session.extend(command.bytes());
        let length = session.len();
        match answer {
            Ok(answer) => {
                compare_answer(&session, coded_answer(answer), (length, 0))?;
                steps.push(Step { command, answer, end: length, cell: None });
            }
            Err(number) => {
                let refused = coded(7, start as u64, number);
                return compare_answer(&session, refused, (start, length - start)).map(|()| None);
            }
        }
    }
    // The report and the last answer need no earlier step.
    let started = Some((header.clone(), pair.state.clone()));
    let run = Session { length: session.len(), started, steps, refused: None };
    Ok(Some((session, run)))
}

/// Tries these pairs in the model's state after a session; says how many they are.
pub fn in_state(session: &[u8], run: &Session, pairs: &[[Command; 2]]) -> Result<usize, String> {
    let Some((header, state)) = &run.started else { return Ok(0) };
    for &pair in pairs {
        check_pair(header, state, pair).map_err(|trouble| in_model(&trouble, session))?;
    }
    Ok(pairs.len())
}

fn in_model(trouble: &str, session: &[u8]) -> String {
    format!("neighbours in the model: {trouble}\n{}", shown(session))
}
