//! Neighbouring steps at two nodes: in either order they give the same two answers, refusals
//! included, and the same state. So a whole accepted session keeps its report when such neighbours
//! are swapped, as often as one likes.

use crate::command::{in_range, Command, Header, MOST_BYTES, MOST_SAVES};
use crate::engine::{Answer, Engine, Phase};
use crate::prng::Prng;
use crate::report::report;
use crate::session::Session;

/// The node that a step is at; nothing for a command that is at none.
pub fn node_of(command: Command) -> Option<usize> {
    match command {
        Command::Take { node } | Command::Apply { node, .. } => Some(node),
        Command::Begin { .. }
        | Command::Read { .. }
        | Command::Write { .. }
        | Command::Submit { .. }
        | Command::Decide { .. }
        | Command::GiveUp { .. } => None,
    }
}

/// Every step at a node, on saves below `saves`.
fn steps_at(node: usize, saves: usize) -> impl Iterator<Item = Command> {
    let applies = (0..saves).map(move |save| Command::Apply { node, save });
    [Command::Take { node }].into_iter().chain(applies)
}

/// The bytes of the two longest steps at a node.
const LONGEST_PAIR: usize = 2 * 3;

/// Are the two steps at nodes, and not at the same one?
pub fn at_two_nodes(one: Command, two: Command) -> bool {
    match (node_of(one), node_of(two)) {
        (Some(one), Some(two)) => one != two,
        _ => false,
    }
}

#[derive(Clone, Copy, Debug, PartialEq, Eq, PartialOrd, Ord)]
pub enum Kind {
    BothAccepted,
    FirstRefused,
    SecondRefused,
    BothRefused,
}

impl Kind {
    pub const ALL: [Kind; 4] =
        [Kind::BothAccepted, Kind::FirstRefused, Kind::SecondRefused, Kind::BothRefused];
}

/// Two steps at different nodes that were tried in one state.
#[derive(Clone, Debug)]
pub struct Pair {
    pub steps: [Command; 2],
    /// What each step is answered in either order; a refusal is its number.
    pub answers: [Result<Answer, u8>; 2],
    /// The state after both.
    pub state: Engine,
}

impl Pair {
    pub fn kind(&self) -> Kind {
        match self.answers {
            [Ok(_), Ok(_)] => Kind::BothAccepted,
            [Err(_), Ok(_)] => Kind::FirstRefused,
            [Ok(_), Err(_)] => Kind::SecondRefused,
            [Err(_), Err(_)] => Kind::BothRefused,
        }
    }
}

/// Tries both orders of two steps at different nodes, each from the same state.
pub fn check_pair(
    header: &Header,
    state: &Engine,
    [one, two]: [Command; 2],
) -> Result<Pair, String> {
    let answer = |state: &mut Engine, step: Command| match in_range(header, step) {
        true => state.step(step),
        false => Err(4),
    };
    let (mut after, mut exchanged) = (state.clone(), state.clone());
    let answers = [one, two].map(|step| answer(&mut after, step));
    let [second, first] = [two, one].map(|step| answer(&mut exchanged, step));
    if answers != [first, second] {
        let exchanged = [first, second];
        return Err(format!("answers: {one:?}, {two:?}: {answers:?}, exchanged {exchanged:?}"));
    }
    if after != exchanged {
        return Err(format!("state: {one:?}, {two:?}: {after:?}, exchanged {exchanged:?}"));
    }
    Ok(Pair { steps: [one, two], answers, state: after })
}

/// Every two steps at different nodes, of the header's nodes and one out of range, on saves below
/// `saves`.
pub fn every_pair(header: &Header, saves: usize) -> Vec<[Command; 2]> {
    let steps: Vec<Command> = (0..=header.nodes).flat_map(|node| steps_at(node, saves)).collect();
    let mut pairs = Vec::new();
    for (place, &two) in steps.iter().enumerate() {
        pairs.extend(steps[..place].iter().map(|&one| [one, two]));
    }
    pairs.retain(|&[one, two]| at_two_nodes(one, two));
    pairs
}

/// Two steps at different nodes, mostly such as are accepted in this state.
fn draw_pair(header: &Header, state: &Engine, prng: &mut Prng) -> [Command; 2] {
    // A node out of range is a different one too, and the only such where there is one node.
    let mut nodes: Vec<(usize, Vec<Command>)> =
        (0..=header.nodes).map(|node| (node, accepted_at(header, state, node))).collect();
    prng.shuffle(&mut nodes);
    // Often one or two nodes only have something to do: these are to come first.
    if !prng.one_in(4) {
        nodes.sort_by_key(|(_, accepted)| accepted.is_empty());
    }
    [0, 1].map(|place| {
        let (node, accepted) = (nodes[place].0, &nodes[place].1);
        match prng.below(8) {
            0 => Command::Take { node },
            1 => Command::Apply { node, save: prng.below(MOST_SAVES + 1) },
            _ if accepted.is_empty() => Command::Apply { node, save: prng.below(4) },
            _ => prng.pick(accepted),
        }
    })
}

fn accepted_at(header: &Header, state: &Engine, node: usize) -> Vec<Command> {
    let accepted = |&step: &Command| in_range(header, step) && state.refusal(step).is_none();
    steps_at(node, MOST_SAVES).filter(accepted).collect()
}

/// A state that need not be one of a session: some entries are gone, and the saves of the order have
/// come to other phases. The words hold in any state, and TAKE and APPLY ask for no more than this.
fn stirred(state: &Engine, prng: &mut Prng) -> Engine {
    let mut stirred = state.clone();
    for sheet in &mut stirred.sheets {
        sheet.queue.retain(|_| !prng.one_in(4));
        sheet.wct += prng.below(2) as u32;
    }
    for &save in &stirred.order {
        stirred.saves[save].failed = prng.one_in(2);
        stirred.saves[save].phase = prng.pick(&Phase::ALL);
    }
    stirred
}

/// An accepted session with neighbours swapped.
#[derive(Clone, Debug)]
pub struct Swapped {
    pub session: Vec<u8>,
    pub run: Session,
    pub swaps: usize,
}

/// Swaps neighbours in an accepted session, which must leave its report and its state as they were.
/// Gives nothing where the session is still the same, or has no neighbours at two nodes.
fn check_swapped(
    session: &[u8],
    run: &Session,
    prng: &mut Prng,
) -> Result<Option<Swapped>, String> {
    let (bytes, swaps) = swapped(session, run, prng);
    if bytes == session {
        return Ok(None);
    }
    let after = Session::run(&bytes);
    let reports = [run, &after].map(|run| String::from_utf8(report(run)).expect("figures"));
    if reports[0] != reports[1] {
        return Err(format!("report: {:?}, swapped {:?} in {bytes:02x?}", reports[0], reports[1]));
    }
    if run.started != after.started {
        return Err(format!("state: not the same after {swaps} swaps in {bytes:02x?}"));
    }
    Ok(Some(Swapped { session: bytes, run: after, swaps }))
}

/// The bytes of an accepted session after a random number of swaps, and this number.
fn swapped(session: &[u8], run: &Session, prng: &mut Prng) -> (Vec<u8>, usize) {
    let Some((header, _)) = &run.started else { return (session.to_vec(), 0) };
    let mut bytes = header.bytes();
    let mut start = bytes.len();
    let mut steps = Vec::new();
    for step in &run.steps {
        steps.push((step.command, &session[start..step.end]));
        start = step.end;
    }
    let swaps = match prng.below(8) {
        0..=1 => swap_once(&mut steps, prng),
        2..=4 => swap_some(&mut steps, prng),
        _ => (0..prng.between(2, 40)).map(|_| swap_some(&mut steps, prng)).sum(),
    };
    bytes.extend(steps.iter().flat_map(|&(_, step)| step));
    (bytes, swaps)
}

type Steps<'a> = [(Command, &'a [u8])];

/// Swaps two neighbours only, if there are any.
fn swap_once(steps: &mut Steps, prng: &mut Prng) -> usize {
    let fit = |&place: &usize| at_two_nodes(steps[place - 1].0, steps[place].0);
    let places: Vec<usize> = (1..steps.len()).filter(fit).collect();
    if places.is_empty() {
        return 0;
    }
    let place = prng.pick(&places);
    steps.swap(place - 1, place);
    1
}

/// Swaps each two neighbours or leaves them; a step that was swapped is the next one's neighbour, so
/// that it can go far.
fn swap_some(steps: &mut Steps, prng: &mut Prng) -> usize {
    let mut swaps = 0;
    for place in 1..steps.len() {
        if at_two_nodes(steps[place - 1].0, steps[place].0) && prng.one_in(2) {
            steps.swap(place - 1, place);
            swaps += 1;
        }
    }
    swaps
}

/// The accepted part of a session, the same with neighbours swapped, and the pairs that were tried
/// on its way, each with the length of the session before it.
#[derive(Clone, Debug)]
pub struct Checked<'a> {
    pub accepted: &'a [u8],
    pub run: Session,
    pub swapped: Option<Swapped>,
    pub pairs: Vec<(usize, Pair)>,
}

/// How many pairs are tried in one session.
const PAIRS: usize = 3;

/// Checks a session, of which `run` is the run, up to its refused command: with neighbours swapped,
/// and single steps in a few of its states and in others that these are stirred to.
pub fn check<'a>(bytes: &'a [u8], run: &Session, prng: &mut Prng) -> Result<Checked<'a>, String> {
    let accepted = &bytes[..run.refused.map_or(bytes.len(), |refused| refused.offset)];
    let places = places(run, prng);
    let mut pairs = Vec::new();
    let mut passed = 0;
    let run = Session::run_watched(accepted, |header, state| {
        for _ in places.iter().filter(|&&place| place == passed) {
            let last = passed.checked_sub(1).map(|last| run.steps[last].end);
            let length = last.unwrap_or_else(|| header.bytes().len());
            let other = stirred(state, prng);
            let [here, there] = [state, &other]
                .map(|state| check_pair(header, state, draw_pair(header, state, prng)));
            pairs.push(here.and_then(|pair| there.map(|_| (length, pair))));
        }
        passed += 1;
    });
    let pairs = pairs.into_iter().collect::<Result<_, _>>()?;
    let swapped = check_swapped(accepted, &run, prng)?;
    Ok(Checked { accepted, run, swapped, pairs })
}

/// After how many commands the pairs are tried: mostly where the session itself has a step at a node.
/// With both steps it must not be too long.
fn places(run: &Session, prng: &mut Prng) -> [usize; PAIRS] {
    let most = run.steps.partition_point(|step| step.end + LONGEST_PAIR <= MOST_BYTES);
    let at_node = |&place: &usize| node_of(run.steps[place].command).is_some();
    let busy: Vec<usize> = (0..most).filter(at_node).collect();
    [(); PAIRS].map(|()| match prng.below(4) {
        1.. if !busy.is_empty() => prng.pick(&busy),
        _ => prng.below(most + 1),
    })
}
