//! Sessions from a seed: guided ones that stay accepted for long and contend for few sheets, and
//! damaged ones.

use crate::command::{Command, Header, MOST_BYTES, MOST_NODES, MOST_SAVES, MOST_SHEETS};
use crate::engine::{Engine, Lock, Phase, Save};
use crate::prng::Prng;
use std::collections::{BTreeSet, VecDeque};

/// One fuzz input: a session, and the report buffer as it stands before the call.
#[derive(Clone, Debug)]
pub struct Input {
    pub session: Vec<u8>,
    pub buffer: Vec<u8>,
}

pub fn input(prng: &mut Prng) -> Input {
    let session = if prng.one_in(IN_TURNS) {
        any_turns(prng)
    } else if prng.one_in(4) {
        damaged(prng)
    } else {
        guided(prng)
    };
    Input { session, buffer: buffer(prng) }
}

/// A report buffer of a telling length, filled with noise that the call must leave alone.
pub fn buffer(prng: &mut Prng) -> Vec<u8> {
    let length = match prng.below(32) {
        0 => 0,
        1 => 4_095,
        2 => prng.below(4_096),
        3 => 4_097,
        4..=9 => prng.between(4_096, 5_000),
        10 => prng.below(5_001),
        _ => 4_096,
    };
    let mut buffer = vec![0; length];
    prng.fill(&mut buffer);
    buffer
}

/// How a guided session is made.
struct Plan {
    header: Header,
    saves: usize,
    /// The session's aim in bytes.
    length: usize,
    /// The weights of BEGIN, READ, WRITE, SUBMIT, TAKE, DECIDE, APPLY, GIVE UP.
    weights: [usize; 8],
    /// Do the weights change on the way?
    moods: bool,
    /// A save in a later run takes a turn, which makes the run wide, once in so many commands.
    turn: usize,
    /// A refused command is kept once in so many; 0 for never.
    keep_refused: usize,
    /// A refusal to end with, looked for once the session has so many bytes.
    wanted: Option<(u8, usize)>,
    /// Refusal 5 is looked for on a save of its second run only, since few come that far.
    second_run: bool,
    /// The sheets that most READs and WRITEs go to.
    hot: usize,
}

impl Plan {
    fn in_turns(&self) -> bool {
        self.turn < WHOLE
    }
}

/// Rare APPLYs make long queues, rare SUBMITs large claims, rare TAKEs lagging nodes; many saves
/// that run at once and then are taken one after the other make second runs.
const MOODS: [[usize; 8]; 6] = [
    [12, 40, 30, 1, 1, 1, 1, 1],
    [4, 30, 24, 12, 3, 1, 1, 1],
    [1, 6, 6, 3, 30, 3, 1, 1],
    [1, 20, 14, 6, 10, 24, 5, 1],
    [2, 20, 14, 3, 8, 12, 24, 1],
    [6, 40, 26, 5, 16, 14, 14, 1],
];

/// A save is carried through from its BEGIN to its APPLY once in so many commands.
const WHOLE: usize = 32;

/// One session in so many is of saves that do nothing but open sheets in turns.
const IN_TURNS: usize = 300;

/// Without turns a save has few runs, so only READs and WRITEs can fill a long session.
const LONG: [usize; 8] = [3, 400, 300, 4, 24, 14, 14, 1];

pub fn header(prng: &mut Prng, nodes: usize, sheets: usize) -> Header {
    // A node that owns nothing only moves its place in the order; it must occur too.
    let used = if prng.one_in(4) { prng.between(1, nodes) } else { nodes };
    let owner = (0..sheets).map(|_| prng.below(used)).collect();
    Header { nodes, owner }
}

/// Counts of nodes, sheets and saves, and the length aimed at.
type Sizes = (usize, usize, usize, usize);

fn sizes(prng: &mut Prng) -> Sizes {
    match prng.below(40) {
        0..=14 => (prng.between(1, 3), prng.between(1, 3), prng.between(2, 5), 400),
        15..=27 => (prng.between(1, 4), prng.between(1, 6), prng.between(3, 10), 1_000),
        28..=34 => (prng.between(1, MOST_NODES), prng.between(2, 12), prng.between(6, 32), 2_500),
        35..=36 => (prng.between(1, MOST_NODES), prng.between(1, MOST_SHEETS), MOST_SAVES, 4_000),
        37 => (MOST_NODES, MOST_SHEETS, MOST_SAVES, 5_000),
        38 => (prng.between(1, MOST_NODES), prng.between(1, 8), MOST_SAVES, MOST_BYTES),
        _ => (MOST_NODES, MOST_SHEETS, MOST_SAVES, MOST_BYTES),
    }
}

/// Few saves, so that each of them has many turns, and sheets enough to open.
fn sizes_with_turns(prng: &mut Prng) -> Sizes {
    match prng.below(8) {
        0..=3 => (prng.between(1, 3), prng.between(2, 6), prng.between(2, 5), 600),
        4..=6 => (prng.between(1, 4), prng.between(3, 12), prng.between(3, 8), 1_600),
        _ => {
            (prng.between(1, MOST_NODES), prng.between(8, MOST_SHEETS), prng.between(3, 12), 2_500)
        }
    }
}

fn plan(prng: &mut Prng) -> Plan {
    let in_turns = prng.one_in(5);
    let (nodes, sheets, saves, length) =
        if in_turns { sizes_with_turns(prng) } else { sizes(prng) };
    let long = length == MOST_BYTES;
    let least = if in_turns { length / 3 } else { length / 8 };
    let length = if long { length } else { prng.between(least, length) };
    let wanted = if prng.one_in(2) {
        // The numbers that need a history are wanted more often than the others.
        let number = prng.pick(&[2, 3, 4, 5, 5, 5, 6, 6, 7, 7, 9, 10, 10, 11, 13, 14, 14]);
        // A DECIDE by another place than the last would come too early, and few saves come to such a place.
        match in_turns && prng.one_in(2) {
            true => Some((10, prng.below(length) / 8)),
            false => Some((number, prng.below(length))),
        }
    } else {
        None
    };
    Plan {
        header: header(prng, nodes, sheets),
        saves,
        length,
        weights: if long { LONG } else { MOODS[0] },
        moods: !long,
        turn: if in_turns { prng.between(1, 4) } else { 64 },
        keep_refused: prng.pick(&[0, 0, 0, 2_000, 300]),
        wanted,
        second_run: prng.one_in(2),
        hot: prng.between(1, sheets.min(if in_turns { 2 } else { 6 })),
    }
}

fn mood(prng: &mut Prng, saves: usize) -> [usize; 8] {
    let mut weights = prng.pick(&MOODS);
    if saves > 16 {
        // A crowd must come to its SUBMITs before the session ends.
        weights[0] *= 3;
        weights[3] *= 3;
    }
    weights
}

pub fn guided(prng: &mut Prng) -> Vec<u8> {
    let mut plan = plan(prng);
    let mut engine = Engine::new(&plan.header);
    let mut session = plan.header.bytes();
    let mut whole = if plan.in_turns() { opening(prng, &plan) } else { Vec::new() };
    let mut in_vain = 0;
    while session.len() < plan.length && in_vain < 400 {
        if plan.moods && prng.one_in(24) {
            plan.weights = mood(prng, plan.saves);
        }
        if let Some((number, from)) = plan.wanted {
            if session.len() >= from && prng.one_in(4) {
                if let Some(end) = refused_with(prng, &plan, &engine, number) {
                    session.extend(end);
                    session.truncate(MOST_BYTES);
                    return session;
                }
            }
        }
        if plan.moods && whole.is_empty() && prng.one_in(WHOLE) {
            whole = whole_save(prng, &plan, &engine);
        }
        if plan.moods && whole.is_empty() && prng.one_in(plan.turn) {
            whole = turn(prng, &plan, &engine);
        }
        let command = whole.pop().unwrap_or_else(|| candidate(prng, &plan, &engine));
        let bytes = command.bytes();
        let too_early = ends_too_early(prng, &plan, &engine, command);
        if session.len() + bytes.len() > MOST_BYTES || too_early {
            in_vain += 1;
            continue;
        }
        match engine.step(command) {
            Ok(_) => {
                session.extend(bytes);
                in_vain = 0;
            }
            Err(_) if plan.keep_refused > 0 && prng.one_in(plan.keep_refused) => {
                session.extend(bytes);
                return session;
            }
            Err(_) => in_vain += 1,
        }
    }
    session
}

/// The steps of a save that is carried through at one sheet, the last one first: what others have read
/// changes beside them, or is stored again.
fn whole_save(prng: &mut Prng, plan: &Plan, engine: &Engine) -> Vec<Command> {
    let save = save_in(prng, plan, engine, &[Phase::Unused]);
    let sheet = prng.below(plan.hot);
    let node = plan.header.owner[sheet];
    let content = content_for(prng, engine, sheet);
    let behind = engine.order.len() - engine.taken[node];
    let mut steps = vec![Command::Apply { node, save }, Command::Decide { save }];
    steps.extend(vec![Command::Take { node }; behind + 1]);
    steps.extend([Command::Submit { save }, Command::Write { save, sheet, content }]);
    steps.extend([Command::Read { save, sheet }, Command::Begin { save }]);
    steps
}

/// How a session in turns begins, the last step first: some saves meet at sheet 0, where the first of them
/// commits and is carried out, and the others fail. The last one may stand aside, before the others in the
/// order, with an X on another sheet that it saves nothing to: its X goes, and the counter stays.
fn opening(prng: &mut Prng, plan: &Plan) -> Vec<Command> {
    // Of two or three saves one is soon alone, so that it can be valid in the end.
    let any = prng.between(2, plan.saves);
    let saves = prng.pick(&[2, 3, any]).min(plan.saves);
    let aside = (saves > 2 && plan.header.sheets() > 1 && !prng.one_in(3)).then_some(saves - 1);
    let mut steps: Vec<Command> = (0..saves).map(|save| Command::Begin { save }).collect();
    for save in 0..saves {
        let other = prng.below(plan.header.sheets());
        let sheet = if aside == Some(save) { other.max(1) } else { 0 };
        let content = if aside == Some(save) { 0 } else { content(prng) };
        steps.push(Command::Read { save, sheet });
        if save == 0 || aside == Some(save) || !prng.one_in(4) {
            steps.push(Command::Write { save, sheet, content });
        }
        if prng.one_in(3) {
            steps.push(Command::Read { save, sheet: other });
        }
    }
    let order = aside.into_iter().chain((0..saves).filter(|&save| aside != Some(save)));
    steps.extend(order.map(|save| Command::Submit { save }));
    for node in 0..plan.header.nodes {
        // A node that has nothing to do yet lags more often.
        let takes = plan.header.owner[0] == node || prng.one_in(3);
        steps.extend(vec![Command::Take { node }; if takes { saves } else { 1 }]);
    }
    steps.push(Command::Decide { save: 0 });
    steps.extend((0..plan.header.nodes).map(|node| Command::Apply { node, save: 0 }));
    steps.push(Command::Decide { save: 1 });
    steps.reverse();
    steps
}

/// The steps of a turn, the last one first: a later run opens a sheet, or writes one that is only S, is
/// submitted again and taken at most of its nodes; then the saves that come to stand first are decided.
fn turn(prng: &mut Prng, plan: &Plan, engine: &Engine) -> Vec<Command> {
    let save = save_in(prng, plan, engine, &[Phase::SecondRun]);
    if engine.saves[save].phase != Phase::SecondRun {
        return Vec::new();
    }
    let mut steps = some_takes(prng, plan, engine);
    steps.extend(touch(prng, plan, engine, save));
    let given_up = prng.one_in(24);
    steps.push(if given_up { Command::GiveUp { save } } else { Command::Submit { save } });
    let nodes = concerned(prng, plan, engine, save, &steps);
    // Now and then the nodes take the last place only after the others were decided and carried out.
    let late = prng.one_in(4);
    for &node in &nodes {
        let behind = engine.order.len() - engine.taken[node];
        let last = !late && !prng.one_in(12);
        steps.extend(vec![Command::Take { node }; behind + last as usize]);
    }
    let mut others: Vec<usize> =
        (0..plan.saves).filter(|&other| engine.saves[other].phase == Phase::Submitted).collect();
    prng.shuffle(&mut others);
    steps.extend(others.iter().map(|&save| Command::Decide { save }));
    if late {
        for &save in &others {
            steps.extend((0..plan.header.nodes).map(|node| Command::Apply { node, save }));
        }
        steps.extend(nodes.iter().map(|&node| Command::Take { node }));
    }
    steps.push(Command::Decide { save });
    steps.reverse();
    steps
}

/// Now and then a node that lags passes former places of a save that runs.
fn some_takes(prng: &mut Prng, plan: &Plan, engine: &Engine) -> Vec<Command> {
    if !prng.one_in(3) {
        return Vec::new();
    }
    let node = prng.below(plan.header.nodes);
    let behind = engine.order.len() - engine.taken[node];
    vec![Command::Take { node }; prng.below(behind + 1)]
}

/// Most of the nodes that own a sheet of the save's claim or one that these steps read, and a few others.
fn concerned(
    prng: &mut Prng,
    plan: &Plan,
    engine: &Engine,
    save: usize,
    steps: &[Command],
) -> Vec<usize> {
    let read = |step: &Command| match *step {
        Command::Read { sheet, .. } => Some(sheet),
        _ => None,
    };
    let claimed = engine.saves[save].claim.keys().copied();
    let sheets = claimed.chain(steps.iter().filter_map(read));
    let owners: BTreeSet<usize> = sheets.map(|sheet| plan.header.owner[sheet]).collect();
    let mut nodes: Vec<usize> = (0..plan.header.nodes).collect();
    prng.shuffle(&mut nodes);
    nodes.retain(|node| if owners.contains(node) { !prng.one_in(16) } else { prng.one_in(8) });
    nodes
}

/// READs and WRITEs that make the save's later run wide, if its claim is not whole.
fn touch(prng: &mut Prng, plan: &Plan, engine: &Engine, save: usize) -> Vec<Command> {
    let claim = &engine.saves[save].claim;
    let with = |lock: Option<&Lock>| -> Vec<usize> {
        (0..plan.header.sheets()).filter(|sheet| claim.get(sheet) == lock).collect()
    };
    let [outside, shared, exclusive] = [None, Some(&Lock::S), Some(&Lock::X)].map(with);
    let mut steps = Vec::new();
    let mut touched = |prng: &mut Prng, sheets: &[usize], written: bool| {
        let sheet = prng.pick(sheets);
        steps.push(Command::Read { save, sheet });
        if written {
            let content = content_for(prng, engine, sheet);
            steps.push(Command::Write { save, sheet, content });
        }
    };
    if !exclusive.is_empty() && prng.one_in(2) {
        let written = prng.one_in(2);
        touched(prng, &exclusive, written);
    }
    let opens = !outside.is_empty() && (shared.is_empty() || !prng.one_in(3));
    if opens {
        // Another save's X does not hold it.
        let x_at =
            |sheet: &usize| engine.sheets[*sheet].queue.iter().any(|entry| entry.lock == Lock::X);
        let held: Vec<usize> = outside.iter().copied().filter(x_at).collect();
        let written = prng.one_in(4);
        let sheets = if held.is_empty() || prng.one_in(2) { &outside } else { &held };
        touched(prng, sheets, written);
    }
    if !shared.is_empty() && (!opens || prng.one_in(6)) {
        touched(prng, &shared, true);
    }
    steps
}

/// A session in turns must not commit its saves too soon; a long one needs a running save to its end, or
/// nothing could fill it.
fn ends_too_early(prng: &mut Prng, plan: &Plan, engine: &Engine, command: Command) -> bool {
    if let Command::Submit { save } = command {
        let save = &engine.saves[save];
        if plan.in_turns() && save.phase == Phase::SecondRun && !save.wide() {
            return !prng.one_in(8);
        }
    }
    if plan.moods || !matches!(command, Command::Submit { .. } | Command::GiveUp { .. }) {
        return false;
    }
    let can_fill = |save: &&Save| save.phase == Phase::FirstRun && !save.copies.is_empty();
    engine.saves.iter().filter(can_fill).count() < 2
}

/// The bytes of a command that earns the refusal `number` now, if one is found.
fn refused_with(prng: &mut Prng, plan: &Plan, engine: &Engine, number: u8) -> Option<Vec<u8>> {
    let mut bytes = match number {
        2 => vec![prng.pick(&[0, 9, 10, 0x80, 0xff])],
        3 => {
            if prng.one_in(2) {
                // An operand out of range does not count where others are missing.
                return Some(vec![prng.pick(&[2, 3, 7]), prng.pick(&[32, 255])]);
            }
            let mut cut = any_command(prng, plan).bytes();
            cut.truncate(prng.between(1, cut.len() - 1));
            return Some(cut);
        }
        4 => out_of_range(prng, plan),
        10 if plan.in_turns() && !prng.one_in(4) => decide_too_early(prng, engine)?.bytes(),
        _ => {
            let found = (0..20)
                .map(|round| {
                    if round % 2 == 0 {
                        let phase = prng.pick(&Phase::ALL);
                        let save = save_in(prng, plan, engine, &[phase]);
                        command_on(prng, &plan.header, save)
                    } else {
                        candidate(prng, plan, engine)
                    }
                })
                .filter(|command| {
                    let phase = command.save().map(|save| engine.saves[save].phase);
                    number != 5 || !plan.second_run || phase == Some(Phase::SecondRun)
                })
                .find(|&command| engine.refusal(command) == Some(number));
            found?.bytes()
        }
    };
    if prng.one_in(3) {
        // What stands after the refused command must not be read.
        bytes.extend(any_command(prng, plan).bytes());
    }
    Some(bytes)
}

/// The DECIDE of a save that is submitted again and not taken by all its nodes: best by some of them, and with
/// no other save in its queues, so that its entries there are granted.
fn decide_too_early(prng: &mut Prng, engine: &Engine) -> Option<Command> {
    let places = |save: usize| engine.order.iter().filter(|&&other| other == save).count();
    let submitted =
        |&save: &usize| engine.saves[save].phase == Phase::Submitted && places(save) > 1;
    let refused = |&save: &usize| engine.refusal(Command::Decide { save }).is_some();
    let entries = |&save: &usize| {
        let queues = engine.saves[save].claim.keys().map(|&sheet| &engine.sheets[sheet].queue);
        let own = queues.clone().any(|queue| queue.iter().any(|entry| entry.save == save));
        let others = queues.flatten().filter(|entry| entry.save != save).count();
        (!own, others)
    };
    let early = (0..MOST_SAVES).filter(submitted).filter(refused).min_by_key(entries);
    let good = early.filter(|save| entries(save) == (false, 0) || prng.one_in(64));
    good.map(|save| Command::Decide { save })
}

fn out_of_range(prng: &mut Prng, plan: &Plan) -> Vec<u8> {
    let save = prng.pick(&[0, 31, 32, 33, 64, 255]);
    let sheet = prng.pick(&[0, plan.header.sheets() - 1, plan.header.sheets(), 64, 255]);
    let node = prng.pick(&[0, plan.header.nodes - 1, plan.header.nodes, 8, 255]);
    let content = 0;
    match prng.below(8) {
        0 => Command::Begin { save },
        1 => Command::Read { save, sheet },
        2 => Command::Write { save, sheet, content },
        3 => Command::Submit { save },
        4 => Command::Take { node },
        5 => Command::Decide { save },
        6 => Command::Apply { node, save },
        _ => Command::GiveUp { save },
    }
    .bytes()
}

/// Any command in range, whatever the state.
fn any_command(prng: &mut Prng, plan: &Plan) -> Command {
    let save = prng.below(plan.saves.min(MOST_SAVES));
    command_on(prng, &plan.header, save)
}

/// Any command, on that save if it is on one.
pub fn command_on(prng: &mut Prng, header: &Header, save: usize) -> Command {
    let sheet = prng.below(header.sheets());
    let node = prng.below(header.nodes);
    match prng.below(8) {
        0 => Command::Begin { save },
        1 => Command::Read { save, sheet },
        2 => Command::Write { save, sheet, content: content(prng) },
        3 => Command::Submit { save },
        4 => Command::Take { node },
        5 => Command::Decide { save },
        6 => Command::Apply { node, save },
        _ => Command::GiveUp { save },
    }
}

/// Contents of all sizes: all digit counts, the byte borders, and repeats.
fn content(prng: &mut Prng) -> u32 {
    match prng.below(8) {
        0 => 0,
        1 => prng.below(3) as u32,
        2 => u32::MAX - prng.below(2) as u32,
        3 => 10u32.pow(prng.below(10) as u32),
        4 => 10u32.pow(prng.below(10) as u32) - 1,
        5 => 1 << prng.below(32),
        _ => (prng.draw() as u32) >> prng.below(32),
    }
}

/// Mostly any content; else the one that is there, the one there but for a bit, or another that a save
/// which is not over has a copy of, so that a content comes back to its readers.
fn content_for(prng: &mut Prng, engine: &Engine, sheet: usize) -> u32 {
    let there = engine.sheets[sheet].content;
    let running = engine.saves.iter().filter(|save| save.phase < Phase::Committed);
    let copies = running.filter_map(|save| save.copies.get(&sheet));
    let others: Vec<u32> =
        copies.map(|copy| copy.content).filter(|&content| content != there).collect();
    match prng.below(16) {
        0..=1 => there,
        2 => there ^ 1 << prng.below(32),
        3..=7 if !others.is_empty() => prng.pick(&others),
        _ => content(prng),
    }
}

/// A command of a weighted kind, for a save in a phase that allows it where there is one.
fn candidate(prng: &mut Prng, plan: &Plan, engine: &Engine) -> Command {
    let total: usize = plan.weights.iter().sum();
    let mut ticket = prng.below(total);
    let mut kind = 0;
    while ticket >= plan.weights[kind] {
        ticket -= plan.weights[kind];
        kind += 1;
    }
    let running = [Phase::FirstRun, Phase::SecondRun];
    let node = prng.below(plan.header.nodes);
    match kind {
        0 => Command::Begin { save: save_in(prng, plan, engine, &[Phase::Unused]) },
        1 => {
            let save = save_in(prng, plan, engine, &running);
            let claim: Vec<usize> = engine.saves[save].claim.keys().copied().collect();
            Command::Read { save, sheet: sheet_of(prng, plan, &claim) }
        }
        2 => {
            let save = save_in(prng, plan, engine, &running);
            let copies: Vec<usize> = engine.saves[save].copies.keys().copied().collect();
            let sheet = sheet_of(prng, plan, &copies);
            Command::Write { save, sheet, content: content_for(prng, engine, sheet) }
        }
        3 => {
            // Saves without copies have empty claims: a few of them are enough.
            let first = save_in(prng, plan, engine, &running);
            let full = |save: usize| !engine.saves[save].copies.is_empty();
            let save = if full(first) || prng.one_in(4) {
                first
            } else {
                save_in(prng, plan, engine, &running)
            };
            Command::Submit { save }
        }
        4 => Command::Take { node },
        5 => Command::Decide { save: save_in(prng, plan, engine, &[Phase::Submitted]) },
        6 => {
            let ended = [Phase::Committed, Phase::Dropped];
            Command::Apply { node, save: save_in(prng, plan, engine, &ended) }
        }
        _ => Command::GiveUp { save: save_in(prng, plan, engine, &running) },
    }
}

/// Mostly one of the fitting sheets, else a hot one, else any.
fn sheet_of(prng: &mut Prng, plan: &Plan, fitting: &[usize]) -> usize {
    match prng.below(8) {
        0 => prng.below(plan.header.sheets()),
        1..=5 if !fitting.is_empty() => prng.pick(fitting),
        _ => prng.below(plan.hot),
    }
}

fn save_in(prng: &mut Prng, plan: &Plan, engine: &Engine, phases: &[Phase]) -> usize {
    let fit = |save: &usize| phases.contains(&engine.saves[*save].phase);
    let fitting: Vec<usize> = (0..plan.saves).filter(fit).collect();
    if fitting.is_empty() {
        prng.below(plan.saves)
    } else {
        prng.pick(&fitting)
    }
}

/// A session that was right and has come to harm.
pub fn damaged(prng: &mut Prng) -> Vec<u8> {
    let mut session = guided(prng);
    match prng.below(12) {
        0 => session.truncate(prng.below(session.len() + 1)),
        1 => {
            for _ in 0..prng.between(1, 4) {
                let place = prng.below(session.len());
                session[place] ^= 1 << prng.below(8);
            }
        }
        2 => {
            for _ in 0..prng.between(1, 3) {
                let place = prng.below(session.len());
                session[place] = small_byte(prng);
            }
        }
        3 => {
            // The head of one session with the end of another.
            let other = guided(prng);
            session.truncate(prng.below(session.len() + 1));
            session.extend(&other[prng.below(other.len() + 1)..]);
        }
        4 => {
            let from = prng.below(session.len());
            let to = prng.between(from, session.len());
            let part = session[from..to].to_vec();
            let place = prng.below(session.len() + 1);
            session.splice(place..place, part);
        }
        5 => {
            let from = prng.below(session.len());
            let to = session.len().min(from + prng.between(1, 12));
            session.drain(from..to);
        }
        6 => session[0] = prng.pick(&[0, 1, 8, 9, 16, 255]),
        7 => session[1] = prng.pick(&[0, 1, 64, 65, 128, 255]),
        8 => {
            let sheets = session[1] as usize;
            let owner = 2 + prng.below(sheets);
            session[owner] = prng.pick(&[session[0] - 1, session[0], session[0] + 1, 255]);
        }
        9 => {
            // A header that is cut, or the first bytes alone.
            let sheets = session[1] as usize;
            session.truncate(prng.below(2 + sheets + 1));
        }
        10 => {
            // Lengths about the limit: filled with READs, which may be refused, or with noise.
            let length = prng.between(MOST_BYTES - 4, MOST_BYTES + 2);
            let noise = prng.one_in(2);
            while session.len() < length {
                let save = prng.below(MOST_SAVES) as u8;
                let bytes = [2, save, 0];
                session.extend(if noise { [small_byte(prng); 3] } else { bytes });
            }
            session.truncate(length);
        }
        _ => {
            // Noise of any length, with and without a right header.
            let length = if prng.one_in(2) { prng.below(MOST_BYTES + 3) } else { prng.below(80) };
            let keep = if prng.one_in(3) { 0 } else { 2 + session[1] as usize };
            session.truncate(keep);
            while session.len() < length {
                session.push(small_byte(prng));
            }
            session.truncate(length);
        }
    }
    session
}

/// A byte that is often a command byte or an operand in range.
fn small_byte(prng: &mut Prng) -> u8 {
    match prng.below(4) {
        0 => prng.draw() as u8,
        1 => prng.below(3) as u8,
        _ => prng.below(10) as u8,
    }
}

/// A session of exactly 16,384 bytes without refusal; each prefix of it is an input of its own.
pub fn full(prng: &mut Prng) -> Vec<u8> {
    let mut plan = plan(prng);
    plan.header = header(prng, 4, 8);
    plan.saves = MOST_SAVES - 1;
    plan.weights = LONG;
    plan.hot = 4;
    let mut engine = Engine::new(&plan.header);
    let mut session = plan.header.bytes();
    let mut put = |engine: &mut Engine, command: Command| {
        if engine.step(command).is_ok() {
            session.extend(command.bytes());
        }
        MOST_BYTES - session.len()
    };
    // The last save has a copy from the start, so that its READs and WRITEs fill any rest.
    let (save, sheet) = (MOST_SAVES - 1, 0);
    put(&mut engine, Command::Begin { save });
    let mut rest = put(&mut engine, Command::Read { save, sheet });
    // All the others may have ended before the session is full.
    let mut in_vain = 0;
    while rest > 40 && in_vain < 400 {
        let command = candidate(prng, &plan, &engine);
        let before = rest;
        rest = put(&mut engine, command);
        in_vain = if rest < before { 0 } else { in_vain + 1 };
    }
    while rest > 0 {
        let command = if rest % 3 == 0 || (rest > 40 && prng.one_in(2)) {
            Command::Read { save, sheet }
        } else {
            Command::Write { save, sheet, content: content(prng) }
        };
        rest = put(&mut engine, command);
    }
    session
}

/// Turns on many sheets at few nodes, some of which own nothing: a save then has up to 128 places, the order
/// up to 1,500.
fn any_turns(prng: &mut Prng) -> Vec<u8> {
    let nodes = prng.pick(&[1, 2, 3, MOST_NODES]);
    let idle = if prng.one_in(2) { 1.min(nodes - 1) } else { 0 };
    let sheets = prng.pick(&[MOST_SHEETS, MOST_SHEETS, 56]);
    let owners = Header { nodes, ..header(prng, nodes - idle, sheets) };
    let saves = prng.pick(&[2, 3, 8, MOST_SAVES - 1]);
    let length = prng.between(8_000, MOST_BYTES);
    let rest = if prng.one_in(2) { prng.below(length / 4) } else { 0 };
    let all = prng.one_in(2);
    turns(prng, owners, saves, length, rest, all)
}

/// So many saves hold an X on sheet 0 and stand in its queue, where one before them has failed them all. The
/// first of them opens a sheet, or writes one that is only S, and goes to the end, where the X of the others
/// fails it again; then it is the next one's turn. A save whose claim is whole commits. In the rest of the
/// session all nodes catch up. The one before them has written all sheets, or only that one.
pub fn turns(
    prng: &mut Prng,
    header: Header,
    saves: usize,
    length: usize,
    rest: usize,
    all: bool,
) -> Vec<u8> {
    let mut line = Line::new(header, length);
    let nodes = line.header.nodes;
    let first = saves;
    for save in [first].into_iter().chain(0..saves) {
        line.put(Command::Begin { save });
        line.put(Command::Read { save, sheet: 0 });
    }
    if all {
        for sheet in 1..line.header.owner.len() {
            line.put(Command::Read { save: first, sheet });
            line.put(Command::Write { save: first, sheet, content: content(prng) });
        }
    }
    // Save 0 has an S to begin with: nothing that it could have less.
    for save in 1..=first {
        line.put(Command::Write { save, sheet: 0, content: content(prng) });
    }
    for save in [first].into_iter().chain(0..saves) {
        line.put(Command::Submit { save });
        (0..nodes).for_each(|node| line.put(Command::Take { node }));
    }
    line.put(Command::Decide { save: first });
    (0..nodes).for_each(|node| line.put(Command::Apply { node, save: first }));
    let mut waiting: VecDeque<usize> = (0..saves).collect();
    while let Some(save) = waiting.pop_front().filter(|_| line.room() > rest.max(16)) {
        // Nodes that own nothing of the claim may lag behind.
        let claimed = line.engine.saves[save].claim.keys();
        let owners: BTreeSet<usize> = claimed.map(|&sheet| line.header.owner[sheet]).collect();
        owners.into_iter().for_each(|node| line.catch_up(node));
        line.put(Command::Decide { save });
        if line.engine.saves[save].phase == Phase::SecondRun {
            line.open(prng, save);
            line.put(Command::Submit { save });
            line.catch_up(line.header.owner[0]);
        }
        if line.engine.saves[save].phase == Phase::Submitted {
            waiting.push_back(save);
        } else {
            (0..nodes).for_each(|node| line.put(Command::Apply { node, save }));
        }
    }
    if rest > 0 {
        (0..nodes).for_each(|node| line.catch_up(node));
    }
    line.session
}

/// A session that grows by accepted commands only, up to a length.
struct Line {
    header: Header,
    engine: Engine,
    session: Vec<u8>,
    length: usize,
}

impl Line {
    fn new(header: Header, length: usize) -> Line {
        let (engine, session) = (Engine::new(&header), header.bytes());
        Line { header, engine, session, length }
    }

    fn room(&self) -> usize {
        self.length - self.session.len()
    }

    fn catch_up(&mut self, node: usize) {
        for _ in self.engine.taken[node]..self.engine.order.len() {
            self.put(Command::Take { node });
        }
    }

    fn put(&mut self, command: Command) {
        let bytes = command.bytes();
        if bytes.len() <= self.room() && self.engine.step(command).is_ok() {
            self.session.extend(bytes);
        }
    }

    /// The save's run takes in the least that makes it wide: one more sheet, or an X for an S.
    fn open(&mut self, prng: &mut Prng, save: usize) {
        let claim = &self.engine.saves[save].claim;
        let with =
            |lock: Option<&Lock>| (0..self.header.sheets()).find(|sheet| claim.get(sheet) == lock);
        let [outside, shared] = [None, Some(&Lock::S)].map(with);
        // Without an X on sheet 0 it would fail no other.
        let opens = shared.is_none() || shared > Some(0) && !prng.one_in(4);
        if let Some(sheet) = outside.filter(|_| opens) {
            self.put(Command::Read { save, sheet });
        } else if let Some(sheet) = shared {
            self.put(Command::Read { save, sheet });
            self.put(Command::Write { save, sheet, content: content(prng) });
        }
    }
}
