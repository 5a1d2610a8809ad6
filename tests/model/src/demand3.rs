//! Demand 3, checked at run time on a session: the reads, the store, the runs, the bound and the
//! progress. A second run is any run after the first.

use crate::command::{Command, Header, MOST_SAVES};
use crate::engine::{Answer, Engine, Phase};
use crate::prng::Prng;
use crate::serial::{serial_run, Fed, Serial};
use crate::session::{Session, Step};

/// What the checks met, so that a run can say how much they were worth.
#[derive(Clone, Copy, Debug, Default, PartialEq, Eq)]
pub struct Met {
    pub reads: u64,
    pub stores: u64,
    pub queued_states: u64,
    pub tail_steps: u64,
    /// The least distance of a tail from its bound, over tails with a place in the order.
    pub least_slack: Option<u64>,
}

impl Met {
    pub fn add(&mut self, other: Met) {
        self.reads += other.reads;
        self.stores += other.stores;
        self.queued_states += other.queued_states;
        self.tail_steps += other.tail_steps;
        self.least_slack = match (self.least_slack, other.least_slack) {
            (Some(one), Some(two)) => Some(one.min(two)),
            (one, two) => one.or(two),
        };
    }
}

/// Checks all of demand 3 on a session: at its end, at one prefix, and after a tail from both.
pub fn check(bytes: &[u8], prng: &mut Prng) -> Result<(Session, Met), String> {
    let mut met = Met::default();
    let mut stuck = None;
    let mut step = 0;
    let session = Session::run_watched(bytes, |_, engine| {
        if has_entry(engine) {
            met.queued_states += 1;
            if !can_go_on(engine) {
                stuck.get_or_insert(step);
            }
        }
        step += 1;
    });
    if let Some(step) = stuck {
        return Err(format!("progress: stuck after {step} accepted commands"));
    }
    if let Some((header, engine)) = &session.started {
        // Every prefix is a session of its own; one at random is enough for each call.
        let some = prng.below(session.steps.len() + 1);
        let prefix = &session.steps[..some];
        let mut state = Engine::new(header);
        for step in prefix {
            if state.step(step.command) != Ok(step.answer) {
                return Err(format!("a prefix of {some} commands answers otherwise"));
            }
        }
        check_from(header, prefix, state, prng, &mut met)?;
        check_from(header, &session.steps, engine.clone(), prng, &mut met)?;
    }
    Ok((session, met))
}

/// Checks a list of accepted commands and then a random tail that exhausts the four kinds.
fn check_from(
    header: &Header,
    steps: &[Step],
    mut engine: Engine,
    prng: &mut Prng,
    met: &mut Met,
) -> Result<(), String> {
    let serial = check_list(header, steps, &engine, met)?;

    // Each run that is already wide can take one place more.
    let places = (serial.places + serial.wide) as u64;
    let bound = (2 * header.nodes as u64 + 2) * places;
    let mut whole = steps.to_vec();
    let mut tail = 0;
    let mut candidates = four_kinds(&engine);
    // A pass without an accepted command shows that none of the four kinds is left.
    loop {
        let before = tail;
        prng.shuffle(&mut candidates);
        for &command in &candidates {
            if !of_four_kinds(&engine, command) {
                continue;
            }
            if let Ok(answer) = engine.step(command) {
                whole.push(Step { command, answer, end: 0, cell: None });
                tail += 1;
                if tail > bound {
                    return Err(format!("bound: over {bound} steps after {} ", steps.len()));
                }
                if has_entry(&engine) && !can_go_on(&engine) {
                    return Err(format!("progress: stuck {tail} steps into the tail"));
                }
            }
        }
        if tail == before {
            break;
        }
    }
    met.tail_steps += tail;
    if places > 0 {
        let slack = bound - tail;
        met.least_slack = Some(met.least_slack.map_or(slack, |least| least.min(slack)));
    }
    if has_entry(&engine) {
        return Err("progress: an entry is left after the tail".to_string());
    }
    check_list(header, &whole, &engine, met).map(|_| ())
}

/// The reads, the store and the runs after a list of accepted commands that led to `engine`; gives their
/// serial run.
pub fn check_list(
    header: &Header,
    steps: &[Step],
    engine: &Engine,
    met: &mut Met,
) -> Result<Serial, String> {
    let fed: Vec<Fed> = steps.iter().map(fed).collect();
    let serial = serial_run(header, &fed);
    for read in &serial.met {
        met.reads += 1;
        let answered = steps[read.step].answer;
        if answered != Answer::Content(read.content) {
            return Err(format!(
                "reads: step {} answered {answered:?}, the serial run {}",
                read.step, read.content
            ));
        }
    }
    let most_runs = 2 + 2 * header.sheets() as u32;
    if let Some(save) = serial.runs.iter().position(|&runs| runs > most_runs) {
        return Err(format!("runs: save {save} entered {}", serial.runs[save]));
    }
    if serial.committed.iter().all(|&save| carried_out(steps, engine, save)) {
        met.stores += 1;
        let store: Vec<(u32, u32)> =
            engine.sheets.iter().map(|sheet| (sheet.content, sheet.wct)).collect();
        if store != serial.store {
            return Err(format!("store: {store:?}, the serial run {:?}", serial.store));
        }
    }
    Ok(serial)
}

/// What the serial run is fed of a step.
pub fn fed(step: &Step) -> Fed {
    match (step.command, step.answer) {
        (Command::Decide { save }, answer) => {
            Fed::Decided { save, committed: answer == Answer::Committed }
        }
        (command, _) => Fed::Command(command),
    }
}

/// Was APPLY accepted at each node that owns a sheet of the save's claim?
fn carried_out(steps: &[Step], engine: &Engine, save: usize) -> bool {
    engine.saves[save].claim.keys().all(|&sheet| {
        let node = engine.sheets[sheet].owner;
        steps.iter().rev().any(|step| step.command == Command::Apply { node, save })
    })
}

fn has_entry(engine: &Engine) -> bool {
    engine.sheets.iter().any(|sheet| !sheet.queue.is_empty())
}

/// Is some TAKE, DECIDE, second-run SUBMIT or APPLY accepted next? All are tried.
fn can_go_on(engine: &Engine) -> bool {
    four_kinds(engine)
        .into_iter()
        .any(|command| of_four_kinds(engine, command) && engine.refusal(command).is_none())
}

/// Every command that could be of one of the four kinds now or later.
fn four_kinds(engine: &Engine) -> Vec<Command> {
    let mut all = Vec::new();
    for save in 0..MOST_SAVES {
        all.push(Command::Decide { save });
        all.push(Command::Submit { save });
    }
    for node in 0..engine.taken.len() {
        all.push(Command::Take { node });
        all.extend((0..MOST_SAVES).map(|save| Command::Apply { node, save }));
    }
    all
}

/// A SUBMIT is of the four kinds in the second run only.
fn of_four_kinds(engine: &Engine, command: Command) -> bool {
    match command {
        Command::Take { .. } | Command::Decide { .. } | Command::Apply { .. } => true,
        Command::Submit { save } => engine.saves[save].phase == Phase::SecondRun,
        _ => false,
    }
}
