//! Compares the engine, linked as a static library, with the model on seeded sessions, each with a
//! list of steps to be written and with neighbouring steps swapped, with every command's answer and with the
//! state's text, and checks demand 3, the causes of TAKE's answers, the counters that APPLY raises, the saves
//! that saved nothing and the second runs that open another sheet on each.
//!
//! `fuzz --sessions N --seed S [--prefixes] [--lengths] [--states]`
//!
//! `--prefixes` compares the answer after every command of every session, and some states on its way, not of a
//! share only;
//! `--lengths` adds every length from 0 to 16,386 bytes; `--states` adds every command in every
//! state that small sessions reach. The end status is 1 on a difference, on a
//! broken demand, and where a run of 1,000 sessions or more has left out a refusal, or one of
//! 20,000 or more a command in some phase of its save, an outcome of a writing or a reading, a kind
//! of neighbours, of causes, of marks, of saves that saved nothing, of wide runs, of a state's lines or of
//! a list's ends.

use model::command::{Command, Header, MOST_BYTES};
use model::demand3::{self, Met};
use model::engine::{Answer, Phase, Verdict};
use model::generate::{self, Input};
use model::neighbours::every_pair;
use model::prng::Prng;
use model::report::{write_report, LEAST_BUFFER};
use model::session::{coded_answer, Cell, Session};
use model::states;
use rooms::Tally;
use std::collections::BTreeMap;
use std::process::exit;

mod answers;
mod causes;
mod counters;
mod engine;
mod neighbours;
mod rooms;
mod state_text;
mod unchanged;
mod wide;
mod writing;

/// What stands on both sides of a buffer, to see a write outside it.
const GUARD: usize = 64;

/// Sessions with at most so many commands have all their prefixes compared, longer ones a sample.
const ALL_PREFIXES: usize = 300;
const SAMPLE: usize = 40;

/// The seven commands that are on a save, by its phases.
const CELLS: usize = 7 * Phase::ALL.len();

/// From so many sessions on, a refusal or a kind of commit that never occurred is a failure; from so
/// many, a command that never came in some phase of its save, an outcome of a writing or reading, a
/// kind of neighbours, of causes, of marks, of saves that saved nothing, of wide runs, of a state's lines or
/// of a list's ends.
const ALL_REFUSALS: u64 = 1_000;
const ALL_CELLS: u64 = 20_000;

#[derive(Default)]
struct Counts {
    sessions: u64,
    prefixes: u64,
    accepted: u64,
    first_commits: u64,
    second_commits: u64,
    refusals: [u64; 15],
    cells: BTreeMap<Cell, u64>,
    takes_valid: u64,
    takes_invalid: u64,
    second_runs: u64,
    second_run_drops: u64,
    full_length: u64,
    all_saves: u64,
    longest_queue: usize,
    met: Met,
    state: state_text::Counts,
    answers: answers::Counts,
    causes: causes::Counts,
    counters: counters::Counts,
    unchanged: unchanged::Counts,
    wide: wide::Counts,
    neighbours: neighbours::Counts,
    writing: writing::Counts,
}

struct Arguments {
    sessions: u64,
    seed: u64,
    prefixes: bool,
    lengths: bool,
    states: bool,
}

fn main() {
    let arguments = arguments();
    let mut counts = Counts::default();
    for number in 0..arguments.sessions {
        // Each session has its own seed, so that a difference is found again at once.
        let seed = arguments.seed.wrapping_add(number);
        let outcome = one_session(seed, arguments.prefixes, &mut counts);
        if let Err(trouble) = outcome {
            println!("seed {seed}: {trouble}");
            println!("again: fuzz --sessions 1 --seed {seed} --prefixes");
            exit(1);
        }
    }
    if arguments.lengths {
        if let Err(trouble) = every_length(arguments.seed) {
            println!("lengths, seed {}: {trouble}", arguments.seed);
            exit(1);
        }
        println!("lengths: 0 to {} bytes", MOST_BYTES + 2);
    }
    if arguments.states {
        for (nodes, owner, saves) in SMALL {
            let header = Header { nodes, owner: owner.to_vec() };
            if let Err(trouble) = every_state(&header, saves) {
                println!("states: {trouble}");
                exit(1);
            }
        }
    }
    if close(&counts) {
        exit(1);
    }
}

fn arguments() -> Arguments {
    let mut arguments =
        Arguments { sessions: 1_000, seed: 1, prefixes: false, lengths: false, states: false };
    let mut words = std::env::args().skip(1);
    let usage = || -> ! {
        eprintln!("fuzz --sessions N --seed S [--prefixes] [--lengths] [--states]");
        exit(2)
    };
    while let Some(word) = words.next() {
        let mut figure = || words.next().and_then(|word| word.parse().ok());
        match word.as_str() {
            "--sessions" => arguments.sessions = figure().unwrap_or_else(|| usage()),
            "--seed" => arguments.seed = figure().unwrap_or_else(|| usage()),
            "--prefixes" => arguments.prefixes = true,
            "--lengths" => arguments.lengths = true,
            "--states" => arguments.states = true,
            _ => usage(),
        }
    }
    arguments
}

fn one_session(seed: u64, prefixes: bool, counts: &mut Counts) -> Result<(), String> {
    // Neighbouring seeds must not give neighbouring states; and the list, the swaps and the rooms are the
    // same whatever is drawn for the session.
    let mut seeds = Prng::new(seed);
    let [mut prng, mut list_prng, mut swap_prng, mut room_prng] =
        [(); 4].map(|()| Prng::new(seeds.draw()));
    let Input { session, buffer } = generate::input(&mut prng);
    let (run, met) = demand3::check(&session, &mut prng)
        .map_err(|trouble| format!("demand 3 in the model: {trouble}\n{}", shown(&session)))?;
    causes::one_session(&session, &run, &mut counts.causes)?;
    unchanged::one_session(&session, &run, &mut counts.unchanged)?;
    wide::one_session(&session, &run, &mut counts.wide)?;
    let mut compared = compare(&session, &run, &buffer, &mut prng);
    let prefixes = prefixes || prng.one_in(4);
    if compared.is_ok() && prefixes {
        compared =
            compare_prefixes(&session, &run, &mut prng).map(|prefixes| counts.prefixes += prefixes);
    }
    let (state, answers) = (&mut counts.state, &mut counts.answers);
    compared
        .and_then(|()| state_text::one_session(&session, &run, prefixes, &mut room_prng, state))
        .and_then(|()| answers::one_session(&session, &run, &mut room_prng, answers))
        .and_then(|()| writing::one_session(&session, &mut prng, &mut counts.writing))
        .and_then(|()| counters::one_session(&session, &run, &mut counts.counters))
        .map_err(|trouble| with_smaller(trouble, &session, &buffer))?;
    neighbours::one_session(&session, &run, &mut swap_prng, &mut counts.neighbours)?;
    count(&session, &run, &buffer, met, counts);
    writing::one_list(&mut list_prng, &mut counts.writing)
}

/// Cuts and extends one long session to every length that a call could be handed.
fn every_length(seed: u64) -> Result<(), String> {
    let mut prng = Prng::new(Prng::new(seed).draw());
    let mut longest = generate::full(&mut prng);
    longest.extend([2, 31]);
    for length in 0..=MOST_BYTES + 2 {
        let session = &longest[..length];
        let run = Session::run(session);
        let buffer = generate::buffer(&mut prng);
        compare(session, &run, &buffer, &mut prng)?;
        writing::read(session, &mut prng, &mut Tally::new())?;
        told(session, &run, &mut prng)?;
    }
    Ok(())
}

/// Nodes, owners of the sheets, and saves, of which all states are tried.
const SMALL: [(usize, &[usize], usize); 4] =
    [(1, &[0], 2), (2, &[0], 2), (2, &[0, 1], 2), (1, &[0], 3)];
const MOST_STATES: usize = 40_000;

fn every_state(header: &Header, saves: usize) -> Result<(), String> {
    let mut prng = Prng::new(1);
    let mut buffer = vec![0; LEAST_BUFFER];
    prng.fill(&mut buffer);
    let mut tried = 0;
    // One save more than are begun, so that its APPLY is refused with 13.
    let pairs = every_pair(header, saves + 1);
    let start = header.bytes();
    let mut pairs_tried = neighbours::in_state(&start, &Session::run(&start), &pairs)?;
    let (states, whole) = states::explore(header, saves, MOST_STATES, |session, new| {
        tried += 1;
        let run = Session::run(session);
        if new {
            demand3::check(session, &mut prng).map_err(|trouble| {
                format!("demand 3 in the model: {trouble}\n{}", shown(session))
            })?;
            unchanged::one_session(session, &run, &mut Default::default())?;
            wide::one_session(session, &run, &mut Default::default())?;
            pairs_tried += neighbours::in_state(session, &run, &pairs)?;
            told(session, &run, &mut prng)?;
            run.started.iter().try_for_each(|(_, state)| state_text::hold(session, state))?;
        }
        compare(session, &run, &buffer, &mut prng)?;
        check_last(session, &run)
    })?;
    println!(
        "states: {} nodes, {} sheets, {saves} saves: {tried} commands in {} {states} states, \
         {pairs_tried} pairs of neighbours",
        header.nodes,
        header.sheets(),
        if whole { "all" } else { "the first" },
    );
    Ok(())
}

/// A TAKE's causes or an APPLY's counters, where the session's last command is one and is accepted.
fn check_last(session: &[u8], run: &Session) -> Result<(), String> {
    let last = run.steps.last().filter(|_| run.refused.is_none());
    match last.map(|step| step.command) {
        Some(Command::Take { .. }) => causes::one_session(session, run, &mut Default::default()),
        Some(Command::Apply { .. }) => counters::one_session(session, run, &mut Default::default()),
        _ => Ok(()),
    }
}

/// The state's text and the list of answers.
fn told(session: &[u8], run: &Session, prng: &mut Prng) -> Result<(), String> {
    state_text::compare(session, run, 0, prng, &mut Tally::new())?;
    answers::compare(session, run, 0, prng, &mut Tally::new()).map(|_| ())
}

/// One session: the length, every byte of the buffer and around it, the answer, the part shown.
fn compare(session: &[u8], run: &Session, buffer: &[u8], prng: &mut Prng) -> Result<(), String> {
    let mut expected = buffer.to_vec();
    let expected_length = write_report(run, &mut expected);

    let mut room = vec![0; GUARD + buffer.len() + GUARD];
    prng.fill(&mut room);
    room[GUARD..GUARD + buffer.len()].copy_from_slice(buffer);
    let before = room.clone();
    let input = session.to_vec();
    let length = engine::report(&input, &mut room[GUARD..GUARD + buffer.len()]);

    let written = &room[GUARD..GUARD + buffer.len()];
    if length != expected_length || written != expected {
        return Err(difference(
            session,
            &format!("buffer of {}", buffer.len()),
            &text(&expected, expected_length, expected.len()),
            &text(
                written,
                length,
                expected.iter().zip(written).take_while(|(a, b)| a == b).count(),
            ),
        ));
    }
    if room[..GUARD] != before[..GUARD]
        || room[GUARD + buffer.len()..] != before[GUARD + buffer.len()..]
    {
        return Err(difference(session, "buffer", "left alone around it", "written around it"));
    }
    compare_answer(&input, run.answer(), run.shown())?;
    if input != session {
        return Err(difference(session, "session", "left alone", "written to"));
    }
    Ok(())
}

fn compare_answer(session: &[u8], answer: u64, part: (usize, usize)) -> Result<(), String> {
    let given = engine::answer(session);
    if given != answer {
        return Err(difference(session, "answer", &answer_text(answer), &answer_text(given)));
    }
    let given = engine::shown(session);
    let expected = ((part.0 as u64) << 32) + part.1 as u64;
    if given != expected {
        return Err(difference(session, "shown", &part_text(expected), &part_text(given)));
    }
    Ok(())
}

/// The answers in the middle of a session, where READ's contents and TAKE's verdicts stand.
fn compare_prefixes(session: &[u8], run: &Session, prng: &mut Prng) -> Result<u64, String> {
    let steps = run.steps.len();
    let places: Vec<usize> = if steps <= ALL_PREFIXES {
        (0..steps).collect()
    } else {
        (0..SAMPLE).map(|_| prng.below(steps)).collect()
    };
    for &place in &places {
        let step = run.steps[place];
        let prefix = &session[..step.end];
        compare_answer(prefix, coded_answer(step.answer), (prefix.len(), 0))?;
    }
    Ok(places.len() as u64)
}

fn with_smaller(trouble: String, session: &[u8], buffer: &[u8]) -> String {
    match smallest(session, buffer) {
        Some(smaller) => format!("{trouble}\nsmaller: {smaller}"),
        None => trouble,
    }
}

/// A smaller session that still differs: its first prefix that does, without the commands that do
/// not matter.
fn smallest(session: &[u8], buffer: &[u8]) -> Option<String> {
    let trouble = |bytes: &[u8]| {
        let mut prng = Prng::new(0);
        compare(bytes, &Session::run(bytes), buffer, &mut prng)
            .and_then(|()| writing::one_session(bytes, &mut prng, &mut Default::default()))
            .and_then(|()| told(bytes, &Session::run(bytes), &mut prng))
            .err()
    };
    let run = Session::run(session);
    let mut cuts = vec![0];
    cuts.extend(run.started.iter().map(|(header, _)| 2 + header.sheets()));
    cuts.extend(run.steps.iter().map(|step| step.end));
    cuts.push(session.len());
    let end = cuts.iter().position(|&cut| trouble(&session[..cut]).is_some())?;
    fewer(cuts[..=end].windows(2).map(|cut| &session[cut[0]..cut[1]]).collect(), trouble)
}

/// The trouble that is left without the pieces that do not matter to it; the first piece stays.
fn fewer<T: Clone>(
    mut pieces: Vec<&[T]>,
    trouble: impl Fn(&[T]) -> Option<String>,
) -> Option<String> {
    let mut size = pieces.len() / 2;
    while size > 0 {
        let mut at = 1;
        while at + size <= pieces.len() {
            let mut fewer = pieces.clone();
            fewer.drain(at..at + size);
            if trouble(&fewer.concat()).is_some() {
                pieces = fewer;
            } else {
                at += size;
            }
        }
        size /= 2;
    }
    trouble(&pieces.concat())
}

fn count(session: &[u8], run: &Session, buffer: &[u8], met: Met, counts: &mut Counts) {
    counts.sessions += 1;
    counts.met.add(met);
    counts.full_length += (session.len() == MOST_BYTES) as u64;
    if let Some(refused) = run.refused {
        counts.refusals[refused.number as usize] += 1;
    }
    if buffer.len() < LEAST_BUFFER {
        counts.refusals[12] += 1;
    }
    let refused = run.refused.and_then(|refused| refused.cell);
    for cell in run.steps.iter().filter_map(|step| step.cell).chain(refused) {
        *counts.cells.entry(cell).or_default() += 1;
    }
    for step in &run.steps {
        match step.answer {
            Answer::Taken { verdict: Verdict::Valid, .. } => counts.takes_valid += 1,
            Answer::Taken { verdict: Verdict::Invalid(_), .. } => counts.takes_invalid += 1,
            Answer::SecondRun => counts.second_runs += 1,
            _ => {}
        }
    }
    if let Some((_, engine)) = &run.started {
        counts.accepted += engine.tally.accepted as u64;
        counts.first_commits += engine.tally.first_run_commits as u64;
        counts.second_commits += engine.tally.second_run_commits as u64;
        let last = |&place: &usize| !engine.former(place);
        let placed: Vec<usize> = (0..engine.order.len()).filter(last).collect();
        counts.all_saves += (placed.len() == 32) as u64;
        let dropped = |&&place: &&usize| engine.saves[engine.order[place]].phase == Phase::Dropped;
        counts.second_run_drops += placed.iter().filter(dropped).count() as u64;
        let longest = engine.sheets.iter().map(|sheet| sheet.queue.len()).max().unwrap_or(0);
        counts.longest_queue = counts.longest_queue.max(longest);
    }
}

/// Prints the counts; says whether something never occurred that so many sessions have.
fn close(counts: &Counts) -> bool {
    let left_out = [
        counts.state.close(),
        counts.answers.close(),
        counts.wide.close(),
        counts.causes.close(),
        counts.counters.close(),
        counts.unchanged.close(),
        counts.neighbours.close(),
        counts.writing.close(),
    ];
    println!(
        "met: {} prefixes, {} reads and {} stores against the serial run, {} states with entries, \
         {} tail steps (nearest to the bound: {}), TAKE valid {} invalid {}, second runs {} \
         (given up {}), longest queue left {}, {} sessions of 16384 bytes, {} with 32 saves placed, \
         {} of {CELLS} commands by phase (the rarest {} times)",
        counts.prefixes,
        counts.met.reads,
        counts.met.stores,
        counts.met.queued_states,
        counts.met.tail_steps,
        counts.met.least_slack.map_or("none".to_string(), |slack| slack.to_string()),
        counts.takes_valid,
        counts.takes_invalid,
        counts.second_runs,
        counts.second_run_drops,
        counts.longest_queue,
        counts.full_length,
        counts.all_saves,
        counts.cells.len(),
        counts.cells.values().min().unwrap_or(&0),
    );
    let refusals: Vec<String> =
        (1..=14).map(|number| format!("{number}:{}", counts.refusals[number])).collect();
    println!(
        "{} sessions, {} accepted commands, commits {} first run {} second run, refusals {}",
        counts.sessions,
        counts.accepted,
        counts.first_commits,
        counts.second_commits,
        refusals.join(" ")
    );
    // Nothing gives 8 any more.
    let others = [&counts.refusals[1..8], &counts.refusals[9..]].concat();
    let refusal_left_out = others.contains(&0) || counts.refusals[8] > 0;
    let commit_left_out = counts.first_commits == 0 || counts.second_commits == 0;
    let cell_left_out = counts.cells.len() < CELLS;
    let kind_left_out = cell_left_out || left_out.contains(&true);
    counts.sessions >= ALL_REFUSALS && (refusal_left_out || commit_left_out)
        || counts.sessions >= ALL_CELLS && kind_left_out
}

fn difference(session: &[u8], what: &str, model: &str, engine: &str) -> String {
    differs(&shown(session), what, model, engine)
}

fn differs(input: &str, what: &str, model: &str, engine: &str) -> String {
    format!("{what} differs\n{input}\nmodel:  {model}\nengine: {engine}")
}

fn shown(session: &[u8]) -> String {
    let bytes: Vec<String> = session.iter().map(|byte| format!("{byte:02x}")).collect();
    format!("session ({} bytes): {}", session.len(), bytes.join(" "))
}

/// A report with its returned length; `same` bytes of the buffer agree with the model's.
fn text(buffer: &[u8], length: usize, same: usize) -> String {
    let report = &buffer[..length.min(buffer.len())];
    format!("length {length}, {same} bytes as expected\n{}", String::from_utf8_lossy(report))
}

fn part_text(part: u64) -> String {
    format!("from {} size {}", part >> 32, part & 0xffff_ffff)
}

fn answer_text(answer: u64) -> String {
    format!(
        "kind {} value {} number {}",
        answer >> 48,
        (answer >> 8) & 0xff_ffff_ffff,
        answer & 0xff
    )
}
