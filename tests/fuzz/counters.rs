//! The counters that APPLY raises: the model's at every step, and the engine's own, as its reports before
//! and after an APPLY have them.

use crate::{difference, engine, shown};
use model::command::Command;
use model::counters::{adds_up, check};
use model::engine::{Engine, Lock, Phase};
use model::report::LEAST_BUFFER;
use model::session::Session;

/// Sessions with more APPLYs than this have so many compared, spread over the session.
const MOST_APPLIES: usize = 6;

/// The APPLYs compared in the engine, and the sheets there.
#[derive(Default)]
pub struct Counts {
    /// Of a committed save, of a dropped one.
    applies: [u64; 2],
    ones: u64,
    /// Marks of 0 at a sheet of the node; where it is X in the claim and was not written in the last run
    /// of a committed save; where a dropped save had written it; where a committed one stored the content
    /// that was there.
    zeros: [u64; 4],
    /// Marks of 0 at another node's sheet that a committed save wrote.
    elsewhere: u64,
}

impl Counts {
    fn count(&mut self, state: &Engine, apply: Command, marks: &[u32], contents: &[u32]) {
        let Command::Apply { node, save } = apply else { return };
        let save = &state.saves[save];
        let committed = save.phase == Phase::Committed;
        self.applies[!committed as usize] += 1;
        for (number, sheet) in state.sheets.iter().enumerate() {
            let copy = save.copies.get(&number).filter(|copy| copy.written);
            let same = copy.is_some_and(|copy| copy.content == contents[number]);
            let x = save.claim.get(&number) == Some(&Lock::X);
            let (here, written, zero) = (sheet.owner == node, copy.is_some(), marks[number] == 0);
            self.ones += !zero as u64;
            self.zeros[0] += (here && zero) as u64;
            self.zeros[1] += (here && zero && committed && x && !written) as u64;
            self.zeros[2] += (here && zero && !committed && written) as u64;
            self.zeros[3] += (here && zero && committed && same) as u64;
            self.elsewhere += (!here && zero && committed && written) as u64;
        }
    }

    /// Prints the counts; says whether one of them is 0.
    pub fn close(&self) -> bool {
        println!(
            "counters: {} APPLYs compared, of a committed save {} of a dropped one {}; marks of 1 {}, \
             of 0 at a sheet of the node {} (X, committed and not written {} written and dropped {} \
             the same content stored {}), of 0 at another node's that a committed save wrote {}",
            self.applies[0] + self.applies[1],
            self.applies[0],
            self.applies[1],
            self.ones,
            self.zeros[0],
            self.zeros[1],
            self.zeros[2],
            self.zeros[3],
            self.elsewhere,
        );
        let single = [self.ones, self.elsewhere];
        [&self.applies[..], &self.zeros, &single].concat().contains(&0)
    }
}

/// Each step of a session in the model, and its APPLYs, or some of them, in the engine.
pub fn one_session(session: &[u8], run: &Session, counts: &mut Counts) -> Result<(), String> {
    let applied = check(session, run)
        .map_err(|trouble| format!("counters in the model: {trouble}\n{}", shown(session)))?;
    // A save that is over stays as it is, so the last state has it as it was at its APPLY.
    let Some((_, state)) = &run.started else { return Ok(()) };
    for (place, marks) in spread(&applied) {
        let step = run.steps[*place];
        let start = run.steps[place - 1].end;
        let [(contents, before), (_, after)] = [start, step.end].map(|end| store(&session[..end]));
        if !adds_up(&before, marks, &after) {
            return Err(difference(
                &session[..step.end],
                "sum of WCTs and marks",
                &format!("{before:?} plus {marks:?}"),
                &format!("{after:?}"),
            ));
        }
        counts.count(state, step.command, marks, &contents);
    }
    Ok(())
}

/// All of them, or as many as are compared, the first and the last among them.
fn spread<T>(all: &[T]) -> impl Iterator<Item = &T> {
    let taken = all.len().min(MOST_APPLIES);
    (0..taken).map(move |place| &all[place * (all.len() - 1) / (taken - 1).max(1)])
}

/// Contents and WCTs in the engine's report, up to the first `O` line that is not its sheet's.
fn store(session: &[u8]) -> (Vec<u32>, Vec<u32>) {
    let mut buffer = vec![0; LEAST_BUFFER];
    let length = engine::report(session, &mut buffer).min(LEAST_BUFFER);
    let report = String::from_utf8_lossy(&buffer[..length]);
    let lines = report.lines().filter_map(|line| line.strip_prefix("O "));
    let read = |(number, line): (usize, &str)| {
        let mut figures = line.split(' ').map(|figure| figure.parse::<u32>().ok());
        let mut next = || figures.next().flatten();
        let own = next()? as usize == number;
        let (content, wct) = (next()?, next()?);
        own.then_some((content, wct))
    };
    lines.enumerate().map_while(read).unzip()
}
