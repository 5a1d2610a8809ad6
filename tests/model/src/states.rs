//! Every state that small sessions reach, with every command tried in it.

use crate::command::{Command, Header};
use crate::engine::{Engine, Tally};
use std::collections::{HashSet, VecDeque};

/// Visits, for each state reached with saves below `saves`, the shortest session to it followed by
/// each command, and says whether that led to a new state. Gives the number of states, and whether
/// these are all: past `most` states no new one is followed.
pub fn explore(
    header: &Header,
    saves: usize,
    most: usize,
    mut visit: impl FnMut(&[u8], bool) -> Result<(), String>,
) -> Result<(usize, bool), String> {
    let commands = alphabet(header, saves);
    let start = Engine::new(header);
    let mut known = HashSet::from([without_tally(&start)]);
    let mut waiting = VecDeque::from([(header.bytes(), start)]);
    let mut whole = true;
    while let Some((path, state)) = waiting.pop_front() {
        for &command in &commands {
            let mut next = state.clone();
            let mut session = path.clone();
            session.extend(command.bytes());
            let accepted = next.step(command).is_ok();
            let mut new = accepted && !known.contains(&without_tally(&next));
            if new && known.len() == most {
                whole = false;
                new = false;
            }
            visit(&session, new)?;
            if new {
                known.insert(without_tally(&next));
                waiting.push_back((session, next));
            }
        }
    }
    Ok((known.len(), whole))
}

/// The tally counts repeated READs too, so with it there would be no end of states.
fn without_tally(engine: &Engine) -> Engine {
    Engine { tally: Tally::default(), ..engine.clone() }
}

/// Each save writes a content of its own, so that no two writers can be mistaken for each other; save 0
/// writes the 0 of the start too, which changes nothing or comes back.
fn alphabet(header: &Header, saves: usize) -> Vec<Command> {
    let mut all = Vec::new();
    for save in 0..saves {
        all.push(Command::Begin { save });
        for sheet in 0..header.sheets() {
            all.push(Command::Read { save, sheet });
            all.push(Command::Write { save, sheet, content: 1 + save as u32 });
            if save == 0 {
                all.push(Command::Write { save, sheet, content: 0 });
            }
        }
        all.push(Command::Submit { save });
        all.push(Command::Decide { save });
        all.push(Command::GiveUp { save });
        all.extend((0..header.nodes).map(|node| Command::Apply { node, save }));
    }
    all.extend((0..header.nodes).map(|node| Command::Take { node }));
    all
}
