//! Writing and reading: a session is read and written again, a list is written and read again, and
//! each call is compared with the model's.

use crate::rooms::{in_rooms, refusals, rooms, times, Tally, WHOLE};
use crate::{difference, differs, engine, fewer, part_text};
use model::lists;
use model::prng::Prng;
use model::writing::{self, List, STEP_WORDS};

const WRITE_REFUSALS: [&str; 5] = ["1", "1(total)", "2", "4", "15"];
const READ_REFUSALS: [&str; 5] = ["1", "2", "3", "4", "15"];

#[derive(Default)]
pub struct Counts {
    written: Tally,
    read: Tally,
}

impl Counts {
    /// Prints the counts; says whether one of the outcomes never came.
    pub fn close(&self) -> bool {
        println!(
            "writing: {} lists written and read again, refusals {}; {} sessions read and written \
             again, refusals {}",
            times(&self.written, WHOLE),
            refusals(&self.written, &WRITE_REFUSALS),
            times(&self.read, WHOLE),
            refusals(&self.read, &READ_REFUSALS),
        );
        // Each tally has the whole ones beside its refusals.
        self.written.len() <= WRITE_REFUSALS.len() || self.read.len() <= READ_REFUSALS.len()
    }
}

/// A session that can be read must have its old bytes when it is written again.
pub fn one_session(session: &[u8], prng: &mut Prng, counts: &mut Counts) -> Result<(), String> {
    let Some(list) = read(session, prng, &mut counts.read)? else { return Ok(()) };
    let again = write(&list, prng, &mut Tally::new())?;
    if again.as_deref() != Some(session) {
        return Err(difference(session, "written again", "its old bytes", "others"));
    }
    Ok(())
}

/// A list from the seed.
pub fn one_list(prng: &mut Prng, counts: &mut Counts) -> Result<(), String> {
    let list = lists::list(prng);
    compare_list(&list, prng, &mut counts.written).map_err(|trouble| {
        // The first piece stays, so it is an empty one: any step may go.
        let pieces = [&[][..]].into_iter().chain(list.words.chunks(STEP_WORDS)).collect();
        let smaller = fewer(pieces, |words| {
            let list = List { words: words.to_vec(), ..list.clone() };
            compare_list(&list, &mut Prng::new(0), &mut Tally::new()).err()
        });
        format!("{trouble}\nsmaller: {}", smaller.unwrap_or_default())
    })
}

/// A list that can be written must have its old header and steps when it is read again.
fn compare_list(list: &List, prng: &mut Prng, tally: &mut Tally) -> Result<(), String> {
    let Some(session) = write(list, prng, tally)? else { return Ok(()) };
    let again = read(&session, prng, &mut Tally::new())?;
    if again.as_ref() != Some(list) {
        return Err(differs(&list_text(list), "read again", "its old steps", "others"));
    }
    Ok(())
}

/// The session that the engine writes, or nothing where it refuses the list.
fn write(list: &List, prng: &mut Prng, tally: &mut Tally) -> Result<Option<Vec<u8>>, String> {
    let input = list.clone();
    let need = writing::write(list, usize::MAX).ok().map(|session| session.len());
    let most = 2 + list.owners.len() + 7 * list.words.len().div_ceil(STEP_WORDS);
    let whole = in_rooms(
        &rooms(need, most),
        || prng.draw() as u8,
        |lent| writing::write_session(list, lent),
        |lent| engine::write(&input, lent),
        tally,
    )
    .map_err(|[room, model, engine]| {
        differs(&list_text(list), &format!("writing to {room} bytes"), &model, &engine)
    })?;
    if input != *list {
        return Err(differs(&list_text(list), "list", "left alone", "written to"));
    }
    Ok(whole.map(|(_, session)| session))
}

/// The list that the engine reads, or nothing where it refuses the session.
pub fn read(session: &[u8], prng: &mut Prng, tally: &mut Tally) -> Result<Option<List>, String> {
    let input = session.to_vec();
    let need = writing::read(session, usize::MAX).ok().map(|(_, steps)| STEP_WORDS * steps.len());
    let whole = in_rooms(
        &rooms(need, STEP_WORDS * session.len() / 2),
        || prng.draw() as u32,
        |lent| writing::read_session(session, lent),
        |lent| engine::read(&input, lent),
        tally,
    )
    .map_err(|[room, model, engine]| {
        difference(session, &format!("reading to {room} words"), &model, &engine)
    })?;
    let (part, given) = (writing::owners(session), engine::owners(&input));
    if given != part {
        return Err(difference(session, "owners", &part_text(part), &part_text(given)));
    }
    if input != session {
        return Err(difference(session, "session", "left alone", "written to"));
    }
    Ok(whole.map(|(answer, words)| {
        let counts = answer >> 8;
        let (nodes, sheets) = (counts >> 32 & 0xff, counts >> 16 & 0xffff);
        let owners = session[(part >> 32) as usize..][..part as u32 as usize].to_vec();
        List { nodes: nodes as usize, sheets: sheets as usize, owners, words }
    }))
}

fn list_text(list: &List) -> String {
    let step = |step: &[u32]| step.iter().map(u32::to_string).collect::<Vec<_>>().join(",");
    let steps: Vec<String> = list.words.chunks(STEP_WORDS).map(step).collect();
    format!(
        "list ({} words): {} nodes, {} sheets, owners {:?}, steps {}",
        list.words.len(),
        list.nodes,
        list.sheets,
        list.owners,
        steps.join(" ")
    )
}
