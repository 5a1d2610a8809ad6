//! Writings and readings: the worked calls, each refusal with its place, and the two round trips.

use crate::cases::{bytes, fresh, W};
use crate::command::{read_header, Command, MOST_BYTES};
use crate::generate;
use crate::lists;
use crate::prng::Prng;
use crate::session::Session;
use crate::writing::{
    owners, read, read_session, words, write, write_session, List, Refusal, STEP_WORDS,
};

/// A step as `BYTE,A,B,V`; with fewer figures it is cut short.
fn steps(text: &str) -> Vec<u32> {
    text.split([' ', ',']).filter(|word| !word.is_empty()).map(figure).collect()
}

fn figure<T: std::str::FromStr>(word: &str) -> T {
    word.parse().unwrap_or_else(|_| panic!("{word} is no figure"))
}

/// A list from `N M COUNT owners.. steps..`, of which COUNT owners are handed over.
fn list(text: &str) -> List {
    let mut rest = text.split(' ');
    let mut next = || rest.next().expect("N M COUNT owners..");
    let (nodes, sheets, count) = (figure(next()), figure(next()), figure(next()));
    let owners = (0..count).map(|_: usize| figure(next())).collect();
    List { nodes, sheets, owners, words: steps(&rest.collect::<Vec<_>>().join(" ")) }
}

/// A list on the fresh header, with each step's words.
fn on_fresh(text: &str) -> List {
    list(&format!("1 1 1 0 {text}"))
}

fn written(list: &List, room: usize) -> String {
    match write(list, room) {
        Ok(session) => {
            let bytes: Vec<String> = session.iter().map(|byte| format!("{byte:02X}")).collect();
            format!("bytes {}", bytes.join(" "))
        }
        Err(refusal) => format!("refused {}", refusal.number),
    }
}

/// `room` counts steps.
fn listed(session: &[u8], room: usize) -> String {
    match read(session, STEP_WORDS * room) {
        Ok((header, steps)) => {
            let figures = |list: &[u32], between: &str| {
                list.iter().map(u32::to_string).collect::<Vec<_>>().join(between)
            };
            let owners: Vec<u32> = header.owner.iter().map(|&node| node as u32).collect();
            let mut text = format!("header {} {} ", header.nodes, header.sheets());
            text += &format!("{} steps {}", figures(&owners, " "), steps.len());
            for &step in &steps {
                text += &format!(" {}", figures(&words(step), ","));
            }
            text
        }
        Err(refusal) => format!("refused {}", refusal.number),
    }
}

fn refusal<T>(result: Result<T, Refusal>) -> Option<(u8, usize)> {
    result.err().map(|refusal| (refusal.number, refusal.place))
}

const EIGHT: &str = "1,0,0,0 2,0,1,0 3,0,1,7 4,0,0,0 5,1,0,0 6,0,0,0 7,1,0,0 8,0,0,0";
const EIGHT_BYTES: &str =
    "bytes 02 02 00 01 01 00 02 00 01 03 00 01 00 00 00 07 04 00 05 01 06 00 \
    07 01 00 08 00";

#[test]
fn the_worked_writings() {
    let eight = format!("2 2 2 0 1 {EIGHT}");
    let table = [
        (16_384, "1 1 1 0", "bytes 01 01 00"),
        (3, "1 1 1 0", "bytes 01 01 00"),
        (2, "1 1 1 0", "refused 15"),
        (0, "0 1 1 0", "refused 1"),
        (0, "9 1 1 0", "refused 1"),
        (99, "1 0 0", "refused 1"),
        (99, "1 1 0", "refused 1"),
        (99, "1 1 1 1", "refused 1"),
        (99, "1 2 1 0", "refused 1"),
        (99, &eight, EIGHT_BYTES),
        (28, &eight, EIGHT_BYTES),
        (27, &eight, EIGHT_BYTES),
        (0, "1 1 1 0 1,32,0,0", "refused 4"),
        (0, "1 1 1 0 1,31,0,0", "refused 15"),
        (0, "1 1 1 0 0,0,0,0", "refused 2"),
        (0, "1 1 1 0 1,32,0,0 255,0,0,0", "refused 4"),
        (0, "1 1 1 0 255,0,0,0 1,32,0,0", "refused 2"),
        (0, "1 1 1 1 255,0,0,0", "refused 1"),
        (99, "1 1 1 0 2,0,1,0", "refused 4"),
        (99, "1 1 1 0 5,1,0,0", "refused 4"),
        (99, "1 1 1 0 7,1,0,0", "refused 4"),
        (99, "1 1 1 0 7,0,32,0", "refused 4"),
        (99, "1 1 1 0 3,31,0,4294967295", "bytes 01 01 00 03 1F 00 FF FF FF FF"),
        (99, "1 1 1 0 6,9,0,0 6,9,0,0", "bytes 01 01 00 06 09 06 09"),
        (99, "1 1 1 0 9,0,0,0", "refused 2"),
        (99, "1 1 1 0 11,9,0,0", "refused 2"),
        (99, "1 1 1 0 12,0,0,5 12,0,0,4", "refused 2"),
        (99, "1 1 1 0 13,0,0,0", "refused 2"),
        (99, "1 1 1 0 10,1,0,0", "refused 2"),
        (99, "1 1 1 0 10,0,0,0 9,0,0,0", "refused 2"),
    ];
    for (room, text, answer) in table {
        assert_eq!(written(&list(text), room), answer, "write {room} {text}");
    }
}

#[test]
fn the_worked_readings() {
    let past = "header 1 1 0 steps 5 4,0,0,0 4,0,0,0 5,0,0,0 2,3,0,0 8,31,0,0";
    let table = [
        ("", 8_190, "header 1 1 0 steps 0"),
        ("04 00 04 00 05 00 02 03 00 08 1F", 8_190, past),
        ("04 00 04 00 05 00 02 03 00 08 1F", 5, past),
        ("04 00 04 00 05 00 02 03 00 08 1F", 4, "refused 15"),
        ("04 00 04 00 05 00 02 03 00 08 1F", 0, "refused 15"),
        ("04 00 05 00 99", 8_190, "refused 2"),
        ("04 00 05 00 99", 0, "refused 2"),
        ("04 00 05 00 99", 2, "refused 2"),
        ("04 00 05 00 02 00", 8_190, "refused 3"),
        ("04 00 05 00 02 00", 9, "refused 3"),
        ("04 00 05 00 01 20 99", 8_190, "refused 4"),
        ("04 00 05 00 01 20 99", 9, "refused 4"),
        ("", 0, "header 1 1 0 steps 0"),
    ];
    for (commands, room, answer) in table {
        assert_eq!(listed(&fresh(commands), room), answer, "read {room} of {commands}");
    }
}

#[test]
fn a_bad_header_is_refused_at_0() {
    let bad = ["0 1 1 0", "9 1 1 0", "1 0 0", "1 1 0", "1 1 2 0 0", "1 1 1 1", "2 2 2 0 2"];
    // What is in range once cut to a byte or to 32 bits.
    let cut = ["257 1 1 0", "1 257 1 0", "4294967297 1 1 0", "1 4294967297 1 0"];
    for text in bad.into_iter().chain(cut) {
        assert_eq!(refusal(write(&list(&format!("{text} 255,0,0,0")), 0)), Some((1, 0)), "{text}");
    }
    for (sheets, expected) in [(64, None), (65, Some((1, 0)))] {
        let list = List { nodes: 8, sheets, owners: vec![7; sheets], words: Vec::new() };
        assert_eq!(refusal(write(&list, 99)), expected);
    }
}

#[test]
fn an_unknown_number_is_refused_at_its_step() {
    for number in ["0", "9", "10", "11", "12", "13", "255", "257", "4294967295"] {
        let text = format!("1,0,0,0 {number},0,0,0 1,32,0,0");
        assert_eq!(refusal(write(&on_fresh(&text), 0)), Some((2, 1)), "{number}");
    }
}

#[test]
fn a_bad_operand_is_refused_at_its_step() {
    let saves =
        ["1,32,0,0", "2,32,0,0", "3,32,0,0", "4,32,0,0", "6,32,0,0", "7,0,32,0", "8,32,0,0"];
    let others = ["2,0,1,0", "3,0,1,0", "5,1,0,0", "7,1,0,0"];
    // What is in range once cut to a byte.
    let cut = ["1,256,0,0", "2,0,256,0", "5,256,0,0", "7,0,256,0"];
    for step in saves.into_iter().chain(others).chain(cut) {
        let text = format!("5,0,0,0 5,0,0,0 {step} 255,0,0,0");
        assert_eq!(refusal(write(&on_fresh(&text), 0)), Some((4, 2)), "{step}");
    }
}

#[test]
fn a_number_without_an_operand_must_be_0() {
    for number in [1, 4, 5, 6, 8] {
        for unused in ["1,0", "0,1", "4294967295,0"] {
            let text = format!("{number},0,{unused}");
            assert_eq!(refusal(write(&on_fresh(&text), 99)), Some((4, 0)), "{text}");
        }
    }
    for text in ["2,0,0,1", "7,0,0,1"] {
        assert_eq!(refusal(write(&on_fresh(text), 99)), Some((4, 0)), "{text}");
    }
}

#[test]
fn words_that_are_no_whole_step() {
    for (cut, number) in [("1", 4), ("5,0", 4), ("3,0,0", 4), ("3,32,0", 4), ("0", 2), ("9,0,0", 2)]
    {
        let text = format!("6,9,0,0 {cut}");
        assert_eq!(refusal(write(&on_fresh(&text), 0)), Some((number, 1)), "{cut}");
    }
}

/// A list on the fresh header whose session has so many bytes.
fn of_length(length: usize) -> List {
    let left = length - 3;
    let mut list = on_fresh("");
    for _ in 0..(left - left % 2 * 3) / 2 {
        list.words.extend(words(Command::Begin { save: 31 }));
    }
    for _ in 0..left % 2 {
        list.words.extend(words(Command::Read { save: 0, sheet: 0 }));
    }
    list
}

#[test]
fn the_longest_session_and_one_byte_more() {
    let longest = of_length(MOST_BYTES);
    assert_eq!(longest.words.len(), STEP_WORDS * 8_190);
    assert_eq!(write(&longest, MOST_BYTES).map(|session| session.len()), Ok(MOST_BYTES));
    assert_eq!(refusal(write(&longest, MOST_BYTES - 1)), Some((15, MOST_BYTES)));
    let longer = of_length(MOST_BYTES + 1);
    assert_eq!(refusal(write(&longer, 20_000)), Some((1, 8_191)));
    // Before 15, and behind each step, one that is cut short too.
    assert_eq!(refusal(write(&longer, 0)), Some((1, 8_191)));
    for (last, number) in [(vec![1, 32, 0, 0], 4), (vec![9, 0, 0, 0], 2), (vec![1], 4)] {
        let mut list = longer.clone();
        list.words.extend(last);
        assert_eq!(refusal(write(&list, 20_000)), Some((number, 8_191)));
    }
}

#[test]
fn a_writing_for_every_room() {
    let eight = list(&format!("2 2 2 0 1 {EIGHT}"));
    let session = bytes(&EIGHT_BYTES["bytes".len()..]);
    for room in 0..40 {
        let mut buffer = vec![0xa5; room];
        let mut expected = buffer.clone();
        let answer = if room < 27 {
            (7 << 48) + (27 << 8) + 15
        } else {
            expected[..27].copy_from_slice(&session);
            (8 << 48) + (27 << 8)
        };
        assert_eq!(write_session(&eight, &mut buffer), answer);
        assert_eq!(buffer, expected);
    }
}

#[test]
fn a_reading_for_every_room() {
    let session = bytes(&EIGHT_BYTES["bytes".len()..]);
    for room in 0..40 {
        let mut lent = vec![0xa5a5_a5a5; room];
        let mut expected = lent.clone();
        let answer = if room < 32 {
            (7 << 48) + (8 << 8) + 15
        } else {
            expected[..32].copy_from_slice(&steps(EIGHT));
            (9 << 48) + (((2 << 32) + (2 << 16) + 8) << 8)
        };
        assert_eq!(read_session(&session, &mut lent), answer);
        assert_eq!(lent, expected);
    }
}

#[test]
fn a_reading_is_refused_at_the_command() {
    let table = [
        ("04 00 05 00 99", 2, 7),
        ("04 00 02 00", 3, 5),
        ("01 20 99", 4, 3),
        ("99 01 20", 2, 3),
        // One command that earns two: 2 before 3, 3 before 4.
        ("09", 2, 3),
        ("02 20", 3, 3),
    ];
    for (commands, number, offset) in table {
        for room in [0, 99] {
            let answer = refusal(read(&fresh(commands), room));
            assert_eq!(answer, Some((number, offset)), "{commands}");
        }
    }
    for session in ["", "01", "00 01 00", "01 01", "01 01 01 99"] {
        assert_eq!(refusal(read(&bytes(session), 99)), Some((1, 0)));
    }
    assert_eq!(refusal(read(&vec![1; MOST_BYTES + 1], 99)), Some((1, 0)));
}

#[test]
fn the_owners_are_a_part_of_the_session() {
    assert_eq!(owners(&bytes(W)), (2 << 32) + 2);
    // Also where the commands earn a refusal.
    assert_eq!(owners(&fresh("99")), (2 << 32) + 1);
    assert_eq!(owners(&bytes("01 01 01")), 0);
    assert_eq!(owners(&[]), 0);
}

#[test]
fn a_place_beyond_32_bits_is_told_as_their_largest() {
    let coded = |place| Refusal { number: 4, place }.coded();
    assert_eq!(coded(0xffff_ffff), (7 << 48) + (0xffff_ffff << 8) + 4);
    assert_eq!(coded(1 << 32), coded(0xffff_ffff));
    assert_eq!(coded(usize::MAX), coded(0xffff_ffff));
}

/// The list of a session that reads.
fn list_of(session: &[u8]) -> Option<List> {
    let (header, steps) = read(session, usize::MAX).ok()?;
    let words = steps.into_iter().flat_map(words).collect();
    let owners = session[2..2 + header.sheets()].to_vec();
    Some(List { nodes: header.nodes, sheets: header.sheets(), owners, words })
}

#[test]
fn a_session_read_and_written_has_its_old_bytes() {
    let mut prng = Prng::new(2);
    let mut sessions = vec![bytes(W), fresh(""), generate::full(&mut prng)];
    sessions.extend((0..300).map(|_| generate::input(&mut prng).session));
    let mut past_a_stop = 0;
    for session in sessions {
        let Some(list) = list_of(&session) else { continue };
        past_a_stop += Session::run(&session).refused.is_some() as u32;
        assert_eq!(write(&list, session.len()), Ok(session));
    }
    assert!(past_a_stop > 10);
}

#[test]
fn a_list_written_and_read_has_its_old_steps() {
    let mut prng = Prng::new(2);
    let mut count = 0;
    for _ in 0..1_000 {
        let list = lists::list(&mut prng);
        let Ok(session) = write(&list, usize::MAX) else { continue };
        assert!(read_header(&session).is_some());
        assert_eq!(list_of(&session), Some(list));
        count += 1;
    }
    assert!(count > 300);
}
