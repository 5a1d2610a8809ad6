//! Lists of answers: the worked ones, each way to stop, every room, and many sessions cut behind each command.

use crate::answers::{answers, check, cuts, MOST_ANSWERS};
use crate::cases::{bytes, fresh, W};
use crate::command::{Header, MOST_BYTES};
use crate::generate;
use crate::prng::Prng;
use crate::room::put;
use crate::session::Session;

/// An answer as `KIND VALUE NUMBER`; a value or number of 0 is left out.
fn in_words(answer: u64) -> String {
    let (kind, value, number) = (answer >> 48, answer >> 8 & 0xff_ffff_ffff, answer & 0xff);
    match (value, number) {
        (0, 0) => format!("{kind}"),
        (value, 0) => format!("{kind} {value}"),
        _ => format!("{kind} {value} {number}"),
    }
}

fn listed(session: &[u8]) -> Vec<String> {
    let run = Session::run(session);
    let list = answers(&run).expect("a header");
    assert_eq!(check(session, &run), Ok(list.len()));
    list.into_iter().map(in_words).collect()
}

#[test]
fn the_worked_session() {
    // The second TAKE finds save 1 invalid at sheet 0, where an X is granted; its second READ is answered 7.
    let expected =
        ["1", "1", "2", "2", "1", "1", "1", "1", "3", "4 1 1", "5", "1", "6", "2 7", "1", "1", "1"];
    assert_eq!(listed(&bytes(W)), expected);
    let cut = cuts(&Session::run(&bytes(W)));
    assert_eq!(cut[..4], [6, 8, 11, 14]);
    assert_eq!(cut.last(), Some(&58));
}

#[test]
fn a_stopped_session_ends_with_its_refusal() {
    let mut session = bytes(W);
    session.splice(38..38, [6, 1]);
    let list = listed(&session);
    assert_eq!(list[8..], ["3", "4 1 1", "5", "7 38 10"]);
    assert_eq!(cuts(&Session::run(&session)).last(), Some(&40));
    for (commands, expected) in [
        ("09", &["7 3 2"][..]),
        ("01 00 00 01 01", &["1", "7 5 2"]),
        ("01", &["7 3 3"]),
        ("01 1F 03 1F 00 00 00 00", &["1", "7 5 3"]),
        ("01 20 01 00", &["7 3 4"]),
        ("05 00", &["7 3 9"]),
        ("01 00 02 00 00 01 00 04 00", &["1", "2", "7 8 5"]),
        ("01 00 08 00 06 00", &["1", "1", "7 7 14"]),
    ] {
        assert_eq!(listed(&fresh(commands)), expected, "{commands}");
    }
}

#[test]
fn a_session_without_commands_has_none() {
    assert_eq!(answers(&Session::run(&fresh(""))), Some(Vec::new()));
    let mut lent = [3, 4];
    assert_eq!(put(Some(&[]), &mut lent), 8 << 48);
    assert_eq!(put(Some(&[]), &mut lent[..0]), 8 << 48);
    assert_eq!(lent, [3, 4]);
}

#[test]
fn refusal_1_has_no_list() {
    for bad in ["", "01", "00 01 00", "01 01 01 01 00"] {
        assert_eq!(answers(&Session::run(&bytes(bad))), None, "{bad}");
        assert_eq!(check(&bytes(bad), &Session::run(&bytes(bad))), Ok(0));
    }
    assert_eq!(answers(&Session::run(&vec![1; MOST_BYTES + 1])), None);
}

#[test]
fn a_list_for_every_room() {
    let list = answers(&Session::run(&bytes(W))).expect("a header");
    for room in 0..24 {
        let mut lent = vec![0xa5a5_a5a5_a5a5_a5a5; room];
        let mut expected = lent.clone();
        let answer = if room < 17 {
            (7 << 48) + (17 << 8) + 15
        } else {
            expected[..17].copy_from_slice(&list);
            (8 << 48) + (17 << 8)
        };
        assert_eq!(put(Some(&list), &mut lent), answer, "{room} answers");
        assert_eq!(lent, expected);
    }
}

#[test]
fn as_many_answers_as_the_bytes_have_room_for() {
    // No more commands fit, but so many of two bytes are never all accepted.
    assert_eq!(MOST_ANSWERS, (MOST_BYTES - 3) / 2 + 1);
    let list = vec![1u64 << 48; MOST_ANSWERS];
    let mut lent = vec![0; MOST_ANSWERS];
    assert_eq!(put(Some(&list), &mut lent[1..]), (7 << 48) + (8_191 << 8) + 15);
    assert_eq!(lent, vec![0; MOST_ANSWERS]);
    assert_eq!(put(Some(&list), &mut lent), (8 << 48) + (8_191 << 8));
    assert_eq!(lent, list);
}

#[test]
fn a_long_list_and_the_byte_that_is_left() {
    // Saves in turns on eight nodes, where most commands are TAKEs; then a single byte.
    let owner = (0..64).map(|sheet| sheet % 8).collect();
    let header = Header { nodes: 8, owner };
    let mut session = generate::turns(&mut Prng::new(1), header, 31, MOST_BYTES - 1, 0, false);
    let accepted = Session::run(&session).steps.len();
    assert!(accepted > 6_000, "{accepted} commands");
    session.push(5);
    let run = Session::run(&session);
    let list = answers(&run).expect("a header");
    assert_eq!(list.len(), accepted + 1);
    assert_eq!(list[accepted], (7 << 48) + ((session.len() as u64 - 1) << 8) + 3);
    for place in (0..accepted).step_by(400) {
        assert_eq!(list[place], Session::run(&session[..run.steps[place].end]).answer());
    }
}

#[test]
fn the_check_sees_a_wrong_list() {
    let run = Session::run(&bytes(W));
    let clause = |harm: &dyn Fn(&mut Session)| {
        let mut wrong = run.clone();
        harm(&mut wrong);
        check(&bytes(W), &wrong).unwrap_err().split(':').next().expect("a clause").to_string()
    };
    assert_eq!(clause(&|run| run.steps[9].answer = run.steps[8].answer), "cut");
    assert_eq!(clause(&|run| run.steps.swap(4, 13)), "cut");
    assert_eq!(clause(&|run| run.steps.truncate(16)), "count");
    assert_eq!(clause(&|run| run.started = None), "count");
}

#[test]
fn answers_on_many_sessions() {
    let mut prng = Prng::new(4);
    let mut longest = 0;
    for _ in 0..1_500 {
        let session = generate::input(&mut prng).session;
        // Each answer runs the session anew, so the long ones are cut.
        let session = &session[..session.len().min(600)];
        longest = longest.max(check(session, &Session::run(session)).expect("answers"));
    }
    assert!(longest > 200, "{longest} answers");
}
