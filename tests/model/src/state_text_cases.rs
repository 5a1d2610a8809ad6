//! The worked texts of states, written by hand: each kind of line with each of its letters, and every room.

use crate::cases::{bytes, fresh, whole, W};
use crate::command::{Command, Header};
use crate::room::put;
use crate::session::Session;
use crate::state_text::{text, MOST_BYTES};

fn told(session: &[u8]) -> String {
    text(&Session::run(session)).expect("a header")
}

/// The lines of the text that begin with this letter.
fn lines(session: &[u8], kind: char) -> Vec<String> {
    told(session).lines().filter(|line| line.starts_with(kind)).map(str::to_string).collect()
}

const W_AFTER_TEN: &str =
    "P 0 1 U\nP 1 1 U\nO 0 0 0\nO 1 0 0\nT 10 0 0\nS 0 S 1 - - 0\nS 1 S 1 F - 1\n\
    L 0 0 L\nL 1 1 L\nN 0 2\nN 1 0\nC 0 0 X W 7 0 -\nC 1 0 X W 9 0 -\nQ 0 0 X G\nQ 0 1 X W 0\n";

const W_WHOLE: &str =
    "P 0 1 C\nP 1 2 C\nO 0 9 2\nO 1 0 0\nT 17 1 1\nS 0 C 1 - - 0\nS 1 C 2 F - 1\n\
    L 0 0 L\nL 1 1 L\nN 0 2\nN 1 0\nC 0 0 X W 7 0 B\nC 1 0 X W 9 1 B\n";

#[test]
fn the_worked_session_on_its_way() {
    let w = bytes(W);
    let header = "O 0 0 0\nO 1 0 0\nT 0 0 0\nN 0 0\nN 1 0\n";
    // Both have read sheet 0, and save 0 has written it.
    let written = "O 0 0 0\nO 1 0 0\nT 5 0 0\nS 0 F 1 - - -\nS 1 F 1 - - -\nN 0 0\nN 1 0\n\
        C 0 0 - W 7 0 -\nC 1 0 - R 0 0 -\n";
    // Save 1 runs again: its copy is gone, its claim and its entry stay.
    let again = "P 0 1 C\nP 1 2 U\nO 0 7 1\nO 1 0 0\nT 13 1 0\nS 0 C 1 - - 0\nS 1 L 2 F - 1\n\
        L 0 0 L\nL 1 1 L\nN 0 2\nN 1 0\nC 0 0 X W 7 0 B\nC 1 0 X -\nQ 0 1 X G\n";
    let table = [(4, header), (21, written), (36, W_AFTER_TEN), (43, again), (58, W_WHOLE)];
    for (length, expected) in table {
        assert_eq!(told(&w[..length]), expected, "{length} bytes");
    }
}

#[test]
fn a_stopped_session_has_the_state_before_the_refused_command() {
    // W with DECIDE 1 put in at 38, behind DECIDE 0: an entry waits.
    let mut session = bytes(W);
    session.splice(38..38, [6, 1]);
    let expected = "P 0 1 C\nP 1 1 U\nO 0 0 0\nO 1 0 0\nT 11 1 0\nS 0 C 1 - - 0\nS 1 S 1 F - 1\n\
        L 0 0 L\nL 1 1 L\nN 0 2\nN 1 0\nC 0 0 X W 7 0 -\nC 1 0 X W 9 0 -\nQ 0 0 X G\nQ 0 1 X W 0\n";
    assert_eq!(Session::run(&session).answer(), (7 << 48) + (38 << 8) + 10);
    assert_eq!(told(&session), expected);
    // By 2, 3 and 4, at once and behind a command.
    for end in ["09", "02 00", "01 20"] {
        assert_eq!(told(&fresh(end)), "O 0 0 0\nT 0 0 0\nN 0 0\n");
        let begun = "O 0 0 0\nT 1 0 0\nS 0 F 1 - - -\nN 0 0\n";
        assert_eq!(told(&fresh(&format!("01 00 {end}"))), begun);
    }
}

#[test]
fn a_header_alone_and_none() {
    assert_eq!(told(&fresh("")), "O 0 0 0\nT 0 0 0\nN 0 0\n");
    for bad in ["", "01", "00 01 00", "01 01", "01 01 01 01 00"] {
        assert_eq!(text(&Session::run(&bytes(bad))), None, "{bad}");
    }
    assert_eq!(text(&Session::run(&vec![1; 16_385])), None);
}

#[test]
fn a_save_dropped_in_its_first_run_keeps_its_copies() {
    let expected = "O 0 0 0\nT 4 0 0\nS 0 D 1 - - -\nN 0 0\nC 0 0 - W 8 0 -\n";
    assert_eq!(told(&fresh("01 00 02 00 00 03 00 00 00 00 00 08 08 00")), expected);
    assert_eq!(told(&fresh("01 00 08 00")), "O 0 0 0\nT 2 0 0\nS 0 D 1 - - -\nN 0 0\n");
}

#[test]
fn a_save_dropped_in_its_second_run_keeps_its_entry_until_the_apply() {
    let dropped = [&bytes(W)[..53], &[8, 1]].concat();
    let expected = "P 0 1 C\nP 1 2 D\nO 0 7 1\nO 1 0 0\nT 16 1 0\nS 0 C 1 - - 0\nS 1 D 2 F - 1\n\
        L 0 0 L\nL 1 1 L\nN 0 2\nN 1 0\nC 0 0 X W 7 0 B\nC 1 0 X W 9 1 -\nQ 0 1 X G\n";
    assert_eq!(told(&dropped), expected);
    let applied = [&dropped[..], &[7, 0, 1]].concat();
    let gone = expected.replace("T 16 ", "T 17 ").replace("Q 0 1 X G\n", "");
    assert_eq!(told(&applied), gone);
}

/// Save 1's first run read sheet 0, which save 0 then changed; its second run opens sheet 1, at node 1.
const OPENED: &str =
    "02 02 00 01  01 00  01 01  02 00 00  03 00 00 00 00 00 01  04 00  02 01 00  04 01 \
    05 00  06 00  07 00 00  05 00  06 01  02 01 01";

#[test]
fn a_wide_run_before_its_submit_and_after_it() {
    let wide = "P 0 1 C\nP 1 2 U\nO 0 1 1\nO 1 0 0\nT 13 1 0\nS 0 C 1 - - 0\nS 1 L 2 F W 1\n\
        L 0 0 L\nL 1 1 L\nN 0 2\nN 1 0\nC 0 0 X W 1 0 B\nC 1 0 S -\nC 1 1 - R 0 0 -\nQ 0 1 S G\n";
    assert_eq!(told(&bytes(OPENED)), wide);
    // The mark is cleared and the entry removed; place 1 is a former one.
    let placed = "P 0 1 C\nP 1 2 U\nO 0 1 1\nO 1 0 0\nT 14 1 0\nS 0 C 1 - - 0\nS 1 S 2 - - 2\n\
        L 0 0 L\nL 1 1 F\nL 2 1 L\nN 0 2\nN 1 0\nC 0 0 X W 1 0 B\nC 1 0 S -\nC 1 1 S R 0 0 -\n";
    assert_eq!(told(&bytes(&format!("{OPENED} 04 01"))), placed);
    // Node 1 passes the former place; then it is decided, and its mark stays cleared.
    let decided = "P 0 1 C\nP 1 2 C\nO 0 1 1\nO 1 0 0\nT 19 1 1\nS 0 C 1 - - 0\nS 1 C 2 - - 2\n\
        L 0 0 L\nL 1 1 F\nL 2 1 L\nN 0 3\nN 1 3\nC 0 0 X W 1 0 B\nC 1 0 S -\nC 1 1 S R 0 0 -\n\
        Q 0 1 S G\nQ 1 1 S G\n";
    assert_eq!(told(&bytes(&format!("{OPENED} 04 01 05 00 05 01 05 01 05 01 06 01"))), decided);
}

#[test]
fn only_a_later_run_is_wide_and_only_beyond_its_claim() {
    // An S that is written, a WRITE within an X, a READ within the claim, and no copy at all.
    let by_writing = bytes(&format!("{OPENED} 03 01 01 00 00 00 09"));
    assert_eq!(lines(&by_writing, 'S')[1], "S 1 L 2 F W 1");
    assert_eq!(lines(&by_writing, 'C')[2], "C 1 1 - W 9 0 -");
    assert_eq!(lines(&bytes(W)[..53], 'S')[1], "S 1 L 2 F - 1");
    let opened = bytes(OPENED);
    let within = [&opened[..opened.len() - 3], &[2, 1, 0]].concat();
    assert_eq!(lines(&within, 'S')[1], "S 1 L 2 F - 1");
    assert_eq!(lines(&within, 'C')[1], "C 1 0 S R 1 1 -");
    assert_eq!(lines(&opened[..opened.len() - 3], 'S')[1], "S 1 L 2 F - 1");
    let written = [&within[..], &[3, 1, 0, 0, 0, 0, 2]].concat();
    assert_eq!(lines(&written, 'S')[1], "S 1 L 2 F W 1");
    // A wide run that is given up is wide no more.
    let given_up = bytes(&format!("{OPENED} 08 01"));
    assert_eq!(lines(&given_up, 'S')[1], "S 1 D 2 F - 1");
    assert_eq!(lines(&given_up, 'C')[1..], ["C 1 0 S -", "C 1 1 - R 0 0 -"]);
}

#[test]
fn a_copy_that_is_behind_and_one_that_is_not() {
    let session = fresh(&format!("01 00 02 00 00 {} 01 02 02 02 00", whole(1, 5)));
    let expected = "P 1 1 C\nO 0 5 1\nT 11 1 0\nS 0 F 1 - - -\nS 1 C 1 - - 0\nS 2 F 1 - - -\n\
        L 0 1 L\nN 0 1\nC 0 0 - R 0 0 B\nC 1 0 X W 5 0 B\nC 2 0 - R 5 1 -\n";
    assert_eq!(told(&session), expected);
    // A content that is stored again is no change, so no copy of it is behind.
    let session = fresh(&format!("01 00 02 00 00 {}", whole(1, 0)));
    assert_eq!(lines(&session, 'C'), ["C 0 0 - R 0 0 -", "C 1 0 X W 0 0 -"]);
}

/// Saves that read sheet 0 and, where their letter is X, write it; submitted and taken in this order.
fn queue(entries: &[(u8, char)]) -> Vec<u8> {
    let mut session = fresh("");
    for &(save, lock) in entries {
        session.extend([1, save, 2, save, 0]);
        if lock == 'X' {
            session.extend([3, save, 0, 0, 0, 0, save]);
        }
    }
    entries.iter().for_each(|&(save, _)| session.extend([4, save]));
    entries.iter().for_each(|_| session.extend([5, 0]));
    session
}

#[test]
fn an_s_waits_for_the_x_before_it_and_an_x_for_all() {
    let expected = "P 0 1 U\nP 1 1 U\nP 2 1 U\nO 0 0 0\nT 13 0 0\nS 0 S 1 - - 0\nS 1 S 1 - - 1\n\
        S 2 S 1 F - 2\nL 0 0 L\nL 1 1 L\nL 2 2 L\nN 0 3\nC 0 0 S R 0 0 -\nC 1 0 X W 1 0 -\n\
        C 2 0 S R 0 0 -\nQ 0 0 S G\nQ 0 1 X W 0\nQ 0 2 S W 1\n";
    assert_eq!(told(&queue(&[(0, 'S'), (1, 'X'), (2, 'S')])), expected);
    let long = [(7, 'S'), (3, 'S'), (31, 'X'), (0, 'S'), (12, 'X'), (2, 'S')];
    let expected = [
        "Q 0 7 S G",
        "Q 0 3 S G",
        "Q 0 31 X W 7 3",
        "Q 0 0 S W 31",
        "Q 0 12 X W 7 3 31 0",
        "Q 0 2 S W 31 12",
    ];
    assert_eq!(lines(&queue(&long), 'Q'), expected);
    // The saves rise, whatever their places are.
    let saves = ["S 0 S 1 F - 3", "S 2 S 1 F - 5", "S 3 S 1 - - 1", "S 7 S 1 - - 0"];
    assert_eq!(lines(&queue(&long), 'S')[..4], saves);
    assert_eq!(lines(&queue(&long), 'L')[..3], ["L 0 7 L", "L 1 3 L", "L 2 31 L"]);
    assert_eq!(lines(&queue(&[(1, 'X'), (0, 'X')]), 'Q'), ["Q 0 1 X G", "Q 0 0 X W 1"]);
}

#[test]
fn an_empty_claim() {
    let submitted = "P 0 1 U\nO 0 0 0\nT 2 0 0\nS 0 S 1 - - 0\nL 0 0 L\nN 0 0\n";
    assert_eq!(told(&fresh("01 00 04 00")), submitted);
    let committed = "P 0 1 C\nO 0 0 0\nT 3 1 0\nS 0 C 1 - - 0\nL 0 0 L\nN 0 0\n";
    assert_eq!(told(&fresh("01 00 04 00 06 00")), committed);
}

#[test]
fn a_text_for_every_room() {
    let whole = W_AFTER_TEN.as_bytes();
    assert_eq!(text(&Session::run(&bytes(W)[..36])).as_deref(), Some(W_AFTER_TEN));
    let length = whole.len();
    assert_eq!(length, 151);
    for room in [0, 1, length - 1, length, length + 1, MOST_BYTES] {
        let mut lent = vec![0xa5; room];
        let mut expected = lent.clone();
        let answer = if room < length {
            (7 << 48) + (151 << 8) + 15
        } else {
            expected[..length].copy_from_slice(whole);
            (8 << 48) + (151 << 8)
        };
        assert_eq!(put(Some(whole), &mut lent), answer, "{room} bytes");
        assert!(lent == expected, "{room} bytes");
    }
    // 1 comes before 15.
    for room in [0, 9] {
        let mut lent = vec![0xa5; room];
        assert_eq!(put(None, &mut lent), (7 << 48) + 1);
        assert_eq!(lent, vec![0xa5; room]);
    }
}

#[test]
fn the_longest_queues_are_far_from_the_most_bytes() {
    let mut session = Header { nodes: 1, owner: vec![0; 64] }.bytes();
    (0..32).for_each(|save| session.extend(Command::Begin { save }.bytes()));
    for save in 0..32 {
        (0..64).for_each(|sheet| session.extend(Command::Read { save, sheet }.bytes()));
    }
    // The saves at the end wait for most others, so these write as much as the session has room for.
    for save in (0..32).rev().take(22) {
        for sheet in 0..64 {
            session.extend(Command::Write { save, sheet, content: u32::MAX }.bytes());
        }
    }
    (0..32).for_each(|save| session.extend(Command::Submit { save }.bytes()));
    session.extend([5, 0].repeat(32));
    let text = told(&session);
    assert_eq!(Session::run(&session).refused, None);
    assert_eq!(text.lines().filter(|line| line.starts_with('Q')).count(), 32 * 64);
    assert!(text.len() > 140_000 && 3 * text.len() < MOST_BYTES, "{} bytes", text.len());
}
