//! Why a save was found invalid: the worked sessions, causes that meet, what is no cause, and many
//! sessions.

use crate::cases::{answers, bytes, end_of, fresh, invalid, printed, valid, W};
use crate::causes::check;
use crate::command::{Command, Header};
use crate::engine::{Answer, Cause, Entry, Lock, Rule};
use crate::generate;
use crate::prng::Prng;
use crate::session::{coded_answer, Session};
use std::collections::BTreeSet;
use Rule::{CounterBehind, XGranted, XWaiting};

fn last(session: &[u8]) -> Answer {
    *answers(session).last().expect("a command")
}

/// The last answer is that of this TAKE, in words and in its number, and the session is accepted.
fn ends_with(session: &[u8], expected: Answer) {
    let run = Session::run(session);
    assert_eq!((run.refused, last(session)), (None, expected));
    assert_eq!(run.answer(), coded_answer(expected));
    check(session, &run).expect("causes");
}

/// The causes that stood at the session's last invalid TAKE.
fn all_causes(session: &[u8]) -> Vec<(usize, Rule)> {
    let found = check(session, &Session::run(session)).expect("causes");
    let causes = found.last().expect("an invalid TAKE");
    causes.iter().map(|cause| (cause.sheet, cause.rule)).collect()
}

fn worked(session: &str, report: &str, (save, sheet, rule): (usize, usize, Rule)) {
    ends_with(&bytes(session), invalid(save, sheet, rule));
    assert_eq!(printed(&bytes(session)), report);
}

#[test]
fn each_rule_by_itself() {
    worked(
        "01 01 00 01 00 01 01 02 00 00 02 01 00 03 00 00 00 00 00 01 04 00 04 01 05 00 05 00",
        "P 0 1 U\nP 1 1 U\nO 0 0 0\nT 9 0 0\n",
        (1, 0, XGranted),
    );
    worked(
        "01 01 00 01 00 01 01 01 02 02 00 00 02 01 00 02 02 00 03 01 00 00 00 00 05 04 00 04 01 \
         04 02 05 00 05 00 05 00",
        "P 0 1 U\nP 1 1 U\nP 2 1 U\nO 0 0 0\nT 13 0 0\n",
        (2, 0, XWaiting),
    );
    worked(
        "01 01 00 01 00 01 01 01 02 01 03 02 00 00 02 01 00 02 02 00 03 02 00 00 00 00 03 \
         02 03 00 04 00 04 01 04 02 04 03 05 00 05 00 05 00 05 00",
        "P 0 1 U\nP 1 1 U\nP 2 1 U\nP 3 1 U\nO 0 0 0\nT 17 0 0\n",
        (3, 0, XWaiting),
    );
    worked(
        "01 01 00 01 00 01 01 02 00 00 02 01 00 03 00 00 00 00 00 01 04 00 04 01 05 00 06 00 \
         07 00 00 05 00",
        "P 0 1 C\nP 1 1 U\nO 0 1 1\nT 11 1 0\n",
        (1, 0, CounterBehind),
    );
}

#[test]
fn the_worked_sessions_with_more_than_one_sheet_or_rule() {
    worked(
        "01 01 00 01 00 01 01 01 02 02 00 00 02 01 00 02 02 00 03 00 00 00 00 00 01 \
         03 01 00 00 00 00 02 04 00 05 00 06 00 07 00 00 04 01 04 02 05 00 05 00",
        "P 0 1 C\nP 1 1 U\nP 2 1 U\nO 0 1 1\nT 16 1 0\n",
        (2, 0, XGranted),
    );
    worked(
        "01 02 00 00 01 00 01 01 01 02 02 00 00 03 00 00 00 00 00 01 02 01 01 03 01 01 00 00 00 02 \
         02 02 00 02 02 01 04 00 05 00 06 00 07 00 00 04 01 04 02 05 00 05 00",
        "P 0 1 C\nP 1 1 U\nP 2 1 U\nO 0 1 1\nO 1 0 0\nT 17 1 0\n",
        (2, 0, CounterBehind),
    );
    worked(
        "01 02 00 00 01 00 01 01 01 02 02 00 01 03 00 01 00 00 00 01 02 01 01 02 02 00 02 02 01 \
         04 01 04 00 04 02 05 00 05 00 05 00",
        "P 1 1 U\nP 0 1 U\nP 2 1 U\nO 0 0 0\nO 1 0 0\nT 14 0 0\n",
        (2, 1, XWaiting),
    );
    worked(
        "02 02 00 01 01 00 01 01 02 00 01 03 00 01 00 00 00 01 02 01 00 02 01 01 04 00 04 01 \
         05 00 05 00 05 01 05 01",
        "P 0 1 U\nP 1 1 U\nO 0 0 0\nO 1 0 0\nT 12 0 0\n",
        (1, 1, XGranted),
    );
}

#[test]
fn on_one_sheet_an_x_comes_before_the_counter() {
    // Save 3 has read before save 0's write; save 1 reads after it, and save 2's X waits behind that S.
    let waiting = fresh(
        "01 00 01 03 02 00 00 02 03 00 03 00 00 00 00 00 01 04 00 05 00 06 00 07 00 00 \
         01 01 01 02 02 01 00 02 02 00 03 02 00 00 00 00 02 04 01 04 02 04 03 05 00 05 00 05 00",
    );
    ends_with(&waiting, invalid(3, 0, XWaiting));
    assert_eq!(all_causes(&waiting), [(0, XWaiting), (0, CounterBehind)]);
    // Without that S the X stands in front.
    let granted = fresh(
        "01 00 01 03 02 00 00 02 03 00 03 00 00 00 00 00 01 04 00 05 00 06 00 07 00 00 \
         01 02 02 02 00 03 02 00 00 00 00 02 04 02 04 03 05 00 05 00",
    );
    ends_with(&granted, invalid(3, 0, XGranted));
    assert_eq!(all_causes(&granted), [(0, XGranted), (0, CounterBehind)]);
}

#[test]
fn on_one_sheet_the_front_comes_before_the_others() {
    // Saves 0 and 1 write, so that save 2 meets an X in front and one behind it.
    let session = fresh(
        "01 00 01 01 01 02 02 00 00 02 01 00 02 02 00 03 00 00 00 00 00 01 03 01 00 00 00 00 02 \
         04 00 04 01 04 02 05 00 05 00 05 00",
    );
    ends_with(&session, invalid(2, 0, XGranted));
    assert_eq!(all_causes(&session), [(0, XGranted), (0, XWaiting)]);
}

#[test]
fn of_two_sheets_the_lower_one_counts_whatever_its_rule() {
    // Save 0's write of sheet 1 is carried out, save 1's X stands at sheet 0.
    let session = bytes(
        "01 02 00 00 01 00 01 01 01 02 02 00 01 03 00 01 00 00 00 01 02 01 00 03 01 00 00 00 00 02 \
         02 02 00 02 02 01 04 00 05 00 06 00 07 00 00 04 01 04 02 05 00 05 00",
    );
    ends_with(&session, invalid(2, 0, XGranted));
    assert_eq!(all_causes(&session), [(0, XGranted), (1, CounterBehind)]);
    // Save 1 writes both sheets: its X waits at sheet 0 behind save 0's S, and stands first at sheet 1.
    let session = bytes(
        "01 02 00 00 01 00 01 01 01 02 02 00 00 02 01 00 02 01 01 03 01 00 00 00 00 01 \
         03 01 01 00 00 00 02 02 02 00 02 02 01 04 00 04 01 04 02 05 00 05 00 05 00",
    );
    ends_with(&session, invalid(2, 0, XWaiting));
    assert_eq!(all_causes(&session), [(0, XWaiting), (1, XGranted)]);
}

#[test]
fn another_nodes_sheets_and_marks_are_no_cause() {
    // Save 0 writes sheet 0 and reads sheet 1, save 1 the other way round; each sheet has its own node.
    let start = "02 02 00 01 01 00 01 01 02 00 00 02 00 01 03 00 00 00 00 00 01 \
        02 01 00 02 01 01 03 01 01 00 00 00 02 04 00 04 01 05 00 05 01";
    let [here, there] = [[0, 1], [1, 0]].map(|nodes| {
        let [first, second] = nodes;
        let session = bytes(&format!("{start} 05 0{first} 05 0{second}"));
        assert!(end_of(&session).saves[1].failed);
        let given = answers(&session);
        [given[given.len() - 2], given[given.len() - 1]]
    });
    // Node 1 finds save 1 valid also where node 0 has failed it before.
    assert_eq!(here, [invalid(1, 0, XGranted), valid(1)]);
    assert_eq!(there, [valid(1), invalid(1, 0, XGranted)]);
}

#[test]
fn each_node_has_a_cause_of_its_own() {
    // Sheet 0 is node 1's. Save 0 writes both sheets, save 1 reads both.
    let session = bytes(
        "02 02 01 00 01 00 01 01 02 00 00 02 00 01 03 00 00 00 00 00 01 03 00 01 00 00 00 02 \
         02 01 00 02 01 01 04 00 04 01 05 00 05 01 05 00 05 01",
    );
    let given = answers(&session);
    assert_eq!(given[given.len() - 2..], [invalid(1, 1, XGranted), invalid(1, 0, XGranted)]);
}

#[test]
fn a_save_that_is_not_carried_out_still_counts() {
    let committed = "01 00 01 01 02 00 00 02 01 00 03 00 00 00 00 00 01 04 00 04 01 05 00 06 00";
    ends_with(&fresh(&format!("{committed} 05 00")), invalid(1, 0, XGranted));
    ends_with(&fresh(&format!("{committed} 07 00 00 05 00")), invalid(1, 0, CounterBehind));
    // Save 1 fails after save 0 and is given up in its second run; save 2 has read between the two.
    let dropped = "01 00 01 01 01 02 02 00 00 02 01 00 03 00 00 00 00 00 01 03 01 00 00 00 00 02 \
        04 00 04 01 05 00 06 00 07 00 00 02 02 00 04 02 05 00 06 01 08 01";
    ends_with(&fresh(&format!("{dropped} 05 00")), invalid(2, 0, XGranted));
    ends_with(&fresh(&format!("{dropped} 07 00 01 05 00")), valid(2));
}

#[test]
fn a_waiting_x_is_granted_once_it_stands_first() {
    // Save 0 reads, save 1 writes, saves 2 and 3 read.
    let start = "01 00 01 01 01 02 01 03 02 00 00 02 01 00 02 02 00 02 03 00 03 01 00 00 00 00 05 \
        04 00 04 01 04 02 04 03 05 00 05 00 05 00";
    ends_with(&fresh(start), invalid(2, 0, XWaiting));
    ends_with(&fresh(&format!("{start} 05 00")), invalid(3, 0, XWaiting));
    ends_with(&fresh(&format!("{start} 06 00 07 00 00 05 00")), invalid(3, 0, XGranted));
}

#[test]
fn the_save_itself_is_no_cause() {
    // Save 1 writes too, so its own X is the queue's front when it has failed by the counter.
    let session = fresh(
        "01 00 01 01 02 00 00 02 01 00 03 00 00 00 00 00 01 03 01 00 00 00 00 02 04 00 04 01 \
         05 00 06 00 07 00 00 05 00",
    );
    ends_with(&session, invalid(1, 0, CounterBehind));
    assert_eq!(end_of(&session).sheets[0].queue, [Entry { save: 1, lock: Lock::X }]);
}

#[test]
fn every_sheet_gets_its_entry_after_the_first_cause() {
    // Save 0 writes sheets 0 and 2 of three; save 1 reads sheets 0 and 1, and writes sheet 2.
    let session = bytes(
        "01 03 00 00 00 01 00 01 01 02 00 00 02 00 02 03 00 00 00 00 00 01 03 00 02 00 00 00 02 \
         02 01 00 02 01 01 02 01 02 03 01 02 00 00 00 03 04 00 04 01 05 00 05 00",
    );
    ends_with(&session, invalid(1, 0, XGranted));
    assert_eq!(all_causes(&session), [(0, XGranted), (2, XGranted)]);
    let engine = end_of(&session);
    let entry = |save, lock| Entry { save, lock };
    assert_eq!(engine.sheets[0].queue, [entry(0, Lock::X), entry(1, Lock::S)]);
    assert_eq!(engine.sheets[1].queue, [entry(1, Lock::S)]);
    assert_eq!(engine.sheets[2].queue, [entry(0, Lock::X), entry(1, Lock::X)]);
    assert!(engine.saves[1].failed && !engine.saves[0].failed);
}

#[test]
fn the_numbers_of_the_answers() {
    let number = |rule| coded_answer(invalid(1, 2, rule));
    assert_eq!(number(XGranted), 4 * 2u64.pow(48) + (2 * 65_536 + 1) * 256 + 1);
    assert_eq!(number(XWaiting), 4 * 2u64.pow(48) + (2 * 65_536 + 1) * 256 + 2);
    assert_eq!(number(CounterBehind), 4 * 2u64.pow(48) + (2 * 65_536 + 1) * 256 + 3);
    assert_eq!(coded_answer(valid(31)), 3 * 2u64.pow(48) + 31 * 256);
    // The last save fails at the last sheet.
    let mut session = Header { nodes: 1, owner: vec![0; 64] }.bytes();
    let (sheet, content) = (63, 1);
    for save in [30, 31] {
        session.extend(Command::Begin { save }.bytes());
        session.extend(Command::Read { save, sheet }.bytes());
        session.extend(Command::Write { save, sheet, content }.bytes());
        session.extend(Command::Submit { save }.bytes());
    }
    session.extend([5, 0, 5, 0]);
    let expected = 4 * 2u64.pow(48) + (63 * 65_536 + 31) * 256 + 1;
    assert_eq!(Session::run(&session).answer(), expected);
}

#[test]
fn the_check_sees_a_wrong_cause_and_a_wrong_verdict() {
    let run = Session::run(&bytes(W));
    let checked = |place: usize, answer: Answer| {
        let mut wrong = run.clone();
        wrong.steps[place].answer = answer;
        check(&bytes(W), &wrong)
    };
    let first = Cause { sheet: 0, rule: XGranted };
    assert_eq!(checked(9, invalid(1, 0, XGranted)), Ok(vec![vec![first]]));
    for wrong in [invalid(1, 1, XGranted), invalid(1, 0, XWaiting), invalid(1, 0, CounterBehind)] {
        assert!(checked(9, wrong).unwrap_err().starts_with("first"));
    }
    assert!(checked(9, valid(1)).unwrap_err().starts_with("verdict"));
    assert!(checked(8, invalid(0, 0, XGranted)).unwrap_err().starts_with("verdict"));
    assert!(checked(8, valid(1)).unwrap_err().starts_with("verdict"));
}

#[test]
fn causes_on_many_sessions() {
    let mut prng = Prng::new(3);
    let mut met = BTreeSet::new();
    for _ in 0..2_000 {
        let session = generate::input(&mut prng).session;
        for causes in check(&session, &Session::run(&session)).expect("causes") {
            // By its rule, and by a rule that stands on the same sheet or on a higher one.
            let first = causes[0];
            met.extend(
                causes.iter().map(|cause| (first.rule, cause.rule, cause.sheet == first.sheet)),
            );
        }
    }
    let every_rule_higher_up =
        Rule::ALL.into_iter().flat_map(|first| Rule::ALL.map(|rule| (first, rule, false)));
    let on_its_sheet = [
        (XGranted, XGranted, true),
        (XGranted, XWaiting, true),
        (XGranted, CounterBehind, true),
        (XWaiting, XWaiting, true),
        (XWaiting, CounterBehind, true),
        (CounterBehind, CounterBehind, true),
    ];
    assert_eq!(met, every_rule_higher_up.chain(on_its_sheet).collect());
}
