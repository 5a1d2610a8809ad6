//! Saves that saved nothing: the worked sessions, readers beside them, their X entries, contents that the
//! two runs see otherwise, and many sessions.

use crate::cases::{answers, bytes, end_of, fresh, invalid, printed, valid, whole, W, W_REPORT};
use crate::command::Header;
use crate::counters;
use crate::engine::{Answer, Engine, Lock, Rule};
use crate::generate;
use crate::prng::Prng;
use crate::session::Session;
use crate::unchanged::{check, Met, Watch};
use std::collections::BTreeMap;

/// The session is accepted, prints this report and keeps to the words; gives what they met.
fn worked(session: &[u8], report: &str) -> Met {
    let run = Session::run(session);
    assert_eq!(run.refused, None);
    assert_eq!(printed(session), report);
    check(session, &run).expect("unchanged")
}

/// The marks of the session's APPLYs.
fn marks(session: &[u8]) -> Vec<Vec<u32>> {
    let applied = counters::check(session, &Session::run(session)).expect("counters");
    applied.into_iter().map(|(_, marks)| marks).collect()
}

#[test]
fn a_save_that_stores_what_another_has_stored() {
    // The second run of save 1 meets save 0's content and writes it again.
    let session = fresh(
        "01 00 01 01 02 00 00 02 01 00 03 00 00 00 00 00 01 03 01 00 00 00 00 02 04 00 04 01 \
         05 00 05 00 06 00 07 00 00 06 01 02 01 00 03 01 00 00 00 00 01 04 01 07 00 01",
    );
    let met = worked(&session, "P 0 1 C\nP 1 2 C\nO 0 1 1\nT 17 1 1\n");
    assert_eq!(met, Met { same: 1, ..Met::default() });
    assert_eq!(Session::run(&session).answer(), 1 << 48);
    assert_eq!(marks(&session), [[1], [0]]);
}

#[test]
fn a_content_that_is_changed_and_put_back_before_the_submit() {
    // Saves 0 and 1 change the content; save 2 writes 9 and then the 0 that it has read.
    let session = fresh(&format!(
        "{} {} 01 02 02 02 00 03 02 00 00 00 00 09 03 02 00 00 00 00 00 04 02 05 00 06 02 07 00 02",
        whole(0, 1),
        whole(1, 0),
    ));
    assert_eq!(session.len(), 73);
    let met = worked(&session, "P 0 1 C\nP 1 1 C\nP 2 1 C\nO 0 0 2\nT 22 3 0\n");
    assert_eq!(met, Met { same: 1, ..Met::default() });
    assert_eq!(Session::run(&session).answer(), 1 << 48);
    assert_eq!(marks(&session), [[1], [1], [0]]);
}

#[test]
fn a_content_that_went_away_and_came_back_fails_its_reader() {
    // Save 9 has read the first 0, and the sheet has a 0 again.
    let session =
        fresh(&format!("01 09 02 09 00 {} {} 04 09 05 00 06 09", whole(0, 1), whole(1, 0)));
    assert_eq!(session.len(), 56);
    let met = worked(&session, "P 0 1 C\nP 1 1 C\nP 9 2 U\nO 0 0 2\nT 19 2 0\n");
    assert_eq!(met, Met { came_back: 1, ..Met::default() });
    assert_eq!(Session::run(&session).answer(), 6 << 48);
    assert_eq!(answers(&session)[17], invalid(9, 0, Rule::CounterBehind));
    // With a save more that stores the 0 again, it fails none the less.
    let session = fresh(&format!(
        "01 09 02 09 00 {} {} {} 04 09 05 00",
        whole(0, 1),
        whole(1, 0),
        whole(2, 0)
    ));
    let met = worked(&session, "P 0 1 C\nP 1 1 C\nP 2 1 C\nP 9 1 U\nO 0 0 2\nT 25 3 0\n");
    assert_eq!(met, Met { same: 1, came_back: 1, ..Met::default() });
    assert_eq!(answers(&session)[24], invalid(9, 0, Rule::CounterBehind));
}

#[test]
fn the_x_of_a_save_that_saves_nothing_still_fails_others() {
    let start = "01 00 01 01 02 00 00 02 01 00 03 00 00 00 00 00 00 04 00 04 01 05 00";
    let session = fresh(&format!("{start} 05 00 06 00 07 00 00 06 01"));
    let met = worked(&session, "P 0 1 C\nP 1 2 U\nO 0 0 0\nT 12 1 0\n");
    // When node 0 took save 1, save 0 was not committed yet.
    assert_eq!(met, Met { same: 1, ..Met::default() });
    assert_eq!(Session::run(&session).answer(), 6 << 48);
    assert_eq!(answers(&session)[8], invalid(1, 0, Rule::XGranted));
    assert_eq!(end_of(&session).saves[0].claim, BTreeMap::from([(0, Lock::X)]));
    // The X of a committed save fails it just so; after the APPLY it is gone and save 1 is valid.
    let before = fresh(&format!("{start} 06 00 05 00 07 00 00"));
    let met = worked(&before, "P 0 1 C\nP 1 1 U\nO 0 0 0\nT 11 1 0\n");
    assert_eq!(met, Met { same: 1, failed_by_x: 1, ..Met::default() });
    let after = fresh(&format!("{start} 06 00 07 00 00 05 00 06 01"));
    let met = worked(&after, "P 0 1 C\nP 1 1 C\nO 0 0 0\nT 12 2 0\n");
    assert_eq!(met, Met { same: 1, passed: 1, ..Met::default() });
}

#[test]
fn the_x_of_a_save_that_saves_nothing_waits_and_holds_reads_as_before() {
    // Save 0 reads; save 1 writes the 0 that is there and waits; save 2 fails by it.
    let waiting = fresh(
        "01 00 01 01 01 02 02 00 00 02 01 00 02 02 00 03 01 00 00 00 00 00 04 00 04 01 04 02 \
         05 00 05 00 05 00",
    );
    assert_eq!(answers(&waiting)[12], invalid(2, 0, Rule::XWaiting));
    // In front it refuses a first READ with 6.
    let held = fresh("01 00 01 01 02 00 00 03 00 00 00 00 00 00 04 00 05 00 02 01 00");
    assert_eq!(Session::run(&held).answer(), (7 << 48) + (21 << 8) + 6);
}

#[test]
fn the_worked_session_has_its_old_report() {
    assert_eq!(worked(&bytes(W), W_REPORT), Met::default());
    assert_eq!(marks(&bytes(W)), [[1, 0], [1, 0]]);
}

#[test]
fn readers_of_the_older_copy_pass_beside_a_save_that_saves_nothing() {
    // Saves 8 and 9 have read the 7 of save 0; save 1 stores it again, and save 2 too.
    let readers = "01 08 01 09 02 08 00 02 09 00 03 09 00 00 00 00 05";
    let session = fresh(&format!(
        "{} {readers} {} {} 04 08 05 00 06 08 04 09 05 00 07 00 08 06 09 07 00 09",
        whole(0, 7),
        whole(1, 7),
        whole(2, 7),
    ));
    let report = "P 0 1 C\nP 1 1 C\nP 2 1 C\nP 8 1 C\nP 9 1 C\nO 0 5 2\nT 34 5 0\n";
    let met = worked(&session, report);
    assert_eq!(met, Met { same: 2, passed: 2, ..Met::default() });
    assert_eq!(marks(&session), [[1], [0], [0], [0], [1]]);
    let given = answers(&session);
    assert_eq!((given[27], given[28]), (valid(8), Answer::Committed));
    assert_eq!((given[30], given[32]), (valid(9), Answer::Committed));
}

#[test]
fn what_the_first_run_has_read_does_not_count() {
    // In W save 1 reads 0, fails after save 0's 7, and meets the 7 in its second run; there it writes this.
    let second = |content: u8| {
        let mut session = bytes(W);
        session[52] = content;
        session
    };
    // The 0 of the first run is another content than the one that is there.
    let met = worked(&second(0), "P 0 1 C\nP 1 2 C\nO 0 0 2\nO 1 0 0\nT 17 1 1\n");
    assert_eq!((met.same, marks(&second(0))), (0, vec![vec![1, 0], vec![1, 0]]));
    // The 7 is not, though the first run has read another.
    let met = worked(&second(7), "P 0 1 C\nP 1 2 C\nO 0 7 1\nO 1 0 0\nT 17 1 1\n");
    assert_eq!((met.same, marks(&second(7))), (1, vec![vec![1, 0], vec![0, 0]]));
}

#[test]
fn a_sheet_whose_first_content_is_0_has_seen_no_change() {
    let session = fresh(&whole(0, 0));
    let met = worked(&session, "P 0 1 C\nO 0 0 0\nT 7 1 0\n");
    assert_eq!(met, Met { same: 1, ..Met::default() });
    let session = fresh(&format!("{} {}", whole(0, 0), whole(1, 1)));
    worked(&session, "P 0 1 C\nP 1 1 C\nO 0 1 1\nT 14 2 0\n");
}

#[test]
fn contents_are_compared_whole() {
    for bit in 0..32 {
        let session = fresh(&format!("{} {}", whole(0, 5), whole(1, 5 ^ 1 << bit)));
        assert_eq!(marks(&session), [[1], [1]]);
        assert_eq!(end_of(&session).sheets[0].wct, 2);
    }
}

#[test]
fn each_sheet_counts_by_itself() {
    // Save 0 leaves 1 and 2; save 1 writes 1 and 3; save 2 exchanges the two contents.
    let save = |save: &str, one: &str, two: &str| {
        format!(
            "01 {save} 02 {save} 00 02 {save} 01 03 {save} 00 00 00 00 {one} \
             03 {save} 01 00 00 00 {two} 04 {save} 05 00 05 01 06 {save} 07 00 {save} 07 01 {save} "
        )
    };
    let session = save("00", "01", "02") + &save("01", "01", "03") + &save("02", "03", "01");
    let session = bytes(&format!("02 02 00 01 {session}"));
    let met = worked(&session, "P 0 1 C\nP 1 1 C\nP 2 1 C\nO 0 3 2\nO 1 1 3\nT 33 3 0\n");
    assert_eq!(met, Met { same: 1, ..Met::default() });
    assert_eq!(marks(&session), [[1, 0], [0, 1], [0, 0], [0, 1], [1, 0], [0, 1]]);
}

#[test]
fn the_check_sees_each_wrong_clause_of_a_state() {
    // A wrong reading is seen before its APPLY; `over` is seen where `tests/mutants` breaks TAKE.
    let header = Header { nodes: 1, owner: vec![0] };
    let right = end_of(&fresh("01 00 02 00 00 04 00 05 00"));
    let clause = |harm: fn(&mut Engine)| {
        let mut wrong = right.clone();
        harm(&mut wrong);
        Watch::new(&header).check_state(&wrong).unwrap_err().split(':').next().map(str::to_string)
    };
    let named = |name: &str| Some(name.to_string());
    // A counter without a change, and a change without a counter.
    assert_eq!(clause(|wrong| wrong.sheets[0].wct = 1), named("count"));
    assert_eq!(clause(|wrong| wrong.sheets[0].content = 1), named("count"));
    assert_eq!(clause(|wrong| wrong.sheets[0].queue[0].lock = Lock::X), named("entry"));
    let see_more = |wrong: &mut Engine| {
        wrong.saves[0].copies.get_mut(&0).expect("a copy").wct_seen = 1;
    };
    assert_eq!(clause(see_more), named("ahead"));
    // Nothing has told this watch of the READ.
    assert_eq!(clause(|_| {}), named("reader"));
    let mut run = Session::run(&bytes(W));
    run.steps[2].answer = Answer::Content(1);
    assert!(check(&bytes(W), &run).unwrap_err().starts_with("reader"));
}

#[test]
fn unchanged_on_many_sessions() {
    let mut prng = Prng::new(3);
    let mut all = Met::default();
    for _ in 0..1_000 {
        let session = generate::input(&mut prng).session;
        all.add(check(&session, &Session::run(&session)).expect("unchanged"));
    }
    assert!(!all.counts().contains(&0), "{all:?}");
}
