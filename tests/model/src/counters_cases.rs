//! The marks that APPLY adds to the counters: worked sessions with every mark, and many sessions.

use crate::cases::{bytes, end_of, fresh, whole, W};
use crate::command::Command;
use crate::counters::{adds_up, check};
use crate::engine::Phase;
use crate::generate;
use crate::prng::Prng;
use crate::session::Session;
use std::collections::BTreeSet;

/// The session is accepted, its APPLYs have these marks, and it ends with these WCTs.
fn worked(session: &[u8], marks: &[&[u32]], wcts: &[u32]) {
    let run = Session::run(session);
    assert_eq!(run.refused, None);
    let applied = check(session, &run).expect("counters");
    assert_eq!(applied.into_iter().map(|(_, marks)| marks).collect::<Vec<_>>(), marks);
    let end: Vec<u32> = end_of(session).sheets.iter().map(|sheet| sheet.wct).collect();
    assert_eq!(end, wcts);
}

/// W up to that offset, then other commands.
fn w_until(offset: usize, more: &str) -> Vec<u8> {
    [&bytes(W)[..offset], &bytes(more)].concat()
}

#[test]
fn the_worked_session() {
    worked(&w_until(38, ""), &[], &[0, 0]);
    worked(&w_until(41, ""), &[&[1, 0]], &[1, 0]);
    worked(&bytes(W), &[&[1, 0], &[1, 0]], &[2, 0]);
}

#[test]
fn a_dropped_save_has_no_mark() {
    // Save 1 is given up in its second run, after a WRITE there and before any.
    worked(&w_until(53, "08 01 07 00 01"), &[&[1, 0], &[0, 0]], &[1, 0]);
    worked(&w_until(43, "08 01 07 00 01"), &[&[1, 0], &[0, 0]], &[1, 0]);
}

#[test]
fn each_node_adds_the_marks_of_its_own_sheets() {
    // Save 0 writes both sheets, and each has its own node.
    let start = "02 02 00 01 01 00 02 00 00 02 00 01 03 00 00 00 00 00 01 03 00 01 00 00 00 02 \
        04 00 05 00 05 01 06 00";
    let then = |applies: &str| bytes(&format!("{start} {applies}"));
    worked(&then("07 00 00"), &[&[1, 0]], &[1, 0]);
    worked(&then("07 00 00 07 01 00"), &[&[1, 0], &[0, 1]], &[1, 1]);
    worked(&then("07 01 00"), &[&[0, 1]], &[0, 1]);
    worked(&then("07 01 00 07 00 00"), &[&[0, 1], &[1, 0]], &[1, 1]);
}

#[test]
fn a_sheet_that_was_only_read_has_no_mark() {
    // Of one node's four sheets, 0 is read, 1 and 3 are written, 3 twice, and 2 is left alone.
    let session = bytes(
        "01 04 00 00 00 00 01 00 02 00 00 02 00 01 02 00 03 03 00 01 00 00 00 01 \
         03 00 03 00 00 00 02 03 00 03 00 00 00 03 04 00 05 00 06 00 07 00 00",
    );
    worked(&session, &[&[0, 1, 0, 1]], &[0, 1, 0, 1]);
}

#[test]
fn a_sheet_written_in_the_first_run_only_has_no_mark() {
    // Save 1 ends its second run without a READ, and with a READ alone.
    worked(&w_until(43, "04 01 07 00 01"), &[&[1, 0], &[0, 0]], &[1, 0]);
    worked(&w_until(46, "04 01 07 00 01"), &[&[1, 0], &[0, 0]], &[1, 0]);
}

#[test]
fn a_content_that_was_the_same_has_no_mark() {
    // Save 0 writes the 0 that is there, saves 1 and 2 both write 7.
    worked(&fresh(&whole(0, 0)), &[&[0]], &[0]);
    let three = [whole(0, 0), whole(1, 7), whole(2, 7)].join(" ");
    worked(&fresh(&three), &[&[0], &[1], &[0]], &[1]);
}

#[test]
fn the_equation_is_one_of_all_sheets() {
    assert!(adds_up(&[3, 0, 5], &[1, 0, 0], &[4, 0, 5]));
    assert!(!adds_up(&[3, 0, 5], &[1, 0, 0], &[3, 0, 5]));
    assert!(!adds_up(&[3, 0, 5], &[1, 0, 0], &[4, 0, 6]));
    assert!(!adds_up(&[3, 0], &[1, 0, 0], &[4, 0]));
    assert!(!adds_up(&[3, 0, 5], &[1, 0, 0], &[4, 0]));
    assert!(!adds_up(&[u32::MAX], &[1], &[0]));
}

#[test]
fn the_check_sees_a_wrong_sum_and_a_counter_raised_elsewhere() {
    // A save begins between save 0's DECIDE and its APPLY.
    let session = w_until(38, "01 02 07 00 00");
    let run = Session::run(&session);
    let checked = |place: usize, command: Command| {
        let mut wrong = run.clone();
        wrong.steps[place].command = command;
        check(&session, &wrong)
    };
    let carried_out = |node| Command::Apply { node, save: 0 };
    assert_eq!(checked(12, carried_out(0)), Ok(vec![(12, vec![1, 0])]));
    // Node 1 has no mark to add, and after step 11 no counter has risen.
    for (place, node) in [(12, 1), (11, 0)] {
        assert!(checked(place, carried_out(node)).unwrap_err().starts_with("sum"));
    }
    assert!(checked(12, Command::Take { node: 0 }).unwrap_err().starts_with("other step"));
}

#[test]
fn counters_on_many_sessions() {
    let mut prng = Prng::new(3);
    let mut met = BTreeSet::new();
    for _ in 0..1_000 {
        let session = generate::input(&mut prng).session;
        let run = Session::run(&session);
        let applied = check(&session, &run).expect("counters");
        let Some((header, end)) = &run.started else { continue };
        for (place, marks) in applied {
            let Command::Apply { node, save } = run.steps[place].command else { unreachable!() };
            // A save that is over stays as it is.
            let committed = end.saves[save].phase == Phase::Committed;
            for (sheet, mark) in marks.into_iter().enumerate() {
                let written = end.saves[save].copies.get(&sheet).map(|copy| copy.written);
                met.insert((committed, header.owner[sheet] == node, written, mark));
            }
        }
    }
    // Of a committed save, at a sheet of the node, with a copy that is written; and the mark, which is 0
    // there too where the content was the same.
    let kinds = [
        (true, true, Some(true), 1),
        (true, true, Some(true), 0),
        (true, true, Some(false), 0),
        (true, true, None, 0),
        (true, false, Some(true), 0),
        (true, false, Some(false), 0),
        (true, false, None, 0),
        (false, true, Some(true), 0),
        (false, true, Some(false), 0),
        (false, true, None, 0),
        (false, false, Some(true), 0),
        (false, false, Some(false), 0),
        (false, false, None, 0),
    ];
    assert_eq!(met, BTreeSet::from(kinds));
}
