//! Every case of document 01 and every example of its table of refusals, as the requests of
//! document 02 changed them.

use crate::command::{read_header, Command, MOST_BYTES};
use crate::demand3;
use crate::engine::{Answer, Cause, Engine, Entry, Lock, Phase, Rule, Verdict};
use crate::generate;
use crate::prng::Prng;
use crate::report::{report, write_report};
use crate::session::Session;

pub const W: &str = "02 02 00 01  01 00  01 01  02 00 00  02 01 00  03 00 00 00 00 00 07 \
    03 01 00 00 00 00 09  04 00  04 01  05 00  05 00  06 00  07 00 00  06 01  02 01 00 \
    03 01 00 00 00 00 09  04 01  07 00 01";
pub const W_REPORT: &str = "P 0 1 C\nP 1 2 C\nO 0 9 2\nO 1 0 0\nT 17 1 1\n";

pub fn bytes(hexadecimal: &str) -> Vec<u8> {
    hexadecimal
        .split_whitespace()
        .map(|byte| u8::from_str_radix(byte, 16).expect("hexadecimal"))
        .collect()
}

pub fn fresh(commands: &str) -> Vec<u8> {
    bytes(&format!("01 01 00 {commands}"))
}

/// A save with a READ and a WRITE of sheet 0, from its BEGIN to its APPLY.
pub fn whole(save: u8, content: u32) -> String {
    let content = content.to_be_bytes().map(|byte| format!("{byte:02x}")).join(" ");
    format!(
        "01 {save:02x} 02 {save:02x} 00 03 {save:02x} 00 {content} \
         04 {save:02x} 05 00 06 {save:02x} 07 00 {save:02x}"
    )
}

pub fn printed(session: &[u8]) -> String {
    String::from_utf8(report(&Session::run(session))).expect("figures and letters")
}

fn last_line(session: &[u8]) -> String {
    printed(session).lines().last().expect("a line").to_string()
}

/// The session is refused at `offset` with `number`, and `shown` bytes are handed back.
fn refused(session: &[u8], offset: usize, number: u8, shown: usize) {
    let run = Session::run(session);
    assert_eq!(last_line(session), format!("R {offset} {number}"));
    assert_eq!(run.answer(), (7 << 48) + ((offset as u64) << 8) + number as u64);
    assert_eq!(run.shown(), (offset, shown));
}

fn w_with(offset: usize, put_in: &str, left_out: usize) -> Vec<u8> {
    let mut session = bytes(W);
    session.splice(offset..offset + left_out, bytes(put_in));
    session
}

pub fn answers(session: &[u8]) -> Vec<Answer> {
    Session::run(session).steps.iter().map(|step| step.answer).collect()
}

pub fn end_of(session: &[u8]) -> Engine {
    Session::run(session).started.expect("a header").1
}

pub fn valid(save: usize) -> Answer {
    Answer::Taken { save, verdict: Verdict::Valid }
}

pub fn invalid(save: usize, sheet: usize, rule: Rule) -> Answer {
    Answer::Taken { save, verdict: Verdict::Invalid(Cause { sheet, rule }) }
}

#[test]
fn the_worked_session() {
    let w = bytes(W);
    assert_eq!(w.len(), 58);
    assert_eq!(printed(&w), W_REPORT);
    let run = Session::run(&w);
    assert_eq!(run.answer(), 1 << 48);
    assert_eq!(run.shown(), (58, 0));
}

#[test]
fn the_answers_in_the_worked_session() {
    use Answer::*;
    let expected = [
        Accepted,
        Accepted,
        Content(0),
        Content(0),
        Accepted,
        Accepted,
        Accepted,
        Accepted,
        valid(0),
        invalid(1, 0, Rule::XGranted),
        Committed,
        Accepted,
        SecondRun,
        Content(7),
        Accepted,
        Accepted,
        Accepted,
    ];
    assert_eq!(answers(&bytes(W)), expected);
    assert_eq!(Session::run(&bytes(W)[..46]).answer(), (2 << 48) + (7 << 8));
    assert_eq!(Session::run(&bytes(W)[..34]).answer(), 3 << 48);
    assert_eq!(Session::run(&bytes(W)[..36]).answer(), (4 << 48) + (1 << 8) + 1);
    assert_eq!(Session::run(&bytes(W)[..38]).answer(), 5 << 48);
    assert_eq!(Session::run(&bytes(W)[..43]).answer(), 6 << 48);
}

#[test]
fn fresh_alone() {
    assert_eq!(printed(&fresh("")), "O 0 0 0\nT 0 0 0\n");
    assert_eq!(Session::run(&fresh("")).answer(), 0);
    assert_eq!(Session::run(&fresh("")).shown(), (3, 0));
}

#[test]
fn save_31_begins_and_save_32_is_out_of_range() {
    assert_eq!(printed(&fresh("01 1f")), "O 0 0 0\nT 1 0 0\n");
    refused(&fresh("01 20"), 3, 4, 2);
}

#[test]
fn an_empty_claim_commits() {
    let session = fresh("01 00 04 00 06 00");
    assert_eq!(printed(&session), "P 0 1 C\nO 0 0 0\nT 3 1 0\n");
    assert_eq!(Session::run(&session).answer(), 5 << 48);
}

#[test]
fn a_shared_request_behind_a_waiting_exclusive_one_fails_and_waits() {
    // A is 0 and reads, B is 1 and writes, C is 2 and reads.
    let start = "01 00 01 01 01 02 02 00 00 02 01 00 03 01 00 00 00 00 05 02 02 00 \
        04 00 04 01 04 02 05 00 05 00 05 00";
    let session = fresh(start);
    let given = answers(&session);
    assert_eq!(given[10], valid(0));
    assert_eq!(given[11], valid(1));
    assert_eq!(given[12], invalid(2, 0, Rule::XWaiting));
    let engine = end_of(&session);
    let entry = |save, lock| Entry { save, lock };
    let queue = [entry(0, Lock::S), entry(1, Lock::X), entry(2, Lock::S)];
    assert_eq!(engine.sheets[0].queue, queue);
    assert!(engine.saves[2].failed && !engine.saves[1].failed);
    assert_eq!(engine.refusal(Command::Decide { save: 0 }), None);
    assert_eq!(engine.refusal(Command::Decide { save: 1 }), Some(10));
    assert_eq!(engine.refusal(Command::Decide { save: 2 }), Some(10));
    let end = format!("{start} 06 00 07 00 00 06 01 07 00 01 06 02 02 02 00");
    let session = fresh(&end);
    assert_eq!(Session::run(&session).answer(), (2 << 48) + (5 << 8));
    assert_eq!(printed(&session), "P 0 1 C\nP 1 1 C\nP 2 2 U\nO 0 5 1\nT 19 2 0\n");
}

#[test]
fn giving_up_in_the_second_run_writes_nothing() {
    let mut session = bytes(W);
    session.truncate(53);
    session.extend(bytes("08 01 07 00 01"));
    assert_eq!(printed(&session), "P 0 1 C\nP 1 2 D\nO 0 7 1\nO 1 0 0\nT 17 1 0\n");
    assert!(end_of(&session).sheets[0].queue.is_empty());
}

#[test]
fn giving_up_in_the_first_run_leaves_no_row() {
    let session = fresh("01 00 02 00 00 08 00");
    assert_eq!(printed(&session), "O 0 0 0\nT 3 0 0\n");
    assert_eq!(end_of(&session).saves[0].phase, Phase::Dropped);
    // Its phase allows APPLY, but it has no entry; and its number never begins again.
    refused(&fresh("01 00 02 00 00 08 00 07 00 00"), 10, 11, 3);
    refused(&fresh("01 00 02 00 00 08 00 01 00"), 10, 14, 2);
}

#[test]
fn a_second_run_without_reads_commits_and_writes_nothing() {
    let mut session = bytes(W);
    session.truncate(43);
    session.extend(bytes("04 01 07 00 01"));
    assert_eq!(printed(&session), "P 0 1 C\nP 1 2 C\nO 0 7 1\nO 1 0 0\nT 15 1 1\n");
}

#[test]
fn sixty_four_sheets_pass_and_sixty_five_do_not() {
    let mut session = vec![1, 64];
    session.extend([0; 64]);
    assert_eq!(printed(&session).lines().count(), 65);
    assert!(printed(&session).ends_with("O 63 0 0\nT 0 0 0\n"));
    let mut session = vec![1, 65];
    session.extend([0; 65]);
    assert_eq!(printed(&session), "R 0 1\n");
}

#[test]
fn sixteen_thousand_three_hundred_and_eighty_four_bytes_pass_the_length_check() {
    let session = generate::full(&mut Prng::new(1));
    assert_eq!(session.len(), MOST_BYTES);
    assert_eq!(Session::run(&session).refused, None);
    let mut session = fresh("");
    session.resize(MOST_BYTES, 0);
    assert_eq!(last_line(&session), "R 3 2");
    session.push(0);
    assert_eq!(printed(&session), "R 0 1\n");
}

#[test]
fn report_buffers_of_every_length() {
    let run = Session::run(&bytes(W));
    for length in 0..5_000 {
        let mut buffer = vec![0xa5; length];
        let returned = write_report(&run, &mut buffer);
        let mut expected = vec![0xa5; length];
        if length >= 4_096 {
            expected[..W_REPORT.len()].copy_from_slice(W_REPORT.as_bytes());
        }
        assert_eq!(returned, if length >= 4_096 { W_REPORT.len() } else { 0 });
        assert_eq!(buffer, expected);
    }
}

#[test]
fn refusal_1() {
    refused(&bytes("00 01 00"), 0, 1, 0);
    for header in ["", "01", "01 00", "01 01", "01 01 01", "09 01 00", "02 02 00", "02 02 00 02"] {
        refused(&bytes(header), 0, 1, 0);
        assert_eq!(printed(&bytes(header)), "R 0 1\n");
    }
    for header in ["01 01 00", "08 01 07", "02 02 01 01"] {
        assert!(read_header(&bytes(header)).is_some());
    }
}

#[test]
fn refusal_2() {
    refused(&fresh("09"), 3, 2, 1);
    refused(&fresh("00 01 02 03"), 3, 2, 1);
    refused(&fresh("ff"), 3, 2, 1);
}

#[test]
fn refusal_3() {
    refused(&fresh("02 00"), 3, 3, 2);
    for cut in ["01", "02", "02 20", "03 00 00 00 00 00", "04", "05", "06", "07", "07 09", "08"] {
        let session = fresh(cut);
        refused(&session, 3, 3, session.len() - 3);
    }
}

#[test]
fn refusal_4() {
    refused(&fresh("01 20"), 3, 4, 2);
    let out = ["02 20 00", "02 00 01", "03 00 01 00 00 00 00", "04 20", "05 01", "06 ff"];
    for command in out.into_iter().chain(["07 01 00", "07 00 20", "08 20"]) {
        let session = fresh(command);
        refused(&session, 3, 4, session.len() - 3);
    }
}

#[test]
fn refusal_5() {
    refused(&fresh("01 00 01 00"), 5, 5, 2);
    refused(&fresh("01 00 06 00"), 5, 5, 2);
    refused(&fresh("01 00 07 00 00"), 5, 5, 3);
    refused(&fresh("01 00 04 00 04 00"), 7, 5, 2);
    refused(&fresh("01 00 04 00 08 00"), 7, 5, 2);
}

#[test]
fn refusal_6() {
    let session = "01 00 01 01 02 00 00 03 00 00 00 00 00 01 04 00 05 00 02 01 00";
    refused(&fresh(session), 21, 6, 3);
    // A save with its own copy is answered from that copy.
    let session = "01 00 01 01 02 01 00 02 00 00 03 00 00 00 00 00 01 04 00 05 00 02 01 00";
    assert_eq!(Session::run(&fresh(session)).answer(), 2 << 48);
}

#[test]
fn refusal_7() {
    refused(&fresh("01 00 03 00 00 00 00 00 05"), 5, 7, 7);
    // In the second run a copy from the first does not count.
    refused(&w_with(43, "", 3), 43, 7, 7);
}

#[test]
fn what_was_refusal_8() {
    // A READ outside the claim opens the sheet. Save 1 then has no copy of sheet 0 to write to.
    refused(&w_with(43, "02 01 01", 3), 46, 7, 7);
    // With a copy, the run is submitted again, and there is nothing to carry out yet.
    refused(&w_with(43, "02 01 01", 0), 58, 5, 3);
    // A WRITE outside the claim needs a copy like any other.
    refused(&w_with(43, "03 01 01 00 00 00 00", 0), 43, 7, 7);
    // One that is only S in the claim is written.
    let mut session = fresh("01 00 01 01 02 00 00 03 00 00 00 00 00 01 02 01 00 04 00 04 01");
    session.extend(bytes("05 00 05 00 06 00 07 00 00 06 01 02 01 00 03 01 00 00 00 00 02"));
    assert_eq!(end_of(&session).saves[1].claim[&0], Lock::S);
    assert_eq!(Session::run(&session).answer(), 1 << 48);
}

#[test]
fn refusal_9() {
    refused(&fresh("05 00"), 3, 9, 2);
    refused(&fresh("01 00 04 00 05 00 05 00"), 9, 9, 2);
}

#[test]
fn refusal_10() {
    let session = w_with(38, "06 01", 0);
    refused(&session, 38, 10, 2);
    assert_eq!(printed(&session), "P 0 1 C\nP 1 1 U\nO 0 0 0\nO 1 0 0\nT 11 1 0\nR 38 10\n");
    // A concerned node has not taken it.
    refused(&fresh("01 00 02 00 00 04 00 06 00"), 10, 10, 2);
}

#[test]
fn refusal_11() {
    let mut session = bytes(W);
    session.extend(bytes("07 00 01"));
    refused(&session, 58, 11, 3);
    refused(&fresh("01 00 04 00 06 00 07 00 00"), 9, 11, 3);
}

#[test]
fn refusal_12_comes_first() {
    for session in [bytes(W), bytes("00 01 00"), Vec::new()] {
        let mut buffer = vec![7; 4_095];
        assert_eq!(write_report(&Session::run(&session), &mut buffer), 0);
        assert_eq!(buffer, vec![7; 4_095]);
    }
}

#[test]
fn refusal_13() {
    refused(&fresh("04 00"), 3, 13, 2);
    for command in ["02 00 00", "03 00 00 00 00 00 00", "06 00", "07 00 00", "08 00"] {
        let session = fresh(command);
        refused(&session, 3, 13, session.len() - 3);
    }
    // 4 comes before it.
    refused(&fresh("02 05 01"), 3, 4, 3);
}

#[test]
fn refusal_14() {
    refused(&fresh("01 00 04 00 06 00 06 00"), 9, 14, 2);
    // A save that was given up in its first run is over, and 4 comes before that too.
    refused(&fresh("01 00 08 00 01 00"), 7, 14, 2);
    refused(&fresh("01 00 08 00 08 00"), 7, 14, 2);
    refused(&fresh("01 00 08 00 02 00 01"), 7, 4, 3);
}

#[test]
fn every_command_in_every_phase() {
    // Save 1 of W: unused, in its first run, submitted, in its second run, committed, dropped; then in a
    // wide run and submitted from it. In each of them save 0 is in the order and node 1 has taken nothing.
    let after = |offset, more| [&bytes(W)[..offset], &bytes(more)].concat();
    let unused = bytes("02 02 00 01 01 00 04 00");
    let phases = [
        unused,
        after(30, ""),
        after(41, ""),
        after(46, ""),
        after(46, "04 01"),
        after(43, "08 01"),
        after(46, "02 01 01"),
        after(46, "02 01 01 04 01"),
    ];
    // The refusal in each of them; 0 where the command is accepted. DECIDE waits for the last place.
    let table = [
        ("01 01", [0, 5, 5, 5, 14, 14, 5, 5]),
        ("02 01 00", [13, 0, 5, 0, 14, 14, 0, 5]),
        ("03 01 00 00 00 00 09", [13, 0, 5, 0, 14, 14, 0, 5]),
        ("04 01", [13, 0, 5, 0, 14, 14, 0, 5]),
        ("05 01", [0, 0, 0, 0, 0, 0, 0, 0]),
        ("06 01", [13, 5, 0, 5, 14, 14, 5, 10]),
        ("07 00 01", [13, 5, 5, 5, 0, 0, 5, 5]),
        ("08 01", [13, 0, 5, 0, 14, 14, 0, 5]),
    ];
    for (command, numbers) in table {
        for (start, number) in phases.iter().zip(numbers) {
            let run = Session::run(&[start.as_slice(), &bytes(command)].concat());
            let given = run.refused.map_or(0, |refused| refused.number);
            assert_eq!(given, number, "{command} after {} bytes", start.len());
        }
    }
}

#[test]
fn a_node_without_sheets_takes_a_decided_save() {
    // Node 1 owns nothing and lags; it finds the save valid.
    let session = bytes("02 01 00 01 00 02 00 00 04 00 05 00 06 00 07 00 00 05 01");
    assert_eq!(Session::run(&session).answer(), 3 << 48);
}

#[test]
fn a_take_goes_on_after_a_failing_sheet() {
    // Save 1 fails at sheet 0 and still gets its entry at sheet 1.
    let session = bytes(
        "01 02 00 00 01 00 01 01 02 00 00 03 00 00 00 00 00 01 02 01 00 02 01 01 \
         04 00 04 01 05 00 05 00",
    );
    let engine = end_of(&session);
    assert_eq!(engine.sheets[1].queue, [Entry { save: 1, lock: Lock::S }]);
}

#[test]
fn an_unchanged_write_counts_as_written() {
    let taken = fresh("01 00 02 00 00 03 00 00 00 00 00 00 04 00 05 00");
    assert_eq!(end_of(&taken).saves[0].claim[&0], Lock::X);
    assert_eq!(end_of(&taken).sheets[0].queue, [Entry { save: 0, lock: Lock::X }]);
    // Only the counter stays.
    let session = [&taken[..], &bytes("06 00 07 00 00")].concat();
    assert_eq!(printed(&session), "P 0 1 C\nO 0 0 0\nT 7 1 0\n");
}

#[test]
fn demand_3_is_met_with_something_to_check() {
    let (_, met) = demand3::check(&bytes(W), &mut Prng::new(3)).expect("demand 3");
    assert!(met.reads >= 2 && met.stores >= 1 && met.queued_states >= 8);
}

#[test]
fn demand_3_on_the_worked_session_and_on_many() {
    let mut prng = Prng::new(3);
    demand3::check(&bytes(W), &mut prng).expect("demand 3");
    for _ in 0..1_000 {
        let session = generate::input(&mut prng).session;
        if session.len() < 3_000 {
            demand3::check(&session, &mut prng).expect("demand 3");
        }
    }
}

#[test]
fn the_checks_of_demand_3_see_a_wrong_read_and_a_wrong_store() {
    let run = Session::run(&bytes(W));
    let (header, engine) = run.started.expect("a header");
    let check = |steps: &[_], engine: &Engine| {
        demand3::check_list(&header, steps, engine, &mut demand3::Met::default())
    };
    assert!(check(&run.steps, &engine).is_ok());
    let mut wrong = run.steps.clone();
    wrong[13].answer = Answer::Content(0);
    assert!(check(&wrong, &engine).unwrap_err().starts_with("reads"));
    let mut wrong = engine.clone();
    wrong.sheets[0].wct = 1;
    assert!(check(&run.steps, &wrong).unwrap_err().starts_with("store"));
}
