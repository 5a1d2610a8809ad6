//! Second runs that open another sheet: the worked sessions, both ways of being wide, what a SUBMIT of a wide
//! run does, former places in every phase, saves with many places, and many sessions.

use crate::cases::{answers, bytes, end_of, invalid, printed, valid, W, W_REPORT};
use crate::command::{Command, Header};
use crate::demand3;
use crate::engine::{Answer, Cause, Engine, Entry, Lock, Phase, Rule, Verdict};
use crate::generate;
use crate::prng::Prng;
use crate::session::{Session, Step};
use crate::wide::{check, Met, Watch};
use std::collections::BTreeMap;
use Lock::{S, X};

/// Name, session, report, the last answer in words, and the part shown.
type Worked = (&'static str, &'static str, &'static str, &'static str, (usize, usize));

const WORKED: [Worked; 27] = [
    (
        "wide-read",
        "02 02 00 01 01 00 01 01 02 00 00 03 00 00 00 00 00 01 04 00 02 01 00 04 01 05 00 06 00 07 \
         00 00 05 00 06 01 02 01 01 04 01",
        "P 0 1 C\nP 1 2 U\nO 0 1 1\nO 1 0 0\nT 14 1 0\n",
        "accepted",
        (41, 0),
    ),
    (
        "wide-read-lag",
        "02 02 00 01 01 00 01 01 02 00 00 03 00 00 00 00 00 01 04 00 02 01 00 04 01 05 00 06 00 07 \
         00 00 05 00 06 01 02 01 01 04 01 05 01 05 01",
        "P 0 1 C\nP 1 2 U\nO 0 1 1\nO 1 0 0\nT 16 1 0\n",
        "take 1 valid",
        (45, 0),
    ),
    (
        "wide-read-done",
        "02 02 00 01 01 00 01 01 02 00 00 03 00 00 00 00 00 01 04 00 02 01 00 04 01 05 00 06 00 07 \
         00 00 05 00 06 01 02 01 01 03 01 01 00 00 00 04 04 01 05 01 05 01 05 01 05 00 06 01 07 00 \
         01 07 01 01",
        "P 0 1 C\nP 1 2 C\nO 0 1 1\nO 1 4 1\nT 22 1 1\n",
        "accepted",
        (64, 0),
    ),
    (
        "wide-decide-needs-last",
        "02 02 00 01 01 00 01 01 02 00 00 03 00 00 00 00 00 01 04 00 02 01 00 04 01 05 00 06 00 07 \
         00 00 05 00 06 01 02 01 01 04 01 05 00 05 01 05 01 06 01",
        "P 0 1 C\nP 1 2 U\nO 0 1 1\nO 1 0 0\nT 17 1 0\nR 47 10\n",
        "refused 10",
        (47, 2),
    ),
    (
        "wide-former-place-only",
        "02 02 00 01 01 00 01 01 02 00 00 03 00 00 00 00 00 01 04 00 02 01 00 04 01 05 00 06 00 07 \
         00 00 05 00 06 01 02 01 01 04 01 05 00 06 01",
        "P 0 1 C\nP 1 2 U\nO 0 1 1\nO 1 0 0\nT 15 1 0\nR 43 10\n",
        "refused 10",
        (43, 2),
    ),
    (
        "wide-write-s",
        "01 01 00 01 00 01 01 02 00 00 03 00 00 00 00 00 01 04 00 02 01 00 04 01 05 00 06 00 07 00 \
         00 05 00 06 01 02 01 00 03 01 00 00 00 00 06 04 01 05 00 06 01 07 00 01",
        "P 0 1 C\nP 1 2 C\nO 0 6 2\nT 18 1 1\n",
        "accepted",
        (54, 0),
    ),
    (
        "wide-write-s-no-commit",
        "01 01 00 01 00 01 01 02 00 00 03 00 00 00 00 00 01 04 00 02 01 00 04 01 05 00 06 00 07 00 \
         00 05 00 06 01 02 01 00 03 01 00 00 00 00 06 04 01 07 00 01",
        "P 0 1 C\nP 1 2 U\nO 0 1 1\nT 15 1 0\nR 47 5\n",
        "refused 5",
        (47, 3),
    ),
    (
        "wide-write-s-row",
        "01 01 00 01 00 01 01 02 00 00 03 00 00 00 00 00 01 04 00 02 01 00 04 01 05 00 06 00 07 00 \
         00 05 00 06 01 02 01 00 03 01 00 00 00 00 06 04 01",
        "P 0 1 C\nP 1 2 U\nO 0 1 1\nT 15 1 0\n",
        "accepted",
        (47, 0),
    ),
    (
        "not-wide",
        "01 02 00 00 01 00 01 01 02 00 00 03 00 00 00 00 00 01 04 00 02 01 00 04 01 05 00 06 00 07 \
         00 00 05 00 06 01 02 01 00 04 01 07 00 01",
        "P 0 1 C\nP 1 2 C\nO 0 1 1\nO 1 0 0\nT 15 1 1\n",
        "accepted",
        (44, 0),
    ),
    (
        "wide-r7",
        "01 02 00 00 01 00 01 01 02 00 00 03 00 00 00 00 00 01 04 00 02 01 00 04 01 05 00 06 00 07 \
         00 00 05 00 06 01 03 01 01 00 00 00 03",
        "P 0 1 C\nP 1 2 U\nO 0 1 1\nO 1 0 0\nT 12 1 0\nR 36 7\n",
        "refused 7",
        (36, 7),
    ),
    (
        "wide-give-up",
        "01 02 00 00 01 00 01 01 02 00 00 03 00 00 00 00 00 01 04 00 02 01 00 04 01 05 00 06 00 07 \
         00 00 05 00 06 01 02 01 01 03 01 01 00 00 00 08 08 01 07 00 01",
        "P 0 1 C\nP 1 2 D\nO 0 1 1\nO 1 0 0\nT 16 1 0\n",
        "accepted",
        (51, 0),
    ),
    (
        "wide-give-up-blocks",
        "01 02 00 00 01 00 01 01 01 02 02 00 00 03 00 00 00 00 00 01 04 00 02 01 00 03 01 00 00 00 \
         00 02 04 01 02 02 00 04 02 05 00 06 00 07 00 00 05 00 05 00 06 01 02 01 01 03 01 01 00 00 \
         00 08 08 01 06 02",
        "P 0 1 C\nP 1 2 D\nP 2 1 U\nO 0 1 1\nO 1 0 0\nT 20 1 0\nR 64 10\n",
        "refused 10",
        (64, 2),
    ),
    (
        "wide-removes-entries",
        "01 02 00 00 01 00 01 01 01 02 02 00 00 03 00 00 00 00 00 01 04 00 02 01 00 03 01 00 00 00 \
         00 02 04 01 02 02 00 04 02 05 00 06 00 07 00 00 05 00 05 00 06 01 02 01 01 04 01 06 02 02 \
         02 00 04 02 07 00 02 05 00 06 01",
        "P 0 1 C\nP 2 2 C\nP 1 2 C\nO 0 1 1\nO 1 0 0\nT 25 1 2\n",
        "committed",
        (71, 0),
    ),
    (
        "wide-past-x",
        "01 02 00 00 01 00 01 01 01 02 02 00 00 03 00 00 00 00 00 01 04 00 02 01 00 04 01 02 02 01 \
         03 02 01 00 00 00 03 04 02 05 00 06 00 07 00 00 05 00 06 01 05 00 02 01 01",
        "P 0 1 C\nP 1 2 U\nP 2 1 U\nO 0 1 1\nO 1 0 0\nT 18 1 0\n",
        "content 0",
        (55, 0),
    ),
    (
        "wide-past-x-fails",
        "01 02 00 00 01 00 01 01 01 02 02 00 00 03 00 00 00 00 00 01 04 00 02 01 00 04 01 02 02 01 \
         03 02 01 00 00 00 03 04 02 05 00 06 00 07 00 00 05 00 06 01 05 00 02 01 01 04 01 05 00",
        "P 0 1 C\nP 2 1 U\nP 1 2 U\nO 0 1 1\nO 1 0 0\nT 20 1 0\n",
        "take 1 invalid 1 granted",
        (59, 0),
    ),
    (
        "wide-fails-again",
        "01 02 00 00 01 00 01 01 01 02 02 00 00 03 00 00 00 00 00 01 04 00 02 01 00 04 01 02 02 01 \
         03 02 01 00 00 00 03 04 02 05 00 06 00 07 00 00 05 00 06 01 05 00 02 01 01 04 01 05 00 06 \
         02 07 00 02 06 01 02 01 01 02 01 00 04 01 07 00 01",
        "P 0 1 C\nP 2 1 C\nP 1 3 C\nO 0 1 1\nO 1 3 1\nT 27 2 1\n",
        "accepted",
        (77, 0),
    ),
    (
        "wide-counter-behind",
        "01 02 00 00 01 00 01 01 01 02 02 00 00 03 00 00 00 00 00 01 04 00 02 01 00 04 01 02 02 01 \
         03 02 01 00 00 00 03 04 02 05 00 06 00 07 00 00 05 00 06 01 02 01 01 04 01 05 00 06 02 07 \
         00 02 05 00",
        "P 0 1 C\nP 2 1 C\nP 1 2 U\nO 0 1 1\nO 1 3 1\nT 22 2 0\n",
        "take 1 invalid 1 behind",
        (64, 0),
    ),
    (
        "wide-no-copy-no-compare",
        "01 02 00 00 01 00 01 01 02 00 00 03 00 00 00 00 00 01 04 00 02 01 00 04 01 05 00 06 00 07 \
         00 00 05 00 06 01 02 01 01 04 01 05 00 06 01",
        "P 0 1 C\nP 1 2 C\nO 0 1 1\nO 1 0 0\nT 16 1 1\n",
        "committed",
        (45, 0),
    ),
    (
        "wide-x-without-copy",
        "01 02 00 00 01 00 01 01 01 02 02 00 00 03 00 00 00 00 00 01 04 00 02 01 00 04 01 05 00 06 \
         00 07 00 00 02 02 00 03 02 00 00 00 00 05 04 02 05 00 06 01 05 00 02 01 01 04 01 05 00",
        "P 0 1 C\nP 2 1 U\nP 1 2 U\nO 0 1 1\nO 1 0 0\nT 20 1 0\n",
        "take 1 invalid 0 granted",
        (59, 0),
    ),
    (
        "wide-keeps-x",
        "01 02 00 00 01 00 01 01 02 00 00 03 00 00 00 00 00 01 02 01 00 03 01 00 00 00 00 02 04 00 \
         04 01 05 00 06 00 07 00 00 05 00 06 01 02 01 01 04 01 05 00 06 01 07 00 01",
        "P 0 1 C\nP 1 2 C\nO 0 1 1\nO 1 0 0\nT 18 1 1\n",
        "accepted",
        (55, 0),
    ),
    (
        "wide-rows-by-last",
        "01 02 00 00 01 00 01 01 01 02 02 00 00 03 00 00 00 00 00 01 04 00 02 01 00 04 01 02 02 01 \
         04 02 05 00 06 00 07 00 00 05 00 06 01 02 01 01 04 01",
        "P 0 1 C\nP 2 1 U\nP 1 2 U\nO 0 1 1\nO 1 0 0\nT 17 1 0\n",
        "accepted",
        (48, 0),
    ),
    (
        "wide-serial-by-last",
        "01 01 00 01 00 01 01 01 02 02 00 00 03 00 00 00 00 00 01 04 00 02 01 00 04 01 05 00 06 00 \
         07 00 00 02 02 00 04 02 05 00 06 01 02 01 00 03 01 00 00 00 00 02 04 01 05 00 06 02 07 00 \
         02 05 00 06 01 07 00 01",
        "P 0 1 C\nP 2 1 C\nP 1 2 C\nO 0 2 2\nT 24 2 1\n",
        "accepted",
        (68, 0),
    ),
    (
        "wide-former-take-late",
        "02 02 00 01 01 00 01 01 02 00 00 03 00 00 00 00 00 01 04 00 02 01 00 04 01 05 00 06 00 07 \
         00 00 05 00 06 01 02 01 01 04 01 05 00 05 01 05 01",
        "P 0 1 C\nP 1 2 U\nO 0 1 1\nO 1 0 0\nT 17 1 0\n",
        "take 1 valid",
        (47, 0),
    ),
    (
        "wide-third-run",
        "01 01 00 01 00 01 01 01 02 02 00 00 03 00 00 00 00 00 01 04 00 02 01 00 04 01 02 02 00 03 \
         02 00 00 00 00 03 04 02 05 00 06 00 07 00 00 05 00 05 00 06 01 02 01 00 03 01 00 00 00 00 \
         02 04 01 05 00 06 02 02 02 00 04 02 07 00 02 06 01 02 01 00 03 01 00 00 00 00 07 04 01 07 \
         00 01",
        "P 0 1 C\nP 2 2 C\nP 1 3 C\nO 0 7 2\nT 30 1 2\n",
        "accepted",
        (92, 0),
    ),
    (
        "wide-r5",
        "01 02 00 00 01 00 01 01 02 00 00 03 00 00 00 00 00 01 04 00 02 01 00 04 01 05 00 06 00 07 \
         00 00 05 00 06 01 02 01 01 04 01 02 01 00",
        "P 0 1 C\nP 1 2 U\nO 0 1 1\nO 1 0 0\nT 14 1 0\nR 41 5\n",
        "refused 5",
        (41, 3),
    ),
    (
        "wide-empty-then-nothing",
        "01 02 00 00 01 00 01 01 02 00 00 03 00 00 00 00 00 01 04 00 02 01 00 04 01 05 00 06 00 07 \
         00 00 05 00 06 01 04 01 04 01",
        "P 0 1 C\nP 1 2 C\nO 0 1 1\nO 1 0 0\nT 13 1 1\nR 38 14\n",
        "refused 14",
        (38, 2),
    ),
    (
        "wide-dropped-former",
        "03 03 00 01 02 01 00 01 01 02 00 00 03 00 00 00 00 00 01 04 00 02 01 00 04 01 05 00 06 00 \
         07 00 00 05 00 06 01 02 01 01 04 01 05 00 05 01 05 01 05 01 02 01 00",
        "P 0 1 C\nP 1 2 U\nO 0 1 1\nO 1 0 0\nO 2 0 0\nT 18 1 0\nR 50 5\n",
        "refused 5",
        (50, 3),
    ),
];

/// An answer in the words of the worked sessions.
fn in_words(run: &Session) -> String {
    if let Some(refused) = run.refused {
        return format!("refused {}", refused.number);
    }
    match run.steps.last().expect("a command").answer {
        Answer::Accepted => "accepted".to_string(),
        Answer::Content(content) => format!("content {content}"),
        Answer::Taken { save, verdict: Verdict::Valid } => format!("take {save} valid"),
        Answer::Taken { save, verdict: Verdict::Invalid(Cause { sheet, rule }) } => {
            let rule = match rule {
                Rule::XGranted => "granted",
                Rule::XWaiting => "waiting",
                Rule::CounterBehind => "behind",
            };
            format!("take {save} invalid {sheet} {rule}")
        }
        Answer::Committed => "committed".to_string(),
        Answer::SecondRun => "second".to_string(),
    }
}

#[test]
fn the_worked_sessions() {
    for (name, session, report, last, shown) in WORKED {
        let session = bytes(session);
        let run = Session::run(&session);
        assert_eq!(printed(&session), report, "{name}");
        assert_eq!(in_words(&run), last, "{name}");
        assert_eq!(run.shown(), shown, "{name}");
        keeps(&session);
    }
}

/// The session keeps to the words and to demand 3; gives what they met.
fn keeps(session: &[u8]) -> Met {
    demand3::check(session, &mut Prng::new(3)).expect("demand 3");
    check(session, &Session::run(session)).expect("wide")
}

/// Save 0 writes sheet 0 and is carried out; save 1 has read it before, fails and is in its second run with an
/// S on sheet 0. Save 2 has begun and has a copy of sheet 1. There are two sheets, and nodes as said.
fn failed(header: &str, more: &str) -> Vec<u8> {
    bytes(&format!(
        "{header} 01 00 01 01 01 02 02 00 00 03 00 00 00 00 00 01 02 01 00 02 02 01 \
         04 00 04 01 05 00 06 00 07 00 00 05 00 06 01 {more}"
    ))
}

const ONE_NODE: &str = "01 02 00 00";
const TWO_NODES: &str = "02 02 00 01";
/// Node 1 owns no sheet.
const IDLE_NODE: &str = "02 02 00 00";

/// After what `failed` has: save 2 writes sheet 1 and is taken, save 1 opens that sheet and fails again.
const AGAIN: &str = "03 02 01 00 00 00 03 04 02 05 00 02 01 01 04 01 05 00 06 02 07 00 02 06 01";

fn claim(locks: &[(usize, Lock)]) -> BTreeMap<usize, Lock> {
    locks.iter().copied().collect()
}

#[test]
fn touching_a_sheet_outside_the_claim_makes_the_run_wide() {
    let engine = end_of(&failed(ONE_NODE, ""));
    assert_eq!((engine.saves[1].runs, engine.saves[1].wide()), (2, false));
    assert_eq!(engine.saves[1].claim, claim(&[(0, S)]));
    assert_eq!(engine.sheets[0].queue, [Entry { save: 1, lock: S }]);
    let engine = end_of(&failed(ONE_NODE, "02 01 01"));
    assert!(engine.saves[1].wide());
    // Only the SUBMIT changes the claim, the entries, the mark and the order.
    assert_eq!(engine.saves[1].claim, claim(&[(0, S)]));
    assert_eq!(engine.sheets[0].queue, [Entry { save: 1, lock: S }]);
    assert!(engine.saves[1].failed);
    let session = failed(ONE_NODE, "02 01 01 04 01");
    let engine = end_of(&session);
    assert_eq!(engine.saves[1].claim, claim(&[(0, S), (1, S)]));
    assert_eq!(engine.saves[1].phase, Phase::Submitted);
    assert_eq!(engine.order, [0, 1, 1]);
    assert!(engine.sheets[0].queue.is_empty() && !engine.saves[1].failed);
    assert_eq!(keeps(&session).submits, [1, 0, 0]);
}

#[test]
fn writing_a_sheet_that_is_only_s_makes_the_run_wide() {
    let session = failed(ONE_NODE, "02 01 00 03 01 00 00 00 00 07 04 01");
    let engine = end_of(&session);
    assert_eq!(engine.saves[1].claim, claim(&[(0, X)]));
    assert_eq!(engine.order, [0, 1, 1]);
    assert_eq!(keeps(&session).submits, [0, 1, 0]);
    // Both at once, and a sheet that is opened and written.
    let session =
        failed(ONE_NODE, "02 01 00 03 01 00 00 00 00 07 02 01 01 03 01 01 00 00 00 07 04 01");
    assert_eq!(end_of(&session).saves[1].claim, claim(&[(0, X), (1, X)]));
    assert_eq!(keeps(&session).submits, [0, 0, 1]);
    let session = failed(ONE_NODE, "02 01 01 03 01 01 00 00 00 07 04 01");
    assert_eq!(end_of(&session).saves[1].claim, claim(&[(0, S), (1, X)]));
    assert_eq!(keeps(&session).submits, [1, 0, 0]);
}

#[test]
fn a_run_within_its_claim_is_not_wide() {
    // A READ of the claimed sheet, again and again; and none.
    for more in ["", "02 01 00", "02 01 00 02 01 00"] {
        let session = failed(ONE_NODE, &format!("{more} 04 01"));
        assert_eq!(end_of(&session).saves[1].phase, Phase::Committed);
        assert_eq!(end_of(&session).order, [0, 1]);
        assert_eq!(keeps(&session).submits, [0, 0, 0]);
    }
    // In W the claim is X, and its WRITE is within it.
    assert_eq!(printed(&bytes(W)), W_REPORT);
    assert_eq!(
        keeps(&bytes(W)),
        Met { most_places: 1, most_runs: 2, longest_order: 2, ..Met::default() }
    );
}

#[test]
fn a_refused_touch_makes_nothing_wide() {
    let mut engine = end_of(&failed(ONE_NODE, ""));
    let before = engine.clone();
    let outside = Command::Write { save: 1, sheet: 1, content: 3 };
    let shared = Command::Write { save: 1, sheet: 0, content: 3 };
    assert_eq!([outside, shared].map(|write| engine.step(write)), [Err(7); 2]);
    assert_eq!(engine, before);
    assert_eq!(engine.step(Command::Submit { save: 1 }), Ok(Answer::Accepted));
    assert_eq!(engine.saves[1].phase, Phase::Committed);
}

#[test]
fn the_next_run_begins_without_copies_and_is_not_wide() {
    let session = failed(ONE_NODE, AGAIN);
    let engine = end_of(&session);
    assert_eq!((engine.saves[1].runs, engine.saves[1].wide()), (3, false));
    assert_eq!(engine.saves[1].claim, claim(&[(0, S), (1, S)]));
    assert!(engine.saves[1].copies.is_empty());
    // It holds both sheets now, and commits by its SUBMIT.
    let session = failed(ONE_NODE, &format!("{AGAIN} 02 01 01 04 01 07 00 01"));
    let report = "P 0 1 C\nP 2 1 C\nP 1 3 C\nO 0 1 1\nO 1 3 1\nT 26 2 1\n";
    assert_eq!(printed(&session), report);
    let met = keeps(&session);
    assert_eq!((met.again, met.commits), (1, [0, 1]));
}

#[test]
fn a_save_is_wide_twice_and_its_claim_grows() {
    // In its third run save 1 writes sheet 0, which is only S.
    let session = failed(
        ONE_NODE,
        &format!("{AGAIN} 02 01 00 03 01 00 00 00 00 08 04 01 05 00 06 01 07 00 01"),
    );
    let report = "P 0 1 C\nP 2 1 C\nP 1 3 C\nO 0 8 2\nO 1 3 1\nT 29 2 1\n";
    assert_eq!(printed(&session), report);
    let engine = end_of(&session);
    assert_eq!(engine.saves[1].claim, claim(&[(0, X), (1, S)]));
    assert_eq!(engine.order, [0, 1, 2, 1, 1]);
    let met = keeps(&session);
    assert_eq!((met.submits, met.commits, met.most_places), ([1, 1, 0], [1, 0], 3));
}

#[test]
fn the_claim_keeps_the_x_of_an_earlier_run() {
    // In W save 1 has an X on sheet 0; its wide run reads sheet 0 and opens sheet 1, or opens it only.
    for (more, kept) in [("02 01 00 02 01 01 04 01", [1, 0]), ("02 01 01 04 01", [0, 1])] {
        let session = [&bytes(W)[..43], &bytes(more)].concat();
        assert_eq!(end_of(&session).saves[1].claim, claim(&[(0, X), (1, S)]));
        assert_eq!(keeps(&session).kept, kept);
        let taken = [&session[..], &bytes("05 00 05 01 05 01 05 01")].concat();
        assert_eq!(end_of(&taken).sheets[0].queue, [Entry { save: 1, lock: X }]);
        // What is only X in the claim is not stored.
        let done = [&taken[..], &bytes("06 01 07 00 01 07 01 01")].concat();
        assert!(printed(&done).starts_with("P 0 1 C\nP 1 2 C\nO 0 7 1\nO 1 0 0\n"));
        keeps(&done);
    }
}

#[test]
fn a_wide_submit_removes_the_entries_at_all_nodes() {
    // Save 1 has an X at each of two nodes when it writes a third sheet, at the first.
    let session = bytes(
        "02 03 00 01 00 01 00 01 01 02 00 00 03 00 00 00 00 00 01 02 01 00 02 01 01 03 01 01 00 00 00 02 \
         04 00 04 01 05 00 05 01 06 00 07 00 00 05 00 05 01 06 01",
    );
    let entry = |lock| [Entry { save: 1, lock }];
    let before = end_of(&session);
    assert_eq!(
        (&before.sheets[0].queue[..], &before.sheets[1].queue[..]),
        (&entry(S)[..], &entry(X)[..])
    );
    let session = [&session[..], &bytes("02 01 02 04 01")].concat();
    assert!(end_of(&session).sheets.iter().all(|sheet| sheet.queue.is_empty()));
    assert_eq!(keeps(&session).nodes, 1);
}

#[test]
fn a_wide_run_that_is_given_up_leaves_its_entries_until_the_apply() {
    let session = failed(ONE_NODE, "02 01 01 03 01 01 00 00 00 08 08 01");
    let engine = end_of(&session);
    assert_eq!(engine.sheets[0].queue, [Entry { save: 1, lock: S }]);
    assert_eq!(engine.saves[1].claim, claim(&[(0, S)]));
    assert_eq!(keeps(&session).given_up, 1);
    let session = [&session[..], &bytes("07 00 01")].concat();
    assert!(end_of(&session).sheets[0].queue.is_empty());
    assert_eq!(printed(&session), "P 0 1 C\nP 1 2 D\nO 0 1 1\nO 1 0 0\nT 18 1 0\n");
}

#[test]
fn no_later_run_is_held_by_an_x() {
    // Save 2's X stands first at sheet 1 when save 1 reads it.
    let session = failed(ONE_NODE, "03 02 01 00 00 00 03 04 02 05 00 02 01 01");
    assert_eq!(Session::run(&session).answer(), 2 << 48);
    assert_eq!(keeps(&session).past_x, 1);
    // A first run is.
    let session = failed(ONE_NODE, "03 02 01 00 00 00 03 04 02 05 00 01 03 02 03 01");
    assert_eq!(in_words(&Session::run(&session)), "refused 6");
}

#[test]
fn decide_looks_at_the_last_place_and_the_new_claim() {
    // Node 1 owns sheet 1 alone, which the first claim did not have.
    let wide = "02 01 01 04 01";
    for (takes, answer) in [
        ("", "refused 10"),
        ("05 00", "refused 10"),
        ("05 00 05 01", "refused 10"),
        ("05 01 05 01 05 01", "refused 10"),
        ("05 00 05 01 05 01", "refused 10"),
        ("05 00 05 01 05 01 05 01", "committed"),
    ] {
        let session = failed(TWO_NODES, &format!("{wide} {takes} 06 01"));
        assert_eq!(in_words(&Session::run(&session)), answer, "{takes}");
        keeps(&session);
    }
}

#[test]
fn a_counter_is_compared_with_a_copy_only() {
    // Save 1 opens sheet 1 and is submitted; the copy of sheet 0 that its first run had is gone.
    let session = failed(ONE_NODE, "02 01 01 04 01 05 00");
    assert_eq!(answers(&session).last(), Some(&valid(1)));
    assert_eq!(keeps(&session).without_copy, [1, 0]);
    // Save 2 writes sheet 1 after save 1's READ: with that copy the counter is behind.
    let session =
        failed(ONE_NODE, "03 02 01 00 00 00 03 04 02 02 01 01 05 00 06 02 07 00 02 04 01 05 00");
    assert_eq!(answers(&session).last(), Some(&invalid(1, 1, Rule::CounterBehind)));
    // Save 3's place comes between save 1's two: its X waits behind save 1's S at sheet 0, and stands first
    // when save 1, which has no copy of that sheet any more, is taken again.
    let session = bytes(
        "01 02 00 00 01 00 01 01 02 00 00 03 00 00 00 00 00 01 02 01 00 04 00 04 01 05 00 06 00 07 00 00 \
         01 03 02 03 00 03 03 00 00 00 00 05 05 00 04 03 05 00 06 01 02 01 01 04 01 05 00",
    );
    assert_eq!(answers(&session).last(), Some(&invalid(1, 0, Rule::XGranted)));
    assert_eq!(keeps(&session).without_copy, [0, 1]);
}

/// The answers of the session's last commands.
fn last_answers<const COUNT: usize>(session: &[u8]) -> [Answer; COUNT] {
    let answers = answers(session);
    answers[answers.len() - COUNT..].try_into().expect("so many commands")
}

#[test]
fn a_former_place_is_passed_in_every_phase_of_its_save() {
    // Node 1 owns nothing and has still to take save 0, then save 1's former place.
    let wide = "02 01 00 03 01 00 00 00 00 07 04 01";
    let met = |more: &str| {
        let session = failed(IDLE_NODE, &format!("{more} 05 01 05 01"));
        assert_eq!(last_answers(&session), [valid(0), valid(1)]);
        keeps(&session).former
    };
    assert_eq!(met(wide), [1, 0, 0, 0]);
    assert_eq!(met(AGAIN), [0, 1, 0, 0]);
    assert_eq!(met(&format!("{wide} 05 00 06 01")), [0, 0, 1, 0]);
    assert_eq!(met(&format!("{wide} 05 00 06 01 07 00 01")), [0, 0, 1, 0]);
    assert_eq!(met(&format!("{AGAIN} 04 01")), [0, 0, 1, 0]);
    assert_eq!(met(&format!("{AGAIN} 08 01")), [0, 0, 0, 1]);
    assert_eq!(met(&format!("{AGAIN} 02 01 00 03 01 00 00 00 00 07 08 01 07 00 01")), [0, 0, 0, 1]);
}

#[test]
fn former_is_judged_when_the_take_runs() {
    // Node 1 takes save 1's place before it is a former one; then the last one too.
    let session = failed(TWO_NODES, "05 01 05 01 02 01 01 04 01 05 01 05 00");
    assert_eq!(last_answers(&session), [valid(1), valid(1)]);
    let engine = end_of(&session);
    assert_eq!(engine.sheets[1].queue, [Entry { save: 1, lock: S }]);
    assert_eq!(keeps(&session).former, [0; 4]);
    // Otherwise it only moves on there: sheet 1 has no entry before the last place.
    let session = failed(TWO_NODES, "02 01 01 04 01 05 01 05 01");
    assert!(end_of(&session).sheets[1].queue.is_empty());
    assert_eq!(end_of(&session).taken, [2, 2]);
    assert_eq!(keeps(&session).former, [1, 0, 0, 0]);
}

#[test]
fn rows_and_the_serial_run_go_by_last_place() {
    // Save 2 reads sheet 1 and commits; save 1, placed before it, opens that sheet and writes it.
    let session = failed(
        ONE_NODE,
        "04 02 05 00 02 01 01 03 01 01 00 00 00 09 04 01 05 00 06 02 07 00 02 06 01 07 00 01",
    );
    let report = "P 0 1 C\nP 2 1 C\nP 1 2 C\nO 0 1 1\nO 1 9 1\nT 24 2 1\n";
    assert_eq!(printed(&session), report);
    // The READ of save 2 is answered 0, for its last place comes first.
    assert!(demand3::check(&session, &mut Prng::new(3)).expect("demand 3").1.reads > 0);
    keeps(&session);
}

#[test]
fn a_later_commit_by_decide_counts_under_s() {
    let session = failed(ONE_NODE, "02 01 01 04 01 05 00 06 01");
    assert_eq!(in_words(&Session::run(&session)), "committed");
    assert!(printed(&session).ends_with("T 18 1 1\n"));
    // And only once, however many runs there were.
    let session = failed(ONE_NODE, &format!("{AGAIN} 04 01"));
    assert!(printed(&session).contains("P 1 3 C\n"));
    assert!(printed(&session).ends_with(" 2 1\n"));
}

/// A session in turns of these saves, on sheets that are the nodes' in turns too.
fn in_turns(nodes: usize, saves: usize) -> Vec<u8> {
    let owner = (0..64).map(|sheet| sheet % nodes).collect();
    generate::turns(&mut Prng::new(1), Header { nodes, owner }, saves, 16_384, 0, false)
}

#[test]
fn a_save_with_a_hundred_and_twenty_nine_runs() {
    for nodes in [1, 2, 8] {
        let session = in_turns(nodes, 2);
        let run = Session::run(&session);
        assert_eq!(run.refused, None);
        // Save 0 had an S on sheet 0 first, and each place made one S or one X more.
        assert!(printed(&session).starts_with("P 2 1 C\nP 1 128 C\nP 0 129 C\n"));
        let met = keeps(&session);
        assert_eq!((met.most_places, met.most_runs, met.longest_order), (128, 129, 256));
        assert_eq!(end_of(&session).saves[0].claim, (0..64).map(|sheet| (sheet, X)).collect());
    }
}

#[test]
fn an_order_of_more_than_a_thousand_places() {
    let session = in_turns(1, 31);
    let met = keeps(&session);
    assert!(met.longest_order > 1_400 && met.deep[0] == 31);
    assert_eq!(printed(&session).lines().filter(|line| line.starts_with('P')).count(), 32);
}

#[test]
fn a_node_that_lags_behind_many_former_places() {
    // Node 2 owns the last sheet only, and takes nothing until the end.
    let owner = (0..8).map(|sheet| if sheet == 7 { 2 } else { sheet % 2 }).collect();
    let header = Header { nodes: 3, owner };
    let mut session = generate::turns(&mut Prng::new(1), header, 2, 300, 0, false);
    let engine = end_of(&session);
    let behind = engine.order.len() - engine.taken[2];
    assert!(engine.taken[2] <= 3 && behind > 8);
    session.extend(vec![[5, 2]; behind].concat());
    let run = Session::run(&session);
    assert_eq!(run.refused, None);
    for (step, place) in run.steps.iter().rev().zip((0..engine.order.len()).rev()).take(behind) {
        assert_eq!(step.answer, valid(engine.order[place]));
    }
    assert!(keeps(&session).lagging > 4);
}

#[test]
fn a_wide_run_is_one_more_place_of_the_bound_and_not_one_more_step() {
    // Save 0 writes sheet 0 and is carried out. Three saves have read it, fail, and open the sheets of all four
    // nodes, of which only the first has taken anything yet.
    let mut session = bytes("04 04 00 01 02 03");
    for save in 0..4 {
        session.extend([1, save, 2, save, 0]);
    }
    session.extend([3, 0, 0, 0, 0, 0, 1]);
    for save in 0..4 {
        session.extend([4, save, 5, 0]);
    }
    session.extend([6, 0, 7, 0, 0]);
    for save in 1..4 {
        session.extend([6, save, 2, save, 0, 2, save, 1, 2, save, 2, 2, save, 3]);
        session.extend([3, save, 1, 0, 0, 0, save]);
    }
    let before = answers(&session).len();
    let engine = end_of(&session);
    let wide =
        engine.saves.iter().filter(|save| save.phase == Phase::SecondRun && save.wide()).count();
    assert_eq!((engine.order.len(), wide), (4, 3));
    // All of them go through the order once more; the second and the third fail again by an X on sheet 1.
    for save in 1..4 {
        session.extend([4, save, 5, 0]);
    }
    for node in 1..4 {
        session.extend([[5, node]; 7].concat());
    }
    for save in 1..4 {
        session.extend([6, save]);
        if save > 1 {
            session.extend([4, save]);
        }
        session.extend([7, 0, save, 7, 1, save, 7, 2, save, 7, 3, save]);
    }
    assert_eq!(Session::run(&session).refused, None);
    let steps = answers(&session).len() - before;
    let each_place = 2 * 4 + 2;
    assert_eq!((steps, each_place * 4 + 3, each_place * (4 + 3)), (44, 43, 70));
    keeps(&session);
}

/// The clause that the check names after this step, where the state that follows it is harmed so.
fn clause(session: &[u8], harm: impl FnOnce(&mut Engine)) -> String {
    let run = Session::run(session);
    let mut watch = Watch::new();
    let mut states = Vec::new();
    Session::run_watched(session, |_, state| states.push(state.clone()));
    harm(states.last_mut().expect("a state"));
    let mut checked = Ok(());
    let mut last = None;
    for (place, state) in states.iter().enumerate() {
        checked = checked.and_then(|()| watch.check_state(state, last));
        last = run.steps.get(place);
        checked = checked.and_then(|()| last.map_or(Ok(()), |step| watch.note(state, step)));
    }
    checked.unwrap_err().split(':').next().expect("a clause").to_string()
}

#[test]
fn the_check_sees_each_wrong_clause_of_a_state() {
    let submitted = failed(ONE_NODE, "02 01 01 04 01");
    let entry = Entry { save: 1, lock: S };
    let harms: [fn(&mut Engine); 6] = [
        |wrong| wrong.saves[1].failed = true,
        |wrong| wrong.saves[1].phase = Phase::Committed,
        |wrong| wrong.saves[1].claim.clear(),
        |wrong| wrong.saves[1].runs = 1,
        |wrong| wrong.order.truncate(2),
        |wrong| wrong.taken[0] = 3,
    ];
    for harm in harms {
        assert_eq!(clause(&submitted, harm), "wide submit");
    }
    assert_eq!(clause(&submitted, |wrong| wrong.sheets[0].queue.push(entry)), "wide submit");
    let former = failed(IDLE_NODE, "02 01 01 04 01 05 01 05 01");
    assert_eq!(clause(&former, |wrong| wrong.sheets[1].queue.push(entry)), "former");
    assert_eq!(clause(&former, |wrong| wrong.saves[1].failed = true), "former");
    let taken = failed(ONE_NODE, "02 01 01 04 01 05 00");
    assert_eq!(clause(&taken, |wrong| wrong.sheets[1].queue.clear()), "entry");
    assert_eq!(clause(&taken, |wrong| wrong.sheets[1].queue.push(entry)), "entry");
    assert_eq!(clause(&taken, |wrong| wrong.sheets[1].queue[0].lock = X), "entry");
    let opened = failed(ONE_NODE, "02 01 01");
    assert_eq!(clause(&opened, |wrong| wrong.saves[1].copies.clear()), "wide");
    assert_eq!(clause(&opened, |wrong| wrong.saves[1].runs = 3), "runs");
    assert_eq!(clause(&opened, |wrong| wrong.saves[1].claim.clear()), "claim");
    let given_up = failed(ONE_NODE, "02 01 01 08 01");
    assert_eq!(clause(&given_up, |wrong| wrong.sheets[0].queue.clear()), "give up");
    let decided = failed(ONE_NODE, "02 01 01 04 01 05 00 06 01");
    assert_eq!(clause(&decided, |wrong| wrong.tally.second_run_commits = 0), "decide");
}

#[test]
fn the_check_sees_wrong_answers_and_ends() {
    let session = failed(IDLE_NODE, "02 01 01 04 01 05 01 05 01");
    let run = Session::run(&session);
    let wrong = |harm: &dyn Fn(&mut Session)| {
        let mut wrong = run.clone();
        harm(&mut wrong);
        check(&session, &wrong).unwrap_err().split(':').next().expect("a clause").to_string()
    };
    let last = run.steps.len() - 1;
    let found = invalid(1, 0, Rule::XGranted);
    assert_eq!(wrong(&|run| run.steps[last].answer = found), "former");
    // A DECIDE before anything was taken.
    let decide = Step { command: Command::Decide { save: 1 }, ..run.steps[last] };
    assert_eq!(wrong(&|run| run.steps[last] = decide), "decide");
    let started = |run: &mut Session, harm: fn(&mut Engine)| {
        harm(&mut run.started.as_mut().expect("a header").1);
    };
    assert_eq!(wrong(&|run| started(run, |end| end.tally.first_run_commits = 2)), "tally");
    assert_eq!(wrong(&|run| started(run, |end| end.order.swap(0, 2))), "rows");
    assert_eq!(wrong(&|run| started(run, |end| end.saves[1].runs = 3)), "runs");
}

#[test]
fn wide_on_many_sessions() {
    let mut prng = Prng::new(3);
    let mut all = Met::default();
    for _ in 0..3_000 {
        let session = generate::input(&mut prng).session;
        all.add(check(&session, &Session::run(&session)).expect("wide"));
    }
    assert!(!all.counts().contains(&0), "{all:?}");
}
