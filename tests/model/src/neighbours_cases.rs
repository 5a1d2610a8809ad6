//! Neighbouring steps at two nodes: the worked sessions, what the words leave out, and many sessions.

use crate::cases::{bytes, invalid, valid};
use crate::command::{Command, Header, MOST_BYTES};
use crate::engine::{Answer, Engine, Rule};
use crate::generate;
use crate::neighbours::{check, check_pair, every_pair, Kind};
use crate::prng::Prng;
use crate::report::report;
use crate::session::Session;
use std::collections::BTreeSet;

/// Two saves on both nodes: the one writes sheet 0, the other sheet 1, and both are submitted.
const TAKES: &str = "02 02 00 01  01 00  01 01  02 00 00  02 00 01  03 00 00 00 00 00 01  \
    02 01 00  02 01 01  03 01 01 00 00 00 02  04 00  04 01";

/// Save 0 writes both sheets and commits; save 1 reads both and is submitted.
const APPLIES: &str = "02 02 00 01  01 00  01 01  02 00 00  02 00 01  03 00 00 00 00 00 01  \
    03 00 01 00 00 00 03  02 01 00  02 01 01  04 00  04 01  05 00  05 01  06 00";

fn printed(start: &str, end: &str) -> String {
    let run = Session::run(&bytes(&format!("{start} {end}")));
    String::from_utf8(report(&run)).expect("figures and letters")
}

fn state(session: &str) -> (Header, Engine) {
    Session::run(&bytes(session)).started.expect("a header")
}

#[test]
fn four_takes_in_all_their_orders() {
    for takes in ["05 00 05 01 05 01 05 00", "05 01 05 00 05 01 05 00", "05 01 05 01 05 00 05 00"] {
        let other = printed(TAKES, &format!("{takes} 06 00"));
        assert_eq!(other, printed(TAKES, "05 00 05 00 05 01 05 01 06 00"));
        assert_eq!(other, "P 0 1 C\nP 1 1 U\nO 0 0 0\nO 1 0 0\nT 15 1 0\n");
    }
}

#[test]
fn two_applies_in_both_orders_and_one_of_them_twice() {
    let expected = "P 0 1 C\nP 1 2 U\nO 0 1 1\nO 1 3 1\nT 18 1 0\n";
    let after = "05 00  05 01  06 01";
    assert_eq!(printed(APPLIES, &format!("07 00 00  07 01 00  {after}")), expected);
    assert_eq!(printed(APPLIES, &format!("07 01 00  07 00 00  {after}")), expected);
    let twice = printed(APPLIES, &format!("07 01 00  07 01 00  {after}"));
    assert_eq!(twice, "P 0 1 C\nP 1 1 U\nO 0 0 0\nO 1 3 1\nT 14 1 0\nR 47 11\n");
    let twice = printed(APPLIES, &format!("07 00 00  07 00 00  {after}"));
    assert_eq!(twice, "P 0 1 C\nP 1 1 U\nO 0 1 1\nO 1 0 0\nT 14 1 0\nR 47 11\n");
}

#[test]
fn a_take_and_an_apply_in_both_orders() {
    let expected = "P 0 1 C\nP 1 1 U\nO 0 0 0\nO 1 3 1\nT 16 1 0\n";
    assert_eq!(printed(APPLIES, "07 01 00  05 00  05 01"), expected);
    assert_eq!(printed(APPLIES, "05 00  07 01 00  05 01"), expected);
}

#[test]
fn the_last_answer_may_change() {
    let last = |end: &str| Session::run(&bytes(&format!("{TAKES} 05 00 05 01 {end}"))).answer();
    // Node 0 finds save 1 invalid, since it has an X of save 0; node 1 does not.
    assert_eq!(last("05 00 05 01"), (3 << 48) + (1 << 8));
    assert_eq!(last("05 01 05 00"), (4 << 48) + (1 << 8) + 1);
    assert_eq!(
        printed(TAKES, "05 00 05 01 05 00 05 01"),
        printed(TAKES, "05 00 05 01 05 01 05 00")
    );
}

#[test]
fn a_refused_neighbour_changes_the_report_of_a_session() {
    // Node 1 owns no sheet, so save 0 has an entry at node 0 only.
    let start = "02 02 00 00  01 00  02 00 00  04 00  05 00  06 00";
    let (header, engine) = state(start);
    let steps = [1, 0].map(|node| Command::Apply { node, save: 0 });
    let pair = check_pair(&header, &engine, steps).expect("neighbours");
    assert_eq!(pair.kind(), Kind::FirstRefused);
    assert_eq!(pair.answers, [Err(11), Ok(Answer::Accepted)]);
    let lines = "P 0 1 C\nO 0 0 0\nO 1 0 0\n";
    assert_eq!(printed(start, "07 01 00  07 00 00"), format!("{lines}T 5 1 0\nR 15 11\n"));
    assert_eq!(printed(start, "07 00 00  07 01 00"), format!("{lines}T 6 1 0\nR 18 11\n"));
}

#[test]
fn single_steps_of_each_kind() {
    use Command::{Apply, Take};
    let (header, engine) = state(&format!("{TAKES} 05 00 05 01"));
    let tried = |steps: [Command; 2]| {
        let pair = check_pair(&header, &engine, steps).expect("neighbours");
        (pair.kind(), pair.answers)
    };
    let invalid = Ok(invalid(1, 0, Rule::XGranted));
    let valid = Ok(valid(1));
    let [here, there] = [Take { node: 0 }, Take { node: 1 }];
    assert_eq!(tried([here, there]), (Kind::BothAccepted, [invalid, valid]));
    assert_eq!(tried([there, here]), (Kind::BothAccepted, [valid, invalid]));
    let apply = |save: usize| Apply { node: 1, save };
    assert_eq!(tried([here, apply(0)]), (Kind::SecondRefused, [invalid, Err(5)]));
    assert_eq!(tried([apply(2), here]), (Kind::FirstRefused, [Err(13), invalid]));
    assert_eq!(tried([here, Take { node: 2 }]), (Kind::SecondRefused, [invalid, Err(4)]));
    let out = Apply { node: 0, save: 32 };
    assert_eq!(tried([out, apply(2)]), (Kind::BothRefused, [Err(4), Err(13)]));
}

#[test]
fn every_pair_has_two_nodes_and_comes_once() {
    let header = Header { nodes: 2, owner: vec![0] };
    let pairs = every_pair(&header, 3);
    // Of the three nodes, one out of range, each two have four steps each.
    assert_eq!(pairs.len(), 3 * 4 * 4);
    let mut known = BTreeSet::new();
    for [one, two] in pairs {
        let mut pair = [one.bytes(), two.bytes()];
        assert_ne!(pair[0][1], pair[1][1]);
        pair.sort();
        assert!(known.insert(pair));
    }
}

#[test]
fn the_longest_session_takes_no_step_more() {
    let mut prng = Prng::new(3);
    let session = generate::full(&mut prng);
    let run = Session::run(&session);
    let checked = check(&session, &run, &mut prng).expect("neighbours");
    assert_eq!(checked.accepted.len(), MOST_BYTES);
    assert_eq!(checked.swapped.expect("steps at two nodes").session.len(), MOST_BYTES);
    for (length, pair) in checked.pairs {
        let steps: usize = pair.steps.iter().map(|step| step.bytes().len()).sum();
        assert!(length + steps <= MOST_BYTES);
    }
}

#[test]
fn neighbours_on_many_sessions() {
    let mut prng = Prng::new(3);
    let (mut kinds, mut swaps) = (BTreeSet::new(), BTreeSet::new());
    for _ in 0..1_000 {
        let session = generate::input(&mut prng).session;
        let run = Session::run(&session);
        let checked = check(&session, &run, &mut prng).expect("neighbours");
        kinds.extend(checked.pairs.iter().map(|(_, pair)| pair.kind()));
        swaps.extend(checked.swapped.iter().map(|swapped| swapped.swaps));
        if let Some(swapped) = checked.swapped {
            assert_eq!(swapped.session.len(), checked.accepted.len());
            assert_ne!(swapped.session, checked.accepted);
        }
    }
    assert_eq!(kinds, BTreeSet::from(Kind::ALL));
    assert!(swaps.first() == Some(&1) && swaps.last() > Some(&1_000), "{swaps:?}");
}
