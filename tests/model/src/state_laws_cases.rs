//! The texts of many states held to the commands, and wrong texts that the check must see.

use crate::cases::{bytes, end_of, fresh, W};
use crate::generate;
use crate::prng::Prng;
use crate::session::Session;
use crate::state_laws::check;
use crate::state_lines::Lines;
use crate::state_text::of_state;

/// The clause that the check names where a part of the session's text is replaced.
fn clause(session: &[u8], part: &str, by: &str) -> String {
    let state = end_of(session);
    let text = of_state(&state);
    check(&state, &text).expect("the text itself");
    assert!(text.contains(part), "{part:?} in {text:?}");
    let trouble = check(&state, &text.replacen(part, by, 1)).unwrap_err();
    trouble.split(':').next().expect("a clause").to_string()
}

#[test]
fn the_check_sees_each_wrong_line() {
    let ten = &bytes(W)[..36];
    for (part, by, expected) in [
        ("O 0 0 0", "O 0 1 0", "report"),
        ("S 0 S", "S 0 F", "phase"),
        ("S 0 S 1", "S 0 S 2", "place"),
        ("S 0 S 1 - - 0", "S 0 S 1 - - 1", "place"),
        ("S 0 S 1 - - 0", "S 0 S 1 - - -", "place"),
        ("S 0 S 1 - - 0", "S 0 S 1 F - 0", "decide"),
        ("S 0 S 1 - - 0", "S 0 S 1 - W 0", "submit"),
        ("L 0 0 L", "L 0 0 F", "place"),
        ("L 0 0 L", "L 1 0 L", "form"),
        ("N 0 2", "N 0 1", "take"),
        ("N 1 0", "N 1 2", "take"),
        ("N 1 0\n", "", "order"),
        ("C 0 0 X W 7 0 -", "C 0 0 S W 7 0 -", "claim"),
        ("C 0 0 X W 7 0 -", "C 0 0 X W 7 0 B", "copy"),
        ("C 0 0 X W 7 0 -\n", "", "claim"),
        ("Q 0 0 X G", "Q 0 0 X W", "decide"),
        ("Q 0 1 X W 0", "Q 0 1 X W 1", "queue"),
        ("Q 0 1 X W 0", "Q 0 1 X W", "queue"),
        ("Q 0 1 X W 0\n", "", "queue"),
        ("S 1 S 1 F - 1\n", "", "place"),
    ] {
        assert_eq!(clause(ten, part, by), expected, "{part:?} as {by:?}");
    }
}

#[test]
fn the_check_sees_wrong_runs_and_outcomes() {
    let again = &bytes(W)[..53];
    assert_eq!(clause(again, "S 1 L 2 F - 1", "S 1 L 2 F W 1"), "submit");
    assert_eq!(clause(again, "S 1 L 2 F - 1", "S 1 L 2 - - 1"), "decide");
    assert_eq!(clause(again, "C 1 0 X W 9 1 -", "C 1 0 X W 8 1 -"), "copy");
    assert_eq!(clause(again, "C 1 0 X W 9 1 -", "C 1 0 X -"), "copy");
    let first = fresh("01 00 02 00 00");
    assert_eq!(clause(&first, "S 0 F 1 - - -", "S 0 F 1 - W -"), "submit");
    assert_eq!(clause(&first, "S 0 F 1 - - -", "S 0 L 2 F - -"), "submit");
    assert_eq!(clause(&first, "C 0 0 - R", "C 0 0 - W"), "submit");
    assert_eq!(clause(&first, "S 0 F 1 - - -\n", ""), "begin");
    let committed = &bytes(W)[..55];
    assert_eq!(clause(committed, "C 1 0 X W 9 1 -", "C 1 0 X R 9 1 -"), "apply");
    assert_eq!(clause(committed, "C 1 0 X W 9 1 -\n", ""), "apply");
    assert_eq!(clause(committed, "Q 0 1 X G\n", ""), "apply");
}

#[test]
fn what_is_no_line_cannot_be_read() {
    assert!(Lines::read("O 0 0 0\nT 0 0 0\nN 0 0\n").is_ok());
    for text in [
        "O 0 0 0",
        "O 0 0 00\n",
        "O 0 0  0\n",
        "O 0 0 0 \n",
        "T 0 0 0\nO 0 0 0\n",
        "T 0 0 0\nT 0 0 0\n",
        "O 0 0 0\n\n",
        "R 3 2\n",
        "S 0 U 1 - - -\n",
        "S 0 F 1 - - - 0\n",
        "C 0 0 X - 7\n",
        "C 0 0 X W 7 0\n",
        "Q 0 0 - G\n",
    ] {
        assert!(Lines::read(text).unwrap_err().starts_with("form"), "{text:?}");
    }
}

#[test]
fn state_text_on_many_sessions() {
    let mut prng = Prng::new(5);
    let mut entries = 0;
    for _ in 0..400 {
        let session = generate::input(&mut prng).session;
        let mut number = 0;
        Session::run_watched(&session, |_, state| {
            number += 1;
            if number % 37 == 5 {
                let lines = check(state, &of_state(state)).expect("state text");
                entries += lines.entries.len();
            }
        });
    }
    assert!(entries > 10_000, "{entries} entries");
}
