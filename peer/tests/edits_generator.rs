//! The generated edits and pairs of sheets: the same each time, and spread over
//! all answers, causes and outcomes.

mod common;

use std::collections::BTreeSet;

use common::*;
use peer::generate::{alike_case, case, edits_case, named_edits};
use peer::stats::{alike_names, edit_names, gather_alike, gather_edits};
use peer::stats::{ALIKE_NAMES, MOVED_NAMES, NEW_WORDS_NAMES, NOT_OWN_NAMES};
use peer::stats::{NO_STREAM_NAMES, OLD_WORDS_NAMES, SET_NAMES};
use peer::{check_sheet, edit_stream};

#[test]
fn a_case_depends_on_seed_and_index_alone() {
    assert_depends_on_seed_and_index_alone(edits_case, 0);
    assert_depends_on_seed_and_index_alone(alike_case, 2);
}

#[test]
fn the_sheet_is_that_of_the_case() {
    for index in 0..500 {
        assert_eq!(edits_case(6, index).sheet, case(6, index).sheet);
    }
}

/// Shares of about 8,700 edits, a good deal below what is usual.
#[test]
fn cases_spread_over_all_answers_causes_and_outcomes() {
    let figures = gather_edits(2, 5_000);
    let least = |names: &[&str], share: u64| least(&figures, names, share);
    let all = |number: u32, names: &[&str], shares: &[u64]| {
        assert_eq!(names.len(), shares.len());
        for (name, &share) in names.iter().zip(shares) {
            least(&[&format!("edit {number}, {name}")], share);
        }
    };
    least(&["edits"], 8_000);
    least(&["edit 0"], 2_500);
    least(&["edit 5", "edit 8", "edit 13"], 800);
    least(&["edit 1"], 60);
    least(&["edit 2", "edit 3"], 120);
    least(&["edit 4 at 0 0", "edit 4 at a node"], 250);
    let set = [250, 800, 600, 70, 150, 700, 180, 450, 450, 250];
    all(0, &SET_NAMES, &set);
    all(0, &MOVED_NAMES, &[800, 600, 80, 180, 25, 550]);
    let no_stream = [80, 300, 120, 500, 150, 300, 180, 250];
    all(8, &NO_STREAM_NAMES, &no_stream);
    all(13, &NOT_OWN_NAMES, &[300, 70, 230, 160]);
    all(5, &OLD_WORDS_NAMES, &[180, 70, 60, 20, 15]);
    all(5, &NEW_WORDS_NAMES, &[75, 120, 50, 240, 90, 100, 100]);
}

/// Shares of 5,000 pairs, and of the streams that are asked about on both sheets.
#[test]
fn pairs_spread_over_all_differences_and_answers() {
    let figures = gather_alike(3, 5_000);
    for (name, share) in ALIKE_NAMES
        .into_iter()
        .zip([2_400, 1_900, 350, 400, 1_700, 1_300])
    {
        least(&figures, &[&format!("alike, {name}")], share);
    }
    least(&figures, &["alike, answer 0"], 12_000);
    least(&figures, &["alike, answer 7"], 6_000);
    least(&figures, &["alike, answer 0, J 2 or more"], 6_000);
}

#[test]
fn pairs_are_valid_and_have_names_of_their_own() {
    let valid = |sheet: &Vec<u32>| check_sheet(sheet).number == 0;
    let [other, every, ..] = ALIKE_NAMES;
    for index in 0..1_000 {
        let case = alike_case(7, index);
        assert!(case.sheets.iter().all(valid), "{index}");
        let names = alike_names(&case);
        let named = |name| names.contains(&name);
        assert!(!named(every) || named(other), "{index}");
        let rows = case.sheets.each_ref().map(|sheet| {
            let rows = sheet[3..].chunks_exact(3).take(sheet[0] as usize);
            rows.map(|row| row[1]).collect::<Vec<_>>()
        });
        assert_eq!(named(other), rows[0] != rows[1], "{index}");
    }
}

/// The named edits have every answer and every name.
#[test]
fn named_cases_have_all_answers_and_names() {
    let cases = named_edits();
    let names: BTreeSet<_> = cases.iter().map(|case| case.0).collect();
    assert_eq!(names.len(), cases.len());
    let mut met = BTreeSet::new();
    for (_, case) in &cases {
        for edit in &case.edits {
            let number = edit_stream(&mut case.sheet.clone(), edit).number;
            met.insert((number, "met"));
            let names = edit_names(&case.sheet, edit).into_iter();
            met.extend(names.map(|name| (number, name)));
        }
    }
    for number in [0, 1, 2, 3, 4, 5, 8, 13] {
        assert!(met.contains(&(number, "met")), "{number}");
    }
    let all = [
        (0, &SET_NAMES[..]),
        (0, &MOVED_NAMES),
        (8, &NO_STREAM_NAMES),
        (13, &NOT_OWN_NAMES),
        (5, &OLD_WORDS_NAMES),
        (5, &NEW_WORDS_NAMES),
    ];
    for (number, names) in all {
        for name in names {
            assert!(met.contains(&(number, name)), "{number} {name}");
        }
    }
}

#[test]
fn names_of_edits() {
    let names = |name: &str| {
        let mut cases = named_edits().into_iter();
        let case = cases.find(|case| case.0 == name).expect(name).1;
        edit_names(&case.sheet, &case.edits[0])
    };
    let one = "one word changed";
    let at_period = "deadline at the period";
    for (name, expected) in [
        ("another period alone", &[one][..]),
        ("another jitter alone", &[one, at_period]),
        ("the words it has", &["no word changed", at_period]),
        (
            "two streams change places",
            &[one, "another rank", "another wait of the node changed"],
        ),
        ("own node past the last", &["own node too large"]),
        (
            "a node past the last",
            &["named node too large", "own node not on the sheet either"],
        ),
        (
            "no such stream, another node",
            &["named stream too large", "not the own node either"],
        ),
        (
            "a deadline past the new period",
            &["deadline above period", "deadline within the old period"],
        ),
        (
            "an old fault set right",
            &["old words", "old words that would be set right"],
        ),
        ("an old fault elsewhere", &["old words"]),
        ("a word too many", &[]),
    ] {
        assert_eq!(names(name), expected, "{name}");
    }
}
