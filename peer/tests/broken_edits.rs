//! Each wrong edit makes its error, and is right where that plays no part.

mod common;

use common::*;
use peer::generate::{edits_case, named_edits};
use peer::{broken, edit_stream, Answer, Edit};

type EditStream = fn(&mut [u32], &Edit) -> Answer;

const WRONG: [(&str, EditStream); 18] = [
    ("the next too", broken::edit_the_next_too),
    ("own before stream", broken::edit_own_before_stream),
    ("before judging", broken::edit_before_judging),
    ("refused at own node", broken::edit_refused_at_own_node),
    ("keeping the jitter", broken::edit_keeping_the_jitter),
    ("setting right", broken::edit_setting_right),
    ("by the old period", broken::edit_by_the_old_period),
    ("from no node", broken::edit_from_no_node),
    ("own on the sheet", broken::edit_own_on_the_sheet),
    ("words before own", broken::edit_words_before_own),
    ("words before stream", broken::edit_words_before_stream),
    ("old words last", broken::edit_old_words_last),
    ("by running number", broken::edit_by_running_number),
    ("jitter to the period", broken::edit_jitter_to_the_period),
    ("in time only", broken::edit_in_time_only),
    ("words swapped", broken::edit_words_swapped),
    ("answering the place", broken::edit_answering_the_place),
    ("any node", broken::edit_any_node),
];

/// The answer of an edit, good or broken, and the sheet after it.
fn given(entry: EditStream, sheet: &[u32], edit: &Edit) -> (Answer, Vec<u32>) {
    let mut words = sheet.to_vec();
    (entry(&mut words, edit), words)
}

fn named(entry: EditStream, name: &str) -> (Answer, Vec<u32>) {
    let mut cases = named_edits().into_iter();
    let case = cases.find(|case| case.0 == name).expect(name).1;
    given(entry, &case.sheet, &case.edits[0])
}

/// Sheet A with some words changed, and an answer.
fn a_with(number: u32, place: (u32, u32), changes: &[(usize, u32)]) -> (Answer, Vec<u32>) {
    (answer(number, place.0, place.1), sheet_a_with(changes))
}

/// The named cases on which a variant differs.
fn differing(entry: EditStream) -> Vec<&'static str> {
    let cases = named_edits().into_iter();
    let differ = cases.filter(|(_, case)| {
        let (sheet, edit) = (&case.sheet, &case.edits[0]);
        given(entry, sheet, edit) != given(edit_stream, sheet, edit)
    });
    differ.map(|(name, _)| name).collect()
}

#[test]
fn wrong_words() {
    let fine = [(9, 50), (10, 45), (11, 5)];
    let first = "the first stream";
    assert_eq!(named(edit_stream, first), a_with(0, (0, 0), &fine));
    let next = [&fine[..], &[(12, 5)]].concat();
    assert_eq!(
        named(broken::edit_the_next_too, first),
        a_with(0, (0, 0), &next)
    );
    assert_eq!(
        named(broken::edit_keeping_the_jitter, first),
        a_with(0, (0, 0), &fine[..2])
    );
    let swapped = [(9, 45), (10, 50), (11, 5)];
    assert_eq!(
        named(broken::edit_words_swapped, first),
        a_with(0, (0, 0), &swapped)
    );
    assert_eq!(
        named(broken::edit_by_running_number, "the last stream"),
        a_with(0, (0, 0), &fine)
    );
    assert_eq!(
        named(broken::edit_answering_the_place, first),
        a_with(0, (1, 1), &fine)
    );
}

#[test]
fn wrong_order() {
    let refused = |entry: EditStream, name: &str| {
        let (given, sheet) = named(entry, name);
        let (_, unchanged) = named(edit_stream, name);
        assert_eq!(sheet, unchanged, "{name}");
        (given.number, given.second, given.third)
    };
    let both = "no such stream, another node";
    assert_eq!(refused(broken::edit_own_before_stream, both), (13, 2, 2));
    assert_eq!(refused(broken::edit_own_on_the_sheet, both), (8, 2, 2));
    let nowhere = "a node past the last";
    assert_eq!(refused(broken::edit_own_before_stream, nowhere), (8, 3, 1));
    assert_eq!(refused(broken::edit_own_on_the_sheet, nowhere), (13, 3, 1));
    let other = "another node, wrong words";
    assert_eq!(refused(broken::edit_words_before_own, other), (5, 1, 1));
    let none = "no such stream, wrong words";
    assert_eq!(refused(broken::edit_words_before_own, none), (8, 1, 3));
    assert_eq!(refused(broken::edit_words_before_stream, none), (5, 1, 3));
    assert_eq!(refused(broken::edit_words_before_stream, other), (5, 1, 1));
    let unknown = "an old fault, no such stream";
    assert_eq!(refused(broken::edit_old_words_last, unknown), (8, 2, 2));
    let foreign = "an old fault, another node";
    assert_eq!(refused(broken::edit_old_words_last, foreign), (13, 1, 2));
    let wrong = "an old fault, wrong words";
    assert_eq!(refused(broken::edit_old_words_last, wrong), (5, 1, 2));
    let place = "another node";
    assert_eq!(refused(broken::edit_refused_at_own_node, place), (13, 1, 1));
}

#[test]
fn wrong_checks() {
    let judged = named(broken::edit_before_judging, "a jitter at the period");
    assert_eq!(
        judged,
        a_with(5, (1, 2), &[(12, 50), (13, 50), (14, 50)]),
        "changed by a refusal"
    );
    let repaired = named(broken::edit_setting_right, "an old fault set right");
    let fine = [(12, 50), (13, 45), (14, 5)];
    assert_eq!(repaired, a_with(0, (0, 0), &fine));
    let wide = named(
        broken::edit_by_the_old_period,
        "a deadline past the new period",
    );
    assert_eq!(wide.0, answer(0, 0, 0));
    let greatest = named(broken::edit_by_the_old_period, "the greatest words");
    assert_eq!(greatest, a_with(5, (1, 1), &[]));
    let jitter = named(broken::edit_jitter_to_the_period, "a jitter at the period");
    assert_eq!(jitter.0, answer(0, 0, 0));
    let late = named(broken::edit_in_time_only, "made late");
    assert_eq!(late, a_with(7, (2, 1), &[]));
    let anybody = named(broken::edit_any_node, "another node");
    assert_eq!(anybody, a_with(0, (0, 0), &[(15, 50), (16, 45), (17, 5)]));
    let outsiders = [
        "own node 0",
        "own node past the last",
        "own node the greatest",
    ];
    assert_eq!(differing(broken::edit_from_no_node), outsiders);
}

#[test]
fn right_where_the_error_plays_no_part() {
    assert_eq!(
        differing(broken::edit_setting_right),
        ["an old fault set right", "an old fault, another node"]
    );
    assert_eq!(
        differing(broken::edit_jitter_to_the_period),
        ["a jitter at the period"]
    );
    assert_eq!(
        differing(broken::edit_old_words_last),
        ["an old fault, no such stream", "an old fault, another node"]
    );
    assert_eq!(
        differing(broken::edit_words_before_own),
        ["another node, wrong words"]
    );
    let refusals = |name: &str| named(edit_stream, name).0.number;
    let only = |entry: EditStream, number: u32| {
        let names = differing(entry);
        assert!(!names.is_empty());
        assert!(names.iter().all(|name| refusals(name) == number));
    };
    only(broken::edit_the_next_too, 0);
    only(broken::edit_keeping_the_jitter, 0);
    only(broken::edit_by_running_number, 0);
    only(broken::edit_in_time_only, 0);
    only(broken::edit_words_swapped, 0);
    only(broken::edit_answering_the_place, 0);
    only(broken::edit_before_judging, 5);
    only(broken::edit_own_before_stream, 8);
    only(broken::edit_own_on_the_sheet, 8);
    only(broken::edit_refused_at_own_node, 13);
    only(broken::edit_any_node, 13);
}

/// Each is caught by generated cases, and none on all of them. Of the 2,000, at
/// least so many show it.
#[test]
fn caught_by_generated_cases() {
    let cases: Vec<_> = (0..2_000).map(|index| edits_case(1, index)).collect();
    let least = [
        600, 60, 250, 200, 300, 25, 150, 90, 100, 50, 100, 25, 400, 30, 100, 350, 700, 200,
    ];
    for ((name, entry), least) in WRONG.into_iter().zip(least) {
        let differ = cases.iter().filter(|case| {
            let sheet = &case.sheet;
            let mut edits = case.edits.iter();
            edits.any(|edit| given(entry, sheet, edit) != given(edit_stream, sheet, edit))
        });
        let count = differ.count();
        assert!((least..1_500).contains(&count), "{name}: {count}");
    }
}

#[test]
fn none_panics_on_generated_cases() {
    for index in 0..2_000 {
        let case = edits_case(2, index);
        for (_, entry) in WRONG {
            for edit in &case.edits {
                given(entry, &case.sheet, edit);
            }
        }
    }
}
