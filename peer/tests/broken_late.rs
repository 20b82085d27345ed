//! Each wrong late test makes its error, and is right where that plays no part.

mod common;

use common::*;
use peer::{admit, broken};

const LATE_TESTS: [(&str, Admit); 4] = [
    ("own end", broken::admit_delivering_at_own_end),
    ("own place", broken::admit_delivering_behind_own_place),
    ("before the slot", broken::admit_delivering_before_the_slot),
    ("at the deadline", broken::admit_late_at_the_deadline),
];

/// A node of budget 2 in a cycle of 17 ticks. Its first stream has this
/// deadline and ranks above the second if that has a longer one.
fn turn_of_two(deadline: u32, other: u32) -> Vec<u32> {
    let streams = [(100, deadline), (100, other)];
    sheet(5, 1, &[(2, &streams), (1, &[])])
}

fn first_of_its_turn(deadline: u32) -> Vec<u32> {
    turn_of_two(deadline, 100)
}

fn last_of_its_turn(deadline: u32) -> Vec<u32> {
    turn_of_two(deadline, 1)
}

/// A node of budget 1 in a cycle of 6 ticks, the first stream below another.
fn in_the_second_cycle(deadline: u32) -> Vec<u32> {
    sheet(5, 1, &[(1, &[(100, deadline), (100, 1)])])
}

/// The shortest deadline with which the first stream is not late.
fn edge(entry: Admit, sheet_of: fn(u32) -> Vec<u32>) -> u32 {
    let in_time = |deadline: &u32| waits(entry, &sheet_of(*deadline), 2).0 != answer(7, 1, 1);
    let edge = (1..=100).find(in_time).unwrap();
    assert!((edge..=100).all(|deadline| in_time(&deadline)));
    edge
}

#[test]
fn wrong_edges() {
    let edges = |entry: Admit| {
        [
            edge(entry, first_of_its_turn),
            edge(entry, last_of_its_turn),
            edge(entry, in_the_second_cycle),
        ]
    };
    // Waits of 16, 21 and 11; the turns end 27, 27 and 17 after the release.
    assert_eq!(edges(admit), [27, 27, 17]);
    let wrong = LATE_TESTS.map(|(_, entry)| edges(entry));
    let own_end = [21, 26, 16];
    let own_place = [22, 27, 17];
    let before_the_slot = [26, 26, 16];
    let at_the_deadline = [28, 28, 18];
    assert_eq!(
        wrong,
        [own_end, own_place, before_the_slot, at_the_deadline]
    );
}

#[test]
fn the_old_test_admits_p7_and_p2() {
    let entry = broken::admit_delivering_at_own_end;
    assert_eq!(waits(entry, &SHEET_P7, 2), (answer(0, 2, 6), vec![5, 17]));
    let p2 = sheet_a_with(&[(10, 38), (13, 38)]);
    let old = (answer(0, 3, 17), vec![16, 33, 16]);
    assert_eq!(waits(entry, &p2, 3), old);
}

#[test]
fn right_away_from_the_edge() {
    let p8 = with(&SHEET_P7, &[(6, 9), (7, 9)]);
    let bad = sheet_a_with(&[(10, 41)]);
    for (name, entry) in LATE_TESTS {
        for sheet in [&SHEET_A[..], &p8, &bad, &first_of_its_turn(29)] {
            assert_eq!(waits(entry, sheet, 3), waits(admit, sheet, 3), "{name}");
        }
        assert_eq!(waits(entry, &SHEET_A, 2), waits(admit, &SHEET_A, 2));
    }
}

#[test]
fn wrong_late_tests_on_generated_cases() {
    // The first three take late streams for in time, the last the other way.
    let least = [70, 40, 60, 110];
    for (place, (name, entry)) in LATE_TESTS.into_iter().enumerate() {
        let cases = count(|case| {
            let differ = admits_differ(entry, case);
            let refusing: Admit = if place == 3 { entry } else { admit };
            let given = refusing(&case.sheet, &mut case.room.clone());
            assert!(!differ || given.number == 7, "{name}");
            differ
        });
        assert!(cases >= least[place], "{name}: {cases}");
    }
}
