//! Every refusal with its place, the order among them, and that none of them
//! changes a word.

mod common;

use common::*;
use peer::{admit, check_sheet, one_stream, replay, step, Answer, Record};

const TICKS: u32 = 1_000_000_000;

fn refused(sheet: &[u32]) -> (u32, u32, u32) {
    let given = check_sheet(sheet);
    assert_admit_refused(sheet, given);
    assert_replay_refused(sheet, &[5], u32::MAX, given);
    assert_eq!(one_stream(sheet, 0, 99), given);
    assert_step_refused(sheet, &[5], bad_record(), 0, given);
    (given.number, given.second, given.third)
}

fn bad_record() -> Record {
    Record {
        tick: u32::MAX,
        node: 0,
        turns: u32::MAX,
    }
}

fn good_record() -> Record {
    Record {
        tick: 0,
        node: 1,
        turns: 0,
    }
}

fn assert_step_refused(sheet: &[u32], log: &[u32], record: Record, words: usize, expected: Answer) {
    let mut after = record;
    let mut room = vec![NOT_BEGUN; words];
    assert_eq!(step(sheet, log, &mut after, &mut room), expected);
    assert_eq!(after, record, "a refusal keeps the record");
    assert!(room.iter().all(|&word| word == NOT_BEGUN));
}

#[test]
fn under_three_words() {
    for length in 0..3 {
        assert_eq!(refused(&vec![0; length]), (1, 0, 0));
        assert_eq!(refused(&SHEET_A[..length]), (1, 0, 0));
    }
}

#[test]
fn node_count_and_slots() {
    for (place, number) in [(0, 2), (1, 3), (2, 3)] {
        for word in [0, 10_001, u32::MAX] {
            assert_eq!(refused(&sheet_a_with(&[(place, word)])), (number, 0, 0));
        }
    }
    assert_eq!(refused(&[0, 0, 0]), (2, 0, 0));
    assert_eq!(refused(&[16, 10_000, 10_001]), (3, 0, 0));
    for slot in [1, 10_000] {
        let sheet = sheet_a_with(&[(1, slot), (2, slot)]);
        assert_eq!(check_sheet(&sheet), answer(0, 0, 0));
    }
}

#[test]
fn short_contents() {
    for length in 3..9 {
        assert_eq!(refused(&SHEET_A[..length]), (4, 0, 0));
    }
    // A wrong row does not show before the contents are whole.
    assert_eq!(refused(&[2, 5, 1, 0, 99, 99, 15, 1]), (4, 0, 0));
    assert_eq!(refused(&[16, 1, 1]), (4, 0, 0));
}

#[test]
fn wrong_rows() {
    for word in [0, 8, 10, 36, u32::MAX] {
        assert_eq!(refused(&sheet_a_with(&[(3, word)])), (4, 1, 0));
    }
    for word in [13, 14, 16, 4, u32::MAX] {
        assert_eq!(refused(&sheet_a_with(&[(6, word)])), (4, 2, 0));
    }
    for word in [17, 1 << 31, u32::MAX] {
        assert_eq!(refused(&sheet_a_with(&[(4, word)])), (4, 1, 0));
        assert_eq!(refused(&sheet_a_with(&[(7, word)])), (4, 2, 0));
    }
    for word in [0, 17, u32::MAX] {
        assert_eq!(refused(&sheet_a_with(&[(5, word)])), (4, 1, 0));
        assert_eq!(refused(&sheet_a_with(&[(8, word)])), (4, 2, 0));
    }
}

#[test]
fn rows_go_node_by_node() {
    // Budget of node 1 before place of node 2.
    assert_eq!(refused(&sheet_a_with(&[(5, 0), (6, 0)])), (4, 1, 0));
    // A count that is in range moves the place of the next body.
    assert_eq!(refused(&sheet_a_with(&[(4, 1)])), (4, 2, 0));
    // Rows before the length, and the length before the bodies.
    let long = [&SHEET_A[..], &[1]].concat();
    assert_eq!(refused(&with(&long, &[(8, 0)])), (4, 2, 0));
    assert_eq!(refused(&with(&long, &[(9, 0)])), (4, 0, 0));
}

#[test]
fn place_of_an_empty_body() {
    let sheet = sheet(5, 1, &[(1, &[(40, 40)]), (1, &[]), (1, &[(30, 30)])]);
    assert_eq!(check_sheet(&sheet), answer(0, 0, 0));
    assert_eq!(refused(&with(&sheet, &[(6, 0)])), (4, 2, 0));
    assert_eq!(refused(&with(&sheet, &[(6, 12)])), (4, 2, 0));
    assert_eq!(refused(&with(&sheet, &[(6, 14)])), (4, 2, 0));
}

#[test]
fn wrong_total_length() {
    for length in 9..18 {
        assert_eq!(refused(&SHEET_A[..length]), (4, 0, 0));
    }
    for further in [1, 2, 600] {
        let long = [&SHEET_A[..], &vec![1; further]].concat();
        assert_eq!(refused(&long), (4, 0, 0));
    }
}

#[test]
fn periods_and_deadlines() {
    for word in [0, TICKS + 1, u32::MAX] {
        assert_eq!(refused(&sheet_a_with(&[(9, word)])), (5, 1, 1));
        assert_eq!(refused(&sheet_a_with(&[(12, word)])), (5, 1, 2));
        assert_eq!(refused(&sheet_a_with(&[(15, word)])), (5, 2, 1));
    }
    for word in [0, 31, u32::MAX] {
        assert_eq!(refused(&sheet_a_with(&[(16, word)])), (5, 2, 1));
    }
    assert_eq!(refused(&sheet_a_with(&[(9, 39)])), (5, 1, 1));
    let ends = sheet_a_with(&[
        (9, TICKS),
        (10, TICKS),
        (12, 1),
        (13, 1),
        (15, TICKS),
        (16, 1),
    ]);
    assert_eq!(check_sheet(&ends), answer(0, 0, 0));
}

/// From 0 to less than the period, whatever the deadline.
#[test]
fn jitters() {
    for (place, period, refusal) in [
        (11, 40, (5, 1, 1)),
        (14, 60, (5, 1, 2)),
        (17, 30, (5, 2, 1)),
    ] {
        for word in [period, period + 1, TICKS, TICKS + 1, u32::MAX] {
            assert_eq!(refused(&sheet_a_with(&[(place, word)])), refusal);
        }
        for word in [0, 1, period - 1] {
            let sheet = sheet_a_with(&[(place, word)]);
            assert_eq!(check_sheet(&sheet), answer(0, 0, 0));
        }
    }
    // A deadline of 20: the period of 30 is the bound.
    for (word, expected) in [(19, 0), (20, 0), (21, 0), (29, 0), (30, 5)] {
        let sheet = sheet_a_with(&[(16, 20), (17, word)]);
        assert_eq!(check_sheet(&sheet).number, expected, "{word}");
    }
    // The ends of the range.
    let longest = sheet_a_with(&[(9, TICKS), (11, TICKS - 1)]);
    assert_eq!(check_sheet(&longest), answer(0, 0, 0));
    assert_eq!(refused(&with(&longest, &[(11, TICKS)])), (5, 1, 1));
    let shortest = sheet_a_with(&[(9, 1), (10, 1)]);
    assert_eq!(check_sheet(&shortest), answer(0, 0, 0));
    assert_eq!(refused(&with(&shortest, &[(11, 1)])), (5, 1, 1));
    // A period that is too short for its jitter.
    assert_eq!(
        refused(&sheet_a_with(&[(9, 25), (10, 20), (11, 25)])),
        (5, 1, 1)
    );
}

/// Two words a stream, as it was before.
#[test]
fn the_old_layout() {
    let old = [2, 5, 1, 9, 2, 1, 13, 1, 2, 40, 40, 60, 60, 30, 30];
    assert_eq!(refused(&old), (4, 2, 0));
    assert_eq!(refused(&[1, 5, 1, 6, 2, 1, 10, 10, 100, 100]), (4, 0, 0));
}

#[test]
fn the_first_bad_stream_is_named() {
    // A bad deadline comes before the bad period of the next stream.
    assert_eq!(refused(&sheet_a_with(&[(13, 0), (15, 0)])), (5, 1, 2));
    assert_eq!(refused(&sheet_a_with(&[(10, 41), (12, 0)])), (5, 1, 1));
    // So does a bad jitter.
    assert_eq!(refused(&sheet_a_with(&[(11, 40), (12, 0)])), (5, 1, 1));
    assert_eq!(refused(&sheet_a_with(&[(13, 61), (17, 30)])), (5, 1, 2));
    assert_eq!(refused(&sheet_a_with(&[(14, 60), (17, 30)])), (5, 1, 2));
}

#[test]
fn earlier_numbers_go_first() {
    let bad = sheet_a_with(&[(0, 17), (1, 0), (3, 0), (9, 0)]);
    assert_eq!(refused(&bad), (2, 0, 0));
    assert_eq!(refused(&with(&bad, &[(0, 2)])), (3, 0, 0));
    assert_eq!(refused(&with(&bad, &[(0, 2), (1, 5)])), (4, 1, 0));
    assert_eq!(refused(&with(&bad, &[(0, 2), (1, 5), (3, 9)])), (5, 1, 1));
}

#[test]
fn room_of_admit_goes_before_late() {
    let late = sheet_a_with(&[(10, 30), (13, 37)]);
    for words in 0..3 {
        assert_eq!(admit(&late, &mut vec![OLD; words]), answer(6, 0, 0));
        let mut room = vec![OLD; words];
        assert_eq!(admit(&SHEET_A, &mut room), answer(6, 0, 0));
        assert_eq!(room, vec![OLD; words]);
    }
    assert_eq!(admit(&late, &mut [OLD; 3]), answer(7, 1, 2));
    assert_eq!(admit(&SHEET_A, &mut [OLD; 3]), answer(0, 3, 17));
}

#[test]
fn the_first_late_stream_in_sheet_order_is_named() {
    // Both are late, and the second ranks above the first.
    let sheet = sheet(5, 1, &[(1, &[(100, 10), (9, 9)])]);
    assert_admit_refused(&sheet, answer(7, 1, 1));
    assert_eq!(one_stream(&sheet, 1, 2), answer(7, 1, 2));
}

#[test]
fn unknown_streams_are_echoed() {
    for (node, stream) in [
        (0, 1),
        (1, 0),
        (1, 3),
        (2, 2),
        (3, 1),
        (u32::MAX, 1),
        (1, u32::MAX),
        (0, 0),
        (u32::MAX, u32::MAX),
    ] {
        assert_eq!(one_stream(&SHEET_A, node, stream), answer(8, node, stream));
    }
}

#[test]
fn log_faults() {
    let cases: [(&[u32], u32); 12] = [
        (&[0], 0),
        (&[0, 1, 0], 0),
        (&[0, 0], 1),
        (&[0, 4], 1),
        (&[0, 3, 0, u32::MAX], 2),
        (&[TICKS + 1, 1], 1),
        (&[u32::MAX, 1], 1),
        (&[5, 1, 4, 1], 2),
        (&[0, 1, 3, 1, 2, 0, 1, 1], 3),
        (&[0, 1, 0, 4, TICKS + 1, 1], 2),
        (&[0, 1, TICKS + 1, 1, 0, 0], 2),
        (&[2, 1, 1, 1, 0, 9], 2),
    ];
    for (log, release) in cases {
        let expected = answer(9, 0, release);
        assert_replay_refused(&SHEET_A, log, 40, expected);
        assert_step_refused(&SHEET_A, log, good_record(), 9, expected);
    }
    assert_eq!(replayed(&SHEET_A, &[TICKS, 3, TICKS, 1], 1).0.number, 0);
}

#[test]
fn too_many_releases() {
    let log = [0, 1].repeat(4_097);
    assert_replay_refused(&SHEET_A, &log, 40, answer(9, 0, 0));
    assert_step_refused(&SHEET_A, &log, good_record(), 5_000, answer(9, 0, 0));
    // Both counts go before any single release.
    let bad = [9, 0].repeat(4_097);
    assert_replay_refused(&SHEET_A, &bad, 40, answer(9, 0, 0));
    assert_replay_refused(&SHEET_A, &[9, 0, 9], 40, answer(9, 0, 0));
    assert_eq!(replayed(&SHEET_A, &log[..8_192], 40).0.number, 0);
}

#[test]
fn horizon_and_room_of_the_replay() {
    let log = [0, 1, 0, 2];
    for horizon in [TICKS + 1, u32::MAX] {
        assert_replay_refused(&SHEET_A, &log, horizon, answer(10, 0, 0));
        assert_eq!(replay(&SHEET_A, &log, horizon, &mut []), answer(10, 0, 0));
        assert_replay_refused(&SHEET_A, &[0, 9], horizon, answer(9, 0, 1));
    }
    let mut room = [OLD];
    assert_eq!(replay(&SHEET_A, &log, 40, &mut room), answer(6, 0, 0));
    assert_eq!(room, [OLD]);
    assert_eq!(replay(&SHEET_A, &log, 40, &mut [0; 2]).number, 0);
    assert_eq!(replay(&SHEET_A, &[], 40, &mut []).number, 0);
}

#[test]
fn record_and_room_of_the_step() {
    let log = [0, 1, 0, 2];
    let bad = [
        (TICKS + 1, 1, 0),
        (0, 1, TICKS + 1),
        (0, 0, 0),
        (0, 3, 0),
        (u32::MAX, u32::MAX, u32::MAX),
    ];
    for (tick, node, turns) in bad {
        let record = Record { tick, node, turns };
        for words in [0, 2, 5] {
            assert_step_refused(&SHEET_A, &log, record, words, answer(16, 0, 0));
        }
        assert_step_refused(&SHEET_A, &[0, 9], record, 0, answer(9, 0, 1));
    }
    for words in [0, 1] {
        assert_step_refused(&SHEET_A, &log, good_record(), words, answer(6, 0, 0));
    }
    // The room is judged by the whole log, not by what waits.
    assert_step_refused(&SHEET_A, &[5, 1], good_record(), 0, answer(6, 0, 0));
}
