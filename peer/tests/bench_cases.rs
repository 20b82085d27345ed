//! P1 to P12 of document 01, with every value; P2 and P3 as request One of
//! document 02 has them, P7 and another P2 as request Four does. The jitters are
//! 0, as request Six has them.

mod common;

use common::*;
use peer::one_stream;

#[test]
fn p1_sheet_a_lists_16_33_16() {
    assert_eq!(admitted(&SHEET_A, 3), (answer(0, 3, 17), vec![16, 33, 16]));
    assert_eq!(one_stream(&SHEET_A, 1, 1), answer(0, 16, 1));
    assert_eq!(one_stream(&SHEET_A, 1, 2), answer(0, 33, 2));
    assert_eq!(one_stream(&SHEET_A, 2, 1), answer(0, 16, 1));
}

/// Sheet A with another deadline for the second stream of node 1; below 40 it
/// ranks above the first.
fn second_deadline(deadline: u32) -> Vec<u32> {
    sheet_a_with(&[(13, deadline)])
}

#[test]
fn p2_deadline_38_ranks_the_second_first() {
    let sheet = second_deadline(38);
    assert_eq!(admitted(&sheet, 3), (answer(0, 3, 17), vec![33, 16, 16]));
    assert_eq!(one_stream(&sheet, 1, 1), answer(0, 33, 2));
    assert_eq!(one_stream(&sheet, 1, 2), answer(0, 16, 1));
}

#[test]
fn p3_deadline_37_is_admitted_too() {
    let sheet = second_deadline(37);
    assert_eq!(admitted(&sheet, 3), (answer(0, 3, 17), vec![33, 16, 16]));
    assert_eq!(one_stream(&sheet, 1, 1), answer(0, 33, 2));
    assert_eq!(one_stream(&sheet, 1, 2), answer(0, 16, 1));
}

#[test]
fn deadlines_around_those_of_p2_and_p3() {
    for deadline in [22, 39] {
        let given = admitted(&second_deadline(deadline), 3);
        assert_eq!(given, (answer(0, 3, 17), vec![33, 16, 16]));
    }
    // Equal deadlines: the first has the shorter period.
    for deadline in [40, 41] {
        let given = admitted(&second_deadline(deadline), 3);
        assert_eq!(given, (answer(0, 3, 17), vec![16, 33, 16]));
    }
    // Late even as the first of its node.
    assert_admit_refused(&second_deadline(21), answer(7, 1, 2));
}

#[test]
fn p2_with_a_first_deadline_of_38_too_is_late() {
    // The first stream has the shorter period, so the second waits for 33, and
    // its turn ends 39 ticks after the release.
    let sheet = sheet_a_with(&[(10, 38), (13, 38)]);
    assert_admit_refused(&sheet, answer(7, 1, 2));
    assert_eq!(one_stream(&sheet, 1, 2), answer(7, 1, 2));
    assert_eq!(one_stream(&sheet, 1, 1), answer(0, 16, 1));
    let sheet = sheet_a_with(&[(10, 39), (13, 39)]);
    assert_eq!(admitted(&sheet, 3), (answer(0, 3, 17), vec![16, 33, 16]));
}

#[test]
fn a_deadline_of_39_behind_another_is_just_met() {
    // The first stream has the shorter deadline, so the second waits for 33.
    let sheet = sheet_a_with(&[(10, 30), (13, 39)]);
    assert_eq!(admitted(&sheet, 3), (answer(0, 3, 17), vec![16, 33, 16]));
    for deadline in [37, 38] {
        let sheet = sheet_a_with(&[(10, 30), (13, deadline)]);
        assert_admit_refused(&sheet, answer(7, 1, 2));
        assert_eq!(one_stream(&sheet, 1, 2), answer(7, 1, 2));
        assert_eq!(one_stream(&sheet, 1, 1), answer(0, 16, 1));
    }
}

#[test]
fn p4_period_34_leaves_the_second_at_33() {
    let sheet = sheet_a_with(&[(9, 34), (10, 34)]);
    assert_eq!(admitted(&sheet, 3), (answer(0, 3, 17), vec![16, 33, 16]));
    assert_eq!(one_stream(&sheet, 1, 2), answer(0, 33, 2));
}

#[test]
fn p5_period_33_takes_the_second_to_50() {
    let sheet = sheet_a_with(&[(9, 33), (10, 33)]);
    assert_eq!(admitted(&sheet, 3), (answer(0, 3, 17), vec![16, 50, 16]));
    assert_eq!(one_stream(&sheet, 1, 2), answer(0, 50, 3));
}

#[test]
fn p6_second_stream_of_node_2_lists_21() {
    let sheet = sheet(
        5,
        1,
        &[(1, &[(40, 40), (60, 60)]), (2, &[(30, 30), (50, 50)])],
    );
    assert_eq!(
        admitted(&sheet, 4),
        (answer(0, 4, 17), vec![16, 33, 16, 21])
    );
    assert_eq!(one_stream(&sheet, 2, 2), answer(0, 21, 1));
}

#[test]
fn p6_deadline_of_the_stream_behind_another() {
    // Its turn ends 27 ticks after its release at the latest; it is the last of
    // the budget, and ends itself after 26.
    for (deadline, expected) in [(27, answer(0, 21, 1)), (26, answer(7, 2, 2))] {
        let behind = [(30, 25), (50, deadline)];
        let sheet = sheet(5, 1, &[(1, &[(40, 40), (60, 60)]), (2, &behind)]);
        assert_eq!(one_stream(&sheet, 2, 2), expected);
    }
}

#[test]
fn p7_period_10_is_late() {
    assert_admit_refused(&SHEET_P7, answer(7, 1, 1));
    assert_eq!(one_stream(&SHEET_P7, 1, 1), answer(7, 1, 1));
    assert_eq!(one_stream(&SHEET_P7, 1, 2), answer(0, 17, 3));
}

#[test]
fn p7_with_11_11_first_lists_5_and_17() {
    let sheet = p7_just_in_time();
    assert_eq!(admitted(&sheet, 2), (answer(0, 2, 6), vec![5, 17]));
    assert_eq!(one_stream(&sheet, 1, 1), answer(0, 5, 1));
    assert_eq!(one_stream(&sheet, 1, 2), answer(0, 17, 3));
}

#[test]
fn p8_period_9_is_late() {
    let sheet = with(&SHEET_P7, &[(6, 9), (7, 9)]);
    assert_admit_refused(&sheet, answer(7, 1, 1));
    assert_eq!(one_stream(&sheet, 1, 1), answer(7, 1, 1));
}

const P9_LOG: [u32; 6] = [0, 1, 0, 2, 1, 3];

#[test]
fn p9_replay_to_40() {
    assert_eq!(
        replayed(&SHEET_A, &P9_LOG, 40),
        (answer(0, 25, 40), vec![0, 12, 6])
    );
}

#[test]
fn p10_replay_to_12() {
    assert_eq!(
        replayed(&SHEET_A, &P9_LOG, 12),
        (answer(0, 2, 12), vec![0, NOT_BEGUN, 6])
    );
}

#[test]
fn p11_node_2_breaks_its_period() {
    let log = [0, 2, 0, 3, 0, 3, 1, 1];
    let (given, begins) = replayed(&SHEET_A, &log, 18);
    assert_eq!(given, answer(0, 3, 23));
    assert_eq!(begins, [0, 6, 11, 17]);
    assert!(begins[3] - log[6] <= listed_wait(&SHEET_A, 1, 1));
}

#[test]
fn p12_replay_to_0() {
    assert_eq!(
        replayed(&SHEET_A, &P9_LOG, 0),
        (answer(0, 0, 0), vec![NOT_BEGUN; 3])
    );
}
