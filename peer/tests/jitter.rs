//! The third word of a stream, on small sheets worked out by hand: request Six
//! of document 02.

mod common;

use common::*;
use peer::{admit, one_stream, Answer};

const TICKS: u32 = 1_000_000_000;

/// Sheet A with these jitters.
fn jitters(words: [u32; 3]) -> Vec<u32> {
    sheet_a_with(&[(11, words[0]), (14, words[1]), (17, words[2])])
}

/// One node of budget 1 in a cycle of 6 ticks.
fn one_node(streams: &[[u32; 3]]) -> Vec<u32> {
    jittery_sheet(5, 1, &[(1, streams)])
}

fn all_streams(sheet: &[u32]) -> Vec<Answer> {
    let mut answers = Vec::new();
    for (node, streams) in (1..).zip(bodies(sheet)) {
        let numbers = 1..=streams.len() as u32;
        answers.extend(numbers.map(|stream| one_stream(sheet, node, stream)));
    }
    answers
}

#[test]
fn layout_of_sheet_a() {
    let words = [2, 5, 1, 9, 2, 1, 15, 1, 2, 40, 40, 0, 60, 60, 0, 30, 30, 0];
    assert_eq!(SHEET_A, words);
    assert_eq!(
        jittery_sheet(
            5,
            1,
            &[(1, &[[40, 40, 0], [60, 60, 0]]), (2, &[[30, 30, 0]])]
        ),
        words
    );
    assert_eq!(admitted(&words, 3), (answer(0, 3, 17), vec![16, 33, 16]));
}

/// In two cycles, 33 ticks, the first stream releases once if its jitter is 6,
/// since 33 + 6 is less than 40, and twice if it is 7. Then it takes a third
/// cycle, in which it does not release again: 50 + 7 is less than 80.
#[test]
fn the_sum_takes_the_jitter_of_those_above() {
    for jitter in [0, 1, 5, 6] {
        let sheet = jitters([jitter, 0, 0]);
        assert_eq!(one_stream(&sheet, 1, 2), answer(0, 33, 2), "{jitter}");
        assert_eq!(admitted(&sheet, 3), (answer(0, 3, 17), vec![16, 33, 16]));
    }
    for jitter in [7, 8, 18] {
        let sheet = jitters([jitter, 0, 0]);
        assert_eq!(one_stream(&sheet, 1, 2), answer(0, 50, 3), "{jitter}");
        assert_eq!(admitted(&sheet, 3), (answer(0, 3, 17), vec![16, 50, 16]));
    }
    // From 30 on it releases a third time in 50 ticks, and the fourth cycle,
    // which ends after 67 + 6, is too late for 60; so it is itself.
    for jitter in [29, 30, 39] {
        let sheet = jitters([jitter, 0, 0]);
        let expected = match jitter {
            29 => answer(0, 50, 3),
            _ => answer(7, 1, 2),
        };
        assert_eq!(one_stream(&sheet, 1, 2), expected, "{jitter}");
        assert_admit_refused(&sheet, answer(7, 1, 1));
    }
}

/// 16 + 6 after queuing for the first stream of node 1, 33 + 6 for the second,
/// 16 + 11 for that of node 2.
#[test]
fn the_late_test_adds_the_own_jitter() {
    for (place, in_time, wait, cycles) in
        [([1, 1], 18, 16, 1), ([1, 2], 21, 33, 2), ([2, 1], 3, 16, 1)]
    {
        let [node, stream] = place;
        let sheet_of = |jitter: u32| {
            let words = match place {
                [1, 1] => [jitter, 0, 0],
                [1, 2] => [0, jitter, 0],
                _ => [0, 0, jitter],
            };
            jitters(words)
        };
        for jitter in [0, 1, in_time - 1, in_time] {
            // The wait starts at the queuing, however late that is.
            let given = one_stream(&sheet_of(jitter), node, stream);
            assert_eq!(given, answer(0, wait, cycles), "{place:?} {jitter}");
            assert_eq!(admit(&sheet_of(jitter), &mut [0; 3]).number, 0);
        }
        for jitter in [in_time + 1, in_time + 2, 29] {
            let given = one_stream(&sheet_of(jitter), node, stream);
            assert_eq!(given, answer(7, node, stream), "{place:?} {jitter}");
            assert_admit_refused(&sheet_of(jitter), answer(7, node, stream));
        }
    }
}

/// With 7 above it the second stream waits for 50, and 4 more are left.
#[test]
fn both_uses_together() {
    for (words, expected) in [
        ([7, 4, 3], Ok([16, 50, 16])),
        ([18, 4, 3], Ok([16, 50, 16])),
        ([7, 5, 3], Err(answer(7, 1, 2))),
        ([6, 21, 3], Ok([16, 33, 16])),
        ([6, 22, 3], Err(answer(7, 1, 2))),
        ([19, 22, 4], Err(answer(7, 1, 1))),
        ([18, 4, 4], Err(answer(7, 2, 1))),
    ] {
        match expected {
            Ok(waits) => assert_eq!(
                admitted(&jitters(words), 3),
                (answer(0, 3, 17), waits.to_vec())
            ),
            Err(late) => assert_admit_refused(&jitters(words), late),
        }
    }
}

/// A stream's own jitter moves no wait but those below it.
#[test]
fn jitters_below_and_in_other_nodes_play_no_part() {
    for words in [[0, 59, 0], [0, 0, 29], [0, 59, 29]] {
        let given = one_stream(&jitters(words), 1, 1);
        assert_eq!(given, answer(0, 16, 1), "{words:?}");
    }
    assert_eq!(one_stream(&jitters([0, 0, 29]), 1, 2), answer(0, 33, 2));
    assert_eq!(one_stream(&jitters([39, 59, 0]), 2, 1), answer(0, 16, 1));
}

#[test]
fn a_jitter_at_or_above_the_deadline_is_valid_and_late() {
    // The other is below it, and waits for a third cycle from 60 - 11 on.
    for (jitter, wait, cycles) in [
        (29, 11, 2),
        (30, 11, 2),
        (31, 11, 2),
        (48, 11, 2),
        (49, 17, 3),
        (59, 17, 3),
    ] {
        let sheet = one_node(&[[60, 30, jitter], [100, 100, 0]]);
        let expected = [answer(7, 1, 1), answer(0, wait, cycles)];
        assert_eq!(all_streams(&sheet), expected, "{jitter}");
        assert_admit_refused(&sheet, answer(7, 1, 1));
    }
    assert_eq!(replayed(&one_node(&[[60, 30, 59]]), &[0, 1], 6).1, [0]);
}

/// By what its jitter leaves of its deadline, 31, the second would be first.
#[test]
fn the_rank_stays_with_the_deadline() {
    let sheet = one_node(&[[60, 40, 0], [60, 41, 10]]);
    assert_eq!(admitted(&sheet, 2), (answer(0, 2, 6), vec![5, 11]));
    assert_eq!(replayed(&sheet, &[0, 2, 0, 1], 12).1, [6, 0]);
    // Equal deadlines go by the period, and equal periods by the number.
    let sheet = one_node(&[[61, 40, 17], [60, 40, 0], [60, 40, 9]]);
    assert_eq!(admitted(&sheet, 3).1, [17, 5, 11]);
    assert_eq!(replayed(&sheet, &[0, 1, 0, 2, 0, 3], 18).1, [12, 0, 6]);
}

/// P7 with 11 11 first has no tick to spare; its jitter counts below it.
#[test]
fn p7_with_jitter() {
    for (jitter, wait, cycles) in [(0, 17, 3), (4, 17, 3), (5, 23, 4), (9, 23, 4), (10, 29, 5)] {
        let sheet = one_node(&[[11, 11, jitter], [100, 100, 0]]);
        let first = match jitter {
            0 => answer(0, 5, 1),
            _ => answer(7, 1, 1),
        };
        let expected = [first, answer(0, wait, cycles)];
        assert_eq!(all_streams(&sheet), expected, "{jitter}");
    }
}

/// With a budget of 3 and a cycle of 20 the third stream has two ahead of it in
/// the first turn. The first counts twice there from a jitter of 11 on, since
/// 19 + 11 is 30, and the second from 21 on. In two cycles it is three times
/// from 21 on, and twice from 1 on, and three of them are served before.
#[test]
fn places_ahead_in_the_turn() {
    let sheet_of = |first: u32, second: u32| {
        let streams = [[30, 30, first], [40, 39, second], [90, 90, 0]];
        jittery_sheet(5, 5, &[(3, &streams)])
    };
    for (first, second, wait, cycles) in [
        (0, 0, 19 + 2 * 5, 1),
        (10, 20, 19 + 2 * 5, 1),
        (11, 0, 39, 2),
        (11, 1, 39 + 5, 2),
        (10, 21, 39 + 5, 2),
        (20, 21, 39 + 5, 2),
        (21, 1, 39 + 2 * 5, 2),
        (29, 39, 39 + 2 * 5, 2),
    ] {
        let given = one_stream(&sheet_of(first, second), 1, 3);
        assert_eq!(given, answer(0, wait, cycles), "{first} {second}");
    }
}

/// Fifteen streams of the longest jitter release twice each, soon after one
/// another, and then no more for long.
#[test]
fn the_longest_jitters() {
    let mut streams = vec![[TICKS, TICKS, TICKS - 1]; 15];
    streams.push([TICKS, TICKS, 0]);
    let sheet = jittery_sheet(1, 1, &[(1, &streams)]);
    assert_eq!(one_stream(&sheet, 1, 16), answer(0, 61, 31));
    assert_eq!(one_stream(&sheet, 1, 2), answer(7, 1, 2));
    assert_admit_refused(&sheet, answer(7, 1, 1));
}

/// All of them in sums past 2^31: 2 C + 1 cycles of 15,811 ticks, and as much
/// again for the own jitter.
#[test]
fn half_wait_and_half_jitter() {
    let sheet_of = |jitter: u32| {
        let streams = [[TICKS, TICKS, jitter], [15_812, 1, 15_811]];
        jittery_sheet(10_000, 5_811, &[(1, &streams)])
    };
    let found = answer(0, 31_623 * 15_811 - 1, 31_623);
    let spare = TICKS - (31_623 * 15_811 - 1 + 15_811);
    assert_eq!(spare, 499_992_937);
    assert_eq!(one_stream(&sheet_of(0), 1, 1), found);
    assert_eq!(one_stream(&sheet_of(spare), 1, 1), found);
    assert_eq!(one_stream(&sheet_of(spare + 1), 1, 1), answer(7, 1, 1));
    assert_eq!(one_stream(&sheet_of(TICKS - 1), 1, 1), answer(7, 1, 1));
}

/// The first releases at 1, 7 ticks after its event, and again at 34. Node 2
/// floods the bus, and the lowest stream of node 1 has its turn at 0.
#[test]
fn a_message_can_wait_its_listed_wait_to_the_tick() {
    let sheet_of = |jitter: u32| {
        let node = [[40, 40, jitter], [60, 60, 0], [100, 100, 0]];
        jittery_sheet(5, 1, &[(1, &node), (2, &[[30, 30, 0]])])
    };
    let log = |again: u32| [&[0, 3][..], &[0, 4].repeat(6), &[1, 1, 1, 2, again, 1]].concat();
    assert_eq!(one_stream(&sheet_of(7), 1, 2), answer(0, 50, 3));
    let (given, begins) = replayed(&sheet_of(7), &log(34), 52);
    assert_eq!(begins, [0, 6, 11, 23, 28, 40, 45, 17, 51, 34]);
    assert_eq!(given, answer(0, 7, 57));
    // With a jitter of 6 the wait is 33, and no such log keeps the period: the
    // next release of the first comes after the turn at 34.
    assert_eq!(one_stream(&sheet_of(6), 1, 2), answer(0, 33, 2));
    let (_, begins) = replayed(&sheet_of(6), &log(35), 52);
    assert_eq!(begins[8..], [34, 51]);
}

/// The replay goes by the queuing ticks and the rank alone.
#[test]
fn the_replay_does_not_read_the_jitters() {
    let logs: [&[u32]; 3] = [
        &[0, 1, 0, 2, 1, 3],
        &[0, 2, 0, 3, 0, 3, 1, 1],
        &[0, 1, 1, 1, 2, 1, 2, 2, 2, 3],
    ];
    for log in logs {
        for words in [[39, 59, 29], [0, 59, 0], [1, 2, 3]] {
            let given = replayed(&jitters(words), log, 60);
            assert_eq!(given, replayed(&SHEET_A, log, 60), "{words:?}");
        }
    }
}
