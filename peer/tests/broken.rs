//! Each broken variant makes its error, and is right where that plays no part.

mod common;

use common::*;
use peer::generate::Case;
use peer::{admit, broken, check_sheet, replay, step, Answer, Record};

type Replay = fn(&[u32], &[u32], u32, &mut [u32]) -> Answer;
type Step = fn(&[u32], &[u32], &mut Record, &mut [u32]) -> Answer;

fn begins(entry: Replay, sheet: &[u32], log: &[u32], horizon: u32) -> (Answer, Vec<u32>) {
    let mut room = vec![OLD; log.len() / 2];
    (entry(sheet, log, horizon, &mut room), room)
}

#[test]
fn by_ceiling() {
    let p5 = sheet_a_with(&[(9, 33), (10, 33)]);
    let entry = broken::admit_by_ceiling;
    assert_eq!(waits(admit, &p5, 3).1, [16, 50, 16]);
    assert_eq!(waits(entry, &p5, 3).1, [16, 33, 16]);
    assert_eq!(waits(entry, &SHEET_A, 3), waits(admit, &SHEET_A, 3));
    let late = sheet_a_with(&[(16, 20)]);
    assert_eq!(waits(entry, &late, 3), (answer(7, 2, 1), vec![OLD; 3]));
}

#[test]
fn joining() {
    let entry = broken::replay_joining;
    let log = [0, 3, 3, 3];
    let good = (answer(0, 10, 20), vec![1, 8]);
    assert_eq!(begins(replay, &SHEET_A, &log, 20), good);
    // The second joins at 6, so the turn ends at 12 and eight silent ones follow.
    let joined = (answer(0, 10, 20), vec![1, 6]);
    assert_eq!(begins(entry, &SHEET_A, &log, 20), joined);
    let p9 = [0, 1, 0, 2, 1, 3];
    let good = begins(replay, &SHEET_A, &p9, 40);
    assert_eq!(begins(entry, &SHEET_A, &p9, 40), good);
}

#[test]
fn one_release_each() {
    let entry = broken::admit_one_release_each;
    let p7 = p7_just_in_time();
    assert_eq!(waits(admit, &p7, 2).1, [5, 17]);
    assert_eq!(waits(entry, &p7, 2).1, [5, 11]);
    let refused = (answer(7, 1, 1), vec![OLD; 2]);
    assert_eq!(waits(entry, &SHEET_P7, 2), refused);
    assert_eq!(waits(entry, &SHEET_A, 3), waits(admit, &SHEET_A, 3));
}

#[test]
fn without_silent_slots() {
    let entry = broken::replay_without_silent_slots;
    // P12 is right; on the idle bus of P9 without a log the clock stands still.
    let good = begins(replay, &SHEET_A, &[], 0);
    assert_eq!(begins(entry, &SHEET_A, &[], 0), good);
    assert_eq!(
        begins(replay, &SHEET_A, &[], 40),
        (answer(0, 40, 40), vec![])
    );
    let stopped = answer(0, broken::MOST_TURNS as u32, 0);
    assert_eq!(begins(entry, &SHEET_A, &[], 40), (stopped, vec![]));
    // Node 1 is silent at 0, and node 2 begins at once instead of at 1.
    assert_eq!(begins(entry, &SHEET_A, &[0, 3], 5).1, [0]);
    // Where no node is silent, it is right.
    let log = [0, 1, 0, 3, 0, 3];
    let good = begins(replay, &SHEET_A, &log, 17);
    assert_eq!(begins(entry, &SHEET_A, &log, 17), good);
}

#[test]
fn writing_early() {
    let late = sheet_a_with(&[(16, 20)]);
    let refused = answer(7, 2, 1);
    let entry = broken::admit_writing_early;
    assert_eq!(waits(admit, &late, 3), (refused, vec![OLD; 3]));
    assert_eq!(waits(entry, &late, 3), (refused, vec![16, 33, OLD]));
    assert_eq!(waits(entry, &SHEET_A, 3), waits(admit, &SHEET_A, 3));
}

#[test]
fn ranked_by_period() {
    let entry = broken::admit_ranked_by_period;
    // One tick more than in P2 is just in time under the old rank, P2 is late.
    let longer = sheet_a_with(&[(13, 39)]);
    assert_eq!(waits(admit, &longer, 3).1, [33, 16, 16]);
    assert_eq!(waits(entry, &longer, 3).1, [16, 33, 16]);
    let p3 = sheet_a_with(&[(13, 37)]);
    for late in [&sheet_a_with(&[(13, 38)]), &p3] {
        assert_eq!(waits(admit, late, 3).1, [33, 16, 16]);
        assert_eq!(waits(entry, late, 3), (answer(7, 1, 2), vec![OLD; 3]));
    }
    assert_eq!(waits(entry, &SHEET_A, 3), waits(admit, &SHEET_A, 3));
    let entry = broken::replay_ranked_by_period;
    let log = [0, 1, 0, 2];
    assert_eq!(begins(replay, &p3, &log, 20).1, [7, 0]);
    assert_eq!(begins(entry, &p3, &log, 20).1, [0, 7]);
    let good = begins(replay, &SHEET_A, &log, 20);
    assert_eq!(begins(entry, &SHEET_A, &log, 20), good);
}

/// One node with two streams, a cycle of 6 ticks.
fn pair(first: (u32, u32), second: (u32, u32)) -> Vec<u32> {
    sheet(5, 1, &[(1, &[first, second])])
}

#[test]
fn tied_by_number() {
    let higher = pair((60, 40), (50, 40));
    let lower = pair((50, 40), (60, 40));
    let entry = broken::admit_tied_by_number;
    assert_eq!(waits(admit, &higher, 2).1, [11, 5]);
    assert_eq!(waits(entry, &higher, 2).1, [5, 11]);
    assert_eq!(waits(entry, &lower, 2), waits(admit, &lower, 2));
    let entry = broken::replay_tied_by_number;
    let log = [0, 1, 0, 2];
    assert_eq!(begins(replay, &higher, &log, 12).1, [6, 0]);
    assert_eq!(begins(entry, &higher, &log, 12).1, [0, 6]);
    let good = begins(replay, &lower, &log, 12);
    assert_eq!(begins(entry, &lower, &log, 12), good);
}

#[test]
fn tied_by_higher_number() {
    let tied = pair((50, 40), (50, 40));
    let period = pair((60, 40), (50, 40));
    let entry = broken::admit_tied_by_higher_number;
    assert_eq!(waits(admit, &tied, 2).1, [5, 11]);
    assert_eq!(waits(entry, &tied, 2).1, [11, 5]);
    assert_eq!(waits(entry, &period, 2), waits(admit, &period, 2));
    let entry = broken::replay_tied_by_higher_number;
    let log = [0, 1, 0, 2];
    assert_eq!(begins(replay, &tied, &log, 12).1, [0, 6]);
    assert_eq!(begins(entry, &tied, &log, 12).1, [6, 0]);
    let good = begins(replay, &period, &log, 12);
    assert_eq!(begins(entry, &period, &log, 12), good);
}

#[test]
fn starting_late() {
    let entry = broken::replay_starting_late;
    // Left over the budget at 0, so the turn at 6 is silent.
    let log = [0, 1, 0, 2];
    let good = (answer(0, 2, 12), vec![0, 6]);
    assert_eq!(begins(replay, &SHEET_P7, &log, 12), good);
    let missed = (answer(0, 7, 12), vec![0, NOT_BEGUN]);
    assert_eq!(begins(entry, &SHEET_P7, &log, 12), missed);
    // Left because the turn at 0 is node 1's.
    let good = (answer(0, 2, 7), vec![1]);
    assert_eq!(begins(replay, &SHEET_A, &[0, 3], 5), good);
    let missed = (answer(0, 5, 5), vec![NOT_BEGUN]);
    assert_eq!(begins(entry, &SHEET_A, &[0, 3], 5), missed);
    // Right where each comes after the start of the turn before: 0, 1 and 7.
    let log = [1, 3, 2, 1, 8, 3];
    let good = begins(replay, &SHEET_A, &log, 20);
    assert_eq!(good.1, [1, 7, 13]);
    assert_eq!(begins(entry, &SHEET_A, &log, 20), good);
}

/// A step from tick 10 of node 2 of sheet A, which takes up to two.
fn turn(entry: Step, log: &[u32], room: &[u32]) -> (Answer, Record, Vec<u32>) {
    let mut record = Record {
        tick: 10,
        node: 2,
        turns: 4,
    };
    let mut room = room.to_vec();
    let given = entry(&SHEET_A, log, &mut record, &mut room);
    (given, record, room)
}

#[test]
fn after_last_begun() {
    let entry = broken::step_after_last_begun;
    let log = [0, 3, 0, 1, 0, 3, 20, 3];
    let after = |tick| Record {
        tick,
        node: 1,
        turns: 5,
    };
    let room = [NOT_BEGUN, 5, NOT_BEGUN, NOT_BEGUN];
    let good = (answer(0, 2, 21), after(21), vec![10, 5, 15, NOT_BEGUN]);
    assert_eq!(turn(step, &log, &room), good);
    let missed = vec![NOT_BEGUN, 5, 10, NOT_BEGUN];
    let missed = (answer(0, 1, 16), after(16), missed);
    assert_eq!(turn(entry, &log, &room), missed);
    // With the last one begun there is nothing left.
    let room = [NOT_BEGUN, 5, NOT_BEGUN, 0];
    let missed = (answer(0, 0, 11), after(11), room.to_vec());
    assert_eq!(turn(entry, &log, &room), missed);
    // Right if none has begun, if none waits before one that has, if the room
    // goes on past the log, and if it is too short.
    for room in [
        &[NOT_BEGUN; 4][..],
        &[3, 5, NOT_BEGUN, NOT_BEGUN],
        &[NOT_BEGUN, NOT_BEGUN, NOT_BEGUN, NOT_BEGUN, OLD],
        &[NOT_BEGUN, 5, OLD],
    ] {
        assert_eq!(turn(entry, &log, room), turn(step, &log, room));
    }
}

/// Makes of deadline, period and number what the streams of a node go by.
type Key = fn(u32, u32, u32) -> (u32, u32, u32);

/// The numbers of each node's streams from 0, first served first; nothing for
/// a sheet that is refused.
fn orders(sheet: &[u32], key: Key) -> Vec<Vec<u32>> {
    if check_sheet(sheet).number != 0 {
        return vec![];
    }
    let order = |streams: &Vec<[u32; 3]>| {
        let mut order: Vec<u32> = (0..streams.len() as u32).collect();
        order.sort_by_key(|&number| {
            let [period, deadline, _] = streams[number as usize];
            key(deadline, period, number)
        });
        order
    };
    bodies(sheet).iter().map(order).collect()
}

fn replays_differ(bad: Replay, case: &Case) -> bool {
    let given = |entry: Replay| {
        let mut room = case.room.clone();
        let given = entry(&case.sheet, &case.log, case.horizon, &mut room);
        (given, room)
    };
    given(replay) != given(bad)
}

fn steps_differ(bad: Step, case: &Case) -> bool {
    let given = |entry: Step| {
        let (mut record, mut room) = (case.record, case.step_room.clone());
        let given = entry(&case.sheet, &case.log, &mut record, &mut room);
        (given, record, room)
    };
    given(step) != given(bad)
}

/// Whether some release waits before one that has begun.
fn has_hole(room: &[u32]) -> bool {
    !room.is_sorted_by_key(|&word| word == NOT_BEGUN)
}

#[test]
fn listed_errors_on_generated_cases() {
    let errors = [
        count(|case| admits_differ(broken::admit_by_ceiling, case)),
        count(|case| replays_differ(broken::replay_joining, case)),
        count(|case| admits_differ(broken::admit_one_release_each, case)),
        count(|case| replays_differ(broken::replay_without_silent_slots, case)),
        count(|case| admits_differ(broken::admit_writing_early, case)),
    ];
    // The first needs a period that divides a window without a rest.
    let least = [5, 70, 80, 400, 70];
    let mut pairs = errors.iter().zip(least);
    assert!(pairs.all(|(&cases, least)| cases >= least), "{errors:?}");
}

#[test]
fn wrong_starts_on_generated_cases() {
    let replays = count(|case| replays_differ(broken::replay_starting_late, case));
    let steps = count(|case| {
        let differ = steps_differ(broken::step_after_last_begun, case);
        assert!(!differ || has_hole(&case.step_room));
        differ
    });
    assert!(replays >= 250 && steps >= 300, "{replays} {steps}");
}

/// How often the two entries with one wrong rank differ from the good ones.
/// Where that rank gives the right orders, they must not.
fn wrong_rank(key: Key, bad_admit: Admit, bad_replay: Replay) -> (usize, usize) {
    let right: Key = |deadline, period, number| (deadline, period, number);
    let checked = |differ: bool, case: &Case| {
        let sheet = &case.sheet;
        assert!(!differ || orders(sheet, right) != orders(sheet, key));
        differ
    };
    (
        count(|case| checked(admits_differ(bad_admit, case), case)),
        count(|case| checked(replays_differ(bad_replay, case), case)),
    )
}

#[test]
fn ranked_by_period_on_generated_cases() {
    let differing = wrong_rank(
        |_, period, number| (period, number, 0),
        broken::admit_ranked_by_period,
        broken::replay_ranked_by_period,
    );
    assert!(differing.0 >= 250 && differing.1 >= 90, "{differing:?}");
}

#[test]
fn tied_by_number_on_generated_cases() {
    let differing = wrong_rank(
        |deadline, _, number| (deadline, number, 0),
        broken::admit_tied_by_number,
        broken::replay_tied_by_number,
    );
    assert!(differing.0 >= 100 && differing.1 >= 40, "{differing:?}");
}

#[test]
fn tied_by_higher_number_on_generated_cases() {
    let differing = wrong_rank(
        |deadline, period, number| (deadline, period, u32::MAX - number),
        broken::admit_tied_by_higher_number,
        broken::replay_tied_by_higher_number,
    );
    assert!(differing.0 >= 120 && differing.1 >= 60, "{differing:?}");
}
