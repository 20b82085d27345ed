//! The late test of requests Four and Six on both sides of its edge: a deadline
//! of jitter + J × C − 1 + budget × TMS + TPR is in time, and one tick less is
//! late, as is one tick more of jitter.

mod common;

use common::*;
use peer::one_stream;

const TICKS: u32 = 1_000_000_000;

/// A node of sixteen streams among others, every one of them just in time.
struct Full {
    message: u32,
    slot: u32,
    budget: u32,
    /// Budgets of the nodes before and after it, which have no streams.
    others: [u32; 2],
    /// Of each stream.
    jitter: u32,
}

impl Full {
    fn cycle(&self) -> u32 {
        let budgets = self.budget + self.others.iter().sum::<u32>();
        budgets * self.message + 3 * self.slot
    }

    /// Each stream above releases once, so that a cycle takes `budget` of them.
    fn cycles(&self, stream: u32) -> u32 {
        stream / self.budget + 1
    }

    fn deadline(&self, stream: u32) -> u32 {
        let turn = self.budget * self.message + self.slot;
        self.jitter + self.cycles(stream) * self.cycle() - 1 + turn
    }

    fn wait(&self, stream: u32) -> u32 {
        let ahead = stream % self.budget;
        self.cycles(stream) * self.cycle() - 1 + ahead * self.message
    }

    /// The sheet with one deadline so many ticks shorter, and its jitter so many
    /// ticks longer.
    fn sheet(&self, one: u32, shorter: u32, longer: u32) -> Vec<u32> {
        let stream = |stream: u32| match stream == one {
            true => [TICKS, self.deadline(stream) - shorter, self.jitter + longer],
            false => [TICKS, self.deadline(stream), self.jitter],
        };
        let streams: Vec<[u32; 3]> = (0..16).map(stream).collect();
        let [before, after] = self.others;
        let nodes: [(u32, &[[u32; 3]]); 3] = [(before, &[]), (self.budget, &streams), (after, &[])];
        jittery_sheet(self.message, self.slot, &nodes)
    }
}

fn check_both_sides(full: &Full) {
    let sheet = full.sheet(0, 0, 0);
    let waits = (0..16).map(|stream| full.wait(stream)).collect();
    assert_eq!(admitted(&sheet, 16), (answer(0, 16, full.cycle()), waits));
    for stream in 0..16 {
        let expected = answer(0, full.wait(stream), full.cycles(stream));
        assert_eq!(one_stream(&sheet, 2, stream + 1), expected);
        // With a shorter deadline it may pass others that need as many cycles,
        // which makes it wait less, but be late all the same.
        for late in [full.sheet(stream, 1, 0), full.sheet(stream, 0, 1)] {
            assert_admit_refused(&late, answer(7, 2, stream + 1));
            let given = one_stream(&late, 2, stream + 1);
            assert_eq!(given, answer(7, 2, stream + 1));
        }
    }
}

#[test]
fn every_budget_and_up_to_sixteen_cycles() {
    for budget in 1..=16 {
        for (message, slot) in [(1, 1), (5, 1), (1, 7), (10_000, 1), (1, 10_000)] {
            for (others, jitter) in [([1, 1], 0), ([16, 3], 0), ([2, 1], 1), ([1, 4], 90_000)] {
                check_both_sides(&Full {
                    message,
                    slot,
                    budget,
                    others,
                    jitter,
                });
            }
        }
    }
}

#[test]
fn the_place_in_the_turn_plays_no_part() {
    // The first of a turn of three, and the last: the one ends ten ticks before
    // the other, and both are handed up at the same tick.
    let full = Full {
        message: 5,
        slot: 2,
        budget: 3,
        others: [1, 1],
        jitter: 0,
    };
    assert_eq!((full.cycle(), full.wait(0), full.wait(2)), (31, 30, 40));
    assert_eq!((full.deadline(0), full.deadline(2)), (47, 47));
    check_both_sides(&full);
}

#[test]
fn the_longest_turns_of_the_longest_cycle() {
    let sheet_of = |deadline: u32| {
        let streams = [(TICKS, deadline); 16];
        sheet(10_000, 10_000, &[(16, &streams[..]); 16])
    };
    let in_time = 2_720_000 - 1 + 170_000;
    let (given, waits) = admitted(&sheet_of(in_time), 256);
    assert_eq!(given, answer(0, 256, 2_720_000));
    assert_eq!(waits[255], 2_719_999 + 150_000);
    assert_admit_refused(&sheet_of(in_time - 1), answer(7, 1, 1));
    assert_eq!(
        one_stream(&sheet_of(in_time - 1), 16, 16),
        answer(7, 16, 16)
    );
}

#[test]
fn the_shortest_turn_of_the_shortest_cycle() {
    for (deadline, expected) in [
        (1, answer(7, 1, 1)),
        (2, answer(7, 1, 1)),
        (3, answer(0, 1, 1)),
        (4, answer(0, 1, 1)),
    ] {
        let sheet = sheet(1, 1, &[(1, &[(4, deadline)])]);
        assert_eq!(one_stream(&sheet, 1, 1), expected);
    }
}

#[test]
fn deadlines_shorter_than_a_turn() {
    // Nothing goes below 0 where not even the turn itself is in time.
    let streams: [(u32, u32); 4] = [(TICKS, 1), (1, 1), (TICKS, 9_999), (TICKS, 169_999)];
    let sheet = sheet(10_000, 10_000, &[(16, &streams)]);
    for stream in 1..=4 {
        assert_eq!(one_stream(&sheet, 1, stream), answer(7, 1, stream));
    }
}

#[test]
fn the_last_cycle_before_the_longest_deadline() {
    // The stream above has a period of a cycle and a tick, so that it leaves a
    // turn free after as many cycles as that has ticks.
    let sheet_of = |slot: u32, deadline: u32| {
        let period = 20_000 + 2 * slot + 1;
        let streams = [(period, 1), (TICKS, deadline)];
        sheet(10_000, slot, &[(1, &streams), (1, &[])])
    };
    let found = answer(0, 31_623 * 31_622 - 1, 31_623);
    let edge = 31_623 * 31_622 - 1 + 15_811;
    assert_eq!(edge, 999_998_316);
    for (deadline, expected) in [
        (TICKS, found),
        (edge, found),
        (edge - 1, answer(7, 1, 2)),
        (edge - 15_811, answer(7, 1, 2)),
    ] {
        assert_eq!(one_stream(&sheet_of(5_811, deadline), 1, 2), expected);
    }
    // Two ticks more a cycle, and no deadline is long enough.
    assert_eq!(one_stream(&sheet_of(5_812, TICKS), 1, 2), answer(7, 1, 2));
}
