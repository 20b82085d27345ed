//! The cases that document 01 wants run.

mod common;

use common::*;
use peer::{admit, check_sheet, one_stream, replay, step, Record};

#[test]
fn empty_sheet() {
    assert_admit_refused(&[], answer(1, 0, 0));
    assert_replay_refused(&[], &[0, 1], 40, answer(1, 0, 0));
    assert_eq!(one_stream(&[], 1, 1), answer(1, 0, 0));
}

#[test]
fn no_node_and_seventeen_nodes() {
    for nodes in [0, 17] {
        let sheet = sheet_a_with(&[(0, nodes)]);
        assert_admit_refused(&sheet, answer(2, 0, 0));
        assert_replay_refused(&sheet, &[], 40, answer(2, 0, 0));
        assert_eq!(check_sheet(&[nodes, 5, 1]), answer(2, 0, 0));
    }
}

#[test]
fn nodes_without_streams_are_admitted() {
    for count in 1..=16usize {
        let nodes = vec![(2, &[][..]); count];
        let sheet = sheet(5, 1, &nodes);
        let cycle = 11 * count as u32;
        assert_eq!(admit(&sheet, &mut []), answer(0, 0, cycle));
        assert_eq!(replayed(&sheet, &[], 5), (answer(0, 5, 5), vec![]));
        assert_replay_refused(&sheet, &[0, 1], 5, answer(9, 0, 1));
        assert_eq!(one_stream(&sheet, 1, 1), answer(8, 1, 1));
    }
}

#[test]
fn sixteen_nodes_of_sixteen_streams() {
    let streams = [(1_000_000_000, 1_000_000_000); 16];
    let full = sheet(10_000, 10_000, &[(16, &streams[..]); 16]);
    assert_eq!(full.len() * 4, 3_276);
    let (given, waits) = admitted(&full, 256);
    assert_eq!(given, answer(0, 256, 2_720_000));
    for (stream, wait) in waits.iter().enumerate() {
        // Budget 16 takes all that rank above in one cycle.
        assert_eq!(*wait, 2_719_999 + 10_000 * (stream as u32 % 16));
    }
    let (given, begins) = replayed(&full, &[0, 256, 0, 1], 1_000_000);
    assert_eq!(begins, [160_000, 0]);
    assert_eq!(given, answer(0, 98, 1_000_000));
}

#[test]
fn sixteen_nodes_of_sixteen_streams_in_reverse() {
    // The deadlines fall with the stream number, so the last ranks first.
    let streams: Vec<(u32, u32)> = (0..16)
        .map(|less| (1_000_000_000, 999_999_999 - less))
        .collect();
    let full = sheet(10_000, 10_000, &[(16, &streams[..]); 16]);
    let (given, waits) = admitted(&full, 256);
    assert_eq!(given, answer(0, 256, 2_720_000));
    for (stream, wait) in waits.iter().enumerate() {
        assert_eq!(*wait, 2_719_999 + 10_000 * (15 - stream as u32 % 16));
    }
    let log = [0, 1, 0, 15, 0, 16];
    assert_eq!(replayed(&full, &log, 1).1, [20_000, 10_000, 0]);
}

#[test]
fn sixteen_nodes_of_sixteen_streams_with_jitter() {
    // 2,889,999 ticks go by from queuing to delivery at most, which leaves
    // 997,110,001 for the jitter.
    let ticks = 1_000_000_000;
    let longest = |jitter: u32| {
        let streams = [[ticks, ticks, jitter]; 16];
        jittery_sheet(10_000, 10_000, &[(16, &streams[..]); 16])
    };
    let (given, waits) = admitted(&longest(997_110_001), 256);
    assert_eq!(given, answer(0, 256, 2_720_000));
    for (stream, wait) in waits.iter().enumerate() {
        assert_eq!(*wait, 2_719_999 + 10_000 * (stream as u32 % 16));
    }
    assert_admit_refused(&longest(997_110_002), answer(7, 1, 1));
    assert_admit_refused(&longest(999_999_999), answer(7, 1, 1));
    assert_admit_refused(&longest(1_000_000_000), answer(5, 1, 1));
}

#[test]
fn full_sheet_with_budget_one_waits_sixteen_cycles() {
    let streams = [(100_000, 100_000); 16];
    let full = sheet(3, 2, &[(1, &streams[..]); 16]);
    assert_eq!(one_stream(&full, 16, 16), answer(0, 16 * 80 - 1, 16));
    assert_eq!(one_stream(&full, 16, 1), answer(0, 79, 1));
}

#[test]
fn empty_log_counts_the_silent_turns() {
    assert_eq!(replay(&SHEET_A, &[], 40, &mut []), answer(0, 40, 40));
    assert_eq!(replay(&SHEET_P7, &[], 0, &mut []), answer(0, 0, 0));
    let mut record = Record {
        tick: 40,
        node: 1,
        turns: 40,
    };
    assert_eq!(step(&SHEET_A, &[], &mut record, &mut []), answer(0, 0, 41));
}

#[test]
fn figure_1_in_fifths_is_refused() {
    let sheet = [
        3, 5, 1, 12, 3, 1, 21, 1, 1, 24, 1, 1, 20, 20, 0, 65, 65, 0, 67, 67, 0, 26, 26, 0, 35, 35,
        0,
    ];
    assert_admit_refused(&sheet, answer(7, 1, 1));
    assert_eq!(check_sheet(&sheet), answer(0, 0, 0));
}

#[test]
#[cfg(not(debug_assertions))]
fn a_thousand_million_silent_turns() {
    let last = 1_000_000_000;
    assert_eq!(replay(&SHEET_A, &[], last, &mut []), answer(0, last, last));
}
