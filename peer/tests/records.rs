//! The replay with stream records, by numbers worked out on paper, and by the
//! words of request Eight on generated cases.

mod common;

use common::*;
use peer::generate::{named_records, records_case, RecordsCase};
use peer::{one_stream, records_afresh, replay, replay_with_records, step};
use peer::{Answer, Record, StreamRecord};

fn record(begun: u32, longest: u32, over: u32) -> StreamRecord {
    StreamRecord {
        begun,
        longest,
        over,
    }
}

/// Answer, room and list after a case.
fn recorded(case: &RecordsCase) -> (Answer, Vec<u32>, Vec<StreamRecord>) {
    let (mut room, mut records) = (case.room.clone(), case.records.clone());
    let answer = replay_with_records(
        &case.sheet,
        &case.log,
        case.horizon,
        &mut room,
        &mut records,
    );
    (answer, room, records)
}

fn named(name: &str) -> RecordsCase {
    let mut cases = named_records().into_iter();
    cases.find(|case| case.0 == name).expect(name).1
}

/// Answer, and the list.
fn shown(name: &str) -> (Answer, Vec<StreamRecord>) {
    let case = named(name);
    let (answer, _, records) = recorded(&case);
    (answer, records)
}

fn old(place: u32) -> StreamRecord {
    record(
        3_000_000_000 + place,
        3_000_001_000 + place,
        3_000_002_000 + place,
    )
}

#[test]
fn bench_cases() {
    // Begins 0, 12 and 6 of releases at 0, 0 and 1.
    let p9 = vec![record(1, 0, 0), record(1, 12, 0), record(1, 5, 0)];
    assert_eq!(shown("P9 with records"), (answer(0, 25, 40), p9));
    // The second has not begun.
    let p10 = vec![record(1, 0, 0), record(0, 0, 0), record(1, 5, 0)];
    assert_eq!(shown("P10 with records"), (answer(0, 2, 12), p10));
    // Begins 0, 6, 11 and 17 of releases at 0, 0, 0 and 1; the fourth record is
    // of no stream.
    let p11 = vec![record(1, 16, 0), record(1, 0, 0), record(2, 11, 0), old(3)];
    assert_eq!(shown("P11 with records"), (answer(0, 3, 23), p11));
    let none = record(0, 0, 0);
    let p12 = vec![none, none, none, old(3), old(4)];
    assert_eq!(shown("P12 with records"), (answer(0, 0, 0), p12));
}

#[test]
fn longer_than_listed() {
    // The listed wait is 5.
    let equal = shown("a wait as long as listed").1;
    assert_eq!(equal, [record(2, 5, 0)]);
    let longer = shown("a wait longer than listed").1;
    assert_eq!(longer, [record(2, 6, 1)]);
    // Slots of a tick: the first begins when it is released, at 3; those after it
    // wait 6, 12 and so on.
    let burst = shown("a burst").1;
    assert_eq!(burst[0], record(40, 39 * 6, 39));
    assert_eq!(burst[1..], (1..256).map(old).collect::<Vec<_>>());
}

/// One message and 16 slots between two begins, 170,000 ticks; the full cycle has a
/// message of every node, 320,000 ticks, and the listed wait is a tick less: two of
/// them do not wait longer.
#[test]
fn far_waits() {
    let (given, records) = shown("the longest log at once on the slowest bus");
    assert_eq!(given.number, 0);
    assert_eq!(records, [record(4_096, 4_095 * 170_000, 4_094)]);
}

#[test]
fn a_late_stream_is_not_counted() {
    let sheet = named("a late stream beside one over").sheet;
    assert_eq!(one_stream(&sheet, 1, 1), answer(0, 5, 1));
    assert_eq!(one_stream(&sheet, 1, 2), answer(7, 1, 2));
    let alone = shown("a late stream that waits long").1;
    assert_eq!(alone, [record(0, 0, 0), record(3, 12, 0)]);
    // Judged stream by stream: the first is counted on a sheet that is not
    // admitted.
    let beside = shown("a late stream beside one over").1;
    assert_eq!(beside, [record(3, 12, 2), record(1, 18, 0), old(2)]);
}

#[test]
fn refusals() {
    for name in ["a list one record short", "no list"] {
        let case = named(name);
        let same = (answer(6, 0, 0), case.room.clone(), case.records.clone());
        assert_eq!(recorded(&case), same, "{name}");
    }
    // The refusals of the replay come first.
    let short = named("a list one record short");
    let with = |change: &dyn Fn(&mut RecordsCase)| {
        let mut case = short.clone();
        change(&mut case);
        recorded(&case).0
    };
    assert_eq!(with(&|case| case.horizon = 1_000_000_001), answer(10, 0, 0));
    assert_eq!(with(&|case| case.log[1] = 9), answer(9, 0, 1));
    assert_eq!(with(&|case| case.sheet[0] = 0), answer(2, 0, 0));
    assert_eq!(with(&|case| case.room.clear()), answer(6, 0, 0));
    // Nothing to list, and nothing to list it in.
    assert_eq!(
        recorded(&named("no streams and no list")).0,
        answer(0, 100, 100)
    );
}

/// The numbers, the refusals but the last and the begins are the replay's.
#[test]
fn all_else_is_the_replay() {
    for index in 0..3_000 {
        let case = records_case(21, index);
        let (given, room, records) = recorded(&case);
        let mut begins = case.room.clone();
        let plain = replay(&case.sheet, &case.log, case.horizon, &mut begins);
        match (plain.number, given) {
            (0, refused) if refused == answer(6, 0, 0) => {
                assert_eq!(room, case.room, "case {index}");
                assert_eq!(records, case.records, "case {index}");
            }
            _ => assert_eq!((given, &room), (plain, &begins), "case {index}"),
        }
    }
}

/// After every turn the list is the one worked out afresh, and the turn has
/// changed only records of streams whose messages it took.
#[test]
fn after_every_turn() {
    let (mut replays, mut changed) = (0, 0);
    for index in 0..2_000 {
        let mut case = records_case(22, index);
        let (given, ..) = recorded(&case);
        if given.number != 0 || given.second > 60 {
            continue;
        }
        replays += 1;
        let count = case.log.len() / 2;
        let mut bus = Record {
            tick: 0,
            node: 1,
            turns: 0,
        };
        let mut begins = vec![NOT_BEGUN; count];
        let mut before = records_afresh(&case.sheet, &case.log, &begins).unwrap();
        while bus.tick < case.horizon {
            let old = begins.clone();
            step(&case.sheet, &case.log, &mut bus, &mut begins);
            let afresh = records_afresh(&case.sheet, &case.log, &begins).unwrap();
            let horizon = std::mem::replace(&mut case.horizon, bus.tick);
            if bus.tick <= 1_000_000_000 {
                let (_, _, records) = recorded(&case);
                assert_eq!(records[..afresh.len()], afresh, "case {index}, {bus:?}");
            }
            case.horizon = horizon;
            let took = |stream: usize| {
                let begun = (0..count).filter(|&it| old[it] != begins[it]);
                begun
                    .into_iter()
                    .any(|it| case.log[2 * it + 1] as usize == stream + 1)
            };
            for stream in 0..afresh.len() {
                assert_eq!(
                    afresh[stream] != before[stream],
                    took(stream),
                    "case {index}"
                );
                changed += u32::from(took(stream));
            }
            before = afresh;
        }
    }
    assert!(replays > 150 && changed > 300, "{replays} {changed}");
}
