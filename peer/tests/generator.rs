//! The generated cases: the same each time, within their limits, and spread
//! over all answers and causes.

mod common;

use std::collections::BTreeSet;

use common::*;
use peer::generate::{case, named, MOST_TRIES, MOST_TURNS};
use peer::stats::{event_names, gather, jitter_names, kinds_of_jitters};
use peer::stats::{EVENT_NAMES, IN_TIME_NAMES, JITTER_NAMES, TOO_LATE_NAMES};
use peer::{admit, one_stream, read_tables, replay, step};

#[test]
fn a_case_depends_on_seed_and_index_alone() {
    assert_depends_on_seed_and_index_alone(case, 4);
}

/// Shares of 5,000 cases, a good deal below what is usual.
#[test]
fn cases_spread_over_all_answers() {
    let figures = gather(2, 5_000);
    let least = |names: &[&str], share: u64| least(&figures, names, share);
    least(&["sheet admitted with streams"], 1_250);
    least(&["one stream 0, J 1", "one stream 0, J 2 or more"], 500);
    least(&["one stream 0, J 10 to 999", "one stream 7"], 50);
    for entry in ["admit", "one stream", "replay", "step"] {
        for number in 1..=5 {
            least(&[&format!("{entry} {number}")], 20);
        }
    }
    least(&["admit 0", "admit 6", "admit 7"], 200);
    least(&["replay 0", "replay 6", "step 6"], 200);
    least(&["step 0, taken 0", "step 0, taken 1"], 200);
    least(&["step 0, taken 2 or more"], 200);
    least(&["replay 10", "step 16 tick", "step 16 turns"], 20);
    least(&["step 16 node 0", "step 16 node too large"], 10);
    least(&["one stream 8 node 0", "one stream 8 stream 0"], 5);
    least(&["one stream 8 node too large"], 20);
    least(&["one stream 8 stream too large"], 20);
    least(&["replay 0, empty log", "replay 0, horizon 0"], 10);
    least(&["replay 0, 4096 releases"], 3);
    least(
        &["replay 0, horizon 10^9", "sheet with a sum past 32 bits"],
        1,
    );
    least(&["admit 0, a wait over 10^8"], 15);
    least(&["one stream 0, a wait over 10^8"], 3);
    least(&["replay 0, a begin over 10^9"], 5);
    least(&["replay 0, over 10^6 turns"], 5);
    least(&["step 0, a begin over 10^9"], 5);
    for entry in ["admit", "replay", "step"] {
        for length in ["empty", "short", "exact", "longer"] {
            least(&[&format!("room of {entry} {length}")], 50);
        }
    }
}

/// Shares of 5,000 cases in which one level of the rank decided.
#[test]
fn cases_spread_over_all_levels_of_the_rank() {
    let figures = gather(8, 5_000);
    let least = |kind: &str, shares: [u64; 5]| {
        let levels = [
            "deadline against period",
            "deadline against number",
            "period along with number",
            "period against number",
            "number",
        ];
        for (level, share) in levels.into_iter().zip(shares) {
            let name = format!("{kind} {level}");
            let count = figures.count(&name);
            assert!(count >= share, "{name}: {count} of at least {share}");
        }
    };
    least("sheet ranked by", [1_400, 400, 750, 750, 1_000]);
    least("replay 0, ordered by", [300, 70, 140, 140, 200]);
    least("step 0, ordered by", [170, 25, 60, 60, 110]);
}

/// Shares of 5,000 cases in which a deadline was met or missed by a tick at
/// most, for short and long waits, and for turns of one message and of several.
#[test]
fn cases_spread_over_both_sides_of_the_late_test() {
    let figures = gather(8, 5_000);
    let least = |names: &[&str], share: u64| least(&figures, names, share);
    least(&["sheet with a stream just in time"], 400);
    least(&["sheet admitted with a stream just in time"], 300);
    least(&["sheet with a stream late by one tick"], 180);
    least(&["sheet refused for a stream late by one tick"], 150);
    least(&["one stream 0, just in time"], 120);
    least(&["one stream 7, late by one tick"], 90);
    for budget in ["budget 1", "budget over 1"] {
        let name = |kind: &str| format!("stream {kind}, {budget}");
        least(&[&name("just in time, J 1")], 150);
        least(&[&name("just in time, J 2 or more")], 300);
        least(&[&name("late by one tick, J 1")], 30);
        least(&[&name("late by one tick, J 2 or more")], 20);
    }
}

/// Shares of 5,000 cases: every kind of jitter, what it does to the question,
/// and what the logs make of it.
#[test]
fn cases_spread_over_all_kinds_of_jitters() {
    let figures = gather(8, 5_000);
    let least = |kind: &str, names: &[&str], shares: &[u64]| {
        assert_eq!(names.len(), shares.len());
        for (name, &share) in names.iter().zip(shares) {
            least(&figures, &[&format!("{kind} {name}")], share);
        }
    };
    let shares = [2_500, 700, 250, 200, 100, 60];
    least("sheet with", &JITTER_NAMES, &shares);
    least("one stream 0,", &IN_TIME_NAMES, &[120, 70]);
    least("one stream 7,", &TOO_LATE_NAMES, &[80, 150, 30, 5]);
    least("replay 0,", &EVENT_NAMES, &[120, 100, 40, 800]);
    for kind in ["just in time", "late by one tick"] {
        let kind = format!("stream {kind},");
        least(&kind, &["J 1, with jitter"], &[80]);
        least(&kind, &["J 2 or more, with jitter"], &[80]);
    }
}

#[test]
fn names_of_what_jitters_do() {
    let names = |words: [u32; 3], node: u32, stream: u32| {
        let sheet = sheet_a_with(&[(11, words[0]), (14, words[1]), (17, words[2])]);
        jitter_names(&sheet, node, stream)
    };
    let [just, more] = IN_TIME_NAMES;
    let [by_one, own, above, both] = TOO_LATE_NAMES;
    for (words, stream, expected) in [
        ([0, 0, 0], 2, &[][..]),
        ([6, 20, 0], 2, &[]),
        ([6, 21, 0], 2, &[just]),
        ([7, 3, 0], 2, &[more]),
        ([7, 4, 0], 2, &[just, more]),
        ([6, 22, 0], 2, &[by_one, own]),
        ([6, 23, 0], 2, &[own]),
        ([7, 5, 0], 2, &[by_one, own, above]),
        ([7, 22, 0], 2, &[own]),
        ([30, 0, 0], 2, &[above]),
        ([30, 22, 0], 2, &[both]),
        ([18, 0, 0], 1, &[just]),
        ([19, 0, 0], 1, &[by_one, own]),
    ] {
        assert_eq!(names(words, 1, stream), expected, "{words:?}");
    }
    // Late without any, not there at all, and refused.
    assert_eq!(jitter_names(&SHEET_P7, 1, 1), [""; 0]);
    assert_eq!(names([0, 0, 0], 1, 3), [""; 0]);
    assert_eq!(names([40, 0, 0], 1, 1), [""; 0]);
}

const LOG_CAUSES: [&str; 6] = [
    "odd length",
    "too many releases",
    "tick too large",
    "falling tick",
    "stream 0",
    "stream too large",
];

const SHEET_CAUSES: [&str; 22] = [
    "1 with 0 words",
    "1 with 1 words",
    "1 with 2 words",
    "2 low",
    "2 high",
    "3 message low",
    "3 message high",
    "3 slot low",
    "3 slot high",
    "4 short contents",
    "4 place",
    "4 stream count",
    "4 budget low",
    "4 budget high",
    "4 bodies too short",
    "4 bodies too long",
    "5 period low",
    "5 period high",
    "5 deadline low",
    "5 deadline above period",
    "5 jitter at period",
    "5 jitter above period",
];

#[test]
fn cases_spread_over_all_causes() {
    let figures = gather(3, 5_000);
    let logs = LOG_CAUSES.map(|cause| [format!("replay 9 {cause}"), format!("step 9 {cause}")]);
    let sheets = SHEET_CAUSES.map(|cause| format!("sheet {cause}"));
    let nodes = (1..=16).map(|nodes| format!("sheet of {nodes:2} nodes"));
    let streams = (0..=16).map(|streams| format!("node of {streams:2} streams"));
    let names = logs.into_iter().flatten().chain(sheets);
    for name in names.chain(nodes).chain(streams) {
        let count = figures.count(&name);
        assert!(count >= 5, "{name}: {count}");
    }
}

#[test]
fn cases_keep_to_their_limits() {
    let figures = gather(4, 5_000);
    let turns = figures.count("most turns of a replay");
    let tries = figures.count("most tries of a sheet");
    assert!((2_000_000..=MOST_TURNS).contains(&turns), "{turns}");
    assert!((50_000..=MOST_TRIES).contains(&tries), "{tries}");
}

#[test]
fn refusals_leave_generated_rooms_and_records() {
    let mut refused = 0;
    for index in 0..3_000 {
        let case = case(7, index);
        let mut room = case.room.clone();
        if admit(&case.sheet, &mut room).number != 0 {
            assert_eq!(room, case.room, "admit {index}");
            refused += 1;
        }
        let mut room = case.room.clone();
        if replay(&case.sheet, &case.log, case.horizon, &mut room).number != 0 {
            assert_eq!(room, case.room, "replay {index}");
            refused += 1;
        }
        let (mut room, mut record) = (case.step_room.clone(), case.record);
        if step(&case.sheet, &case.log, &mut record, &mut room).number != 0 {
            assert_eq!(
                (room, record),
                (case.step_room, case.record),
                "step {index}"
            );
            refused += 1;
        }
    }
    assert!(refused > 1_000, "{refused}");
}

#[test]
fn named_cases_have_names_of_their_own() {
    let names: BTreeSet<_> = named().iter().map(|case| case.0).collect();
    assert_eq!(names.len(), named().len());
    assert!(names.len() >= 20, "{}", names.len());
}

#[test]
fn named_long_searches() {
    let found = named_case("found after millions of tries");
    let given = one_stream(&found.sheet, found.node, found.stream);
    assert_eq!(given.number, 0);
    assert!(given.third > 1_000_000, "{given:?}");
    assert_eq!(given.second, 2 * given.third - 1);
    for name in [
        "demand passes 32 bits, last stream",
        "demand passes 32 bits, first stream",
        "both late, the first of lower priority",
    ] {
        let late = named_case(name);
        assert_eq!(
            one_stream(&late.sheet, late.node, late.stream),
            answer(7, late.node, late.stream),
            "{name}"
        );
    }
}

#[test]
fn named_ranks() {
    let begins = |name: &str| {
        let mut case = named_case(name);
        replay(&case.sheet, &case.log, case.horizon, &mut case.room);
        case.room[..case.log.len() / 2].to_vec()
    };
    // Each stream is released twice; whichever ranks first goes first twice.
    for (name, first) in [
        ("the shorter deadline first", 1),
        ("the shorter period first", 1),
        ("the lower number first", 0),
    ] {
        let mut expected = [12, 12, 18, 18];
        (expected[first], expected[first + 2]) = (0, 6);
        assert_eq!(begins(name), expected, "{name}");
    }
    // Streams 3, 6, .. have the least of both, then come 2, 5, .. and 1, 4, ..
    let order = [3, 6, 9, 12, 15, 2, 5, 8, 11, 14, 1, 4, 7, 10, 13, 16];
    for name in [
        "all levels of the rank at the far end",
        "all levels of the rank at both ends",
    ] {
        let begins = begins(name);
        let mut served: Vec<u32> = (1..=16).collect();
        // Release 1 is of stream 16, and so on down to release 16.
        served.sort_by_key(|&stream| begins[16 - stream as usize]);
        assert_eq!(served, order, "{name}");
    }
}

#[test]
fn named_deliveries() {
    for (name, listed) in [
        ("P2 with two deadlines of 39", (33, 2)),
        ("P7 with 11 11 first", (5, 1)),
        ("first of a turn of two", (16, 1)),
        ("the longest turns", (2_869_999, 1)),
        ("near the last tick", (31_623 * 31_622 - 1, 31_623)),
    ] {
        let case = named_case(&format!("{name}, just in time"));
        let given = one_stream(&case.sheet, case.node, case.stream);
        assert_eq!(given, answer(0, listed.0, listed.1), "{name}");
    }
    for (name, place) in [
        ("P2 with two deadlines of 38", (1, 2)),
        ("P7", (1, 1)),
        ("first of a turn of two", (1, 1)),
        ("the longest turns", (1, 1)),
        ("near the last tick", (1, 1)),
    ] {
        let mut case = named_case(&format!("{name}, late by one"));
        let given = one_stream(&case.sheet, case.node, case.stream);
        assert_eq!(given, answer(7, case.node, case.stream), "{name}");
        let given = admit(&case.sheet, &mut case.room);
        assert_eq!(given, answer(7, place.0, place.1), "{name}");
    }
}

#[test]
fn named_jitters() {
    let ticks = |cycles: u32, cycle: u32| cycles * cycle - 1;
    for (name, wait, cycles) in [
        ("a jitter above, just not counted", 33, 2),
        ("a jitter above, just counted", 50, 3),
        ("fifteen of the longest jitter above", 61, 31),
        ("a rank by the deadline, not by what is left of it", 11, 2),
        ("an own jitter, just in time", 33, 2),
        ("a jitter of the first, just in time", 16, 1),
        ("jitters of a tick", 33, 2),
        ("all jitters, just in time", 50, 3),
        (
            "half wait and half jitter, just in time",
            ticks(31_623, 15_811),
            31_623,
        ),
        (
            "behind the longest jitter, just in time",
            ticks(40_003, 10_000),
            40_003,
        ),
        ("a release close to the one before it", 50, 3),
        ("a release too close to the one before", 50, 3),
    ] {
        let case = named_case(name);
        let given = one_stream(&case.sheet, case.node, case.stream);
        assert_eq!(given, answer(0, wait, cycles), "{name}");
    }
    for name in [
        "a full sheet of the longest jitters",
        "an own jitter, late by one",
        "a jitter of the first, late by one",
        "late for a jitter above",
        "late for both jitters",
        "all jitters, late by one",
        "a jitter just below the deadline",
        "a jitter at the deadline",
        "a jitter just above the deadline",
        "a jitter just below the period",
        "half wait and half jitter, late by one",
        "behind the longest jitter, late by one",
        "a release close before, late by one",
    ] {
        let case = named_case(name);
        let given = one_stream(&case.sheet, case.node, case.stream);
        assert_eq!(given, answer(7, case.node, case.stream), "{name}");
    }
    for (name, place) in [
        ("a jitter at the period", (5, 1, 2)),
        ("the last jitter at the period", (5, 2, 1)),
        ("a jitter of all ones", (5, 1, 1)),
        ("a sheet of two words a stream", (4, 2, 0)),
    ] {
        let (number, node, stream) = place;
        let mut case = named_case(name);
        let given = admit(&case.sheet, &mut case.room);
        assert_eq!(given, answer(number, node, stream), "{name}");
    }
}

/// So that a short comparison meets them all, too.
#[test]
fn named_cases_have_all_kinds_of_jitters() {
    let mut met = BTreeSet::new();
    for (_, case) in named() {
        let Ok(tables) = read_tables(&case.sheet) else {
            continue;
        };
        met.extend(kinds_of_jitters(&tables));
        // The longest searches of all are in sheets without jitter.
        if tables.jitters.iter().any(|&jitter| jitter > 0) {
            met.extend(jitter_names(&case.sheet, case.node, case.stream));
        }
        if replay(&case.sheet, &case.log, 0, &mut case.room.clone()).number == 0 {
            met.extend(event_names(&case));
        }
    }
    let names = [&JITTER_NAMES[..], &IN_TIME_NAMES, &TOO_LATE_NAMES];
    for name in names.concat().iter().chain(&EVENT_NAMES) {
        assert!(met.contains(name), "{name}");
    }
}

#[test]
fn named_far_numbers() {
    let wait = named_case("a wait of nine digits");
    assert_eq!(one_stream(&wait.sheet, 1, 1), answer(0, 334_099_999, 130));
    assert_eq!(admit(&wait.sheet, &mut [0; 2]), answer(0, 2, 2_570_000));
    let replayed = |name: &str| {
        let mut case = named_case(name);
        let given = replay(&case.sheet, &case.log, case.horizon, &mut case.room);
        (given, case.room[..case.log.len() / 2].to_vec())
    };
    let begins = vec![999_999_999, 1_000_000_000, 1_000_000_001, NOT_BEGUN];
    assert_eq!(
        replayed("begins before, at and after the last tick"),
        (answer(0, 333_668, 1_000_002_999), begins)
    );
    let begins = (0..16).map(|message| 999_999_999 + 10_000 * message);
    assert_eq!(
        replayed("a full turn of the longest messages at the end"),
        (answer(0, 333_668, 1_000_162_996), begins.collect())
    );
}

#[test]
#[cfg(not(debug_assertions))]
fn named_searches_up_to_a_far_deadline() {
    for name in ["a J far past the deadline", "no J at all"] {
        let late = named_case(name);
        let given = one_stream(&late.sheet, late.node, late.stream);
        assert_eq!(given, answer(7, late.node, late.stream), "{name}");
    }
}

#[test]
fn named_replays() {
    let replayed = |name: &str| {
        let mut case = named_case(name);
        replay(&case.sheet, &case.log, case.horizon, &mut case.room)
    };
    assert_eq!(
        replayed("ten million silent turns"),
        answer(0, 10_000_000, 10_000_000)
    );
    assert_eq!(
        replayed("sixteen nodes without streams"),
        answer(0, 1_000_000, 1_000_000)
    );
    assert_eq!(replayed("4097 releases"), answer(9, 0, 0));
    assert_eq!(replayed("odd and too long a log"), answer(9, 0, 0));
    assert_eq!(replayed("fault in release 4096"), answer(9, 0, 4_096));
    assert_eq!(
        replayed("greatest record, question and horizon"),
        answer(10, 0, 0)
    );
    assert_eq!(replayed("nothing at all"), answer(1, 0, 0));
    assert_eq!(replayed("every word the greatest"), answer(2, 0, 0));
    assert_eq!(replayed("empty body at a wrong place"), answer(4, 16, 0));
    assert_eq!(
        replayed("a sheet of a hundred thousand words"),
        answer(4, 0, 0)
    );
    // 4,096 messages and 256 slots, then slots alone up to the horizon.
    assert_eq!(replayed("4096 releases at once").number, 0);
}
