//! Named cases for the replay with stream records.

use super::named::SMALL;
use super::records::RecordsCase;
use super::sheets::{steady, NodePlan, Plan};
use crate::sheet::LAST_TICK;
use crate::{StreamRecord, NOT_BEGUN};

type Named = (&'static str, RecordsCase);

/// Records that are in nobody's way and in nobody's account.
fn list(length: u32) -> Vec<StreamRecord> {
    let record = |place| StreamRecord {
        begun: 3_000_000_000 + place,
        longest: 3_000_001_000 + place,
        over: 3_000_002_000 + place,
    };
    (0..length).map(record).collect()
}

/// With a room of a word more than the releases, and a list of so many records.
fn case(sheet: Vec<u32>, log: &[u32], horizon: u32, records: u32) -> RecordsCase {
    RecordsCase {
        sheet,
        log: log.to_vec(),
        horizon,
        room: vec![NOT_BEGUN - 7; log.len() / 2 + 1],
        records: list(records),
    }
}

/// One node with messages of 5 and slots of 1 tick and a budget of 1.
fn one_node(streams: &[(u32, u32)]) -> Vec<u32> {
    let nodes = vec![NodePlan {
        budget: 1,
        streams: steady(streams),
    }];
    Plan {
        message: 5,
        slot: 1,
        nodes,
    }
    .words()
}

/// Sixteen nodes with the longest messages and slots; the first alone sends.
fn slowest() -> Vec<u32> {
    let node = |streams: &[(u32, u32)]| NodePlan {
        budget: 1,
        streams: steady(streams),
    };
    let mut nodes = vec![node(&[(LAST_TICK, LAST_TICK)])];
    nodes.extend((1..16).map(|_| node(&[])));
    Plan {
        message: 10_000,
        slot: 10_000,
        nodes,
    }
    .words()
}

/// So many releases of stream 1 at one tick.
fn burst(count: usize, tick: u32) -> Vec<u32> {
    [tick, 1].repeat(count)
}

pub fn named_records() -> Vec<Named> {
    let sheet = SMALL.to_vec();
    // A cycle of 6 ticks: the first waits 5 at most; the second needs two
    // cycles, and is late.
    let late = one_node(&[(20, 12), (20, 16)]);
    let single = one_node(&[(20, 20)]);
    vec![
        (
            "P9 with records",
            case(sheet.clone(), &[0, 1, 0, 2, 1, 3], 40, 3),
        ),
        (
            "P10 with records",
            case(sheet.clone(), &[0, 1, 0, 2, 1, 3], 12, 3),
        ),
        (
            "P11 with records",
            case(sheet.clone(), &[0, 2, 0, 3, 0, 3, 1, 1], 18, 4),
        ),
        (
            "P12 with records",
            case(sheet.clone(), &[0, 1, 0, 2, 1, 3], 0, 5),
        ),
        (
            "no log, a list to be zeroed",
            case(sheet.clone(), &[], 1_000, 3),
        ),
        (
            "a list one record short",
            case(sheet.clone(), &[0, 1], 100, 2),
        ),
        ("no list", case(sheet, &[0, 1], 100, 0)),
        (
            "no streams and no list",
            case(vec![1, 5, 1, 6, 0, 1], &[], 100, 0),
        ),
        (
            "no streams and a list",
            case(vec![1, 5, 1, 6, 0, 1], &[], 100, 2),
        ),
        (
            "a wait as long as listed",
            case(single.clone(), &[0, 1, 1, 1], 100, 1),
        ),
        (
            "a wait longer than listed",
            case(single.clone(), &[0, 1, 0, 1], 100, 1),
        ),
        ("a burst", case(single, &burst(40, 3), 1_000, 256)),
        (
            "the longest log at once on the slowest bus",
            case(slowest(), &burst(4_096, 0), LAST_TICK, 1),
        ),
        (
            "a late stream that waits long",
            case(late.clone(), &[0, 2, 0, 2, 0, 2], 100, 2),
        ),
        (
            "a late stream beside one over",
            case(late, &[0, 1, 0, 1, 0, 1, 0, 2], 100, 3),
        ),
    ]
}
