//! Named cases: the far ends of every range, both sides of the late test, and a
//! few that go beyond the limits which the generated ones keep to.

use super::named_full::full_nodes;
use super::named_jitters::jitters;
use super::sheets::{steady, NodePlan, Plan, StreamPlan};
use super::Case;
use crate::sheet::LAST_TICK;
use crate::{Record, NOT_BEGUN};

pub(super) type Named = (&'static str, Case);

/// Two nodes, three streams, a cycle of 17 ticks.
pub(super) const SMALL: [u32; 18] = [2, 5, 1, 9, 2, 1, 15, 1, 2, 40, 40, 0, 60, 60, 0, 30, 30, 0];

fn fresh() -> Record {
    Record {
        tick: 0,
        node: 1,
        turns: 0,
    }
}

/// Rooms are long enough for whatever the sheet and log hold.
pub(super) fn plain(sheet: Vec<u32>, log: Vec<u32>, horizon: u32) -> Case {
    let words = 256.max(log.len().div_ceil(2));
    Case {
        sheet,
        log,
        horizon,
        node: 1,
        stream: 1,
        record: fresh(),
        room: vec![7; words],
        step_room: vec![NOT_BEGUN; words],
    }
}

pub(super) fn asking(mut case: Case, node: u32, stream: u32) -> Case {
    case.node = node;
    case.stream = stream;
    case
}

pub(super) fn one_node(message: u32, slot: u32, budget: u32, streams: &[(u32, u32)]) -> Vec<u32> {
    nodes_alike(1, [message, slot, budget], &steady(streams))
}

fn sixteen(message: u32, slot: u32, budget: u32, streams: &[(u32, u32)]) -> Vec<u32> {
    nodes_alike(16, [message, slot, budget], &steady(streams))
}

/// So many nodes with the same budget and streams.
pub(super) fn nodes_alike(count: usize, words: [u32; 3], streams: &[StreamPlan]) -> Vec<u32> {
    let [message, slot, budget] = words;
    let node = || NodePlan {
        budget,
        streams: streams.to_vec(),
    };
    Plan {
        message,
        slot,
        nodes: (0..count).map(|_| node()).collect(),
    }
    .words()
}

fn releases(count: usize, release: impl Fn(u32) -> [u32; 2]) -> Vec<u32> {
    (0..count as u32).flat_map(release).collect()
}

/// More turns than a generated replay has.
fn many_turns() -> Vec<Named> {
    let end_log = vec![0, 1, 999_999_990, 3, LAST_TICK, 2];
    vec![
        (
            "ten million silent turns",
            plain(SMALL.to_vec(), vec![], 10_000_000),
        ),
        (
            "a thousand million silent turns",
            plain(SMALL.to_vec(), vec![], LAST_TICK),
        ),
        (
            "a release after ten million turns",
            plain(SMALL.to_vec(), vec![9_999_990, 3], 10_000_000),
        ),
        (
            "releases up to the last tick",
            plain(sixteen(10_000, 9_999, 16, &[(5, 5)]), end_log, LAST_TICK),
        ),
    ]
}

/// More tries of J than a generated sheet takes. The budget is 1 and the cycle
/// 2 ticks, so the streams above need 2 / period of it each.
fn many_tries() -> Vec<Named> {
    let last = |above: &[(u32, u32)], deadline: u32| {
        let streams = [above, &[(LAST_TICK, deadline)]].concat();
        let number = streams.len() as u32;
        let sheet = one_node(1, 1, 1, &streams);
        asking(plain(sheet, vec![0, number], 1_000), 1, number)
    };
    // 2/3 + 2/7 + 2/43 + 2/1807 is just under 1, and with 2/3263443 more it
    // still is, by next to nothing.
    let above = [(3, 3), (7, 7), (43, 43), (1_807, 1_807), (3_263_443, 9)];
    vec![
        (
            "found after millions of tries",
            last(&above[..4], LAST_TICK),
        ),
        ("a J far past the deadline", last(&above, 100_000_000)),
        ("no J at all", last(&[(2, 2)], 200_000_000)),
    ]
}

fn demand_past_32_bits() -> Vec<Named> {
    // 15 × 2,000 × 143,166 is 2^32 + 12,704.
    let mut streams = vec![(1, 1); 15];
    streams.push((LAST_TICK, LAST_TICK));
    let sheet = one_node(8_900, 766, 16, &streams);
    let full = asking(plain(sheet, vec![], 1_000_000), 1, 16);
    streams.rotate_right(1);
    let first = plain(one_node(8_900, 766, 16, &streams), vec![0, 1], 1_000_000);
    vec![
        ("demand passes 32 bits, last stream", full),
        ("demand passes 32 bits, first stream", first),
    ]
}

/// Begins around the last tick: silent slots of 2,997 ticks come to tick
/// 999,999,999.
fn late_begins() -> Vec<Named> {
    let end = LAST_TICK - 1;
    let around = vec![end, 1, end, 1, end, 1, LAST_TICK, 1];
    let full = releases(16, |_| [end, 1]);
    vec![
        (
            "begins before, at and after the last tick",
            plain(one_node(1, 2_997, 16, &[(9, 9)]), around, LAST_TICK),
        ),
        (
            "a full turn of the longest messages at the end",
            plain(one_node(10_000, 2_997, 16, &[(9, 9)]), full, LAST_TICK),
        ),
    ]
}

/// A stream in time after 130 cycles of 2,570,000 ticks. The one above has the
/// least period with which it is in time itself.
fn long_wait() -> Vec<Named> {
    let least = 2_570_000 - 1 + 20_000;
    let mut nodes = vec![NodePlan {
        budget: 1,
        streams: steady(&[(LAST_TICK, LAST_TICK), (least, least)]),
    }];
    nodes.resize_with(16, || NodePlan {
        budget: 16,
        streams: vec![],
    });
    let plan = Plan {
        message: 10_000,
        slot: 10_000,
        nodes,
    };
    let case = plain(plan.words(), vec![0, 1, 0, 2], 1_000_000);
    vec![("a wait of nine digits", case)]
}

fn large_sheets() -> Vec<Named> {
    let far = [(LAST_TICK, LAST_TICK); 16];
    let spread = releases(4_096, |release| [release / 256, release % 256 + 1]);
    let busy = plain(sixteen(10_000, 10_000, 16, &far), spread, LAST_TICK);
    let mut ends = [(LAST_TICK, 1); 16];
    ends[0] = (1, 1);
    vec![
        ("sixteen nodes of sixteen, all largest", busy),
        (
            "sixteen nodes of sixteen, all smallest",
            plain(sixteen(1, 1, 1, &[(1, 1); 16]), vec![0, 256], 10_000),
        ),
        (
            "sixteen nodes of sixteen, mixed ends",
            asking(plain(sixteen(1, 10_000, 16, &ends), vec![], 1), 16, 16),
        ),
        (
            "sixteen nodes without streams",
            plain(sixteen(1, 1, 1, &[]), vec![], 1_000_000),
        ),
        (
            "a sheet of a hundred thousand words",
            plain([&SMALL[..], &[30; 100_000]].concat(), vec![], 1),
        ),
    ]
}

fn large_logs() -> Vec<Named> {
    let slow = one_node(10_000, 10_000, 16, &[(1, 1), (1, 1)]);
    let at_once = releases(4_096, |release| [0, release % 2 + 1]);
    let last_tick = releases(4_096, |_| [LAST_TICK, 1]);
    let too_many = releases(4_097, |_| [0, 1]);
    let mut odd_and_too_many = too_many.clone();
    odd_and_too_many.push(0);
    let mut late_fault = at_once.clone();
    late_fault[8_191] = 3;
    let mut far_record = plain(slow.clone(), at_once.clone(), LAST_TICK);
    far_record.record = Record {
        tick: LAST_TICK,
        node: 1,
        turns: LAST_TICK,
    };
    vec![
        ("4096 releases at once", far_record),
        (
            "4096 releases at the last tick",
            plain(slow.clone(), last_tick, LAST_TICK),
        ),
        ("4097 releases", plain(slow.clone(), too_many, 10)),
        (
            "odd and too long a log",
            plain(slow.clone(), odd_and_too_many, 10),
        ),
        ("fault in release 4096", plain(slow, late_fault, 10)),
    ]
}

fn refused() -> Vec<Named> {
    let mut empty = plain(vec![], vec![], 0);
    empty.room.clear();
    empty.step_room.clear();
    let mut greatest = plain(SMALL.to_vec(), vec![0, 1], u32::MAX);
    greatest.record = Record {
        tick: u32::MAX,
        node: u32::MAX,
        turns: u32::MAX,
    };
    let mut wrong_empty_body = sixteen(1, 1, 1, &[]);
    wrong_empty_body[3 + 3 * 15] += 1;
    let words = vec![u32::MAX; 600];
    vec![
        ("nothing at all", empty),
        (
            "every word the greatest",
            asking(plain(words.clone(), words, u32::MAX), u32::MAX, u32::MAX),
        ),
        (
            "greatest record, question and horizon",
            asking(greatest, u32::MAX, u32::MAX),
        ),
        (
            "empty body at a wrong place",
            plain(wrong_empty_body, vec![], 5),
        ),
        (
            "both late, the first of lower priority",
            plain(
                one_node(5, 1, 1, &[(100, 10), (9, 9)]),
                vec![0, 1, 0, 2],
                50,
            ),
        ),
    ]
}

/// One word of a good sheet just out of its range.
fn out_of_range() -> Vec<Named> {
    let small_with = |place: usize, word: u32| {
        let mut sheet = SMALL.to_vec();
        sheet[place] = word;
        plain(sheet, vec![0, 1], 40)
    };
    let old = vec![2, 5, 1, 9, 2, 1, 13, 1, 2, 40, 40, 60, 60, 30, 30];
    vec![
        ("seventeen nodes", small_with(0, 17)),
        ("a slot of 10001 ticks", small_with(2, 10_001)),
        ("a deadline above the period", small_with(13, 61)),
        ("a jitter at the period", small_with(14, 60)),
        ("the last jitter at the period", small_with(17, 30)),
        ("a jitter of all ones", small_with(11, u32::MAX)),
        ("a sheet of two words a stream", plain(old, vec![0, 1], 40)),
    ]
}

/// Two streams ordered by one level of the rank, and full nodes with all
/// levels at the ends of the ranges.
fn ranks() -> Vec<Named> {
    let pair = |first: (u32, u32), second: (u32, u32)| {
        let sheet = one_node(5, 1, 1, &[first, second]);
        plain(sheet, vec![0, 1, 0, 2, 1, 1, 1, 2], 40)
    };
    let full = |streams: [(u32, u32); 3]| {
        let streams: Vec<_> = streams.into_iter().cycle().take(16).collect();
        let log = releases(16, |release| [0, 16 - release]);
        plain(one_node(7, 1, 5, &streams), log, 1_000)
    };
    let (far, near) = (LAST_TICK, LAST_TICK - 1);
    vec![
        ("the shorter deadline first", pair((40, 40), (60, 37))),
        ("the shorter period first", pair((60, 40), (50, 40))),
        ("the lower number first", pair((50, 40), (50, 40))),
        (
            "all levels of the rank at the far end",
            full([(far, far), (far, near), (near, near)]),
        ),
        (
            "all levels of the rank at both ends",
            full([(far, 2), (far, 1), (1, 1)]),
        ),
    ]
}

/// Streams that are delivered just at their deadline, and one tick after it.
/// Some of the logs have such a message.
fn deliveries() -> Vec<Named> {
    let p2 = |deadline: u32| {
        let mut sheet = SMALL.to_vec();
        (sheet[10], sheet[13]) = (deadline, deadline);
        asking(plain(sheet, vec![0, 1, 0, 2, 1, 3], 60), 1, 2)
    };
    let p7 = |first: u32| {
        let sheet = one_node(5, 1, 1, &[(first, first), (100, 100)]);
        plain(sheet, vec![0, 2, 1, 1], 40)
    };
    let first_of_two = |deadline: u32| {
        let nodes = [(2, vec![(100, deadline), (100, 100)]), (1, vec![(30, 30)])];
        let nodes = nodes.map(|(budget, streams)| NodePlan {
            budget,
            streams: steady(&streams),
        });
        let plan = Plan {
            message: 5,
            slot: 1,
            nodes: nodes.into(),
        };
        plain(plan.words(), vec![0, 2, 0, 2, 0, 2, 0, 3, 1, 1], 40)
    };
    let longest = |deadline: u32| {
        let sheet = sixteen(10_000, 10_000, 16, &[(LAST_TICK, deadline); 16]);
        // Two full turns of each node's last stream, then one of the first.
        let full = releases(512, |release| [0, release % 16 * 16 + 16]);
        let log = [full, vec![1, 1]].concat();
        asking(plain(sheet, log, 3_000_000), 16, 16)
    };
    // 31,623 cycles of 31,622 ticks; the other leaves no turn free before.
    let last_cycle = |deadline: u32| {
        let streams = vec![(LAST_TICK, deadline), (31_623, 1)];
        let nodes = [streams, vec![]].map(|streams| NodePlan {
            budget: 1,
            streams: steady(&streams),
        });
        let plan = Plan {
            message: 10_000,
            slot: 5_811,
            nodes: nodes.into(),
        };
        plain(plan.words(), vec![0, 1, 0, 2], 100_000)
    };
    vec![
        ("P2 with two deadlines of 39, just in time", p2(39)),
        ("P2 with two deadlines of 38, late by one", p2(38)),
        ("P7 with 11 11 first, just in time", p7(11)),
        ("P7, late by one", p7(10)),
        ("first of a turn of two, just in time", first_of_two(27)),
        ("first of a turn of two, late by one", first_of_two(26)),
        ("the longest turns, just in time", longest(2_889_999)),
        ("the longest turns, late by one", longest(2_889_998)),
        ("near the last tick, just in time", last_cycle(999_998_316)),
        ("near the last tick, late by one", last_cycle(999_998_315)),
    ]
}

pub fn named() -> Vec<Named> {
    [
        many_turns(),
        many_tries(),
        demand_past_32_bits(),
        late_begins(),
        long_wait(),
        large_sheets(),
        large_logs(),
        refused(),
        out_of_range(),
        ranks(),
        deliveries(),
        full_nodes(),
        jitters(),
    ]
    .concat()
}
