//! Named cases with a node that the streams above one nearly fill, fill exactly
//! or overfill.

use super::named::{asking, one_node, plain, Named};
use super::sheets::{steady, NodePlan, Plan};
use super::Case;
use crate::sheet::LAST_TICK;

/// One node, in which the first stream is below all others. Those have the
/// least deadline, so that they are late.
fn lowest_first(ticks: (u32, u32), budget: u32, above: &[u32], deadline: u32) -> Case {
    let mut streams = vec![(LAST_TICK, deadline)];
    streams.extend(above.iter().map(|&period| (period, 1)));
    let sheet = one_node(ticks.0, ticks.1, budget, &streams);
    plain(sheet, vec![0, 1, 0, 2], 1_000)
}

/// A cycle of 6 ticks and a budget of 1.
fn sixths(above: &[u32], deadline: u32) -> Case {
    lowest_first((5, 1), 1, above, deadline)
}

/// A cycle of 96 ticks and a budget of 16, which fifteen periods of 90 fill.
fn fifteen(other: u32, deadline: u32) -> Case {
    let mut above = [90; 15];
    above[7] = other;
    lowest_first((5, 16), 16, &above, deadline)
}

/// A node of budget 1 next to so many others of budget 16, with a cycle of 19
/// ticks for 1 of them and of 257 for 15. All but the last stream are in time.
fn in_time(others: usize, streams: &[(u32, u32)]) -> Case {
    let mut nodes = vec![NodePlan {
        budget: 1,
        streams: steady(streams),
    }];
    nodes.resize_with(1 + others, || NodePlan {
        budget: 16,
        streams: vec![],
    });
    let plan = Plan {
        message: 1,
        slot: 1,
        nodes,
    };
    let number = streams.len() as u32;
    asking(plain(plan.words(), vec![0, 1, 0, number], 1_000), 1, number)
}

pub(super) fn full_nodes() -> Vec<Named> {
    let slow = [12, 18, 37, LAST_TICK, LAST_TICK, LAST_TICK];
    let far = |deadline: u32| {
        let above = [(258, 258), (67_000, 67_000)];
        in_time(15, &[&above[..], &[(LAST_TICK, deadline)]].concat())
    };
    vec![
        (
            "a half, a third and a sixth, full",
            sixths(&[12, 18, 36], 600_000),
        ),
        (
            "a half, a quarter and two eighths, full",
            sixths(&[12, 24, 48, 48], 600_000),
        ),
        ("one stream, full", sixths(&[6], 600_000)),
        (
            "a half, a third and nearly a sixth, just in time",
            sixths(&[12, 18, 37], 222 * 6 - 1 + 6),
        ),
        (
            "a half, a third and nearly a sixth, late by one",
            sixths(&[12, 18, 37], 222 * 6 - 1 + 5),
        ),
        (
            "slow streams in a node nearly full, just in time",
            sixths(&slow, 888 * 6 - 1 + 6),
        ),
        (
            "slow streams in a node nearly full, late by one",
            sixths(&slow, 888 * 6 - 1 + 5),
        ),
        ("fifteen equal streams, full", fifteen(90, 5_000_000)),
        (
            "fifteen equal streams but for a tick, overfull",
            fifteen(89, 5_000_000),
        ),
        (
            "fifteen equal streams but for a tick, just in time",
            fifteen(91, 90 * 96 - 1 + 96),
        ),
        (
            "fifteen equal streams but for a tick, late by one",
            fifteen(91, 90 * 96 - 1 + 95),
        ),
        (
            "a J of twenty",
            in_time(1, &[(20, 20), (LAST_TICK, LAST_TICK)]),
        ),
        (
            "a far J with all in time, just in time",
            far(25_026 * 257 - 1 + 2),
        ),
        (
            "a far J with all in time, late by one",
            far(25_026 * 257 - 1 + 1),
        ),
    ]
}
