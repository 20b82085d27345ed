//! Named cases with jitters: both sides of the late test and of a count in H,
//! the far ends of the range, and logs with releases that come close together.

use super::named::{asking, nodes_alike, plain, Named, SMALL};
use super::sheets::{NodePlan, Plan, StreamPlan};
use super::Case;
use crate::sheet::LAST_TICK;

/// Period, deadline and jitter of each stream.
fn streams(words: &[[u32; 3]]) -> Vec<StreamPlan> {
    let stream = |&[period, deadline, jitter]: &[u32; 3]| StreamPlan {
        period,
        deadline,
        jitter,
    };
    words.iter().map(stream).collect()
}

/// The small sheet with three jitters, and a question about node 1.
fn small(jitters: [u32; 3], stream: u32) -> Case {
    let mut sheet = SMALL.to_vec();
    (sheet[11], sheet[14], sheet[17]) = (jitters[0], jitters[1], jitters[2]);
    asking(plain(sheet, vec![0, 1, 0, 2, 1, 3], 60), 1, stream)
}

/// One node of budget 1 with a cycle of 6 ticks.
fn pair(first: [u32; 3], second: [u32; 3]) -> Case {
    let sheet = nodes_alike(1, [5, 1, 1], &streams(&[first, second]));
    asking(plain(sheet, vec![0, 1, 0, 2, 1, 1, 1, 2], 40), 1, 2)
}

/// The second stream waits for three cycles of 17 ticks, all full, because the
/// first releases twice within 34 ticks: the message of an event before tick 0
/// was queued late. The turn ends at tick 57, which is just in time for an event
/// 4 ticks before the second stream releases at tick 1.
fn bunched(again: u32, jitter: u32) -> Case {
    let first = streams(&[[40, 40, 7], [61, 60, jitter], [100, 100, 0]]);
    let nodes = [(1, first), (2, streams(&[[30, 30, 0]]))];
    let plan = Plan {
        message: 5,
        slot: 1,
        nodes: nodes
            .map(|(budget, streams)| NodePlan { budget, streams })
            .into(),
    };
    let full = [0, 4].repeat(8);
    let log = [&[0, 3][..], &full, &[1, 1, 1, 2, again, 1]].concat();
    asking(plain(plan.words(), log, 100), 1, 2)
}

/// One node of budget 1 and a cycle of so many ticks. A stream above with a
/// period of a cycle and a tick, and a jitter of a cycle, leaves a turn free
/// after 2 C + 1 cycles; another with the longest jitter makes it 4 C + 3.
fn far(ticks: [u32; 2], others: &[[u32; 3]], jitter: u32) -> Case {
    let cycle = ticks[0] + ticks[1];
    let own = [LAST_TICK, LAST_TICK, jitter];
    let all = [&[own, [cycle + 1, 1, cycle]], others].concat();
    let sheet = nodes_alike(1, [ticks[0], ticks[1], 1], &streams(&all));
    plain(sheet, vec![0, 1, 0, 2], 100_000)
}

fn counts() -> Vec<Named> {
    let longest = [LAST_TICK, LAST_TICK, LAST_TICK - 1];
    let mut fifteen = vec![longest; 15];
    fifteen.push([LAST_TICK, LAST_TICK, 0]);
    let fifteen = nodes_alike(1, [1, 1, 1], &streams(&fifteen));
    vec![
        ("a jitter above, just not counted", small([6, 0, 0], 2)),
        ("a jitter above, just counted", small([7, 0, 0], 2)),
        (
            "fifteen of the longest jitter above",
            asking(plain(fifteen, vec![0, 16], 1_000), 1, 16),
        ),
        (
            "a full sheet of the longest jitters",
            plain(
                nodes_alike(16, [10_000, 10_000, 16], &streams(&[longest; 16])),
                vec![0, 256],
                1_000,
            ),
        ),
        (
            "a rank by the deadline, not by what is left of it",
            pair([60, 40, 0], [60, 41, 10]),
        ),
    ]
}

fn late_tests() -> Vec<Named> {
    let short = |jitter: u32| pair([60, 40, 0], [60, 30, jitter]);
    let half = |jitter: u32| far([10_000, 5_811], &[], jitter);
    let longest = [LAST_TICK, 1, LAST_TICK - 1];
    let further = |jitter: u32| far([9_000, 1_000], &[longest], jitter);
    vec![
        ("an own jitter, just in time", small([0, 21, 0], 2)),
        ("an own jitter, late by one", small([0, 22, 0], 2)),
        ("a jitter of the first, just in time", small([18, 0, 0], 1)),
        ("a jitter of the first, late by one", small([19, 0, 0], 1)),
        ("jitters of a tick", small([1, 1, 1], 2)),
        ("late for a jitter above", small([30, 0, 0], 2)),
        ("late for both jitters", small([30, 22, 0], 2)),
        ("all jitters, just in time", small([18, 4, 3], 2)),
        ("all jitters, late by one", small([18, 5, 3], 2)),
        ("a jitter just below the deadline", short(29)),
        ("a jitter at the deadline", short(30)),
        ("a jitter just above the deadline", short(31)),
        ("a jitter just below the period", short(59)),
        ("half wait and half jitter, just in time", half(499_992_937)),
        ("half wait and half jitter, late by one", half(499_992_938)),
        (
            "behind the longest jitter, just in time",
            further(599_960_001),
        ),
        (
            "behind the longest jitter, late by one",
            further(599_960_002),
        ),
    ]
}

pub(super) fn jitters() -> Vec<Named> {
    let logs = vec![
        ("a release close to the one before it", bunched(34, 4)),
        ("a release too close to the one before", bunched(33, 4)),
        ("a release close before, late by one", bunched(34, 5)),
    ];
    [counts(), late_tests(), logs].concat()
}
