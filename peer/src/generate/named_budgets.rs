//! Named cases for the search for budgets: rows and refusals of every kind, and
//! the far ends of the ranges.

use super::budgets::BudgetsCase;
use super::named::SMALL;
use super::sheets::{steady, NodePlan, Plan, StreamPlan};
use crate::sheet::LAST_TICK;

type Named = (&'static str, BudgetsCase);

/// Period and deadline of each stream of a node.
type Streams = Vec<(u32, u32)>;

fn in_room(length: u32, sheet: Vec<u32>) -> BudgetsCase {
    let room = (0..length).map(|place| 3_000_000_000 + place).collect();
    BudgetsCase { sheet, room }
}

/// Each node has the same budget in the sheet, and the room two words more than
/// a row.
fn nodes(message: u32, slot: u32, budget: u32, nodes: &[Streams]) -> BudgetsCase {
    let nodes: Vec<_> = nodes.iter().map(|streams| steady(streams)).collect();
    jittery(message, slot, budget, nodes)
}

/// The same with jitters.
fn jittery(message: u32, slot: u32, budget: u32, nodes: Vec<Vec<StreamPlan>>) -> BudgetsCase {
    let nodes = nodes.into_iter();
    let plan = Plan {
        message,
        slot,
        nodes: nodes.map(|streams| NodePlan { budget, streams }).collect(),
    };
    in_room(18, plan.words())
}

/// Messages and slots of one tick, and one stream a node.
fn single(deadlines: &[u32]) -> BudgetsCase {
    let streams: Vec<Streams> = deadlines.iter().map(|&it| vec![(1_000, it)]).collect();
    nodes(1, 1, 7, &streams)
}

fn sixteen(message: u32, slot: u32, budget: u32, streams: Streams) -> BudgetsCase {
    nodes(message, slot, budget, &vec![streams; 16])
}

/// Sixteen nodes that come to 8 together and then to 16 one after the other,
/// from the last to the first: 135 rounds. Messages take a tick and slots 20,
/// so that a cycle is the sum of the budgets and 320. The shorter deadline of
/// the ninth node is given; 611 is the least that is met in the end.
fn one_by_one(ninth: u32) -> BudgetsCase {
    let node = |place: u32| {
        let first = if place == 8 { ninth } else { 611 };
        // Late with 8 as soon as those after it have come to 16.
        let cycle = 128 + 8 * (15 - place) + 320;
        let second = 2 * cycle - 1 + 28 - 1;
        [vec![(2_000, first); 8], vec![(2_000, second); 8]].concat()
    };
    let streams: Vec<Streams> = (0..16).map(node).collect();
    nodes(1, 20, 3, &streams)
}

fn rows() -> Vec<Named> {
    let far = (LAST_TICK, LAST_TICK);
    vec![
        ("all ones", in_room(16, SMALL.to_vec())),
        ("one node without streams", nodes(1, 1, 16, &[vec![]])),
        (
            "sixteen nodes without streams",
            sixteen(10_000, 10_000, 16, vec![]),
        ),
        (
            "sixteen nodes of sixteen, all largest",
            sixteen(10_000, 10_000, 16, vec![far; 16]),
        ),
        (
            "the longest turns, just in time",
            sixteen(10_000, 10_000, 1, vec![(LAST_TICK, 2_889_999); 16]),
        ),
        ("one by one to 16, just in time", one_by_one(611)),
        (
            "one node that needs 2",
            nodes(1, 9, 16, &[vec![(60, 21), (60, 21)]]),
        ),
        (
            "empty nodes around one that needs 3",
            nodes(1, 9, 5, &[vec![], vec![(90, 59); 3], vec![]]),
        ),
        ("a jitter of 8 that 1 allows", last_of_two(8)),
        ("a jitter of 9 that takes 2", last_of_two(9)),
        ("a jitter of 16 that takes 2", last_of_two(16)),
        ("a jitter of 15 above that 1 allows", first_of_three(15)),
        ("a jitter of 16 above that takes 2", first_of_three(16)),
    ]
}

/// One node with streams of this deadline, in the order of their rank; cycles
/// of 10 ticks with budget 1, and of 11 with 2.
fn alike(deadline: u32, streams: &[(u32, u32)]) -> BudgetsCase {
    let streams = streams.iter().map(|&(period, jitter)| StreamPlan {
        period,
        deadline,
        jitter,
    });
    jittery(1, 9, 16, vec![streams.collect()])
}

/// The second waits for two cycles with 1, and for one with 2.
fn last_of_two(jitter: u32) -> BudgetsCase {
    alike(37, &[(37, 0), (90, jitter)])
}

/// With 1 the third waits for three cycles, or for one more if the first can
/// release twice within those.
fn first_of_three(jitter: u32) -> BudgetsCase {
    alike(45, &[(45, jitter), (60, 0), (90, 0)])
}

fn no_rows() -> Vec<Named> {
    // Needs 16 and has enough of it, beside one that is always late.
    let at_sixteen = vec![vec![(2_000, 257); 16], vec![(2_000, 1)]];
    vec![
        (
            "sixteen nodes of sixteen, all smallest",
            sixteen(1, 1, 1, vec![(1, 1); 16]),
        ),
        (
            "the longest turns, late by one",
            sixteen(10_000, 10_000, 16, vec![(LAST_TICK, 2_889_998); 16]),
        ),
        ("one by one to 16, late by one", one_by_one(610)),
        ("both late in every round", single(&[4, 4])),
        ("the second late first", single(&[5, 4])),
        ("the first late first", single(&[4, 5])),
        (
            // The first needs 2, which makes the second late, a round after
            // the third.
            "the third late a round before the second",
            nodes(1, 1, 1, &[vec![(99, 12); 2], vec![(99, 7)], vec![(99, 6)]]),
        ),
        (
            "behind one that is in time at 16",
            nodes(1, 70, 2, &at_sixteen),
        ),
        ("a jitter of 17 that no row allows", last_of_two(17)),
        ("a jitter at the deadline", last_of_two(37)),
        ("a jitter above the deadline", last_of_two(89)),
        (
            "more only makes it later",
            nodes(10_000, 10_000, 16, &[vec![(29_998, 29_998)]]),
        ),
    ]
}

fn refused() -> Vec<Named> {
    let small_with = |place: usize, word: u32| {
        let mut sheet = SMALL.to_vec();
        sheet[place] = word;
        in_room(15, sheet)
    };
    let words = vec![u32::MAX; 600];
    vec![
        ("nothing at all", in_room(0, vec![])),
        ("every word the greatest", in_room(16, words)),
        ("a slot of 10001 ticks, a short room", small_with(2, 10_001)),
        ("a budget of 0, a short room", small_with(5, 0)),
        ("a budget of 17, a short room", small_with(8, 17)),
        ("a deadline of 0, a short room", small_with(13, 0)),
        ("a jitter of 60, a short room", small_with(14, 60)),
        ("a good sheet, no room", in_room(0, SMALL.to_vec())),
        ("a good sheet, a room of 2", in_room(2, SMALL.to_vec())),
        ("a good sheet, a room of 15", in_room(15, SMALL.to_vec())),
        (
            "no row and a room of 15",
            in_room(15, single(&[4, 4]).sheet),
        ),
        (
            "a sheet of a hundred thousand words",
            in_room(16, [&SMALL[..], &[30; 100_000]].concat()),
        ),
        (
            "a room of a hundred thousand words",
            in_room(100_000, SMALL.to_vec()),
        ),
    ]
}

pub fn named_budgets() -> Vec<Named> {
    [rows(), no_rows(), refused()].concat()
}
