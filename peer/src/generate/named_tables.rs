//! Named tables: the far ends of every range and every length, and each
//! refusal with all the later ones after it.

use super::tables::TablesCase;
use crate::sheet::LAST_TICK;
use crate::Tables;

type Named = (&'static str, TablesCase);

fn in_room(length: u32, tables: Tables) -> TablesCase {
    let room = (0..length).map(|place| 3_000_000_000 + place).collect();
    TablesCase { tables, room }
}

/// A sheet of two nodes and three streams, in a room with five words more.
fn small() -> TablesCase {
    let tables = Tables {
        message_ticks: 5,
        slot_ticks: 1,
        counts: vec![2, 1],
        budgets: vec![1, 2],
        periods: vec![40, 60, 30],
        deadlines: vec![40, 60, 30],
        jitters: vec![0, 59, 29],
    };
    in_room(23, tables)
}

fn small_but(change: impl FnOnce(&mut Tables)) -> TablesCase {
    let mut case = small();
    change(&mut case.tables);
    case
}

/// The same in every node and stream, with an exact room.
fn uniform(nodes: usize, count: u32, words: [u32; 6]) -> TablesCase {
    let [message_ticks, slot_ticks, budget, period, deadline, jitter] = words;
    let streams = nodes * count as usize;
    let tables = Tables {
        message_ticks,
        slot_ticks,
        counts: vec![count; nodes],
        budgets: vec![budget; nodes],
        periods: vec![period; streams],
        deadlines: vec![deadline; streams],
        jitters: vec![jitter; streams],
    };
    in_room((3 + 3 * nodes + 3 * streams) as u32, tables)
}

const LEAST: [u32; 6] = [1, 1, 1, 1, 1, 0];
const MOST: [u32; 6] = [10_000, 10_000, 16, LAST_TICK, LAST_TICK, LAST_TICK - 1];

fn sheets() -> Vec<Named> {
    let last_only = small_but(|tables| {
        tables.counts = [vec![0; 15], vec![3]].concat();
        tables.budgets = (1..=16).collect();
    });
    vec![
        ("two nodes", small()),
        ("two nodes, exact room", in_room(18, small().tables)),
        (
            "two nodes without jitter",
            small_but(|tables| tables.jitters = vec![0; 3]),
        ),
        (
            "two nodes with jitters next to the deadlines",
            small_but(|tables| {
                tables.deadlines = vec![40, 20, 10];
                tables.jitters = vec![1, 20, 11];
            }),
        ),
        ("one node without streams", uniform(1, 0, LEAST)),
        ("sixteen nodes without streams", uniform(16, 0, MOST)),
        ("one full node", uniform(1, 16, MOST)),
        (
            "streams in the last node alone",
            in_room(60, last_only.tables),
        ),
        ("a full sheet of the least words", uniform(16, 16, LEAST)),
        ("a full sheet of the greatest words", uniform(16, 16, MOST)),
    ]
}

fn lengths() -> Vec<Named> {
    let many = || vec![1; 100_000];
    vec![
        ("nothing at all", in_room(0, uniform(0, 0, [0; 6]).tables)),
        ("no node, all else right", uniform(0, 0, LEAST)),
        ("seventeen nodes, all else right", uniform(17, 16, MOST)),
        (
            "a hundred thousand counts",
            small_but(|tables| tables.counts = many()),
        ),
        (
            "a hundred thousand budgets",
            small_but(|tables| tables.budgets = many()),
        ),
        (
            "a hundred thousand periods",
            small_but(|tables| tables.periods = many()),
        ),
        (
            "a hundred thousand deadlines",
            small_but(|tables| tables.deadlines = many()),
        ),
        (
            "a hundred thousand jitters",
            small_but(|tables| tables.jitters = many()),
        ),
        (
            "a room of a hundred thousand words",
            in_room(100_000, small().tables),
        ),
        (
            "no deadlines but twice the periods",
            small_but(|tables| tables.periods.append(&mut tables.deadlines)),
        ),
        ("no jitters", small_but(|tables| tables.jitters.clear())),
        (
            "no jitters but twice the deadlines",
            small_but(|tables| tables.deadlines.append(&mut tables.jitters)),
        ),
        (
            "one jitter short",
            small_but(|tables| tables.jitters.truncate(2)),
        ),
        (
            "a full sheet, room one word short",
            in_room(818, uniform(16, 16, MOST).tables),
        ),
        (
            "a full sheet, room for two words a stream",
            in_room(563, uniform(16, 16, MOST).tables),
        ),
    ]
}

/// Words that go wrong where they are added up in 32 bits.
fn sums() -> Vec<Named> {
    let mut greatest = uniform(16, 1, [1, 1, u32::MAX, u32::MAX, u32::MAX, u32::MAX]);
    greatest.tables.counts.fill(u32::MAX);
    vec![
        ("all counts the greatest word", greatest),
        (
            "counts that come round to the right sum",
            small_but(|tables| tables.counts = vec![2 | 1 << 31, 1 | 1 << 31]),
        ),
        (
            "a count that comes round with the last one",
            small_but(|tables| tables.counts = vec![4, u32::MAX]),
        ),
        ("every word the greatest", uniform(2, 1, [u32::MAX; 6])),
    ]
}

fn streams() -> Vec<Named> {
    let last = |period: u32, deadline: u32, jitter: u32| {
        let mut case = uniform(16, 16, MOST);
        case.tables.periods[255] = period;
        case.tables.deadlines[255] = deadline;
        case.tables.jitters[255] = jitter;
        case
    };
    let after_empty = small_but(|tables| {
        tables.counts = [vec![0; 15], vec![3]].concat();
        tables.budgets = vec![1; 16];
        tables.deadlines[0] = 41;
    });
    vec![
        ("last period 0", last(0, 0, 0)),
        ("last period past the end", last(LAST_TICK + 1, 1, 0)),
        ("last deadline 0", last(LAST_TICK, 0, 0)),
        ("last deadline above the period", last(5, 6, 0)),
        ("last jitter below the period", last(5, 3, 4)),
        ("last jitter at the period", last(5, 3, 5)),
        ("last jitter above the period", last(5, 3, 6)),
        (
            "last jitter the greatest word",
            last(LAST_TICK, 1, u32::MAX),
        ),
        (
            "a bad stream after empty nodes",
            in_room(60, after_empty.tables),
        ),
    ]
}

/// Each has one fault less than the one before; the first in order is gone.
fn all_but_the_first() -> Vec<Named> {
    let mut tables = Tables {
        message_ticks: 0,
        slot_ticks: 10_001,
        counts: vec![17; 17],
        budgets: vec![0; 18],
        periods: vec![0; 5],
        deadlines: vec![0; 7],
        jitters: vec![9; 6],
    };
    let case = |tables: &Tables| in_room(2, tables.clone());
    let mut cases = vec![("everything wrong", case(&tables))];
    tables.counts = vec![2, 17];
    cases.push(("wrong from the ticks on", case(&tables)));
    (tables.message_ticks, tables.slot_ticks) = (10_000, 1);
    cases.push(("wrong from the length of the budgets on", case(&tables)));
    tables.budgets = vec![1, 16];
    cases.push(("wrong from the rows on", case(&tables)));
    tables.counts[1] = 3;
    cases.push(("wrong from the length of the deadlines on", case(&tables)));
    tables.deadlines.truncate(5);
    cases.push(("wrong from the length of the jitters on", case(&tables)));
    tables.jitters.truncate(5);
    cases.push(("wrong from the streams on", case(&tables)));
    tables.periods.fill(1);
    tables.deadlines.fill(1);
    cases.push(("wrong from the jitters on", case(&tables)));
    tables.jitters.fill(0);
    cases.push(("wrong in the room alone", case(&tables)));
    cases
}

pub fn named_tables() -> Vec<Named> {
    [sheets(), lengths(), sums(), streams(), all_but_the_first()].concat()
}
