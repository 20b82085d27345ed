//! Named cases for edits: each refusal and its neighbours in the order, the ends
//! of the sheet and of the ranges, and edits that move other streams of the node;
//! and named pairs of sheets.

use super::edits::{AlikeCase, EditsCase};
use super::named::{nodes_alike, SMALL};
use super::sheets::{steady, NodePlan, Plan, StreamPlan};
use crate::sheet::LAST_TICK;
use crate::Edit;

type Named = (&'static str, EditsCase);

const GREATEST: u32 = u32::MAX;

/// Our own node, the stream that is named, and the new words.
fn case(sheet: &[u32], own_node: u32, named: (u32, u32), words: [u32; 3]) -> EditsCase {
    EditsCase {
        sheet: sheet.to_vec(),
        edits: vec![Edit::new(own_node, named, words)],
    }
}

/// Of a stream of our own node.
fn own(sheet: &[u32], named: (u32, u32), words: [u32; 3]) -> EditsCase {
    case(sheet, named.0, named, words)
}

fn small_with(place: usize, word: u32) -> Vec<u32> {
    let mut sheet = SMALL.to_vec();
    sheet[place] = word;
    sheet
}

/// Sixteen nodes of sixteen streams.
fn longest() -> Vec<u32> {
    let far = StreamPlan::steady(LAST_TICK, LAST_TICK);
    nodes_alike(16, [10_000, 10_000, 16], &[far; 16])
}

/// Five nodes; the second and the fourth have streams.
fn with_empty_nodes() -> Vec<u32> {
    let node = |streams: &[(u32, u32)]| NodePlan {
        budget: 2,
        streams: steady(streams),
    };
    let (two, one) = (node(&[(90, 80), (70, 60)]), node(&[(50, 50)]));
    Plan {
        message: 1,
        slot: 1,
        nodes: vec![node(&[]), two, node(&[]), one, node(&[])],
    }
    .words()
}

const FINE: [u32; 3] = [50, 45, 5];

fn carried_out() -> Vec<Named> {
    let empty = with_empty_nodes();
    let longest = longest();
    let last = [LAST_TICK, LAST_TICK, LAST_TICK - 1];
    let one_node = [1, 5, 1, 6, 1, 1, 20, 20, 0];
    vec![
        ("the first stream", own(&SMALL, (1, 1), FINE)),
        ("the second stream", own(&SMALL, (1, 2), FINE)),
        ("the last stream", own(&SMALL, (2, 1), FINE)),
        ("the words it has", own(&SMALL, (1, 2), [60, 60, 0])),
        ("another period alone", own(&SMALL, (1, 2), [61, 60, 0])),
        ("another deadline alone", own(&SMALL, (1, 2), [60, 59, 0])),
        ("another jitter alone", own(&SMALL, (1, 2), [60, 60, 1])),
        ("the least words", own(&SMALL, (1, 1), [1, 1, 0])),
        ("the greatest words", own(&SMALL, (1, 1), last)),
        ("a jitter over the deadline", own(&SMALL, (1, 1), [9, 3, 8])),
        ("the only stream", own(&one_node, (1, 1), FINE)),
        ("after an empty node", own(&empty, (2, 1), FINE)),
        ("before an empty node", own(&empty, (2, 2), FINE)),
        ("between empty nodes", own(&empty, (4, 1), FINE)),
        ("first of the longest sheet", own(&longest, (1, 1), FINE)),
        ("last of the longest sheet", own(&longest, (16, 16), FINE)),
        (
            "a late stream elsewhere",
            own(&small_with(16, 26), (1, 1), FINE),
        ),
        ("made late", own(&SMALL, (2, 1), [30, 26, 0])),
        (
            "no longer late",
            own(&small_with(16, 26), (2, 1), [30, 27, 0]),
        ),
        (
            "another stream made late",
            own(&SMALL, (1, 1), [30, 30, 20]),
        ),
        (
            "another stream no longer late",
            own(&small_with(11, 39), (1, 1), [40, 40, 0]),
        ),
        (
            "two streams change places",
            own(&SMALL, (1, 2), [60, 39, 0]),
        ),
    ]
}

/// Refusals 8 and 13, alone and with those that come after them.
fn not_ours() -> Vec<Named> {
    let empty = with_empty_nodes();
    let wrong = [0, GREATEST, GREATEST];
    vec![
        ("node 0", own(&SMALL, (0, 1), FINE)),
        ("node 0, stream 0", own(&SMALL, (0, 0), FINE)),
        ("a node past the last", own(&SMALL, (3, 1), FINE)),
        ("the greatest node", own(&SMALL, (GREATEST, 1), FINE)),
        ("stream 0", own(&SMALL, (1, 0), FINE)),
        ("a stream past the last", own(&SMALL, (1, 3), FINE)),
        ("the greatest stream", own(&SMALL, (2, GREATEST), FINE)),
        ("an empty node", own(&empty, (3, 1), FINE)),
        (
            "no such stream, another node",
            case(&SMALL, 1, (2, 2), FINE),
        ),
        ("no such node, another node", case(&SMALL, 1, (3, 1), FINE)),
        ("no such stream, wrong words", own(&SMALL, (1, 3), wrong)),
        ("no such stream, all wrong", case(&SMALL, 0, (2, 2), wrong)),
        ("another node", case(&SMALL, 1, (2, 1), FINE)),
        ("own node 0", case(&SMALL, 0, (1, 1), FINE)),
        ("own node past the last", case(&SMALL, 3, (2, 1), FINE)),
        (
            "own node the greatest",
            case(&SMALL, GREATEST, (1, 2), FINE),
        ),
        ("another node, wrong words", case(&SMALL, 2, (1, 1), wrong)),
    ]
}

/// Refusal 5 for the new words, on both sides of each bound.
fn wrong_words() -> Vec<Named> {
    let past = LAST_TICK + 1;
    let of = |words: [u32; 3]| own(&SMALL, (1, 2), words);
    vec![
        ("period 0", of([0, 0, 0])),
        ("a period past the last tick", of([past, 50, 0])),
        ("the greatest period", of([GREATEST, 50, 0])),
        ("deadline 0", of([50, 0, 0])),
        ("a deadline past the period", of([50, 51, 0])),
        ("a deadline past the new period", of([50, 60, 0])),
        ("the greatest deadline", of([50, GREATEST, 0])),
        ("a jitter at the period", of([50, 50, 50])),
        ("a jitter past the period", of([50, 50, 51])),
        ("the greatest jitter", of([50, 50, GREATEST])),
        ("every new word the greatest", of([GREATEST; 3])),
        ("every new word 0", of([0; 3])),
    ]
}

/// Refusals 1 to 5 for the sheet as it is, which go before all others.
fn old_sheet() -> Vec<Named> {
    let long = [&SMALL[..], &[0]].concat();
    let bad = small_with(13, 61);
    vec![
        ("nothing at all", own(&[], (0, 0), [0; 3])),
        ("two words", own(&[2, 5], (1, 1), FINE)),
        ("no node", own(&small_with(0, 0), (1, 1), FINE)),
        ("seventeen nodes", own(&small_with(0, 17), (1, 1), FINE)),
        ("a message of 0 ticks", own(&small_with(1, 0), (1, 1), FINE)),
        ("no contents", own(&SMALL[..8], (1, 1), FINE)),
        ("a wrong place", own(&small_with(6, 16), (1, 1), FINE)),
        ("a budget of 17", own(&small_with(8, 17), (2, 1), FINE)),
        ("a word too few", own(&SMALL[..17], (1, 1), FINE)),
        ("a word too many", own(&long, (1, 1), FINE)),
        ("an old fault set right", own(&bad, (1, 2), FINE)),
        ("an old fault elsewhere", own(&bad, (2, 1), FINE)),
        ("an old fault, no such stream", own(&bad, (2, 2), FINE)),
        ("an old fault, another node", case(&bad, 2, (1, 2), FINE)),
        ("an old fault, wrong words", own(&bad, (2, 1), [0; 3])),
        (
            "every word the greatest",
            own(&[GREATEST; 600], (1, 1), FINE),
        ),
        (
            "a sheet of a hundred thousand words",
            own(&[&SMALL[..], &[30; 100_000]].concat(), (1, 1), FINE),
        ),
    ]
}

pub fn named_edits() -> Vec<Named> {
    [carried_out(), not_ours(), wrong_words(), old_sheet()].concat()
}

/// Two nodes of budget 1, messages of 5 and slots of 1 tick.
fn two_nodes(streams: [&[(u32, u32)]; 2]) -> Vec<u32> {
    let nodes = streams.map(|streams| NodePlan {
        budget: 1,
        streams: steady(streams),
    });
    Plan {
        message: 5,
        slot: 1,
        nodes: nodes.into(),
    }
    .words()
}

fn alike(own_node: u32, one: [&[(u32, u32)]; 2], other: [&[(u32, u32)]; 2]) -> AlikeCase {
    AlikeCase {
        own_node,
        sheets: [one, other].map(two_nodes),
    }
}

/// A cycle of 12 ticks, after two of which the second stream of the own node is in
/// time or late by one.
pub fn named_alike() -> Vec<(&'static str, AlikeCase)> {
    let (in_time, late) = (&[(40, 20), (60, 29)], &[(40, 20), (60, 28)]);
    let (busy, far) = ([(1, 1); 16], [(LAST_TICK, LAST_TICK)]);
    vec![
        (
            "the same sheet",
            alike(1, [in_time, &busy], [in_time, &busy]),
        ),
        ("nobody else", alike(1, [in_time, &busy], [in_time, &[]])),
        ("somebody else", alike(2, [&busy, in_time], [&far, in_time])),
        (
            "late with and without",
            alike(2, [&[], late], [&busy, late]),
        ),
        (
            "no stream of the own node",
            alike(1, [&[], late], [&[], &busy]),
        ),
    ]
}
