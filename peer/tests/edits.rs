//! Edits: every refusal with its place and its neighbours in the order, and the
//! words that an edit sets.

mod common;

use common::*;
use peer::generate::{named_edits, EditsCase};
use peer::{check_sheet, edit_stream, one_stream, Answer, Edit};

const TICKS: u32 = 1_000_000_000;
const FINE: [u32; 3] = [50, 45, 5];

/// Our own node, the node and the stream that are named, and the new words.
fn edit(own_node: u32, node: u32, stream: u32, words: [u32; 3]) -> Edit {
    Edit::new(own_node, (node, stream), words)
}

/// The answer of an edit that must be refused and leave every word.
fn refused(sheet: &[u32], edit: &Edit) -> (u32, u32, u32) {
    let mut words = sheet.to_vec();
    let given = edit_stream(&mut words, edit);
    assert_ne!(given.number, 0, "{edit:?}");
    assert_eq!(words, sheet, "a refusal changes no word");
    (given.number, given.second, given.third)
}

/// The sheet after an edit that must be carried out, and be valid.
fn edited(sheet: &[u32], edit: &Edit) -> Vec<u32> {
    let mut words = sheet.to_vec();
    assert_eq!(edit_stream(&mut words, edit), answer(0, 0, 0), "{edit:?}");
    assert_eq!(check_sheet(&words), answer(0, 0, 0), "{edit:?}");
    words
}

/// The same on sheet A, with the changes that it is to have.
fn assert_sets(edit: &Edit, changes: &[(usize, u32)]) {
    assert_eq!(edited(&SHEET_A, edit), sheet_a_with(changes), "{edit:?}");
}

fn named(name: &str) -> (Answer, Vec<u32>, EditsCase) {
    let mut cases = named_edits().into_iter();
    let case = cases.find(|case| case.0 == name).expect(name).1;
    let mut sheet = case.sheet.clone();
    (edit_stream(&mut sheet, &case.edits[0]), sheet, case)
}

#[test]
fn sets_the_three_words_of_its_stream() {
    assert_sets(&edit(1, 1, 1, FINE), &[(9, 50), (10, 45), (11, 5)]);
    assert_sets(&edit(1, 1, 2, FINE), &[(12, 50), (13, 45), (14, 5)]);
    assert_sets(&edit(2, 2, 1, FINE), &[(15, 50), (16, 45), (17, 5)]);
    assert_sets(&edit(1, 1, 2, [60, 60, 0]), &[]);
    assert_sets(&edit(1, 1, 2, [61, 60, 0]), &[(12, 61)]);
    assert_sets(&edit(1, 1, 2, [60, 59, 0]), &[(13, 59)]);
    assert_sets(&edit(1, 1, 2, [60, 60, 1]), &[(14, 1)]);
}

#[test]
fn the_ends_of_the_ranges() {
    assert_sets(&edit(2, 2, 1, [1, 1, 0]), &[(15, 1), (16, 1)]);
    let last = [(15, TICKS), (16, TICKS), (17, TICKS - 1)];
    assert_sets(&edit(2, 2, 1, [TICKS, TICKS, TICKS - 1]), &last);
    let first = [(15, TICKS), (16, 1)];
    assert_sets(&edit(2, 2, 1, [TICKS, 1, 0]), &first);
    // A jitter may be at the deadline and above it.
    assert_sets(&edit(2, 2, 1, [30, 3, 29]), &[(16, 3), (17, 29)]);
}

/// Where the old words would be in the way of the new ones one by one.
#[test]
fn new_words_are_judged_together() {
    let late = sheet_a_with(&[(17, 29)]);
    assert_eq!(
        edited(&late, &edit(2, 2, 1, [10, 10, 9])),
        sheet_a_with(&[(15, 10), (16, 10), (17, 9)])
    );
    assert_eq!(
        edited(&SHEET_A, &edit(2, 2, 1, [90, 80, 70])),
        sheet_a_with(&[(15, 90), (16, 80), (17, 70)])
    );
    // Right by the old period alone.
    assert_eq!(refused(&SHEET_A, &edit(2, 2, 1, [20, 30, 0])), (5, 2, 1));
    assert_eq!(refused(&late, &edit(2, 2, 1, [20, 20, 29])), (5, 2, 1));
}

#[test]
fn nodes_without_streams() {
    let streams: [&[(u32, u32)]; 5] = [&[], &[(90, 80), (70, 60)], &[], &[(50, 50)], &[]];
    let sheet = sheet(1, 1, &streams.map(|streams| (2, streams)));
    // The bodies stand from word 18 on.
    for (node, stream, place) in [(2, 1, 18), (2, 2, 21), (4, 1, 24)] {
        let changes = [(place, 55), (place + 1, 44), (place + 2, 3)];
        let given = edited(&sheet, &edit(node, node, stream, [55, 44, 3]));
        assert_eq!(given, with(&sheet, &changes));
    }
    for node in [1, 3, 5] {
        for stream in [0, 1, 2, u32::MAX] {
            let place = (8, node, stream);
            assert_eq!(refused(&sheet, &edit(node, node, stream, FINE)), place);
        }
    }
}

#[test]
fn every_stream_of_the_longest_sheet() {
    let full = sheet(10_000, 10_000, &[(16, &[(TICKS, TICKS); 16][..]); 16]);
    for node in 1..=16 {
        for stream in 1..=16 {
            let place = 51 + 3 * (16 * (node as usize - 1) + stream as usize - 1);
            let changes = [(place, 50), (place + 1, 45), (place + 2, 5)];
            let given = edited(&full, &edit(node, node, stream, FINE));
            assert_eq!(given, with(&full, &changes));
        }
        let past = refused(&full, &edit(node, node, 17, FINE));
        assert_eq!(past, (8, node, 17));
    }
    assert_eq!(refused(&full, &edit(17, 17, 1, FINE)), (8, 17, 1));
}

#[test]
fn the_old_sheet() {
    let fine = edit(1, 1, 1, FINE);
    for words in 0..3 {
        assert_eq!(refused(&SHEET_A[..words], &fine), (1, 0, 0));
    }
    for (changes, expected) in [
        ((0, 0), (2, 0, 0)),
        ((0, 17), (2, 0, 0)),
        ((0, u32::MAX), (2, 0, 0)),
        ((1, 0), (3, 0, 0)),
        ((2, 10_001), (3, 0, 0)),
        ((0, 6), (4, 0, 0)),
        ((3, 10), (4, 1, 0)),
        ((5, 0), (4, 1, 0)),
        ((7, 17), (4, 2, 0)),
        ((4, 1), (4, 2, 0)),
        ((7, 0), (4, 0, 0)),
        ((9, 0), (5, 1, 1)),
        ((13, 61), (5, 1, 2)),
        ((17, 30), (5, 2, 1)),
    ] {
        assert_eq!(refused(&sheet_a_with(&[changes]), &fine), expected);
    }
    assert_eq!(refused(&SHEET_A[..17], &fine), (4, 0, 0));
    assert_eq!(refused(&[&SHEET_A[..], &[0]].concat(), &fine), (4, 0, 0));
}

/// Whatever the edit is, the sheet is judged first, as it is without the edit.
#[test]
fn the_old_sheet_goes_before_all_else() {
    let all_wrong = [
        edit(1, 2, 2, FINE),
        edit(1, 2, 1, FINE),
        edit(1, 1, 1, [0; 3]),
        edit(u32::MAX, 0, u32::MAX, [u32::MAX; 3]),
    ];
    for one in all_wrong {
        assert_eq!(refused(&[], &one), (1, 0, 0));
        assert_eq!(refused(&sheet_a_with(&[(0, 17)]), &one), (2, 0, 0));
        assert_eq!(refused(&sheet_a_with(&[(2, 0)]), &one), (3, 0, 0));
        assert_eq!(refused(&sheet_a_with(&[(8, 17)]), &one), (4, 2, 0));
        assert_eq!(refused(&sheet_a_with(&[(13, 0)]), &one), (5, 1, 2));
    }
    // The new words would set it right.
    let repairing = edit(1, 1, 2, FINE);
    assert_eq!(
        refused(&sheet_a_with(&[(13, 0)]), &repairing),
        (5, 1, 2),
        "the old words are judged"
    );
}

#[test]
fn no_such_stream() {
    for node in [0, 3, 16, 17, u32::MAX] {
        for own_node in [node, 1, 0, u32::MAX] {
            let one = edit(own_node, node, 1, FINE);
            assert_eq!(refused(&SHEET_A, &one), (8, node, 1));
        }
    }
    for (node, stream) in [(1, 0), (1, 3), (2, 2), (2, 17), (1, u32::MAX), (2, 1 << 31)] {
        // Before refusal 13, and before refusal 5 for the new words.
        for own_node in [1, 2, 3, 0] {
            for words in [FINE, [0; 3], [u32::MAX; 3]] {
                let one = edit(own_node, node, stream, words);
                assert_eq!(refused(&SHEET_A, &one), (8, node, stream));
            }
        }
    }
}

#[test]
fn another_party() {
    for (node, stream) in [(1, 1), (1, 2), (2, 1)] {
        for own_node in [0, 1, 2, 3, 17, 1 << 16, u32::MAX] {
            if own_node == node {
                continue;
            }
            // Before refusal 5 for the new words.
            for words in [FINE, [0; 3], [50, 51, 0], [50, 50, 50]] {
                let one = edit(own_node, node, stream, words);
                assert_eq!(refused(&SHEET_A, &one), (13, node, stream));
            }
        }
    }
}

#[test]
fn wrong_words() {
    for (node, stream) in [(1, 1), (1, 2), (2, 1)] {
        for words in [
            [0, 0, 0],
            [0, 1, 0],
            [TICKS + 1, 45, 5],
            [u32::MAX, 45, 5],
            [50, 0, 5],
            [50, 51, 5],
            [50, u32::MAX, 5],
            [50, 45, 50],
            [50, 45, 51],
            [50, 45, u32::MAX],
            [1, 1, 1],
            [u32::MAX; 3],
        ] {
            let one = edit(node, node, stream, words);
            assert_eq!(refused(&SHEET_A, &one), (5, node, stream));
        }
    }
}

/// The listed waits of sheet A are 16, 33 and 16; a delivery of the third takes 27
/// ticks, and of the second 39.
#[test]
fn waits_of_the_own_node_may_move() {
    assert_eq!(one_stream(&SHEET_A, 1, 2), answer(0, 33, 2));
    let (_, late, _) = named("made late");
    assert_eq!(one_stream(&late, 2, 1), answer(7, 2, 1));
    let (_, in_time, before) = named("no longer late");
    assert_eq!(one_stream(&before.sheet, 2, 1), answer(7, 2, 1));
    assert_eq!(one_stream(&in_time, 2, 1), answer(0, 16, 1));
    let (_, swapped, _) = named("two streams change places");
    assert_eq!(one_stream(&swapped, 1, 2), answer(0, 16, 1));
    assert_eq!(one_stream(&swapped, 1, 1), answer(0, 33, 2));
}

#[test]
fn named_cases_have_answers_of_their_own() {
    let expected = [
        ("the words it has", (0, 0, 0)),
        ("the least words", (0, 0, 0)),
        ("the greatest words", (0, 0, 0)),
        ("a jitter over the deadline", (0, 0, 0)),
        ("last of the longest sheet", (0, 0, 0)),
        ("no such stream, another node", (8, 2, 2)),
        ("no such node, another node", (8, 3, 1)),
        ("no such stream, wrong words", (8, 1, 3)),
        ("no such stream, all wrong", (8, 2, 2)),
        ("another node", (13, 2, 1)),
        ("own node 0", (13, 1, 1)),
        ("own node past the last", (13, 2, 1)),
        ("own node the greatest", (13, 1, 2)),
        ("another node, wrong words", (13, 1, 1)),
        ("a deadline past the new period", (5, 1, 2)),
        ("every new word the greatest", (5, 1, 2)),
        ("nothing at all", (1, 0, 0)),
        ("an old fault set right", (5, 1, 2)),
        ("an old fault elsewhere", (5, 1, 2)),
        ("an old fault, no such stream", (5, 1, 2)),
        ("an old fault, another node", (5, 1, 2)),
        ("an old fault, wrong words", (5, 1, 2)),
        ("every word the greatest", (2, 0, 0)),
        ("a sheet of a hundred thousand words", (4, 0, 0)),
    ];
    for (name, (number, second, third)) in expected {
        assert_eq!(named(name).0, answer(number, second, third), "{name}");
    }
}
