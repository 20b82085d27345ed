//! The edit of a stream: the three words that it sets, every refusal, in order and
//! with the sheet as it was, and the answers about the other nodes' streams.

use wistorvan::{admit, check_sheet, edit_stream, find_budgets, one_stream, raw, write_sheet};
use wistorvan::{ListedWait, Reason, Refusal, Tables, LONGEST_SHEET, MAX_NODES, MAX_STREAMS};

const SHEET_A: [u32; 18] = [2, 5, 1, 9, 2, 1, 15, 1, 2, 40, 40, 0, 60, 60, 0, 30, 30, 0];
const MOST: u32 = 1_000_000_000;

/// A line of three nodes whose recorder, node 3, has a budget of 4: the damper
/// command, stream 2 of node 1, is late, and so is stream 4.
#[rustfmt::skip]
const LINE: [u32; 36] = [
    3, 5, 1, 12, 4, 2, 24, 2, 1, 30, 2, 4,
    200, 59, 0, 500, 69, 0, 1000, 49, 0, 400, 69, 0,
    250, 43, 0, 1000, 82, 0,
    1000, 1000, 0, 10000, 10000, 0,
];
const RECORDER: u32 = 3;

/// A node and a stream of it.
type Place = (u32, u32);

/// Period, deadline and jitter.
type Words = [u32; 3];

/// The streams of a valid sheet, in sheet order.
fn places(sheet: &[u32]) -> Vec<Place> {
    let streams = |node: u32| (1..=sheet[3 * node as usize + 1]).map(move |stream| (node, stream));
    (1..=sheet[0]).flat_map(streams).collect()
}

/// The one-stream answers about the streams of some nodes, late ones too.
fn answers(sheet: &[u32], of: impl Fn(u32) -> bool) -> Vec<Result<ListedWait, Refusal>> {
    let places = places(sheet).into_iter().filter(|place| of(place.0));
    places
        .map(|(node, stream)| one_stream(sheet, node, stream))
        .collect()
}

fn edit(sheet: &mut [u32], own_node: u32, place: Place, words: Words) -> Result<(), Refusal> {
    let ((node, stream), [period, deadline, jitter]) = (place, words);
    edit_stream(sheet, own_node, node, stream, period, deadline, jitter)
}

/// The refusal, which leaves every word of the sheet as it was.
#[track_caller]
fn refused(sheet: &[u32], own_node: u32, place: Place, words: Words) -> Refusal {
    let mut lent = sheet.to_vec();
    let refusal = edit(&mut lent, own_node, place, words).unwrap_err();
    assert_eq!(lent, sheet);
    let ((node, stream), [period, deadline, jitter]) = (place, words);
    let answer = raw::edit_stream(&mut lent, own_node, node, stream, period, deadline, jitter);
    assert_eq!(lent, sheet);
    assert_eq!(answer.number, refusal.number());
    assert_eq!((answer.second, answer.third), refusal.place());
    refusal
}

/// What it is, its place and its sentence.
#[track_caller]
fn assert_refusal(refusal: Refusal, reason: Reason, number: u32, place: Place, why: &str) {
    assert_eq!(refusal.reason(), reason);
    assert_eq!((refusal.number(), refusal.place()), (number, place));
    let (a, b) = place;
    let sentence = format!("refused {number} at {a} {b}: {why}");
    assert_eq!(refusal.to_string(), sentence);
}

#[test]
fn three_words_and_no_other() {
    for (at, place) in (12..).step_by(3).zip(places(&LINE)) {
        let mut sheet = LINE;
        assert_eq!(edit(&mut sheet, place.0, place, [700, 600, 5]), Ok(()));
        let mut expected = LINE;
        expected[at..at + 3].copy_from_slice(&[700, 600, 5]);
        assert_eq!(sheet, expected);
        assert_eq!(check_sheet(&sheet), Ok(()));
    }
}

#[test]
fn the_plain_numbers() {
    let mut sheet = SHEET_A;
    let answer = raw::edit_stream(&mut sheet, 2, 2, 1, 90, 80, 7);
    assert_eq!((answer.number, answer.second, answer.third), (0, 0, 0));
    assert_eq!(
        (&sheet[..15], &sheet[15..]),
        (&SHEET_A[..15], &[90, 80, 7][..])
    );
}

#[test]
fn an_edit_undone() {
    let mut sheet = LINE;
    edit(&mut sheet, RECORDER, (3, 2), [90, 70, 30]).unwrap();
    assert_ne!(sheet, LINE);
    edit(&mut sheet, RECORDER, (3, 2), [10000, 10000, 0]).unwrap();
    assert_eq!(sheet, LINE);
}

#[test]
fn a_node_without_streams_before_it() {
    let mut sheet = [2, 5, 1, 9, 0, 1, 9, 1, 2, 30, 30, 0];
    edit(&mut sheet, 2, (2, 1), [31, 30, 29]).unwrap();
    assert_eq!(sheet, [2, 5, 1, 9, 0, 1, 9, 1, 2, 31, 30, 29]);
    let refusal = refused(&sheet, 1, (1, 1), [31, 30, 29]);
    assert_eq!(refusal.reason(), Reason::NoSuchStream);
}

#[test]
fn the_last_stream_of_the_longest_sheet() {
    let most = Tables {
        message_ticks: 1,
        slot_ticks: 1,
        counts: &[16; 16],
        budgets: &[16; 16],
        periods: &[MOST; MAX_STREAMS],
        deadlines: &[MOST; MAX_STREAMS],
        jitters: &[500; MAX_STREAMS],
    };
    let mut room = [0; LONGEST_SHEET];
    write_sheet(&most, &mut room).unwrap();
    let before = room;
    edit(&mut room, 16, (16, 16), [9, 8, 7]).unwrap();
    assert_eq!(room[..LONGEST_SHEET - 3], before[..LONGEST_SHEET - 3]);
    assert_eq!(room[LONGEST_SHEET - 3..], [9, 8, 7]);
}

#[test]
fn the_sheet_as_it_was_is_refused_first() {
    let with = |place: usize, word: u32| {
        let mut sheet = SHEET_A;
        sheet[place] = word;
        sheet
    };
    let sheets: [(&[u32], u32, Place); 9] = [
        (&[], 1, (0, 0)),
        (&SHEET_A[..2], 1, (0, 0)),
        (&with(0, 17), 2, (0, 0)),
        (&with(1, 0), 3, (0, 0)),
        (&SHEET_A[..8], 4, (0, 0)),
        (&with(8, 17), 4, (2, 0)),
        (&SHEET_A[..17], 4, (0, 0)),
        (&with(13, 61), 5, (1, 2)),
        (&with(17, 30), 5, (2, 1)),
    ];
    for (sheet, number, place) in sheets {
        // Alone, though the new words would put the last two right; and before
        // what is wrong with the names and the words.
        for (own_node, asked, words) in [
            (1, (1, 2), [60, 60, 0]),
            (2, (2, 1), [30, 30, 0]),
            (1, (3, 1), [0, 0, 0]),
            (1, (2, 1), [0, 0, 0]),
        ] {
            let refusal = refused(sheet, own_node, asked, words);
            assert_eq!((refusal.number(), refusal.place()), (number, place));
        }
    }
}

#[test]
fn a_stream_that_is_not_there() {
    for (node, stream) in [
        (0, 1),
        (1, 0),
        (1, 3),
        (2, 2),
        (3, 1),
        (u32::MAX, 1),
        (1, u32::MAX),
        (u32::MAX, u32::MAX),
    ] {
        let why = format!("the sheet has no stream {stream} of node {node}");
        // Alone, and before what is wrong with the node and the words.
        for (own_node, words) in [(node, [90, 80, 7]), (7, [90, 80, 7]), (2, [0, 0, 0])] {
            let refusal = refused(&SHEET_A, own_node, (node, stream), words);
            assert_refusal(refusal, Reason::NoSuchStream, 8, (node, stream), &why);
        }
    }
}

#[test]
fn another_partys_node() {
    for (node, stream) in places(&SHEET_A) {
        let why = format!("stream {stream} of node {node} is not on the own node");
        // The other node, and numbers that no node of the sheet has.
        for own_node in [3 - node, 0, 3, u32::MAX] {
            // Also before what is wrong with the words, and with those that the
            // stream has.
            let at = 9 + 3 * (2 * (node - 1) + stream - 1) as usize;
            let same = [SHEET_A[at], SHEET_A[at + 1], SHEET_A[at + 2]];
            for words in [[90, 80, 7], same, [0, 0, 0], [90, 91, 90]] {
                let refusal = refused(&SHEET_A, own_node, (node, stream), words);
                assert_refusal(refusal, Reason::NotOwnNode, 13, (node, stream), &why);
            }
        }
    }
}

#[test]
fn words_out_of_range() {
    let why = "stream 2 of node 1: wrong period, deadline or jitter";
    for words in [
        [0, 0, 0],
        [0, 1, 0],
        [MOST + 1, 1, 0],
        [u32::MAX, 1, 0],
        [90, 0, 0],
        [90, 91, 0],
        [90, u32::MAX, 0],
        [90, 90, 90],
        [90, 90, u32::MAX],
        [1, 1, 1],
    ] {
        let refusal = refused(&SHEET_A, 1, (1, 2), words);
        assert_refusal(refusal, Reason::BadStream, 5, (1, 2), why);
    }
    // The ends of the ranges are in them.
    for words in [[1, 1, 0], [MOST, MOST, MOST - 1], [90, 1, 0], [90, 90, 89]] {
        let mut sheet = SHEET_A;
        assert_eq!(edit(&mut sheet, 1, (1, 2), words), Ok(()));
        assert_eq!((&sheet[12..15], check_sheet(&sheet)), (&words[..], Ok(())));
    }
}

/// Words of every kind: short and long, urgent and not, often and seldom.
const EDITS: [Words; 7] = [
    [1, 1, 0],
    [50, 50, 0],
    [50, 49, 49],
    [90, 70, 30],
    [1000, 41, 0],
    [MOST, 1, 0],
    [MOST, MOST, MOST - 1],
];

#[test]
fn the_answers_about_other_nodes_stay() {
    let listed = |wait, cycles| Ok(ListedWait { wait, cycles });
    let before = answers(&LINE, |node| node != RECORDER);
    assert_eq!(before[0], listed(42, 1));
    for (late, place) in [(1, (1, 2)), (3, (1, 4))] {
        let refusal = before[late].unwrap_err();
        assert_eq!((refusal.reason(), refusal.place()), (Reason::Late, place));
    }
    assert_eq!(before[4..], [listed(37, 1), listed(75, 2)]);
    let own = answers(&LINE, |node| node == RECORDER);
    // One edit after the other.
    let (mut sheet, mut changed) = (LINE, 0);
    for words in EDITS {
        for place in [(RECORDER, 1), (RECORDER, 2)] {
            edit(&mut sheet, RECORDER, place, words).unwrap();
            assert_eq!(answers(&sheet, |node| node != RECORDER), before);
            changed += u32::from(answers(&sheet, |node| node == RECORDER) != own);
        }
    }
    assert!(changed > 0);
}

#[test]
fn each_node_may_be_the_own_one() {
    for (own_node, stream) in places(&LINE) {
        let before = answers(&LINE, |node| node != own_node);
        for words in EDITS {
            let mut sheet = LINE;
            edit(&mut sheet, own_node, (own_node, stream), words).unwrap();
            assert_eq!(answers(&sheet, |node| node != own_node), before);
        }
    }
}

#[test]
fn other_waits_of_the_own_node() {
    // A budget of 4 takes both streams in one turn; with 1 the second waits for
    // another turn, and for one more if the first comes often.
    let mut sheet = LINE;
    sheet[11] = 1;
    let waits = |sheet: &[u32]| {
        let answers = answers(sheet, |node| node == RECORDER).into_iter();
        answers.map(|answer| answer.ok().map(|listed| listed.wait))
    };
    assert!(waits(&sheet).eq([Some(22), Some(45)]));
    edit(&mut sheet, RECORDER, (3, 1), [45, 45, 0]).unwrap();
    assert!(waits(&sheet).eq([Some(22), Some(68)]));
    edit(&mut sheet, RECORDER, (3, 2), [10000, 40, 0]).unwrap();
    assert!(waits(&sheet).eq([None, Some(22)]));
}

#[test]
fn sheets_alike_in_one_nodes_streams() {
    // Node 2 is the same on all of these, and so are n, TMS, TPR and the budgets;
    // the others have other streams, and other numbers of them.
    let with = |first: &[u32], last: &[u32]| {
        let (periods, jitters) = ([first, &[40, 60, 90], last].concat(), [0; MAX_STREAMS]);
        let tables = Tables {
            message_ticks: 5,
            slot_ticks: 1,
            counts: &[first.len() as u32, 3, last.len() as u32],
            budgets: &[1, 1, 1],
            periods: &periods,
            deadlines: &periods,
            jitters: &jitters[..periods.len()],
        };
        let mut room = [0; LONGEST_SHEET];
        let sheet = write_sheet(&tables, &mut room).unwrap().sheet;
        answers(sheet, |node| node == 2)
    };
    let alone = with(&[], &[]);
    let waits = alone
        .iter()
        .map(|answer| answer.ok().map(|listed| listed.wait));
    assert!(waits.eq([Some(17), Some(35), None]));
    for (first, last) in [
        (&[1][..], &[][..]),
        (&[], &[1]),
        (&[30, 20, 500], &[7, 7]),
        (&[5; 16], &[MOST; 16]),
    ] {
        assert_eq!(with(first, last), alone);
    }
}

/// Nothing is promised of the answers that read every stream.
#[test]
fn answers_about_the_whole_sheet_may_change() {
    let mut sheet = SHEET_A;
    let (mut waits, mut row) = ([7; MAX_STREAMS], [7; MAX_NODES]);
    assert!(admit(&sheet, &mut waits).is_ok());
    assert_eq!(find_budgets(&sheet, &mut row).unwrap().row, [1, 1]);
    edit(&mut sheet, 1, (1, 2), [60, 38, 0]).unwrap();
    edit(&mut sheet, 1, (1, 1), [40, 38, 0]).unwrap();
    let refusal = admit(&sheet, &mut waits).unwrap_err();
    assert_eq!((refusal.number(), refusal.place()), (7, (1, 2)));
    edit(&mut sheet, 1, (1, 1), [40, 1, 0]).unwrap();
    let refusal = find_budgets(&sheet, &mut row).unwrap_err();
    assert_eq!((refusal.number(), refusal.place()), (11, (1, 0)));
}
