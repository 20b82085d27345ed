//! The replay with records: exact lists of sheet A, lists held to those worked
//! out afresh, and what every refusal leaves of the room and the list.

use wistorvan::{begun, one_stream, raw, replay, replay_with_records, write_sheet};
use wistorvan::{Reason, Refusal, StreamRecord, Tables};
use wistorvan::{LONGEST_SHEET, MAX_RELEASES, MAX_STREAMS};

const SHEET_A: [u32; 18] = [2, 5, 1, 9, 2, 1, 15, 1, 2, 40, 40, 0, 60, 60, 0, 30, 30, 0];
/// Node 1 breaks the period of its stream 1, which is ranked above its stream 2;
/// node 2 keeps its own.
const LOG: [u32; 16] = [0, 1, 0, 1, 0, 1, 0, 1, 0, 2, 1, 3, 31, 3, 61, 3];
const LATEST: u32 = 1_000_000_000;

/// What a list holds before a call.
const OLD: StreamRecord = record(7, 8, 9);

const fn record(begun: u32, longest: u32, over: u32) -> StreamRecord {
    StreamRecord {
        begun,
        longest,
        over,
    }
}

/// Sheet A with both deadlines of node 1 at 38: its stream 2 is late.
fn sheet_late() -> [u32; 18] {
    let mut sheet = SHEET_A;
    (sheet[10], sheet[13]) = (38, 38);
    sheet
}

/// The listed wait of each stream in sheet order; a late one has none.
fn listed(sheet: &[u32]) -> Vec<Option<u32>> {
    let places = (1..=sheet[0]).flat_map(|node| {
        let streams = sheet[3 * node as usize + 1];
        (1..=streams).map(move |stream| (node, stream))
    });
    let wait = |(node, stream)| one_stream(sheet, node, stream).ok();
    places
        .map(|place| wait(place).map(|listed| listed.wait))
        .collect()
}

/// The list worked out afresh from a log and its begins.
fn afresh(sheet: &[u32], log: &[u32], begins: &[u32]) -> Vec<StreamRecord> {
    let listed = listed(sheet);
    let mut list = vec![StreamRecord::default(); listed.len()];
    for (release, begin) in log.chunks(2).zip(begins) {
        let Some(begin) = begun(*begin) else {
            continue;
        };
        let (wait, at) = (begin - release[0], release[1] as usize - 1);
        list[at].begun += 1;
        list[at].longest = list[at].longest.max(wait);
        list[at].over += u32::from(listed[at].is_some_and(|listed| wait > listed));
    }
    list
}

/// Replays with and without records, and holds the one to the other and its list
/// to the one worked out afresh.
#[track_caller]
fn recorded(sheet: &[u32], log: &[u32], horizon: u32) -> Vec<StreamRecord> {
    let (mut plain, mut room) = (vec![7; log.len() / 2], vec![7; log.len() / 2 + 2]);
    let mut list = [OLD; MAX_STREAMS + 44];
    let replayed = replay(sheet, log, horizon, &mut plain).unwrap();
    let recorded = replay_with_records(sheet, log, horizon, &mut room, &mut list).unwrap();
    assert_eq!(recorded.begins, replayed.begins);
    let numbers = (replayed.turns, replayed.next);
    assert_eq!((recorded.turns, recorded.next), numbers);
    assert_eq!(recorded.records, afresh(sheet, log, replayed.begins));
    let (begins, streams) = (recorded.begins.len(), recorded.records.len());
    assert_eq!(room[begins..], [7, 7]);
    assert!(list[streams..].iter().all(|&record| record == OLD));
    list[..streams].to_vec()
}

#[test]
fn a_record_of_each_stream() {
    let (mut room, mut list) = ([7; 10], [OLD; 5]);
    let recorded = replay_with_records(&SHEET_A, &LOG, 70, &mut room, &mut list).unwrap();
    assert_eq!(recorded.begins, [0, 12, 19, 26, 38, 6, 32, 62]);
    assert_eq!((recorded.turns, recorded.next), (30, 70));
    // Listed are 16, 33 and 16: two of stream 1 and the one of stream 2 are over.
    let expected = [record(4, 26, 2), record(1, 38, 1), record(3, 5, 0)];
    assert_eq!(recorded.records, expected);
    // What the list held before plays no part, and past the streams it stays.
    assert_eq!(list[3..], [OLD; 2]);
    assert_eq!(room[8..], [7; 2]);
}

#[test]
fn a_list_just_long_enough() {
    let (mut room, mut list) = ([7; 8], [OLD; 3]);
    let answer = raw::replay_with_records(&SHEET_A, &LOG, 70, &mut room, &mut list);
    assert_eq!((answer.number, answer.second, answer.third), (0, 30, 70));
    assert_eq!(list, [record(4, 26, 2), record(1, 38, 1), record(3, 5, 0)]);
}

#[test]
fn a_wait_as_long_as_listed_is_not_over() {
    // Node 2 takes two in the turn at 6; the second message of stream 1, queued
    // at 1, begins at 17, after the listed 16. One queued at 0 is a tick over.
    let longest = |log: &[u32]| recorded(&SHEET_A, log, 40)[0];
    assert_eq!(longest(&[0, 1, 0, 3, 0, 3, 1, 1]), record(2, 16, 0));
    assert_eq!(longest(&[0, 1, 0, 1, 0, 3, 0, 3]), record(2, 17, 1));
}

#[test]
fn what_has_not_begun_is_not_counted() {
    let mut before = recorded(&SHEET_A, &LOG, 0);
    assert_eq!(before, [record(0, 0, 0); 3]);
    for horizon in 1..=70 {
        let now = recorded(&SHEET_A, &LOG, horizon);
        // With the horizon no number of a record falls.
        for (old, new) in before.iter().zip(&now) {
            assert!(old.begun <= new.begun && old.longest <= new.longest && old.over <= new.over);
        }
        before = now;
    }
    // Stream 2 has waited 34 at tick 34, longer than listed, and has not begun.
    let expected = [record(4, 26, 2), record(0, 0, 0), record(2, 5, 0)];
    assert_eq!(recorded(&SHEET_A, &LOG, 34), expected);
}

#[test]
fn nothing_over_of_a_late_stream() {
    let sheet = sheet_late();
    assert_eq!(listed(&sheet), [Some(16), None, Some(16)]);
    // Its record goes on otherwise, and those of the others are judged as before.
    let expected = [record(4, 26, 2), record(1, 38, 0), record(3, 5, 0)];
    assert_eq!(recorded(&sheet, &LOG, 70), expected);
    // All of node 1 late, and waits of any length.
    let mut sheet = sheet_late();
    sheet[10] = 1;
    let log = [0, 1].repeat(100);
    assert_eq!(recorded(&sheet, &log, 1_000)[0], record(100, 99 * 7, 0));
}

#[test]
fn a_sheet_without_streams() {
    let sheet = [1, 5, 1, 6, 0, 2];
    let recorded = replay_with_records(&sheet, &[], 9, &mut [], &mut []).unwrap();
    assert_eq!((recorded.begins.len(), recorded.records.len()), (0, 0));
    assert_eq!((recorded.turns, recorded.next), (9, 9));
    let mut list = [OLD; 2];
    assert!(replay_with_records(&sheet, &[], 9, &mut [], &mut list).is_ok());
    assert_eq!(list, [OLD; 2]);
}

/// 256 streams and 4,096 releases, sixteen of each stream.
#[test]
fn the_longest_list() {
    let tables = Tables {
        message_ticks: 5,
        slot_ticks: 1,
        counts: &[16; 16],
        budgets: &[2; 16],
        periods: &[2_000; MAX_STREAMS],
        deadlines: &[1_000; MAX_STREAMS],
        jitters: &[0; MAX_STREAMS],
    };
    let mut room = [0; LONGEST_SHEET];
    let sheet = write_sheet(&tables, &mut room).unwrap().sheet;
    let log: Vec<u32> = (0..MAX_RELEASES as u32)
        .flat_map(|i| [3 * i, 1 + 37 * i % MAX_STREAMS as u32])
        .collect();
    let list = recorded(sheet, &log, LATEST);
    assert_eq!(list.len(), MAX_STREAMS);
    assert!(list.iter().all(|record| record.begun == 16));
    // Of each node the last six streams are late; some of the others were over.
    let late = listed(sheet).iter().filter(|wait| wait.is_none()).count();
    let over = list.iter().filter(|record| record.over > 0).count();
    assert_eq!((late, over), (6 * 16, 32));
}

/// The refusal, which leaves room and list as they were.
#[track_caller]
fn refused(sheet: &[u32], log: &[u32], horizon: u32, words: usize, records: usize) -> Refusal {
    let (mut room, mut list) = (vec![7; words], vec![OLD; records]);
    let refusal = replay_with_records(sheet, log, horizon, &mut room, &mut list).unwrap_err();
    assert_eq!((room, list), (vec![7; words], vec![OLD; records]));
    let (mut room, mut list) = (vec![7; words], vec![OLD; records]);
    let answer = raw::replay_with_records(sheet, log, horizon, &mut room, &mut list);
    assert_eq!((room, list), (vec![7; words], vec![OLD; records]));
    assert_eq!(answer.number, refusal.number());
    assert_eq!((answer.second, answer.third), refusal.place());
    refusal
}

#[track_caller]
fn assert_refusal(refusal: Refusal, number: u32, place: (u32, u32)) {
    assert_eq!((refusal.number(), refusal.place()), (number, place));
}

#[test]
fn sheets_that_are_refused() {
    let with = |place: usize, word: u32| {
        let mut sheet = SHEET_A;
        sheet[place] = word;
        sheet
    };
    let sheets: [(&[u32], u32, (u32, u32)); 7] = [
        (&SHEET_A[..2], 1, (0, 0)),
        (&with(0, 17), 2, (0, 0)),
        (&with(1, 0), 3, (0, 0)),
        (&SHEET_A[..8], 4, (0, 0)),
        (&with(8, 17), 4, (2, 0)),
        (&SHEET_A[..17], 4, (0, 0)),
        (&with(13, 61), 5, (1, 2)),
    ];
    for (sheet, number, place) in sheets {
        // Alone, and before what is wrong with the log, the horizon, room and list.
        assert_refusal(refused(sheet, &LOG, 70, 8, 3), number, place);
        let refusal = refused(sheet, &[0, 9, 0], LATEST + 1, 0, 0);
        assert_refusal(refusal, number, place);
    }
}

#[test]
fn logs_and_horizons_that_are_refused() {
    let too_many = [0, 1].repeat(MAX_RELEASES + 1);
    let logs: [(&[u32], (u32, u32)); 6] = [
        (&LOG[..15], (0, 0)),
        (&too_many, (0, 0)),
        (&[5, 1, LATEST + 1, 1], (0, 2)),
        (&[5, 1, 4, 1], (0, 2)),
        (&[5, 1, 5, 4], (0, 2)),
        (&[5, 0], (0, 1)),
    ];
    for (log, place) in logs {
        let alone = refused(&SHEET_A, log, 70, MAX_RELEASES + 1, 3);
        assert_refusal(alone, 9, place);
        let refusal = refused(&SHEET_A, log, LATEST + 1, 0, 0);
        assert_refusal(refusal, 9, place);
    }
    for (words, records) in [(8, 3), (0, 0)] {
        let refusal = refused(&SHEET_A, &LOG, LATEST + 1, words, records);
        assert_refusal(refusal, 10, (0, 0));
    }
}

#[test]
fn a_short_room_and_a_short_list() {
    for (words, records) in [(7, 3), (7, 2), (8, 2), (8, 0), (MAX_RELEASES, 2)] {
        let refusal = refused(&SHEET_A, &LOG, 70, words, records);
        assert_refusal(refusal, 6, (0, 0));
    }
    // Also where no release comes, and on a sheet that would not be admitted.
    let refusal = refused(&SHEET_A, &[], 0, 0, 2);
    assert_refusal(refusal, 6, (0, 0));
    let refusal = refused(&sheet_late(), &LOG, 70, 8, 2);
    assert_refusal(refusal, 6, (0, 0));
    let why = "the room is too short for waits, begins, sheet or budgets, or the list for records";
    assert_eq!(refusal.reason(), Reason::RoomTooShort);
    assert_eq!(refusal.to_string(), format!("refused 6 at 0 0: {why}"));
    // Just long enough.
    assert!(replay_with_records(&SHEET_A, &[], 0, &mut [], &mut [OLD; 3]).is_ok());
}

#[test]
fn the_largest_numbers() {
    // At the last tick before the horizon it is node 2's turn.
    let log = [LATEST - 1, 3, LATEST, 1];
    let expected = [record(0, 0, 0), record(0, 0, 0), record(1, 0, 0)];
    assert_eq!(recorded(&SHEET_A, &log, LATEST), expected);
    // Sixteen nodes, of which the first has all messages: one each 170,000 ticks.
    let row = [54, 0, 1].repeat(15);
    let sheet = [
        &[16, 10_000, 10_000, 51, 1, 1],
        &row[..],
        &[LATEST, LATEST, 0],
    ]
    .concat();
    assert_eq!(listed(&sheet), [Some(319_999)]);
    let log = [0, 1].repeat(MAX_RELEASES);
    let list = recorded(&sheet, &log, LATEST);
    assert_eq!(list, [record(4_096, 4_095 * 170_000, 4_094)]);
}
