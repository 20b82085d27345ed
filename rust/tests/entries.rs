//! What the functions answer about sheet A and its tables, and every refusal,
//! with its place and its sentence.

use std::error::Error;

use wistorvan::{admit, check_sheet, edit_stream, find_budgets, one_stream, raw, replay};
use wistorvan::{replay_with_records, resume, step, write_sheet};
use wistorvan::{Budgets, Bus, Checkpoint, ListedWait, Reason, Refusal, Step, StreamRecord};
use wistorvan::{Tables, Written};
use wistorvan::{LONGEST_SHEET, MAX_NODES, MAX_RELEASES, MAX_STREAMS, NOT_BEGUN};

const SHEET_A: [u32; 18] = [2, 5, 1, 9, 2, 1, 15, 1, 2, 40, 40, 0, 60, 60, 0, 30, 30, 0];
const TABLES_A: Tables = Tables {
    message_ticks: 5,
    slot_ticks: 1,
    counts: &[2, 1],
    budgets: &[1, 2],
    periods: &[40, 60, 30],
    deadlines: &[40, 60, 30],
    jitters: &[0, 0, 0],
};
const LOG: [u32; 6] = [0, 1, 0, 2, 1, 3];
const TOO_LARGE: u32 = 1_000_000_001;

/// Sheet A with another word.
fn sheet_a_with(place: usize, word: u32) -> [u32; 18] {
    let mut sheet = SHEET_A;
    sheet[place] = word;
    sheet
}

/// The refusal in full: what it is, its place and its sentence.
#[track_caller]
fn assert_refusal(refusal: Refusal, reason: Reason, number: u32, place: (u32, u32), why: &str) {
    assert_eq!(refusal.reason(), reason);
    assert_eq!((refusal.number(), refusal.place()), (number, place));
    let (a, b) = place;
    assert_eq!(
        refusal.to_string(),
        format!("refused {number} at {a} {b}: {why}")
    );
}

#[test]
fn sheet_a_is_valid() {
    assert_eq!(check_sheet(&SHEET_A), Ok(()));
}

#[test]
fn each_stream_of_sheet_a() {
    let listed = |node, stream| one_stream(&SHEET_A, node, stream);
    let expected = |wait, cycles| Ok(ListedWait { wait, cycles });
    assert_eq!(listed(1, 1), expected(16, 1));
    assert_eq!(listed(1, 2), expected(33, 2));
    assert_eq!(listed(2, 1), expected(16, 1));
}

#[test]
fn sheet_a_is_admitted() {
    let mut room = [7; 5];
    let admission = admit(&SHEET_A, &mut room).unwrap();
    assert_eq!((admission.waits, admission.cycle), (&[16, 33, 16][..], 17));
    assert_eq!(room, [16, 33, 16, 7, 7]);
}

#[test]
fn a_replayed_log() {
    // Node 2 breaks its period. All four numbers that go in or come out differ.
    let log = [0, 2, 0, 3, 0, 3, 1, 1];
    let mut room = [7; 6];
    let replayed = replay(&SHEET_A, &log, 18, &mut room).unwrap();
    assert_eq!(replayed.begins, [0, 6, 11, 17]);
    assert_eq!((replayed.turns, replayed.next), (3, 23));
    assert_eq!(room, [0, 6, 11, 17, 7, 7]);
}

#[test]
fn a_release_that_has_not_begun() {
    let mut room = [7; 3];
    let replayed = replay(&SHEET_A, &LOG, 12, &mut room).unwrap();
    assert_eq!(replayed.begins, [0, NOT_BEGUN, 6]);
    assert_eq!((replayed.turns, replayed.next), (2, 12));
}

#[test]
fn one_turn_after_another() {
    let (mut bus, mut room) = (Bus::START, [NOT_BEGUN; 4]);
    let mut turns = Vec::new();
    while bus.tick < 18 {
        turns.push(step(&SHEET_A, &LOG, &mut bus, &mut room).unwrap());
    }
    let expected = [(1, 6), (1, 12), (1, 18)].map(|(taken, next)| Step { taken, next });
    assert_eq!(turns, expected);
    assert_eq!(room, [0, 12, 6, NOT_BEGUN]);
    let expected = Bus {
        tick: 18,
        node: 2,
        turns: 3,
    };
    assert_eq!(bus, expected);
}

#[test]
fn sheet_a_from_its_tables() {
    let mut room = [7; 20];
    let written = write_sheet(&TABLES_A, &mut room).unwrap();
    assert_eq!((written.sheet, written.cycle), (&SHEET_A[..], 17));
    assert_eq!(room[..18], SHEET_A);
    assert_eq!(room[18..], [7, 7]);
}

#[test]
fn each_word_of_the_tables_in_its_place() {
    // All words differ, node 2 has no stream, and the room is just long enough.
    let tables = Tables {
        message_ticks: 8,
        slot_ticks: 2,
        counts: &[1, 0, 3],
        budgets: &[4, 5, 7],
        periods: &[100, 200, 300, 400],
        deadlines: &[90, 150, 260, 380],
        jitters: &[99, 0, 17, 31],
    };
    let sheet = [
        3, 8, 2, 12, 1, 4, 15, 0, 5, 15, 3, 7, 100, 90, 99, 200, 150, 0, 300, 260, 17, 400, 380, 31,
    ];
    let mut room = [0; 24];
    let expected = Written {
        sheet: &sheet,
        cycle: 16 * 8 + 3 * 2,
    };
    assert_eq!(write_sheet(&tables, &mut room), Ok(expected));
    assert_eq!(check_sheet(&room), Ok(()));
}

/// What a row that is found leaves of a room of words that are all 7: sixteen
/// words are written.
fn room_with_row(row: &[u32]) -> [u32; MAX_NODES + 2] {
    let mut room = [7; MAX_NODES + 2];
    room[..MAX_NODES].fill(0);
    room[..row.len()].copy_from_slice(row);
    room
}

#[test]
fn the_smallest_budgets_of_sheet_a() {
    let mut room = [7; MAX_NODES + 2];
    let expected = Budgets {
        row: &[1, 1],
        sum: 2,
        cycle: 12,
    };
    assert_eq!(find_budgets(&SHEET_A, &mut room), Ok(expected));
    assert_eq!(room, room_with_row(&[1, 1]));
}

/// The line of examples/budgets.c, with these budgets.
#[rustfmt::skip]
fn line_with([first, second, third]: [u32; 3]) -> [u32; 36] {
    [
        3, 5, 1, 12, 4, first, 24, 2, second, 30, 2, third,
        200, 59, 0, 500, 69, 0, 1000, 49, 0, 400, 69, 0,
        250, 39, 0, 1000, 49, 0,
        1000, 1000, 0, 10000, 10000, 0,
    ]
}

#[test]
fn budgets_that_differ() {
    // Node 1 needs two messages a turn, and with these the cycle is too long
    // for one message a turn of node 2.
    let (mut room, mut waits) = ([7; MAX_NODES + 2], [0; MAX_STREAMS]);
    let expected = Budgets {
        row: &[2, 2, 1],
        sum: 5,
        cycle: 28,
    };
    assert_eq!(find_budgets(&line_with([2, 1, 4]), &mut room), Ok(expected));
    assert_eq!(room, room_with_row(&[2, 2, 1]));
    let admission = admit(&line_with([2, 2, 1]), &mut waits).unwrap();
    assert_eq!(admission.cycle, 28);
    for (less, place) in [([1, 2, 1], (1, 2)), ([2, 1, 1], (2, 2))] {
        let refusal = admit(&line_with(less), &mut waits).unwrap_err();
        assert_eq!((refusal.number(), refusal.place()), (7, place));
    }
}

#[test]
fn the_budgets_of_the_sheet_are_checked_and_not_used() {
    let mut room = [7; MAX_NODES];
    for budgets in [[1, 1, 1], [2, 2, 1], [16, 16, 16]] {
        let found = find_budgets(&line_with(budgets), &mut room).unwrap();
        assert_eq!((found.row, found.cycle), (&[2, 2, 1][..], 28));
    }
    for budgets in [[2, 0, 1], [2, 17, 1]] {
        let refusal = find_budgets(&line_with(budgets), &mut room).unwrap_err();
        assert_eq!((refusal.number(), refusal.place()), (4, (2, 0)));
    }
}

#[test]
fn the_plain_numbers() {
    let numbers = |a: raw::Answer| (a.number, a.second, a.third);
    let mut room = [7; 4];
    assert_eq!(numbers(raw::check_sheet(&SHEET_A)), (0, 0, 0));
    assert_eq!(numbers(raw::one_stream(&SHEET_A, 1, 2)), (0, 33, 2));
    assert_eq!(numbers(raw::admit(&SHEET_A, &mut room)), (0, 3, 17));
    assert_eq!(room, [16, 33, 16, 7]);
    let answer = raw::replay(&SHEET_A, &LOG, 40, &mut room);
    assert_eq!(numbers(answer), (0, 25, 40));
    assert_eq!(room, [0, 12, 6, 7]);
    let mut list = [StreamRecord::default(); 3];
    let answer = raw::replay_with_records(&SHEET_A, &LOG, 12, &mut room, &mut list);
    assert_eq!(numbers(answer), (0, 2, 12));
    assert_eq!(room, [0, NOT_BEGUN, 6, 7]);
    assert_eq!(list.map(|record| record.longest), [0, 0, 5]);
    let mut bus = Bus::START;
    room.fill(NOT_BEGUN);
    let answer = raw::step(&SHEET_A, &LOG, &mut bus, &mut room);
    assert_eq!(numbers(answer), (0, 1, 6));
    assert_eq!((bus.tick, bus.node, bus.turns), (6, 2, 1));
    let mut room = [7; 19];
    let answer = raw::write_sheet(&TABLES_A, &mut room);
    assert_eq!(numbers(answer), (0, 18, 17));
    assert_eq!((&room[..18], room[18]), (&SHEET_A[..], 7));
    let mut room = [7; MAX_NODES + 2];
    let answer = raw::find_budgets(&SHEET_A, &mut room);
    assert_eq!(numbers(answer), (0, 2, 12));
    assert_eq!(room, room_with_row(&[1, 1]));
    let answer = raw::find_budgets(&sheet_a_with(16, 16), &mut room);
    assert_eq!(numbers(answer), (11, 2, 0));
}

/// Every function that takes a sheet gives its refusals before its own.
#[track_caller]
fn sheet_refusal(sheet: &[u32]) -> Refusal {
    let refusal = check_sheet(sheet).unwrap_err();
    let mut bus = Bus {
        node: 0,
        ..Bus::START
    };
    assert_eq!(one_stream(sheet, 0, 0), Err(refusal));
    assert_eq!(admit(sheet, &mut []), Err(refusal));
    assert_eq!(replay(sheet, &[1], TOO_LARGE, &mut []), Err(refusal));
    let recorded = replay_with_records(sheet, &[1], TOO_LARGE, &mut [], &mut []);
    assert_eq!(recorded, Err(refusal));
    assert_eq!(step(sheet, &[1], &mut bus, &mut []), Err(refusal));
    assert_eq!(find_budgets(sheet, &mut []), Err(refusal));
    let edited = edit_stream(&mut sheet.to_vec(), 0, 0, 0, 0, 0, 0);
    assert_eq!(edited, Err(refusal));
    let mut checkpoint = Checkpoint {
        node: 0,
        ..Checkpoint::fresh()
    };
    let resumed = resume(sheet, &[1], TOO_LARGE, &mut checkpoint, &mut []);
    assert_eq!(resumed, Err(refusal));
    refusal
}

#[test]
fn refusals_of_a_header() {
    let why = "the sheet has fewer than 3 words";
    for length in [0, 2] {
        let refusal = sheet_refusal(&SHEET_A[..length]);
        assert_refusal(refusal, Reason::SheetTooShort, 1, (0, 0), why);
    }
    let refusal = sheet_refusal(&sheet_a_with(0, 17));
    let why = "the number of nodes is not 1 to 16";
    assert_refusal(refusal, Reason::BadNodeCount, 2, (0, 0), why);
    let refusal = sheet_refusal(&sheet_a_with(2, 10_001));
    let why = "TMS or TPR is not 1 to 10,000";
    assert_refusal(refusal, Reason::BadDuration, 3, (0, 0), why);
}

#[test]
fn refusals_of_contents_and_bodies() {
    let why = "the sheet or a table has a wrong length";
    for length in [8, 17] {
        let refusal = sheet_refusal(&SHEET_A[..length]);
        assert_refusal(refusal, Reason::BadContents, 4, (0, 0), why);
    }
    let refusal = sheet_refusal(&sheet_a_with(8, 17));
    let why = "node 2: wrong place, stream count or budget";
    assert_refusal(refusal, Reason::BadContents, 4, (2, 0), why);
    let why = "stream 2 of node 1: wrong period, deadline or jitter";
    // Its deadline, which may be as long as its period of 60, and its jitter,
    // which may not.
    for (place, word) in [(13, 61), (14, 60)] {
        let refusal = sheet_refusal(&sheet_a_with(place, word));
        assert_refusal(refusal, Reason::BadStream, 5, (1, 2), why);
    }
    assert_eq!(check_sheet(&sheet_a_with(14, 59)), Ok(()));
}

#[test]
fn a_late_stream() {
    // Equal deadlines, so the shorter period goes first.
    let both = |deadline| {
        let mut sheet = sheet_a_with(10, deadline);
        sheet[13] = deadline;
        sheet
    };
    let sheet = both(38);
    let why = "stream 2 of node 1 would be late";
    let mut room = [7; 3];
    let refusal = admit(&sheet, &mut room).unwrap_err();
    assert_refusal(refusal, Reason::Late, 7, (1, 2), why);
    assert_eq!(room, [7; 3]);
    assert_eq!(one_stream(&sheet, 1, 2), Err(refusal));
    let admission = admit(&both(39), &mut room).unwrap();
    assert_eq!(admission.waits, [16, 33, 16]);
    // The shorter deadline goes first, though its period is longer.
    let admission = admit(&sheet_a_with(13, 37), &mut room).unwrap();
    assert_eq!(admission.waits, [33, 16, 16]);
}

/// The waits of sheet A with a jitter of one of its streams, or the place of the
/// late one.
fn waits_with_jitter(stream: usize, jitter: u32) -> Result<[u32; 3], (u32, u32)> {
    let (sheet, mut room) = (sheet_a_with(11 + 3 * stream, jitter), [7; 3]);
    match admit(&sheet, &mut room) {
        Ok(_) => Ok(room),
        Err(refusal) => {
            assert_eq!((refusal.reason(), room), (Reason::Late, [7; 3]));
            Err(refusal.place())
        }
    }
}

#[test]
fn a_jitter_lengthens_the_waits_below() {
    // 33 + 7 is a period of stream 1: two messages of it come before stream 2.
    assert_eq!(waits_with_jitter(0, 6), Ok([16, 33, 16]));
    assert_eq!(waits_with_jitter(0, 7), Ok([16, 50, 16]));
}

#[test]
fn a_deadline_runs_from_the_event() {
    // Delivery comes 33 + 6 ticks after the queuing in stream 2, and 16 + 11 in
    // stream 3; the jitter comes before. The rank stays, and so do the waits.
    assert_eq!(waits_with_jitter(1, 21), Ok([16, 33, 16]));
    assert_eq!(waits_with_jitter(1, 22), Err((1, 2)));
    assert_eq!(waits_with_jitter(2, 3), Ok([16, 33, 16]));
    assert_eq!(waits_with_jitter(2, 4), Err((2, 1)));
    // A jitter at its deadline and above is valid, and always late.
    let mut sheet = sheet_a_with(10, 30);
    for jitter in [30, 39] {
        sheet[11] = jitter;
        assert_eq!(check_sheet(&sheet), Ok(()));
        let refusal = one_stream(&sheet, 1, 1).unwrap_err();
        assert_eq!((refusal.number(), refusal.place()), (7, (1, 1)));
    }
}

#[test]
fn budgets_are_found_with_jitter() {
    let mut room = [7; MAX_NODES];
    // With 1 and 1 the cycle is 12: stream 3 is delivered 11 + 6 ticks after its
    // queuing, and 13 may pass before; then more budget would only be slower.
    let found = find_budgets(&sheet_a_with(17, 13), &mut room).unwrap();
    assert_eq!(found.row, [1, 1]);
    let refusal = find_budgets(&sheet_a_with(17, 14), &mut room).unwrap_err();
    assert_eq!(
        (refusal.reason(), refusal.place()),
        (Reason::NoBudgets, (2, 0))
    );
}

#[test]
fn a_log_holds_queuing_ticks() {
    // Jitter plays no part in a replay, nor in the rank: 60 less 59 is the
    // shortest, and stream 2 still goes after stream 1.
    let mut room = [7; 3];
    let replayed = replay(&sheet_a_with(14, 59), &LOG, 40, &mut room).unwrap();
    assert_eq!(replayed.begins, [0, 12, 6]);
}

#[test]
fn no_budgets_that_work() {
    let (mut room, too_short) = ([7; MAX_NODES], &mut [7; MAX_NODES - 1]);
    // In the second sheet node 1 becomes late too, but node 2 has 16 first.
    for (sheet, node) in [(sheet_a_with(10, 16), 1), (sheet_a_with(16, 16), 2)] {
        let refusal = find_budgets(&sheet, &mut room).unwrap_err();
        let why = format!("no budgets of 1 to 16 work: node {node} is late even with 16");
        assert_refusal(refusal, Reason::NoBudgets, 11, (node, 0), &why);
        let refusal = find_budgets(&sheet, too_short).unwrap_err();
        assert_eq!(refusal.reason(), Reason::RoomTooShort);
    }
    assert_eq!((room, *too_short), ([7; MAX_NODES], [7; MAX_NODES - 1]));
    // A tick more is enough: with 1 and 1 the cycle is 12, and 12 - 1 + 6 is 17.
    let found = find_budgets(&sheet_a_with(16, 17), &mut room).unwrap();
    assert_eq!(found.row, [1, 1]);
}

#[test]
fn a_stream_that_is_not_there() {
    for (node, stream) in [(0, 1), (1, 0), (1, 3), (2, 2), (3, 1)] {
        let refusal = one_stream(&SHEET_A, node, stream).unwrap_err();
        let why = format!("the sheet has no stream {stream} of node {node}");
        assert_refusal(refusal, Reason::NoSuchStream, 8, (node, stream), &why);
    }
}

#[test]
fn a_room_too_short() {
    let why = "the room is too short for waits, begins, sheet or budgets, or the list for records";
    let (mut room, mut bus) = ([NOT_BEGUN; 2], Bus::START);
    let refusal = admit(&SHEET_A, &mut room).unwrap_err();
    assert_refusal(refusal, Reason::RoomTooShort, 6, (0, 0), why);
    assert_eq!(replay(&SHEET_A, &LOG, 40, &mut room), Err(refusal));
    assert_eq!(step(&SHEET_A, &LOG, &mut bus, &mut room), Err(refusal));
    assert_eq!((room, bus), ([NOT_BEGUN; 2], Bus::START));
    let mut room = [7; SHEET_A.len() - 1];
    assert_eq!(write_sheet(&TABLES_A, &mut room), Err(refusal));
    assert_eq!(room, [7; SHEET_A.len() - 1]);
    // Sixteen words, though the sheet has two nodes.
    let mut room = [7; MAX_NODES - 1];
    assert_eq!(find_budgets(&SHEET_A, &mut room), Err(refusal));
    assert_eq!(room, [7; MAX_NODES - 1]);
}

/// The replays and the step refuse a log alike, before all but the sheet.
#[track_caller]
fn log_refusal(log: &[u32]) -> Refusal {
    let mut bus = Bus {
        node: 0,
        ..Bus::START
    };
    let refusal = replay(&SHEET_A, log, TOO_LARGE, &mut []).unwrap_err();
    let recorded = replay_with_records(&SHEET_A, log, TOO_LARGE, &mut [], &mut []);
    assert_eq!(recorded, Err(refusal));
    assert_eq!(step(&SHEET_A, log, &mut bus, &mut []), Err(refusal));
    refusal
}

#[test]
fn refusals_of_a_log() {
    let why = "the log's length is odd or over 4,096 releases";
    assert_refusal(log_refusal(&[0, 1, 0]), Reason::BadLog, 9, (0, 0), why);
    let too_many = [0, 1].repeat(MAX_RELEASES + 1);
    assert_refusal(log_refusal(&too_many), Reason::BadLog, 9, (0, 0), why);
    for log in [[5, 1, TOO_LARGE, 1], [5, 1, 4, 1], [5, 1, 5, 4]] {
        let why = "release 2: wrong tick or unknown stream";
        assert_refusal(log_refusal(&log), Reason::BadLog, 9, (0, 2), why);
    }
}

#[test]
fn a_horizon_too_large() {
    let refusal = replay(&SHEET_A, &LOG, TOO_LARGE, &mut []).unwrap_err();
    let why = "the horizon is over 1,000,000,000 or below the checkpoint's";
    assert_refusal(refusal, Reason::HorizonTooLarge, 10, (0, 0), why);
}

#[test]
fn a_record_off_the_bus() {
    let why = "the record's tick, node, turns, releases or waiting are out of range";
    let at = |tick, node, turns| Bus { tick, node, turns };
    for record in [
        at(TOO_LARGE, 1, 0),
        at(0, 0, 0),
        at(0, 3, 0),
        at(0, 1, TOO_LARGE),
    ] {
        let mut bus = record;
        let refusal = step(&SHEET_A, &LOG, &mut bus, &mut []).unwrap_err();
        assert_refusal(refusal, Reason::BadBus, 16, (0, 0), why);
        assert_eq!(bus, record);
    }
}

/// What the writer refuses, whatever the room is; it changes no word.
#[track_caller]
fn tables_refusal(tables: Tables) -> Refusal {
    let mut room = [7; LONGEST_SHEET];
    let refusal = write_sheet(&tables, &mut room).unwrap_err();
    assert_eq!(room, [7; LONGEST_SHEET]);
    assert_eq!(write_sheet(&tables, &mut []), Err(refusal));
    refusal
}

/// Tables with everything wrong but the number of nodes. The tests below put
/// one thing after the other right, in the order of the refusals.
const ALL_WRONG: Tables = Tables {
    message_ticks: 0,
    slot_ticks: 0,
    counts: &[17, 17],
    budgets: &[0],
    periods: &[0],
    deadlines: &[0, 0],
    jitters: &[],
};

#[test]
fn refusals_of_the_nodes_and_ticks_of_tables() {
    let why = "the number of nodes is not 1 to 16";
    for counts in [&[][..], &[17; 17]] {
        let refusal = tables_refusal(Tables {
            counts,
            ..ALL_WRONG
        });
        assert_refusal(refusal, Reason::BadNodeCount, 2, (0, 0), why);
    }
    let why = "TMS or TPR is not 1 to 10,000";
    for (message_ticks, slot_ticks) in [(0, 1), (10_001, 1), (5, 0), (5, 10_001)] {
        let refusal = tables_refusal(Tables {
            message_ticks,
            slot_ticks,
            ..ALL_WRONG
        });
        assert_refusal(refusal, Reason::BadDuration, 3, (0, 0), why);
    }
}

/// Tables whose contents or streams are wrong, on sheet A's bus.
fn on_bus_a<'t>(rows: [&'t [u32]; 2], streams: [&'t [u32]; 3]) -> Tables<'t> {
    let ([counts, budgets], [periods, deadlines, jitters]) = (rows, streams);
    Tables {
        counts,
        budgets,
        periods,
        deadlines,
        jitters,
        ..TABLES_A
    }
}

#[test]
fn refusals_of_the_rows_of_tables() {
    let wrong = [&[0][..], &[0, 0], &[]];
    let why = "the sheet or a table has a wrong length";
    for budgets in [&[][..], &[0], &[0; 3]] {
        let refusal = tables_refusal(on_bus_a([&[17, 17], budgets], wrong));
        assert_refusal(refusal, Reason::BadContents, 4, (0, 0), why);
    }
    for (counts, budgets, node) in [
        ([17, 17], [1, 0], 1),
        ([2, 17], [0, 2], 1),
        ([2, 17], [17, 2], 1),
        ([2, 17], [1, 2], 2),
        ([2, 1], [1, 0], 2),
        ([2, 1], [1, u32::MAX], 2),
        ([16, u32::MAX], [16, 2], 2),
    ] {
        let refusal = tables_refusal(on_bus_a([&counts, &budgets], wrong));
        let why = format!("node {node}: wrong place, stream count or budget");
        assert_refusal(refusal, Reason::BadContents, 4, (node, 0), &why);
    }
}

#[test]
fn refusals_of_the_streams_of_tables() {
    let rows = [TABLES_A.counts, TABLES_A.budgets];
    let why = "the sheet or a table has a wrong length";
    let (two, three, four) = (&[0; 2][..], &[0; 3][..], &[0; 4][..]);
    for streams in [
        [two, three, three],
        [three, two, three],
        [three, three, two],
        [four, three, three],
        [three, four, three],
        [three, three, four],
        [three, three, &[]],
        [two, two, two],
        [&[], &[], &[]],
    ] {
        let refusal = tables_refusal(on_bus_a(rows, streams));
        assert_refusal(refusal, Reason::BadContents, 4, (0, 0), why);
    }
    for (periods, deadlines, jitters, (node, stream)) in [
        ([0, 60, 30], [0, 60, 30], [0, 60, 30], (1, 1)),
        ([40, TOO_LARGE, 0], [40, 60, 30], [0, 0, 0], (1, 2)),
        ([40, 60, 30], [40, 61, 31], [0, 0, 30], (1, 2)),
        ([40, 60, 30], [40, 0, 0], [0, 0, 0], (1, 2)),
        ([40, 60, 30], [40, 60, 31], [0, 0, 0], (2, 1)),
        ([40, 60, 30], [40, 60, 31], [0, 60, 0], (1, 2)),
        ([40, 60, 30], [40, 60, 30], [39, 59, 30], (2, 1)),
        ([40, 60, 30], [40, 60, 30], [u32::MAX, 0, 0], (1, 1)),
    ] {
        let refusal = tables_refusal(on_bus_a(rows, [&periods, &deadlines, &jitters]));
        let why = format!("stream {stream} of node {node}: wrong period, deadline or jitter");
        assert_refusal(refusal, Reason::BadStream, 5, (node, stream), &why);
    }
}

/// Sixteen nodes of sixteen streams, with the longest periods and deadlines.
fn longest_sheet() -> Vec<u32> {
    let rows = (0..16).flat_map(|node| [51 + 48 * node, 16, 16]);
    let bodies = [1_000_000_000, 1_000_000_000, 500].repeat(MAX_STREAMS);
    [16, 1, 1].into_iter().chain(rows).chain(bodies).collect()
}

#[test]
fn the_longest_sheet() {
    let most = Tables {
        message_ticks: 1,
        slot_ticks: 1,
        counts: &[16; 16],
        budgets: &[16; 16],
        periods: &[1_000_000_000; MAX_STREAMS],
        deadlines: &[1_000_000_000; MAX_STREAMS],
        jitters: &[500; MAX_STREAMS],
    };
    let mut room = [0; LONGEST_SHEET];
    let written = write_sheet(&most, &mut room).unwrap();
    assert_eq!((written.sheet, written.cycle), (&longest_sheet()[..], 272));
    let refusal = write_sheet(&most, &mut room[1..]).unwrap_err();
    assert_eq!(refusal.reason(), Reason::RoomTooShort);
}

#[test]
fn the_longest_rooms() {
    let sheet = longest_sheet();
    let mut room = [0; MAX_STREAMS];
    let waits = admit(&sheet, &mut room).unwrap().waits;
    // Full cycle 16 x 16 + 16, and the fifteen of its node in front of the last.
    assert_eq!((waits.len(), waits[0], waits[255]), (MAX_STREAMS, 271, 286));
    let refusal = admit(&sheet, &mut room[1..]).unwrap_err();
    assert_eq!(refusal.reason(), Reason::RoomTooShort);

    let mut room = [0; MAX_NODES];
    let found = find_budgets(&sheet, &mut room).unwrap();
    let expected = Budgets {
        row: &[1; 16],
        sum: 16,
        cycle: 32,
    };
    assert_eq!(found, expected);
    let refusal = find_budgets(&sheet, &mut room[1..]).unwrap_err();
    assert_eq!(refusal.reason(), Reason::RoomTooShort);

    let log = [0, 256].repeat(MAX_RELEASES);
    let mut room = [0; MAX_RELEASES];
    let replayed = replay(&sheet, &log, 16, &mut room).unwrap();
    assert_eq!(replayed.begins[15..17], [30, NOT_BEGUN]);
    let refusal = replay(&sheet, &log, 16, &mut room[1..]).unwrap_err();
    assert_eq!(refusal.reason(), Reason::RoomTooShort);
}

#[test]
fn a_refusal_is_an_error_like_others() {
    fn asks() -> Result<u32, Box<dyn Error + Send + Sync>> {
        let tick: u32 = "40".parse()?;
        Ok(replay(&SHEET_A, &[0, 4], tick, &mut [0])?.turns)
    }
    let error = asks().unwrap_err();
    let refusal = error.downcast_ref::<Refusal>().unwrap();
    assert_eq!(refusal.place(), (0, 1));
}
