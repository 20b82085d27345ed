//! The replay of sheet A by pieces, every refusal of it, and what it leaves of
//! the checkpoint and the room.

use wistorvan::{raw, replay, resume, Checkpoint, Reason, Refusal, MAX_RELEASES, MAX_WAITING};

const SHEET_A: [u32; 18] = [2, 5, 1, 9, 2, 1, 15, 1, 2, 40, 40, 0, 60, 60, 0, 30, 30, 0];
const LATEST: u32 = 1_000_000_000;

/// Where the next turn and the horizon stand, and what waits: number, tick and
/// stream of each. All places past it must be 0.
fn standing(checkpoint: &Checkpoint) -> ([u32; 5], Vec<[u32; 3]>) {
    let Checkpoint {
        horizon,
        tick,
        node,
        turns,
        releases,
        waiting,
        numbers,
        ticks,
        streams,
    } = checkpoint;
    let waiting = *waiting as usize;
    for table in [numbers, ticks, streams] {
        assert!(table[waiting..].iter().all(|&word| word == 0));
    }
    let places = (0..waiting).map(|place| [numbers[place], ticks[place], streams[place]]);
    (
        [*horizon, *tick, *node, *turns, *releases],
        places.collect(),
    )
}

/// P9 whole has the begins 0, 12 and 6, 25 turns and the next at 40.
#[test]
fn a_log_in_three_pieces() {
    let (mut checkpoint, mut room) = (Checkpoint::fresh(), [7; 6]);
    let first = resume(&SHEET_A, &[0, 1, 0, 2], 1, &mut checkpoint, &mut room).unwrap();
    assert_eq!((first.words, first.turns), (&[1, 0][..], 1));
    assert_eq!(room, [1, 0, 7, 7, 7, 7]);
    assert_eq!(standing(&checkpoint), ([1, 6, 2, 1, 2], vec![[2, 0, 2]]));
    let second = resume(&SHEET_A, &[1, 3], 12, &mut checkpoint, &mut room).unwrap();
    assert_eq!((second.words, second.turns), (&[3, 6][..], 2));
    assert_eq!(standing(&checkpoint), ([12, 12, 1, 2, 3], vec![[2, 0, 2]]));
    let third = resume(&SHEET_A, &[], 40, &mut checkpoint, &mut room).unwrap();
    assert_eq!((third.words, third.turns), (&[2, 12][..], 25));
    assert_eq!(standing(&checkpoint), ([40, 40, 2, 25, 3], vec![]));
}

/// A log of 4,096 releases, in pieces of 64.
#[test]
fn a_long_log() {
    let log: Vec<u32> = (0..MAX_RELEASES as u32)
        .flat_map(|i| [9 * i, 1 + i % 3])
        .collect();
    let horizon = 9 * MAX_RELEASES as u32;
    let (mut whole_room, mut room) = (vec![7; MAX_RELEASES], [7; 2 * MAX_WAITING]);
    let whole = replay(&SHEET_A, &log, horizon, &mut whole_room).unwrap();
    let (mut checkpoint, mut turns) = (Checkpoint::fresh(), 0);
    let mut begins = vec![wistorvan::NOT_BEGUN; MAX_RELEASES];
    for (number, piece) in (1..).zip(log.chunks(2 * 64)) {
        let end = 9 * 64 * number;
        let resumed = resume(&SHEET_A, piece, end, &mut checkpoint, &mut room).unwrap();
        for (release, begin) in resumed.begun() {
            begins[release as usize - 1] = begin;
        }
        turns = resumed.turns;
    }
    assert_eq!(begins, whole.begins);
    assert_eq!((turns, checkpoint.tick), (whole.turns, whole.next));
    assert_eq!(checkpoint.releases, 4_096);
    let refusal = resume(
        &SHEET_A,
        &[horizon, 1],
        horizon + 1,
        &mut checkpoint,
        &mut room,
    );
    let refusal = refusal.unwrap_err();
    assert_eq!((refusal.number(), refusal.place()), (9, (0, 0)));
}

/// Places that hold something past the waiting, ticks that fall and one that
/// never comes: all of it is taken as it stands.
#[test]
fn a_made_up_checkpoint() {
    let mut checkpoint = Checkpoint::fresh();
    checkpoint.tick = 10;
    checkpoint.waiting = 3;
    checkpoint.numbers = [9; 256];
    checkpoint.ticks = [77; 256];
    checkpoint.streams = [u32::MAX; 256];
    checkpoint.numbers[..3].copy_from_slice(&[5, 6, 5]);
    checkpoint.ticks[..3].copy_from_slice(&[12, u32::MAX, 3]);
    checkpoint.streams[..3].copy_from_slice(&[1, 3, 2]);
    let mut room = [7; 7];
    let answer = raw::resume(&SHEET_A, &[], LATEST, &mut checkpoint, &mut room);
    // The turn at 10 takes the third, that at 17 the first.
    assert_eq!((answer.number, answer.second), (0, 2));
    assert_eq!(room, [5, 10, 5, 17, 7, 7, 7]);
    let turns = LATEST - 20;
    assert_eq!(answer.third, turns);
    let expected = ([LATEST, LATEST, 1, turns, 0], vec![[6, u32::MAX, 3]]);
    assert_eq!(standing(&checkpoint), expected);
}

/// The refusal, which leaves checkpoint and room as they were.
#[track_caller]
fn refused(checkpoint: &Checkpoint, piece: &[u32], horizon: u32, words: usize) -> Refusal {
    let (mut after, mut room) = (checkpoint.clone(), vec![7; words]);
    let refusal = resume(&SHEET_A, piece, horizon, &mut after, &mut room).unwrap_err();
    assert_eq!((&after, room), (checkpoint, vec![7; words]));
    refusal
}

#[track_caller]
fn assert_refusal(refusal: Refusal, reason: Reason, number: u32, place: (u32, u32), why: &str) {
    assert_eq!(refusal.reason(), reason);
    let (a, b) = place;
    let said = format!("refused {number} at {a} {b}: {why}");
    assert_eq!(refusal.to_string(), said);
}

#[test]
fn checkpoints_that_are_refused() {
    let changes: [fn(&mut Checkpoint); 7] = [
        |it| it.tick = LATEST + 1,
        |it| it.node = 0,
        |it| it.node = 3,
        |it| it.turns = LATEST + 1,
        |it| it.releases = 4_097,
        |it| it.waiting = 257,
        |it| (it.waiting, it.streams[1]) = (2, 1),
    ];
    let why = "the record's tick, node, turns, releases or waiting are out of range";
    for change in changes {
        let mut checkpoint = Checkpoint::fresh();
        change(&mut checkpoint);
        // Before what is wrong with the piece, the horizon and the room.
        let refusal = refused(&checkpoint, &[0, 1, 0], LATEST + 1, 0);
        assert_refusal(refusal, Reason::BadBus, 16, (0, 0), why);
    }
}

#[test]
fn pieces_that_are_refused() {
    let mut checkpoint = Checkpoint::fresh();
    (checkpoint.horizon, checkpoint.releases) = (10, 4_094);
    let why = "the log's length is odd or over 4,096 releases";
    for piece in [&[10][..], &[10, 1, 10, 1, 10, 9]] {
        let refusal = refused(&checkpoint, piece, 20, 0);
        assert_refusal(refusal, Reason::BadLog, 9, (0, 0), why);
    }
    let why = "release 2: wrong tick or unknown stream";
    for (tick, stream) in [(9, 1), (11, 1), (20, 1), (12, 0), (12, 4), (LATEST + 1, 1)] {
        let refusal = refused(&checkpoint, &[12, 1, tick, stream], 20, 0);
        assert_refusal(refusal, Reason::BadLog, 9, (0, 2), why);
    }
}

#[test]
fn horizons_that_are_refused() {
    let mut checkpoint = Checkpoint::fresh();
    (checkpoint.horizon, checkpoint.waiting) = (10, 1);
    checkpoint.streams[0] = 1;
    let why = "the horizon is over 1,000,000,000 or below the checkpoint's";
    for horizon in [9, LATEST + 1] {
        let refusal = refused(&checkpoint, &[], horizon, 0);
        assert_refusal(refusal, Reason::HorizonTooLarge, 10, (0, 0), why);
    }
    assert_eq!(refused(&checkpoint, &[10, 1], 9, 0).place(), (0, 1));
}

#[test]
fn too_many_waiting_and_a_short_room() {
    let mut checkpoint = Checkpoint::fresh();
    checkpoint.waiting = 255;
    checkpoint.streams[..255].fill(3);
    let why = "the waiting and the piece's releases are more than 256";
    let refusal = refused(&checkpoint, &[5, 1, 6, 1], 20, 0);
    assert_refusal(refusal, Reason::TooManyWaiting, 12, (0, 0), why);
    let why = "the room is too short for waits, begins, sheet or budgets, or the list for records";
    let refusal = refused(&checkpoint, &[5, 1], 20, 2 * MAX_WAITING - 1);
    assert_refusal(refusal, Reason::RoomTooShort, 6, (0, 0), why);
    let mut room = [7; 2 * MAX_WAITING];
    let resumed = resume(&SHEET_A, &[5, 1], 20, &mut checkpoint, &mut room).unwrap();
    // Node 2 has the turns at 1 and, behind the turn at 12 in which release 1 of
    // the piece begins, at 18.
    let begun = [(0, 1), (0, 6), (1, 12), (0, 18), (0, 23)];
    assert!(resumed.begun().eq(begun));
    assert_eq!(checkpoint.waiting, 251);
}
