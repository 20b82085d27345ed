//! Named cases for the replay by pieces: the places full, the far ends of the
//! ranges, and each refusal.

use super::named::{nodes_alike, SMALL};
use super::pieces::{Piece, PiecesCase};
use super::sheets::steady;
use crate::pieces::{Place, MOST_WAITING};
use crate::sheet::LAST_TICK;
use crate::Checkpoint;

type Named = (&'static str, PiecesCase);

fn piece(releases: &[u32], horizon: u32) -> Piece {
    Piece {
        releases: releases.to_vec(),
        horizon,
        room: (0..515).map(|place| 3_000_000_000 + place).collect(),
    }
}

fn from_the_start(sheet: &[u32], pieces: Vec<Piece>) -> PiecesCase {
    from(sheet, Checkpoint::fresh(), pieces)
}

fn from(sheet: &[u32], record: Checkpoint, pieces: Vec<Piece>) -> PiecesCase {
    PiecesCase {
        sheet: sheet.to_vec(),
        record,
        pieces,
    }
}

/// A record in which these wait, tick and stream of each, numbered from 1 on.
fn waiting(tick: u32, places: &[(u32, u32)]) -> Checkpoint {
    let mut record = Checkpoint::fresh();
    for ((number, place), &(tick, stream)) in (1..).zip(&mut record.places).zip(places) {
        *place = Place {
            number,
            tick,
            stream,
        };
    }
    record.tick = tick;
    record.waiting = places.len() as u32;
    record.releases = record.waiting;
    record
}

fn cut_up() -> Vec<Named> {
    let p9 = [piece(&[0, 1, 0, 2], 1), piece(&[1, 3], 12), piece(&[], 40)];
    let none = [piece(&[], 0), piece(&[], 0), piece(&[], LAST_TICK)];
    let burst: Vec<u32> = [0, 3].repeat(MOST_WAITING);
    let more: Vec<u32> = [0, 3].repeat(MOST_WAITING + 1);
    // Two messages of node 2 begin in a cycle of 12 ticks.
    let next: Vec<u32> = (0..4).flat_map(|i| [24 + 6 * i, 1]).collect();
    vec![
        ("three pieces", from_the_start(&SMALL, p9.to_vec())),
        ("no releases", from_the_start(&SMALL, none.to_vec())),
        (
            "all places, then four freed and used again",
            from_the_start(&SMALL, vec![piece(&burst, 24), piece(&next, 60)]),
        ),
        (
            "one more than there are places",
            from_the_start(&SMALL, vec![piece(&more, 24), piece(&burst, LAST_TICK)]),
        ),
        (
            "all releases of a log, one a piece",
            from_the_start(&SMALL, one_a_piece(4_096)),
        ),
        (
            "one release more than a log has",
            from_the_start(&SMALL, one_a_piece(4_097)),
        ),
    ]
}

/// Of stream 3, which is served as soon as it comes; by 12 ticks apart.
fn one_a_piece(count: u32) -> Vec<Piece> {
    let of = |number: u32| piece(&[12 * number, 3], 12 * number + 12);
    (0..count).map(of).collect()
}

fn made_up() -> Vec<Named> {
    let never = waiting(0, &[(u32::MAX, 1), (LAST_TICK, 2), (u32::MAX - 1, 3)]);
    let falling = waiting(100, &[(99, 1), (7, 1), (101, 2), (0, 2), (100, 3)]);
    let full = waiting(5, &[(5, 2); MOST_WAITING]);
    let mut turns = waiting(0, &[(500_000_000, 1)]);
    turns.turns = LAST_TICK;
    let mut last = waiting(LAST_TICK, &[(LAST_TICK, 1)]);
    last.horizon = LAST_TICK;
    let mut early = waiting(0, &[(0, 1), (3, 2)]);
    early.horizon = 50;
    let mut far = waiting(0, &[]);
    far.horizon = u32::MAX;
    // The last turns, in which all begin past the last tick.
    let long = nodes_alike(16, [10_000, 10_000, 16], &steady(&[(LAST_TICK, LAST_TICK)]));
    let end = waiting(LAST_TICK - 1, &[(0, 1); 16]);
    let to_the_end = || vec![piece(&[], LAST_TICK)];
    vec![
        (
            "never due, up to the last horizon",
            from(&SMALL, never, to_the_end()),
        ),
        (
            "ticks that fall",
            from(
                &SMALL,
                falling,
                vec![piece(&[], 101), piece(&[101, 1], 200)],
            ),
        ),
        (
            "all places taken, and no release",
            from(&SMALL, full.clone(), vec![piece(&[], 6), piece(&[], 600)]),
        ),
        (
            "all places taken, and one release",
            from(&SMALL, full, vec![piece(&[5, 1], 6)]),
        ),
        (
            "as many turns as may be, and as many again",
            from(
                &SMALL,
                turns,
                vec![piece(&[], LAST_TICK), piece(&[], LAST_TICK)],
            ),
        ),
        (
            "a next turn at the last horizon",
            from(&SMALL, last, to_the_end()),
        ),
        (
            "a next turn before the old horizon",
            from(&SMALL, early, vec![piece(&[], 50), piece(&[50, 3], 80)]),
        ),
        (
            "a horizon that no piece can have",
            from(
                &SMALL,
                far,
                vec![piece(&[], u32::MAX), piece(&[], LAST_TICK)],
            ),
        ),
        (
            "begins past the last tick",
            from(
                &long,
                end,
                vec![piece(&[], LAST_TICK), piece(&[], LAST_TICK)],
            ),
        ),
    ]
}

/// The sheet with another word, and a piece that is right on the good one.
fn on_a_sheet_with(place: usize, word: u32) -> PiecesCase {
    let mut sheet = SMALL;
    sheet[place] = word;
    from_the_start(&sheet, vec![piece(&[0, 1], 1)])
}

/// Each refusal.
fn refused() -> Vec<Named> {
    let mut off_the_bus = Checkpoint::fresh();
    off_the_bus.node = 3;
    let mut short = piece(&[0, 1, 5, 1], 20);
    short.room.truncate(3);
    vec![
        (
            "a sheet of two words",
            from_the_start(&SMALL[..2], vec![piece(&[], 1)]),
        ),
        ("no nodes", on_a_sheet_with(0, 0)),
        ("messages of no length", on_a_sheet_with(1, 0)),
        (
            "a sheet cut short",
            from_the_start(&SMALL[..17], vec![piece(&[], 1)]),
        ),
        ("a budget of 0", on_a_sheet_with(5, 0)),
        ("a deadline of 0", on_a_sheet_with(13, 0)),
        (
            "a node that is not there",
            from(&SMALL, off_the_bus, vec![piece(&[0], u32::MAX)]),
        ),
        (
            "an odd length, and a fallen tick",
            from_the_start(&SMALL, vec![piece(&[0], 1), piece(&[5, 1, 4, 1], 9)]),
        ),
        (
            "a horizon too large, and a fallen one",
            from_the_start(
                &SMALL,
                vec![piece(&[], LAST_TICK + 1), piece(&[], 9), piece(&[], 8)],
            ),
        ),
        (
            "a room that is short by one word",
            from_the_start(&SMALL, vec![short]),
        ),
    ]
}

pub fn named_pieces() -> Vec<Named> {
    [cut_up(), made_up(), refused()].concat()
}
