//! The replay by pieces: begins, records and refusals on sheet A, worked out by
//! hand.

mod common;

use common::*;
use peer::{resume, Checkpoint, Lent, Place, CHECKPOINT_WORDS, MOST_WAITING};

const LAST_TICK: u32 = 1_000_000_000;
const NEVER: u32 = u32::MAX;

/// Next tick, node, turns and releases of a record.
fn standing(record: &Checkpoint) -> [u32; 4] {
    [record.tick, record.node, record.turns, record.releases]
}

#[test]
fn a_fresh_record() {
    let mut words = [0; CHECKPOINT_WORDS];
    words[2] = 1;
    assert_eq!(Checkpoint::fresh().words(), words);
}

/// Six numbers, then one table after the other.
#[test]
fn the_words_of_a_record() {
    let mut record = record_with(&[(10, 20, 30), (11, 21, 31)]);
    record.horizon = 1;
    record.tick = 2;
    record.node = 3;
    record.turns = 4;
    record.releases = 5;
    record.places[255] = Place {
        number: 12,
        tick: 22,
        stream: 32,
    };
    let words = record.words();
    assert_eq!(words.len(), 774);
    assert_eq!(words[..6], [1, 2, 3, 4, 5, 2]);
    let at = [6, 7, 261, 262, 263, 517, 518, 519, 773];
    let expected = [10, 11, 12, 20, 21, 22, 30, 31, 32];
    assert_eq!(at.map(|place| words[place]), expected);
    let others = words.iter().filter(|&&word| word != 0).count();
    assert_eq!(others, 6 + 9);
}

/// P9: whole it begins at 0, 12 and 6, with 25 turns and the next at 40.
#[test]
fn p9_in_three_pieces() {
    let record = &mut Checkpoint::fresh();
    let first = resumed(record, &[0, 1, 0, 2], 1);
    assert_eq!(first, (answer(0, 1, 1), vec![(1, 0)]));
    assert_eq!((record.horizon, standing(record)), (1, [6, 2, 1, 2]));
    assert_eq!(waiting(record), [(2, 0, 2)]);
    let second = resumed(record, &[1, 3], 12);
    assert_eq!(second, (answer(0, 1, 2), vec![(3, 6)]));
    assert_eq!((record.horizon, standing(record)), (12, [12, 1, 2, 3]));
    assert_eq!(waiting(record), [(2, 0, 2)]);
    let third = resumed(record, &[], 40);
    assert_eq!(third, (answer(0, 1, 25), vec![(2, 12)]));
    assert_eq!((record.horizon, standing(record)), (40, [40, 2, 25, 3]));
    assert_eq!(waiting(record), []);
}

/// P11: a turn of two messages, and a last turn that goes on past the horizon.
#[test]
fn p11_in_two_pieces() {
    let record = &mut Checkpoint::fresh();
    let first = resumed(record, &[0, 2, 0, 3, 0, 3], 1);
    assert_eq!(first, (answer(0, 1, 1), vec![(1, 0)]));
    assert_eq!(waiting(record), [(2, 0, 3), (3, 0, 3)]);
    let second = resumed(record, &[1, 1], 18);
    let begun = vec![(2, 6), (3, 11), (4, 17)];
    assert_eq!(second, (answer(0, 3, 3), begun));
    assert_eq!((record.horizon, standing(record)), (18, [23, 2, 3, 4]));
    assert_eq!(waiting(record), []);
}

/// P10: what has not begun is left waiting, under its own number.
#[test]
fn p10_in_one_piece() {
    let record = &mut Checkpoint::fresh();
    let given = resumed(record, &[0, 1, 0, 2, 1, 3], 12);
    assert_eq!(given, (answer(0, 2, 2), vec![(1, 0), (3, 6)]));
    assert_eq!(waiting(record), [(2, 0, 2)]);
}

#[test]
fn a_horizon_that_stays() {
    let record = &mut Checkpoint::fresh();
    assert_eq!(resumed(record, &[], 0), (answer(0, 0, 0), vec![]));
    assert_eq!(*record, Checkpoint::fresh());
    resumed(record, &[0, 1, 0, 2], 1);
    let before = record.clone();
    assert_eq!(resumed(record, &[], 1), (answer(0, 0, 1), vec![]));
    assert_eq!(*record, before);
}

/// The next turn starts at 6, so that nothing can begin before.
#[test]
fn no_turn_before_the_horizon() {
    let record = &mut Checkpoint::fresh();
    resumed(record, &[0, 1], 1);
    let given = resumed(record, &[1, 3, 5, 1], 6);
    assert_eq!(given, (answer(0, 0, 1), vec![]));
    assert_eq!((record.horizon, standing(record)), (6, [6, 2, 1, 3]));
    assert_eq!(waiting(record), [(2, 1, 3), (3, 5, 1)]);
}

/// Of one stream that are due, the first in the places goes first, whatever the
/// ticks; one that is not due is passed over.
#[test]
fn ticks_that_fall() {
    let record = &mut record_with(&[(99, 12, 1), (5, 10, 1), (6, 2, 1), (7, 3, 2)]);
    record.tick = 10;
    let given = resumed(record, &[], 30);
    let begun = vec![(5, 10), (99, 17), (6, 24)];
    assert_eq!(given, (answer(0, 3, 5), begun));
    assert_eq!((record.horizon, standing(record)), (30, [30, 2, 5, 0]));
    assert_eq!(waiting(record), [(7, 3, 2)]);
}

/// Numbers are handed on as they are, and those of the piece follow the releases
/// so far.
#[test]
fn numbers_of_a_made_up_record() {
    let record = &mut record_with(&[(7, 0, 3), (7, 0, 3), (0, 0, 3)]);
    record.releases = 4_095;
    let given = resumed(record, &[0, 3], 40);
    // Node 2 has its turns at 1, 13 and so on, and takes two in each.
    let begun = vec![(7, 1), (7, 6), (0, 13), (4_096, 18)];
    assert_eq!(given, (answer(0, 4, 20), begun));
    assert_eq!(record.releases, 4_096);
}

/// A made-up record stays behind its own horizon: its turns go on from its tick.
#[test]
fn a_next_turn_before_the_old_horizon() {
    let record = &mut record_with(&[(1, 0, 1)]);
    (record.horizon, record.releases) = (30, 1);
    let given = resumed(record, &[30, 3], 31);
    // 0 to 5, then 25 silent turns: the last at 30 is of node 2.
    assert_eq!(given, (answer(0, 2, 26), vec![(1, 0), (2, 30)]));
    assert_eq!((record.horizon, standing(record)), (31, [36, 1, 26, 2]));
}

#[test]
fn words_past_the_waiting_are_cleared() {
    let record = &mut record_with(&[(1, 50, 1)]);
    let stale = |stream: u32| Place {
        number: 8,
        tick: 9,
        stream,
    };
    record.places[1..].fill(stale(NEVER));
    record.places[255] = stale(0);
    let given = resumed(record, &[20, 3], 20);
    assert_eq!(given.0, answer(9, 0, 1));
    assert_eq!(record.places[1], stale(NEVER));
    let given = resumed(record, &[], 20);
    assert_eq!(given, (answer(0, 0, 20), vec![]));
    assert_eq!(waiting(record), [(1, 50, 1)]);
}

/// Ticks up to the largest word: nobody adds to them.
#[test]
fn messages_that_are_never_due() {
    let places = [(1, NEVER, 1), (2, LAST_TICK, 1), (3, LAST_TICK - 1, 3)];
    let record = &mut record_with(&places);
    let given = resumed(record, &[5, 2], LAST_TICK);
    // Node 1 has its turns at even ticks. The message at 6 takes five ticks, and
    // from then on node 2 has its turns at even ticks, and node 1 at odd ones.
    assert_eq!(given.0, answer(0, 1, LAST_TICK - 5));
    assert_eq!(given.1, [(1, 6)]);
    assert_eq!(standing(record), [LAST_TICK, 2, LAST_TICK - 5, 1]);
    assert_eq!(waiting(record), places);
}

/// Turns are counted on from the record's.
#[test]
fn as_many_turns_as_there_can_be() {
    let record = &mut Checkpoint::fresh();
    record.turns = LAST_TICK;
    assert_eq!(
        resumed(record, &[], LAST_TICK).0,
        answer(0, 0, 2 * LAST_TICK)
    );
    assert_eq!(resumed(record, &[], LAST_TICK).0, answer(16, 0, 0));
}

#[test]
fn a_next_turn_past_the_last_tick() {
    let record = &mut Checkpoint::fresh();
    let given = resumed(record, &[LAST_TICK - 1, 3], LAST_TICK);
    assert_eq!(given, (answer(0, 1, LAST_TICK), vec![(1, LAST_TICK - 1)]));
    assert_eq!(record.tick, LAST_TICK + 5);
    assert_eq!(resumed(record, &[], LAST_TICK).0, answer(16, 0, 0));
}

/// All places in use, and freed ones used again.
#[test]
fn all_places() {
    let record = &mut Checkpoint::fresh();
    let burst = [0, 3].repeat(MOST_WAITING);
    let given = resumed(record, &burst, 2);
    assert_eq!(given, (answer(0, 2, 2), vec![(1, 1), (2, 6)]));
    assert_eq!(record.waiting, 254);
    assert_eq!(resumed(record, &[2, 1, 2, 1, 2, 1], 3).0, answer(12, 0, 0));
    assert_eq!(resumed(record, &[2, 1, 2, 2], 3), (answer(0, 0, 2), vec![]));
    let now = waiting(record);
    assert_eq!((now[0], now[253]), ((3, 0, 3), (256, 0, 3)));
    assert_eq!(now[254..], [(257, 2, 1), (258, 2, 2)]);
    // Node 1 has the next turn, at 12, and node 2 the one at 18.
    let given = resumed(record, &[], 19);
    assert_eq!(given, (answer(0, 3, 4), vec![(257, 12), (3, 18), (4, 23)]));
    assert_eq!(waiting(record)[..2], [(5, 0, 3), (6, 0, 3)]);
    assert_eq!(waiting(record)[252..], [(258, 2, 2)]);
}

/// However many of them would begin before the last comes.
#[test]
fn one_more_than_the_places() {
    let apart: Vec<u32> = (0..257).flat_map(|i| [20 * i, 3]).collect();
    let record = &mut Checkpoint::fresh();
    assert_eq!(resumed(record, &apart, 10_000).0, answer(12, 0, 0));
    assert_eq!(resumed(record, &apart[2..], 10_000).0.second, 256);
    let record = &mut record_with(&[(1, 0, 1); 256]);
    assert_eq!(resumed(record, &[0, 1], 1).0, answer(12, 0, 0));
    assert_eq!(resumed(record, &[], 1).0, answer(0, 1, 1));
}

fn in_room(words: usize, record: &mut Checkpoint, piece: &[u32], horizon: u32) -> u32 {
    let (mut room, before) = (vec![OLD; words], record.clone());
    let lent = Lent {
        sheet: &SHEET_A,
        piece,
        horizon,
    };
    let given = resume(&lent, record, &mut room);
    assert!(given.number == 0 || (*record == before && room == vec![OLD; words]));
    given.number
}

/// Two words for each that waits and for each that comes, though none begins.
#[test]
fn the_shortest_room() {
    let record = record_with(&[(1, NEVER, 1), (2, NEVER, 2)]);
    for (words, number) in [(0, 6), (5, 6), (6, 0), (7, 0)] {
        assert_eq!(in_room(words, &mut record.clone(), &[3, 3], 4), number);
    }
    assert_eq!(in_room(0, &mut Checkpoint::fresh(), &[], 50), 0);
}

#[test]
fn records_that_are_refused() {
    let refused = |change: fn(&mut Checkpoint)| {
        let record = &mut record_with(&[(1, 0, 1), (2, 0, 3)]);
        change(record);
        resumed_or_longer(record).number
    };
    for change in [
        |record: &mut Checkpoint| record.tick = LAST_TICK + 1,
        |record: &mut Checkpoint| record.turns = LAST_TICK + 1,
        |record: &mut Checkpoint| record.node = 0,
        |record: &mut Checkpoint| record.node = 3,
        |record: &mut Checkpoint| record.waiting = 257,
        |record: &mut Checkpoint| record.waiting = NEVER,
        |record: &mut Checkpoint| record.waiting = 3,
        |record: &mut Checkpoint| record.releases = 4_097,
        |record: &mut Checkpoint| record.places[0].stream = 0,
        |record: &mut Checkpoint| record.places[1].stream = 4,
    ] {
        assert_eq!(refused(change), 16);
    }
    for change in [
        |record: &mut Checkpoint| record.tick = LAST_TICK,
        |record: &mut Checkpoint| record.turns = LAST_TICK,
        |record: &mut Checkpoint| record.node = 2,
        |record: &mut Checkpoint| record.waiting = 1,
        |record: &mut Checkpoint| record.releases = 4_096,
        |record: &mut Checkpoint| record.places[2].stream = 4,
        |record: &mut Checkpoint| record.places[0].tick = NEVER,
        |record: &mut Checkpoint| record.places[0].number = NEVER,
    ] {
        assert_eq!(refused(change), 0);
    }
}

/// With a room for any number of waiting, and a horizon that is never fallen.
fn resumed_or_longer(record: &mut Checkpoint) -> peer::Answer {
    let lent = Lent {
        sheet: &SHEET_A,
        piece: &[],
        horizon: 9,
    };
    resume(&lent, record, &mut [OLD; 2 * MOST_WAITING])
}

/// Nothing is asked of a record's own horizon, except by refusals 9 and 10.
#[test]
fn a_horizon_of_any_size_in_the_record() {
    let record = &mut Checkpoint::fresh();
    for horizon in [LAST_TICK + 1, NEVER] {
        record.horizon = horizon;
        assert_eq!(resumed(record, &[], LAST_TICK).0, answer(10, 0, 0));
        assert_eq!(resumed(record, &[], NEVER).0, answer(10, 0, 0));
        assert_eq!(resumed(record, &[horizon, 1], NEVER).0, answer(9, 0, 1));
    }
    record.horizon = LAST_TICK;
    assert_eq!(resumed(record, &[], LAST_TICK).0, answer(0, 0, LAST_TICK));
}

#[test]
fn pieces_that_are_refused() {
    let mut record = Checkpoint::fresh();
    record.horizon = 10;
    record.releases = 4_000;
    for (piece, place) in [
        (&[10][..], 0),
        (&[12, 1, 13], 0),
        (&[9, 1], 1),
        (&[20, 1], 1),
        (&[21, 1], 1),
        (&[10, 1, 20, 1], 2),
        (&[10, 0], 1),
        (&[10, 4], 1),
        (&[12, 1, 11, 1], 2),
        (&[12, 1, 12, 1, 13, 0, 11, 9], 3),
        (&[LAST_TICK + 1, 1], 1),
    ] {
        let given = resumed(&mut record.clone(), piece, 20).0;
        assert_eq!(given, answer(9, 0, place), "{piece:?}");
    }
    for piece in [&[10, 1][..], &[19, 3], &[11, 1, 11, 2]] {
        assert_eq!(resumed(&mut record.clone(), piece, 20).0.number, 0);
    }
    // A tick that is too large, though the horizon is larger still.
    let given = resumed(&mut record, &[LAST_TICK + 1, 1], LAST_TICK + 5);
    assert_eq!(given.0, answer(9, 0, 1));
    let given = resumed(&mut record, &[LAST_TICK, 1], LAST_TICK + 1);
    assert_eq!(given.0, answer(10, 0, 0));
}

/// 4,096 are for all pieces together, and too many are found before what is
/// wrong with any of them.
#[test]
fn too_many_releases() {
    let mut record = Checkpoint::fresh();
    record.releases = 4_094;
    assert_eq!(resumed(&mut record.clone(), &[0, 1, 0, 1], 1).0.number, 0);
    let given = resumed(&mut record.clone(), &[0, 1, 0, 9, 5, 1], 1).0;
    assert_eq!(given, answer(9, 0, 0));
    let long = [0, 1].repeat(4_097);
    let given = resumed(&mut Checkpoint::fresh(), &long, 1).0;
    assert_eq!(given, answer(9, 0, 0));
    let given = resumed(&mut Checkpoint::fresh(), &long[2..], 1).0;
    assert_eq!(given, answer(12, 0, 0));
}

#[test]
fn horizons_that_are_refused() {
    let mut record = Checkpoint::fresh();
    record.horizon = 10;
    for horizon in [0, 9, LAST_TICK + 1, NEVER] {
        let given = resumed(&mut record, &[], horizon).0;
        assert_eq!(given, answer(10, 0, 0), "{horizon}");
    }
    // With a release a fallen horizon is outside the piece first.
    assert_eq!(resumed(&mut record, &[9, 1], 9).0, answer(9, 0, 1));
    assert_eq!(resumed(&mut record, &[10, 1], 9).0, answer(9, 0, 1));
    assert_eq!(resumed(&mut record, &[], 10).0, answer(0, 0, 10));
}

/// Everything is wrong, and is put right one after the other.
#[test]
fn refusals_in_their_order() {
    let mut record = record_with(&[(1, 0, 1); 255]);
    record.horizon = 10;
    record.node = 0;
    record.releases = 4_000;
    let numbers = |sheet: &[u32], record: &Checkpoint, piece: &[u32], horizon: u32| {
        let lent = Lent {
            sheet,
            piece,
            horizon,
        };
        let (mut after, mut room) = (record.clone(), [OLD; 511]);
        let given = resume(&lent, &mut after, &mut room);
        assert_eq!((&after, room), (record, [OLD; 511]));
        (given.number, given.second, given.third)
    };
    let odd = [10, 1, 10];
    assert_eq!(numbers(&SHEET_A[..2], &record, &odd, 9), (1, 0, 0));
    let jitter = sheet_a_with(&[(14, 60)]);
    assert_eq!(numbers(&jitter, &record, &odd, 9), (5, 1, 2));
    assert_eq!(numbers(&SHEET_A, &record, &odd, 9), (16, 0, 0));
    record.node = 1;
    assert_eq!(numbers(&SHEET_A, &record, &odd, 9), (9, 0, 0));
    let many = [10, 1].repeat(97);
    assert_eq!(numbers(&SHEET_A, &record, &many, 9), (9, 0, 0));
    assert_eq!(numbers(&SHEET_A, &record, &many[2..], 9), (9, 0, 1));
    assert_eq!(numbers(&SHEET_A, &record, &many[2..], NEVER), (10, 0, 0));
    assert_eq!(numbers(&SHEET_A, &record, &many[2..], 11), (12, 0, 0));
    assert_eq!(numbers(&SHEET_A, &record, &many[..2], 11), (6, 0, 0));
}

/// Each piece is judged on the sheet that it is handed.
#[test]
fn another_sheet_for_the_next_piece() {
    let record = &mut Checkpoint::fresh();
    resumed(record, &[0, 1, 0, 3], 1);
    assert_eq!(waiting(record), [(2, 0, 3)]);
    assert_eq!(resumed_on(&SHEET_P7, record, &[], 50).0, answer(16, 0, 0));
}
