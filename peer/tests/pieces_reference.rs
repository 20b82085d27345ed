//! The replay by pieces against the plainest one, turn by turn over a list, and
//! joined against the whole replay.

mod common;

use common::*;
use peer::generate::{made_up_case, named_pieces, pieces_case, PiecesCase};
use peer::{check_sheet, replay, resume, Answer, Checkpoint, Lent, Place, NOT_BEGUN};

/// Longer pieces are left out: the plain replay takes every silent turn.
const MOST_TURNS: u32 = 20_000;

/// Node, and stream within it, of a running number; both from 0.
fn find(nodes: &[(u64, Vec<Stream>)], running: u32) -> (usize, usize) {
    let mut left = running as usize - 1;
    for (node, (_, streams)) in nodes.iter().enumerate() {
        if left < streams.len() {
            return (node, left);
        }
        left -= streams.len();
    }
    panic!("no stream {running}")
}

/// What a piece that is not refused leads to, by the words of documents 01 and
/// 02: the messages begun, and the record after it.
fn plain_piece(lent: &Lent, record: &Checkpoint) -> (Vec<u32>, Checkpoint) {
    let sheet = plain(lent.sheet);
    let mut waiting = record.places[..record.waiting as usize].to_vec();
    let mut releases = record.releases;
    for release in lent.piece.chunks_exact(2) {
        releases += 1;
        waiting.push(Place {
            number: releases,
            tick: release[0],
            stream: release[1],
        });
    }
    let (mut tick, mut node) = (u64::from(record.tick), record.node as usize - 1);
    let (mut turns, mut begun) = (record.turns, Vec::new());
    while tick < u64::from(lent.horizon) {
        let (budget, streams) = &sheet.nodes[node];
        let start = tick;
        for _ in 0..*budget {
            let mut first: Option<usize> = None;
            for (index, place) in waiting.iter().enumerate() {
                let (own, stream) = find(&sheet.nodes, place.stream);
                if own != node || u64::from(place.tick) > start {
                    continue;
                }
                // Of one stream the first that is found stays.
                let better = first.is_none_or(|best| {
                    let (_, other) = find(&sheet.nodes, waiting[best].stream);
                    ranks_above(streams, stream, other)
                });
                if better {
                    first = Some(index);
                }
            }
            let Some(index) = first else { break };
            begun.extend([waiting.remove(index).number, tick as u32]);
            tick += sheet.message;
        }
        tick += sheet.slot;
        turns += 1;
        node = (node + 1) % sheet.nodes.len();
    }
    let mut after = Checkpoint::fresh();
    after.horizon = lent.horizon;
    after.tick = tick as u32;
    after.node = node as u32 + 1;
    after.turns = turns;
    after.releases = releases;
    after.waiting = waiting.len() as u32;
    after.places[..waiting.len()].copy_from_slice(&waiting);
    (begun, after)
}

/// Holds each piece of a case that is carried out against the plain replay;
/// answers how many were.
fn hold_against_plain(name: &str, case: &PiecesCase) -> usize {
    let mut record = case.record.clone();
    let mut held = 0;
    for piece in &case.pieces {
        let (before, mut room) = (record.clone(), piece.room.clone());
        let lent = piece.on(&case.sheet);
        let given = resume(&lent, &mut record, &mut room);
        if given.number != 0 {
            assert_eq!((&record, &room), (&before, &piece.room), "{name}");
            continue;
        }
        if record.turns - before.turns > MOST_TURNS {
            continue;
        }
        let (begun, after) = plain_piece(&lent, &before);
        let expected = answer(0, begun.len() as u32 / 2, after.turns);
        assert_eq!((given, &record), (expected, &after), "{name}");
        let words = [&begun, &piece.room[begun.len()..]].concat();
        assert_eq!(room, words, "{name}");
        held += 1;
    }
    held
}

#[test]
fn generated_pieces_as_the_plain_replay() {
    let makers: [(fn(u64, u64) -> PiecesCase, usize); 2] =
        [(pieces_case, 1_500), (made_up_case, 800)];
    for (make, least) in makers {
        let cases = (0..1_000).map(|index| (index, make(11, index)));
        let held = cases.map(|(index, case)| hold_against_plain(&index.to_string(), &case));
        let held: usize = held.sum();
        assert!(held >= least, "{held}");
    }
}

#[test]
fn named_pieces_as_the_plain_replay() {
    let cases = named_pieces().into_iter();
    let held: usize = cases
        .map(|(name, case)| hold_against_plain(name, &case))
        .sum();
    assert!(held >= 8_000, "{held}");
}

/// The releases of all pieces that are carried out, begins of them in log order,
/// and the record at the end.
fn joined(case: &PiecesCase) -> (Vec<u32>, Vec<u32>, Checkpoint) {
    let mut record = case.record.clone();
    let (mut log, mut begins) = (vec![], vec![]);
    for piece in &case.pieces {
        let mut room = piece.room.clone();
        let given = resume(&piece.on(&case.sheet), &mut record, &mut room);
        if given.number != 0 {
            continue;
        }
        log.extend(&piece.releases);
        begins.resize(log.len() / 2, NOT_BEGUN);
        for words in room.chunks_exact(2).take(given.second as usize) {
            let begin = &mut begins[words[0] as usize - 1];
            assert_eq!(*begin, NOT_BEGUN, "begun once");
            *begin = words[1];
        }
    }
    (log, begins, record)
}

/// From a fresh record, the pieces joined are the whole replay.
fn hold_against_whole(case: &PiecesCase) -> Option<Checkpoint> {
    let fresh = case.record == Checkpoint::fresh();
    if !fresh || check_sheet(&case.sheet).number != 0 {
        return None;
    }
    let (log, begins, record) = joined(case);
    if record.turns > 1_000_000 {
        return None;
    }
    let mut room = vec![OLD; log.len() / 2];
    let whole = replay(&case.sheet, &log, record.horizon, &mut room);
    let expected = Answer {
        number: 0,
        second: record.turns,
        third: record.tick,
    };
    assert_eq!((whole, room), (expected, begins.clone()), "{case:?}");
    let left = begins
        .iter()
        .zip(1..)
        .filter(|(word, _)| **word == NOT_BEGUN);
    let left: Vec<u32> = left.map(|(_, number)| number).collect();
    let numbers: Vec<u32> = waiting(&record).iter().map(|place| place.0).collect();
    assert_eq!(numbers, left, "{case:?}");
    Some(record)
}

#[test]
fn pieces_joined_as_the_whole_replay() {
    let cases = (0..4_000).map(|index| pieces_case(12, index));
    let records: Vec<_> = cases.filter_map(|case| hold_against_whole(&case)).collect();
    let left = records.iter().filter(|record| record.waiting > 0).count();
    assert!(records.len() >= 2_500, "{}", records.len());
    assert!(left >= 800 && records.len() - left >= 800, "{left}");
}

/// A log is cut at every tick.
#[test]
fn every_cutting_in_two() {
    let log = [0, 2, 0, 3, 0, 3, 1, 1, 4, 3, 6, 1, 17, 2, 17, 1, 18, 3];
    let piece = |ticks: std::ops::Range<u32>| -> Vec<u32> {
        let own = log.chunks_exact(2).filter(|one| ticks.contains(&one[0]));
        own.flatten().copied().collect()
    };
    for last in 19..70 {
        let (whole, begins) = replayed(&SHEET_A, &log, last);
        for cut in 0..=last {
            let record = &mut Checkpoint::fresh();
            let (_, mut begun) = resumed(record, &piece(0..cut), cut);
            let (given, more) = resumed(record, &piece(cut..last), last);
            begun.extend(more);
            begun.sort_unstable();
            let all = (1..).zip(begins.iter().copied());
            let expected: Vec<_> = all.filter(|one| one.1 != NOT_BEGUN).collect();
            assert_eq!(begun, expected, "{cut} {last}");
            assert_eq!((given.third, record.tick), (whole.second, whole.third));
        }
    }
}
