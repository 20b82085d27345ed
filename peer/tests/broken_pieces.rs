//! Each wrong replay by pieces makes its error, and is right where that plays no
//! part.

mod common;

use common::*;
use peer::broken;
use peer::generate::{made_up_case, pieces_case, PiecesCase};
use peer::{resume, Answer, Checkpoint, Lent};

const WRONG: [(&str, Resume); 16] = [
    ("to the horizon", broken::resume_to_the_horizon),
    ("losing order", broken::resume_losing_order),
    ("leaving stale", broken::resume_leaving_stale),
    ("numbering anew", broken::resume_numbering_anew),
    ("counting anew", broken::resume_counting_anew),
    ("till places run out", broken::resume_till_places_run_out),
    ("a short room", broken::resume_in_a_short_room),
    (
        "adding before refusal",
        broken::resume_adding_before_refusal,
    ),
    ("all due", broken::resume_with_all_due),
    ("record after log", broken::resume_record_after_log),
    ("placing in the log", broken::resume_placing_in_the_log),
    ("one piece", broken::resume_counting_one_piece),
    ("moving on only", broken::resume_moving_on_only),
    ("in order only", broken::resume_in_order_only),
    ("known streams", broken::resume_with_known_streams),
    ("room before places", broken::resume_room_before_places),
];

/// What a replay by pieces gives on sheet A: its answer, record and room.
type Given = (Answer, Checkpoint, Vec<u32>);

fn given(entry: Resume, record: &Checkpoint, piece: &[u32], horizon: u32, words: usize) -> Given {
    let (mut record, mut room) = (record.clone(), vec![OLD; words]);
    let lent = Lent {
        sheet: &SHEET_A,
        piece,
        horizon,
    };
    (entry(&lent, &mut record, &mut room), record, room)
}

/// The answer alone, in a room that is long enough.
fn said(entry: Resume, record: &Checkpoint, piece: &[u32], horizon: u32) -> Answer {
    given(entry, record, piece, horizon, 1_000).0
}

fn fresh() -> Checkpoint {
    Checkpoint::fresh()
}

#[test]
fn a_tick_at_the_new_horizon() {
    let entry = broken::resume_to_the_horizon;
    assert_eq!(said(resume, &fresh(), &[0, 1, 5, 3], 5), answer(9, 0, 2));
    let (said, record, _) = given(entry, &fresh(), &[0, 1, 5, 3], 5, 4);
    assert_eq!((said, waiting(&record)), (answer(0, 1, 1), vec![(2, 5, 3)]));
    // A tick past it is refused all the same, and so is a fallen one.
    assert_eq!(said_by(entry, &[0, 1, 6, 3], 5), answer(9, 0, 2));
    assert_eq!(said_by(entry, &[3, 1, 2, 3], 5), answer(9, 0, 2));
}

fn said_by(entry: Resume, piece: &[u32], horizon: u32) -> Answer {
    said(entry, &fresh(), piece, horizon)
}

#[test]
fn places_after_a_begin() {
    // Release 1 begins at 0, and the others are left.
    let piece = [0, 1, 0, 2, 0, 3, 0, 3];
    let left = |entry: Resume| given(entry, &fresh(), &piece, 1, 8).1;
    let in_order = [(2, 0, 2), (3, 0, 3), (4, 0, 3)];
    assert_eq!(waiting(&left(resume)), in_order);
    let lost = left(broken::resume_losing_order);
    assert_eq!(waiting(&lost), [(4, 0, 3), (2, 0, 2), (3, 0, 3)]);
    let stale = left(broken::resume_leaving_stale);
    assert_eq!(stale.waiting, 3);
    let place = stale.places[3];
    assert_eq!((place.number, place.tick, place.stream), (4, 0, 3));
}

#[test]
fn numbers_and_turns_of_the_second_piece() {
    let record = given(resume, &fresh(), &[0, 1, 0, 2], 1, 4).1;
    let second = |entry: Resume| {
        let (answer, record, room) = given(entry, &record, &[1, 3], 12, 4);
        (answer, record.turns, room[..2].to_vec())
    };
    assert_eq!(second(resume), (answer(0, 1, 2), 2, vec![3, 6]));
    let numbered = second(broken::resume_numbering_anew);
    assert_eq!(numbered, (answer(0, 1, 2), 2, vec![1, 6]));
    let counted = second(broken::resume_counting_anew);
    assert_eq!(counted, (answer(0, 1, 1), 2, vec![3, 6]));
}

/// 257 releases, each of which begins before the next comes.
#[test]
fn places_that_do_not_run_out() {
    let entry = broken::resume_till_places_run_out;
    let apart: Vec<u32> = (0..257).flat_map(|i| [20 * i, 3]).collect();
    assert_eq!(said_by(resume, &apart, 6_000), answer(12, 0, 0));
    assert_eq!(said_by(entry, &apart, 6_000).second, 257);
    let (short, record, _) = given(entry, &fresh(), &apart, 6_000, 513);
    assert_eq!((short, record), (answer(6, 0, 0), fresh()));
    // All at once they do run out.
    let burst = [0, 3].repeat(257);
    assert_eq!(said_by(entry, &burst, 6_000), answer(12, 0, 0));
}

#[test]
fn a_room_for_what_begins() {
    let entry = broken::resume_in_a_short_room;
    let piece = [0, 1, 0, 2];
    assert_eq!(given(resume, &fresh(), &piece, 1, 3).0, answer(6, 0, 0));
    let (said, record, room) = given(entry, &fresh(), &piece, 1, 2);
    assert_eq!((said, room), (answer(0, 1, 1), vec![1, 0]));
    assert_eq!(record.waiting, 1);
    assert_eq!(given(entry, &fresh(), &piece, 1, 1).0, answer(6, 0, 0));
}

#[test]
fn a_record_that_is_refused_and_changed() {
    let entry = broken::resume_adding_before_refusal;
    let record = record_with(&[(9, 0, 1); 255]);
    let piece = [0, 2, 0, 3];
    let (said, after, _) = given(entry, &record, &piece, 1, 600);
    assert_eq!(
        (said, after.waiting, after.releases),
        (answer(12, 0, 0), 256, 1)
    );
    assert_eq!(waiting(&after)[254..], [(9, 0, 1), (1, 0, 2)]);
    assert_eq!(given(resume, &record, &piece, 1, 600).1, record);
}

#[test]
fn ticks_that_are_not_looked_at() {
    let entry = broken::resume_with_all_due;
    let record = record_with(&[(1, 9, 1), (2, u32::MAX, 1)]);
    assert_eq!(said(resume, &record, &[], 9), answer(0, 0, 9));
    let (said, after, room) = given(entry, &record, &[], 1, 4);
    assert_eq!((said, &room[..2]), (answer(0, 1, 1), &[1, 0][..]));
    assert_eq!(waiting(&after), [(2, u32::MAX, 1)]);
}

#[test]
fn refusals_in_another_order() {
    let mut record = fresh();
    record.node = 3;
    let entry = broken::resume_record_after_log;
    assert_eq!(said(resume, &record, &[0], 1), answer(16, 0, 0));
    assert_eq!(said(entry, &record, &[0], 1), answer(9, 0, 0));
    assert_eq!(said(entry, &record, &[], 1), answer(16, 0, 0));
    let (entry, burst) = (broken::resume_room_before_places, [0, 3].repeat(257));
    assert_eq!(given(resume, &fresh(), &burst, 1, 513).0, answer(12, 0, 0));
    assert_eq!(given(entry, &fresh(), &burst, 1, 513).0, answer(6, 0, 0));
    assert_eq!(given(entry, &fresh(), &burst, 1, 514).0, answer(12, 0, 0));
}

#[test]
fn counts_over_all_pieces() {
    let mut record = fresh();
    record.releases = 4_095;
    let entry = broken::resume_placing_in_the_log;
    assert_eq!(said(resume, &record, &[0, 4], 1), answer(9, 0, 1));
    assert_eq!(said(entry, &record, &[0, 4], 1), answer(9, 0, 4_096));
    let entry = broken::resume_counting_one_piece;
    assert_eq!(said(resume, &record, &[0, 1, 0, 1], 1), answer(9, 0, 0));
    assert_eq!(said(entry, &record, &[0, 1, 0, 1], 1), answer(0, 1, 1));
}

#[test]
fn more_refusals_than_there_are() {
    let entry = broken::resume_moving_on_only;
    assert_eq!(said_by(entry, &[], 0), answer(10, 0, 0));
    assert_eq!(said_by(entry, &[], 1), answer(0, 0, 1));
    let entry = broken::resume_in_order_only;
    let record = record_with(&[(1, 8, 1), (2, 7, 1)]);
    assert_eq!(said(resume, &record, &[], 1), answer(0, 0, 1));
    assert_eq!(said(entry, &record, &[], 1), answer(16, 0, 0));
    let entry = broken::resume_with_known_streams;
    let mut record = record_with(&[(1, 8, 1), (2, 9, 4)]);
    record.waiting = 1;
    assert_eq!(said(resume, &record, &[], 1), answer(0, 0, 1));
    assert_eq!(said(entry, &record, &[], 1), answer(16, 0, 0));
}

/// Whether a wrong one differs on a piece of a case, from the right record.
fn differs(entry: Resume, case: &PiecesCase) -> bool {
    let mut record = case.record.clone();
    case.pieces.iter().any(|piece| {
        let lent = piece.on(&case.sheet);
        let (mut other, mut other_room) = (record.clone(), piece.room.clone());
        let mut room = piece.room.clone();
        let good = resume(&lent, &mut record, &mut room);
        let bad = entry(&lent, &mut other, &mut other_room);
        (good, &record, room) != (bad, &other, other_room)
    })
}

#[test]
fn wrong_replays_on_generated_cases() {
    let least = [
        25, 350, 600, 400, 700, 8, 35, 20, 100, 10, 80, 40, 400, 150, 100, 20,
    ];
    let pairs = (0..2_000).map(|index| [pieces_case(1, index), made_up_case(1, index)]);
    let cases: Vec<PiecesCase> = pairs.flatten().collect();
    for ((name, entry), least) in WRONG.into_iter().zip(least) {
        let shown = cases.iter().filter(|case| differs(entry, case)).count();
        assert!(shown >= least, "{name}: {shown}");
    }
}

/// Faults of the sheet come before all that goes wrong, and one release that
/// begins in its own piece is replayed rightly by all.
#[test]
fn right_where_nothing_can_go_wrong() {
    for (name, entry) in WRONG {
        for place in [0, 2, 5, 9] {
            let case = PiecesCase {
                sheet: sheet_a_with(&[(place, 0)]),
                ..named_pieces_case("one more than there are places")
            };
            assert!(!differs(entry, &case), "{name}");
        }
        let one = |entry: Resume| given(entry, &fresh(), &[0, 1], 30, 4);
        let (good, bad) = (one(resume), one(entry));
        assert_eq!((good.0, good.2), (bad.0, bad.2), "{name}");
    }
}
