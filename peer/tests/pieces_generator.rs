//! The generated cases for the replay by pieces: the same each time, and spread
//! over all answers, faults and outcomes.

mod common;

use std::collections::BTreeSet;

use common::*;
use peer::generate::{made_up_case, named_pieces, pieces_case};
use peer::stats::{gather_pieces, joined_names, Resumed};
use peer::stats::{HORIZON_FAULTS, JOINED_NAMES, PIECE_FAULTS, PIECE_NAMES, RECORD_FAULTS};
use peer::{resume, Checkpoint};

#[test]
fn a_case_depends_on_seed_and_index_alone() {
    assert_depends_on_seed_and_index_alone(pieces_case, 0);
    assert_depends_on_seed_and_index_alone(made_up_case, 0);
}

/// Shares of 5,000 cases of each kind, a good deal below what is usual.
#[test]
fn cases_spread_over_all_answers() {
    let figures = gather_pieces(2, 5_000);
    let least = |names: &[&str], share: u64| least(&figures, names, share);
    least(&["resume 0"], 10_000);
    least(&["resume 1", "resume 2", "resume 3"], 15);
    least(&["resume 4", "resume 5", "resume 6"], 60);
    least(&["resume 9", "resume 10", "resume 12", "resume 16"], 100);
    least(&["room of resume exact", "room of resume longer"], 2_000);
    least(&["room of resume empty"], 500);
    assert!(figures.count("most pieces of a case") >= 50);
}

#[test]
fn cases_spread_over_faults_and_outcomes() {
    let figures = gather_pieces(3, 5_000);
    let all = |number: u32, names: &[&str], share: u64| {
        for name in names {
            least(&figures, &[&format!("resume {number}, {name}")], share);
        }
    };
    all(0, &PIECE_NAMES, 20);
    all(9, &PIECE_FAULTS, 20);
    all(10, &HORIZON_FAULTS, 40);
    all(16, &RECORD_FAULTS, 8);
}

/// The names that fit a whole case from a fresh record on.
fn names_of(name: &str) -> Vec<&'static str> {
    let case = named_pieces_case(name);
    let mut records = vec![case.record.clone()];
    let mut given = Vec::new();
    for piece in &case.pieces {
        let mut record = records[records.len() - 1].clone();
        let mut room = piece.room.clone();
        given.push((resume(&piece.on(&case.sheet), &mut record, &mut room), room));
        records.push(record);
    }
    let resumed: Vec<Resumed> = (0..case.pieces.len())
        .map(|index| Resumed {
            sheet: &case.sheet,
            before: &records[index],
            piece: &case.pieces[index],
            answer: given[index].0,
            after: &records[index + 1],
            room: &given[index].1,
        })
        .collect();
    assert_eq!(case.record, Checkpoint::fresh());
    joined_names(&resumed)
}

#[test]
fn names_of_pieces_joined() {
    let [later, left, every, none, empty, ten, refused] = JOINED_NAMES;
    assert_eq!(names_of("three pieces"), [later, every, empty]);
    assert_eq!(names_of("no releases"), [none, empty]);
    let names = names_of("all places, then four freed and used again");
    assert_eq!(names, [later, left]);
    let names = names_of("one more than there are places");
    assert_eq!(names, [every, refused]);
    let names = names_of("one release more than a log has");
    assert_eq!(names, [every, ten, refused]);
}

#[test]
fn named_cases_have_names_of_their_own() {
    let cases = named_pieces();
    let names: BTreeSet<_> = cases.iter().map(|case| case.0).collect();
    assert_eq!(names.len(), cases.len());
}
