//! Each wrong writer makes its error, and is right where that plays no part.

mod common;

use common::*;
use peer::generate::{tables_case, TablesCase};
use peer::{broken, write_sheet, Answer, Tables};

const WRITERS: [(&str, Writer); 8] = [
    ("one place", broken::write_one_place),
    ("rows swapped", broken::write_rows_swapped),
    ("room before streams", broken::write_room_before_streams),
    ("any deadlines", broken::write_any_deadlines),
    ("past the sheet", broken::write_past_the_sheet),
    ("short cycle", broken::write_short_cycle),
    ("bodies swapped", broken::write_bodies_swapped),
    ("before streams", broken::write_before_streams),
];

/// Sheet A with a shorter deadline, in a room with two words to spare.
fn small() -> TablesCase {
    TablesCase {
        tables: tables_a_but(|tables| tables.deadlines[2] = 29),
        room: vec![OLD; 20],
    }
}

fn small_but(change: impl FnOnce(&mut Tables)) -> TablesCase {
    let mut case = small();
    change(&mut case.tables);
    case
}

/// What the good writer makes of `small`, with some words changed.
fn sheet_but(changes: &[(usize, u32)]) -> (Answer, Vec<u32>) {
    let sheet = [&SHEET_A[..16], &[29, 0, OLD, OLD]].concat();
    (answer(0, 18, 17), with(&sheet, changes))
}

#[test]
fn wrong_words() {
    assert_eq!(written_by(write_sheet, &small()), sheet_but(&[]));
    assert_eq!(
        written_by(broken::write_one_place, &small()),
        sheet_but(&[(6, 9)])
    );
    let swapped = [(4, 1), (5, 2), (7, 2), (8, 1)];
    assert_eq!(
        written_by(broken::write_rows_swapped, &small()),
        sheet_but(&swapped)
    );
    assert_eq!(
        written_by(broken::write_bodies_swapped, &small()),
        sheet_but(&[(15, 29), (16, 30)])
    );
    assert_eq!(
        written_by(broken::write_past_the_sheet, &small()),
        sheet_but(&[(18, 0)])
    );
    let short = (answer(0, 18, 7), sheet_but(&[]).1);
    assert_eq!(written_by(broken::write_short_cycle, &small()), short);
}

#[test]
fn wrong_checks() {
    let bad = small_but(|tables| tables.deadlines[1] = 61);
    let refused = (answer(5, 1, 2), vec![OLD; 20]);
    assert_eq!(written_by(write_sheet, &bad), refused);
    let early = (answer(5, 1, 2), sheet_but(&[(13, 61)]).1);
    assert_eq!(written_by(broken::write_before_streams, &bad), early);
    let both = TablesCase {
        room: vec![OLD; 17],
        ..bad
    };
    let refused = (answer(5, 1, 2), vec![OLD; 17]);
    assert_eq!(written_by(write_sheet, &both), refused);
    assert_eq!(written_by(broken::write_before_streams, &both), refused);
    let room_first = (answer(6, 0, 0), vec![OLD; 17]);
    assert_eq!(
        written_by(broken::write_room_before_streams, &both),
        room_first
    );
    for deadlines in 0..6 {
        let case = small_but(|tables| tables.deadlines.resize(deadlines, 5));
        let refused = (answer(4, 0, 0), vec![OLD; 20]);
        if deadlines != 3 {
            assert_eq!(written_by(write_sheet, &case), refused);
        }
        let mut expected = sheet_but(&[]);
        for missing in deadlines..3 {
            expected.1[10 + 3 * missing] = 1;
        }
        assert_eq!(written_by(broken::write_any_deadlines, &case), expected);
    }
}

#[test]
fn right_where_the_error_plays_no_part() {
    // One node, no streams, an exact room: only two errors have a part.
    let mut case = small_but(|tables| {
        tables.counts = vec![0];
        tables.budgets = vec![3];
        tables.periods.clear();
        tables.deadlines.clear();
        tables.jitters.clear();
    });
    case.room.truncate(6);
    for (name, writer) in WRITERS {
        let same = written_by(writer, &case) == written_by(write_sheet, &case);
        assert_eq!(same, name != "rows swapped" && name != "short cycle");
    }
    // Up to refusal 4, all are right but for the deadlines' number.
    for change in [
        |tables: &mut Tables| tables.counts.clear(),
        |tables: &mut Tables| tables.slot_ticks = 0,
        |tables: &mut Tables| tables.budgets.push(1),
        |tables: &mut Tables| tables.counts[1] = 17,
        |tables: &mut Tables| tables.periods.push(1),
    ] {
        let case = small_but(change);
        for (name, writer) in WRITERS {
            assert_eq!(
                written_by(writer, &case),
                written_by(write_sheet, &case),
                "{name}"
            );
        }
    }
}

#[test]
fn on_generated_cases() {
    let cases: Vec<_> = (0..2_000).map(|index| tables_case(1, index)).collect();
    let differing = WRITERS.map(|(_, writer)| {
        let differ = |case: &&TablesCase| written_by(writer, case) != written_by(write_sheet, case);
        cases.iter().filter(differ).count()
    });
    let least = [900, 1_000, 10, 20, 500, 1_200, 900, 50];
    let mut pairs = differing.iter().zip(least);
    assert!(pairs.all(|(&cases, least)| cases >= least), "{differing:?}");
}

#[test]
fn none_panics_on_generated_cases() {
    for index in 0..20_000 {
        let case = tables_case(2, index);
        for (_, writer) in WRITERS {
            written_by(writer, &case);
        }
    }
}
