//! Each wrong search for budgets makes its error, and is right where that plays
//! no part.

mod common;

use common::*;
use peer::generate::{budgets_case, named_budgets, BudgetsCase};
use peer::{broken, find_budgets, Answer};

const WRONG: [(&str, Find); 10] = [
    ("one a round", broken::find_one_a_round),
    ("by the new row", broken::find_by_the_new_row),
    ("from own budgets", broken::find_from_own_budgets),
    ("to fifteen", broken::find_to_fifteen),
    ("any at sixteen", broken::find_naming_any_at_sixteen),
    ("any late", broken::find_naming_any_late),
    ("own cycle", broken::find_with_own_cycle),
    ("nodes only", broken::find_writing_nodes_only),
    ("a short room", broken::find_in_a_short_room),
    ("before the room", broken::find_before_the_room),
];

/// The answer of a search on a sheet, and the row of an exact room.
fn row(find: Find, sheet: &[u32]) -> (Answer, Vec<u32>) {
    let mut room = vec![OLD; 16];
    (find(sheet, &mut room), room)
}

/// The answer of a search on a named case.
fn named(find: Find, name: &str) -> Answer {
    found_by(find, &named_budgets_case(name)).0
}

/// Two nodes without streams and one that needs 3, with other budgets.
fn three_nodes() -> Vec<u32> {
    named_budgets_case("empty nodes around one that needs 3").sheet
}

fn row_of(budgets: &[u32], rest: u32) -> Vec<u32> {
    let mut row = budgets.to_vec();
    row.resize(16, rest);
    row
}

#[test]
fn one_a_round() {
    let find = broken::find_one_a_round;
    // The second makes the first late, which comes to 16 alone.
    assert_eq!(
        named(find_budgets, "the second late first"),
        answer(11, 2, 0)
    );
    assert_eq!(named(find, "the second late first"), answer(11, 1, 0));
    // A row is the same, whatever the order.
    for (name, case) in named_budgets() {
        let good = found_by(find_budgets, &case);
        assert!(
            good.0.number != 0 || found_by(find, &case) == good,
            "{name}"
        );
    }
}

#[test]
fn by_the_new_row() {
    let find = broken::find_by_the_new_row;
    let name = "the third late a round before the second";
    assert_eq!(named(find_budgets, name), answer(11, 3, 0));
    assert_eq!(named(find, name), answer(11, 2, 0));
    // Here the one that gets more comes after the one that is late for it.
    assert_eq!(named(find, "the second late first"), answer(11, 2, 0));
    for (name, case) in named_budgets() {
        let good = found_by(find_budgets, &case);
        assert!(
            good.0.number != 0 || found_by(find, &case) == good,
            "{name}"
        );
    }
}

#[test]
fn from_own_budgets() {
    let find = broken::find_from_own_budgets;
    let expected = (answer(0, 3, 17), row_of(&[1, 2], 0));
    assert_eq!(row(find, &SHEET_A), expected);
    let ones = with_budgets(&SHEET_A, &[1, 1]);
    assert_eq!(row(find, &ones), row(find_budgets, &ones));
}

#[test]
fn to_fifteen() {
    let find = broken::find_to_fifteen;
    let name = "the longest turns, just in time";
    assert_eq!(named(find_budgets, name), answer(0, 256, 2_720_000));
    assert_eq!(named(find, name), answer(11, 1, 0));
    assert_eq!(row(find, &three_nodes()), row(find_budgets, &three_nodes()));
}

#[test]
fn naming_another_node() {
    let name = "behind one that is in time at 16";
    assert_eq!(named(find_budgets, name), answer(11, 2, 0));
    let find = broken::find_naming_any_at_sixteen;
    assert_eq!(named(find, name), answer(11, 1, 0));
    assert_eq!(named(find, "the second late first"), answer(11, 2, 0));
    let find = broken::find_naming_any_late;
    assert_eq!(named(find, "the second late first"), answer(11, 1, 0));
    assert_eq!(named(find, name), answer(11, 2, 0));
}

#[test]
fn own_cycle() {
    let find = broken::find_with_own_cycle;
    let expected = (answer(0, 2, 17), row_of(&[1, 1], 0));
    assert_eq!(row(find, &SHEET_A), expected);
}

#[test]
fn nodes_only() {
    let find = broken::find_writing_nodes_only;
    let expected = (answer(0, 2, 12), row_of(&[1, 1], OLD));
    assert_eq!(row(find, &SHEET_A), expected);
    let full = named_budgets_case("one by one to 16, just in time");
    assert_eq!(found_by(find, &full), found_by(find_budgets, &full));
}

#[test]
fn a_short_room() {
    let find = broken::find_in_a_short_room;
    let mut room = [OLD; 3];
    assert_eq!(find(&SHEET_A, &mut room), answer(0, 2, 12));
    assert_eq!(room, [1, 1, 0]);
    assert_eq!(find(&SHEET_A, &mut room[..1]), answer(6, 0, 0));
}

#[test]
fn before_the_room() {
    let find = broken::find_before_the_room;
    let name = "no row and a room of 15";
    assert_eq!(named(find_budgets, name), answer(6, 0, 0));
    assert_eq!(named(find, name), answer(11, 1, 0));
    assert_eq!(named(find, "a good sheet, a room of 15"), answer(6, 0, 0));
}

/// Faults of the sheet come before all that goes wrong.
#[test]
fn right_on_faulty_sheets() {
    for (name, find) in WRONG {
        for place in [0, 2, 5, 9] {
            let case = BudgetsCase {
                sheet: sheet_a_with(&[(place, 0)]),
                room: vec![OLD; 20],
            };
            assert_eq!(
                found_by(find, &case),
                found_by(find_budgets, &case),
                "{name}"
            );
        }
    }
}

fn differing(find: Find, count: u64) -> usize {
    let cases = (0..count).map(|index| budgets_case(1, index));
    cases
        .filter(|case| found_by(find, case) != found_by(find_budgets, case))
        .count()
}

#[test]
fn wrong_searches_on_generated_cases() {
    let least = [120, 25, 500, 50, 25, 150, 400, 450, 130, 90];
    for ((name, find), least) in WRONG.into_iter().zip(least) {
        let cases = differing(find, 2_000);
        assert!(cases >= least, "{name}: {cases}");
    }
}

/// What is late at 16 is late at 17 too, so that to go on is no error.
#[test]
fn seventeen_is_as_good_as_sixteen() {
    let find = broken::find_to_seventeen;
    assert_eq!(differing(find, 20_000), 0);
    for (name, case) in named_budgets() {
        assert_eq!(
            found_by(find, &case),
            found_by(find_budgets, &case),
            "{name}"
        );
    }
}
