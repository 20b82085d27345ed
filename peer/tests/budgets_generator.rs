//! The generated cases for the search for budgets: the same each time, and
//! spread over all answers, rows and reasons.

mod common;

use std::collections::BTreeSet;

use common::*;
use peer::generate::{budgets_case, many_rounds, named_budgets, MOST_TRIES_A_ROW};
use peer::stats::{gather_budgets, no_row_names, round_count, row_names, NO_ROW_NAMES, ROW_NAMES};
use peer::{check_sheet, find_budgets};

#[test]
fn a_case_depends_on_seed_and_index_alone() {
    assert_depends_on_seed_and_index_alone(budgets_case, 0);
    assert_depends_on_seed_and_index_alone(many_rounds, 0);
}

/// Shares of 5,000 cases, a good deal below what is usual.
#[test]
fn cases_spread_over_all_answers() {
    let figures = gather_budgets(2, 5_000);
    let least = |names: &[&str], share: u64| least(&figures, names, share);
    least(&["find 0", "find 11 at a node"], 1_200);
    least(&["find 1 at 0 0"], 25);
    least(&["find 2 at 0 0", "find 3 at 0 0"], 60);
    least(&["find 4 at 0 0", "find 4 at a node"], 150);
    least(&["find 5 at a node"], 80);
    least(&["find 6 before 0", "find 6 before 11"], 250);
    least(&["room of find empty"], 80);
    least(&["room of find,  16 words"], 1_000);
    least(&["room of find,  15 words", "room of find,  17 words"], 250);
    least(&["room of find short", "room of find longer"], 400);
}

#[test]
fn cases_spread_over_rows_and_reasons() {
    let figures = gather_budgets(3, 5_000);
    for (name, share) in ROW_NAMES.into_iter().zip([800, 40, 4, 100]) {
        least(&figures, &[&format!("find 0, {name}")], share);
    }
    let shares = [900, 150, 400, 600, 70, 500, 3, 100];
    for (name, share) in NO_ROW_NAMES.into_iter().zip(shares) {
        least(&figures, &[&format!("find 11, {name}")], share);
    }
    least(&figures, &["find 0, a stream just in time by the row"], 700);
    least(
        &figures,
        &["find 0, a stream late by one tick on the way"],
        90,
    );
    least(&figures, &["find 0, J from 17 to 64"], 150);
    least(&figures, &["find 0, J over 64"], 8);
    for number in 1..=16 {
        let nodes = format!("find 0, {number:2} nodes");
        let budget = format!("find 0, node of budget {number:2}");
        least(&figures, &[&nodes, &budget], 15);
    }
    assert!(figures.count("most rounds to a row") >= 100);
}

/// No row has a shorter cycle than all ones, which bounds the tries of J.
#[test]
fn cases_keep_to_their_limit() {
    let tries = |sheet: &[u32]| -> u64 {
        let cycle = sheet[0] * (sheet[1] + sheet[2]);
        let streams = bodies(sheet).into_iter().flatten();
        streams
            .map(|[_, deadline, _]| u64::from(deadline / cycle))
            .sum()
    };
    let sheets = (0..5_000).map(|index| budgets_case(5, index).sheet);
    let valid = sheets.filter(|sheet| check_sheet(sheet).number == 0);
    let most = valid.map(|sheet| tries(&sheet)).max().unwrap();
    assert!((20_000..=MOST_TRIES_A_ROW).contains(&most), "{most}");
}

/// Most of them, some with a row and some with none.
#[test]
fn many_rounds_are_many() {
    let sheets: Vec<Vec<u32>> = (0..200).map(|index| many_rounds(4, index)).collect();
    let long = sheets
        .iter()
        .filter(|sheet| round_count(sheet) >= Some(100));
    let long: Vec<_> = long.collect();
    let rows = long
        .iter()
        .filter(|sheet| found(sheet).0.number == 0)
        .count();
    assert!(sheets.iter().all(|sheet| sheet[0] == 16));
    assert!(long.len() >= 80, "{}", long.len());
    assert!(rows >= 40 && long.len() - rows >= 15, "{rows}");
}

#[test]
fn round_counts() {
    let count = |name: &str| round_count(&named_budgets_case(name).sheet);
    assert_eq!(round_count(&SHEET_A), Some(0));
    assert_eq!(round_count(&SHEET_A[..2]), None);
    assert_eq!(count("one node that needs 2"), Some(1));
    assert_eq!(count("empty nodes around one that needs 3"), Some(2));
    assert_eq!(count("both late in every round"), Some(15));
    assert_eq!(count("one by one to 16, just in time"), Some(135));
}

#[test]
fn names_of_rows() {
    let names = |name: &str| {
        let case = named_budgets_case(name);
        let (_, room) = found_by(find_budgets, &case);
        row_names(&case.sheet, &room[..16])
    };
    let [above, sixteen, many, jitter] = ROW_NAMES;
    assert_eq!(names("all ones"), [""; 0]);
    assert_eq!(names("one node that needs 2"), [above]);
    assert_eq!(names("a jitter of 8 that 1 allows"), [""; 0]);
    assert_eq!(names("a jitter of 9 that takes 2"), [above, jitter]);
    assert_eq!(names("a jitter of 16 above that takes 2"), [above, jitter]);
    assert_eq!(names("the longest turns, just in time"), [above, sixteen]);
    let all = names("one by one to 16, just in time");
    assert_eq!(all, [above, sixteen, many]);
}

#[test]
fn names_of_refusals() {
    let names = |name: &str| no_row_names(&named_budgets_case(name).sheet);
    let [always, afterwards, behind_late, before_late, behind_in_time, before_full, many, jitter] =
        NO_ROW_NAMES;
    for (name, expected) in [
        ("both late in every round", &[always, before_full][..]),
        ("the second late first", &[always, behind_late]),
        ("the first late first", &[always, before_late]),
        (
            "behind one that is in time at 16",
            &[always, behind_in_time],
        ),
        (
            "one by one to 16, late by one",
            &[afterwards, behind_in_time, many],
        ),
        ("a jitter of 17 that no row allows", &[always, jitter]),
        ("all ones", &[]),
        ("nothing at all", &[]),
    ] {
        assert_eq!(names(name), expected, "{name}");
    }
}

#[test]
fn named_cases_have_names_of_their_own() {
    let cases = named_budgets();
    let names: BTreeSet<_> = cases.iter().map(|case| case.0).collect();
    assert_eq!(names.len(), cases.len());
    let good = |sheet: &[u32]| check_sheet(sheet).number == 0;
    let valid = cases.iter().filter(|case| good(&case.1.sheet)).count();
    assert!(valid >= 20, "{valid}");
}
