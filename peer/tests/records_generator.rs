//! The generated cases for the replay with stream records: the same each time,
//! and spread over all answers and outcomes.

mod common;

use common::*;
use peer::generate::{named_records, records_case};
use peer::stats::{gather_records, list_names, LIST_NAMES};

#[test]
fn a_case_depends_on_seed_and_index_alone() {
    assert_depends_on_seed_and_index_alone(records_case, 0);
}

/// Shares of 5,000 cases, a good deal below what is usual.
#[test]
fn cases_spread_over_all_answers_and_outcomes() {
    let figures = gather_records(2, 5_000);
    let least = |names: &[&str], share: u64| least(&figures, names, share);
    least(&["records 0"], 2_000);
    least(&["records 1", "records 2", "records 3"], 15);
    least(&["records 4", "records 5", "records 9", "records 10"], 60);
    least(&["records 6, room", "records 6, list"], 100);
    for name in LIST_NAMES {
        least(&[&format!("records 0, {name}")], 8);
    }
}

/// The named cases have every outcome but one.
#[test]
fn named_cases_have_all_outcomes() {
    let cases = named_records();
    let met: Vec<_> = cases.iter().flat_map(|it| list_names(&it.1)).collect();
    let never: Vec<_> = LIST_NAMES.iter().filter(|it| !met.contains(it)).collect();
    assert_eq!(never, [&"a longest wait that is not the last"]);
}
