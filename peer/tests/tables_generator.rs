//! The generated tables: the same each time, and spread over all answers,
//! causes and pairs of faults.

mod common;

use std::collections::BTreeSet;

use common::*;
use peer::generate::{named_tables, tables_case};
use peer::stats::{gather_tables, kinds_of_jitters, JITTER_NAMES};
use peer::write_sheet;

#[test]
fn a_case_depends_on_seed_and_index_alone() {
    assert_depends_on_seed_and_index_alone(tables_case, 0);
}

/// Shares of 2,000 cases, well below what is usual.
#[test]
fn every_answer_is_frequent() {
    for seed in 1..=20 {
        let figures = gather_tables(seed, 2_000);
        let sound = figures.count("write 0");
        assert!((1_240..=1_440).contains(&sound), "{sound}");
        least(&figures, &["write 2 at 0 0", "write 3 at 0 0"], 40);
        least(&figures, &["write 4 at 0 0"], 140);
        least(&figures, &["write 4 at a node", "write 5 at a stream"], 60);
        least(&figures, &["write 6 at 0 0"], 35);
        let lengths = ["write 4 too few budgets", "write 4 too many budgets"];
        least(&figures, &lengths, 15);
        let lengths = ["write 4 number of periods", "write 4 number of deadlines"];
        least(&figures, &lengths, 8);
        least(&figures, &["write 4 number of jitters"], 8);
        least(&figures, &["write 4 number of several"], 15);
    }
}

const CAUSES: [&str; 18] = [
    "2 low",
    "2 high",
    "3 message low",
    "3 message high",
    "3 slot low",
    "3 slot high",
    "4 count",
    "4 count, sum past 32 bits",
    "4 count, sum comes round",
    "4 budget low",
    "4 budget high",
    "5 period low",
    "5 period high",
    "5 deadline low",
    "5 deadline above period",
    "5 jitter at period",
    "5 jitter above period",
    "6 by one word",
];

const STAGES: [&str; 7] = [
    "nodes",
    "ticks",
    "number of budgets",
    "row",
    "number of streams",
    "stream",
    "room",
];

#[test]
fn cases_spread_over_all_causes_and_pairs_of_faults() {
    let figures = gather_tables(3, 5_000);
    for cause in CAUSES {
        least(&figures, &[&format!("write {cause}")], 8);
    }
    for (place, first) in STAGES.iter().enumerate() {
        for later in &STAGES[place + 1..] {
            least(&figures, &[&format!("write {first} before {later}")], 10);
        }
    }
}

#[test]
fn sheets_have_all_sizes_and_the_ends_of_all_ranges() {
    let figures = gather_tables(4, 5_000);
    for size in 1..=16 {
        least(&figures, &[&format!("write 0, {size:2} nodes")], 80);
        least(&figures, &[&format!("write 0, budget of {size:2}")], 500);
    }
    for count in 0..=16 {
        least(
            &figures,
            &[&format!("write 0, node of {count:2} streams")],
            300,
        );
    }
    least(&figures, &["write 0, 0 streams"], 150);
    least(&figures, &["write 0, 256 streams"], 20);
    least(
        &figures,
        &["write 0, room exact", "write 0, room longer"],
        1_000,
    );
    for ticks in ["message", "slot"] {
        for end in [1, 10_000] {
            least(&figures, &[&format!("write 0, {ticks} {end}")], 60);
        }
    }
    for ticks in ["period", "deadline"] {
        for end in [1, 1_000_000_000] {
            least(&figures, &[&format!("write 0, {ticks} {end}")], 1_000);
        }
    }
    for (name, share) in JITTER_NAMES
        .into_iter()
        .zip([1_000, 800, 1_000, 900, 500, 400])
    {
        least(&figures, &[&format!("write 0, {name}")], share);
    }
}

/// And most have no word that the sheet has, so that a word left out shows.
#[test]
fn words_of_a_room_are_all_different() {
    let mut apart = 0;
    for index in 0..2_000 {
        let room = tables_case(8, index).room;
        let words: BTreeSet<_> = room.iter().collect();
        assert_eq!(words.len(), room.len(), "{index}");
        apart += usize::from(room.iter().all(|&word| word > 1_000_000_000));
    }
    assert!(apart > 1_200, "{apart}");
}

#[test]
fn named_tables_have_names_and_answers_of_their_own() {
    let cases = named_tables();
    let names: BTreeSet<_> = cases.iter().map(|case| case.0).collect();
    assert_eq!(names.len(), cases.len());
    let expected = [
        ("two nodes", answer(0, 18, 17)),
        ("two nodes, exact room", answer(0, 18, 17)),
        ("two nodes without jitter", answer(0, 18, 17)),
        (
            "two nodes with jitters next to the deadlines",
            answer(0, 18, 17),
        ),
        ("one node without streams", answer(0, 6, 2)),
        ("sixteen nodes without streams", answer(0, 51, 2_720_000)),
        ("one full node", answer(0, 54, 170_000)),
        ("streams in the last node alone", answer(0, 60, 696)),
        ("a full sheet of the least words", answer(0, 819, 32)),
        (
            "a full sheet of the greatest words",
            answer(0, 819, 2_720_000),
        ),
        ("nothing at all", answer(2, 0, 0)),
        ("no node, all else right", answer(2, 0, 0)),
        ("seventeen nodes, all else right", answer(2, 0, 0)),
        ("a hundred thousand counts", answer(2, 0, 0)),
        ("a hundred thousand budgets", answer(4, 0, 0)),
        ("a hundred thousand periods", answer(4, 0, 0)),
        ("a hundred thousand deadlines", answer(4, 0, 0)),
        ("a hundred thousand jitters", answer(4, 0, 0)),
        ("a room of a hundred thousand words", answer(0, 18, 17)),
        ("no deadlines but twice the periods", answer(4, 0, 0)),
        ("no jitters", answer(4, 0, 0)),
        ("no jitters but twice the deadlines", answer(4, 0, 0)),
        ("one jitter short", answer(4, 0, 0)),
        ("a full sheet, room one word short", answer(6, 0, 0)),
        ("a full sheet, room for two words a stream", answer(6, 0, 0)),
        ("all counts the greatest word", answer(4, 1, 0)),
        ("counts that come round to the right sum", answer(4, 1, 0)),
        (
            "a count that comes round with the last one",
            answer(4, 2, 0),
        ),
        ("every word the greatest", answer(3, 0, 0)),
        ("last period 0", answer(5, 16, 16)),
        ("last period past the end", answer(5, 16, 16)),
        ("last deadline 0", answer(5, 16, 16)),
        ("last deadline above the period", answer(5, 16, 16)),
        ("last jitter below the period", answer(0, 819, 2_720_000)),
        ("last jitter at the period", answer(5, 16, 16)),
        ("last jitter above the period", answer(5, 16, 16)),
        ("last jitter the greatest word", answer(5, 16, 16)),
        ("a bad stream after empty nodes", answer(5, 16, 1)),
        ("everything wrong", answer(2, 0, 0)),
        ("wrong from the ticks on", answer(3, 0, 0)),
        ("wrong from the length of the budgets on", answer(4, 0, 0)),
        ("wrong from the rows on", answer(4, 2, 0)),
        ("wrong from the length of the deadlines on", answer(4, 0, 0)),
        ("wrong from the length of the jitters on", answer(4, 0, 0)),
        ("wrong from the streams on", answer(5, 1, 1)),
        ("wrong from the jitters on", answer(5, 1, 1)),
        ("wrong in the room alone", answer(6, 0, 0)),
    ];
    assert_eq!(expected.len(), cases.len());
    let mut met = BTreeSet::new();
    for (name, expected) in expected {
        let case = named_tables_case(name);
        let given = written_by(write_sheet, &case);
        assert_eq!(given.0, expected, "{name}");
        if expected.number == 0 {
            met.extend(kinds_of_jitters(&case.tables));
        }
    }
    assert_eq!(met, BTreeSet::from(JITTER_NAMES));
}
