//! The writer: sheets of known words, and every refusal with its place.

mod common;

use common::*;
use peer::{read_tables, write_sheet, Tables};

const TICKS: u32 = 1_000_000_000;

/// The refusal in a large room and in one word of room, which must both stay.
/// All refusals but 6 are the same in both.
fn refused(tables: &Tables) -> (u32, u32, u32) {
    let mut room = [OLD; 1_000];
    let given = write_sheet(tables, &mut room);
    assert_eq!(room, [OLD; 1_000], "a refusal changes no word");
    let mut room = [OLD];
    assert_eq!(write_sheet(tables, &mut room), given);
    assert_eq!(room, [OLD]);
    assert_eq!(write_sheet(tables, &mut []), given);
    (given.number, given.second, given.third)
}

fn refused_but(change: impl FnOnce(&mut Tables)) -> (u32, u32, u32) {
    refused(&tables_a_but(change))
}

/// The same in every node and stream, with the longest jitters.
fn uniform(nodes: usize, count: u32, budget: u32, ticks: u32, period: u32) -> Tables {
    let streams = nodes * count as usize;
    Tables {
        message_ticks: ticks,
        slot_ticks: ticks,
        counts: vec![count; nodes],
        budgets: vec![budget; nodes],
        periods: vec![period; streams],
        deadlines: vec![period; streams],
        jitters: vec![period - 1; streams],
    }
}

#[test]
fn sheet_a() {
    let mut room = [OLD; 23];
    assert_eq!(write_sheet(&tables_a(), &mut room), answer(0, 18, 17));
    assert_eq!(room[..18], SHEET_A);
    assert_eq!(room[18..], [OLD; 5]);
    let mut room = [OLD; 18];
    assert_eq!(write_sheet(&tables_a(), &mut room), answer(0, 18, 17));
    assert_eq!(room, SHEET_A);
    assert_eq!(read_tables(&SHEET_A), Ok(tables_a()));
}

#[test]
fn period_comes_before_deadline_and_that_before_jitter() {
    let tables = tables_a_but(|tables| tables.deadlines = vec![39, 1, 30]);
    let words = sheet_a_with(&[(10, 39), (13, 1)]);
    assert_eq!(written(&tables), (answer(0, 18, 17), words));
    let tables = tables_a_but(|tables| tables.jitters = vec![39, 1, 29]);
    let words = sheet_a_with(&[(11, 39), (14, 1), (17, 29)]);
    assert_eq!(written(&tables), (answer(0, 18, 17), words.clone()));
    assert_eq!(read_tables(&words), Ok(tables));
}

#[test]
fn nodes_without_streams() {
    for nodes in 1..=16 {
        let tables = uniform(nodes as usize, 0, 2, 5, 1);
        let sheet = sheet(5, 5, &vec![(2, &[][..]); nodes as usize]);
        let given = answer(0, 3 + 3 * nodes, 15 * nodes);
        assert_eq!(written(&tables), (given, sheet.clone()));
        assert_eq!(read_tables(&sheet), Ok(tables));
    }
    // The bodies of nodes without streams are where the next one is.
    let tables = tables_a_but(|tables| {
        tables.counts = vec![0, 2, 0, 1, 0];
        tables.budgets = vec![1, 2, 3, 4, 5];
    });
    let contents = [5, 5, 1, 18, 0, 1, 18, 2, 2, 24, 0, 3, 24, 1, 4, 27, 0, 5];
    let sheet = [&contents[..], &SHEET_A[9..]].concat();
    assert_eq!(written(&tables), (answer(0, 27, 80), sheet));
}

#[test]
fn sixteen_nodes_of_sixteen_streams() {
    let tables = uniform(16, 16, 16, 10_000, TICKS);
    let longest = [[TICKS, TICKS, TICKS - 1]; 16];
    let full = jittery_sheet(10_000, 10_000, &[(16, &longest[..]); 16]);
    assert_eq!(written(&tables), (answer(0, 819, 2_720_000), full.clone()));
    assert_eq!(read_tables(&full), Ok(tables.clone()));
    let mut room = [OLD; 818];
    assert_eq!(write_sheet(&tables, &mut room), answer(6, 0, 0));
    assert_eq!(room, [OLD; 818]);
    let least = uniform(16, 16, 1, 1, 1);
    let full = sheet(1, 1, &[(1, &[(1, 1); 16][..]); 16]);
    assert_eq!(written(&least), (answer(0, 819, 32), full));
}

#[test]
fn number_of_nodes() {
    assert_eq!(refused(&uniform(0, 0, 1, 1, 1)), (2, 0, 0));
    assert_eq!(refused(&uniform(17, 1, 1, 1, 1)), (2, 0, 0));
    assert_eq!(refused(&uniform(100_000, 1, 1, 1, 1)), (2, 0, 0));
    assert_eq!(refused_but(|tables| tables.counts.clear()), (2, 0, 0));
    assert_eq!(written(&uniform(1, 1, 1, 1, 1)).0, answer(0, 9, 2));
    assert_eq!(written(&uniform(16, 1, 1, 1, 1)).0, answer(0, 99, 32));
}

#[test]
fn ticks_of_messages_and_slots() {
    for word in [0, 10_001, u32::MAX] {
        assert_eq!(refused_but(|tables| tables.message_ticks = word), (3, 0, 0));
        assert_eq!(refused_but(|tables| tables.slot_ticks = word), (3, 0, 0));
    }
    for word in [1, 10_000] {
        let tables = tables_a_but(|tables| tables.message_ticks = word);
        assert_eq!(written(&tables).0, answer(0, 18, 3 * word + 2));
        let tables = tables_a_but(|tables| tables.slot_ticks = word);
        assert_eq!(written(&tables).0, answer(0, 18, 15 + 2 * word));
    }
}

#[test]
fn number_of_budgets() {
    for budgets in [0, 1, 3, 17, 100_000] {
        assert_eq!(
            refused_but(|tables| tables.budgets.resize(budgets, 1)),
            (4, 0, 0)
        );
    }
    assert_eq!(refused_but(|tables| tables.counts.push(0)), (4, 0, 0));
}

#[test]
fn counts_and_budgets() {
    for node in [0, 1] {
        let place = (4, node as u32 + 1, 0);
        for word in [17, 18, 1 << 31, u32::MAX] {
            assert_eq!(refused_but(|tables| tables.counts[node] = word), place);
        }
        for word in [0, 17, u32::MAX] {
            assert_eq!(refused_but(|tables| tables.budgets[node] = word), place);
        }
        for word in [1, 16] {
            let tables = tables_a_but(|tables| tables.budgets[node] = word);
            assert_eq!(written(&tables).0.number, 0);
        }
    }
    // Row by row, not all counts first.
    assert_eq!(
        refused_but(|tables| (tables.counts[1], tables.budgets[0]) = (17, 0)),
        (4, 1, 0)
    );
    assert_eq!(
        refused_but(|tables| tables.counts = vec![u32::MAX; 2]),
        (4, 1, 0)
    );
    // In 32 bits the sum would be right.
    assert_eq!(
        refused_but(|tables| tables.counts = vec![4, u32::MAX]),
        (4, 2, 0)
    );
}

#[test]
fn number_of_streams() {
    for streams in [0, 1, 2, 4, 6, 100_000] {
        assert_eq!(
            refused_but(|tables| tables.periods.resize(streams, 1)),
            (4, 0, 0)
        );
        assert_eq!(
            refused_but(|tables| tables.deadlines.resize(streams, 1)),
            (4, 0, 0)
        );
        assert_eq!(
            refused_but(|tables| tables.jitters.resize(streams, 0)),
            (4, 0, 0)
        );
        let all = |tables: &mut Tables| {
            tables.periods.resize(streams, 1);
            tables.deadlines.resize(streams, 1);
            tables.jitters.resize(streams, 0);
        };
        assert_eq!(refused_but(all), (4, 0, 0));
    }
    // As many words together as there should be.
    for lengths in [[2, 4], [4, 2], [6, 0], [0, 6]] {
        for places in [[0, 1], [1, 2], [2, 0]] {
            let shifted = |tables: &mut Tables| {
                let mut lent = [
                    &mut tables.periods,
                    &mut tables.deadlines,
                    &mut tables.jitters,
                ];
                places
                    .iter()
                    .zip(lengths)
                    .for_each(|(&place, length)| lent[place].resize(length, 0));
            };
            assert_eq!(refused_but(shifted), (4, 0, 0));
        }
    }
    for count in [0, 1, 3, 16] {
        assert_eq!(refused_but(|tables| tables.counts[0] = count), (4, 0, 0));
    }
}

#[test]
fn periods_and_deadlines() {
    let places = [(5, 1, 1), (5, 1, 2), (5, 2, 1)];
    for (stream, place) in places.into_iter().enumerate() {
        for word in [0, 29, TICKS + 1, u32::MAX] {
            assert_eq!(refused_but(|tables| tables.periods[stream] = word), place);
        }
        for word in [0, 61, TICKS, u32::MAX] {
            assert_eq!(refused_but(|tables| tables.deadlines[stream] = word), place);
        }
        let far = |tables: &mut Tables| {
            tables.periods[stream] = TICKS + 1;
            tables.deadlines[stream] = TICKS + 1;
        };
        assert_eq!(refused_but(far), place);
    }
    // A bad deadline or jitter comes before the bad period of the next stream.
    assert_eq!(
        refused_but(|tables| (tables.jitters[0], tables.periods[1]) = (40, 0)),
        (5, 1, 1)
    );
    assert_eq!(
        refused_but(|tables| (tables.deadlines[0], tables.periods[1]) = (0, 0)),
        (5, 1, 1)
    );
    let after_empty = |tables: &mut Tables| {
        tables.counts = vec![0, 2, 0, 1];
        tables.budgets = vec![1; 4];
        tables.periods[2] = 0;
    };
    assert_eq!(refused_but(after_empty), (5, 4, 1));
}

#[test]
fn jitters() {
    let places = [(40, (5, 1, 1)), (60, (5, 1, 2)), (30, (5, 2, 1))];
    for (stream, (period, place)) in places.into_iter().enumerate() {
        for word in [period, period + 1, TICKS, TICKS + 1, u32::MAX] {
            assert_eq!(refused_but(|tables| tables.jitters[stream] = word), place);
        }
        // At the deadline and above it as well.
        for word in [0, 1, 9, 10, 11, period - 1] {
            let tables = tables_a_but(|tables| {
                tables.deadlines[stream] = 10;
                tables.jitters[stream] = word;
            });
            let words = sheet_a_with(&[(10 + 3 * stream, 10), (11 + 3 * stream, word)]);
            assert_eq!(written(&tables), (answer(0, 18, 17), words));
        }
    }
    // The range goes after the number, and before the room.
    let few = |tables: &mut Tables| tables.jitters = vec![40, 60];
    assert_eq!(refused_but(few), (4, 0, 0));
    let many = |tables: &mut Tables| tables.jitters = vec![40, 60, 30, 0];
    assert_eq!(refused_but(many), (4, 0, 0));
}

#[test]
fn room() {
    for length in 0..18 {
        let mut room = vec![OLD; length];
        assert_eq!(write_sheet(&tables_a(), &mut room), answer(6, 0, 0));
        assert_eq!(room, vec![OLD; length]);
    }
}

#[test]
fn earlier_refusals_go_first() {
    let expected = [
        ("everything wrong", (2, 0, 0)),
        ("wrong from the ticks on", (3, 0, 0)),
        ("wrong from the length of the budgets on", (4, 0, 0)),
        ("wrong from the rows on", (4, 2, 0)),
        ("wrong from the length of the deadlines on", (4, 0, 0)),
        ("wrong from the length of the jitters on", (4, 0, 0)),
        ("wrong from the streams on", (5, 1, 1)),
        ("wrong from the jitters on", (5, 1, 1)),
        ("wrong in the room alone", (6, 0, 0)),
    ];
    for (name, (number, second, third)) in expected {
        let case = named_tables_case(name);
        let refused = (answer(number, second, third), case.room.clone());
        assert_eq!(written_by(write_sheet, &case), refused, "{name}");
    }
}
