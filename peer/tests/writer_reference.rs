//! The writer against a slow literal one, and sheets read and written again.

mod common;

use common::*;
use peer::generate::{case, named, named_tables, tables_case, TablesCase};
use peer::{admit, check_sheet, read_tables, write_sheet, Answer, Tables};

const TICKS: u32 = 1_000_000_000;

/// The answer by the words of the request, one refusal after the other.
fn literal_answer(tables: &Tables, room: usize) -> Answer {
    let nodes = tables.counts.len();
    let outside = |word: u32, most: u32| word == 0 || word > most;
    if nodes == 0 || nodes > 16 {
        return answer(2, 0, 0);
    }
    if outside(tables.message_ticks, 10_000) || outside(tables.slot_ticks, 10_000) {
        return answer(3, 0, 0);
    }
    if tables.budgets.len() != nodes {
        return answer(4, 0, 0);
    }
    for node in 0..nodes {
        if tables.counts[node] > 16 || outside(tables.budgets[node], 16) {
            return answer(4, node as u32 + 1, 0);
        }
    }
    let streams = tables.counts.iter().sum::<u32>() as usize;
    if tables.periods.len() != streams || tables.deadlines.len() != streams {
        return answer(4, 0, 0);
    }
    if tables.jitters.len() != streams {
        return answer(4, 0, 0);
    }
    let mut number = 0;
    for node in 0..nodes {
        for stream in 0..tables.counts[node] {
            let (period, deadline) = (tables.periods[number], tables.deadlines[number]);
            let jitter = tables.jitters[number];
            if outside(period, TICKS) || outside(deadline, period) || jitter >= period {
                return answer(5, node as u32 + 1, stream + 1);
            }
            number += 1;
        }
    }
    let words = 3 + 3 * nodes + 3 * streams;
    if room < words {
        return answer(6, 0, 0);
    }
    let budgets: u32 = tables.budgets.iter().sum();
    let cycle = budgets * tables.message_ticks + nodes as u32 * tables.slot_ticks;
    answer(0, words as u32, cycle)
}

/// The word of a sheet at a place, by the layout of document 01.
fn literal_word(tables: &Tables, place: usize) -> u32 {
    let nodes = tables.counts.len();
    let bodies = 3 + 3 * nodes;
    match place {
        0 => nodes as u32,
        1 => tables.message_ticks,
        2 => tables.slot_ticks,
        _ if place < bodies => {
            let node = place / 3 - 1;
            let before: u32 = tables.counts[..node].iter().sum();
            let row = [
                bodies as u32 + 3 * before,
                tables.counts[node],
                tables.budgets[node],
            ];
            row[place % 3]
        }
        _ => {
            let stream = (place - bodies) / 3;
            let words = [
                tables.periods[stream],
                tables.deadlines[stream],
                tables.jitters[stream],
            ];
            words[(place - bodies) % 3]
        }
    }
}

/// Checks the answer, every word of the room, and that the sheet reads back.
fn check_case(case: &TablesCase, name: &str) {
    let tables = &case.tables;
    let (given, room) = written_by(write_sheet, case);
    assert_eq!(given, literal_answer(tables, room.len()), "{name}");
    let words = match given.number {
        0 => given.second as usize,
        _ => 0,
    };
    assert_eq!(room[words..], case.room[words..], "{name}");
    for (place, &word) in room[..words].iter().enumerate() {
        assert_eq!(word, literal_word(tables, place), "{name} {place}");
    }
    if given.number == 0 {
        assert_eq!(check_sheet(&room[..words]), answer(0, 0, 0), "{name}");
        let read = read_tables(&room[..words]);
        assert_eq!(read.as_ref(), Ok(tables), "{name}");
    }
}

#[test]
fn generated_and_named_tables() {
    for index in 0..20_000 {
        check_case(&tables_case(9, index), &index.to_string());
    }
    for (name, case) in named_tables() {
        check_case(&case, name);
    }
}

/// A valid sheet comes out the same; any other is refused as by the check.
fn check_round_trip(sheet: &[u32]) -> bool {
    let tables = match read_tables(sheet) {
        Ok(tables) => tables,
        Err(given) => {
            assert_ne!(given.number, 0);
            assert_eq!(given, check_sheet(sheet));
            return false;
        }
    };
    let mut room = vec![OLD; sheet.len() + 3];
    let given = write_sheet(&tables, &mut room);
    assert_eq!((given.number, given.second as usize), (0, sheet.len()));
    assert_eq!(room[..sheet.len()], *sheet);
    assert_eq!(room[sheet.len()..], [OLD; 3]);
    true
}

#[test]
fn generated_and_named_sheets_are_read_and_written_again() {
    let valid = (0..10_000).filter(|&index| check_round_trip(&case(3, index).sheet));
    let valid = valid.count();
    assert!((7_000..9_900).contains(&valid), "{valid}");
    let named = named();
    assert!(
        named
            .iter()
            .filter(|case| check_round_trip(&case.1.sheet))
            .count()
            > 20
    );
}

#[test]
fn the_cycle_is_the_one_that_admit_answers() {
    let mut admitted = 0;
    for index in 0..3_000 {
        let sheet = case(4, index).sheet;
        let given = admit(&sheet, &mut [0; 256]);
        if given.number == 0 {
            let tables = read_tables(&sheet).unwrap();
            assert_eq!(written(&tables).0.third, given.third);
            admitted += 1;
        }
    }
    assert!(admitted > 1_000, "{admitted}");
}
