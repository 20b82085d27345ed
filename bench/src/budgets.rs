//! The search for budgets on sheets of sixteen nodes that take a hundred rounds
//! and more, with a row in the end or without one.

use std::hint::black_box;

use peer::generate::many_rounds;
use peer::stats::round_count;

use crate::{median, print_pair};

/// So many sheets of each kind.
const SHEETS: usize = 50;

/// What a search answers: its three numbers.
type Find = fn(&[u32], &mut [u32]) -> [u32; 3];

fn proved(sheet: &[u32], room: &mut [u32]) -> [u32; 3] {
    let answer = wistorvan::raw::find_budgets(sheet, room);
    [answer.number, answer.second, answer.third]
}

/// By rounds, as the proved one.
fn second(sheet: &[u32], room: &mut [u32]) -> [u32; 3] {
    let answer = peer::find_budgets_by_rounds(sheet, room);
    [answer.number, answer.second, answer.third]
}

/// Node by node, and by rounds where there is no row.
fn node_by_node(sheet: &[u32], room: &mut [u32]) -> [u32; 3] {
    let answer = peer::find_budgets(sheet, room);
    [answer.number, answer.second, answer.third]
}

/// The median time for all sheets.
fn time(find: Find, sheets: &[Vec<u32>]) -> f64 {
    let mut room = [0; 16];
    median(|| {
        for words in sheets {
            black_box(find(black_box(words), &mut room));
        }
    })
}

/// Generated sheets that are answered with this number.
fn sheets(number: u32) -> Vec<Vec<u32>> {
    let all = (0..).map(|index| many_rounds(20_261_117, index));
    let long = all.filter(|words| round_count(words) >= Some(100));
    let fitting = long.filter(|words| second(words, &mut [0; 16])[0] == number);
    fitting.take(SHEETS).collect()
}

fn compare(what: &str, number: u32) {
    let sheets = sheets(number);
    let counts = sheets.iter().filter_map(|words| round_count(words));
    let rounds: u64 = counts.sum();
    for words in &sheets {
        let rooms = &mut [[0; 16]; 3];
        let answer = proved(words, &mut rooms[0]);
        assert_eq!(answer, second(words, &mut rooms[1]));
        assert_eq!(answer, node_by_node(words, &mut rooms[2]));
        assert!(rooms.iter().all(|room| *room == rooms[0]));
    }
    println!("{SHEETS} sheets, {what}, {rounds} rounds together");
    let mine = time(proved, &sheets);
    let by_rounds = time(second, &sheets);
    let other = time(node_by_node, &sheets);
    let each = SHEETS as f64;
    print_pair("find budgets, a sheet", each, mine, by_rounds);
    print_pair(
        "find budgets, second program node by node",
        each,
        mine,
        other,
    );
}

pub fn budgets() {
    compare("a row is found", 0);
    compare("no row works", 11);
}
