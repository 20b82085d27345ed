//! The search for budgets against every row of 1 to 16, and against rounds that
//! take the late test by its words.

mod common;

use common::*;
use peer::generate::{budgets_case, named_budgets};
use peer::{admit, check_sheet, find_budgets, find_budgets_by_rounds};

type Row = Vec<usize>;

/// Whether a stream of the node is late, by the words of document 01 and of
/// requests Four and Six. A J whose delivery is past the deadline makes it late,
/// and so does one further on, so that none of those is tried.
fn is_late(bus: &Plain, node: usize, budget: u64, sum: u64) -> bool {
    let streams = &bus.nodes[node].1;
    let cycle = sum * bus.message + bus.nodes.len() as u64 * bus.slot;
    let in_time = |stream: usize| {
        let above = streams_above(streams, stream);
        let Stream {
            deadline, jitter, ..
        } = streams[stream];
        let delivery = |j: u64| jitter + j * cycle - 1 + budget * bus.message + bus.slot;
        (1..)
            .take_while(|&j| delivery(j) <= deadline)
            .any(|j| releases(&above, j * cycle - 1) < j * budget)
    };
    !(0..streams.len()).all(in_time)
}

/// The late nodes by a row.
fn late(bus: &Plain, row: &Row) -> Vec<usize> {
    let sum = row.iter().sum::<usize>() as u64;
    let nodes = 0..row.len();
    nodes
        .filter(|&node| is_late(bus, node, row[node] as u64, sum))
        .collect()
}

/// Every row that admits the sheet. Whether a node is late depends on its own
/// budget and on the sum alone, so that each pair of those is judged once.
fn admitting(bus: &Plain) -> Vec<Row> {
    let nodes = bus.nodes.len();
    let by_sum = |node: usize, budget: u64| -> Vec<bool> {
        let sums = 0..=16 * nodes as u64;
        sums.map(|sum| sum >= budget && is_late(bus, node, budget, sum))
            .collect()
    };
    let by_budget = |node: usize| (1..=16).map(|budget| by_sum(node, budget)).collect();
    let late: Vec<Vec<Vec<bool>>> = (0..nodes).map(by_budget).collect();
    let rows = (0..16usize.pow(nodes as u32)).map(|number| {
        let digit = |node: usize| number >> (4 * node) & 15;
        (0..nodes).map(|node| 1 + digit(node)).collect()
    });
    rows.filter(|row: &Row| {
        let sum: usize = row.iter().sum();
        !(0..nodes).any(|node| late[node][row[node] - 1][sum])
    })
    .collect()
}

/// The row, or the node from 1, by the words of the request.
fn by_rounds(bus: &Plain) -> Result<Row, u32> {
    let mut row = vec![1; bus.nodes.len()];
    loop {
        let old = row.clone();
        let late = late(bus, &old);
        if late.is_empty() {
            return Ok(old);
        }
        for &node in &late {
            if old[node] == 16 {
                return Err(node as u32 + 1);
            }
            row[node] += 1;
        }
    }
}

/// How often all ones were found, a row above them, and no row.
#[derive(Default, Debug)]
struct Times {
    ones: u32,
    above: u32,
    none: u32,
}

impl Times {
    /// Tries every row: the one that is found admits the sheet, no node has less
    /// in any that does, and none is found exactly if there is no such row.
    fn try_every_row(&mut self, sheet: &[u32]) {
        let bus = plain(sheet);
        let admitting = admitting(&bus);
        let (given, row) = found(sheet);
        match by_rounds(&bus) {
            Ok(expected) => {
                let row: Row = row.iter().map(|&word| word as usize).collect();
                assert_eq!(row, expected, "{sheet:?}");
                assert!(admitting.contains(&row), "{row:?} {sheet:?}");
                for other in &admitting {
                    let pairs = row.iter().zip(other);
                    assert!(pairs.clone().all(|(one, other)| one <= other), "{sheet:?}");
                }
                let sum = row.iter().sum::<usize>() as u32;
                let cycle = sum * sheet[1] + sheet[0] * sheet[2];
                assert_eq!(given, answer(0, sum, cycle), "{sheet:?}");
                match row.iter().all(|&budget| budget == 1) {
                    true => self.ones += 1,
                    false => self.above += 1,
                }
            }
            Err(node) => {
                assert!(admitting.is_empty(), "{sheet:?}");
                assert_eq!(given, answer(11, node, 0), "{sheet:?}");
                self.none += 1;
            }
        }
    }

    fn are_at_least(&self, ones: u32, above: u32, none: u32) {
        let enough = self.ones >= ones && self.above >= above && self.none >= none;
        assert!(enough, "{self:?}");
    }
}

/// Streams of a small node: as many, and of a deadline, as the number says.
/// From a deadline that all ones just miss, each further one is longer. Some
/// have jitters: for some of these the deadline is longer, for others not.
fn small_node(number: u32, ticks: [u32; 2], nodes: u32) -> Vec<[u32; 3]> {
    let turn = ticks[0] + ticks[1];
    let (count, step, style) = (number % 5, number / 5 % 10, number / 50 % 3);
    let deadline = |place: u32| {
        let further = [0, turn, 1][style as usize] * place;
        nodes * turn + turn - 2 + step * turn.div_ceil(2) + further
    };
    let stream = |place: u32| {
        let ticks = deadline(place);
        let jitter = [0, 0, 1, 0, ticks / 2, 0, turn][((number + 3) * (place + 1)) as usize % 7];
        let longer = (number + place) % 4;
        let deadline = ticks + if longer > 0 { jitter } else { 0 };
        let period = [1, 2, 5][(number + place) as usize % 3] * deadline;
        [period, deadline, jitter]
    };
    (0..count).map(stream).collect()
}

/// Sheets of so many small nodes; every `apart`-th number of each.
fn small_sheets(nodes: u32, apart: usize) -> Vec<Vec<u32>> {
    let all = 150u32.pow(nodes);
    let mut sheets = Vec::new();
    for number in (0..4 * all).step_by(apart) {
        let ticks = [[1, 1], [3, 1], [1, 9], [2, 30]][(number / all) as usize];
        let part = |node: u32| number / 150u32.pow(node) % 150;
        let streams: Vec<_> = (0..nodes)
            .map(|node| small_node(part(node), ticks, nodes))
            .collect();
        let rows: Vec<(u32, &[[u32; 3]])> = streams.iter().map(|it| (4, &it[..])).collect();
        sheets.push(jittery_sheet(ticks[0], ticks[1], &rows));
    }
    sheets
}

#[test]
fn every_row_of_small_sheets_of_one_node() {
    let mut times = Times::default();
    let sheets = small_sheets(1, 1);
    sheets.iter().for_each(|sheet| times.try_every_row(sheet));
    times.are_at_least(400, 40, 80);
}

#[test]
fn every_row_of_small_sheets_of_two_nodes() {
    let mut times = Times::default();
    let sheets = small_sheets(2, 17);
    sheets.iter().for_each(|sheet| times.try_every_row(sheet));
    times.are_at_least(1_000, 1_000, 1_000);
}

#[test]
fn every_row_of_some_small_sheets_of_three_nodes() {
    let mut times = Times::default();
    let sheets = small_sheets(3, 30_011);
    sheets.iter().for_each(|sheet| times.try_every_row(sheet));
    times.are_at_least(30, 120, 200);
}

/// Valid sheets of these numbers of nodes from the generated cases.
fn generated(seed: u64, count: u64, nodes: std::ops::RangeInclusive<u32>) -> Vec<Vec<u32>> {
    let sheets = (0..count).map(|index| budgets_case(seed, index).sheet);
    let valid = sheets.filter(|sheet| check_sheet(sheet).number == 0);
    valid.filter(|sheet| nodes.contains(&sheet[0])).collect()
}

/// Long searches for J by division take long, so that their sheets are left out.
fn is_quick(sheet: &[u32]) -> bool {
    let cycle = sheet[0] * (sheet[1] + sheet[2]);
    let mut deadlines = bodies(sheet).into_iter().flatten().map(|stream| stream[1]);
    deadlines.all(|deadline| deadline / cycle < 500)
}

#[test]
fn every_row_of_generated_sheets() {
    let mut times = Times::default();
    let sheets = generated(31, 6_000, 1..=2).into_iter();
    let more = generated(32, 1_500, 3..=3).into_iter();
    for sheet in sheets.chain(more).filter(|sheet| is_quick(sheet)) {
        times.try_every_row(&sheet);
    }
    times.are_at_least(400, 400, 200);
}

/// With more nodes than there are rows to try: the row is found by the rounds,
/// it admits the sheet, and one less for any node makes that node late.
#[test]
fn rounds_by_the_words_on_generated_sheets() {
    let mut times = Times::default();
    let sheets = generated(33, 3_000, 4..=16).into_iter();
    for sheet in sheets.filter(|sheet| is_quick(sheet)) {
        let bus = plain(&sheet);
        let (given, row) = found(&sheet);
        match by_rounds(&bus) {
            Ok(expected) => {
                let words: Vec<u32> = expected.iter().map(|&it| it as u32).collect();
                assert_eq!(row, words, "{sheet:?}");
                for node in 0..expected.len() {
                    let mut less = expected.clone();
                    less[node] -= 1;
                    assert!(less[node] == 0 || late(&bus, &less) == [node]);
                }
                match words.iter().all(|&word| word == 1) {
                    true => times.ones += 1,
                    false => times.above += 1,
                }
            }
            Err(node) => {
                assert_eq!(given, answer(11, node, 0), "{sheet:?}");
                times.none += 1;
            }
        }
    }
    times.are_at_least(60, 300, 400);
}

/// The admission agrees: the sheet with the row in it is admitted, with the
/// cycle that was answered.
#[test]
fn the_sheet_with_the_row_is_admitted() {
    let mut admitted = 0;
    for sheet in generated(34, 5_000, 1..=16) {
        let (given, row) = found(&sheet);
        if given.number == 0 {
            let with_row = with_budgets(&sheet, &row);
            let waits = admit(&with_row, &mut [0; 256]);
            assert_eq!((waits.number, waits.third), (0, given.third), "{sheet:?}");
            admitted += 1;
        }
    }
    assert!(admitted > 1_500, "{admitted}");
}

#[test]
fn both_methods_agree() {
    let generated = (0..20_000).map(|index| budgets_case(35, index));
    let named = named_budgets().into_iter().map(|named| named.1);
    for case in generated.chain(named) {
        let given = found_by(find_budgets, &case);
        assert_eq!(found_by(find_budgets_by_rounds, &case), given, "{case:?}");
    }
}

#[test]
fn budgets_of_the_sheet_play_no_part() {
    for sheet in generated(36, 3_000, 1..=16) {
        let expected = found(&sheet);
        for budgets in [
            [1; 16],
            [16; 16],
            std::array::from_fn(|node| 16 - node as u32),
        ] {
            assert_eq!(found(&with_budgets(&sheet, &budgets)), expected);
        }
    }
}

#[test]
fn refusals_leave_generated_rooms_and_rows_leave_the_rest() {
    let mut refused = 0;
    for index in 0..5_000 {
        let case = budgets_case(37, index);
        let (given, left) = found_by(find_budgets, &case);
        let written = if given.number == 0 { 16 } else { 0 };
        assert_eq!(left[written..], case.room[written..], "{index}");
        refused += u32::from(given.number != 0);
    }
    assert!(refused > 2_000, "{refused}");
}
