//! Times the proved library beside the second program, both built for
//! release, in one run: `bench admit`, `bench search`, `bench hardest`,
//! `bench replay`, `bench records`, `bench feed`, `bench write`, `bench budgets`.
//! Each figure is the median of nine runs over the same inputs (`bench search` and `bench hardest` time the
//! second program, which searches for J one by one, in one run); rooms are not
//! cleared between runs. `bench slowest WHAT SECONDS SEED` looks for sheets on
//! which the proved search is slow: WHAT is `stream`, `sheet` or `budgets`.
//! `bench command SECONDS SEED` times whole runs of the command beside the proved
//! programs; both are made first.

mod budgets;
mod command;
mod feed;
mod records;
mod replay;
mod search;
mod slowest;

use std::hint::black_box;
use std::process::ExitCode;
use std::time::Instant;

use peer::Tables;
use wistorvan::LONGEST_SHEET;

const RUNS: usize = 9;

/// The median time of nine runs, in nanoseconds.
fn median(mut run: impl FnMut()) -> f64 {
    let mut times: Vec<f64> = (0..RUNS)
        .map(|_| {
            let began = Instant::now();
            run();
            began.elapsed().as_nanos() as f64
        })
        .collect();
    times.sort_by(f64::total_cmp);
    times[RUNS / 2]
}

/// A small generator, so that a run can be repeated.
struct Random(u64);

impl Random {
    fn below(&mut self, limit: u64) -> u64 {
        self.0 ^= self.0 << 13;
        self.0 ^= self.0 >> 7;
        self.0 ^= self.0 << 17;
        self.0 % limit
    }
}

/// A sheet with these nodes: a budget and the streams' periods and deadlines.
/// No stream has jitter.
fn sheet(message: u32, slot: u32, nodes: &[(u32, Vec<(u32, u32)>)]) -> Vec<u32> {
    jittery_sheet(message, slot, nodes, |_| 0)
}

/// The same, with a jitter for each period.
fn jittery_sheet(
    message: u32,
    slot: u32,
    nodes: &[(u32, Vec<(u32, u32)>)],
    jitter: impl Fn(u32) -> u32,
) -> Vec<u32> {
    let mut words = vec![nodes.len() as u32, message, slot];
    let mut place = 3 + 3 * nodes.len() as u32;
    for (budget, streams) in nodes {
        words.extend([place, streams.len() as u32, *budget]);
        place += 3 * streams.len() as u32;
    }
    for &(period, deadline) in nodes.iter().flat_map(|(_, streams)| streams) {
        words.extend([period, deadline, jitter(period)]);
    }
    words
}

/// Admitted sheets of 16 nodes with 16 streams each, with J from 1 to some. A
/// jitter is such a part of the period, or none.
fn full_sheets(count: usize, part: Option<u32>) -> Vec<Vec<u32>> {
    let mut random = Random(20_261_115);
    let mut sheets = Vec::new();
    while sheets.len() < count {
        let budget = 1 + random.below(16) as u32;
        let least = 5_000 * (1 + random.below(20));
        let nodes: Vec<(u32, Vec<(u32, u32)>)> = (0..16)
            .map(|_| {
                let streams = (0..16).map(|_| (least + random.below(9 * least)) as u32);
                (budget, streams.map(|period| (period, period)).collect())
            })
            .collect();
        let words = jittery_sheet(
            1 + random.below(20) as u32,
            1 + random.below(5) as u32,
            &nodes,
            |period| part.map_or(0, |part| period / part),
        );
        if peer::admit(&words, &mut [0; 256]).number == 0 {
            sheets.push(words);
        }
    }
    sheets
}

fn print_pair(what: &str, per: f64, proved: f64, second: f64) {
    println!(
        "{what}: proved {:.0} ns, second program {:.0} ns, ratio {:.2}",
        proved / per,
        second / per,
        proved / second
    );
}

fn admit() {
    admit_pair("admit, a sheet", None);
    admit_pair("admit, a sheet with jitters", Some(4));
}

fn admit_pair(what: &str, part: Option<u32>) {
    let sheets = full_sheets(500, part);
    let mut room = [0u32; 256];
    let mut largest = 0;
    for words in &sheets {
        for node in 1..=16 {
            for stream in 1..=16 {
                largest = largest.max(wistorvan::raw::one_stream(words, node, stream).third);
            }
        }
    }
    println!(
        "{} admitted sheets of 16 nodes with 16 streams, J up to {largest}",
        sheets.len()
    );
    let proved = median(|| {
        for words in &sheets {
            black_box(wistorvan::raw::admit(black_box(words), &mut room));
        }
    });
    let second = median(|| {
        for words in &sheets {
            black_box(peer::admit(black_box(words), &mut room));
        }
    });
    print_pair(what, sheets.len() as f64, proved, second);
}

/// A sheet is written so many times a run, since once takes too short a time.
const WRITES: usize = 10_000;

/// Times the writing of a sheet from its tables by both.
fn write_pair(what: &str, tables: &Tables) {
    let lent = wistorvan::Tables {
        message_ticks: tables.message_ticks,
        slot_ticks: tables.slot_ticks,
        counts: &tables.counts,
        budgets: &tables.budgets,
        periods: &tables.periods,
        deadlines: &tables.deadlines,
        jitters: &tables.jitters,
    };
    let mut room = [0u32; LONGEST_SHEET];
    let answer = wistorvan::raw::write_sheet(&lent, &mut room);
    assert_eq!(answer.number, 0);
    let proved = median(|| {
        for _ in 0..WRITES {
            let room = black_box(&mut room[..]);
            black_box(wistorvan::raw::write_sheet(black_box(&lent), room));
        }
    });
    let second = median(|| {
        for _ in 0..WRITES {
            let room = black_box(&mut room[..]);
            black_box(peer::write_sheet(black_box(tables), room));
        }
    });
    let what = format!("{what}, {} words", answer.second);
    print_pair(&what, WRITES as f64, proved, second);
}

/// As many streams in each node, and all alike.
fn write_even(nodes: usize, streams: u32) {
    let all = nodes * streams as usize;
    let tables = Tables {
        message_ticks: 5,
        slot_ticks: 1,
        counts: vec![streams; nodes],
        budgets: vec![4; nodes],
        periods: vec![1000; all],
        deadlines: vec![900; all],
        jitters: vec![100; all],
    };
    write_pair(&format!("{nodes} nodes of {streams} streams"), &tables);
}

fn write() {
    write_even(16, 16);
    write_even(8, 8);
    let tables_a = Tables {
        message_ticks: 5,
        slot_ticks: 1,
        counts: vec![2, 1],
        budgets: vec![1, 2],
        periods: vec![40, 60, 30],
        deadlines: vec![40, 60, 30],
        jitters: vec![0; 3],
    };
    write_pair("sheet A", &tables_a);
}

/// A number among the arguments, or else this one.
fn number(place: usize, unset: u64) -> u64 {
    let given = std::env::args().nth(place);
    given.and_then(|text| text.parse().ok()).unwrap_or(unset)
}

/// Looks for slow sheets, if what is asked of them is known.
fn look(asked: Option<&str>) -> bool {
    let asked = match asked {
        Some("stream") => slowest::Sought::Stream,
        Some("sheet") => slowest::Sought::Sheet,
        Some("budgets") => slowest::Sought::Budgets,
        _ => return false,
    };
    slowest::slowest(asked, number(3, 10), number(4, 1));
    true
}

fn usage() -> ExitCode {
    eprintln!("usage: bench admit | search | hardest | replay | records | feed | write | budgets");
    eprintln!("       bench slowest stream|sheet|budgets SECONDS SEED");
    eprintln!("       bench command SECONDS SEED");
    ExitCode::from(2)
}

fn main() -> ExitCode {
    let mut words = std::env::args().skip(1);
    match words.next().as_deref() {
        Some("admit") => admit(),
        Some("search") => search::search(),
        Some("hardest") => search::hardest(),
        Some("replay") => replay::replay(),
        Some("records") => records::records(),
        Some("feed") => feed::feed(),
        Some("write") => write(),
        Some("budgets") => budgets::budgets(),
        Some("command") => {
            if let Err(error) = command::command(number(2, 10), number(3, 1)) {
                eprintln!("{error}");
                return ExitCode::FAILURE;
            }
        }
        Some("slowest") if look(words.next().as_deref()) => {}
        _ => return usage(),
    }
    ExitCode::SUCCESS
}
