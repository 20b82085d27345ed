//! The replay: the proved one beside the second program, on idle and loaded buses
//! and on backlogs.

use std::hint::black_box;

use crate::{median, sheet, Random};

/// Times one replay by both, and prints it for a turn of the second program.
fn replay_pair(what: &str, sheet: &[u32], log: &[u32], horizon: u32) {
    let mut room = vec![0u32; log.len() / 2];
    let answer = wistorvan::raw::replay(sheet, log, horizon, &mut room);
    assert_eq!(answer.number, 0);
    let proved = median(|| {
        black_box(wistorvan::raw::replay(
            black_box(sheet),
            black_box(log),
            horizon,
            &mut room,
        ));
    });
    let second = median(|| {
        black_box(peer::replay(
            black_box(sheet),
            black_box(log),
            horizon,
            &mut room,
        ));
    });
    println!(
        "{what}: proved {:.3} ms, second program {:.3} ms ({:.2} ns a turn, {} turns), second / proved {:.2}",
        proved / 1e6,
        second / 1e6,
        second / f64::from(answer.second.max(1)),
        answer.second,
        second / proved
    );
}

/// So many releases of sheet A's streams in turn, spread evenly.
pub fn even_log(releases: u32, horizon: u32) -> Vec<u32> {
    let apart = horizon / releases;
    (0..releases).flat_map(|i| [i * apart, 1 + i % 3]).collect()
}

/// Streams that release at their periods from tick 0 up to a horizon.
fn periodic_log(periods: &[u32], horizon: u32) -> Vec<u32> {
    let mut releases: Vec<(u32, u32)> = (1..)
        .zip(periods)
        .flat_map(|(stream, &period)| (0..horizon / period).map(move |i| (i * period, stream)))
        .collect();
    releases.sort();
    releases
        .iter()
        .flat_map(|&(tick, stream)| [tick, stream])
        .collect()
}

/// What is replayed: a sheet, a log and a horizon.
pub struct Traffic {
    pub sheet: Vec<u32>,
    pub log: Vec<u32>,
    pub horizon: u32,
}

/// Three streams up to a horizon: messages and their slots take nine tenths of
/// the time.
pub fn loaded(horizon: u32) -> Traffic {
    Traffic {
        sheet: sheet(5, 1, &[(1, vec![(25, 25), (40, 40)]), (2, vec![(12, 12)])]),
        log: periodic_log(&[25, 40, 12], horizon),
        horizon,
    }
}

/// A morning on a full line: sixteen nodes of four streams, whose messages and
/// slots take two thirds of the time.
pub fn morning() -> Traffic {
    let periods: Vec<u32> = (0..64).map(|i| 404 + 6 * i).collect();
    let nodes: Vec<(u32, Vec<(u32, u32)>)> = periods
        .chunks(4)
        .map(|own| (2, own.iter().map(|&period| (period, period)).collect()))
        .collect();
    let log = periodic_log(&periods, 40_000);
    first_releases(sheet(5, 1, &nodes), log)
}

/// The first 4,096 releases of a log, up to a horizon some time after the last.
pub fn first_releases(sheet: Vec<u32>, mut log: Vec<u32>) -> Traffic {
    log.truncate(2 * 4096);
    let horizon = log[log.len() - 2] + 1_000;
    Traffic {
        sheet,
        log,
        horizon,
    }
}

/// All releases come at tick 0: to many nodes, so that most looks at a release
/// pass it, and to one node, so that each look compares two streams.
fn backlogs() -> Vec<Row> {
    let nodes: Vec<(u32, Vec<(u32, u32)>)> = (0..16).map(|_| (4, vec![(1000, 1000); 16])).collect();
    let spread = [(256, "256"), (1024, "1,024"), (4096, "4,096")].map(|(releases, name)| {
        let traffic = Traffic {
            sheet: sheet(5, 1, &nodes),
            log: (0..releases).flat_map(|i| [0, 1 + i % 256]).collect(),
            horizon: 1_000_000,
        };
        (
            format!("a backlog of {name} at tick 0, sixteen nodes"),
            traffic,
        )
    });
    let mut random = Random(20_261_116);
    let mut near = |ticks: u32| ticks + random.below(1_000) as u32;
    let streams = (0..16).map(|_| (near(100_000), near(50_000))).collect();
    let rivals = Traffic {
        sheet: sheet(5, 1, &[(4, streams)]),
        log: (0..1024).flat_map(|_| [0, 1 + near(0) % 16]).collect(),
        horizon: 1_000_000,
    };
    let name = "a backlog of 1,024 at tick 0, one node of sixteen streams";
    spread
        .into_iter()
        .chain([(name.to_string(), rivals)])
        .collect()
}

/// The longest replay found: all wait for the last of sixteen nodes, which
/// takes one a turn and the first release last, so that each turn of every
/// node passes all of them.
fn longest() -> Traffic {
    let mut nodes = vec![(1, vec![(1_000, 1_000)]); 15];
    nodes.push((1, vec![(1_000, 900), (1_000, 1_000)]));
    let mut log: Vec<u32> = [0, 16].repeat(4096);
    log[1] = 17;
    Traffic {
        sheet: sheet(5, 1, &nodes),
        log,
        horizon: 1_000_000,
    }
}

/// Sheet A with so many releases, spread evenly.
fn evenly(releases: u32, horizon: u32) -> Traffic {
    Traffic {
        sheet: SHEET_A.to_vec(),
        log: even_log(releases, horizon),
        horizon,
    }
}

pub const SHEET_A: [u32; 18] = [2, 5, 1, 9, 2, 1, 15, 1, 2, 40, 40, 0, 60, 60, 0, 30, 30, 0];

/// What is replayed, by its name.
pub type Row = (String, Traffic);

pub fn rows() -> Vec<Row> {
    let far = 1_000_000_000;
    let named = |name: &str, traffic| (name.to_string(), traffic);
    let mut rows = vec![
        named(
            "sheet A, 4,096 releases evenly, horizon 10^9",
            evenly(4096, far),
        ),
        named("a bus loaded to nine tenths", loaded(22_800)),
        named("a morning of 4,096 releases, sixteen nodes", morning()),
    ];
    rows.extend(backlogs());
    let last = "4,096 at tick 0 for one of sixteen nodes, budget 1";
    rows.push(named(last, longest()));
    for horizon in [1_000_000, 10_000_000, 100_000_000, far] {
        let name = format!("4,096 releases, horizon {horizon}");
        rows.push((name, evenly(4096, horizon)));
    }
    for releases in [16, 64, 256, 1024, 4096] {
        let name = format!("{releases} releases, horizon 10^8");
        rows.push((name, evenly(releases, 100_000_000)));
    }
    rows
}

pub fn replay() {
    for (name, traffic) in rows() {
        replay_pair(&name, &traffic.sheet, &traffic.log, traffic.horizon);
    }
}
