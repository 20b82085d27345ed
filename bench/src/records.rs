//! Request Eight of document 02, "longest wait so far": the replay with stream
//! records beside the plain replay and beside the second program's, on the rows of
//! `bench replay`, in the same run. The goal is that it takes at most 1.3 times as
//! long as the plain one.

use std::hint::black_box;
use std::time::{Duration, Instant};

use crate::replay::{rows, Traffic};
use crate::{median, RUNS};

/// A short replay is run so many times, since once takes too short a time.
const RELEASES_A_RUN: usize = 5_000;

/// The two are timed by turns, nine times at least and for at least so long.
const LEAST_TIME: Duration = Duration::from_millis(500);

/// What a row comes to: the median times of the plain replay and of the one with
/// records, in nanoseconds, and the median of how they compare. A run of each makes
/// a pair, so that both see the same moments of a machine that others use too.
struct Compared {
    plain: f64,
    recorded: f64,
    ratio: f64,
}

fn by_turns(traffic: &Traffic, times: usize, room: &mut [u32]) -> Compared {
    let (sheet, log, horizon) = (&traffic.sheet[..], &traffic.log[..], traffic.horizon);
    let mut list = [wistorvan::StreamRecord::default(); wistorvan::MAX_STREAMS];
    let (mut plain, mut recorded, mut ratios) = (Vec::new(), Vec::new(), Vec::new());
    let began = Instant::now();
    while ratios.len() < RUNS || began.elapsed() < LEAST_TIME {
        let without = time(times, || {
            let (sheet, log) = (black_box(sheet), black_box(log));
            black_box(wistorvan::raw::replay(sheet, log, horizon, room));
        });
        let with = time(times, || {
            let (sheet, log, list) = (black_box(sheet), black_box(log), black_box(&mut list));
            let answer = wistorvan::raw::replay_with_records(sheet, log, horizon, room, list);
            black_box(answer);
        });
        plain.push(without);
        recorded.push(with);
        ratios.push(with / without);
    }
    Compared {
        plain: middle(plain),
        recorded: middle(recorded),
        ratio: middle(ratios),
    }
}

/// One of so many runs, in nanoseconds.
fn time(times: usize, mut run: impl FnMut()) -> f64 {
    let began = Instant::now();
    for _ in 0..times {
        run();
    }
    began.elapsed().as_nanos() as f64 / times as f64
}

fn middle(mut times: Vec<f64>) -> f64 {
    times.sort_by(f64::total_cmp);
    times[times.len() / 2]
}

fn by_second(traffic: &Traffic, room: &mut [u32]) -> f64 {
    let (sheet, log) = (&traffic.sheet[..], &traffic.log[..]);
    let mut list = [peer::StreamRecord::default(); wistorvan::MAX_STREAMS];
    median(|| {
        let (sheet, log, list) = (black_box(sheet), black_box(log), black_box(&mut list[..]));
        let horizon = traffic.horizon;
        black_box(peer::replay_with_records(sheet, log, horizon, room, list));
    })
}

/// Prints each row, and how many are above the goal.
pub fn records() {
    let mut above = 0;
    for (name, traffic) in rows() {
        let releases = traffic.log.len() / 2;
        let mut room = vec![0u32; releases];
        let times = (RELEASES_A_RUN / releases).max(1);
        let Compared {
            plain,
            recorded,
            ratio,
        } = by_turns(&traffic, times, &mut room);
        let second = by_second(&traffic, &mut room);
        above += u32::from(ratio > 1.3);
        println!(
            "{name}: plain {:.2} us, with records {:.2} us, ratio {ratio:.2}; second program {:.2} us, second / proved {:.2}",
            plain / 1e3,
            recorded / 1e3,
            second / 1e3,
            second / recorded
        );
    }
    println!("rows above 1.3: {above}");
}
