//! Generated numbers of a line, in ticks: lines that are admitted, lines with
//! late streams, and lines that the library refuses.

use super::lines::{Numbers, StreamNumbers};
use super::random::Random;

/// Numbers around the ends of the ranges that a sheet has.
const SMALL_EDGES: [u32; 6] = [0, 1, 16, 17, 18, 4_294_967_295];
const DURATION_EDGES: [u32; 4] = [0, 10_000, 10_001, 65_536];
const PERIOD_EDGES: [u32; 6] = [
    0,
    1,
    999_999_999,
    1_000_000_000,
    1_000_000_001,
    4_294_967_295,
];

/// A stream of which a node has many.
const ALIKE: StreamNumbers = StreamNumbers {
    period: 9_000,
    deadline: 9_000,
    jitter: 0,
};

/// How large a line is, and how much room its deadlines leave.
struct Shape {
    nodes: u64,
    streams: u64,
    budget: u64,
    message: u64,
    /// Periods are about so many full cycles.
    cycles: u64,
    /// Whether streams queue late.
    late: bool,
}

fn shape(random: &mut Random) -> Shape {
    let cycles = random.pick(&[1, 2, 2, 3, 3, 4, 6, 10, 20, 1000]);
    let small = Shape {
        nodes: random.within(1, 5),
        streams: 4,
        budget: 4,
        message: 10,
        cycles,
        late: random.one_in(2),
    };
    match random.below(20) {
        0 => Shape {
            nodes: random.within(1, 16),
            streams: 16,
            cycles: 8 * cycles,
            ..small
        },
        1 => Shape {
            budget: 16,
            message: 10_000,
            ..small
        },
        2 => Shape {
            nodes: 16,
            streams: 2,
            ..small
        },
        3 => Shape {
            nodes: 1,
            streams: 16,
            ..small
        },
        _ => small,
    }
}

/// A period around so many cycles, and a deadline of half of it or more. A few
/// streams are as alike as can be, so that the rank goes by period or number.
fn stream(random: &mut Random, around: u64, late: bool) -> StreamNumbers {
    let around = around.min(600_000_000);
    let (period, deadline) = if random.one_in(4) {
        (around + random.below(2), around)
    } else {
        let period = random.within(around / 2 + 1, around / 2 * 3 + 2);
        let deadline = random.within(period / 2 + 1, period.max(2));
        (period, deadline.min(period))
    };
    let jitter = if late {
        jitter(random, period, deadline)
    } else {
        0
    };
    StreamNumbers {
        period: period as u32,
        deadline: deadline as u32,
        jitter: jitter as u32,
    }
}

/// A jitter less than the period: none, small, a part of the deadline, around
/// the deadline, or just under the period.
fn jitter(random: &mut Random, period: u64, deadline: u64) -> u64 {
    let jitter = match random.below(20) {
        0..=5 => 0,
        6..=11 => random.within(1, 5),
        12..=17 => random.below(deadline / 2 + 1),
        18 => random.within(deadline - 1, deadline + 1),
        _ => period - random.within(1, 2).min(period),
    };
    jitter.min(period - 1)
}

/// A line that the library does not refuse for its ranges.
fn in_range(random: &mut Random) -> Numbers {
    let shape = shape(random);
    let message = random.within(1, shape.message);
    let slot = random.within(1, shape.message.min(5));
    let budgets: Vec<u64> = (0..shape.nodes)
        .map(|_| random.within(1, shape.budget))
        .collect();
    let cycle = budgets.iter().sum::<u64>() * message + shape.nodes * slot;
    let node = |&budget: &u64| {
        let count = random.below(shape.streams + 1);
        let streams = (0..count).map(|_| stream(random, cycle * shape.cycles, shape.late));
        (budget as u32, streams.collect())
    };
    let nodes = budgets.iter().map(node).collect();
    Numbers {
        message: message as u32,
        slot: slot as u32,
        nodes,
    }
}

/// Puts one number of the line to an end of its range, or past it.
fn push_to_edge(random: &mut Random, numbers: &mut Numbers) {
    let last = numbers.nodes.len() as u64 - 1;
    let chosen = random.within(0, last) as usize;
    let (budget, streams) = &mut numbers.nodes[chosen];
    let place = random.below(streams.len() as u64) as usize;
    match random.below(10) {
        0 => numbers.message = random.pick(&DURATION_EDGES),
        1 => numbers.slot = random.pick(&DURATION_EDGES),
        2 => *budget = random.pick(&SMALL_EDGES),
        3 => streams.resize(random.within(15, 18) as usize, ALIKE),
        4 => numbers
            .nodes
            .resize(random.within(15, 18) as usize, (1, Vec::new())),
        kind => {
            if let Some(stream) = streams.get_mut(place) {
                let period = stream.period;
                match kind {
                    5 => stream.period = random.pick(&PERIOD_EDGES),
                    6 => stream.deadline = random.pick(&PERIOD_EDGES),
                    7 => stream.deadline = period.saturating_add(random.below(2) as u32),
                    8 => stream.jitter = random.pick(&PERIOD_EDGES),
                    _ => stream.jitter = period.saturating_sub(random.below(2) as u32),
                }
            }
        }
    }
}

pub fn numbers(random: &mut Random) -> Numbers {
    let mut numbers = in_range(random);
    if random.one_in(4) {
        for _ in 0..random.within(1, 3) {
            push_to_edge(random, &mut numbers);
        }
    }
    numbers
}
