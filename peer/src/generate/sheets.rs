//! Valid sheets of many kinds.

use super::deadlines::{meet_deadlines, sharpen_deadline};
use super::full::full_sheet;
use super::jitters::{add_jitters, sharpen_jitter};
use super::long::{fill_long_search, fill_long_wait};
use super::random::Random;
use super::MOST_TRIES;
use crate::admission::Above;
use crate::sheet::{LAST_TICK, STREAM_WORDS};

#[derive(Clone, Copy, Default)]
pub(super) struct StreamPlan {
    pub period: u32,
    pub deadline: u32,
    pub jitter: u32,
}

impl StreamPlan {
    /// The nearest in range, as long as the deadline is no longer than the
    /// period.
    pub fn new(period: u64, deadline: u64, jitter: u64) -> StreamPlan {
        let period = bounded(period);
        StreamPlan {
            period,
            deadline: bounded(deadline),
            jitter: jitter.min(u64::from(period) - 1) as u32,
        }
    }

    /// Without jitter.
    pub fn steady(period: u32, deadline: u32) -> StreamPlan {
        StreamPlan {
            period,
            deadline,
            jitter: 0,
        }
    }

    pub fn above(&self) -> Above {
        Above {
            period: self.period.into(),
            jitter: self.jitter.into(),
        }
    }
}

/// Streams without jitter, from periods and deadlines.
pub(super) fn steady(streams: &[(u32, u32)]) -> Vec<StreamPlan> {
    let streams = streams.iter();
    streams
        .map(|&(period, deadline)| StreamPlan::steady(period, deadline))
        .collect()
}

pub(super) struct NodePlan {
    pub budget: u32,
    pub streams: Vec<StreamPlan>,
}

pub(super) struct Plan {
    pub message: u32,
    pub slot: u32,
    pub nodes: Vec<NodePlan>,
}

impl Plan {
    pub fn cycle(&self) -> u64 {
        let budgets: u64 = self.nodes.iter().map(|node| u64::from(node.budget)).sum();
        budgets * u64::from(self.message) + self.nodes.len() as u64 * u64::from(self.slot)
    }

    pub fn words(&self) -> Vec<u32> {
        let mut words = vec![self.nodes.len() as u32, self.message, self.slot];
        let mut place = 3 + 3 * self.nodes.len() as u32;
        for node in &self.nodes {
            let count = node.streams.len() as u32;
            words.extend([place, count, node.budget]);
            place += STREAM_WORDS as u32 * count;
        }
        for stream in self.nodes.iter().flat_map(|node| &node.streams) {
            words.extend([stream.period, stream.deadline, stream.jitter]);
        }
        words
    }
}

/// The nearest period or deadline in range.
pub(super) fn bounded(ticks: u64) -> u32 {
    ticks.clamp(1, u64::from(LAST_TICK)) as u32
}

pub(super) fn slot_length(random: &mut Random) -> u32 {
    match random.weighted(&[70, 15, 15]) {
        0 => random.between(1, 12) as u32,
        1 => random.between(1, 10_000) as u32,
        _ => random.pick(&[1, 2, 9_999, 10_000]),
    }
}

pub(super) fn node_count(random: &mut Random) -> u64 {
    match random.weighted(&[20, 45, 30, 5]) {
        0 => 1,
        1 => random.between(2, 4),
        2 => random.between(5, 15),
        _ => 16,
    }
}

/// Everything but the periods and deadlines, which stay 0 for now.
fn shape(random: &mut Random) -> Plan {
    let crowding = random.weighted(&[50, 25, 4, 3, 18]);
    let budgets = random.weighted(&[35, 35, 25, 5]);
    let mut nodes = Vec::new();
    for _ in 0..node_count(random) {
        let count = match crowding {
            0 => random.between(0, 3),
            1 => random.between(0, 16),
            2 => 16,
            3 => 0,
            _ => random.between(1, 6),
        };
        let budget = match budgets {
            0 => random.pick(&[1, 1, 1, 2]),
            1 => random.between(1, 4),
            2 => random.between(1, 16),
            _ => 16,
        };
        nodes.push(NodePlan {
            budget: budget as u32,
            streams: vec![StreamPlan::default(); count as usize],
        });
    }
    Plan {
        message: slot_length(random),
        slot: slot_length(random),
        nodes,
    }
}

/// If every stream of the node has at least this period, each releases only
/// once while the lowest of them waits, and that one is delivered within the
/// period: its J is no more than `cycles`, and a turn is no longer than a cycle.
fn roomy_period(node: &NodePlan, cycle: u64) -> u64 {
    let cycles = node.streams.len() as u64 / u64::from(node.budget) + 1;
    (cycles + 1) * cycle
}

/// Long periods and deadlines that are met.
pub(super) fn fill_roomy(plan: &mut Plan, random: &mut Random) {
    let cycle = plan.cycle();
    let any_deadline = random.percent(15);
    for node in &mut plan.nodes {
        let least = roomy_period(node, cycle);
        for stream in &mut node.streams {
            let factor = random.pick(&[1, 2, 5, 30]);
            let period = bounded(least + random.below(least * factor));
            let deadline = match random.weighted(&[50, 50]) {
                0 => u64::from(period),
                _ if any_deadline => random.between(1, u64::from(period)),
                _ => random.between(least.min(u64::from(period)), u64::from(period)),
            };
            *stream = StreamPlan::steady(period, bounded(deadline));
        }
    }
    meet_deadlines(random, plan, 25);
}

/// The same few deadlines and periods again and again: the period decides
/// between equal deadlines, and the stream number where both are equal.
fn fill_tied(plan: &mut Plan, random: &mut Random) {
    let cycle = plan.cycle();
    let nodes = plan.nodes.iter();
    let roomy = nodes
        .map(|node| roomy_period(node, cycle))
        .max()
        .unwrap_or(1);
    let first = roomy + random.below(roomy * 3);
    let periods = [first, first, first + random.below(2), roomy];
    let middle = random.between(roomy, first);
    let deadlines = [roomy, middle, middle, first];
    for stream in plan.nodes.iter_mut().flat_map(|node| &mut node.streams) {
        let period = bounded(random.pick(&periods));
        let deadline = bounded(random.pick(&deadlines));
        *stream = StreamPlan::steady(period, deadline.min(period));
    }
}

/// A deadline of the whole period or somewhat less.
fn shorter(random: &mut Random, period: u32) -> u32 {
    let whole = u64::from(period);
    match random.percent(50) {
        true => period,
        false => random.between(whole.div_ceil(2), whole) as u32,
    }
}

/// Demand about as high as the budgets, so that waits span several cycles
/// and one sheet in ten or so has a late stream.
fn fill_tight(plan: &mut Plan, random: &mut Random) {
    let cycle = plan.cycle();
    let share = random.between(60, 400);
    for node in &mut plan.nodes {
        let fair = cycle * node.streams.len().max(1) as u64 / u64::from(node.budget);
        for stream in &mut node.streams {
            let slack = random.between(60, 60 + share);
            let period = bounded(cycle + fair * slack / 100 + random.below(cycle));
            *stream = StreamPlan::steady(period, period);
        }
        let lowest = random.below(node.streams.len() as u64) as usize;
        if let Some(stream) = node.streams.get_mut(lowest) {
            let period = bounded(fair * random.between(2, 40) + cycle * 4);
            *stream = StreamPlan::steady(period, shorter(random, period));
        }
    }
    meet_deadlines(random, plan, 35);
}

/// Periods next to whole numbers of cycles or parts of them, where a release
/// at the last tick of the window counts or just does not.
fn fill_edges(plan: &mut Plan, random: &mut Random) {
    let cycle = plan.cycle();
    for node in &mut plan.nodes {
        for stream in &mut node.streams {
            let near = (random.between(1, 6) * cycle + 1).saturating_sub(random.below(4));
            let period = bounded(near / random.pick(&[1, 1, 1, 2, 3]));
            *stream = StreamPlan::steady(period, period);
        }
        let count = node.streams.len() as u64;
        let lowest = random.below(count) as usize;
        if let Some(stream) = node.streams.get_mut(lowest) {
            let period = bounded(cycle * (4 * count + random.below(40)));
            *stream = StreamPlan::steady(period, shorter(random, period));
        }
    }
    meet_deadlines(random, plan, 35);
}

/// Long messages and slots: the last tick is not many turns away.
fn fill_slow(plan: &mut Plan, random: &mut Random) {
    plan.slot = random.between(500, 10_000) as u32;
    plan.message = random.between(500, 10_000) as u32;
    fill_roomy(plan, random);
}

pub(super) fn extreme_ticks(random: &mut Random, most: u32) -> u32 {
    let ticks = match random.weighted(&[20, 20, 20, 40]) {
        0 => random.pick(&[1, 1, 2, 3]),
        1 => u64::from(most),
        2 => u64::from(most).saturating_sub(random.below(3)),
        _ => random.next() >> random.between(34, 62),
    };
    ticks.clamp(1, u64::from(most)) as u32
}

/// The ends of the ranges and everything between, with no thought for waits.
fn fill_extreme(plan: &mut Plan, random: &mut Random) {
    for stream in plan.nodes.iter_mut().flat_map(|node| &mut node.streams) {
        let period = extreme_ticks(random, LAST_TICK);
        *stream = StreamPlan::steady(period, extreme_ticks(random, period));
    }
    meet_deadlines(random, plan, 25);
}

/// So many releases above one stream that their sum passes 32 bits while its
/// deadline is far off: a sum that wraps would find room for it.
fn fill_overload(plan: &mut Plan, random: &mut Random) {
    let cycles = random.between(1_800, 20_000);
    // 15 × cycles × cycle just past 2^32, by less than 16 × cycles.
    let cycle = (1u64 << 32).div_ceil(15).div_ceil(cycles);
    let least = cycle.saturating_sub(10_000).div_ceil(16).max(1);
    plan.message = random.between(least, (cycle - 1) / 16) as u32;
    plan.slot = (cycle - 16 * u64::from(plan.message)).min(10_000) as u32;
    let period = LAST_TICK - random.below(1_000) as u32;
    // Longer than the cycles at which the sum is past 32 bits.
    let other = random.between(300_000_000, u64::from(period)) as u32;
    let deadline = random.pick(&[period, other]);
    let mut streams = vec![(1, 1); 15];
    streams.insert(random.pick(&[0, 15]), (period, deadline));
    plan.nodes = vec![NodePlan {
        budget: 16,
        streams: steady(&streams),
    }];
}

/// A valid sheet.
pub(super) struct Valid {
    pub sheet: Vec<u32>,
    /// How many tries of J are fair for it.
    pub tries: u64,
    /// The stream that is at the edge of the late test.
    pub sharp: Option<usize>,
    /// The stream to ask about.
    pub asked: Option<usize>,
}

/// A valid sheet that is made for replays, with no search for J in mind.
pub(super) fn bus_sheet(random: &mut Random) -> Vec<u32> {
    let mut plan = shape(random);
    match random.weighted(&[35, 50, 15]) {
        0 => fill_roomy(&mut plan, random),
        1 => fill_tied(&mut plan, random),
        _ => fill_slow(&mut plan, random),
    }
    let mut sheet = plan.words();
    add_jitters(&mut sheet, random);
    sheet
}

pub(super) fn valid_sheet(random: &mut Random) -> Valid {
    let mut plan = shape(random);
    // Few of the others are worth a long search for a stream that is late.
    let mut tries = [1_000, 10_000, MOST_TRIES][random.weighted(&[5, 2, 1])];
    match random.weighted(&[40, 12, 13, 8, 12, 2, 10, 2, 3, 15]) {
        0 => fill_roomy(&mut plan, random),
        1 => fill_tied(&mut plan, random),
        2 => fill_tight(&mut plan, random),
        3 => {
            fill_long_search(&mut plan, random);
            tries = MOST_TRIES;
        }
        4 => fill_extreme(&mut plan, random),
        6 => fill_edges(&mut plan, random),
        7 => {
            fill_long_wait(&mut plan, random);
            tries = MOST_TRIES;
        }
        8 => fill_slow(&mut plan, random),
        9 => return full_sheet(plan, random),
        _ => {
            fill_overload(&mut plan, random);
            tries = MOST_TRIES;
        }
    }
    let mut sheet = plan.words();
    add_jitters(&mut sheet, random);
    let sharp = match random.weighted(&[65, 20, 15]) {
        0 => None,
        1 => sharpen_deadline(&mut sheet, random),
        _ => sharpen_jitter(&mut sheet, random),
    };
    Valid {
        sheet,
        tries,
        sharp,
        asked: sharp,
    }
}
