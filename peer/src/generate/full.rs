//! Sheets with nodes in which the streams above some stream nearly fill the
//! budget, fill it exactly or overfill it. Where they nearly fill it, J is
//! found after many cycles; where they fill it, there is none, however long the
//! search goes on.

use super::loads::{Load, Share};
use super::long::Ladder;
use super::random::Random;
use super::sheets::{bounded, fill_roomy, Plan, StreamPlan, Valid};
use super::MOST_TRIES;
use crate::admission::search;
use crate::sheet::{LAST_TICK, MOST_STREAMS_A_NODE};

/// A log can show the wait of a stream that waits for no more cycles.
const SHOWN_CYCLES: u64 = 64;

#[derive(Clone, Copy, PartialEq, Eq)]
enum Kind {
    /// No thought for the waits of the streams that fill the node.
    Filled(Load),
    /// Just below the budget, with all of them in time. If the sum is the
    /// budget itself, one of them is always late.
    InTime,
}

fn kind(random: &mut Random) -> Kind {
    match random.weighted(&[42, 28, 15, 10, 5]) {
        0 => Kind::Filled(Load::Below),
        1 => Kind::InTime,
        2 => Kind::Filled(Load::Exact),
        3 => Kind::Filled(Load::Above),
        _ => Kind::Filled(Load::FarAbove),
    }
}

/// A budget that streams of this kind can fill. Those in time take less than
/// one place each.
fn budget(random: &mut Random, kind: Kind, usual: u32) -> u32 {
    let any = random.between(1, 16) as u32;
    match kind {
        Kind::InTime => random.pick(&[1, 1, 1, 2, 3, 5]),
        Kind::Filled(_) => random.pick(&[1, usual, any, any]),
    }
}

/// A node that is filled.
struct Filled {
    streams: Vec<StreamPlan>,
    /// The place of the stream below those that fill the node.
    lowest: usize,
    /// The J of that stream if it is found, whether or not in time.
    cycles: Option<u64>,
}

/// A node that is being filled, from the highest rank down.
struct Filling {
    cycle: u64,
    budget: u64,
    /// A turn that takes the whole budget.
    turn: u64,
    /// No search is to go on for more cycles.
    most: u64,
    streams: Vec<StreamPlan>,
}

/// A jitter for a stream above the lowest.
fn jitter(random: &mut Random, period: u64) -> u64 {
    let any = random.below(period);
    random.pick(&[0, 0, 0, 1, any, any, period - 1])
}

impl Filling {
    fn new(plan: &Plan, node: usize, most: u64) -> Filling {
        let budget = u64::from(plan.nodes[node].budget);
        let turn = budget * u64::from(plan.message) + u64::from(plan.slot);
        let cycle = plan.cycle();
        Filling {
            cycle,
            budget,
            turn,
            most: most.min((u64::from(LAST_TICK) - turn) / cycle),
            streams: Vec::new(),
        }
    }

    /// About how many cycles bring one free place, so that J comes out within
    /// the limit for the most part.
    fn wanted(&self, random: &mut Random) -> u64 {
        let longest = (self.most / 2).max(2);
        random.between((longest / 10).max(2), longest)
    }

    fn fill(&mut self, random: &mut Random, load: Load) {
        let share = Share {
            cycle: self.cycle,
            budget: self.budget,
            most: random.between(8, 15) as usize,
        };
        let wanted = self.wanted(random);
        let periods = share.periods(random, load, wanted);
        let jittery = random.percent(50);
        for period in periods.into_iter().map(u64::from) {
            let shorter = random.between(1, period);
            let deadline = random.pick(&[period, shorter, 1]);
            let jitter = if jittery { jitter(random, period) } else { 0 };
            self.streams.push(StreamPlan::new(period, deadline, jitter));
        }
        if load == Load::Below && random.percent(40) {
            self.add_slow(random, wanted);
        }
    }

    /// Adds streams that take next to nothing of what is free, but release at
    /// least once while the lowest waits.
    fn add_slow(&mut self, random: &mut Random, wanted: u64) {
        let shortest = 8 * self.cycle * wanted;
        let room = (MOST_STREAMS_A_NODE - 1 - self.streams.len()) as u64;
        if shortest > u64::from(LAST_TICK) || room == 0 {
            return;
        }
        let usual = random.between(shortest, u64::from(LAST_TICK));
        for _ in 0..random.between(1, room.min(4)) {
            let other = random.between(shortest, u64::from(LAST_TICK));
            let period = random.pick(&[usual, usual, other, shortest]);
            self.streams.push(StreamPlan::new(period, period, 0));
        }
    }

    fn fill_in_time(&mut self, random: &mut Random, plan: &Plan, node: usize) {
        let mut ladder = Ladder::new(plan, node);
        let (wanted, most) = (self.wanted(random), random.between(4, 14));
        ladder.fill(random, wanted, most as usize);
        self.streams = ladder.streams();
    }

    /// Without jitter.
    fn delivery(&self, cycles: u64) -> u64 {
        cycles * self.cycle - 1 + self.turn
    }

    /// A deadline for a stream with this J and no jitter: mostly the last in time and the
    /// first that is late, else others that end the search before, at or after
    /// it. With no J, any that ends it.
    fn deadline(&self, random: &mut Random, cycles: Option<u64>) -> u64 {
        let Some(cycles) = cycles else {
            let tries = random.between(1, self.most);
            let more = random.below(self.cycle);
            return self.delivery(tries) - random.pick(&[0, 1, more]);
        };
        let edge = self.delivery(cycles);
        match random.weighted(&[32, 26, 5, 8, 5, 8, 16]) {
            0 => edge,
            1 => edge - 1,
            2 => edge + 1,
            3 => edge - self.cycle,
            4 => edge + self.cycle,
            5 => self.delivery(random.between(1, cycles)),
            _ => random.between(edge, 3 * edge),
        }
    }

    /// Adds a stream below all others with this deadline, of 2 or more, which a
    /// jitter makes longer. Theirs become shorter, or as long where the period
    /// decides.
    fn add_lowest(&mut self, random: &mut Random, deadline: u32) {
        // Not much longer than the deadline, so that a program without the
        // jitter has no endless search.
        let ticks = [self.cycle, deadline.into(), 4 * u64::from(deadline)];
        let [little, some, more] = ticks.map(|ticks| random.below(ticks) as u32);
        let jitter = random.pick(&[0, 0, 0, 0, 1, little, some, more]);
        let jitter = jitter.min(LAST_TICK - deadline);
        let deadline = deadline + jitter;
        let longer = random.between(u64::from(deadline), u64::from(LAST_TICK)) as u32;
        let periods = self.streams.iter().map(|stream| stream.period);
        let slowest = periods.fold(deadline, u32::max);
        let period = random.pick(&[deadline, longer, slowest, LAST_TICK]);
        for stream in &mut self.streams {
            let tied = (deadline..period).contains(&stream.period) && random.percent(30);
            stream.deadline = match tied {
                true => deadline,
                false => stream.deadline.min(deadline - 1),
            };
        }
        self.streams.push(StreamPlan {
            period,
            deadline,
            jitter,
        });
    }

    /// Adds the lowest stream and seldom one more below it.
    fn finish(mut self, random: &mut Random) -> Filled {
        let above = self.streams.iter().map(StreamPlan::above);
        let found = search(above, self.cycle, self.budget, self.most);
        let cycles = found.map(|found| found.0);
        let deadline = bounded(self.deadline(random, cycles).max(2));
        let place = self.streams.len();
        self.add_lowest(random, deadline);
        if place + 1 < MOST_STREAMS_A_NODE && random.percent(15) {
            let lowest = self.streams[place];
            let later = u64::from(lowest.deadline) + random.pick(&[1, self.cycle]);
            let period = later.max(lowest.period.into());
            self.streams.push(StreamPlan::new(period, later, 0));
        }
        let count = self.streams.len();
        // An admission ends at the first stream that is late, which those above
        // may be, so that the lowest is often put first.
        let turned = match random.percent(40) {
            true => place,
            false => random.below(count as u64) as usize,
        };
        self.streams.rotate_left(turned);
        Filled {
            streams: self.streams,
            lowest: (place + count - turned) % count,
            cycles,
        }
    }
}

fn fill_node(random: &mut Random, plan: &Plan, node: usize, kind: Kind, most: u64) -> Filled {
    let mut filling = Filling::new(plan, node, most);
    match kind {
        Kind::Filled(load) => filling.fill(random, load),
        Kind::InTime => filling.fill_in_time(random, plan, node),
    }
    filling.finish(random)
}

/// One node, or several.
fn chosen(random: &mut Random, nodes: usize) -> Vec<usize> {
    let count = match random.weighted(&[75, 15, 10]) {
        0 => 1,
        1 => random.between(1, 3).min(nodes as u64),
        _ => nodes as u64,
    };
    let first = random.below(nodes as u64) as usize;
    (0..count as usize)
        .map(|more| (first + more) % nodes)
        .collect()
}

/// A valid sheet with one node or several filled, and the others in time. The
/// question is about the lowest stream of one of them.
pub(super) fn full_sheet(mut plan: Plan, random: &mut Random) -> Valid {
    let nodes = chosen(random, plan.nodes.len());
    let kinds: Vec<Kind> = nodes.iter().map(|_| kind(random)).collect();
    for (&node, &kind) in nodes.iter().zip(&kinds) {
        let usual = plan.nodes[node].budget;
        plan.nodes[node].budget = budget(random, kind, usual);
    }
    if plan.nodes.iter().any(|node| node.budget > 8) {
        // Makes the cycle even, which a share of so large a budget needs.
        plan.message += plan.message % 2;
        plan.slot += plan.slot % 2;
    }
    fill_roomy(&mut plan, random);
    // Long searches take long, and those of several nodes add up.
    let most = match nodes.len() {
        1 => [64, 1_000, 10_000, 60_000][random.weighted(&[10, 20, 30, 40])],
        _ => random.pick(&[64, 1_000]),
    };
    let (mut asked, mut shown) = ((0, 0), false);
    for (&node, &kind) in nodes.iter().zip(&kinds) {
        let filled = fill_node(random, &plan, node, kind, most);
        plan.nodes[node].streams = filled.streams;
        asked = (node, filled.lowest);
        shown = filled.cycles.is_some_and(|cycles| cycles <= SHOWN_CYCLES);
    }
    let before = plan.nodes[..asked.0].iter().map(|node| node.streams.len());
    let asked = before.sum::<usize>() + asked.1;
    Valid {
        sheet: plan.words(),
        tries: MOST_TRIES,
        sharp: shown.then_some(asked),
        asked: Some(asked),
    }
}
