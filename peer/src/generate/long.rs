//! Sheets with streams that are in time after many cycles.

use std::iter::repeat_n;

use super::random::Random;
use super::sheets::{fill_roomy, NodePlan, Plan, StreamPlan};
use super::MOST_TRIES;
use crate::admission::{search, Above};
use crate::sheet::{LAST_TICK, MOST_STREAMS_A_NODE};

/// Shares of a place in a turn are counted in parts of this.
const WHOLE: u64 = 1 << 32;

/// A stream that may still be out of range.
#[derive(Clone, Copy)]
struct Rung {
    period: u64,
    deadline: u64,
    jitter: u64,
}

impl Rung {
    /// With a jitter that takes up to the whole of these spare ticks.
    fn new(random: &mut Random, period: u64, deadline: u64, spare: u64) -> Rung {
        let some = random.below(spare + 1);
        Rung {
            period,
            deadline,
            jitter: random.pick(&[0, 0, 0, some, spare]),
        }
    }
}

/// A node that is filled from the highest rank down, with each stream in time.
pub(super) struct Ladder {
    cycle: u64,
    budget: u64,
    /// A turn that takes the whole budget.
    turn: u64,
    /// Neither period nor deadline falls from one to the next.
    rungs: Vec<Rung>,
}

impl Ladder {
    pub fn new(plan: &Plan, node: usize) -> Ladder {
        let budget = u64::from(plan.nodes[node].budget);
        Ladder {
            cycle: plan.cycle(),
            budget,
            turn: budget * u64::from(plan.message) + u64::from(plan.slot),
            rungs: vec![],
        }
    }

    /// The streams, in range.
    pub fn streams(&self) -> Vec<StreamPlan> {
        let rungs = self.rungs.iter();
        rungs
            .map(|rung| StreamPlan::new(rung.period, rung.deadline, rung.jitter))
            .collect()
    }

    /// The delivery of a stream below all of these and `further` ones that
    /// release once each while it waits.
    fn delivery(&self, further: usize) -> u64 {
        let above = self.rungs.iter().map(|rung| Above {
            period: rung.period,
            jitter: rung.jitter,
        });
        let once = Above {
            period: LAST_TICK.into(),
            jitter: 0,
        };
        let above = above.chain(repeat_n(once, further));
        let found = search(above, self.cycle, self.budget, MOST_TRIES);
        let cycles = found.map_or(MOST_TRIES, |found| found.0);
        cycles * self.cycle - 1 + self.turn
    }

    /// What the streams leave of the budget, over many cycles.
    fn free(&self) -> u64 {
        let rungs = self.rungs.iter();
        let taken = rungs.map(|rung| self.cycle * WHOLE / rung.period);
        (self.budget * WHOLE).saturating_sub(taken.sum())
    }

    /// Adds streams until about 1 / `wanted` of a place is left, so that one
    /// more has to wait for about so many cycles, or until there are `most`.
    /// If a stream is in time with J, 1 / J of a place or more was left and its
    /// period takes less, so that there is always some left for the next.
    pub fn fill(&mut self, random: &mut Random, wanted: u64, most: usize) {
        while self.rungs.len() < most {
            let spare = self.free().saturating_sub(WHOLE / wanted);
            if spare == 0 {
                return;
            }
            let last = self.rungs.last();
            let (period, deadline) = last.map_or((1, 1), |last| (last.period, last.deadline));
            let delivery = self.delivery(0);
            let soonest = delivery.max(deadline);
            let shortest = soonest.max(period);
            let exact = (self.cycle * WHOLE).div_ceil(spare);
            let more = random.below(self.cycle);
            let period = match exact < shortest {
                true => shortest + random.pick(&[0, 0, 1, more]),
                false => exact,
            };
            let deadline = random.between(soonest, period);
            let deadline = random.pick(&[soonest, deadline, period]);
            let rung = Rung::new(random, period, deadline, deadline - delivery);
            self.rungs.push(rung);
            if exact >= shortest {
                return;
            }
        }
    }
}

/// Streams for a node in which a turn is free only once in about `wanted`
/// cycles, the last `lower` of which have to wait for such a turn each.
fn rare_gaps(
    random: &mut Random,
    plan: &Plan,
    node: usize,
    wanted: u64,
    lower: usize,
) -> Vec<StreamPlan> {
    let mut ladder = Ladder::new(plan, node);
    ladder.fill(random, wanted, MOST_STREAMS_A_NODE - lower);
    let longest = ladder.delivery(lower - 1);
    let usual = random.between(longest, 3 * longest);
    for _ in 0..lower {
        let other = random.between(longest, 3 * longest);
        let deadline = random.pick(&[usual, other]);
        let period = random.between(deadline, 3 * longest);
        let period = random.pick(&[deadline, period]);
        // One that releases twice may make another wait for one gap more.
        let spare = (deadline - longest).min(period - deadline);
        let rung = Rung::new(random, period, deadline, spare);
        ladder.rungs.push(rung);
    }
    let mut streams = ladder.streams();
    let turned = random.below(streams.len() as u64) as usize;
    streams.rotate_left(turned);
    streams
}

/// Streams that wait for many cycles, up to some thousand.
pub(super) fn fill_long_search(plan: &mut Plan, random: &mut Random) {
    plan.nodes.truncate(2);
    let node = plan.nodes.len() - 1;
    plan.nodes[node].budget = random.pick(&[1, 1, 1, 2, 3]);
    fill_roomy(plan, random);
    let least = random.pick(&[4, 20, 200]);
    let wanted = random.between(least, 10 * least);
    let lower = random.between(1, 2) as usize;
    plan.nodes[node].streams = rare_gaps(random, plan, node, wanted, lower);
}

/// A stream that waits for about 10^8 to 10^9 ticks and is in time. As in a
/// long search, but over long cycles: of many slots and short messages, or of
/// the full turns of many other nodes.
pub(super) fn fill_long_wait(plan: &mut Plan, random: &mut Random) {
    plan.slot = random.between(5_000, 10_000) as u32;
    plan.message = random.between(1, 3) as u32;
    if random.percent(30) {
        plan.message = random.between(5_000, 10_000) as u32;
        plan.nodes.resize_with(16, || NodePlan {
            budget: 16,
            streams: vec![],
        });
        plan.nodes.iter_mut().for_each(|node| node.budget = 16);
    }
    if random.percent(50) {
        let nodes = plan.nodes.iter_mut();
        nodes.for_each(|node| node.streams.truncate(1));
    }
    let node = random.below(plan.nodes.len() as u64) as usize;
    plan.nodes[node].budget = 1;
    fill_roomy(plan, random);
    let lower = random.pick(&[1, 1, 2]);
    // The wait comes out at up to twice as much, by and large.
    let wait = random.between(100_000_000, 500_000_000) / lower;
    let wanted = (wait / plan.cycle()).max(2);
    plan.nodes[node].streams = rare_gaps(random, plan, node, wanted, lower as usize);
}
