//! Sheets for which budgets have to be raised. What a node needs is planned for
//! a sum of all budgets, since the cycle depends on that sum alone.

use super::random::Random;
use super::sheets::{bounded, node_count, slot_length, NodePlan, Plan, StreamPlan};
use crate::admission::search;
use crate::sheet::MOST_STREAMS_A_NODE;

/// The streams of a node.
type Streams = Vec<StreamPlan>;

/// No stream is planned to wait for more cycles.
const MOST_CYCLES: u64 = 50;

/// A bus without its streams.
struct Line {
    message: u64,
    slot: u64,
    nodes: u64,
}

impl Line {
    fn cycle(&self, sum: u64) -> u64 {
        sum * self.message + self.nodes * self.slot
    }

    /// The shortest deadline that is met after so many cycles.
    fn delivery(&self, cycles: u64, sum: u64, budget: u64) -> u64 {
        cycles * self.cycle(sum) - 1 + budget * self.message + self.slot
    }

    /// The sheet of these streams, with budget 1 for each node.
    fn sheet(&self, nodes: Vec<Streams>) -> Vec<u32> {
        let nodes = nodes
            .into_iter()
            .map(|streams| NodePlan { budget: 1, streams });
        Plan {
            message: self.message as u32,
            slot: self.slot as u32,
            nodes: nodes.collect(),
        }
        .words()
    }
}

/// Mostly short messages, for which a larger budget is often worth its longer
/// cycle.
fn line(random: &mut Random, nodes: u64) -> Line {
    let message = random.between(1, 12);
    let slot = match random.weighted(&[45, 35, 10]) {
        0 => random.between(1, 2 * message),
        1 => message * random.between(1, 20),
        _ => random.between(1, 10_000),
    };
    let any = [slot_length(random), slot_length(random)].map(u64::from);
    let [message, slot] = random.pick(&[[message, slot], [message, slot], [message, slot], any]);
    Line {
        message,
        slot,
        nodes,
    }
}

fn jitter(random: &mut Random, usual: u64) -> u64 {
    let any = random.below(2 * usual);
    random.pick(&[0, 0, 0, 0, 0, 1, any])
}

/// A stream that is in time if it is delivered so many ticks after it was
/// queued, however late that was: its jitter makes the deadline longer.
fn stream(random: &mut Random, ticks: u64, jitter: u64) -> StreamPlan {
    let deadline = ticks + jitter;
    let longer = random.below(2 * deadline);
    let period = deadline + random.pick(&[0, 1, longer]);
    StreamPlan::new(period, deadline, jitter)
}

fn jittery_stream(random: &mut Random, ticks: u64) -> StreamPlan {
    let jitter = jitter(random, ticks);
    stream(random, ticks, jitter)
}

/// Streams of one deadline but for their jitters, which with this budget are
/// delivered just in time for as long as the sum is no more than this.
fn alike(random: &mut Random, line: &Line, count: u64, budget: u64, sum: u64) -> Streams {
    let cycles = count.div_ceil(budget).max(1);
    let more = random.below(line.message);
    let deadline = line.delivery(cycles, sum, budget) + random.pick(&[0, 0, more]);
    (0..count)
        .map(|_| jittery_stream(random, deadline))
        .collect()
}

/// The first stream is served in the first cycle, whatever the budget, and is
/// late from this sum on: more for its own node only makes that worse. Those
/// after it are in no hurry.
fn hopeless(random: &mut Random, line: &Line, sum: u64) -> Streams {
    let deadline = line.delivery(1, sum, 1) - 1;
    let calm = line.delivery(20, 16 * line.nodes, 16);
    let mut streams = vec![jittery_stream(random, deadline)];
    for _ in 0..random.pick(&[0, 0, 1, 3]) {
        streams.push(jittery_stream(random, calm));
    }
    let turned = random.below(streams.len() as u64) as usize;
    streams.rotate_left(turned);
    streams
}

/// Streams that are in time with this budget and sum, most of them just so,
/// from the highest rank down.
fn filled(random: &mut Random, line: &Line, count: u64, budget: u64, sum: u64) -> Streams {
    let mut streams = Streams::new();
    for _ in 0..count {
        let above = streams.iter().map(StreamPlan::above);
        let Some((cycles, _)) = search(above, line.cycle(sum), budget, MOST_CYCLES) else {
            break;
        };
        let last = streams.last().copied();
        let last = last.unwrap_or(StreamPlan::steady(1, 1));
        let more = random.below(line.cycle(sum));
        let more = random.pick(&[0, 0, 1, more]);
        let edge = line.delivery(cycles, sum, budget) + more;
        let mut own = jittery_stream(random, edge);
        // Neither is shorter, so that the rank stays the order of the list.
        own.deadline = own.deadline.max(last.deadline);
        own.period = own.period.max(last.period);
        streams.push(own);
    }
    let turned = random.below(streams.len() as u64) as usize;
    streams.rotate_left(turned);
    streams
}

/// Nodes that are in time with some budgets, from 1 up to the number of their
/// streams: nobody ever needs more.
pub(super) fn needy_sheet(random: &mut Random) -> Vec<u32> {
    let nodes = node_count(random);
    let line = line(random, nodes);
    let crowding = random.pick(&[4, 8, 16]);
    let wish = random.weighted(&[30, 40, 30]);
    let budget_for = |random: &mut Random, count: u64| match wish {
        0 => random.between(1, count.clamp(1, 3)),
        1 => random.between(1, count.max(1)),
        _ => count.max(1),
    };
    let mut wanted = Vec::new();
    for _ in 0..nodes {
        let count = random.between(0, crowding);
        wanted.push((count, budget_for(random, count)));
    }
    let sum = wanted.iter().map(|node| node.1).sum();
    let equal = random.percent(30);
    let streams = |&(count, budget): &(u64, u64)| match equal {
        true => alike(random, &line, count, budget, sum),
        false => filled(random, &line, count, budget, sum),
    };
    let nodes = wanted.iter().map(streams).collect();
    line.sheet(nodes)
}

/// A sum of all budgets at which something is to happen: often with all ones or
/// soon after, seldom late.
fn turning_point(random: &mut Random, nodes: u64) -> u64 {
    nodes
        + match random.weighted(&[40, 35, 15, 10]) {
            0 => 0,
            1 => random.between(1, 3),
            2 => random.between(4, 30),
            _ => random.below(15 * nodes),
        }
}

/// Some nodes are late from a sum on and cannot be helped. Others get more for a
/// while, so that the sum grows, or come to 16 and are in time to the end.
pub(super) fn hopeless_sheet(random: &mut Random) -> Vec<u32> {
    let nodes = random.between(2, 8).max(random.below(17));
    let line = line(random, nodes);
    let most = MOST_STREAMS_A_NODE as u64;
    let mut all = Vec::new();
    for _ in 0..nodes {
        let sum = turning_point(random, nodes);
        let later = sum + random.below(30);
        let count = random.between(2, most);
        let budget = random.between(2, count);
        all.push(match random.weighted(&[18, 35, 12, 35]) {
            0 => vec![],
            1 => alike(random, &line, count, budget, later),
            2 => alike(random, &line, most, most, most * nodes),
            _ => hopeless(random, &line, sum),
        });
    }
    line.sheet(all)
}

/// A node of a chain. Half of its streams have to be served in the first cycle
/// in any case. The others are in time in the second up to some sum, and then
/// have to be served in the first too.
struct Link {
    streams: u64,
    half: u64,
    /// From this sum on, half is not enough.
    sum: u64,
}

impl Link {
    fn streams(&self, random: &mut Random, line: &Line, last_sum: u64) -> Streams {
        let first = line.delivery(1, last_sum, self.streams);
        let second = line.delivery(2, self.sum, self.half) - 1;
        // One for all, so that the halves keep their rank.
        let jitter = jitter(random, first);
        let mut streams = Streams::new();
        for number in 0..self.streams {
            // None releases twice while another waits for the second cycle.
            let mut own = stream(random, second, jitter);
            if number < self.half {
                own.deadline = bounded(first + jitter);
            }
            streams.push(own);
        }
        streams
    }
}

/// Nodes that rise one after the other, or nearly so: what one gets takes the
/// sum to where half is not enough for the next. In some chains there is one
/// more that cannot be helped in the end. The slots are so long that no cycle
/// comes to twice the shortest, so that half is needed from the start.
pub(super) fn chained_sheet(random: &mut Random, nodes: u64) -> Vec<u32> {
    let message = random.between(1, 20);
    let slot = message * random.between(16, 40);
    let line = Line {
        message,
        slot,
        nodes,
    };
    let lost = u64::from(random.percent(35));
    let fewest = random.between(12, 16);
    let counts = (lost..nodes).map(|_| random.between(fewest, 16));
    let counts: Vec<u64> = counts.collect();
    let together = random.pick(&[0, 0, 1, 4]);
    let mut sum = lost + counts.iter().map(|count| count.div_ceil(2)).sum::<u64>();
    let mut links = Vec::new();
    for &streams in &counts {
        let half = streams.div_ceil(2);
        links.push(Link { streams, half, sum });
        sum += streams - half - random.below(together + 1);
    }
    let spare = random.pick(&[0, 0, 1, 20]);
    let last_sum = lost + counts.iter().sum::<u64>() + spare;
    let link = |link: &Link| link.streams(random, &line, last_sum);
    let mut all: Vec<Streams> = links.iter().map(link).collect();
    if lost > 0 {
        all.push(hopeless(random, &line, sum));
    }
    shuffle(random, &mut all);
    line.sheet(all)
}

fn shuffle<T>(random: &mut Random, list: &mut [T]) {
    for end in (1..list.len()).rev() {
        list.swap(end, random.below(end as u64 + 1) as usize);
    }
}
