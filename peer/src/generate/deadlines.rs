//! Work on the deadlines of sheets that are otherwise done. A deadline is part
//! of the rank, so a change of one may move the waits of the whole node.

use super::lower_of_two;
use super::random::Random;
use super::sheets::{bounded, NodePlan, Plan, StreamPlan};
use crate::admission::{delivery, last_try, least_cycles};
use crate::sheet::{Bus, LAST_TICK, STREAM_WORDS};

/// Nothing is brought to an edge further off.
pub(super) const MOST_CYCLES: u64 = 2_000;

/// Makes two streams rivals: the one with the longer period takes the other's
/// deadline, or one next to it, or all that the other has.
fn meet(random: &mut Random, node: &mut NodePlan) {
    let count = node.streams.len() as u64;
    let one = random.below(count);
    let other = (one + random.between(1, count - 1)) % count;
    let pair = [one as usize, other as usize];
    let [short, long] = match node.streams[pair[0]].period <= node.streams[pair[1]].period {
        true => pair,
        false => [pair[1], pair[0]],
    };
    let StreamPlan {
        period, deadline, ..
    } = node.streams[short];
    let longest = node.streams[long].period;
    let (period, deadline) = match random.weighted(&[35, 35, 10, 20]) {
        // The period decides.
        0 => (longest, deadline),
        // The deadline goes against the period.
        1 => (longest, deadline.saturating_sub(1).max(1)),
        2 => (longest, (deadline + 1).min(longest)),
        // The number decides.
        _ => (period, deadline),
    };
    node.streams[long] = StreamPlan::steady(period, deadline);
}

/// Brings deadlines of a node together, for `share` of 100 nodes.
pub(super) fn meet_deadlines(random: &mut Random, plan: &mut Plan, share: u64) {
    let crowded = plan.nodes.iter_mut().filter(|node| node.streams.len() > 1);
    for node in crowded {
        if random.percent(share) {
            let most = node.streams.len() as u64;
            (0..random.between(1, most)).for_each(|_| meet(random, node));
        }
    }
}

/// Brings one deadline to the edge of the late test, just in time or one tick
/// late, seldom with one tick to spare, and answers of which stream.
pub(super) fn sharpen_deadline(sheet: &mut [u32], random: &mut Random) -> Option<usize> {
    let bus = Bus::read(sheet).ok()?;
    let stream = lower_of_two(random, &bus)?;
    let old = sheet.to_vec();
    if random.percent(60) {
        tighten_node(sheet, &bus, bus.node_of(stream));
    }
    let past = random.weighted(&[10, 45, 45]) as u64;
    let sharp = settle_deadline(sheet, stream, past);
    if sharp.is_none() {
        sheet.copy_from_slice(&old);
    }
    sharp
}

/// Index of the period of a stream in a valid sheet; its deadline and its
/// jitter follow.
pub(super) fn place(sheet: &[u32], bus: &Bus, stream: usize) -> usize {
    sheet.len() - STREAM_WORDS * (bus.streams().len() - stream)
}

/// Shortens the deadlines of a node to little more than the deliveries, with
/// the rank as it is. One of them can then come to the edge where it stands,
/// where it would else pass those above it and be served in the first cycle.
fn tighten_node(sheet: &mut [u32], bus: &Bus, node: usize) {
    let node = &bus.nodes()[node];
    let mut order: Vec<usize> = (node.first..node.first + node.count).collect();
    order.sort_by_key(|&stream| bus.priority(stream));
    for (more, stream) in (0..).zip(order) {
        if let Some(found) = least_cycles(bus, stream, MOST_CYCLES) {
            let deadline = bounded(delivery(bus, stream, found.cycles) + more);
            let place = place(sheet, bus, stream) + 1;
            sheet[place] = sheet[place].min(deadline);
        }
    }
}

/// Sets the deadline of a stream to its edge. A shorter deadline may move the
/// stream up, which takes fewer cycles and so shortens the deadline again, and
/// a longer one may move it down. The rounds go one way and each passes another
/// stream of the node, until one moves nothing: then the edge is that of the
/// sheet as it stands.
pub(super) fn settle_deadline(sheet: &mut [u32], stream: usize, past: u64) -> Option<usize> {
    for _ in 0..=16 {
        let bus = Bus::read(sheet).ok()?;
        let deadline = edge(&bus, stream, past)?;
        let place = place(sheet, &bus, stream);
        if deadline == sheet[place + 1] {
            return Some(stream);
        }
        // A period that is too short for it grows along.
        sheet[place] = sheet[place].max(deadline);
        sheet[place + 1] = deadline;
    }
    None
}

/// The deadline one tick after, at or one tick before the delivery, for `past`
/// 0, 1 or 2, as the stream is ranked now.
fn edge(bus: &Bus, stream: usize, past: u64) -> Option<u32> {
    let found = least_cycles(bus, stream, MOST_CYCLES)?;
    let deadline = delivery(bus, stream, found.cycles) + 1 - past;
    (deadline <= u64::from(LAST_TICK)).then_some(deadline as u32)
}

/// How many J all streams of a sheet together try, up to about `most`.
pub(crate) fn total_tries(bus: &Bus, most: u64) -> u64 {
    let mut total = 0;
    for stream in 0..bus.streams().len() {
        let last = last_try(bus, stream).min(most.saturating_add(1));
        total += least_cycles(bus, stream, last).map_or(last, |found| found.cycles);
        if total > most {
            break;
        }
    }
    total
}

/// Shortens the deadlines of a valid sheet that would take too many tries. A
/// deadline bounds the tries of its stream, however the streams are ranked.
pub(super) fn limit_tries(sheet: &mut [u32], most: u64) {
    let Ok(bus) = Bus::read(sheet) else { return };
    if total_tries(&bus, most) <= most {
        return;
    }
    let streams = bus.streams().len();
    let latest = bounded(most / streams as u64 * bus.cycle());
    shorten_deadlines(sheet, streams, latest);
}

/// None of a valid sheet with so many streams stays longer than this.
pub(super) fn shorten_deadlines(sheet: &mut [u32], streams: usize, longest: u32) {
    let bodies = sheet.len() - STREAM_WORDS * streams;
    for stream in sheet[bodies..].chunks_exact_mut(STREAM_WORDS) {
        stream[1] = stream[1].min(longest);
    }
}
