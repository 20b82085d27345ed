//! Records that no replay has left: whatever is not refused is taken as it
//! stands.

use super::any_word;
use super::random::Random;
use crate::pieces::{Place, MOST_WAITING};
use crate::sheet::{Bus, LAST_TICK};
use crate::Checkpoint;

/// Mostly one that is not refused.
pub(super) fn made_up(random: &mut Random, bus: Option<&Bus>) -> Checkpoint {
    let nodes = bus.map_or(2, |bus| bus.nodes().len()) as u32;
    let streams = bus.map_or(3, |bus| bus.streams().len()) as u32;
    let tick = any_tick(random);
    let mut record = Checkpoint {
        horizon: horizon_near(random, tick),
        tick,
        node: random.between(1, u64::from(nodes)) as u32,
        turns: any_turns(random),
        releases: any_releases(random),
        waiting: 0,
        places: [Place::default(); MOST_WAITING],
    };
    // Nobody can wait where there is no stream.
    if streams > 0 {
        record.waiting = waiting(random);
        fill(random, &mut record, streams);
    }
    if random.percent(40) {
        leave_stale(random, &mut record);
    }
    if random.percent(20) {
        spoil(random, &mut record, nodes, streams);
    }
    record
}

fn any_tick(random: &mut Random) -> u32 {
    match random.weighted(&[25, 45, 20, 10]) {
        0 => 0,
        1 => random.below(5_000) as u32,
        2 => random.below(u64::from(LAST_TICK) + 1) as u32,
        _ => LAST_TICK - random.below(3_000) as u32,
    }
}

/// In a replay the next turn starts at the horizon or a little after it.
fn horizon_near(random: &mut Random, tick: u32) -> u32 {
    let near = random.below(60) as u32;
    match random.weighted(&[30, 30, 20, 8, 8, 4]) {
        0 => tick,
        1 => tick.saturating_sub(near),
        2 => tick.saturating_add(near),
        3 => 0,
        4 => random.below(u64::from(LAST_TICK) + 1) as u32,
        _ => random.pick(&[LAST_TICK, LAST_TICK + 1, u32::MAX]),
    }
}

fn any_turns(random: &mut Random) -> u32 {
    let some = random.below(1_000_000) as u32;
    random.pick(&[0, some, some, LAST_TICK])
}

fn any_releases(random: &mut Random) -> u32 {
    let some = random.below(4_097) as u32;
    match random.percent(80) {
        true => random.pick(&[0, some]),
        false => random.pick(&[4_090, 4_095, 4_096]),
    }
}

fn waiting(random: &mut Random) -> u32 {
    let waiting = match random.weighted(&[10, 45, 25, 12, 8]) {
        0 => 0,
        1 => random.between(1, 8),
        2 => random.between(1, 60),
        3 => random.between(150, 256),
        _ => 256,
    };
    waiting as u32
}

/// Ticks that have come and ticks still to come, in order or in none, and some
/// that never come. Numbers may be alike.
fn fill(random: &mut Random, record: &mut Checkpoint, streams: u32) {
    let (tick, waiting) = (record.tick, record.waiting as usize);
    let far = random.pick(&[10, 200, 5_000]);
    let (come, never) = random.pick(&[(100, 0), (70, 0), (40, 10), (20, 5), (0, 40)]);
    let few = random.between(1, u64::from(streams));
    for place in &mut record.places[..waiting] {
        let near = random.below(far) as u32;
        place.tick = match random.percent(come) {
            true => tick.saturating_sub(near),
            false if random.percent(never) => u32::MAX - random.pick(&[0, 0, near]),
            false => tick.saturating_add(1 + near),
        };
        place.stream = random.between(1, few) as u32;
        place.number = match random.percent(90) {
            true => random.between(1, 300) as u32,
            false => any_word(random),
        };
    }
    if random.percent(30) {
        record.places[..waiting].sort_by_key(|place| place.tick);
    }
}

/// Words past the waiting, which are not looked at.
fn leave_stale(random: &mut Random, record: &mut Checkpoint) {
    let first = record.waiting as usize;
    let count = random.pick(&[1, 5, MOST_WAITING]);
    for place in record.places[first..].iter_mut().take(count) {
        *place = Place {
            number: any_word(random),
            tick: any_word(random),
            stream: random.pick(&[0, 1, 257, u32::MAX]),
        };
    }
}

/// One thing that is refused, or just not.
fn spoil(random: &mut Random, record: &mut Checkpoint, nodes: u32, streams: u32) {
    let past = LAST_TICK + 1;
    let waiting = u64::from(record.waiting);
    match random.weighted(&[10, 10, 20, 20, 15, 25]) {
        0 => record.tick = random.pick(&[LAST_TICK, past, past, u32::MAX]),
        1 => record.turns = random.pick(&[LAST_TICK, past, past, u32::MAX]),
        2 => record.node = random.pick(&[0, 0, nodes, nodes + 1, nodes + 1, u32::MAX]),
        3 => record.waiting = random.pick(&[257, 257, 4_096, u32::MAX]),
        4 => record.releases = random.pick(&[4_096, 4_097, 4_097, u32::MAX]),
        _ => {
            // The last one, or just past it, where it does not count.
            let last = [waiting.saturating_sub(1), waiting];
            let any = random.below(waiting.max(1));
            let at = random.pick(&[last[0], last[1], any, any]) as usize;
            let stream = random.pick(&[0, streams + 1, u32::MAX]);
            if let Some(place) = record.places.get_mut(at) {
                place.stream = stream;
            }
        }
    }
}
