//! Logs of many kinds.

use std::iter::once;

use super::lower_of_two;
use super::random::Random;
use crate::admission::least_cycles;
use crate::log::MOST_RELEASES;
use crate::sheet::{Bus, Stream, LAST_TICK};

/// Tick and running stream number.
type Release = (u32, u32);

/// What a log is made for.
pub(super) struct Traffic<'a> {
    /// None if the sheet is refused.
    pub bus: Option<&'a Bus>,
    pub streams: u32,
    /// The releases come before this tick, by and large.
    pub span: u64,
    /// The stream that is at the edge of the late test.
    pub sharp: Option<usize>,
}

impl Traffic<'_> {
    fn any_stream(&self, random: &mut Random) -> u32 {
        random.between(1, u64::from(self.streams.max(1))) as u32
    }

    fn any_tick(&self, random: &mut Random) -> u32 {
        random.below(self.span.max(1)).min(u64::from(LAST_TICK)) as u32
    }

    /// Length of a message and of a cycle.
    fn pace(&self) -> (u64, u64) {
        self.bus
            .map_or((5, 17), |bus| (bus.message_ticks, bus.cycle()))
    }
}

fn scattered(random: &mut Random, traffic: &Traffic, releases: u64) -> Vec<Release> {
    (0..releases)
        .map(|_| (traffic.any_tick(random), traffic.any_stream(random)))
        .collect()
}

/// Several at one tick, of one stream or of any.
fn burst(random: &mut Random, traffic: &Traffic, tick: u32, most: u64) -> Vec<Release> {
    let stream = traffic.any_stream(random);
    let mixed = random.percent(50);
    let mut releases = Vec::new();
    for _ in 0..random.between(2, most) {
        let other = traffic.any_stream(random);
        releases.push((tick, if mixed { other } else { stream }));
    }
    releases
}

/// More at one tick than a turn can take.
fn bursts(random: &mut Random, traffic: &Traffic) -> Vec<Release> {
    let mut releases = Vec::new();
    for _ in 0..random.between(1, 4) {
        let tick = traffic.any_tick(random) / random.pick(&[1, 2, 1_000]);
        releases.extend(burst(random, traffic, tick, 40));
    }
    releases
}

/// For each stream, those of its node that it may have to wait with: all, or
/// those of the same deadline. Groups of one are left out.
fn groups(bus: &Bus, tied: bool) -> Vec<Vec<u32>> {
    let streams = bus.streams();
    let group = |stream: usize| {
        let node = &bus.nodes()[bus.node_of(stream)];
        let equal = |other: usize| streams[other].deadline == streams[stream].deadline;
        let all = node.first..node.first + node.count;
        let chosen = all.filter(|&other| !tied || equal(other));
        chosen.map(|other| other as u32 + 1).collect::<Vec<u32>>()
    };
    let groups = (0..streams.len()).map(group);
    groups.filter(|group| group.len() > 1).collect()
}

/// Streams of one node that wait at the same time, so that the rank decides.
fn rivals(random: &mut Random, traffic: &Traffic) -> Vec<Release> {
    let tied = random.percent(50);
    let groups = traffic.bus.map_or(vec![], |bus| groups(bus, tied));
    if groups.is_empty() {
        return bursts(random, traffic);
    }
    let (_, cycle) = traffic.pace();
    let mut releases = Vec::new();
    for _ in 0..random.between(1, 8) {
        let group = &groups[random.below(groups.len() as u64) as usize];
        let tick = traffic.any_tick(random) / random.pick(&[1, 1, 2, 1_000]);
        for _ in 0..random.between(2, 2 * group.len() as u64) {
            let later = random.below(cycle) as u32;
            let later = random.pick(&[0, 0, 0, later]);
            releases.push(((tick + later).min(LAST_TICK), random.pick(group)));
        }
    }
    releases
}

/// Close together from the start, so that many come while a turn goes on.
fn during_turns(random: &mut Random, traffic: &Traffic) -> Vec<Release> {
    let (message, cycle) = traffic.pace();
    let mut tick = random.below(cycle.min(traffic.span.max(1)));
    let mut releases = Vec::new();
    for _ in 0..random.between(2, 60) {
        releases.push((tick as u32, traffic.any_stream(random)));
        tick += match random.below(4) {
            0 => 0,
            1 => 1,
            _ => random.below(message + 1),
        };
    }
    releases
}

/// How long after its event a message is queued: at once, as late as the jitter
/// allows and the next at once, so that two come close together, or at any time.
#[derive(Clone, Copy)]
enum Queuing {
    AtOnce,
    LateThenEarly,
    Any,
}

impl Queuing {
    fn delay(self, random: &mut Random, number: u64, jitter: u64) -> u64 {
        match self {
            Queuing::AtOnce => 0,
            Queuing::LateThenEarly => (number + 1) % 2 * jitter,
            Queuing::Any => {
                let any = random.below(jitter + 1);
                random.pick(&[0, any, jitter])
            }
        }
    }
}

/// Every stream keeps its period: its events are that far apart, from up to the
/// jitter before tick 0 on.
fn periodic(random: &mut Random, traffic: &Traffic) -> Vec<Release> {
    let mut releases = Vec::new();
    let Some(bus) = traffic.bus else {
        return scattered(random, traffic, 10);
    };
    let most = 400 / bus.streams().len().max(1) + 2;
    let together = random.percent(40);
    let queuing = random.pick(&[Queuing::AtOnce, Queuing::LateThenEarly, Queuing::Any]);
    for (index, stream) in bus.streams().iter().enumerate() {
        let (period, jitter) = (u64::from(stream.period), u64::from(stream.jitter));
        // An event is named by the last tick at which its message is queued.
        let mut last = match together {
            true => 0,
            false => random.below(period.min(traffic.span.max(1))),
        };
        for number in 0..most as u64 {
            let delay = queuing.delay(random, number, jitter);
            let tick = (last + delay).saturating_sub(jitter);
            if tick >= traffic.span {
                break;
            }
            releases.push((tick as u32, index as u32 + 1));
            let late = random.pick(&[0, 0, 1, period / 3]);
            last += period + random.below(late + 1);
        }
    }
    releases
}

/// Streams that keep their periods next to one that does not.
fn disturbed(random: &mut Random, traffic: &Traffic) -> Vec<Release> {
    let mut releases = periodic(random, traffic);
    let stream = traffic.any_stream(random);
    let tick = traffic.any_tick(random) / 4;
    releases.extend((0..random.between(2, 30)).map(|_| (tick, stream)));
    releases
}

/// More than a turn can take just before the end, so that the last turn goes
/// on past it.
fn before_the_end(random: &mut Random, traffic: &Traffic) -> Vec<Release> {
    let (_, cycle) = traffic.pace();
    let tick = traffic.span.saturating_sub(random.between(1, 2 * cycle));
    burst(random, traffic, tick as u32, 60)
}

/// The log in which a stream waits longest, if a log has room for it: the
/// stream releases just after a turn of its node has started, and so do those
/// above it, as late after their events as they may, and then as often as they
/// may. All others have so much waiting from the start that their turns are
/// full, and so is the one that takes the message.
fn longest_wait(random: &mut Random, traffic: &Traffic) -> Option<Vec<Release>> {
    let bus = traffic.bus?;
    let any = lower_of_two(random, bus)?;
    let stream = traffic.sharp.unwrap_or(any);
    let cycles = least_cycles(bus, stream, 500)?.cycles;
    let own = bus.node_of(stream);
    let start: u64 = (0..own).map(|node| bus.longest_turn(node)).sum();
    let last = (start + cycles * bus.cycle()).min(u64::from(LAST_TICK));
    let most = MOST_RELEASES;
    let mut releases = Vec::new();
    for (index, node) in bus.nodes().iter().enumerate() {
        let streams = node.first..node.first + node.count;
        let below = |&other: &usize| bus.priority(other) > bus.priority(stream);
        let (crowd, regular): (Vec<usize>, Vec<usize>) =
            streams.partition(|other| index != own || below(other));
        if !crowd.is_empty() {
            let one = random.pick(&crowd) as u32 + 1;
            let full = (cycles as usize + 1) * node.budget;
            releases.extend((0..full.min(most)).map(|_| (0, one)));
        }
        for other in regular {
            let Stream { period, jitter, .. } = bus.streams()[other];
            // The first is queued the jitter after its event.
            let next = start + 1 + u64::from(period - jitter);
            let ticks = (next..=last).step_by(period as usize);
            let ticks = once(start + 1).chain(ticks).take(most);
            releases.extend(ticks.map(|tick| (tick as u32, other as u32 + 1)));
        }
    }
    (releases.len() <= most).then_some(releases)
}

fn releases(random: &mut Random, traffic: &Traffic) -> Vec<Release> {
    let most = MOST_RELEASES as u64;
    // Where the end is the last tick, begins past it are what is wanted.
    let end = match traffic.span == u64::from(LAST_TICK) {
        true => 3_000,
        false => 40,
    };
    let longest = match traffic.sharp {
        Some(_) => 1_000,
        None => 40,
    };
    match random.weighted(&[60, 150, 150, 170, 170, 140, 8, 8, 4, end, 180, longest]) {
        0 => Vec::new(),
        1 => {
            let count = random.between(1, 40);
            scattered(random, traffic, count)
        }
        2 => bursts(random, traffic),
        3 => during_turns(random, traffic),
        4 => periodic(random, traffic),
        5 => disturbed(random, traffic),
        6 => scattered(random, traffic, most),
        7 => scattered(random, traffic, most + 1),
        9 => before_the_end(random, traffic),
        10 => rivals(random, traffic),
        11 => longest_wait(random, traffic).unwrap_or_else(|| bursts(random, traffic)),
        _ => vec![(LAST_TICK, traffic.any_stream(random)); 3],
    }
}

/// A log with nothing wrong, except that it may have one release too many,
/// and that no stream is right for a sheet without streams.
pub(super) fn ordered_log(random: &mut Random, traffic: &Traffic) -> Vec<u32> {
    let nobody = traffic.streams == 0 && random.percent(90);
    let mut releases = match nobody {
        true => Vec::new(),
        false => releases(random, traffic),
    };
    // Stable, so that releases at one tick stay in their random order.
    releases.sort_by_key(|release| release.0);
    if random.percent(3) {
        if let Some(last) = releases.last_mut() {
            last.0 = LAST_TICK;
        }
    }
    let words = releases.iter().flat_map(|&(tick, stream)| [tick, stream]);
    words.collect()
}
