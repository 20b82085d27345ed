//! The listed wait of a stream, the late test, and the two entries that answer
//! them.

use crate::sheet::{Bus, Stream, MOST_STREAMS, MOST_STREAMS_A_NODE};
use crate::{refusal, success, Answer};

#[derive(Clone, Copy)]
pub(crate) struct Listed {
    pub wait: u64,
    /// J of document 01: how many full cycles the window spans.
    pub cycles: u64,
}

/// What counts of a stream of higher priority.
#[derive(Clone, Copy)]
pub(crate) struct Above {
    pub period: u64,
    pub jitter: u64,
}

impl Above {
    /// The most releases that are queued no more than so many ticks apart from
    /// one another: their events are no more than that and the jitter apart. The
    /// 1 counts the first of them.
    pub fn releases(&self, window: u64) -> u64 {
        1 + (window + self.jitter) / self.period
    }
}

impl From<&Stream> for Above {
    fn from(stream: &Stream) -> Above {
        Above {
            period: stream.period.into(),
            jitter: stream.jitter.into(),
        }
    }
}

/// How far one stream of higher priority has come in the growing window:
/// its whole periods are in the sum, the rest is kept here. This makes a try
/// of J an addition a stream instead of a division.
#[derive(Clone, Copy, Default)]
struct Progress {
    period: u64,
    /// Window length and jitter together, modulo the period.
    rest: u64,
    /// Full cycle modulo the period.
    rest_a_cycle: u64,
}

/// The sum H over the streams of higher priority, for the window J × C − 1.
struct Interference {
    releases: u64,
    /// Whole periods that every further cycle adds, all streams together.
    whole_a_cycle: u64,
    streams: [Progress; MOST_STREAMS_A_NODE],
    count: usize,
}

impl Interference {
    /// For the first window, C − 1.
    fn first(above: impl Iterator<Item = Above>, cycle: u64) -> Interference {
        let mut sum = Interference {
            releases: 0,
            whole_a_cycle: 0,
            streams: [Progress::default(); MOST_STREAMS_A_NODE],
            count: 0,
        };
        above.for_each(|stream| sum.add(stream, cycle));
        sum
    }

    fn add(&mut self, stream: Above, cycle: u64) {
        let Above { period, jitter } = stream;
        self.releases += stream.releases(cycle - 1);
        self.whole_a_cycle += cycle / period;
        self.streams[self.count] = Progress {
            period,
            rest: (cycle - 1 + jitter) % period,
            rest_a_cycle: cycle % period,
        };
        self.count += 1;
    }

    /// From the window J × C − 1 to (J + 1) × C − 1.
    fn advance(&mut self) {
        self.releases += self.whole_a_cycle;
        for stream in &mut self.streams[..self.count] {
            stream.rest += stream.rest_a_cycle;
            if stream.rest >= stream.period {
                stream.rest -= stream.period;
                self.releases += 1;
            }
        }
    }
}

/// Ticks from an event to the delivery of its message at the latest, for a J
/// from 1 up: the message is queued after the jitter at the latest, and the
/// listed wait starts there. It is handed up when the protocol slot of its turn
/// ends, so its own place in the turn plays no part, and the turn is taken as
/// full.
pub(crate) fn delivery(bus: &Bus, stream: usize, cycles: u64) -> u64 {
    let jitter = u64::from(bus.streams()[stream].jitter);
    jitter + cycles * bus.cycle() - 1 + bus.longest_turn(bus.node_of(stream))
}

/// The late test: the last J whose delivery is not above the deadline, 0 if
/// even the first is. The delivery grows with J, so each J up to this is in
/// time and each greater one is not. Hence a stream is late exactly if no J
/// from 1 to this serves, and none further on is worth a try.
pub(crate) fn last_try(bus: &Bus, stream: usize) -> u64 {
    let deadline = u64::from(bus.streams()[stream].deadline);
    match deadline.checked_sub(delivery(bus, stream, 1)) {
        Some(spare) => 1 + spare / bus.cycle(),
        None => 0,
    }
}

/// Tries J from 1 to `last`, one by one, for a stream below these. Answers the
/// least that serves, and x of document 01.
pub(crate) fn search(
    above: impl Iterator<Item = Above>,
    cycle: u64,
    budget: u64,
    last: u64,
) -> Option<(u64, u64)> {
    let mut sum = Interference::first(above, cycle);
    for cycles in 1..=last {
        if sum.releases < cycles * budget {
            // Not below 0: the J before did not serve, and H does not fall.
            return Some((cycles, sum.releases - (cycles - 1) * budget));
        }
        sum.advance();
    }
    None
}

/// The least J up to `last` and its wait; the stream's own deadline and jitter
/// play no part here, as the wait starts when the message is queued.
pub(crate) fn least_cycles(bus: &Bus, stream: usize, last: u64) -> Option<Listed> {
    let budget = bus.nodes()[bus.node_of(stream)].budget as u64;
    let above = bus.above(stream);
    let above = above.map(|other| Above::from(&bus.streams()[other]));
    let (cycles, ahead) = search(above, bus.cycle(), budget, last)?;
    let wait = cycles * bus.cycle() - 1 + ahead * bus.message_ticks;
    Some(Listed { wait, cycles })
}

/// None for a late stream, which has no listed wait.
pub(crate) fn listed(bus: &Bus, stream: usize) -> Option<Listed> {
    least_cycles(bus, stream, last_try(bus, stream))
}

/// The listed wait and J of one stream; `stream` is its number in the node.
pub fn one_stream(sheet: &[u32], node: u32, stream: u32) -> Answer {
    let bus = match Bus::read(sheet) {
        Ok(bus) => bus,
        Err(answer) => return answer,
    };
    let Some(index) = bus.find(node, stream) else {
        return refusal(8, node, stream);
    };
    match listed(&bus, index) {
        Some(found) => success(found.wait, found.cycles),
        None => refusal(7, node, stream),
    }
}

/// The bus of a sheet that has room enough for its waits.
pub(crate) fn check(sheet: &[u32], room: &[u32]) -> Result<Bus, Answer> {
    check_room(Bus::read(sheet)?, room)
}

/// The bus again, if there is room enough for its waits.
pub(crate) fn check_room(bus: Bus, room: &[u32]) -> Result<Bus, Answer> {
    match room.len() < bus.streams().len() {
        true => Err(refusal(6, 0, 0)),
        false => Ok(bus),
    }
}

/// The refusal of a sheet with this late stream.
pub(crate) fn late(bus: &Bus, stream: usize) -> Answer {
    let (node, number) = bus.place(stream);
    refusal(7, node, number)
}

/// Writes the waits of all streams into a room that is long enough.
pub(crate) fn write_waits(bus: &Bus, room: &mut [u32]) -> Answer {
    let count = bus.streams().len();
    // Kept apart until all are known: a late stream leaves the room untouched.
    let mut waits = [0u32; MOST_STREAMS];
    for (stream, wait) in waits[..count].iter_mut().enumerate() {
        match listed(bus, stream) {
            Some(found) => *wait = found.wait as u32,
            None => return late(bus, stream),
        }
    }
    room[..count].copy_from_slice(&waits[..count]);
    success(count as u64, bus.cycle())
}

/// Writes the listed waits of all streams, or refuses and writes none.
pub fn admit(sheet: &[u32], room: &mut [u32]) -> Answer {
    match check(sheet, room) {
        Ok(bus) => write_waits(&bus, room),
        Err(answer) => answer,
    }
}
