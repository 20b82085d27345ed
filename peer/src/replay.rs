//! The whole replay. The log is dealt out once into one queue per stream;
//! a turn then serves its node's queues in priority order and never looks
//! at the log as a whole again.

use crate::log::{check_log, MOST_RELEASES};
use crate::sheet::{Bus, LAST_TICK, MOST_NODES, MOST_STREAMS, MOST_STREAMS_A_NODE};
use crate::{refusal, success, Answer, NOT_BEGUN};

/// End of a queue. Release indices stay below it.
const END: u16 = u16::MAX;
/// Later than any turn starts.
const NEVER: u64 = u64::MAX;

/// First-in first-out queues, linked through the log's release indices.
/// A queue holds future releases too: ticks never fall, so its head is the
/// first to be released and alone tells whether anything waits.
pub(crate) struct Queues<'a> {
    log: &'a [u32],
    head: [u16; MOST_STREAMS],
    next: [u16; MOST_RELEASES],
}

impl<'a> Queues<'a> {
    fn deal(log: &'a [u32]) -> Queues<'a> {
        let mut queues = Queues {
            log,
            head: [END; MOST_STREAMS],
            next: [END; MOST_RELEASES],
        };
        // From the back, so that each release goes in front of the later ones.
        for release in (0..log.len() / 2).rev() {
            let stream = log[2 * release + 1] as usize - 1;
            queues.next[release] = queues.head[stream];
            queues.head[stream] = release as u16;
        }
        queues
    }

    pub fn head_tick(&self, stream: usize) -> u64 {
        match self.head[stream] {
            END => NEVER,
            release => u64::from(self.log[2 * release as usize]),
        }
    }

    pub fn pop(&mut self, stream: usize) -> usize {
        let release = self.head[stream] as usize;
        self.head[stream] = self.next[release];
        release
    }
}

/// A bus in operation.
pub(crate) struct Operation<'a> {
    pub bus: &'a Bus,
    pub queues: Queues<'a>,
    /// Streams of each node, first served first.
    pub order: [[usize; MOST_STREAMS_A_NODE]; MOST_NODES],
    /// Earliest release still to begin, a node: makes a silent turn cheap.
    pub earliest: [u64; MOST_NODES],
}

impl<'a> Operation<'a> {
    pub fn new(bus: &'a Bus, log: &'a [u32]) -> Operation<'a> {
        let mut operation = Operation {
            bus,
            queues: Queues::deal(log),
            order: [[0; MOST_STREAMS_A_NODE]; MOST_NODES],
            earliest: [NEVER; MOST_NODES],
        };
        for (index, node) in bus.nodes().iter().enumerate() {
            let order = &mut operation.order[index][..node.count];
            for (number, stream) in order.iter_mut().enumerate() {
                *stream = node.first + number;
            }
            order.sort_unstable_by_key(|&stream| bus.priority(stream));
            operation.earliest[index] = operation.earliest_head(index);
        }
        operation
    }

    fn earliest_head(&self, node: usize) -> u64 {
        let count = self.bus.nodes()[node].count;
        let heads = self.order[node][..count].iter();
        heads
            .map(|&stream| self.queues.head_tick(stream))
            .min()
            .unwrap_or(NEVER)
    }

    /// One turn of a node that has something waiting; answers how many it took.
    /// Kept out of line so that the loop over silent turns stays small.
    #[inline(never)]
    pub fn serve(&mut self, node: usize, start: u64, room: &mut [u32]) -> u64 {
        let budget = self.bus.nodes()[node].budget as u64;
        let count = self.bus.nodes()[node].count;
        let mut taken = 0;
        for place in 0..count {
            let stream = self.order[node][place];
            // Judged by the start tick: what comes during the turn stays.
            while taken < budget && self.queues.head_tick(stream) <= start {
                let release = self.queues.pop(stream);
                room[release] = (start + taken * self.bus.message_ticks) as u32;
                taken += 1;
            }
        }
        self.earliest[node] = self.earliest_head(node);
        taken
    }

    /// Turn by turn up to the horizon; answers the turns and the next start.
    fn run(&mut self, horizon: u64, room: &mut [u32]) -> (u64, u64) {
        let nodes = self.bus.nodes().len();
        let slot = self.bus.slot_ticks;
        let (mut tick, mut node, mut turns) = (0, 0, 0);
        while tick < horizon {
            if self.earliest[node] <= tick {
                tick += self.serve(node, tick, room) * self.bus.message_ticks;
            }
            // The protocol slot passes whether or not the node sent.
            tick += slot;
            turns += 1;
            node = if node + 1 == nodes { 0 } else { node + 1 };
        }
        (turns, tick)
    }
}

/// The bus of what a replay accepts.
pub(crate) fn check(sheet: &[u32], log: &[u32], horizon: u32, room: &[u32]) -> Result<Bus, Answer> {
    let bus = Bus::read(sheet)?;
    let releases = check_log(log, bus.streams().len())?;
    if horizon > LAST_TICK {
        return Err(refusal(10, 0, 0));
    }
    if room.len() < releases {
        return Err(refusal(6, 0, 0));
    }
    Ok(bus)
}

/// Writes the begin ticks of an accepted log.
pub(crate) fn write_begins(bus: &Bus, log: &[u32], horizon: u32, room: &mut [u32]) -> Answer {
    room[..log.len() / 2].fill(NOT_BEGUN);
    let (turns, next) = Operation::new(bus, log).run(u64::from(horizon), room);
    success(turns, next)
}

/// Replays a log from tick 0 up to the horizon and writes the begin ticks.
pub fn replay(sheet: &[u32], log: &[u32], horizon: u32, room: &mut [u32]) -> Answer {
    match check(sheet, log, horizon, room) {
        Ok(bus) => write_begins(&bus, log, horizon, room),
        Err(answer) => answer,
    }
}
