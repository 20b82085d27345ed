//! Reading a sheet into fixed tables, with refusals 1 to 5.

use crate::{refusal, success, Answer};

pub(crate) const MOST_NODES: usize = 16;
pub(crate) const MOST_STREAMS_A_NODE: usize = 16;
pub(crate) const MOST_STREAMS: usize = MOST_NODES * MOST_STREAMS_A_NODE;
pub(crate) const MOST_BUDGET: usize = 16;
/// Longest message or protocol slot.
pub(crate) const LONGEST_SLOT: u32 = 10_000;
/// Longest period, latest release, latest horizon and latest record tick.
pub(crate) const LAST_TICK: u32 = 1_000_000_000;

pub(crate) const HEADER_WORDS: usize = 3;
pub(crate) const ROW_WORDS: usize = 3;
pub(crate) const STREAM_WORDS: usize = 3;

#[derive(Clone, Copy, Default)]
pub(crate) struct Stream {
    pub period: u32,
    pub deadline: u32,
    pub jitter: u32,
    priority: u64,
}

/// Makes the priority of a stream, given its number within the node, from 0.
pub(crate) type Rank = fn(&Stream, u64) -> u64;

/// Shorter deadline first, then shorter period, then lower number. The jitter
/// plays no part.
pub(crate) fn by_deadline(stream: &Stream, number: u64) -> u64 {
    levels(stream.deadline, stream.period, number)
}

/// The levels of a rank as one number that is quick to compare: the first two
/// are below 2^30 and the number is below 2^4, so the three fit side by side.
pub(crate) fn levels(deadline: u32, period: u32, number: u64) -> u64 {
    u64::from(deadline) << 34 | u64::from(period) << 4 | number
}

/// Whether the jitter of a stream is right, given that the rest is.
pub(crate) type JitterRule = fn(&Stream) -> bool;

/// Less than the period, whatever the deadline.
pub(crate) fn below_the_period(stream: &Stream) -> bool {
    stream.jitter < stream.period
}

#[derive(Clone, Copy, Default)]
pub(crate) struct Node {
    /// Index of its first stream in the table of all streams.
    pub first: usize,
    pub count: usize,
    pub budget: usize,
}

/// A valid sheet, read. Indices are from 0; answers count from 1.
#[derive(Clone)]
pub(crate) struct Bus {
    pub message_ticks: u64,
    pub slot_ticks: u64,
    node_count: usize,
    stream_count: usize,
    nodes: [Node; MOST_NODES],
    streams: [Stream; MOST_STREAMS],
    /// Index of the node of each stream; apart, which keeps a stream short and
    /// the whole quick to clear and to hand over.
    node_of: [u8; MOST_STREAMS],
}

/// Refusals 1 to 5 with their place, or 0 0 0 for a valid sheet.
pub fn check_sheet(sheet: &[u32]) -> Answer {
    match Bus::read(sheet) {
        Ok(_) => success(0, 0),
        Err(answer) => answer,
    }
}

impl Bus {
    pub fn read(sheet: &[u32]) -> Result<Bus, Answer> {
        Bus::read_with(sheet, below_the_period)
    }

    /// Only a program that is wrong on purpose has another rule for jitters.
    #[inline]
    pub fn read_with(sheet: &[u32], jitter_right: JitterRule) -> Result<Bus, Answer> {
        let mut bus = Bus::read_header(sheet)?;
        let end = bus.read_contents(sheet)?;
        if sheet.len() != end {
            return Err(refusal(4, 0, 0));
        }
        bus.read_bodies(sheet, jitter_right)?;
        bus.rank_by(by_deadline);
        Ok(bus)
    }

    fn read_header(sheet: &[u32]) -> Result<Bus, Answer> {
        let &[nodes, message, slot, ..] = sheet else {
            return Err(refusal(1, 0, 0));
        };
        if nodes < 1 || nodes > MOST_NODES as u32 {
            return Err(refusal(2, 0, 0));
        }
        let allowed = 1..=LONGEST_SLOT;
        if !allowed.contains(&message) || !allowed.contains(&slot) {
            return Err(refusal(3, 0, 0));
        }
        Ok(Bus {
            message_ticks: u64::from(message),
            slot_ticks: u64::from(slot),
            node_count: nodes as usize,
            stream_count: 0,
            nodes: [Node::default(); MOST_NODES],
            streams: [Stream::default(); MOST_STREAMS],
            node_of: [0; MOST_STREAMS],
        })
    }

    /// Reads the row of each node and answers where the last body ends.
    fn read_contents(&mut self, sheet: &[u32]) -> Result<usize, Answer> {
        let mut end = HEADER_WORDS + ROW_WORDS * self.node_count;
        if sheet.len() < end {
            return Err(refusal(4, 0, 0));
        }
        for node in 0..self.node_count {
            let row = &sheet[HEADER_WORDS + ROW_WORDS * node..][..ROW_WORDS];
            let place_right = row[0] == end as u32;
            let count_right = row[1] <= MOST_STREAMS_A_NODE as u32;
            let budget_right = row[2] >= 1 && row[2] <= MOST_BUDGET as u32;
            if !(place_right && count_right && budget_right) {
                return Err(refusal(4, node as u32 + 1, 0));
            }
            self.nodes[node] = Node {
                first: self.stream_count,
                count: row[1] as usize,
                budget: row[2] as usize,
            };
            self.stream_count += row[1] as usize;
            end += STREAM_WORDS * row[1] as usize;
        }
        Ok(end)
    }

    fn read_bodies(&mut self, sheet: &[u32], jitter_right: JitterRule) -> Result<(), Answer> {
        // The bodies have no gaps, so they are one run of streams.
        let bodies = &sheet[HEADER_WORDS + ROW_WORDS * self.node_count..];
        for node in 0..self.node_count {
            let Node { first, count, .. } = self.nodes[node];
            for number in 0..count {
                let index = first + number;
                let words = &bodies[STREAM_WORDS * index..][..STREAM_WORDS];
                let stream = Stream {
                    period: words[0],
                    deadline: words[1],
                    jitter: words[2],
                    priority: 0,
                };
                let period_right = (1..=LAST_TICK).contains(&stream.period);
                let deadline_right = stream.deadline >= 1 && stream.deadline <= stream.period;
                if !(period_right && deadline_right && jitter_right(&stream)) {
                    return Err(refusal(5, node as u32 + 1, number as u32 + 1));
                }
                self.streams[index] = stream;
                self.node_of[index] = node as u8;
            }
        }
        Ok(())
    }

    /// Sets all priorities, once, since they are asked for again and again.
    /// Only a program that is wrong on purpose calls this a second time.
    #[inline]
    pub fn rank_by(&mut self, rank: Rank) {
        for node in &self.nodes[..self.node_count] {
            let streams = &mut self.streams[node.first..][..node.count];
            for (number, stream) in (0..).zip(streams) {
                stream.priority = rank(stream, number);
            }
        }
    }

    /// Puts another budget in the place of the sheet's own.
    pub fn set_budget(&mut self, node: usize, budget: usize) {
        self.nodes[node].budget = budget;
    }

    /// Puts another jitter in the place of the sheet's own.
    pub fn set_jitter(&mut self, stream: usize, jitter: u32) {
        self.streams[stream].jitter = jitter;
    }

    pub fn nodes(&self) -> &[Node] {
        &self.nodes[..self.node_count]
    }

    pub fn streams(&self) -> &[Stream] {
        &self.streams[..self.stream_count]
    }

    /// Index of the node of a stream, from 0.
    pub fn node_of(&self, stream: usize) -> usize {
        usize::from(self.node_of[stream])
    }

    /// The full cycle: every node sends its whole budget.
    pub fn cycle(&self) -> u64 {
        let budgets: u64 = self.nodes().iter().map(|node| node.budget as u64).sum();
        budgets * self.message_ticks + self.node_count as u64 * self.slot_ticks
    }

    /// A turn in which the node sends its whole budget, with its protocol slot.
    pub fn longest_turn(&self, node: usize) -> u64 {
        self.nodes[node].budget as u64 * self.message_ticks + self.slot_ticks
    }

    /// Smaller means served first. Only meant within one node, where no two
    /// streams have the same.
    pub fn priority(&self, stream: usize) -> u64 {
        self.streams[stream].priority
    }

    /// Indices of the streams of a stream's node that rank above it.
    pub fn above(&self, stream: usize) -> impl Iterator<Item = usize> + '_ {
        let node = &self.nodes[self.node_of(stream)];
        let own = self.priority(stream);
        (node.first..node.first + node.count).filter(move |&other| self.priority(other) < own)
    }

    /// Node and stream within the node, both from 1.
    pub fn place(&self, stream: usize) -> (u32, u32) {
        let node = self.node_of(stream);
        let number = stream - self.nodes[node].first;
        (node as u32 + 1, number as u32 + 1)
    }

    /// The table index of the stream with this node and number, if there is one.
    pub fn find(&self, node: u32, number: u32) -> Option<usize> {
        let node = self.nodes().get((node as usize).checked_sub(1)?)?;
        let number = (number as usize).checked_sub(1)?;
        (number < node.count).then_some(node.first + number)
    }
}
