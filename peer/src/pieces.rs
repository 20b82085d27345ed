//! The replay by pieces: request Seven of document 02. Each node has two heaps:
//! of the messages whose tick is still to come, by tick, and of those that are
//! due, by rank. A turn moves over what its start makes due and takes the first
//! of the second heap, so that no turn looks at the waiting places. These are
//! read before the first turn and filled after the last.

use std::cmp::Reverse;
use std::collections::BinaryHeap;
use std::fmt;
use std::ops::Range;

use crate::log::{check_releases, MOST_RELEASES};
use crate::sheet::{Bus, LAST_TICK, MOST_NODES};
use crate::{refusal, success, Answer};

/// The places of a record.
pub const MOST_WAITING: usize = 256;
/// The words of a record: six numbers, and three tables of the places.
pub const CHECKPOINT_WORDS: usize = 6 + 3 * MOST_WAITING;

/// A release that waits; all 0 where nothing waits.
#[derive(Clone, Copy, PartialEq, Eq, Debug, Default)]
pub struct Place {
    pub number: u32,
    pub tick: u32,
    pub stream: u32,
}

/// The record of a replay between two pieces.
#[derive(Clone, PartialEq, Eq)]
pub struct Checkpoint {
    /// The end of the last piece.
    pub horizon: u32,
    /// The next turn: its start, its node and the turns before it.
    pub tick: u32,
    pub node: u32,
    pub turns: u32,
    /// How many all pieces had so far.
    pub releases: u32,
    /// How many of the places, from the first on, have a release that waits.
    pub waiting: u32,
    pub places: [Place; MOST_WAITING],
}

impl Checkpoint {
    /// Before the first piece.
    pub fn fresh() -> Checkpoint {
        Checkpoint {
            horizon: 0,
            tick: 0,
            node: 1,
            turns: 0,
            releases: 0,
            waiting: 0,
            places: [Place::default(); MOST_WAITING],
        }
    }

    /// The table that stands for the record: its six numbers, then the numbers,
    /// the ticks and the streams of all places.
    pub fn words(&self) -> [u32; CHECKPOINT_WORDS] {
        let mut words = [0; CHECKPOINT_WORDS];
        let (first, tables) = words.split_at_mut(6);
        first.copy_from_slice(&[
            self.horizon,
            self.tick,
            self.node,
            self.turns,
            self.releases,
            self.waiting,
        ]);
        for (index, place) in self.places.iter().enumerate() {
            tables[index] = place.number;
            tables[MOST_WAITING + index] = place.tick;
            tables[2 * MOST_WAITING + index] = place.stream;
        }
        words
    }
}

/// The six numbers, and the places up to the last that is not all 0.
impl fmt::Debug for Checkpoint {
    fn fmt(&self, out: &mut fmt::Formatter) -> fmt::Result {
        let used = |place: &Place| *place != Place::default();
        let end = self.places.iter().rposition(used);
        let places = &self.places[..end.map_or(0, |last| last + 1)];
        let words = places
            .iter()
            .map(|place| (place.number, place.tick, place.stream));
        write!(out, "Checkpoint {:?} ", &self.words()[..6])?;
        out.debug_list().entries(words).finish()
    }
}

/// What is lent to be read: the sheet, the releases of a piece, two words each,
/// and its horizon.
#[derive(Clone, Copy, Debug)]
pub struct Lent<'a> {
    pub sheet: &'a [u32],
    pub piece: &'a [u32],
    pub horizon: u32,
}

/// What waits or comes, turn by turn.
pub(crate) struct Run<'a> {
    bus: &'a Bus,
    /// In log order: the waiting, then those of the piece.
    pub messages: Vec<Place>,
    to_come: [BinaryHeap<Reverse<(u32, usize)>>; MOST_NODES],
    due: [BinaryHeap<Reverse<(u64, usize)>>; MOST_NODES],
    tick: u64,
    node: usize,
    turns: u64,
    /// Index of each message begun and its begin tick, in the order begun.
    pub begun: Vec<(usize, u64)>,
}

impl<'a> Run<'a> {
    /// A record and a piece that are not refused.
    pub fn new(bus: &'a Bus, record: &Checkpoint, piece: &[u32]) -> Run<'a> {
        let mut messages = record.places[..record.waiting as usize].to_vec();
        let numbers = record.releases + 1..;
        let releases = piece.chunks_exact(2).zip(numbers);
        messages.extend(releases.map(|(words, number)| Place {
            number,
            tick: words[0],
            stream: words[1],
        }));
        let mut run = Run {
            bus,
            messages,
            to_come: Default::default(),
            due: Default::default(),
            tick: u64::from(record.tick),
            node: record.node as usize - 1,
            turns: u64::from(record.turns),
            begun: Vec::new(),
        };
        run.queue();
        run
    }

    /// Puts all messages into the heaps of what is to come.
    pub fn queue(&mut self) {
        self.to_come = Default::default();
        for (index, message) in self.messages.iter().enumerate() {
            let node = self.bus.node_of(message.stream as usize - 1);
            self.to_come[node].push(Reverse((message.tick, index)));
        }
    }

    /// A turn begun before the horizon is finished.
    pub fn go_to(&mut self, horizon: u64) {
        while self.tick < horizon {
            match self.silent_turns(horizon) {
                0 => self.turn(),
                turns => self.pass(turns),
            }
        }
    }

    /// How many turns, from the next on, start before any message is due; they
    /// are a slot apart, whoever's they are.
    fn silent_turns(&self, horizon: u64) -> u64 {
        let first = self.first_due().min(horizon);
        first
            .saturating_sub(self.tick)
            .div_ceil(self.bus.slot_ticks)
    }

    /// The first tick by which some message is due; 0 if one is known to be.
    fn first_due(&self) -> u64 {
        if self.due.iter().any(|heap| !heap.is_empty()) {
            return 0;
        }
        let firsts = self.to_come.iter().filter_map(BinaryHeap::peek);
        let ticks = firsts.map(|first| u64::from(first.0 .0));
        ticks.min().unwrap_or(u64::MAX)
    }

    fn turn(&mut self) {
        self.look();
        for _ in 0..self.bus.nodes()[self.node].budget {
            let Some(Reverse((_, index))) = self.due[self.node].pop() else {
                break;
            };
            self.begun.push((index, self.tick));
            self.tick += self.bus.message_ticks;
        }
        self.pass(1);
    }

    /// The node's look at its queue: what has come by the start is due. Of one
    /// priority, which is of one stream, the earlier in the log goes first.
    fn look(&mut self) {
        let to_come = &mut self.to_come[self.node];
        while let Some(&Reverse((tick, index))) = to_come.peek() {
            if u64::from(tick) > self.tick {
                break;
            }
            to_come.pop();
            let stream = self.messages[index].stream as usize - 1;
            let priority = self.bus.priority(stream);
            self.due[self.node].push(Reverse((priority, index)));
        }
    }

    /// The slots of so many turns.
    fn pass(&mut self, turns: u64) {
        self.tick += turns * self.bus.slot_ticks;
        self.turns += turns;
        let nodes = self.bus.nodes().len() as u64;
        self.node = ((self.node as u64 + turns) % nodes) as usize;
    }

    /// Release number and begin tick of each message begun.
    pub fn write_begun(&self, room: &mut [u32]) {
        for (words, &(index, begin)) in room.chunks_exact_mut(2).zip(&self.begun) {
            words[0] = self.messages[index].number;
            words[1] = begin as u32;
        }
    }

    /// Those that have not begun, in log order.
    pub fn left(&self) -> Vec<Place> {
        let mut begun = vec![false; self.messages.len()];
        for &(index, _) in &self.begun {
            begun[index] = true;
        }
        let all = self.messages.iter().zip(begun);
        all.filter_map(|(message, begun)| (!begun).then_some(*message))
            .collect()
    }

    /// The record after the piece, given the releases before it. No more are
    /// left than there are places.
    pub fn record(&self, lent: &Lent, before: u32) -> Checkpoint {
        let left = self.left();
        let mut places = [Place::default(); MOST_WAITING];
        places[..left.len()].copy_from_slice(&left);
        Checkpoint {
            horizon: lent.horizon,
            tick: self.tick as u32,
            node: self.node as u32 + 1,
            turns: self.turns as u32,
            releases: before + lent.piece.len() as u32 / 2,
            waiting: left.len() as u32,
            places,
        }
    }

    pub fn answer(&self) -> Answer {
        success(self.begun.len() as u64, self.turns)
    }
}

/// Refusal 16. Nothing else is asked of a record, and nothing at all of the
/// places past the waiting.
pub(crate) fn check_record(bus: &Bus, record: &Checkpoint) -> Result<(), Answer> {
    let waiting = record.places.get(..record.waiting as usize);
    let known = 1..=bus.streams().len() as u32;
    let right = record.tick <= LAST_TICK
        && record.turns <= LAST_TICK
        && (1..=bus.nodes().len() as u32).contains(&record.node)
        && record.releases <= MOST_RELEASES as u32
        && waiting.is_some_and(|places| places.iter().all(|it| known.contains(&it.stream)));
    if !right {
        return Err(refusal(16, 0, 0));
    }
    Ok(())
}

/// The most releases that a piece may have: with those so far, as a log.
pub(crate) fn most_releases(record: &Checkpoint) -> usize {
    MOST_RELEASES.saturating_sub(record.releases as usize)
}

/// The ticks that releases of a piece up to this horizon may have.
pub(crate) fn ticks_of_piece(record: &Checkpoint, horizon: u32) -> Range<u32> {
    record.horizon..horizon.min(LAST_TICK + 1)
}

/// Refusal 9.
pub(crate) fn check_piece(bus: &Bus, lent: &Lent, record: &Checkpoint) -> Result<(), Answer> {
    let ticks = ticks_of_piece(record, lent.horizon);
    let most = most_releases(record);
    check_releases(lent.piece, bus.streams().len(), most, ticks)?;
    Ok(())
}

/// Refusal 10: a horizon that has fallen, or is too large.
pub(crate) fn check_horizon(lent: &Lent, record: &Checkpoint) -> Result<(), Answer> {
    if lent.horizon < record.horizon || lent.horizon > LAST_TICK {
        return Err(refusal(10, 0, 0));
    }
    Ok(())
}

/// All that may wait during a piece: the waiting, and the piece's own releases.
pub(crate) fn all_waiting(piece: &[u32], record: &Checkpoint) -> usize {
    record.waiting as usize + piece.len() / 2
}

/// Refusals 12 and 6. Both go by all that may wait, whatever begins.
pub(crate) fn check_space(lent: &Lent, record: &Checkpoint, room: &[u32]) -> Result<(), Answer> {
    let all = all_waiting(lent.piece, record);
    if all > MOST_WAITING {
        return Err(refusal(12, 0, 0));
    }
    if room.len() < 2 * all {
        return Err(refusal(6, 0, 0));
    }
    Ok(())
}

fn check(lent: &Lent, record: &Checkpoint, room: &[u32]) -> Result<Bus, Answer> {
    let bus = Bus::read(lent.sheet)?;
    check_record(&bus, record)?;
    check_piece(&bus, lent, record)?;
    check_horizon(lent, record)?;
    check_space(lent, record, room)?;
    Ok(bus)
}

/// Runs a piece that is not refused.
pub(crate) fn carry_on(
    bus: &Bus,
    lent: &Lent,
    record: &mut Checkpoint,
    room: &mut [u32],
) -> Answer {
    let mut run = Run::new(bus, record, lent.piece);
    run.go_to(u64::from(lent.horizon));
    run.write_begun(room);
    *record = run.record(lent, record.releases);
    run.answer()
}

/// Replays one piece from where the record stands up to the new horizon, sets
/// the record there and writes the messages begun.
pub fn resume(lent: &Lent, record: &mut Checkpoint, room: &mut [u32]) -> Answer {
    match check(lent, record, room) {
        Ok(bus) => carry_on(&bus, lent, record, room),
        Err(answer) => answer,
    }
}
