//! Tables for the writer: two thirds sound, the others with one fault or
//! several.

use super::random::Random;
use super::sheets::{extreme_ticks, slot_length};
use crate::sheet::{HEADER_WORDS, LAST_TICK, ROW_WORDS, STREAM_WORDS};
use crate::Tables;

/// Everything that the writer takes.
#[derive(Clone, PartialEq, Eq, Debug)]
pub struct TablesCase {
    pub tables: Tables,
    pub room: Vec<u32>,
}

/// What may be wrong, last in the order of the refusals first. A fault is put
/// in only after those that rely on the words it changes.
#[derive(Clone, Copy, PartialEq, Eq, PartialOrd, Ord)]
enum Fault {
    Room,
    Stream,
    StreamLengths,
    Row,
    RowLengths,
    Ticks,
    Nodes,
}

use Fault::*;

/// The same for the same seed and index, whatever other cases are made.
pub fn tables_case(seed: u64, index: u64) -> TablesCase {
    let random = &mut Random::new(seed, index);
    let faults = faults(random);
    let nodes = match faults.contains(&Nodes) {
        true => wrong_node_count(random),
        false => node_count(random),
    };
    let mut case = sound(random, nodes);
    for fault in faults {
        case.spoil(random, fault);
    }
    case
}

/// None for most. Some have two that are neighbours in the order; of others,
/// the same may come twice.
fn faults(random: &mut Random) -> Vec<Fault> {
    let all = [Room, Stream, StreamLengths, Row, RowLengths, Ticks, Nodes];
    if random.percent(6) {
        let first = random.below(all.len() as u64 - 1) as usize;
        return all[first..first + 2].to_vec();
    }
    let count = [0, 1, 2, 3, 5][random.weighted(&[69, 21, 5, 3, 2])];
    let fault = |_| all[random.weighted(&[13, 22, 16, 20, 12, 9, 8])];
    let mut faults: Vec<Fault> = (0..count).map(fault).collect();
    faults.sort();
    faults
}

fn node_count(random: &mut Random) -> u64 {
    match random.weighted(&[10, 75, 15]) {
        0 => 1,
        1 => random.between(1, 16),
        _ => 16,
    }
}

fn wrong_node_count(random: &mut Random) -> u64 {
    match random.weighted(&[40, 40, 10, 10]) {
        0 => 0,
        1 => 17,
        2 => 18,
        _ => random.between(19, 300),
    }
}

fn counts(random: &mut Random, nodes: u64) -> Vec<u32> {
    let crowding = random.weighted(&[30, 30, 8, 6, 14, 12]);
    let count = |random: &mut Random| match crowding {
        0 => random.between(0, 3),
        1 => random.between(0, 16),
        2 => 16,
        3 => 0,
        4 => random.between(1, 6),
        _ => random.pick(&[0, 0, 1, 15, 16]),
    };
    (0..nodes).map(|_| count(random) as u32).collect()
}

fn budgets(random: &mut Random, nodes: u64) -> Vec<u32> {
    let size = random.weighted(&[15, 25, 45, 15]);
    let budget = |random: &mut Random| match size {
        0 => 1,
        1 => random.between(1, 4),
        2 => random.between(1, 16),
        _ => 16,
    };
    (0..nodes).map(|_| budget(random) as u32).collect()
}

/// Period, deadline and jitter: the ends of the ranges and all between, or, so
/// that one in the wrong place is told from all others, numbers that count up.
fn stream(random: &mut Random, counted: Option<u32>, number: u32) -> [u32; STREAM_WORDS] {
    match counted {
        Some(start) => [2, 1, 0].map(|more| start + 3 * number + more),
        None => any_stream(random),
    }
}

/// The ends of the ranges and all between.
pub(super) fn any_stream(random: &mut Random) -> [u32; STREAM_WORDS] {
    let period = extreme_ticks(random, LAST_TICK);
    let deadline = extreme_ticks(random, period);
    let near = [deadline - 1, deadline, deadline + 1].map(|jitter| jitter.min(period - 1));
    let jitter = match random.percent(70) {
        true => extreme_ticks(random, period) - 1,
        false => random.pick(&near),
    };
    [period, deadline, jitter]
}

fn words(nodes: usize, streams: usize) -> usize {
    HEADER_WORDS + ROW_WORDS * nodes + STREAM_WORDS * streams
}

/// Words that are all different, so that each shows if it is changed. Most
/// rooms have none that a sheet could hold, so that each shows if it is kept.
fn junk(random: &mut Random, length: usize) -> Vec<u32> {
    let (start, stride) = (random.word(), random.word() | 1);
    let highest = random.pick(&[1 << 31, 1 << 31, 1 << 31, 0]);
    let word = |place: u32| start.wrapping_add(stride.wrapping_mul(place)) | highest;
    (0..length as u32).map(word).collect()
}

/// Right but for the number of nodes, if that is out of range.
fn sound(random: &mut Random, nodes: u64) -> TablesCase {
    let counts = counts(random, nodes);
    let budgets = budgets(random, nodes);
    let streams: u32 = counts.iter().sum();
    let counted = random.percent(30);
    let counted = counted.then(|| random.between(20, 900_000_000) as u32);
    let streams = (0..streams).map(|number| stream(random, counted, number));
    let streams: Vec<[u32; STREAM_WORDS]> = streams.collect();
    let [periods, deadlines, jitters] =
        [0, 1, 2].map(|place| streams.iter().map(|stream| stream[place]).collect());
    let further = match random.weighted(&[50, 15, 25, 10]) {
        0 => 0,
        1 => 1,
        2 => random.between(2, 9),
        _ => random.between(10, 700),
    };
    let length = words(counts.len(), streams.len()) + further as usize;
    let tables = Tables {
        message_ticks: slot_length(random),
        slot_ticks: slot_length(random),
        counts,
        budgets,
        periods,
        deadlines,
        jitters,
    };
    let room = junk(random, length);
    TablesCase { tables, room }
}

/// A length that is not the old one.
fn resize(random: &mut Random, table: &mut Vec<u32>, further: &[u32]) {
    let old = table.len();
    let new = match random.weighted(&[35, 35, 10, 10, 10]) {
        0 if old > 0 => old - 1,
        2 if old > 0 => 0,
        3 if old > 0 => random.below(old as u64) as usize,
        4 => old + random.between(100, 700) as usize,
        _ => old + 1,
    };
    table.truncate(new);
    while table.len() < new {
        table.push(random.pick(further));
    }
}

impl TablesCase {
    fn spoil(&mut self, random: &mut Random, fault: Fault) {
        let tables = &mut self.tables;
        match fault {
            Room => self.shorten_room(random),
            Stream => tables.spoil_stream(random),
            StreamLengths => tables.spoil_stream_lengths(random),
            Row => tables.spoil_row(random),
            RowLengths => match random.percent(70) {
                true => resize(random, &mut tables.budgets, &[0, 1, 16]),
                false => resize(random, &mut tables.counts, &[0, 1, 16, u32::MAX]),
            },
            Ticks => tables.spoil_ticks(random),
            // Out of range from the start, with all else made to fit.
            Nodes => {}
        }
    }

    /// By one word, or to what a wrong reckoning would ask for.
    fn shorten_room(&mut self, random: &mut Random) {
        let (nodes, streams) = (self.tables.counts.len(), self.tables.periods.len());
        let full = words(nodes, streams);
        let length = match random.weighted(&[50, 10, 10, 5, 5, 10, 10]) {
            0 => full - 1,
            1 => full - 2,
            2 => words(nodes, 0).min(full - 1),
            3 => (words(nodes, 0) + streams).min(full - 1),
            4 => (words(nodes, 0) + 2 * streams).min(full - 1),
            5 => random.below(full as u64) as usize,
            _ => 0,
        };
        self.room.truncate(length);
    }
}

impl Tables {
    /// Both sides of both bounds, and next to the right value.
    fn spoil_stream(&mut self, random: &mut Random) {
        let stream = random.below(self.periods.len() as u64) as usize;
        let Some(&period) = self.periods.get(stream) else {
            return;
        };
        let deadline = self.deadlines[stream];
        let (below, above) = (deadline.wrapping_sub(1), period.wrapping_add(1));
        let past = LAST_TICK + 1;
        match random.weighted(&[33, 33, 34]) {
            0 => {
                let choices = [0, 0, 1, below, below, LAST_TICK, past, past, u32::MAX];
                self.periods[stream] = random.pick(&choices);
            }
            1 => {
                let choices = [0, 0, 1, period, above, above, past, u32::MAX];
                self.deadlines[stream] = random.pick(&choices);
            }
            _ => {
                let last = period.wrapping_sub(1);
                let choices = [last, period, period, period, period, above, u32::MAX];
                self.jitters[stream] = random.pick(&choices);
            }
        }
    }

    fn spoil_stream_lengths(&mut self, random: &mut Random) {
        let ticks = [1, 1, 50, LAST_TICK, 0];
        let mut lent = [&mut self.periods, &mut self.deadlines, &mut self.jitters];
        let which = random.below(3) as usize;
        match random.weighted(&[70, 15, 15]) {
            0 => resize(random, lent[which], &ticks),
            1 => {
                resize(random, lent[0], &ticks);
                let length = lent[0].len();
                lent[1..]
                    .iter_mut()
                    .for_each(|table| table.resize(length, 1));
            }
            // One over and one missing: together they are as many as before.
            _ => {
                let word = lent[which].pop();
                lent[(which + 1) % 3].extend(word);
            }
        }
    }

    fn spoil_row(&mut self, random: &mut Random) {
        let row = random.below(self.counts.len() as u64) as usize;
        let Some(&right) = self.counts.get(row) else {
            return;
        };
        let near = [right.wrapping_sub(1), right.wrapping_add(1)];
        let counts = [
            0,
            1,
            near[0],
            near[1],
            16,
            17,
            17,
            17,
            18,
            1 << 16,
            u32::MAX,
        ];
        let budgets = [0, 0, 1, 16, 17, 17, 18, u32::MAX];
        match random.weighted(&[38, 38, 8, 8, 8]) {
            0 => self.counts[row] = random.pick(&counts),
            1 => self.budgets[row] = random.pick(&budgets),
            2 => {
                self.counts[row] = random.pick(&counts);
                self.budgets[row] = random.pick(&budgets);
            }
            3 => self.counts.fill(u32::MAX),
            // So that the sum in 32 bits stays right. One node alone is left.
            _ => {
                let other = (row + 1) % self.counts.len();
                for row in [row, other] {
                    self.counts[row] = self.counts[row].wrapping_add(1 << 31);
                }
            }
        }
    }

    fn spoil_ticks(&mut self, random: &mut Random) {
        let choices = [0, 0, 1, 10_000, 10_001, 10_001, 10_002, u32::MAX];
        let (message, slot) = (random.pick(&choices), random.pick(&choices));
        let which = random.weighted(&[40, 40, 20]);
        if which != 1 {
            self.message_ticks = message;
        }
        if which != 0 {
            self.slot_ticks = slot;
        }
    }
}
