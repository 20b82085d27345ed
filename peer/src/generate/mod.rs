//! Cases for comparing two programs: generated ones, each of which can be run
//! again by its seed and index, and named ones for the far ends.

mod budgets;
mod deadlines;
mod edits;
mod faults;
mod full;
mod jitters;
mod loads;
mod logs;
mod long;
mod made_up;
mod named;
mod named_budgets;
mod named_edits;
mod named_full;
mod named_jitters;
mod named_pieces;
mod named_records;
mod named_tables;
mod pieces;
mod random;
mod records;
mod rounds;
mod sheets;
mod tables;

use crate::sheet::{Bus, LAST_TICK};
use crate::{Record, NOT_BEGUN};
use deadlines::limit_tries;
use faults::{damage_log, damage_sheet};
use logs::{ordered_log, Traffic};
use random::Random;
use sheets::{valid_sheet, Valid};

pub use budgets::{budgets_case, many_rounds, BudgetsCase, MOST_TRIES_A_ROW};
pub(crate) use deadlines::total_tries;
pub use edits::{alike_case, edits_case, AlikeCase, EditsCase};
pub use named::named;
pub use named_budgets::named_budgets;
pub use named_edits::{named_alike, named_edits};
pub use named_pieces::named_pieces;
pub use named_records::named_records;
pub use named_tables::named_tables;
pub use pieces::{made_up_case, pieces_case, Piece, PiecesCase};
pub use records::{records_case, RecordsCase};
pub use tables::{tables_case, TablesCase};

/// A generated replay starts no more turns, and most start far fewer.
pub const MOST_TURNS: u64 = 4_000_000;
const USUAL_TURNS: u64 = 100_000;
/// All streams of a generated sheet together try no more J. A little under
/// 10^5, for programs that look at one J more before they give up.
pub const MOST_TRIES: u64 = 99_000;

/// Only some cases have waits, begins or turns above these; a program that
/// cuts a number short shows there.
pub const FAR_WAIT: u32 = 100_000_000;
pub const FAR_BEGIN: u32 = LAST_TICK;
pub const FAR_TURNS: u32 = 1_000_000;

/// Everything that one round of all entries takes.
#[derive(Clone, PartialEq, Eq, Debug)]
pub struct Case {
    pub sheet: Vec<u32>,
    pub log: Vec<u32>,
    pub horizon: u32,
    /// The one-stream question: node and stream within the node.
    pub node: u32,
    pub stream: u32,
    /// For the single step, with `step_room`.
    pub record: Record,
    /// For admit and replay.
    pub room: Vec<u32>,
    pub step_room: Vec<u32>,
}

/// The same for the same seed and index, whatever other cases are made.
pub fn case(seed: u64, index: u64) -> Case {
    let random = &mut Random::new(seed, index);
    let CaseSheet {
        sheet,
        sharp,
        asked,
    } = case_sheet(random);
    let bus = Bus::read(&sheet).ok();
    let traffic = traffic(random, bus.as_ref(), sharp);
    let mut log = ordered_log(random, &traffic);
    damage_log(random, &mut log, traffic.streams);
    let releases = log.len().div_ceil(2);
    let horizon = horizon(random, &traffic);
    let (node, stream) = question(random, &traffic, asked);
    let record = record(random, &traffic, &log);
    let room = room(random, traffic.streams as usize, releases);
    let step_room = step_room(random, releases);
    Case {
        sheet,
        log,
        horizon,
        node,
        stream,
        record,
        room,
        step_room,
    }
}

/// The sheet of a case, which may be damaged, and the streams that were at the
/// edge of the late test and to be asked about before.
struct CaseSheet {
    sheet: Vec<u32>,
    sharp: Option<usize>,
    asked: Option<usize>,
}

fn case_sheet(random: &mut Random) -> CaseSheet {
    let Valid {
        mut sheet,
        tries,
        sharp,
        asked,
    } = valid_sheet(random);
    damage_sheet(random, &mut sheet);
    limit_tries(&mut sheet, tries);
    CaseSheet {
        sheet,
        sharp,
        asked,
    }
}

/// The longest horizon that keeps to the limit: a turn takes a slot or more.
fn longest_horizon(bus: Option<&Bus>, turns: u64) -> u64 {
    let slot = bus.map_or(1, |bus| bus.slot_ticks);
    (slot * turns).min(u64::from(LAST_TICK))
}

fn traffic<'a>(random: &mut Random, bus: Option<&'a Bus>, sharp: Option<usize>) -> Traffic<'a> {
    let turns = [100, 1_000, 5_000, 30_000, USUAL_TURNS, MOST_TURNS];
    // With slots long enough, the most turns come to the last tick; with long
    // messages too, the last of them goes on well past it.
    let to_the_end = longest_horizon(bus, MOST_TURNS) == u64::from(LAST_TICK);
    let weights = match bus {
        Some(bus) if to_the_end && bus.message_ticks >= 500 => [12, 12, 6, 5, 5, 60],
        _ if to_the_end => [32, 28, 15, 5, 5, 15],
        _ => [40, 35, 17, 5, 2, 1],
    };
    let most = turns[random.weighted(&weights)];
    let longest = longest_horizon(bus, most);
    let span = match most == MOST_TURNS || random.percent(60) {
        true => longest,
        false => random.between(1, longest),
    };
    let streams = match bus {
        Some(bus) => bus.streams().len() as u32,
        None => random.between(1, 10) as u32,
    };
    // What was damaged may have lost the stream.
    let sharp = sharp.filter(|&stream| stream < streams as usize);
    let span = match (bus, sharp) {
        (Some(bus), Some(stream)) => span.max(past_deadline(bus, stream)),
        _ => span,
    };
    Traffic {
        bus,
        streams,
        span,
        sharp,
    }
}

/// Past the deadline of a message that is released in the first cycle; 0 if
/// that takes too many turns.
fn past_deadline(bus: &Bus, stream: usize) -> u64 {
    let due = bus.cycle() + u64::from(bus.streams()[stream].deadline) + 1;
    match due <= longest_horizon(Some(bus), USUAL_TURNS) {
        true => due,
        false => 0,
    }
}

fn horizon(random: &mut Random, traffic: &Traffic) -> u32 {
    let cycle = traffic.bus.map_or(17, Bus::cycle);
    let longest = longest_horizon(traffic.bus, USUAL_TURNS);
    let ticks = match random.weighted(&[3, 10, 80, 3, 2, 1, 1]) {
        0 => 0,
        1 => random.between(1, cycle).min(longest),
        2 => traffic.span,
        3 => u64::from(LAST_TICK).min(longest),
        4 => u64::from(LAST_TICK) + 1,
        5 => u64::from(u32::MAX),
        _ => random.between(u64::from(LAST_TICK) + 1, u64::from(u32::MAX)),
    };
    ticks as u32
}

/// Of two streams of a node the one of lower priority, which is more likely to
/// wait for more than one cycle; none for a sheet without streams.
fn lower_of_two(random: &mut Random, bus: &Bus) -> Option<usize> {
    let streams = bus.streams().len() as u64;
    let one = (streams > 0).then(|| random.below(streams) as usize)?;
    let node = &bus.nodes()[bus.node_of(one)];
    let other = node.first + random.below(node.count as u64) as usize;
    Some(std::cmp::max_by_key(one, other, |&s| bus.priority(s)))
}

/// Mostly a stream that there is, and often the one that the sheet was made for.
fn question(random: &mut Random, traffic: &Traffic, asked: Option<usize>) -> (u32, u32) {
    let odd = [0, 1, 2, 16, 17, 18, 4_096, u32::MAX - 1, u32::MAX];
    // What was damaged may have lost the stream.
    let asked = asked.filter(|&stream| stream < traffic.streams as usize);
    let asked = traffic.bus.and_then(|bus| {
        let stream = lower_of_two(random, bus)?;
        let asked = asked.filter(|_| random.percent(70));
        Some((bus, asked.unwrap_or(stream)))
    });
    let Some((bus, stream)) = asked else {
        return (random.pick(&odd), random.pick(&odd));
    };
    let count = bus.nodes()[bus.node_of(stream)].count;
    let (node, stream) = bus.place(stream);
    match random.weighted(&[88, 3, 3, 3, 3]) {
        0 => (node, stream),
        1 => (random.pick(&odd), stream),
        2 => (node, random.pick(&odd)),
        3 => (node, count as u32 + 1),
        _ => (bus.nodes().len() as u32 + 1, stream),
    }
}

fn record(random: &mut Random, traffic: &Traffic, log: &[u32]) -> Record {
    let nodes = traffic.bus.map_or(3, |bus| bus.nodes().len()) as u32;
    let release = random.below(log.len() as u64 / 2) as usize;
    let tick = match log.get(2 * release) {
        Some(&tick) if random.percent(70) => tick.saturating_add(random.below(20) as u32),
        _ => random.below(traffic.span + 1) as u32,
    };
    let sender = log.get(2 * release + 1).and_then(|&stream| {
        let (bus, index) = (traffic.bus?, (stream as usize).checked_sub(1)?);
        (index < bus.streams().len()).then(|| bus.node_of(index))
    });
    let node = match sender {
        Some(node) if random.percent(75) => node as u32 + 1,
        _ => random.between(1, u64::from(nodes)) as u32,
    };
    let mut record = Record {
        tick: tick.min(LAST_TICK),
        node,
        turns: random.below(1_000_000) as u32,
    };
    let far = [0, LAST_TICK, LAST_TICK, LAST_TICK + 1, u32::MAX];
    match random.weighted(&[80, 6, 6, 6, 2]) {
        0 => {}
        1 => record.tick = random.pick(&far),
        2 => record.turns = random.pick(&far),
        3 => record.node = random.pick(&[0, 1, nodes, nodes + 1, 17, u32::MAX]),
        _ => {
            record.tick = random.pick(&far);
            record.turns = random.pick(&far);
            record.node = random.pick(&[0, 1, nodes, nodes + 1, u32::MAX]);
        }
    }
    record
}

fn any_word(random: &mut Random) -> u32 {
    match random.below(4) {
        0 => random.below(100) as u32,
        1 => NOT_BEGUN - 1,
        2 => random.pick(&[0, LAST_TICK, NOT_BEGUN]),
        _ => random.word(),
    }
}

fn room(random: &mut Random, streams: usize, releases: usize) -> Vec<u32> {
    let both = streams.max(releases);
    let length = match random.weighted(&[50, 12, 12, 8, 8, 7, 3]) {
        0 => both + random.below(4) as usize,
        1 => streams,
        2 => releases,
        3 => streams.saturating_sub(1),
        4 => releases.saturating_sub(1),
        5 => random.below(both as u64 + 1) as usize,
        _ => 0,
    };
    (0..length).map(|_| any_word(random)).collect()
}

fn step_room(random: &mut Random, releases: usize) -> Vec<u32> {
    let length = match random.weighted(&[60, 25, 8, 4, 3]) {
        0 => releases,
        1 => releases + random.between(1, 5) as usize,
        2 => releases.saturating_sub(1),
        3 => random.below(releases as u64 + 1) as usize,
        _ => 0,
    };
    // Some rooms leave nearly all waiting, so that many compete for the turn.
    let waiting = random.pick(&[50, 50, 95]);
    let word = |random: &mut Random| match random.percent(waiting) {
        true => NOT_BEGUN,
        false => any_word(random),
    };
    (0..length).map(|_| word(random)).collect()
}
