//! Cases for edits: the sheet of a generated case, valid or damaged, with some
//! edits of it; and pairs of sheets that are alike in all that the answers about
//! the streams of one node depend on.

use super::deadlines::{limit_tries, place, settle_deadline};
use super::jitters::edge_jitter;
use super::random::Random;
use super::sheets::{bounded, valid_sheet};
use super::tables::any_stream;
use super::{case_sheet, lower_of_two};
use crate::sheet::{Bus, LAST_TICK, STREAM_WORDS};
use crate::{read_tables, write_sheet, Answer, Edit, Tables};

/// A sheet and some edits, each of the sheet as it stands here.
#[derive(Clone, PartialEq, Eq, Debug)]
pub struct EditsCase {
    pub sheet: Vec<u32>,
    pub edits: Vec<Edit>,
}

/// Two valid sheets that are alike in n, TMS, TPR, budgets and the streams of
/// one node.
#[derive(Clone, PartialEq, Eq, Debug)]
pub struct AlikeCase {
    pub own_node: u32,
    pub sheets: [Vec<u32>; 2],
}

type Words = [u32; STREAM_WORDS];

/// The sheet of the case with this seed and index; the edits by numbers of their
/// own.
pub fn edits_case(seed: u64, index: u64) -> EditsCase {
    let sheet = case_sheet(&mut Random::new(seed, index)).sheet;
    let random = &mut Random::new(seed ^ 0x5eed_0009, index);
    let count = random.pick(&[1, 1, 2, 3]);
    let edits = match Bus::read(&sheet) {
        Ok(bus) => (0..count).map(|_| edit(random, &sheet, &bus)).collect(),
        Err(refused) => (0..count).map(|_| edit_damaged(random, refused)).collect(),
    };
    EditsCase { sheet, edits }
}

fn edit(random: &mut Random, sheet: &[u32], bus: &Bus) -> Edit {
    let (node, stream) = named(random, bus);
    let own_node = own_node(random, bus.nodes().len() as u32, node);
    let found = bus.find(node, stream);
    let words = match found {
        Some(stream) => new_words(random, sheet, bus, stream),
        None => any_stream(random),
    };
    let old = found.map_or(words, |stream| words_of(sheet, bus, stream));
    let words = match random.percent(26) {
        true => spoiled(random, words, old),
        false => words,
    };
    Edit::new(own_node, (node, stream), words)
}

/// Of a sheet that is refused. If that is for a stream, the edit mostly names it
/// and would set it right.
fn edit_damaged(random: &mut Random, refused: Answer) -> Edit {
    let odd = [0, 1, 1, 2, 2, 16, 17, u32::MAX];
    let at_fault = refused.number == 5 && random.percent(60);
    let (node, stream) = match at_fault {
        true => (refused.second, refused.third),
        false => (random.pick(&odd), random.pick(&odd)),
    };
    let own_node = own_node(random, 4, node);
    let words = any_stream(random);
    let words = match random.percent(20) {
        true => spoiled(random, words, words),
        false => words,
    };
    Edit::new(own_node, (node, stream), words)
}

/// Mostly a stream that there is.
fn named(random: &mut Random, bus: &Bus) -> (u32, u32) {
    let nodes = bus.nodes().len() as u32;
    let no_node = random.pick(&[0, nodes + 1, nodes + 1, 17, u32::MAX]);
    let Some(stream) = lower_of_two(random, bus) else {
        let node = random.between(1, nodes.into()) as u32;
        return random.pick(&[(node, 1), (node, 0), (no_node, 1)]);
    };
    let ends = [0, bus.streams().len() - 1];
    let (node, number) = bus.place(stream);
    let any = random.below(nodes.into()) as usize;
    let past = |node: usize| bus.nodes()[node].count as u32 + 1;
    match random.weighted(&[66, 16, 5, 4, 4, 3, 2]) {
        0 => (node, number),
        1 => bus.place(random.pick(&ends)),
        2 => (no_node, number),
        3 => (node, past(node as usize - 1)),
        4 => (any as u32 + 1, past(any)),
        5 => (node, random.pick(&[0, 17, u32::MAX])),
        _ => (no_node, random.pick(&[0, u32::MAX])),
    }
}

/// Mostly the node that is named; else another of so many nodes, if there is
/// one, or none of them.
fn own_node(random: &mut Random, nodes: u32, node: u32) -> u32 {
    let other = random.between(1, nodes.into()) as u32;
    match random.weighted(&[78, 12, 10]) {
        0 => node,
        1 if other == node => node % nodes + 1,
        1 => other,
        _ => random.pick(&[0, nodes + 1, 17, u32::MAX]),
    }
}

fn words_of(sheet: &[u32], bus: &Bus, stream: usize) -> Words {
    let first = place(sheet, bus, stream);
    [0, 1, 2].map(|word| sheet[first + word])
}

/// In range. Most make the stream late or not by little, or move it in the rank.
fn new_words(random: &mut Random, sheet: &[u32], bus: &Bus, stream: usize) -> Words {
    let old = words_of(sheet, bus, stream);
    match random.weighted(&[22, 24, 20, 5, 9, 14, 6]) {
        0 => any_stream(random),
        1 => one_word(random, old),
        2 => sharp(random, sheet, bus, stream).unwrap_or(old),
        3 => old,
        4 => {
            let other = random.below(bus.streams().len() as u64) as usize;
            words_of(sheet, bus, other)
        }
        5 => roomy(random, bus),
        // Over before the first cycle is.
        _ => {
            let soon = random.between(1, bus.cycle()) as u32;
            [old[0], soon.min(old[0]), old[2]]
        }
    }
}

/// One of the three words anew, the others as they are.
fn one_word(random: &mut Random, [period, deadline, jitter]: Words) -> Words {
    let least = u64::from(deadline.max(jitter + 1));
    let longer = random.between(least, u64::from(LAST_TICK)) as u32;
    let near = bounded(least + random.below(2 * least));
    match random.below(3) {
        0 => [random.pick(&[least as u32, near, longer]), deadline, jitter],
        1 => [period, random.between(1, period.into()) as u32, jitter],
        _ => [period, deadline, random.below(period.into()) as u32],
    }
}

/// With the deadline or the jitter at the edge of the late test, just in time or
/// one tick late; none where that is too far off.
fn sharp(random: &mut Random, sheet: &[u32], bus: &Bus, stream: usize) -> Option<Words> {
    let past = random.between(1, 2);
    if random.percent(60) {
        let mut sheet = sheet.to_vec();
        settle_deadline(&mut sheet, stream, past)?;
        return Some(words_of(&sheet, bus, stream));
    }
    let [period, deadline, _] = words_of(sheet, bus, stream);
    Some([period, deadline, edge_jitter(bus, stream, past)?])
}

/// A deadline of many cycles, with little jitter.
fn roomy(random: &mut Random, bus: &Bus) -> Words {
    let deadline = bounded(random.between(2, 60) * bus.cycle());
    let period = bounded(u64::from(deadline) * random.between(1, 4));
    let jitter = random.below(bus.cycle()).min(u64::from(deadline) - 1) as u32;
    [period, deadline, random.pick(&[0, 0, jitter])]
}

/// Out of range on either side of the bounds, or by the new period and not by the
/// old one.
fn spoiled(random: &mut Random, words: Words, old: Words) -> Words {
    let [period, deadline, jitter] = words;
    let past = LAST_TICK + 1;
    match random.weighted(&[28, 28, 28, 10, 6]) {
        0 => {
            let period = random.pick(&[0, 0, deadline - 1, past, past, u32::MAX]);
            [period, deadline, jitter]
        }
        1 => {
            let deadline = random.pick(&[0, 0, period + 1, period + 1, past, u32::MAX]);
            [period, deadline, jitter]
        }
        2 => {
            let jitter = random.pick(&[period, period, period + 1, u32::MAX]);
            [period, deadline, jitter]
        }
        3 => {
            let period = random.between(1, old[0].into()) as u32 - 1;
            let deadline = random.between(u64::from(period) + 1, old[0].into()) as u32;
            [period, deadline, period.saturating_sub(1)]
        }
        _ => [random.word(), random.word(), random.word()],
    }
}

/// A pair of sheets, the same for the same seed and index.
pub fn alike_case(seed: u64, index: u64) -> AlikeCase {
    let random = &mut Random::new(seed ^ 0x5eed_0a09, index);
    let valid = valid_sheet(random);
    let mut sheet = valid.sheet;
    limit_tries(&mut sheet, valid.tries);
    let asked = Bus::read(&sheet).ok().and_then(|bus| {
        let stream = lower_of_two(random, &bus)?;
        let asked = valid.asked.filter(|_| random.percent(50));
        Some(bus.node_of(asked.unwrap_or(stream)))
    });
    let own = asked.unwrap_or(0);
    let other = read_tables(&sheet).map(|tables| written(&with_other_nodes(random, &tables, own)));
    AlikeCase {
        own_node: own as u32 + 1,
        // The sheet is valid, and the other made from it.
        sheets: [sheet, other.unwrap_or_default()],
    }
}

/// The sheet of tables that are right.
fn written(tables: &Tables) -> Vec<u32> {
    let mut sheet = vec![0; 1_000];
    let answer = write_sheet(tables, &mut sheet);
    sheet.truncate(answer.second as usize);
    sheet
}

/// The same nodes, with all streams anew but those of one of them.
fn with_other_nodes(random: &mut Random, tables: &Tables, own: usize) -> Tables {
    let nodes = tables.nodes().unwrap_or_default();
    let habit = random.weighted(&[50, 15, 15, 10, 10]);
    let streams = nodes.iter().enumerate().map(|(number, node)| {
        let old: Vec<Words> = node.streams().collect();
        match number == own {
            true => old,
            false => other_streams(random, habit, old),
        }
    });
    let streams: Vec<Vec<Words>> = streams.collect();
    let column = |word: usize| -> Vec<u32> {
        let all = streams.iter().flatten();
        all.map(|words| words[word]).collect()
    };
    Tables {
        message_ticks: tables.message_ticks,
        slot_ticks: tables.slot_ticks,
        counts: streams.iter().map(|node| node.len() as u32).collect(),
        budgets: tables.budgets.clone(),
        periods: column(0),
        deadlines: column(1),
        jitters: column(2),
    }
}

/// The streams of a node in place of its old ones.
fn other_streams(random: &mut Random, habit: usize, old: Vec<Words>) -> Vec<Words> {
    let count = match habit {
        0 => random.between(0, 16),
        1 => (old.len() as u64 + random.between(1, 16)) % 17,
        // The same number.
        2 => old.len() as u64,
        3 => 0,
        _ => 16,
    };
    (0..count).map(|_| any_stream(random)).collect()
}
