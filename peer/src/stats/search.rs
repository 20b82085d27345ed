//! Which searches for J are long, and why a stream is late. The reason is read
//! off the periods by exact sums, apart from any search.

use std::cmp::Ordering;

use super::Figures;
use crate::sheet::Bus;

/// Long searches, by name: the least J and the greatest.
const FOUND: [(&str, u64, u64); 4] = [
    ("J from 17 to 64", 17, 64),
    ("J over 64", 65, u64::MAX),
    ("J over 1,000", 1_001, u64::MAX),
    ("J over 10,000", 10_001, u64::MAX),
];
/// The names of long searches.
pub const FOUND_NAMES: [&str; 4] = [FOUND[0].0, FOUND[1].0, FOUND[2].0, FOUND[3].0];

/// Reasons why a stream is late. The streams above leave some of the budget,
/// so that there is a J, or they take just the whole of it, or more.
const PAST: &str = "late, J past the deadline";
const FILLED: &str = "late, no J, budget filled exactly";
const OVERFILLED: &str = "late, no J, budget overfilled";
pub const LATE_NAMES: [&str; 3] = [PAST, FILLED, OVERFILLED];

/// The names that fit a J.
pub fn found_names(cycles: u64) -> impl Iterator<Item = &'static str> {
    let fitting = FOUND
        .into_iter()
        .filter(move |&(_, least, most)| cycles >= least && cycles <= most);
    fitting.map(|(name, _, _)| name)
}

/// Why a stream is late, if the sheet is valid and has it. Whether it is late
/// is not asked here.
pub fn late_name(sheet: &[u32], node: u32, stream: u32) -> Option<&'static str> {
    let bus = Bus::read(sheet).ok()?;
    let stream = bus.find(node, stream)?;
    Some(match load(&bus, stream) {
        Ordering::Less => PAST,
        Ordering::Equal => FILLED,
        Ordering::Greater => OVERFILLED,
    })
}

/// The periods of the streams above.
fn periods_above(bus: &Bus, stream: usize) -> impl Iterator<Item = u32> + '_ {
    let above = bus.above(stream);
    above.map(|other| bus.streams()[other].period)
}

/// How the sum of C / period over the streams above compares with the budget.
/// H at J × C − 1 is the sum of (J × C + jitter) / period, each rounded up. Hence
/// no J serves if the sum is the budget or more, and a large one does if it is
/// less, whatever the jitters.
fn load(bus: &Bus, stream: usize) -> Ordering {
    let (mut over, mut under) = (Wide::from(0), Wide::from(1));
    for period in periods_above(bus, stream) {
        // over / under + C / period
        over = over.times(period).plus(under.times(bus.cycle() as u32));
        under = under.times(period);
    }
    let budget = bus.nodes()[bus.node_of(stream)].budget;
    over.compare(&under.times(budget as u32))
}

const WORDS: usize = 16;

/// A number of 512 bits, least significant word first. The product of fifteen
/// periods, each below 2^30, is below 2^450, and fifteen cycles, each below
/// 2^22, times that is below 2^476.
struct Wide([u32; WORDS]);

impl Wide {
    fn from(word: u32) -> Wide {
        let mut words = [0; WORDS];
        words[0] = word;
        Wide(words)
    }

    fn times(&self, factor: u32) -> Wide {
        let mut carry = 0;
        Wide(self.0.map(|word| {
            carry += u64::from(word) * u64::from(factor);
            let low = carry as u32;
            carry >>= 32;
            low
        }))
    }

    fn plus(mut self, other: Wide) -> Wide {
        let mut carry = 0;
        for (word, more) in self.0.iter_mut().zip(other.0) {
            carry += u64::from(*word) + u64::from(more);
            *word = carry as u32;
            carry >>= 32;
        }
        self
    }

    fn compare(&self, other: &Wide) -> Ordering {
        self.0.iter().rev().cmp(other.0.iter().rev())
    }
}

/// Whether every C / period of the streams above is a binary fraction that
/// ends after 34 places or before, so that none of such a sum is rounded.
fn is_binary(bus: &Bus, stream: usize) -> bool {
    periods_above(bus, stream).all(|period| (bus.cycle() << 34).is_multiple_of(u64::from(period)))
}

/// Counts the answer to a question: a J that was found, and in what sheets, or
/// the reason why the stream is late.
pub(super) fn count_found(figures: &mut Figures, sheet: &[u32], node: u32, cycles: u64) {
    for name in found_names(cycles) {
        figures.add(format!("one stream 0, {name}"));
    }
    if cycles > 64 {
        let budget = sheet[3 * node as usize + 2];
        figures.add(format!("one stream 0, J over 64, budget {budget:2}"));
        figures.add(format!("one stream 0, J over 64, {:2} nodes", sheet[0]));
    }
}

pub(super) fn count_late(figures: &mut Figures, sheet: &[u32], node: u32, stream: u32) {
    let Some(name) = late_name(sheet, node, stream) else {
        return;
    };
    figures.add(format!("one stream 7, {name}"));
    let Ok(bus) = Bus::read(sheet) else { return };
    if let (FILLED, Some(stream)) = (name, bus.find(node, stream)) {
        let kind = match is_binary(&bus, stream) {
            true => "by binary fractions",
            false => "by other fractions",
        };
        figures.add(format!("one stream 7, {name} {kind}"));
    }
}
