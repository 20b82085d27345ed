//! Faults in sheets and logs.

use super::random::Random;
use crate::sheet::{LAST_TICK, STREAM_WORDS};

/// Where the words of a sheet stand before anything is spoiled.
struct Layout {
    nodes: u64,
    streams: u64,
}

impl Layout {
    fn row(&self, random: &mut Random) -> usize {
        3 + 3 * random.below(self.nodes) as usize
    }

    /// Index of a period; None if the sheet has no stream.
    fn period(&self, random: &mut Random) -> Option<usize> {
        let body = (3 + 3 * self.nodes) as usize;
        (self.streams > 0).then(|| body + STREAM_WORDS * random.below(self.streams) as usize)
    }
}

/// Both sides of both bounds, and next to the right value.
fn spoil_row(random: &mut Random, sheet: &mut [u32], row: usize) {
    let field = random.below(3) as usize;
    let right = sheet[row + field];
    let near = [right.wrapping_sub(1), right + 1];
    sheet[row + field] = match field {
        0 => random.pick(&[0, near[0], near[1], right + 2, right | 1 << 31, u32::MAX]),
        1 => random.pick(&[0, 1, near[0], near[1], 16, 17, u32::MAX]),
        _ => random.pick(&[0, 0, 1, 16, 17, 17, u32::MAX]),
    };
}

fn spoil_stream(random: &mut Random, sheet: &mut [u32], place: usize) {
    let (period, deadline) = (sheet[place], sheet[place + 1]);
    let past = LAST_TICK + 1;
    let field = random.weighted(&[35, 35, 30]);
    sheet[place + field] = match field {
        0 => random.pick(&[0, 0, 1, deadline - 1, LAST_TICK, past, u32::MAX]),
        1 => random.pick(&[0, 0, 1, period, period + 1, past, u32::MAX]),
        _ => random.pick(&[0, period - 1, period, period, period, period + 1, u32::MAX]),
    };
}

fn spoil_word(random: &mut Random, sheet: &mut [u32], layout: &Layout) {
    match random.weighted(&[10, 10, 10, 35, 35]) {
        0 => sheet[0] = random.pick(&[0, 0, 1, 16, 17, 17, 18, u32::MAX]),
        1 => sheet[1] = random.pick(&[0, 0, 1, 10_000, 10_001, 10_001, u32::MAX]),
        2 => sheet[2] = random.pick(&[0, 0, 1, 10_000, 10_001, 10_001, u32::MAX]),
        3 => {
            let row = layout.row(random);
            spoil_row(random, sheet, row);
        }
        _ => {
            if let Some(period) = layout.period(random) {
                spoil_stream(random, sheet, period);
            }
        }
    }
}

/// Spoils words at different places, since the faults rely on right ones.
fn spoil_several(random: &mut Random, sheet: &mut [u32], layout: &Layout) {
    let right = sheet.to_vec();
    for _ in 0..random.between(2, 5) {
        let mut spoiled = right.clone();
        spoil_word(random, &mut spoiled, layout);
        for (word, (new, old)) in sheet.iter_mut().zip(spoiled.iter().zip(&right)) {
            if new != old {
                *word = *new;
            }
        }
    }
}

fn lengthen(random: &mut Random, sheet: &mut Vec<u32>) {
    let further = random.pick(&[1, 1, 2, 3, 600]);
    for _ in 0..further {
        let word = random.pick(&[0, 1, 50, u32::MAX]);
        sheet.push(word);
    }
}

fn junk(random: &mut Random) -> Vec<u32> {
    let length = random.below(8) as usize;
    let choices = [0, 1, 2, 3, 6, 16, 17, 10_000, 10_001, u32::MAX];
    (0..length).map(|_| random.pick(&choices)).collect()
}

/// Leaves most sheets as they are.
pub(super) fn damage_sheet(random: &mut Random, sheet: &mut Vec<u32>) {
    let nodes = u64::from(sheet[0]);
    let streams = (sheet.len() as u64 - 3 - 3 * nodes) / STREAM_WORDS as u64;
    let layout = Layout { nodes, streams };
    match random.weighted(&[78, 12, 3, 3, 2, 2]) {
        0 => {}
        1 => spoil_word(random, sheet, &layout),
        2 => spoil_several(random, sheet, &layout),
        3 => sheet.truncate(random.below(sheet.len() as u64) as usize),
        4 => lengthen(random, sheet),
        _ => *sheet = junk(random),
    }
}

fn spoil_release(random: &mut Random, log: &mut [u32], streams: u32) {
    if log.len() < 2 {
        return;
    }
    let releases = log.len() as u64 / 2;
    let release = random.below(releases) as usize;
    match random.weighted(&[25, 30, 45]) {
        0 => log[2 * release] = random.pick(&[LAST_TICK, LAST_TICK + 1, LAST_TICK + 1, u32::MAX]),
        1 if release > 0 => log[2 * release] = log[2 * release - 2].saturating_sub(1),
        _ => log[2 * release + 1] = random.pick(&[0, 0, streams, streams + 1, u32::MAX]),
    }
}

/// Leaves most logs as they are.
pub(super) fn damage_log(random: &mut Random, log: &mut Vec<u32>, streams: u32) {
    match random.weighted(&[84, 3, 3, 8, 2]) {
        0 => {}
        1 => log.push(random.pick(&[0, 1, u32::MAX])),
        2 => {
            log.pop();
        }
        3 => spoil_release(random, log, streams),
        _ => {
            spoil_release(random, log, streams);
            spoil_release(random, log, streams);
        }
    }
}
