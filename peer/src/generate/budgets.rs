//! Cases for the search for budgets.

use super::any_word;
use super::deadlines::{sharpen_deadline, shorten_deadlines};
use super::faults::damage_sheet;
use super::jitters::sharpen_jitter;
use super::random::Random;
use super::rounds::{chained_sheet, hopeless_sheet, needy_sheet};
use super::sheets::{bounded, valid_sheet};
use crate::find_budgets;
use crate::sheet::{Bus, HEADER_WORDS, MOST_NODES, ROW_WORDS};

/// By any row, all streams of a sheet together try no more J, and those of most
/// sheets far fewer.
pub const MOST_TRIES_A_ROW: u64 = 100_000;
const USUAL_TRIES: u64 = 10_000;

/// Everything that the search for budgets takes.
#[derive(Clone, PartialEq, Eq, Debug)]
pub struct BudgetsCase {
    pub sheet: Vec<u32>,
    pub room: Vec<u32>,
}

/// The same for the same seed and index, whatever other cases are made.
pub fn budgets_case(seed: u64, index: u64) -> BudgetsCase {
    let random = &mut Random::new(seed, index);
    let tries = [USUAL_TRIES, MOST_TRIES_A_ROW][random.weighted(&[85, 15])];
    let mut sheet = valid(random);
    limit_tries(&mut sheet, tries);
    if random.percent(35) {
        sharpen(random, &mut sheet);
    }
    if random.percent(85) {
        scramble(random, &mut sheet);
    }
    damage_sheet(random, &mut sheet);
    limit_tries(&mut sheet, tries);
    let room = room(random);
    BudgetsCase { sheet, room }
}

/// A sheet of many nodes with mostly a hundred rounds or more; the same for the
/// same seed and index.
pub fn many_rounds(seed: u64, index: u64) -> Vec<u32> {
    chained_sheet(&mut Random::new(seed, index), MOST_NODES as u64)
}

fn valid(random: &mut Random) -> Vec<u32> {
    match random.weighted(&[200, 440, 330, 20, 10]) {
        0 => valid_sheet(random).sheet,
        1 => needy_sheet(random),
        2 => hopeless_sheet(random),
        3 => {
            let nodes = random.between(2, 15);
            chained_sheet(random, nodes)
        }
        _ => chained_sheet(random, MOST_NODES as u64),
    }
}

/// Shortens deadlines. No cycle is shorter than that of all ones, so a deadline
/// of so many of those bounds the tries of its stream, whatever the row.
fn limit_tries(sheet: &mut [u32], most: u64) {
    let Ok(bus) = Bus::read(sheet) else { return };
    let streams = bus.streams().len();
    if streams == 0 {
        return;
    }
    let shortest = bus.nodes().len() as u64 * (bus.message_ticks + bus.slot_ticks);
    let latest = bounded(most / streams as u64 * shortest);
    shorten_deadlines(sheet, streams, latest);
}

/// The budgets of a valid sheet.
fn budgets(sheet: &mut [u32]) -> impl Iterator<Item = &mut u32> {
    let nodes = sheet[0] as usize;
    let rows = sheet[HEADER_WORDS..].chunks_exact_mut(ROW_WORDS);
    rows.take(nodes).map(|row| &mut row[2])
}

/// Brings a stream to the edge of the late test by the row that is found, if
/// one is. That row is then in the sheet.
fn sharpen(random: &mut Random, sheet: &mut [u32]) {
    let mut row = [0; MOST_NODES];
    if find_budgets(sheet, &mut row).number == 0 {
        budgets(sheet)
            .zip(row)
            .for_each(|(budget, word)| *budget = word);
        match random.percent(60) {
            true => sharpen_deadline(sheet, random),
            false => sharpen_jitter(sheet, random),
        };
    }
}

/// Other budgets in the sheet, which are of no use.
fn scramble(random: &mut Random, sheet: &mut [u32]) {
    let all = random.pick(&[None, None, None, Some(1), Some(16)]);
    for budget in budgets(sheet) {
        *budget = all.unwrap_or_else(|| random.between(1, 16) as u32);
    }
}

/// Mostly long enough for a row.
fn room(random: &mut Random) -> Vec<u32> {
    let length = match random.weighted(&[40, 17, 15, 8, 10, 6, 4]) {
        0 => 16,
        1 => 17,
        2 => random.between(18, 40),
        3 => random.between(41, 600),
        4 => 15,
        5 => random.between(1, 14),
        _ => 0,
    };
    (0..length).map(|_| any_word(random)).collect()
}
