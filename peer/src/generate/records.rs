//! Cases for the replay with stream records: a generated case with a room and a
//! made-up list of its own.

use super::random::Random;
use super::{any_word, case, Case};
use crate::sheet::{Bus, MOST_STREAMS};
use crate::StreamRecord;

/// What a replay with stream records takes.
#[derive(Clone, PartialEq, Eq, Debug)]
pub struct RecordsCase {
    pub sheet: Vec<u32>,
    pub log: Vec<u32>,
    pub horizon: u32,
    pub room: Vec<u32>,
    pub records: Vec<StreamRecord>,
}

/// Sheet, log and horizon of the case with this seed and index; the room and the
/// list by numbers of their own.
pub fn records_case(seed: u64, index: u64) -> RecordsCase {
    let Case {
        sheet,
        log,
        horizon,
        ..
    } = case(seed, index);
    let random = &mut Random::new(seed ^ 0x5eed_0008, index);
    let streams = match Bus::read(&sheet) {
        Ok(bus) => bus.streams().len(),
        Err(_) => random.below(12) as usize,
    };
    let releases = log.len().div_ceil(2);
    RecordsCase {
        room: room(random, releases),
        records: list(random, streams),
        sheet,
        log,
        horizon,
    }
}

/// Mostly long enough.
fn room(random: &mut Random, releases: usize) -> Vec<u32> {
    let length = match random.weighted(&[50, 42, 5, 3]) {
        0 => releases,
        1 => releases + random.between(1, 4) as usize,
        2 => releases.saturating_sub(1),
        _ => random.below(releases as u64 + 1) as usize,
    };
    (0..length).map(|_| any_word(random)).collect()
}

/// Mostly long enough, with records that no replay has left.
fn list(random: &mut Random, streams: usize) -> Vec<StreamRecord> {
    let length = match random.weighted(&[40, 35, 8, 9, 5, 3]) {
        0 => streams,
        1 => streams + random.between(1, 4) as usize,
        2 => MOST_STREAMS,
        3 => streams.saturating_sub(1),
        4 => random.below(streams as u64 + 1) as usize,
        _ => 0,
    };
    (0..length).map(|_| any_record(random)).collect()
}

fn any_record(random: &mut Random) -> StreamRecord {
    StreamRecord {
        begun: any_word(random),
        longest: any_word(random),
        over: any_word(random),
    }
}
