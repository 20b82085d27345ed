//! The replay with stream records: by both on the case, and by the proved library
//! up to the end of every turn, against the list worked out afresh from the log
//! and the begins so far.

use peer::generate::RecordsCase;
use peer::stats::list_names;
use peer::{records_afresh, Record, StreamRecord, NOT_BEGUN};

use crate::tally::{Outcome, Tally};

/// A replay with stream records of the second program, good or broken.
pub type Records = fn(&[u32], &[u32], u32, &mut [u32], &mut [StreamRecord]) -> peer::Answer;

/// Longer replays are not run again up to each of their turns.
const TURNS_ONE_BY_ONE: u32 = 25;

/// What is left is the room, and the words of the list after it.
fn outcome(answer: (u32, u32, u32), mut room: Vec<u32>, list: &[StreamRecord]) -> Outcome {
    let words = list.iter().flat_map(|it| [it.begun, it.longest, it.over]);
    room.extend(words);
    Outcome { answer, left: room }
}

fn recorded_up_to(case: &RecordsCase, horizon: u32) -> Outcome {
    let lent = case.records.iter().map(|it| wistorvan::StreamRecord {
        begun: it.begun,
        longest: it.longest,
        over: it.over,
    });
    let (mut room, mut list) = (case.room.clone(), lent.collect::<Vec<_>>());
    let (sheet, log) = (&case.sheet, &case.log);
    let a = wistorvan::raw::replay_with_records(sheet, log, horizon, &mut room, &mut list);
    let left = list.iter().map(|it| StreamRecord {
        begun: it.begun,
        longest: it.longest,
        over: it.over,
    });
    let left: Vec<_> = left.collect();
    outcome((a.number, a.second, a.third), room, &left)
}

pub fn recorded_by_proved(case: &RecordsCase) -> Outcome {
    recorded_up_to(case, case.horizon)
}

pub fn recorded_by_second(entry: Records, case: &RecordsCase) -> Outcome {
    let (mut room, mut list) = (case.room.clone(), case.records.clone());
    let (sheet, log) = (&case.sheet, &case.log);
    let a = entry(sheet, log, case.horizon, &mut room, &mut list);
    outcome((a.number, a.second, a.third), room, &list)
}

/// Both on the case, and the turns one by one.
pub fn compare_records(tally: &mut Tally, name: &str, case: &RecordsCase) {
    tally.new_records();
    let mine = recorded_by_proved(case);
    let other = recorded_by_second(peer::replay_with_records, case);
    tally.compare("records", name, case, &mine, &other);
    if other.answer.0 == 0 {
        tally.named("records", 0, list_names(case));
        if other.answer.1 <= TURNS_ONE_BY_ONE {
            compare_turns(tally, name, case);
        }
    }
}

/// A replay up to where the next turn would start ends with this one: after every
/// turn the list is right. The turns are the second program's single steps.
fn compare_turns(tally: &mut Tally, name: &str, case: &RecordsCase) {
    let mut bus = Record {
        tick: 0,
        node: 1,
        turns: 0,
    };
    let mut begins = case.room.clone();
    begins[..case.log.len() / 2].fill(NOT_BEGUN);
    while bus.tick < case.horizon {
        let a = peer::step(&case.sheet, &case.log, &mut bus, &mut begins);
        // A horizon is at most 10^9.
        if bus.tick > 1_000_000_000 {
            return;
        }
        let mine = recorded_up_to(case, bus.tick);
        let mut list = case.records.clone();
        let afresh = records_afresh(&case.sheet, &case.log, &begins).unwrap_or_default();
        list[..afresh.len()].copy_from_slice(&afresh);
        let answer = (a.number, bus.turns, bus.tick);
        let other = outcome(answer, begins.clone(), &list);
        if !tally.compare("records after a turn", name, case, &mine, &other) {
            return;
        }
    }
}
