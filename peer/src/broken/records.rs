//! Wrong replays with stream records.

use crate::admission::listed;
use crate::log::check_log;
use crate::records::{check_with_list, waits, work_out, StreamRecord};
use crate::replay::{check, write_begins};
use crate::sheet::{Bus, LAST_TICK};
use crate::{refusal, Answer, NOT_BEGUN};

/// A longer replay is not run turn by turn here.
const MOST_TURNS: u32 = 200;

/// A record from its stream's waits, in log order, and its listed wait.
type Make = fn(&Bus, &[u32], Option<u64>) -> StreamRecord;

/// The replay, with each record made in another way.
fn recorded(
    sheet: &[u32],
    log: &[u32],
    horizon: u32,
    room: &mut [u32],
    records: &mut [StreamRecord],
    make: Make,
) -> Answer {
    let bus = match check_with_list(sheet, log, horizon, room, records) {
        Ok(bus) => bus,
        Err(answer) => return answer,
    };
    let answer = write_begins(&bus, log, horizon, room);
    for stream in 0..bus.streams().len() {
        let all = waits(log, &room[..log.len() / 2]);
        let own: Vec<u32> = all.filter(|it| it.0 == stream).map(|it| it.1).collect();
        let limit = listed(&bus, stream).map(|found| found.wait);
        records[stream] = make(&bus, &own, limit);
    }
    answer
}

fn longer(waits: &[u32], limit: u64) -> u32 {
    let over = waits.iter().filter(|&&wait| u64::from(wait) > limit);
    over.count() as u32
}

fn record(waits: &[u32], over: u32) -> StreamRecord {
    StreamRecord {
        begun: waits.len() as u32,
        longest: waits.iter().copied().max().unwrap_or(0),
        over,
    }
}

/// A wait as long as the listed wait counts as longer.
pub fn records_counting_equal(
    sheet: &[u32],
    log: &[u32],
    horizon: u32,
    room: &mut [u32],
    records: &mut [StreamRecord],
) -> Answer {
    recorded(sheet, log, horizon, room, records, |_, waits, limit| {
        let over = limit.map_or(0, |limit| {
            waits
                .iter()
                .filter(|&&wait| u64::from(wait) >= limit)
                .count() as u32
        });
        record(waits, over)
    })
}

/// A late stream's waits are counted, as if its listed wait were 0.
pub fn records_counting_late(
    sheet: &[u32],
    log: &[u32],
    horizon: u32,
    room: &mut [u32],
    records: &mut [StreamRecord],
) -> Answer {
    recorded(sheet, log, horizon, room, records, |_, waits, limit| {
        record(waits, longer(waits, limit.unwrap_or(0)))
    })
}

/// The longest wait is that of the last message begun.
pub fn records_of_last_wait(
    sheet: &[u32],
    log: &[u32],
    horizon: u32,
    room: &mut [u32],
    records: &mut [StreamRecord],
) -> Answer {
    recorded(sheet, log, horizon, room, records, |_, waits, limit| {
        StreamRecord {
            longest: waits.last().copied().unwrap_or(0),
            ..record(waits, limit.map_or(0, |limit| longer(waits, limit)))
        }
    })
}

/// A wait lasts until the message has been sent.
pub fn records_to_the_end(
    sheet: &[u32],
    log: &[u32],
    horizon: u32,
    room: &mut [u32],
    records: &mut [StreamRecord],
) -> Answer {
    recorded(sheet, log, horizon, room, records, |bus, waits, limit| {
        let sent: Vec<u32> = waits
            .iter()
            .map(|wait| wait + bus.message_ticks as u32)
            .collect();
        record(&sent, limit.map_or(0, |limit| longer(&sent, limit)))
    })
}

/// The third number says only whether one was longer.
pub fn records_marking_only(
    sheet: &[u32],
    log: &[u32],
    horizon: u32,
    room: &mut [u32],
    records: &mut [StreamRecord],
) -> Answer {
    recorded(sheet, log, horizon, room, records, |_, waits, limit| {
        record(waits, limit.map_or(0, |limit| longer(waits, limit)).min(1))
    })
}

/// With one late stream no stream is judged.
pub fn records_if_admitted(
    sheet: &[u32],
    log: &[u32],
    horizon: u32,
    room: &mut [u32],
    records: &mut [StreamRecord],
) -> Answer {
    after(sheet, log, horizon, room, records, |bus, own, _| {
        let late = (0..bus.streams().len()).any(|stream| listed(bus, stream).is_none());
        own.iter_mut().filter(|_| late).for_each(|it| it.over = 0);
    })
}

/// Every message counts for the stream before its own.
pub fn records_of_the_next(
    sheet: &[u32],
    log: &[u32],
    horizon: u32,
    room: &mut [u32],
    records: &mut [StreamRecord],
) -> Answer {
    after(sheet, log, horizon, room, records, |_, own, _| {
        if !own.is_empty() {
            own.rotate_left(1);
        }
    })
}

/// The good list, changed afterwards: the sheet's records and those past them.
fn after(
    sheet: &[u32],
    log: &[u32],
    horizon: u32,
    room: &mut [u32],
    records: &mut [StreamRecord],
    change: fn(&Bus, &mut [StreamRecord], &mut [StreamRecord]),
) -> Answer {
    let bus = match check_with_list(sheet, log, horizon, room, records) {
        Ok(bus) => bus,
        Err(answer) => return answer,
    };
    let answer = write_begins(&bus, log, horizon, room);
    let worked_out = work_out(&bus, log, &room[..log.len() / 2]);
    let (own, past) = records.split_at_mut(worked_out.len());
    own.copy_from_slice(&worked_out);
    change(&bus, own, past);
    answer
}

/// The whole list is zeroed, and not only the sheet's streams.
pub fn records_zeroing_all(
    sheet: &[u32],
    log: &[u32],
    horizon: u32,
    room: &mut [u32],
    records: &mut [StreamRecord],
) -> Answer {
    after(sheet, log, horizon, room, records, |_, _, past| {
        past.fill(StreamRecord::default())
    })
}

/// Records of streams without a begun message stay as they were.
pub fn records_kept_if_none(
    sheet: &[u32],
    log: &[u32],
    horizon: u32,
    room: &mut [u32],
    records: &mut [StreamRecord],
) -> Answer {
    let old = records.to_vec();
    let answer = after(sheet, log, horizon, room, records, |_, _, _| {});
    if answer.number == 0 {
        let kept = records.iter_mut().zip(old);
        kept.filter(|(new, _)| new.begun == 0)
            .for_each(|(new, old)| *new = old);
    }
    answer
}

/// The list is zeroed before the last refusal is found.
pub fn records_zeroed_early(
    sheet: &[u32],
    log: &[u32],
    horizon: u32,
    room: &mut [u32],
    records: &mut [StreamRecord],
) -> Answer {
    if let Ok(bus) = Bus::read(sheet) {
        let streams = bus.streams().len().min(records.len());
        records[..streams].fill(StreamRecord::default());
    }
    crate::replay_with_records(sheet, log, horizon, room, records)
}

/// The begin ticks are written before the list is found too short.
pub fn records_after_begins(
    sheet: &[u32],
    log: &[u32],
    horizon: u32,
    room: &mut [u32],
    records: &mut [StreamRecord],
) -> Answer {
    if let Ok(bus) = check(sheet, log, horizon, room) {
        write_begins(&bus, log, horizon, room);
    }
    crate::replay_with_records(sheet, log, horizon, room, records)
}

/// A list that is too short is refused before the horizon is looked at.
pub fn records_list_before_horizon(
    sheet: &[u32],
    log: &[u32],
    horizon: u32,
    room: &mut [u32],
    records: &mut [StreamRecord],
) -> Answer {
    if let Ok(bus) = Bus::read(sheet) {
        let streams = bus.streams().len();
        if check_log(log, streams).is_ok() && horizon > LAST_TICK && records.len() < streams {
            return refusal(6, 0, 0);
        }
    }
    crate::replay_with_records(sheet, log, horizon, room, records)
}

/// A list that is too short is refused before the log is looked at.
pub fn records_list_before_log(
    sheet: &[u32],
    log: &[u32],
    horizon: u32,
    room: &mut [u32],
    records: &mut [StreamRecord],
) -> Answer {
    match Bus::read(sheet) {
        Ok(bus) if records.len() < bus.streams().len() => refusal(6, 0, 0),
        _ => crate::replay_with_records(sheet, log, horizon, room, records),
    }
}

/// Waits are held to the deadline, and not to the listed wait.
pub fn records_over_deadline(
    sheet: &[u32],
    log: &[u32],
    horizon: u32,
    room: &mut [u32],
    records: &mut [StreamRecord],
) -> Answer {
    let bus = match check_with_list(sheet, log, horizon, room, records) {
        Ok(bus) => bus,
        Err(answer) => return answer,
    };
    let answer = write_begins(&bus, log, horizon, room);
    for (stream, words) in bus.streams().iter().enumerate() {
        let all = waits(log, &room[..log.len() / 2]);
        let own: Vec<u32> = all.filter(|it| it.0 == stream).map(|it| it.1).collect();
        let limit = listed(&bus, stream).map(|_| u64::from(words.deadline));
        records[stream] = record(&own, limit.map_or(0, |limit| longer(&own, limit)));
    }
    answer
}

/// Only the messages of the last turn that took any are in the list.
pub fn records_of_last_turn(
    sheet: &[u32],
    log: &[u32],
    horizon: u32,
    room: &mut [u32],
    records: &mut [StreamRecord],
) -> Answer {
    let answer = crate::replay_with_records(sheet, log, horizon, room, records);
    if answer.number != 0 {
        return answer;
    }
    let mut bus = crate::Record {
        tick: 0,
        node: 1,
        turns: 0,
    };
    let releases = log.len() / 2;
    let (mut begins, mut last) = (vec![NOT_BEGUN; releases], vec![NOT_BEGUN; releases]);
    while bus.tick < horizon && bus.turns < MOST_TURNS {
        let before = begins.clone();
        if crate::step(sheet, log, &mut bus, &mut begins).second > 0 {
            let pairs = before.iter().zip(&begins);
            let own = pairs.map(|(old, new)| if old == new { NOT_BEGUN } else { *new });
            last = own.collect();
        }
    }
    if let Some(list) = crate::records_afresh(sheet, log, &last) {
        records[..list.len()].copy_from_slice(&list);
    }
    answer
}
