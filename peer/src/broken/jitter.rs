//! The wrong uses of the jitter. Request Six of document 02 says where the third
//! word of a stream plays a part: in the sum H of the streams below it, and in
//! its own late test.

use super::budgets::find_with;
use super::writer::{streams, write_edited, write_with};
use super::{admit_ranked, admit_with, replay_ranked};
use crate::admission::{self, listed, write_waits};
use crate::budgets::round;
use crate::sheet::{below_the_period, levels, Bus, JitterRule, Stream};
use crate::writer::{check_streams, put, stream_right};
use crate::{write_sheet, Answer, Tables};

/// Error 40: a jitter may be as long as the period.
pub fn admit_with_jitter_to_the_period(sheet: &[u32], room: &mut [u32]) -> Answer {
    admit_allowing(sheet, room, |stream| stream.jitter <= stream.period)
}

/// Error 41: a jitter must be below the deadline too.
pub fn admit_with_jitter_below_the_deadline(sheet: &[u32], room: &mut [u32]) -> Answer {
    admit_allowing(sheet, room, |stream| {
        below_the_period(stream) && stream.jitter < stream.deadline
    })
}

/// Error 42: the sum H takes the jitter of the stream that waits for that of
/// each stream above it.
pub fn admit_with_own_jitter_above(sheet: &[u32], room: &mut [u32]) -> Answer {
    admit_changing(sheet, room, |bus, stream| {
        let own = bus.streams()[stream].jitter;
        set_others(bus, stream, own);
    })
}

/// Error 43: the sum H leaves the jitters of the streams above out.
pub fn admit_without_jitter_above(sheet: &[u32], room: &mut [u32]) -> Answer {
    admit_changing(sheet, room, |bus, stream| set_others(bus, stream, 0))
}

/// Error 44: the late test leaves the stream's own jitter out.
pub fn admit_late_without_jitter(sheet: &[u32], room: &mut [u32]) -> Answer {
    admit_changing(sheet, room, |bus, stream| bus.set_jitter(stream, 0))
}

/// Error 45: the late test adds the stream's own jitter twice.
pub fn admit_with_jitter_twice_late(sheet: &[u32], room: &mut [u32]) -> Answer {
    admit_changing(sheet, room, |bus, stream| {
        bus.set_jitter(stream, 2 * bus.streams()[stream].jitter);
    })
}

/// Error 46: the listed wait starts at the event.
pub fn admit_waiting_from_the_event(sheet: &[u32], room: &mut [u32]) -> Answer {
    admit_with(sheet, room, |bus, stream| {
        let jitter = u64::from(bus.streams()[stream].jitter);
        Some(listed(bus, stream)?.wait + jitter)
    })
}

/// Error 47: ranks by what the jitter leaves of the deadline.
pub fn admit_ranked_by_slack(sheet: &[u32], room: &mut [u32]) -> Answer {
    admit_ranked(sheet, room, by_slack)
}

/// Error 48: the same in the replay.
pub fn replay_ranked_by_slack(
    sheet: &[u32],
    log: &[u32],
    horizon: u32,
    room: &mut [u32],
) -> Answer {
    replay_ranked(sheet, log, horizon, room, by_slack)
}

/// Error 49: writes 0 for every jitter.
pub fn write_no_jitters(tables: &Tables, room: &mut [u32]) -> Answer {
    write_edited(tables, room, |words| {
        streams(words).for_each(|stream| stream[2] = 0);
    })
}

/// Error 50: the number of jitters is not checked. Those that are missing are
/// 0, those too many are not used.
pub fn write_any_jitters(tables: &Tables, room: &mut [u32]) -> Answer {
    let mut tables = tables.clone();
    tables.jitters.resize(tables.periods.len(), 0);
    write_sheet(&tables, room)
}

/// Error 51: a jitter as long as the period is written.
pub fn write_jitter_to_the_period(tables: &Tables, room: &mut [u32]) -> Answer {
    write_with(tables, |nodes, words| {
        check_streams(nodes, |[period, deadline, jitter]| {
            let below = jitter.saturating_sub(u32::from(jitter == period));
            stream_right([period, deadline, below])
        })?;
        put(&words, room)
    })
}

/// Error 52: budgets are judged as if there were no jitter.
pub fn find_without_jitter(sheet: &[u32], room: &mut [u32]) -> Answer {
    find_with(sheet, room, |bus| {
        (0..bus.streams().len()).for_each(|stream| bus.set_jitter(stream, 0));
        round(bus)
    })
}

fn by_slack(stream: &Stream, number: u64) -> u64 {
    let slack = stream.deadline.saturating_sub(stream.jitter);
    levels(slack, stream.period, number)
}

fn set_others(bus: &mut Bus, stream: usize, jitter: u32) {
    let others = (0..bus.streams().len()).filter(|&other| other != stream);
    others.for_each(|other| bus.set_jitter(other, jitter));
}

/// Admits with another rule for the jitters of a valid sheet.
fn admit_allowing(sheet: &[u32], room: &mut [u32], rule: JitterRule) -> Answer {
    match Bus::read_with(sheet, rule).and_then(|bus| admission::check_room(bus, room)) {
        Ok(bus) => write_waits(&bus, room),
        Err(answer) => answer,
    }
}

/// Admits with jitters that are changed for each stream that is judged.
fn admit_changing(sheet: &[u32], room: &mut [u32], change: fn(&mut Bus, usize)) -> Answer {
    admit_with(sheet, room, |bus, stream| {
        let mut changed = bus.clone();
        change(&mut changed, stream);
        Some(listed(&changed, stream)?.wait)
    })
}
