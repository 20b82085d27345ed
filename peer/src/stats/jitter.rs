//! What jitters there are, what they do to the answers, and which logs keep
//! their periods by them.

use std::collections::BTreeSet;
use std::iter::once;

use super::edges::{edge, JUST_IN_TIME, LATE_BY_ONE};
use super::{fitting, Figures};
use crate::admission::{last_try, least_cycles, listed};
use crate::events::{earliest, latest, queued};
use crate::generate::{Case, MOST_TRIES};
use crate::sheet::Bus;
use crate::{read_tables, Tables};

/// What a jitter may be. One at the deadline or above it makes the stream late.
pub const JITTER_NAMES: [&str; 6] = [
    "jitter 0",
    "jitter 1",
    "jitter just below the period",
    "jitter just below the deadline",
    "jitter at the deadline",
    "jitter just above the deadline",
];

/// What jitters may do to a stream that is in time: leave no tick to spare,
/// or make it wait for more cycles than it would without those above.
pub const IN_TIME_NAMES: [&str; 2] = [
    "just in time with its jitter",
    "more cycles for the jitters above",
];

/// And to one that is late: one tick less of its own would be enough, or it
/// would be in time without some of them.
pub const TOO_LATE_NAMES: [&str; 4] = [
    "late by one tick with its jitter",
    "in time without its own jitter",
    "in time without the jitters above",
    "in time without both, and not without one of them",
];

/// How the releases of a stream may go with its period: the events exist though
/// some releases are closer, one of them must lie before tick 0, they only just
/// exist, or there are none.
pub const EVENT_NAMES: [&str; 4] = [
    "a stream that keeps its period by its jitter",
    "a stream with an event before tick 0",
    "a stream with one choice of events",
    "a stream without fitting events",
];

/// The kinds of jitters in valid tables.
pub fn kinds_of_jitters(tables: &Tables) -> BTreeSet<&'static str> {
    let streams = tables.periods.iter().zip(&tables.deadlines);
    let streams = streams.zip(&tables.jitters);
    let names = streams.flat_map(|((&period, &deadline), &jitter)| {
        let fits = [
            jitter == 0,
            jitter == 1,
            jitter > 0 && jitter == period - 1,
            jitter > 0 && jitter == deadline - 1,
            jitter == deadline,
            jitter == deadline + 1,
        ];
        fitting(JITTER_NAMES, fits)
    });
    names.collect()
}

pub(super) fn count_jitters(figures: &mut Figures, sheet: &[u32]) {
    let Ok(tables) = read_tables(sheet) else {
        return;
    };
    for name in kinds_of_jitters(&tables) {
        figures.add(format!("sheet with {name}"));
    }
}

/// The bus as it would be without some jitters.
pub(super) fn without(bus: &Bus, streams: impl Iterator<Item = usize>) -> Bus {
    let mut changed = bus.clone();
    streams.for_each(|stream| changed.set_jitter(stream, 0));
    changed
}

/// What the jitters do to the answer about a stream, if the sheet is valid and
/// has it.
pub fn jitter_names(sheet: &[u32], node: u32, stream: u32) -> Vec<&'static str> {
    let Ok(bus) = Bus::read(sheet) else {
        return vec![];
    };
    let Some(stream) = bus.find(node, stream) else {
        return vec![];
    };
    let has_jitter = |stream: usize| bus.streams()[stream].jitter > 0;
    let (own, above) = (has_jitter(stream), bus.above(stream).any(has_jitter));
    // Searches may be long, so that none is made that can tell nothing.
    let at_edge = |kind: &str| own && edge(&bus, stream).is_some_and(|edge| edge.0 == kind);
    if let Some(found) = listed(&bus, stream) {
        let sooner = || least_cycles(&without(&bus, bus.above(stream)), stream, found.cycles - 1);
        let more = above && sooner().is_some();
        return fitting(IN_TIME_NAMES, [at_edge(JUST_IN_TIME), more]);
    }
    // Without its jitter a stream may be searched for much longer.
    let in_time = |bus: Bus| {
        let last = last_try(&bus, stream).min(MOST_TRIES);
        least_cycles(&bus, stream, last).is_some()
    };
    let by_own = own && in_time(without(&bus, once(stream)));
    let by_above = above && in_time(without(&bus, bus.above(stream)));
    let all = bus.above(stream).chain(once(stream));
    let by_both = own && above && !by_own && !by_above && in_time(without(&bus, all));
    let by_one = by_own && at_edge(LATE_BY_ONE);
    fitting(TOO_LATE_NAMES, [by_one, by_own, by_above, by_both])
}

/// How the streams of an accepted log go with their periods.
pub fn event_names(case: &Case) -> BTreeSet<&'static str> {
    let mut names = BTreeSet::new();
    let Ok(tables) = read_tables(&case.sheet) else {
        return names;
    };
    let streams = tables.periods.len();
    for (stream, ticks) in queued(&case.log, streams).iter().enumerate() {
        let (period, jitter) = (tables.periods[stream], tables.jitters[stream]);
        let close = ticks.windows(2).any(|two| two[1] - two[0] < period);
        let fits = match (
            earliest(ticks, period, jitter),
            latest(ticks, period, jitter),
        ) {
            (Some(early), Some(late)) => [
                close,
                late.first().is_some_and(|&event| event < 0),
                jitter > 0 && close && early == late,
                false,
            ],
            _ => [false, false, false, true],
        };
        names.extend(fitting(EVENT_NAMES, fits));
    }
    names
}
