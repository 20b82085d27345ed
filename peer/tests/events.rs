//! The events behind the releases of a stream, against a search through all of
//! them.

use peer::events::{earliest, latest, queued};
use peer::generate::case;
use peer::{read_tables, replay};

/// Every choice of events for some queuing ticks, by the words of request Six:
/// each message is queued 0 to jitter ticks after its event, and the events are
/// a period or more apart, in the order of the messages.
fn all_events(ticks: &[u32], period: u32, jitter: u32) -> Vec<Vec<i64>> {
    let mut all: Vec<Vec<i64>> = vec![vec![]];
    for &tick in ticks {
        let choices = (0..=i64::from(jitter)).map(|delay| i64::from(tick) - delay);
        let choices: Vec<i64> = choices.collect();
        let longer = |events: Vec<i64>| {
            let fits = |event: &i64| match events.last() {
                Some(before) => event - before >= i64::from(period),
                None => true,
            };
            let next: Vec<i64> = choices.iter().copied().filter(fits).collect();
            next.into_iter()
                .map(move |event| [&events[..], &[event]].concat())
        };
        all = all.into_iter().flat_map(longer).collect();
    }
    all
}

/// The earliest events of all are a choice themselves, and so are the latest.
fn check(ticks: &[u32], period: u32, jitter: u32) -> bool {
    let all = all_events(ticks, period, jitter);
    let of_place = |place: usize| all.iter().map(move |events| events[place]);
    let places = || 0..ticks.len();
    let least: Vec<i64> = places().filter_map(|it| of_place(it).min()).collect();
    let most: Vec<i64> = places().filter_map(|it| of_place(it).max()).collect();
    let exist = !all.is_empty();
    let name = format!("{ticks:?} {period} {jitter}");
    assert_eq!(
        earliest(ticks, period, jitter),
        exist.then_some(least),
        "{name}"
    );
    assert_eq!(
        latest(ticks, period, jitter),
        exist.then_some(most),
        "{name}"
    );
    exist
}

/// All rising ticks up to 9, for up to four messages.
fn small_ticks() -> Vec<Vec<u32>> {
    let mut all: Vec<Vec<u32>> = vec![vec![]];
    let mut last = all.clone();
    for _ in 0..4 {
        let longer = |ticks: Vec<u32>| {
            let first = ticks.last().copied().unwrap_or(0);
            (first..=9).map(move |tick| [&ticks[..], &[tick]].concat())
        };
        last = last.into_iter().flat_map(longer).collect();
        all.extend(last.iter().cloned());
    }
    all
}

#[test]
fn every_choice_of_small_ticks() {
    let (mut exist, mut missing) = (0, 0);
    for ticks in small_ticks() {
        for period in 1..=5 {
            for jitter in 0..period {
                match check(&ticks, period, jitter) {
                    true => exist += 1,
                    false => missing += 1,
                }
            }
        }
    }
    assert!(exist > 1_000 && missing > 1_000, "{exist} {missing}");
}

#[test]
fn none_for_no_messages_and_all_for_one() {
    assert_eq!(earliest(&[], 5, 3), Some(vec![]));
    assert_eq!(latest(&[], 5, 3), Some(vec![]));
    assert_eq!(earliest(&[0], 5, 3), Some(vec![-3]));
    assert_eq!(latest(&[0], 5, 3), Some(vec![0]));
}

/// Without jitter the ticks themselves have to be a period apart.
#[test]
fn no_jitter_leaves_the_ticks() {
    assert_eq!(earliest(&[3, 8, 20], 5, 0), Some(vec![3, 8, 20]));
    assert_eq!(latest(&[3, 8, 20], 5, 0), Some(vec![3, 8, 20]));
    assert_eq!(earliest(&[3, 7, 20], 5, 0), None);
    assert_eq!(latest(&[3, 7, 20], 5, 0), None);
}

/// Late and then early: as close as the period less the jitter, and no closer.
#[test]
fn two_close_together() {
    // The first was queued 7 ticks after an event before tick 0.
    assert_eq!(earliest(&[1, 34], 40, 7), Some(vec![-6, 34]));
    assert_eq!(latest(&[1, 34], 40, 7), Some(vec![-6, 34]));
    assert_eq!(earliest(&[1, 33], 40, 7), None);
    assert_eq!(latest(&[1, 33], 40, 7), None);
    assert_eq!(earliest(&[1, 36], 40, 7), Some(vec![-6, 34]));
    assert_eq!(latest(&[1, 36], 40, 7), Some(vec![-4, 36]));
    // One tick apart, with the longest jitter; two at one tick never.
    assert_eq!(earliest(&[9, 10], 40, 39), Some(vec![-30, 10]));
    assert_eq!(earliest(&[9, 9], 40, 39), None);
    // What one took from its jitter, the next has no more.
    assert_eq!(earliest(&[9, 10, 49], 40, 39), None);
    assert_eq!(latest(&[9, 10, 50], 40, 39), Some(vec![-30, 10, 50]));
}

/// That two neighbours fit is not enough: over five periods, one jitter.
#[test]
fn a_jitter_is_there_once() {
    let ticks = [100, 135, 170];
    assert!(earliest(&ticks[..2], 40, 7).is_some());
    assert!(earliest(&ticks[1..], 40, 7).is_some());
    assert_eq!(earliest(&ticks, 40, 7), None);
    assert_eq!(latest(&ticks, 40, 7), None);
    assert!(earliest(&[100, 135, 175, 215, 255, 293], 40, 7).is_some());
    assert!(earliest(&[100, 135, 175, 215, 255, 292], 40, 7).is_none());
}

#[test]
fn the_far_ends() {
    let last = 1_000_000_000;
    let events = Some(vec![1 - i64::from(last), 1]);
    assert_eq!(earliest(&[0, 1], last, last - 1), events);
    assert_eq!(latest(&[0, 1], last, last - 1), events);
    let events = Some(vec![i64::from(last)]);
    assert_eq!(latest(&[last], last, last - 1), events);
}

/// A stream in an accepted log: its queuing ticks, period and jitter.
struct Logged {
    ticks: Vec<u32>,
    period: u32,
    jitter: u32,
}

/// All streams of so many generated cases whose replay is accepted.
fn logged(seed: u64, count: u64) -> Vec<Logged> {
    let mut all = Vec::new();
    for index in 0..count {
        let case = case(seed, index);
        let mut room = vec![0; case.log.len().div_ceil(2)];
        let given = replay(&case.sheet, &case.log, 0, &mut room);
        let (0, Ok(tables)) = (given.number, read_tables(&case.sheet)) else {
            continue;
        };
        let queued = queued(&case.log, tables.periods.len()).into_iter();
        all.extend(queued.enumerate().map(|(stream, ticks)| Logged {
            ticks,
            period: tables.periods[stream],
            jitter: tables.jitters[stream],
        }));
    }
    all
}

/// Named by event plus jitter, no event lies before tick 0: each such name is
/// from the queuing tick to the jitter after it.
#[test]
fn names_of_events() {
    let mut named = 0;
    for logged in logged(17, 2_000) {
        let (period, jitter) = (i64::from(logged.period), i64::from(logged.jitter));
        for method in [earliest, latest] {
            let events = method(&logged.ticks, logged.period, logged.jitter);
            let events = events.unwrap_or_default();
            let names: Vec<i64> = events.iter().map(|event| event + jitter).collect();
            for (&name, &tick) in names.iter().zip(&logged.ticks) {
                let tick = i64::from(tick);
                assert!(name >= tick && name <= tick + jitter);
                named += 1;
            }
            assert!(names.windows(2).all(|two| two[1] - two[0] >= period));
        }
    }
    assert!(named > 10_000, "{named}");
}

/// Streams that release twice or three times, with jitters that are short
/// enough to try all.
#[test]
fn generated_logs() {
    let (mut exist, mut missing, mut close) = (0, 0, 0);
    for logged in logged(18, 6_000) {
        let Logged {
            ticks,
            period,
            jitter,
        } = logged;
        if !(1..=60).contains(&jitter) || !(2..=3).contains(&ticks.len()) {
            continue;
        }
        let fits = check(&ticks, period, jitter);
        let apart = ticks.windows(2).all(|two| two[1] - two[0] >= period);
        exist += u32::from(fits);
        missing += u32::from(!fits);
        close += u32::from(fits && !apart);
    }
    assert!(
        exist > 50 && missing > 50 && close > 10,
        "{exist} {missing} {close}"
    );
}

#[test]
fn ticks_of_each_stream() {
    let log = [5, 2, 6, 1, 9, 2];
    assert_eq!(queued(&log, 3), [vec![6], vec![5, 9], vec![]]);
    assert_eq!(queued(&[], 1), [vec![]]);
}
