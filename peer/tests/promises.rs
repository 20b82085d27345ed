//! Demand 3's promise of the listed waits, and request Four's of the deadlines,
//! as request Six has them, on generated replays.

mod common;

use common::*;
use peer::events::{earliest, latest, queued};
use peer::generate::{case, named, Case};
use peer::{admit, broken, one_stream, replay};

/// A stream with a listed wait, where for it and for those ranked above it in
/// its node there are events that fit the log.
struct Promised {
    running: u32,
    wait: i64,
    deadline: i64,
    /// The earliest and the latest events that fit: all others lie between.
    events: [Vec<i64>; 2],
    /// Whether it or one above it has a jitter, and keeps its period only by it.
    jittery: bool,
    bunched: bool,
}

/// Events that fit the queuing ticks of a stream, the earliest and the latest,
/// if there are any.
fn fitting_events(ticks: &[u32], stream: Stream) -> Option<[Vec<i64>; 2]> {
    let (period, jitter) = (stream.period as u32, stream.jitter as u32);
    let events = [earliest, latest].map(|method| method(ticks, period, jitter));
    let [early, late] = events;
    assert_eq!(early.is_some(), late.is_some());
    Some([early?, late?])
}

/// Whether two releases of a stream come closer together than its period.
fn is_bunched(ticks: &[u32], stream: Stream) -> bool {
    let mut pairs = ticks.windows(2);
    pairs.any(|two| u64::from(two[1] - two[0]) < stream.period)
}

/// The streams with a promise, given what is listed for a node and a stream.
fn promised(case: &Case, listed: impl Fn(usize, usize) -> Option<u32>) -> Vec<Promised> {
    let mut all = Vec::new();
    let mut first = 0;
    let nodes = plain(&case.sheet).nodes;
    let queued = queued(&case.log, nodes.iter().map(|node| node.1.len()).sum());
    for (node, (_, streams)) in nodes.iter().enumerate() {
        let ticks = |place: usize| &queued[first + place];
        let events = |place: usize| fitting_events(ticks(place), streams[place]);
        for stream in 0..streams.len() {
            let Some(wait) = listed(node, stream) else {
                continue;
            };
            let higher = || {
                let others = 0..streams.len();
                others.filter(|&other| other == stream || ranks_above(streams, other, stream))
            };
            let kept = higher().all(|other| events(other).is_some());
            if let (true, Some(events)) = (kept, events(stream)) {
                all.push(Promised {
                    running: (first + stream) as u32 + 1,
                    wait: wait.into(),
                    deadline: streams[stream].deadline as i64,
                    events,
                    jittery: higher().any(|other| streams[other].jitter > 0),
                    bunched: higher().any(|other| is_bunched(ticks(other), streams[other])),
                });
            }
        }
        first += streams.len();
    }
    all
}

/// By the listed waits.
fn truly_promised(case: &Case) -> Vec<Promised> {
    promised(case, |node, stream| {
        let given = one_stream(&case.sheet, node as u32 + 1, stream as u32 + 1);
        (given.number == 0).then_some(given.second)
    })
}

/// By the waits of another admission, if it admits the sheet.
fn promised_by(entry: Admit, case: &Case) -> Vec<Promised> {
    let nodes = plain(&case.sheet).nodes;
    let (given, waits) = waits(entry, &case.sheet, 256);
    promised(case, |node, stream| {
        let before: usize = nodes[..node].iter().map(|node| node.1.len()).sum();
        (given.number == 0).then(|| waits[before + stream])
    })
}

/// A replay that was accepted.
struct Replayed {
    case: Case,
    begins: Vec<u32>,
    /// The start of each turn, and last the tick at which the next would start.
    starts: Vec<u64>,
}

impl Replayed {
    fn of(case: Case) -> Option<Replayed> {
        let mut begins = vec![OLD; case.log.len().div_ceil(2)];
        let given = replay(&case.sheet, &case.log, case.horizon, &mut begins);
        if given.number != 0 {
            return None;
        }
        let starts = turn_starts(&case, &begins);
        assert_eq!(starts.len() as u32 - 1, given.second);
        assert_eq!(starts.last(), Some(&u64::from(given.third)));
        Some(Replayed {
            case,
            begins,
            starts,
        })
    }

    /// The messages of a stream that are due before the horizon, given when each
    /// of all of them is.
    fn due(&self, running: u32, due: impl IntoIterator<Item = i64>) -> Vec<Due> {
        let messages = self.case.log.chunks_exact(2).zip(&self.begins);
        let own = messages.filter(|(release, _)| release[1] == running);
        let all = own.zip(due).map(|((release, &begin), due)| Due {
            queued: release[0],
            begin,
            due,
        });
        all.filter(|message| message.due < i64::from(self.case.horizon))
            .collect()
    }

    /// Those that must begin within the wait of their queuing.
    fn due_to_begin(&self, promised: &Promised) -> Vec<Due> {
        let own = |release: &&[u32]| release[1] == promised.running;
        let releases = self.case.log.chunks_exact(2).filter(own);
        let due = releases.map(|release| i64::from(release[0]) + promised.wait);
        self.due(promised.running, due)
    }

    /// Those that must be delivered by the deadline, for some events.
    fn due_for_delivery(&self, promised: &Promised, events: &[i64]) -> Vec<Due> {
        let due = events.iter().map(|event| event + promised.deadline);
        self.due(promised.running, due)
    }

    /// When the turn ends in which a message has begun: the next turn starts
    /// then.
    fn delivered(&self, message: &Due) -> i64 {
        let begin = u64::from(message.begin);
        let next = self.starts.partition_point(|&start| start <= begin);
        self.starts[next] as i64
    }
}

/// A message that is due before the horizon, to begin or to be delivered.
struct Due {
    queued: u32,
    begin: u32,
    due: i64,
}

impl Due {
    fn has_begun(&self) -> bool {
        self.begin != NOT_BEGUN && self.begin >= self.queued
    }
}

/// Read off the begins: a message begins where a turn starts or where the one
/// before it ends, and behind the last one comes the slot.
fn turn_starts(case: &Case, begins: &[u32]) -> Vec<u64> {
    let mut begun: Vec<u32> = begins.to_vec();
    begun.retain(|&begin| begin != NOT_BEGUN);
    begun.sort();
    let mut begun = begun.into_iter().map(u64::from).peekable();
    let (message, slot) = (u64::from(case.sheet[1]), u64::from(case.sheet[2]));
    let mut tick = 0;
    let mut starts = vec![tick];
    while tick < u64::from(case.horizon) {
        while begun.next_if_eq(&tick).is_some() {
            tick += message;
        }
        tick += slot;
        starts.push(tick);
    }
    assert_eq!(begun.next(), None, "a begin in no turn");
    starts
}

/// How many messages were checked, and how many came at the last tick.
#[derive(Default, Debug)]
struct Checked {
    all: u32,
    tight: u32,
    /// Of the tight ones, those that were not the last of their turn.
    early_in_turn: u32,
    /// Of all and of the tight ones, those with a jitter of their own or above.
    jittery: [u32; 2],
    /// The same for those with releases that come close together by it.
    bunched: [u32; 2],
    /// The same for those whose own event lies before tick 0.
    before_zero: [u32; 2],
}

impl Checked {
    fn add(&mut self, promised: &Promised, tight: bool) {
        self.all += 1;
        self.tight += u32::from(tight);
        add(&mut self.jittery, promised.jittery, tight);
        add(&mut self.bunched, promised.bunched, tight);
    }
}

fn add(counts: &mut [u32; 2], counted: bool, tight: bool) {
    counts[0] += u32::from(counted);
    counts[1] += u32::from(counted && tight);
}

fn replays(seed: u64, count: u64) -> impl Iterator<Item = Replayed> {
    (0..count).filter_map(move |index| Replayed::of(case(seed, index)))
}

#[test]
fn no_message_waits_longer_than_listed() {
    let mut checked = Checked::default();
    for replayed in replays(14, 6_000) {
        for promised in truly_promised(&replayed.case) {
            for message in replayed.due_to_begin(&promised) {
                let begin = i64::from(message.begin);
                assert!(message.has_begun() && begin <= message.due);
                checked.add(&promised, begin == message.due);
            }
        }
    }
    assert!(checked.all > 10_000 && checked.tight > 150, "{checked:?}");
    let Checked {
        jittery, bunched, ..
    } = checked;
    assert!(jittery[0] > 1_000 && jittery[1] > 50, "{checked:?}");
    assert!(bunched[0] > 100 && bunched[1] > 10, "{checked:?}");
}

/// Whichever fitting events are taken: with the earliest a message is due
/// soonest, and all others lie between these and the latest.
#[test]
fn every_message_is_delivered_by_its_deadline() {
    let mut checked = Checked::default();
    for replayed in replays(14, 6_000) {
        let alone = i64::from(replayed.case.sheet[1] + replayed.case.sheet[2]);
        for promised in truly_promised(&replayed.case) {
            for events in &promised.events {
                for message in replayed.due_for_delivery(&promised, events) {
                    assert!(message.has_begun());
                    let delivered = replayed.delivered(&message);
                    assert!(delivered <= message.due);
                    let tight = delivered == message.due;
                    let behind = delivered > i64::from(message.begin) + alone;
                    checked.add(&promised, tight);
                    checked.early_in_turn += u32::from(tight && behind);
                    let event = message.due - promised.deadline;
                    add(&mut checked.before_zero, event < 0, tight);
                }
            }
        }
    }
    assert!(checked.all > 20_000 && checked.tight > 80, "{checked:?}");
    assert!(checked.early_in_turn > 30, "{checked:?}");
    let Checked {
        jittery,
        bunched,
        before_zero,
        ..
    } = checked;
    assert!(jittery[0] > 2_000 && jittery[1] > 20, "{checked:?}");
    assert!(bunched[0] > 200 && bunched[1] > 3, "{checked:?}");
    assert!(before_zero[0] > 100 && before_zero[1] > 3, "{checked:?}");
}

/// How many messages come too late for a promise that is not given: to begin,
/// and to be delivered, by the earliest events.
fn broken_promises(entry: Admit) -> [u32; 2] {
    let mut late = [0; 2];
    for replayed in replays(14, 6_000) {
        for promised in promised_by(entry, &replayed.case) {
            for message in replayed.due_to_begin(&promised) {
                let in_time = message.has_begun() && i64::from(message.begin) <= message.due;
                late[0] += u32::from(!in_time);
            }
            for message in replayed.due_for_delivery(&promised, &promised.events[0]) {
                let in_time = message.has_begun() && replayed.delivered(&message) <= message.due;
                late[1] += u32::from(!in_time);
            }
        }
    }
    late
}

/// The replays are such that a jitter left out would show.
#[test]
fn promises_without_the_jitters_are_broken() {
    assert_eq!(broken_promises(admit), [0, 0]);
    let above = broken_promises(broken::admit_without_jitter_above);
    let own = broken_promises(broken::admit_late_without_jitter);
    // A stream that is late by its own jitter may even have two of its messages
    // waiting, so that the second waits longer than is listed for one.
    assert!(above[0] > 5 && own[0] > 5, "{above:?} {own:?}");
    assert!(own[1] > 200, "{above:?} {own:?}");
}

#[test]
fn named_messages_are_delivered_at_their_deadlines() {
    let names = [
        "P7 with 11 11 first, just in time",
        "first of a turn of two, just in time",
        "the longest turns, just in time",
        "a release close to the one before it",
    ];
    let cases = named().into_iter().filter(|case| names.contains(&case.0));
    let mut tight = 0;
    for replayed in cases.filter_map(|case| Replayed::of(case.1)) {
        for promised in truly_promised(&replayed.case) {
            let due = replayed.due_for_delivery(&promised, &promised.events[0]);
            let at_deadline = |message: &&Due| replayed.delivered(message) == message.due;
            tight += due.iter().filter(at_deadline).count();
        }
    }
    assert_eq!(tight, 4);
}
