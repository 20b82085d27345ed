//! `replay`: when each message of a log begins, whether it waited longer than
//! its listed wait, and the record of each stream.

use wistorvan::{begun, replay as replay_sheet, replay_with_records};
use wistorvan::{Reason, Refusal, StreamRecord, MAX_STREAMS};

use crate::duration::Duration;
use crate::fault::{internal, Failure, Fault, Refused};
use crate::line::Line;
use crate::load::Loaded;
use crate::log::{Log, Release};
use crate::plan::{Place, Plan, Sheet, LONGEST};
use crate::tick::{plural, Exact};

/// A message of the log and what became of it.
#[derive(Clone, Copy, PartialEq, Eq, Debug)]
pub struct Message {
    pub release: Release,
    pub place: Place,
    pub begin: Option<u32>,
    /// None if its stream is late.
    pub listed: Option<u32>,
    /// Up to its begin; if it has not begun, up to the horizon.
    pub waited: u32,
}

impl Message {
    pub fn wait(&self) -> Option<u32> {
        self.begin.map(|_| self.waited)
    }

    /// Whether it waited longer than its listed wait. What has not begun by the
    /// horizon has waited at least as long as that.
    pub fn over(&self) -> bool {
        self.listed.is_some_and(|listed| self.waited > listed)
    }

    /// Whether it is proved that its stream, or one ranked above it in its node,
    /// did not keep its period and jitter: that no events, a period apart and at
    /// most the jitter before, go with its messages. The claim is about messages
    /// whose listed wait ends before the longest horizon.
    pub fn breaks_period(&self) -> bool {
        let ends = self
            .listed
            .and_then(|listed| self.release.tick.checked_add(listed));
        self.over() && ends.is_some_and(|end| end < LONGEST)
    }

    /// The listed wait less the wait.
    pub fn left(&self) -> Option<i64> {
        Some(i64::from(self.listed?) - i64::from(self.waited))
    }

    /// Whether it can be compared with its listed wait.
    pub fn judged(&self) -> bool {
        self.listed.is_some() && (self.begin.is_some() || self.over())
    }
}

/// A stream of the line, and the library's record of it.
#[derive(Clone, Copy, PartialEq, Eq, Debug)]
pub struct Stream {
    pub place: Place,
    /// None if it is late.
    pub listed: Option<u32>,
    pub record: StreamRecord,
}

/// A replay of a log up to a horizon.
pub struct Replayed {
    pub horizon: u32,
    pub turns: u32,
    pub next: u32,
    pub messages: Vec<Message>,
    /// In sheet order.
    pub streams: Vec<Stream>,
}

impl Replayed {
    /// The message with the least listed wait less wait, the first of equals.
    pub fn worst(&self) -> Option<&Message> {
        let judged = self.messages.iter().filter(|message| message.judged());
        judged.min_by_key(|message| message.left())
    }

    /// How many messages waited longer than listed: those begun are the
    /// records', which leave out what has not begun.
    pub fn over(&self) -> usize {
        let begun = self
            .streams
            .iter()
            .map(|stream| stream.record.over as usize);
        let waiting = self
            .messages
            .iter()
            .filter(|message| message.begin.is_none() && message.over());
        begun.sum::<usize>() + waiting.count()
    }
}

/// The horizon that was asked for.
#[derive(Clone, Copy, PartialEq, Eq, Debug)]
pub struct Until {
    pub from: Duration,
    pub ticks: u32,
    pub rounded: bool,
}

impl Until {
    /// Rounded up: no turn that starts before it is left out.
    pub fn read(text: &str, line: &Line) -> Result<Until, Fault> {
        let wrong = |message| Fault::of_use(format!("replay: --until: {message}"));
        let from = Duration::read(text, Some(line.scale.unit())).map_err(wrong)?;
        let Some(exact) = Exact::of(&from, line.scale.tick.as_ref()) else {
            return Err(wrong(format!(
                "found {from}, expected ticks: {} has no tick statement",
                line.file
            )));
        };
        let ticks = u32::try_from(exact.up());
        Ok(Until {
            from,
            ticks: ticks
                .map_err(|_| wrong(format!("found {from}, expected at most {} ticks", u32::MAX)))?,
            rounded: !exact.is_whole(),
        })
    }
}

/// Asks the library for the replay. Without a horizon the longest one finds the
/// last begin, and the replay ends there.
pub fn ask(loaded: &Loaded, log: &Log, until: Option<Until>) -> Result<Replayed, Failure> {
    let words = log.words();
    let mut room = vec![0; log.releases.len()];
    let sheet = &loaded.sheet.words;
    let horizon = match until {
        Some(until) => until.ticks,
        None => {
            let longest = replay_sheet(sheet, &words, LONGEST, &mut room);
            let longest = longest.map_err(|refusal| refused(loaded, log, until, refusal))?;
            last_begin(longest.begins).map_or(0, |last| last.saturating_add(1).min(LONGEST))
        }
    };
    let mut list = [StreamRecord::default(); MAX_STREAMS];
    let recorded = replay_with_records(sheet, &words, horizon, &mut room, &mut list);
    let recorded = recorded.map_err(|refusal| refused(loaded, log, until, refusal))?;
    let listed = listed_waits(&loaded.plan, &loaded.sheet)?;
    let releases = log.releases.iter().zip(recorded.begins);
    let messages =
        releases.filter_map(|(release, begin)| message(release, begun(*begin), horizon, &listed));
    let streams = listed.iter().zip(recorded.records);
    let streams = streams.map(|(&(place, listed), &record)| Stream {
        place,
        listed,
        record,
    });
    Ok(Replayed {
        horizon,
        turns: recorded.turns,
        next: recorded.next,
        messages: messages.collect(),
        streams: streams.collect(),
    })
}

/// The last begin; what has not begun counts as later than the longest horizon.
fn last_begin(begins: &[u32]) -> Option<u32> {
    begins.iter().copied().max()
}

fn message(
    release: &Release,
    begin: Option<u32>,
    horizon: u32,
    listed: &[(Place, Option<u32>)],
) -> Option<Message> {
    let index = (release.stream as usize).checked_sub(1)?;
    let (place, listed) = *listed.get(index)?;
    let end = begin.unwrap_or(horizon);
    Some(Message {
        release: *release,
        place,
        begin,
        listed,
        waited: end.saturating_sub(release.tick),
    })
}

/// The place and the listed wait of each stream, in sheet order.
fn listed_waits(plan: &Plan, sheet: &Sheet) -> Result<Vec<(Place, Option<u32>)>, Failure> {
    let listed = |place| {
        let answer = sheet
            .one_stream(place)
            .map_err(|refusal| internal("replay", refusal))?;
        Ok((place, answer.map(|listed| listed.wait)))
    };
    plan.places().into_iter().map(listed).collect()
}

/// A refusal of the log or of the horizon as sentences.
fn refused(loaded: &Loaded, log: &Log, until: Option<Until>, refusal: Refusal) -> Failure {
    let fault = match (refusal.reason(), refusal.place()) {
        (Reason::BadLog, (_, 0)) => {
            let count = plural(log.releases.len() as u64, "release");
            Fault {
                file: Some(log.file.clone()),
                line: log.releases.last().map(|release| release.line),
                message: format!("{count} up to here: a log has at most 4,096"),
            }
        }
        (Reason::BadLog, _) => return Failure::Refusals(refused_releases(loaded, log)),
        (Reason::HorizonTooLarge, _) => {
            let ticks = until.map_or(0, |until| until.ticks);
            let rule = "a replay ends at 1,000,000,000 ticks at the latest";
            Fault::of_use(format!("--until {}: {rule}", plural(ticks.into(), "tick")))
        }
        _ => return internal("replay", refusal),
    };
    let number = refusal.number();
    Failure::Refusals(vec![Refused { number, fault }])
}

/// Every release that the library refuses.
fn refused_releases(loaded: &Loaded, log: &Log) -> Vec<Refused> {
    let before = std::iter::once(None).chain(log.releases.iter().map(Some));
    let pairs = before.zip(&log.releases);
    let refused = pairs.filter_map(|(before, release)| {
        // By itself, and after the one before it, which has its own question.
        let alone = refused_last(loaded, &[*release]);
        let refusal = alone.or_else(|| refused_last(loaded, &[*before?, *release]))?;
        Some(Refused {
            number: refusal.number(),
            fault: Fault::at(&log.file, release.line, refused_release(before, release)),
        })
    });
    refused.collect()
}

/// The refusal of the last of these releases.
fn refused_last(loaded: &Loaded, releases: &[Release]) -> Option<Refusal> {
    let log: Vec<u32> = releases
        .iter()
        .flat_map(|release| [release.tick, release.stream])
        .collect();
    let refusal = replay_sheet(&loaded.sheet.words, &log, 0, &mut [0; 2]).err()?;
    let last = refusal.place().1 as usize == releases.len();
    last.then_some(refusal)
}

fn refused_release(before: Option<&Release>, release: &Release) -> String {
    let after = before.map_or(String::new(), |before| {
        format!(
            " after {} in line {}",
            plural(before.tick.into(), "tick"),
            before.line
        )
    });
    let tick = plural(release.tick.into(), "tick");
    format!("a release at {tick}{after}: times are at most 1,000,000,000 ticks and never fall")
}

#[cfg(test)]
mod tests {
    use super::*;

    fn message(begin: Option<u32>, listed: Option<u32>, waited: u32) -> Message {
        Message {
            release: Release {
                line: 1,
                tick: 10,
                stream: 1,
            },
            place: (0, 0),
            begin,
            listed,
            waited,
        }
    }

    #[test]
    fn a_message_is_over_if_it_waited_longer() {
        assert!(!message(Some(26), Some(16), 16).over());
        assert!(message(Some(27), Some(16), 17).over());
        assert!(!message(None, Some(16), 16).over());
        assert!(message(None, Some(16), 17).over());
        assert!(!message(Some(1000), None, 990).over());
    }

    #[test]
    fn a_period_is_called_broken_only_where_that_is_proved() {
        assert!(message(Some(27), Some(16), 17).breaks_period());
        assert!(!message(Some(26), Some(16), 16).breaks_period());
        let mut last = message(None, Some(16), 17);
        last.release.tick = LONGEST - 16;
        assert!(last.over() && !last.breaks_period());
    }

    #[test]
    fn the_worst_is_the_first_with_the_least_left() {
        let messages = vec![
            message(Some(20), Some(16), 10),
            message(None, Some(16), 12),
            message(Some(21), Some(16), 11),
            message(Some(31), Some(26), 21),
            message(Some(90), None, 80),
        ];
        let replayed = Replayed {
            horizon: 22,
            turns: 0,
            next: 0,
            messages,
            streams: vec![],
        };
        assert_eq!(replayed.worst(), replayed.messages.get(2));
    }
    #[test]
    fn those_over_are_the_records_and_what_has_not_begun() {
        let stream = |over| Stream {
            place: (0, 0),
            listed: Some(16),
            record: StreamRecord {
                begun: 5,
                longest: 40,
                over,
            },
        };
        let replayed = Replayed {
            horizon: 30,
            turns: 0,
            next: 0,
            messages: vec![
                message(Some(27), Some(16), 17),
                message(None, Some(16), 20),
                message(None, Some(16), 16),
                message(None, None, 20),
            ],
            streams: vec![stream(3), stream(0), stream(1)],
        };
        assert_eq!(replayed.over(), 5);
    }
}
