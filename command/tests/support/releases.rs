//! Generated logs, and holding `replay --json` to the library's replay.

use wistorvan::{begun, replay_with_records, StreamRecord, MAX_STREAMS};

use super::hold::{equal, list, number, optional, text, Held};
use super::json::Json;
use super::library::{Sheet, Ticks};
use super::lines::Line;
use super::random::Random;

/// A log in words and as text, and a horizon in ticks.
pub struct Log {
    pub words: Vec<u32>,
    pub text: String,
    pub horizon: u32,
}

/// Releases of any streams, some at the same tick, and more of them than the
/// periods allow; none if the line has no streams.
pub fn releases(random: &mut Random, line: &Line, ticks: &Ticks, sheet: &Sheet) -> Log {
    let places = ticks.places();
    let count = if places.is_empty() {
        0
    } else {
        random.below(30)
    };
    let apart = random.pick(&[1, sheet.cycle, sheet.cycle.saturating_mul(4)]);
    let (mut words, mut text, mut tick) = (Vec::new(), String::new(), 0);
    for _ in 0..count {
        tick += random.below(u64::from(apart.min(1_000_000)) + 1) as u32;
        let at = random.index(places.len());
        let (node, stream) = places[at];
        let node = &line.nodes[node];
        let name = format!("{}.{}", node.name, node.streams[stream].name);
        let name = if random.one_in(4) {
            format!("\"{name}\"")
        } else {
            name
        };
        let separator = random.pick(&[",", ";", "\t", "  ", " , "]);
        text += &format!("{tick}ticks{separator}{name}\n");
        words.extend([tick, at as u32 + 1]);
    }
    let horizon = random.below(u64::from(tick) + 3 * u64::from(sheet.cycle)) as u32;
    Log {
        words,
        text,
        horizon,
    }
}

/// What came of the messages: whether one waited longer than listed, whether
/// that is in a record, as it has begun, and whether one is of a stream that is
/// late, and so has no listed wait.
pub struct Outcome {
    pub over: bool,
    pub recorded: bool,
    pub unlisted: bool,
}

/// Holds every message to the library's replay and listed waits, and every
/// stream's row to the library's record.
pub fn messages_hold(
    said: &Json,
    line: &Line,
    ticks: &Ticks,
    sheet: &Sheet,
    log: &Log,
) -> Result<Outcome, String> {
    let mut room = vec![0; log.words.len() / 2];
    let mut records = [StreamRecord::default(); MAX_STREAMS];
    let replayed = replay_with_records(
        &sheet.words,
        &log.words,
        log.horizon,
        &mut room,
        &mut records,
    );
    let replayed = replayed.map_err(|refusal| refusal.to_string())?;
    equal("horizon", number(said, "horizon")?, log.horizon.into())?;
    equal("turns", number(said, "turns")?, replayed.turns.into())?;
    equal("next turn", number(said, "next")?, replayed.next.into())?;
    let rows = list(said, "messages")?;
    equal("number of messages", rows.len(), replayed.begins.len())?;
    records_hold(said, line, ticks, sheet, replayed.records)?;
    let mut outcome = Outcome {
        over: false,
        recorded: replayed.records.iter().any(|record| record.over > 0),
        unlisted: false,
    };
    for (at, (row, release)) in rows.iter().zip(log.words.chunks(2)).enumerate() {
        let place = ticks.places()[release[1] as usize - 1];
        let listed = ticks.listed(sheet, place.0, place.1).wait;
        let begin = begun(replayed.begins[at]);
        names_hold(row, line, place)?;
        equal("queued", number(row, "queued")?, release[0].into())?;
        equal("begin", optional(row, "begin")?, begin.map(i64::from))?;
        equal("listed wait", optional(row, "listed")?, listed)?;
        // A message that has not begun has waited up to the horizon at least.
        let reached = begin.unwrap_or(log.horizon.max(release[0]));
        let over = listed.is_some_and(|listed| i64::from(reached - release[0]) > listed);
        equal("over", row.get("over"), Some(&Json::Bool(over)))?;
        outcome.over |= over;
        outcome.unlisted |= listed.is_none();
    }
    Ok(outcome)
}

fn records_hold(
    said: &Json,
    line: &Line,
    ticks: &Ticks,
    sheet: &Sheet,
    records: &[StreamRecord],
) -> Held {
    let rows = list(said, "records")?;
    equal("number of records", rows.len(), ticks.places().len())?;
    equal("number of the library's", rows.len(), records.len())?;
    for ((row, place), record) in rows.iter().zip(ticks.places()).zip(records) {
        names_hold(row, line, place)?;
        let listed = ticks.listed(sheet, place.0, place.1).wait;
        equal("listed in a record", optional(row, "listed")?, listed)?;
        equal("begun", number(row, "begun")?, record.begun.into())?;
        equal("longest", number(row, "longest")?, record.longest.into())?;
        equal("over", number(row, "over")?, record.over.into())?;
    }
    Ok(())
}

fn names_hold(row: &Json, line: &Line, (node, stream): (usize, usize)) -> Held {
    let node = &line.nodes[node];
    equal("node of a row", text(row, "node")?, &node.name)?;
    equal(
        "stream of a row",
        text(row, "stream")?,
        &node.streams[stream].name,
    )
}
