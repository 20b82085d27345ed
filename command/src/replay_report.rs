//! The answer of `replay`, as text and as JSON.

use std::collections::BTreeSet;
use std::ffi::OsStr;

use crate::answers::{full_name, names};
use crate::fault::Failure;
use crate::json::{self, Value};
use crate::line::Line;
use crate::load::Loaded;
use crate::log::{self, Log};
use crate::records;
use crate::replay::{self, Message, Replayed, Until};
use crate::report::{
    cell, first_fields, queued_note, rounded_notes, rounded_value, section, some_names, tick_value,
    Report,
};
use crate::table::{table, Align, Column};
use crate::text::Text;
use crate::tick::plural;

/// A replay and what it is of.
struct ReplayReport<'l> {
    line: &'l Line,
    log: &'l Log,
    until: Option<Until>,
    replayed: Replayed,
}

/// Reads the log and has it replayed.
pub fn replay(
    loaded: &Loaded,
    log: &Text,
    until: Option<&OsStr>,
    as_json: bool,
) -> Result<Report, Failure> {
    let line = &loaded.line;
    let log = log::read(log, line).map_err(Failure::Errors)?;
    let until = until
        .map(|until| Until::read(&until.to_string_lossy(), line))
        .transpose()?;
    let replayed = replay::ask(loaded, &log, until)?;
    let report = ReplayReport {
        line,
        log: &log,
        until,
        replayed,
    };
    Ok(report.report(as_json))
}

impl ReplayReport<'_> {
    fn report(&self, as_json: bool) -> Report {
        // A message of a late stream has no listed wait: nothing can be said for it.
        let yes = self.replayed.over() == 0 && self.unlisted() == 0;
        match as_json {
            true => Report::json(yes, self.fields(yes)),
            false => Report::text(yes, self.text()),
        }
    }

    fn fields(&self, yes: bool) -> Vec<(&'static str, Value)> {
        let Replayed {
            horizon,
            turns,
            next,
            messages,
            streams,
        } = &self.replayed;
        let worst = self.replayed.worst();
        let mut fields = first_fields("replay", yes, self.line);
        fields.extend([
            ("log", Value::text(&self.log.file)),
            ("tick", tick_value(&self.line.scale)),
            ("horizon", Value::number(*horizon)),
            ("turns", Value::number(*turns)),
            ("next", Value::number(*next)),
            (
                "messages",
                json::list(messages, |message| self.message_value(message)),
            ),
            (
                "worst",
                json::optional(&worst, |message| self.message_value(message)),
            ),
            ("records", records::value(self.line, streams)),
            ("rounded", rounded_value(&self.line.rounded)),
            ("rounded_times", Value::number(self.log.rounded as u64)),
        ]);
        fields
    }

    fn message_value(&self, message: &Message) -> Value {
        let (node, stream) = names(self.line, message.place);
        let number = |number: Option<u32>| json::optional(&number, |number| Value::number(*number));
        let left = message.begin.and(message.left());
        Value::Object(vec![
            ("line", Value::number(message.release.line as u64)),
            ("node", Value::text(node)),
            ("stream", Value::text(stream)),
            ("queued", Value::number(message.release.tick)),
            ("begin", number(message.begin)),
            ("wait", number(message.wait())),
            ("listed", number(message.listed)),
            ("left", json::optional(&left, |left| Value::number(*left))),
            ("over", Value::Bool(message.over())),
        ])
    }

    fn text(&self) -> String {
        let sentences = self.sentences().join("\n");
        let records = records::rows(self.line, &self.replayed.streams);
        let notes = section("Notes:", &self.notes());
        format!("{sentences}\n\n{}\n{records}{notes}", self.rows())
    }

    fn count(&self, of: impl Fn(&Message) -> bool) -> usize {
        self.replayed
            .messages
            .iter()
            .filter(|message| of(message))
            .count()
    }

    /// The first has the answer; what it leaves out comes after it.
    fn sentences(&self) -> Vec<String> {
        let count = self.replayed.messages.len();
        let waiting = self.count(|message| message.begin.is_none());
        let mut sentences = match self.unlisted() {
            0 => vec![self.judged_sentence()],
            _ => [self.unlisted_sentence()]
                .into_iter()
                .chain(self.others_sentence())
                .collect(),
        };
        if self.replayed.worst().is_some_and(Message::breaks_period) {
            let so = "Then this stream or one ranked above it in its node was released more often than its period and jitter allow.";
            sentences.push(so.to_string());
        }
        if waiting > 0 {
            let horizon = self.show(self.replayed.horizon);
            sentences.push(format!(
                "{waiting} of {} had not begun by {horizon}.",
                plural(count as u64, "message")
            ));
        }
        sentences
    }

    fn unlisted(&self) -> usize {
        self.count(|message| message.listed.is_none())
    }

    /// The answer where every message has a listed wait.
    fn judged_sentence(&self) -> String {
        let (file, count, over) = (
            &self.log.file,
            self.replayed.messages.len(),
            self.replayed.over(),
        );
        let messages = plural(count as u64, "message");
        let Some(worst) = self.replayed.worst() else {
            return match count {
                0 => format!("Yes: {file} has no messages, so none waited too long."),
                _ => format!("Yes: none of {messages} of {file} has begun, and none waited longer than its listed wait so far."),
            };
        };
        let closest = self.worst_text(worst);
        let all = self.count(Message::judged) == count;
        match (over, all) {
            (0, true) if count == 1 => format!("Yes: the only message of {file} began within its listed wait: {closest}."),
            (0, true) => format!("Yes: all {messages} of {file} began within their listed waits; closest: {closest}."),
            (0, false) => format!("Yes: none of {messages} of {file} waited longer than its listed wait; closest: {closest}."),
            _ => format!("No: {over} of {messages} of {file} waited longer than the listed wait; worst: {closest}."),
        }
    }

    /// `controller.damper, queued at 101.2 ms, waited 5.7 of 6.7 ms`.
    fn worst_text(&self, message: &Message) -> String {
        let name = full_name(self.line, message.place);
        let queued = self.show(message.release.tick);
        let waited = self.line.scale.number(message.waited.into());
        let listed = self.show(message.listed.unwrap_or_default());
        let not_begun = if message.begin.is_none() {
            " and has not begun"
        } else {
            ""
        };
        format!("{name}, queued at {queued}, waited {waited} of {listed}{not_begun}")
    }

    /// The answer where some have none, as their streams are late.
    fn unlisted_sentence(&self) -> String {
        let unlisted = self
            .replayed
            .messages
            .iter()
            .filter(|message| message.listed.is_none());
        let places: BTreeSet<_> = unlisted.map(|message| message.place).collect();
        let names: Vec<String> = places
            .into_iter()
            .map(|place| full_name(self.line, place))
            .collect();
        let count = self.unlisted();
        let is = if count == 1 { "is" } else { "are" };
        format!(
            "No: {count} of {} of {} {is} of streams that are late, and so have no listed wait: {}.",
            plural(self.replayed.messages.len() as u64, "message"),
            self.log.file,
            some_names(&names)
        )
    }

    /// What is said of the others then.
    fn others_sentence(&self) -> Option<String> {
        let others = self.replayed.messages.len() - self.unlisted();
        let closest = self.worst_text(self.replayed.worst()?);
        Some(match (self.replayed.over(), others) {
            (0, 1) => format!("The other one waited no longer than its listed wait: {closest}."),
            (0, _) => format!("None of the other {others} waited longer than its listed wait; closest: {closest}."),
            (_, 1) => format!("The other one waited longer than the listed wait: {closest}."),
            (over, _) => format!("{over} of the other {others} waited longer than the listed wait; worst: {closest}."),
        })
    }

    fn show(&self, ticks: u32) -> String {
        self.line.scale.show(ticks.into())
    }

    fn rows(&self) -> String {
        const COLUMNS: [Column; 7] = [
            ("queued", Align::Right),
            ("stream", Align::Left),
            ("begins", Align::Right),
            ("waits", Align::Right),
            ("listed wait", Align::Right),
            ("left", Align::Right),
            ("", Align::Remark),
        ];
        let rows: Vec<Vec<String>> = self
            .replayed
            .messages
            .iter()
            .map(|message| self.row(message))
            .collect();
        table(&COLUMNS, &rows)
    }

    fn row(&self, message: &Message) -> Vec<String> {
        let shown = |ticks: Option<u32>| cell(&self.line.scale, ticks.map(u64::from));
        let left = message.begin.and(message.left()).map(i64::unsigned_abs);
        let remark = if message.over() { "over" } else { "" };
        vec![
            shown(Some(message.release.tick)),
            full_name(self.line, message.place),
            shown(message.begin),
            shown(message.wait()),
            shown(message.listed),
            cell(&self.line.scale, left),
            remark.to_string(),
        ]
    }

    fn notes(&self) -> Vec<String> {
        let Replayed {
            horizon,
            turns,
            next,
            ..
        } = &self.replayed;
        let turns = plural(u64::from(*turns), "turn");
        let (end, next) = (self.show(*horizon), self.show(*next));
        let mut notes = vec![format!(
            "{turns} started before {end}; the next would start at {next}."
        )];
        if self.log.rounded > 0 {
            let (rounded, count) = (
                self.log.rounded,
                plural(self.log.releases.len() as u64, "time"),
            );
            notes.push(format!(
                "Rounded up to whole ticks: {rounded} of {count} in {}.",
                self.log.file
            ));
        }
        if let Some(until) = self.until.filter(|until| until.rounded) {
            notes.push(format!(
                "Rounded up to a whole tick: --until, from {} to {end}.",
                until.from
            ));
        }
        notes.extend(rounded_notes(self.line));
        notes.extend(queued_note(&self.line.scale));
        notes
    }
}
