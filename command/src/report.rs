//! What the answers of several subcommands have in common: notes, the first
//! fields of JSON, and cells of tables.

use crate::json::{self, Value};
use crate::line::{Line, Rounded};
use crate::tick::{plural, Scale};

/// A finished answer: the exit status, and what goes to standard output.
#[derive(Clone, PartialEq, Eq, Debug)]
pub struct Report {
    pub status: u8,
    pub output: Vec<u8>,
}

impl Report {
    pub fn text(yes: bool, text: String) -> Report {
        Report {
            status: u8::from(!yes),
            output: text.into_bytes(),
        }
    }

    pub fn json(yes: bool, fields: Vec<(&'static str, Value)>) -> Report {
        Report::text(yes, format!("{}\n", Value::Object(fields)))
    }
}

/// The fields that start every answer about a line.
pub fn first_fields(command: &'static str, yes: bool, line: &Line) -> Vec<(&'static str, Value)> {
    vec![
        ("command", Value::text(command)),
        ("answer", Value::text(if yes { "yes" } else { "no" })),
        ("file", Value::text(&line.file)),
        (
            "recorder",
            json::optional(&line.recorder, |file| Value::text(file)),
        ),
    ]
}

pub fn tick_value(scale: &Scale) -> Value {
    json::optional(&scale.tick, |tick| {
        Value::Object(vec![
            ("length", Value::Text(tick.length().to_string())),
            ("unit", Value::text(tick.unit().name())),
        ])
    })
}

pub fn rounded_value(rounded: &[Rounded]) -> Value {
    json::list(rounded, |rounded| {
        Value::Object(vec![
            ("file", Value::text(&rounded.file)),
            ("line", Value::number(rounded.line as u64)),
            ("what", Value::text(&rounded.what)),
            ("from", Value::Text(rounded.from.to_string())),
            ("ticks", Value::number(rounded.ticks)),
        ])
    })
}

/// A duration in ticks, and in ticks of so long too where there is a tick:
/// `12.3 ms (123 ticks of 0.1 ms)`.
pub fn with_ticks(scale: &Scale, ticks: u64) -> String {
    let shown = scale.show(ticks);
    match &scale.tick {
        Some(tick) => format!("{shown} ({} of {tick})", plural(ticks, "tick")),
        None => shown,
    }
}

/// What was rounded, a line each.
pub fn rounded_notes(line: &Line) -> Vec<String> {
    let note = |rounded: &Rounded| {
        let Rounded {
            file,
            line: number,
            what,
            from,
            ticks,
        } = rounded;
        let to = line.scale.show(u64::from(*ticks));
        format!("Rounded to whole ticks: {file}, line {number}: {what}, from {from} to {to}.")
    };
    line.rounded.iter().map(note).collect()
}

/// The note on where times start, for a file that has a tick.
pub fn queued_note(scale: &Scale) -> Option<String> {
    let note = "Times count from the first tick at or after a message is queued.";
    scale.tick.map(|_| note.to_string())
}

/// A heading and its lines, after an empty line; nothing if there are none.
pub fn section(heading: &str, lines: &[String]) -> String {
    if lines.is_empty() {
        return String::new();
    }
    let lines: String = lines.iter().map(|line| format!("  {line}\n")).collect();
    format!("\n{heading}\n{lines}")
}

/// A cell with a duration, or `-`.
pub fn cell(scale: &Scale, ticks: Option<u64>) -> String {
    ticks.map_or("-".to_string(), |ticks| scale.cell(ticks))
}

/// The first three names, and how many more there are.
pub fn some_names(names: &[String]) -> String {
    const SHOWN: usize = 3;
    let shown: Vec<&str> = names.iter().take(SHOWN).map(String::as_str).collect();
    match names.len().saturating_sub(SHOWN) {
        0 => shown.join(", "),
        more => format!("{} and {more} more", shown.join(", ")),
    }
}
