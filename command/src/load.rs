//! Loading a line and its recorder: both files are read, all their errors are
//! collected, and the library is asked for the sheet.

use std::ffi::OsString;
use std::io::Read;

use crate::draft::{Draft, Kind};
use crate::fault::{Failure, Fault};
use crate::line::{convert, Converted, Line};
use crate::plan::{Plan, Sheet};
use crate::reader;
use crate::refusals;
use crate::text::{quoted, Text, MOST_LINE_BYTES};
use crate::tick::Scale;

/// The files that every question about a line takes.
#[derive(Clone, PartialEq, Eq, Debug)]
pub struct Files {
    pub line: OsString,
    pub recorder: Option<OsString>,
}

/// A line with its sheet; the recorder, if there is one, is its last node.
pub struct Loaded {
    pub line: Line,
    pub plan: Plan,
    pub sheet: Sheet,
    /// The texts, and where the budgets stand in them.
    pub line_source: Source,
    pub recorder_source: Option<Source>,
}

/// A file's text and what is written in it.
pub struct Source {
    pub text: Text,
    pub draft: Draft,
}

/// Loads the files; a budget may be missing where budgets are looked for.
pub fn load(files: &Files, input: &mut dyn Read, needs_budgets: bool) -> Result<Loaded, Failure> {
    let line = Text::read(&files.line, input, MOST_LINE_BYTES);
    let recorder = files
        .recorder
        .as_ref()
        .map(|name| Text::read(name, input, MOST_LINE_BYTES));
    let (line, recorder) = match (line, recorder.transpose()) {
        (Ok(line), Ok(recorder)) => (line, recorder),
        (line, recorder) => {
            let faults = line.err().into_iter().chain(recorder.err());
            return Err(Failure::Errors(faults.collect()));
        }
    };
    of_texts(line, recorder, needs_budgets)
}

/// The same from texts.
pub fn of_texts(
    line: Text,
    recorder: Option<Text>,
    needs_budgets: bool,
) -> Result<Loaded, Failure> {
    let (draft, faults) = reader::read(&line, Kind::Line, needs_budgets);
    let mut converted = convert(&draft, &line.file, draft.tick);
    let mut all = line.with_faults([faults, std::mem::take(&mut converted.faults)].concat());
    let line_source = Source { text: line, draft };
    let mut recorder_source = None;
    if let Some(text) = recorder {
        let (source, added, faults) = read_recorder(text, &line_source, needs_budgets);
        all.extend(faults);
        converted.nodes.extend(added.nodes);
        converted.rounded.extend(added.rounded);
        recorder_source = Some(source);
    }
    if !all.is_empty() {
        return Err(Failure::Errors(all));
    }
    let line = assemble(converted, &line_source, recorder_source.as_ref())?;
    let sheet = refusals::sheet(&line)?;
    let plan = Plan::of(&line);
    Ok(Loaded {
        line,
        plan,
        sheet,
        line_source,
        recorder_source,
    })
}

fn read_recorder(
    text: Text,
    line: &Source,
    needs_budgets: bool,
) -> (Source, Converted, Vec<Fault>) {
    let (draft, mut faults) = reader::read(&text, Kind::Recorder, needs_budgets);
    faults.extend(known_name(&draft, &text, line));
    if !line.draft.has_tick {
        faults.extend(first_time(&draft, &text, &line.text.file));
    }
    let mut converted = convert(&draft, &text.file, line.draft.tick);
    faults.append(&mut converted.faults);
    let faults = text.with_faults(faults);
    (Source { text, draft }, converted, faults)
}

/// The recorder's node must not have the name of a node of the line.
fn known_name(draft: &Draft, text: &Text, line: &Source) -> Option<Fault> {
    let own = draft.nodes.first().filter(|node| !node.name.is_empty())?;
    let known = line.draft.nodes.iter().find(|node| node.name == own.name)?;
    let message = format!(
        "found node {} a second time, expected another name (the first is in {}, line {})",
        quoted(&own.name),
        line.text.file,
        known.line
    );
    Some(Fault::at(&text.file, own.line, message))
}

/// The first duration in time of a recorder, for a line without a tick.
fn first_time(draft: &Draft, text: &Text, line_file: &str) -> Option<Fault> {
    let streams = draft.nodes.iter().flat_map(|node| &node.streams);
    let durations = streams.flat_map(|stream| {
        let durations = [Some(stream.period), Some(stream.deadline), stream.jitter];
        durations.into_iter().flatten().map(|d| (stream.line, d))
    });
    let (line, duration) = durations
        .into_iter()
        .find(|(_, duration)| duration.femtoseconds().is_some())?;
    let message = format!("found {duration}, expected ticks: {line_file} has no tick statement");
    Some(Fault::at(&text.file, line, message))
}

fn assemble(
    converted: Converted,
    line: &Source,
    recorder: Option<&Source>,
) -> Result<Line, Failure> {
    let (Some(message), Some(slot)) = (converted.message, converted.slot) else {
        // A file without them has errors.
        return Err(Fault::of_file(&line.text.file, "internal error: no message or slot").into());
    };
    Ok(Line {
        file: line.text.file.clone(),
        recorder: recorder.map(|recorder| recorder.text.file.clone()),
        scale: Scale {
            tick: line.draft.tick,
        },
        message,
        slot,
        nodes: converted.nodes,
        rounded: converted.rounded,
    })
}
