//! `check`: whether every stream of a line is in time, and by how much; with a
//! recorder, before and after.

use wistorvan::Refusal;

use crate::answers::{full_name, names, streams_value, Answers, StreamAnswer};
use crate::fault::{internal, Failure};
use crate::helps::{self, Helps};
use crate::json::{self, Value};
use crate::line::Line;
use crate::load::Loaded;
use crate::plan::Plan;
use crate::report::{
    cell, first_fields, queued_note, rounded_notes, rounded_value, section, some_names, tick_value,
    with_ticks, Report,
};
use crate::table::{table, Align, Column};

const JITTER: Column = ("jitter", Align::Right);

/// What times count from, where some messages are queued after their events.
const EVENT_NOTE: &str =
    "Waits count from the first tick at or after a message is queued; deliveries and deadlines from \
     the first at or after its event, which is up to its jitter earlier.";

/// The answers about a line; with a recorder, those about the line without it
/// too.
struct Check<'l> {
    line: &'l Line,
    answers: Answers,
    before: Option<Answers>,
    helps: Option<Helps>,
}

pub fn check(loaded: &Loaded, as_json: bool) -> Result<Report, Failure> {
    let check = ask(loaded)?;
    let yes = check.answers.admitted;
    Ok(match as_json {
        true => Report::json(yes, check.fields()),
        false => Report::text(yes, check.text()),
    })
}

fn ask(loaded: &Loaded) -> Result<Check<'_>, Failure> {
    let Loaded {
        line, plan, sheet, ..
    } = loaded;
    let wrong = |refusal| internal("check", refusal);
    let answers = Answers::ask(plan, sheet).map_err(wrong)?;
    let helps = match answers.admitted {
        true => None,
        false => Some(Helps::ask(line, plan, sheet, &answers).map_err(wrong)?),
    };
    let before = line.recorder.is_some().then(|| ask_before(line));
    let before = before.transpose().map_err(wrong)?;
    Ok(Check {
        line,
        answers,
        before,
        helps,
    })
}

fn ask_before(line: &Line) -> Result<Answers, Refusal> {
    let plan = Plan::of(&line.without_recorder());
    Answers::ask(&plan, &plan.write()?)
}

impl Check<'_> {
    fn fields(&self) -> Vec<(&'static str, Value)> {
        let line = self.line;
        let mut fields = first_fields("check", self.answers.admitted, line);
        fields.extend([
            ("tick", tick_value(&line.scale)),
            ("cycle", Value::number(self.answers.cycle)),
            ("streams", streams_value(line, &self.answers)),
            (
                "before",
                json::optional(&self.before, |before| streams_value(line, before)),
            ),
            (
                "cycle_before",
                json::optional(&self.before, |before| Value::number(before.cycle)),
            ),
            (
                "helps",
                json::optional(&self.helps, |helps| helps::value(line, helps)),
            ),
            ("rounded", rounded_value(&line.rounded)),
        ]);
        fields
    }

    fn text(&self) -> String {
        let rows = match &self.before {
            Some(before) => self.rows_before_after(before),
            None => self.rows(),
        };
        let late = self.answers.late();
        let late: String = late
            .iter()
            .map(|stream| self.late_sentence(stream) + "\n")
            .collect();
        let late = if late.is_empty() {
            late
        } else {
            format!("\n{late}")
        };
        let helps = self
            .helps
            .as_ref()
            .map_or(vec![], |helps| helps::lines(self.line, helps));
        let helps = section("What would help:", &helps);
        let notes = section("Notes:", &self.notes());
        format!("{}\n\n{rows}{late}{helps}{notes}", self.sentence())
    }

    fn sentence(&self) -> String {
        let file = &self.line.file;
        let recorder = &self.line.recorder;
        let with = recorder
            .as_ref()
            .map_or(String::new(), |recorder| format!("with {recorder} "));
        let late = late_names(self.line, &self.answers);
        let count = self.answers.streams.len();
        let first = match (self.answers.admitted, count) {
            (true, 0) => format!("Yes: {with}{file} has no streams, so none is late."),
            (true, 1) => {
                format!("Yes: {with}the only stream of {file} is delivered by its deadline.")
            }
            (true, _) => format!(
                "Yes: {with}all {count} streams of {file} are delivered by their deadlines."
            ),
            (false, 1) => format!(
                "No: {with}the only stream of {file} is late: {}.",
                some_names(&late)
            ),
            (false, _) => {
                let is = if late.len() == 1 { "is" } else { "are" };
                let (late_count, names) = (late.len(), some_names(&late));
                format!("No: {with}{late_count} of {count} streams of {file} {is} late: {names}.")
            }
        };
        match &self.before {
            Some(before) => format!("{first}\n{}", self.sentence_before(before)),
            None => first,
        }
    }

    fn sentence_before(&self, before: &Answers) -> String {
        let late = late_names(self.line, before);
        let count = before.streams.len();
        let is = if late.len() == 1 { "is" } else { "are" };
        match before.admitted {
            true => "Without it none is late.".to_string(),
            false => format!(
                "Without it {} of {count} {is} late already: {}.",
                late.len(),
                some_names(&late)
            ),
        }
    }

    fn has_jitter(&self) -> bool {
        self.answers.streams.iter().any(|stream| stream.jitter > 0)
    }

    fn rows(&self) -> String {
        let scale = &self.line.scale;
        let row = |answer: &StreamAnswer| {
            let (node, stream) = names(self.line, answer.place);
            let [left, remark] = self.left(answer);
            vec![
                node.to_string(),
                stream.to_string(),
                self.jitter(answer),
                cell(scale, answer.wait()),
                cell(scale, answer.delivery),
                scale.cell(answer.deadline.into()),
                left,
                remark,
            ]
        };
        let rows = self.answers.streams.iter().map(row).collect();
        self.table(
            vec![
                ("node", Align::Left),
                ("stream", Align::Left),
                JITTER,
                ("longest wait", Align::Right),
                ("latest delivery", Align::Right),
                ("deadline", Align::Right),
                ("left", Align::Right),
                ("", Align::Remark),
            ],
            rows,
        )
    }

    fn rows_before_after(&self, before: &Answers) -> String {
        let scale = &self.line.scale;
        let row = |after: &StreamAnswer| {
            let (node, stream) = names(self.line, after.place);
            let before = before.find(after.place);
            let delivered = before.and_then(|before| before.delivery);
            let loses = delivered
                .zip(after.delivery)
                .map(|(before, after)| after.saturating_sub(before));
            let [left, remark] = self.left(after);
            vec![
                node.to_string(),
                stream.to_string(),
                scale.cell(after.deadline.into()),
                self.jitter(after),
                cell(scale, before.and_then(StreamAnswer::wait)),
                cell(scale, after.wait()),
                cell(scale, delivered),
                cell(scale, after.delivery),
                cell(scale, loses),
                left,
                remark,
            ]
        };
        let rows = self.answers.streams.iter().map(row).collect();
        self.table(
            vec![
                ("node", Align::Left),
                ("stream", Align::Left),
                ("deadline", Align::Right),
                JITTER,
                ("wait before", Align::Right),
                ("wait after", Align::Right),
                ("delivery before", Align::Right),
                ("delivery after", Align::Right),
                ("loses", Align::Right),
                ("left", Align::Right),
                ("", Align::Remark),
            ],
            rows,
        )
    }

    /// A table of streams. Where none has jitter, it has no column of it.
    fn table(&self, mut columns: Vec<Column>, mut rows: Vec<Vec<String>>) -> String {
        if !self.has_jitter() {
            if let Some(index) = columns.iter().position(|column| *column == JITTER) {
                columns.remove(index);
                rows.iter_mut().for_each(|row| drop(row.remove(index)));
            }
        }
        table(&columns, &rows)
    }

    fn jitter(&self, answer: &StreamAnswer) -> String {
        let jitter = Some(u64::from(answer.jitter)).filter(|jitter| *jitter > 0);
        cell(&self.line.scale, jitter)
    }

    /// What is left of the deadline, and a remark where it is not enough.
    fn left(&self, answer: &StreamAnswer) -> [String; 2] {
        let remark = match (answer.late(), answer.delivery) {
            (false, _) => "",
            (true, Some(_)) => "over",
            (true, None) => "no bound",
        };
        let left = answer.left().map(i64::unsigned_abs);
        [cell(&self.line.scale, left), remark.to_string()]
    }

    fn late_sentence(&self, answer: &StreamAnswer) -> String {
        let scale = &self.line.scale;
        let name = full_name(self.line, answer.place);
        let already = match self
            .before
            .as_ref()
            .and_then(|before| before.find(answer.place))
        {
            Some(before) if before.late() => " It is late without the recorder too.",
            _ => "",
        };
        let (Some(delivery), Some(left)) = (answer.delivery, answer.left()) else {
            return format!(
                "{name}: no bound was found up to 1,000,000,000 ticks: the streams ranked above it fill the turns \
                 of its node, or nearly.{already}"
            );
        };
        let (deadline, over) = (
            scale.show(answer.deadline.into()),
            scale.show(left.unsigned_abs()),
        );
        let period = scale.show(answer.period.into());
        let longer = match delivery > u64::from(answer.period) {
            true => format!(
                " That is longer than its period of {period}: later messages of it can queue behind, so it can take still longer."
            ),
            false => String::new(),
        };
        let delivery = scale.show(delivery);
        // Without jitter a message is queued at its event.
        let start = match answer.jitter {
            0 => "queuing",
            _ => "its event",
        };
        format!("{name}: up to {delivery} from {start} to delivery, {over} over its deadline of {deadline}.{longer}{already}")
    }

    fn notes(&self) -> Vec<String> {
        let scale = &self.line.scale;
        let cycle = with_ticks(scale, self.answers.cycle.into());
        let before = match &self.before {
            Some(before) => format!(", without the recorder {}", scale.show(before.cycle.into())),
            None => String::new(),
        };
        let mut notes = vec![format!("Full cycle {cycle}{before}.")];
        notes.extend(rounded_notes(self.line));
        notes.extend(match self.has_jitter() {
            true => Some(EVENT_NOTE.to_string()),
            false => queued_note(scale),
        });
        notes
    }
}

fn late_names(line: &Line, answers: &Answers) -> Vec<String> {
    answers
        .late()
        .iter()
        .map(|stream| full_name(line, stream.place))
        .collect()
}
