//! `budgets`: the least budgets with which no stream is late, and a line file
//! with them.

use std::ffi::OsStr;

use crate::fault::{internal, Failure, Fault};
use crate::json::{self, Value};
use crate::line::{Line, Node};
use crate::load::{of_texts, Loaded, Source};
use crate::output::create;
use crate::report::{
    first_fields, rounded_notes, rounded_value, section, tick_value, with_ticks, Report,
};
use crate::table::{table, Align, Column};
use crate::text::{shown_name, Text, MOST_LINE_BYTES};

struct Budgets<'l> {
    line: &'l Line,
    /// The cycle with the file's budgets, if it has them all.
    cycle: Option<u32>,
    /// The least budgets and the cycle with them, or the node that is late even
    /// with 16.
    least: Result<(Vec<u32>, u32), usize>,
    /// The file that was written.
    written: Option<String>,
}

pub fn budgets(loaded: &Loaded, write: Option<&OsStr>, as_json: bool) -> Result<Report, Failure> {
    let least = loaded
        .sheet
        .least_budgets()
        .map_err(|refusal| internal("budgets", refusal))?;
    let mut written = None;
    if let (Some(file), Ok((row, _))) = (write, &least) {
        let text = text_with(loaded, row)?;
        create(file, text.as_bytes())?;
        written = Some(shown_name(file));
    }
    let complete = loaded.line.nodes.iter().all(|node| node.budget.is_some());
    let budgets = Budgets {
        line: &loaded.line,
        cycle: complete.then_some(loaded.sheet.cycle),
        least,
        written,
    };
    let yes = budgets.least.is_ok();
    Ok(match as_json {
        true => Report::json(yes, budgets.fields()),
        false => Report::text(yes, budgets.text(write)),
    })
}

impl Budgets<'_> {
    /// Each node with its least budget.
    fn nodes(&self) -> Vec<(&Node, Option<u32>)> {
        let row = self.least.as_ref().map_or(&[][..], |(row, _)| row);
        let nodes = self.line.nodes.iter().enumerate();
        nodes
            .map(|(index, node)| (node, row.get(index).copied()))
            .collect()
    }

    fn late_node(&self) -> Option<&str> {
        let node = self.least.as_ref().err()?;
        self.line.nodes.get(*node).map(|node| node.name.as_str())
    }

    fn least_cycle(&self) -> Option<u32> {
        self.least.as_ref().ok().map(|(_, cycle)| *cycle)
    }

    fn fields(&self) -> Vec<(&'static str, Value)> {
        let number = |number: &Option<u32>| json::optional(number, |number| Value::number(*number));
        let node = |(node, least): &(&Node, Option<u32>)| {
            Value::Object(vec![
                ("node", Value::text(&node.name)),
                ("budget", number(&node.budget)),
                ("least", number(least)),
            ])
        };
        let mut fields = first_fields("budgets", self.least.is_ok(), self.line);
        fields.extend([
            ("tick", tick_value(&self.line.scale)),
            ("nodes", json::list(&self.nodes(), node)),
            ("cycle", number(&self.cycle)),
            ("least_cycle", number(&self.least_cycle())),
            (
                "late_node",
                json::optional(&self.late_node(), |name| Value::text(name)),
            ),
            (
                "written",
                json::optional(&self.written, |file| Value::text(file)),
            ),
            ("rounded", rounded_value(&self.line.rounded)),
        ]);
        fields
    }

    fn text(&self, write: Option<&OsStr>) -> String {
        const COLUMNS: [Column; 3] = [
            ("node", Align::Left),
            ("budget in the file", Align::Right),
            ("least budget", Align::Right),
        ];
        let shown =
            |number: Option<u32>| number.map_or("-".to_string(), |number| number.to_string());
        let row = |(node, least): (&Node, Option<u32>)| {
            vec![node.name.clone(), shown(node.budget), shown(least)]
        };
        let rows: Vec<Vec<String>> = self.nodes().into_iter().map(row).collect();
        let notes = section("Notes:", &self.notes(write));
        format!("{}\n\n{}{notes}", self.sentence(), table(&COLUMNS, &rows))
    }

    fn sentence(&self) -> String {
        let recorder = self.line.recorder.as_ref();
        let with = recorder.map_or(String::new(), |recorder| format!(" with {recorder}"));
        let file = &self.line.file;
        match &self.least {
            Ok((_, cycle)) => {
                let cycle = self.line.scale.show(u64::from(*cycle));
                format!("Yes: the least budgets of {file}{with} are found; with them the full cycle is {cycle}.")
            }
            Err(_) => format!(
                "No: no budgets of 1 to 16 make every stream of {file}{with} in time; node {} is the first that is late with 16.",
                self.late_node().unwrap_or_default()
            ),
        }
    }

    fn notes(&self, write: Option<&OsStr>) -> Vec<String> {
        let cycle = |cycle: u32| with_ticks(&self.line.scale, cycle.into());
        let mut notes = vec![match self.cycle {
            Some(own) => format!("Full cycle with the budgets in the file: {}.", cycle(own)),
            None => "The file does not have all budgets, so it has no full cycle of its own."
                .to_string(),
        }];
        if let Some(least) = self.least_cycle() {
            notes.push(format!(
                "Full cycle with the least budgets: {}.",
                cycle(least)
            ));
            let reminder = "The least budgets give the shortest full cycle that works, not each stream its shortest wait.";
            notes.push(reminder.to_string());
        }
        notes.extend(match (&self.written, write) {
            (Some(file), _) => Some(format!(
                "The line with the least budgets is written to {file}."
            )),
            (None, Some(file)) => Some(format!("{} is not written.", shown_name(file))),
            (None, None) => None,
        });
        notes.extend(rounded_notes(self.line));
        notes
    }
}

/// The line's text with these budgets, and the recorder's after it.
fn text_with(loaded: &Loaded, row: &[u32]) -> Result<String, Failure> {
    let source = &loaded.line_source;
    let mut text = source.text.whole(&with_budgets(source, row));
    if let Some(recorder) = &loaded.recorder_source {
        if !text.is_empty() && !text.ends_with(['\n', '\r']) {
            text.push('\n');
        }
        let own = row.get(source.draft.nodes.len()..).unwrap_or_default();
        text.push_str(&with_budgets(recorder, own));
    }
    hold(loaded, row, &text)?;
    Ok(text)
}

/// A text in which the budgets are replaced, or put in.
fn with_budgets(source: &Source, row: &[u32]) -> String {
    let mut text = String::new();
    let mut copied = 0;
    let copy = |from: usize, to: usize| source.text.text.get(from..to).unwrap_or_default();
    for (node, budget) in source.draft.nodes.iter().zip(row) {
        let place = &node.budget_place;
        let key = if node.budget.is_some() {
            ""
        } else {
            " budget "
        };
        text.push_str(&format!("{}{key}{budget}", copy(copied, place.start)));
        copied = place.end;
    }
    text.push_str(copy(copied, source.text.text.len()));
    text
}

/// The new text has to be a line file of the same line with the new budgets, and
/// the library has to admit it.
fn hold(loaded: &Loaded, row: &[u32], text: &str) -> Result<(), Failure> {
    if text.len() > MOST_LINE_BYTES {
        return Err(Fault::of_use("budgets: the new file would have more than 1 MiB").into());
    }
    let mut plan = loaded.plan.clone();
    for (node, budget) in plan.nodes.iter_mut().zip(row) {
        node.budget = *budget;
    }
    let again = of_texts(Text::of_string("the new file", text), None, true)?;
    match again.plan.admitted() {
        Ok(true) if again.plan == plan => Ok(()),
        _ => Err(Fault::of_use(
            "internal error: the new file is not the line with its least budgets",
        )
        .into()),
    }
}

#[cfg(test)]
mod tests {
    use super::*;

    fn load(line: &str, recorder: Option<&str>) -> Loaded {
        let text = |text| Text::of_string("f", text);
        let loaded = of_texts(text(line), recorder.map(text), false);
        loaded.unwrap_or_else(|failure| panic!("{failure:?}"))
    }

    #[test]
    fn budgets_are_replaced_and_the_rest_is_kept() {
        let line = "\u{feff}message 1 tick # budget 9\r\nslot 5 ticks\r\n\r\nnode  a\tbudget  13 # its budget\r\n \
                    stream b period 50 ticks deadline 50 ticks jitter 3 ticks\r\nnode c#\r\nnode d budget 16";
        let loaded = load(line, Some("\u{feff}node r\n"));
        let expected = "\u{feff}message 1 tick # budget 9\r\nslot 5 ticks\r\n\r\nnode  a\tbudget  1 # its budget\r\n \
                        stream b period 50 ticks deadline 50 ticks jitter 3 ticks\r\nnode c budget 1#\r\nnode d budget 1\nnode r budget 1\n";
        assert_eq!(text_with(&loaded, &[1, 1, 1, 1]).unwrap(), expected);
    }

    #[test]
    fn a_new_text_that_is_late_is_not_handed_out() {
        let line =
            "message 1 tick\nslot 5 ticks\nnode a\nstream b period 50 ticks deadline 15 ticks\n\
                    stream c period 50 ticks deadline 15 ticks";
        let loaded = load(line, None);
        assert!(text_with(&loaded, &[2]).is_ok());
        assert!(text_with(&loaded, &[1]).is_err());
    }
}
