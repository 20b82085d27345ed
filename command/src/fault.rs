//! What stops an answer: errors of use and of files, and refusals of the
//! library; how they are written as text and as JSON.

use crate::json::{self, Value};

/// The most errors or refusals written as text.
const MOST_SHOWN: usize = 20;

/// An error of use or of a file.
#[derive(Clone, PartialEq, Eq, Debug)]
pub struct Fault {
    pub file: Option<String>,
    pub line: Option<usize>,
    pub message: String,
}

impl Fault {
    /// An error of use: it is in no file.
    pub fn of_use(message: impl Into<String>) -> Fault {
        Fault {
            file: None,
            line: None,
            message: message.into(),
        }
    }

    /// An error of a whole file.
    pub fn of_file(file: &str, message: impl Into<String>) -> Fault {
        Fault {
            file: Some(file.to_string()),
            line: None,
            message: message.into(),
        }
    }

    /// An error in a line of a file.
    pub fn at(file: &str, line: usize, message: impl Into<String>) -> Fault {
        Fault {
            file: Some(file.to_string()),
            line: Some(line),
            message: message.into(),
        }
    }
}

/// A refusal of the library, with the line that it is about.
#[derive(Clone, PartialEq, Eq, Debug)]
pub struct Refused {
    pub number: u32,
    /// File, line and sentence; the sentence is without the number.
    pub fault: Fault,
}

/// Why there is no answer.
#[derive(Clone, PartialEq, Eq, Debug)]
pub enum Failure {
    Errors(Vec<Fault>),
    Refusals(Vec<Refused>),
}

impl From<Fault> for Failure {
    fn from(fault: Fault) -> Failure {
        Failure::Errors(vec![fault])
    }
}

/// What a proved entry cannot answer to what is asked of it here.
pub fn internal(what: &str, refusal: wistorvan::Refusal) -> Failure {
    Failure::from(Fault::of_use(format!("internal error: {what}: {refusal}")))
}

impl Failure {
    /// 2 for errors, 1 for refusals.
    pub fn status(&self) -> u8 {
        match self {
            Failure::Errors(_) => 2,
            Failure::Refusals(_) => 1,
        }
    }

    /// One line for each, the first twenty.
    pub fn text(&self) -> String {
        let lines: Vec<String> = match self {
            Failure::Errors(faults) => faults.iter().map(fault_line).collect(),
            Failure::Refusals(refusals) => refusals.iter().map(refusal_line).collect(),
        };
        let more = lines.len().saturating_sub(MOST_SHOWN);
        let mut text: String = lines.into_iter().take(MOST_SHOWN).collect();
        if more > 0 {
            text.push_str(&format!("and {more} more\n"));
        }
        text
    }

    /// All of them, as the fields after "command".
    pub fn fields(&self) -> Vec<(&'static str, Value)> {
        match self {
            Failure::Errors(faults) => vec![
                ("answer", Value::text("error")),
                (
                    "errors",
                    json::list(faults, |fault| Value::Object(fault_fields(fault))),
                ),
            ],
            Failure::Refusals(refusals) => vec![
                ("answer", Value::text("refused")),
                ("refusals", json::list(refusals, refusal_value)),
            ],
        }
    }
}

fn place(fault: &Fault) -> String {
    let file = fault.file.as_ref().map(|file| format!("{file}: "));
    let line = fault.line.map(|line| format!("line {line}: "));
    file.unwrap_or_default() + &line.unwrap_or_default()
}

fn fault_line(fault: &Fault) -> String {
    // An error of use has no file: the program's name says who speaks.
    let speaker = if fault.file.is_none() {
        "wistorvan: "
    } else {
        ""
    };
    format!("{speaker}{}{}\n", place(fault), fault.message)
}

fn refusal_line(refused: &Refused) -> String {
    let fault = &refused.fault;
    format!(
        "{}{} (refused {})\n",
        place(fault),
        fault.message,
        refused.number
    )
}

fn fault_fields(fault: &Fault) -> Vec<(&'static str, Value)> {
    vec![
        (
            "file",
            json::optional(&fault.file, |file| Value::text(file)),
        ),
        (
            "line",
            json::optional(&fault.line, |line| Value::number(*line as u64)),
        ),
        ("message", Value::text(&fault.message)),
    ]
}

fn refusal_value(refused: &Refused) -> Value {
    let mut fields = vec![("number", Value::number(refused.number))];
    fields.extend(fault_fields(&refused.fault));
    Value::Object(fields)
}

#[cfg(test)]
mod tests {
    use super::*;

    #[test]
    fn at_most_twenty_are_written() {
        let faults = (1..=25).map(|line| Fault::at("a", line, "found x, expected y"));
        let text = Failure::Errors(faults.collect()).text();
        assert_eq!(text.lines().count(), 21);
        assert_eq!(text.lines().next(), Some("a: line 1: found x, expected y"));
        assert_eq!(text.lines().last(), Some("and 5 more"));
    }

    #[test]
    fn a_refusal_has_its_number_last() {
        let fault = Fault::at("a", 3, "budget 17");
        let failure = Failure::Refusals(vec![Refused { number: 4, fault }]);
        assert_eq!(failure.text(), "a: line 3: budget 17 (refused 4)\n");
        assert_eq!(failure.status(), 1);
    }
}
