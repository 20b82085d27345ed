//! The grammar of a line file and of a recorder's file: statements are read into
//! a draft, and all their errors are collected.

use std::collections::HashMap;

use crate::draft::{Draft, Kind, NodeDraft, StreamDraft, Written};
use crate::duration::Duration;
use crate::fault::Fault;
use crate::statement::{name_fault, Words};
use crate::text::{quoted, Row, Text};
use crate::tick::Tick;

/// What a statement has after its name, in any order: a key and its value each.
struct Keys {
    names: &'static [&'static str],
    /// So many of them, from the first, must be there.
    needed: usize,
}

const NODE_KEYS: Keys = Keys {
    names: &["budget"],
    needed: 1,
};
const STREAM_KEYS: Keys = Keys {
    names: &["period", "deadline", "jitter"],
    needed: 2,
};

/// Reads a file's statements; the errors are in line order.
pub fn read(text: &Text, kind: Kind, needs_budgets: bool) -> (Draft, Vec<Fault>) {
    let mut reader = Reader {
        kind,
        needs_budgets,
        ..Reader::default()
    };
    for row in text.rows() {
        reader.line = row.number;
        reader.statement(&row);
    }
    reader.end();
    let faults = reader.faults.into_iter();
    let faults = faults.map(|(line, message)| Fault {
        file: Some(text.file.clone()),
        line,
        message,
    });
    (reader.draft, faults.collect())
}

#[derive(Default)]
struct Reader {
    kind: Kind,
    needs_budgets: bool,
    /// The line that is read.
    line: usize,
    draft: Draft,
    faults: Vec<(Option<usize>, String)>,
    /// The first line of `tick`, `message` and `slot`.
    seen: HashMap<&'static str, usize>,
    /// The first duration in time.
    first_time: Option<Written>,
    /// The first line of each node's name, and of each stream's in its node.
    node_names: HashMap<String, usize>,
    stream_names: HashMap<String, usize>,
}

impl Reader {
    fn fault(&mut self, message: String) {
        self.faults.push((Some(self.line), message));
    }

    /// Keeps the error of a part of a statement.
    fn kept<T>(&mut self, part: Result<T, String>) -> Option<T> {
        part.map_err(|message| self.fault(message)).ok()
    }

    fn statement(&mut self, row: &Row) {
        let mut words = Words::of(row);
        let Some(keyword) = words.take() else {
            return;
        };
        match (keyword.text, self.kind) {
            ("tick", Kind::Line) => self.tick(&mut words),
            ("message", Kind::Line) => self.time("message", &mut words),
            ("slot", Kind::Line) => self.time("slot", &mut words),
            (word @ ("tick" | "message" | "slot"), Kind::Recorder) => self.fault(format!(
                "found \"{word}\", which belongs to the line, expected \"node\" or \"stream\""
            )),
            ("node", _) => self.node(&mut words),
            ("stream", _) => self.stream(&mut words),
            (other, Kind::Line) => self.fault(format!(
                "found {}, expected \"tick\", \"message\", \"slot\", \"node\" or \"stream\"",
                quoted(other)
            )),
            (other, Kind::Recorder) => self.fault(format!(
                "found {}, expected \"node\" or \"stream\"",
                quoted(other)
            )),
        }
    }

    /// Whether a statement that comes once, before the nodes, may stand here.
    fn may_stand(&mut self, keyword: &'static str) -> bool {
        if let Some(first) = self.seen.get(keyword) {
            self.fault(format!(
                "found \"{keyword}\" a second time, expected it once (line {first})"
            ));
            return false;
        }
        self.seen.insert(keyword, self.line);
        if let Some(first) = self.draft.nodes.first().map(|node| node.line) {
            self.fault(format!(
                "found \"{keyword}\" after the first node (line {first}), expected it before"
            ));
            return false;
        }
        true
    }

    fn tick(&mut self, words: &mut Words) {
        self.draft.has_tick = true;
        if !self.may_stand("tick") {
            return;
        }
        if let Some(first) = self.first_time {
            self.fault(format!(
                "found \"tick\" after a duration in time (line {}), expected it before",
                first.line
            ));
            return;
        }
        let length = words.duration(&[]).and_then(Tick::new);
        self.draft.tick = self.kept(length);
        let end = words.end();
        self.kept(end);
    }

    fn time(&mut self, keyword: &'static str, words: &mut Words) {
        if !self.may_stand(keyword) {
            return;
        }
        let duration = words.duration(&[]);
        let Some(duration) = self.kept(duration) else {
            return;
        };
        let end = words.end();
        self.kept(end);
        let written = self.written(duration);
        match keyword {
            "message" => self.draft.message = Some(written),
            _ => self.draft.slot = Some(written),
        }
    }

    fn written(&mut self, duration: Duration) -> Written {
        let line = self.line;
        let written = Written { line, duration };
        if duration.femtoseconds().is_some() {
            self.first_time.get_or_insert(written);
        }
        written
    }

    /// A name, if it is one and no other has it.
    fn name(&mut self, what: &'static str, words: &mut Words) -> Option<String> {
        let Some(name) = words.take().map(|token| token.text.to_string()) else {
            self.fault(format!(
                "found the end of the line, expected the name of the {what}"
            ));
            return None;
        };
        if let Some(message) = name_fault(&name) {
            self.fault(message);
            return None;
        }
        let names = match what {
            "node" => &mut self.node_names,
            _ => &mut self.stream_names,
        };
        let first = *names.entry(name.clone()).or_insert(self.line);
        if first != self.line {
            self.fault(format!(
                "found {what} {} a second time, expected another name (the first is in line {first})",
                quoted(&name)
            ));
        }
        Some(name)
    }

    fn node(&mut self, words: &mut Words) {
        if let (Kind::Recorder, Some(first)) = (self.kind, self.draft.nodes.first()) {
            let line = first.line;
            self.fault(format!(
                "found a second node, expected one node in a recorder's file (the first is in line {line})"
            ));
        }
        let before = self.faults.len();
        self.stream_names.clear();
        let name = self.name("node", words);
        let mut place = words.last_end()..words.last_end();
        let mut budget = None;
        while words.more() {
            let Some(_) = self.key(words, &NODE_KEYS, &[budget.is_some()]) else {
                continue;
            };
            let number = words.count();
            if let Some((number, at)) = self.kept(number) {
                budget = Some(number);
                place = at;
            }
        }
        if self.needs_budgets && budget.is_none() && self.faults.len() == before {
            self.fault("found the end of the line, expected \"budget\" and a number".to_string());
        }
        // A node with an error is kept: the streams below it are its own.
        self.draft.nodes.push(NodeDraft {
            line: self.line,
            name: name.unwrap_or_default(),
            budget,
            budget_place: place,
            streams: Vec::new(),
        });
    }

    fn stream(&mut self, words: &mut Words) {
        if self.draft.nodes.is_empty() {
            let message = "found \"stream\" before the first node, expected \"node\" above it";
            self.fault(message.to_string());
            return;
        }
        let before = self.faults.len();
        let name = self.name("stream", words);
        let values = self.stream_values(words);
        if self.faults.len() == before {
            self.missing(&STREAM_KEYS, &values.map(|value| value.is_some()));
        }
        let node = self.draft.nodes.last_mut();
        if let (Some(node), Some(name), [Some(period), Some(deadline), jitter]) =
            (node, name, values)
        {
            node.streams.push(StreamDraft {
                line: self.line,
                name,
                period,
                deadline,
                jitter,
            });
        }
    }

    /// Period, deadline and jitter, as far as they are there.
    fn stream_values(&mut self, words: &mut Words) -> [Option<Duration>; 3] {
        let mut values = [None; 3];
        while words.more() {
            let given = values.map(|value| value.is_some());
            let Some(key) = self.key(words, &STREAM_KEYS, &given) else {
                continue;
            };
            let duration = words.duration(STREAM_KEYS.names);
            let Some(duration) = self.kept(duration) else {
                words.skip_to(STREAM_KEYS.names);
                continue;
            };
            self.written(duration);
            if let Some(value) = values.get_mut(key) {
                *value = Some(duration);
            }
        }
        values
    }

    /// The number of the key that comes next. What is no key, or comes a second
    /// time, is an error, and is passed over.
    fn key(&mut self, words: &mut Words, keys: &Keys, given: &[bool]) -> Option<usize> {
        let found = words.take()?.text;
        let key = keys.names.iter().position(|key| *key == found);
        let again = key.and_then(|key| given.get(key)).copied().unwrap_or(false);
        if key.is_some() && !again {
            return key;
        }
        if again {
            self.fault(format!(
                "found {} a second time, expected it once",
                quoted(found)
            ));
        } else {
            let mut expected = names_left(keys.names, given);
            if given.iter().take(keys.needed).all(|given| *given) {
                expected.push("the end of the line".to_string());
            }
            let expected = joined(&expected, "or");
            self.fault(format!("found {}, expected {expected}", quoted(found)));
        }
        words.skip_to(keys.names);
        None
    }

    fn missing(&mut self, keys: &Keys, given: &[bool]) {
        let needed = keys.names.get(..keys.needed).unwrap_or_default();
        let left = names_left(needed, given);
        if !left.is_empty() {
            let left = joined(&left, "and");
            self.fault(format!("found the end of the line, expected {left}"));
        }
    }

    /// What the whole file lacks.
    fn end(&mut self) {
        if self.kind == Kind::Recorder {
            if self.draft.nodes.is_empty() {
                self.faults
                    .push((None, "found no node, expected one".to_string()));
            }
            return;
        }
        if let (Some(first), false) = (self.first_time, self.draft.has_tick) {
            let message = format!(
                "found {}, expected ticks: the file has no tick statement",
                first.duration
            );
            self.faults.push((Some(first.line), message));
        }
        for keyword in ["message", "slot"] {
            if !self.seen.contains_key(keyword) {
                let message =
                    format!("found no \"{keyword}\", expected it once, before the first node");
                self.faults.push((None, message));
            }
        }
    }
}

/// The keys that are not yet given, in quotation marks.
fn names_left(keys: &[&str], given: &[bool]) -> Vec<String> {
    let left = keys.iter().zip(given).filter(|(_, given)| !**given);
    left.map(|(key, _)| format!("\"{key}\"")).collect()
}

/// `a, b or c`.
fn joined(parts: &[String], word: &str) -> String {
    match parts {
        [first @ .., before, last] => {
            let first: String = first.iter().map(|part| format!("{part}, ")).collect();
            format!("{first}{before} {word} {last}")
        }
        _ => parts.concat(),
    }
}
