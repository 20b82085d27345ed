//! The log: a release a line, its time and its stream, as text or CSV.

use std::collections::HashMap;

use crate::duration::{Duration, Unit, UNITS};
use crate::fault::Fault;
use crate::line::Line;
use crate::text::{quoted, Text};
use crate::tick::Exact;

/// What may stand around fields.
const BLANKS: [char; 2] = [' ', '\t'];

/// A message that is queued.
#[derive(Clone, Copy, PartialEq, Eq, Debug)]
pub struct Release {
    /// The line of the log.
    pub line: usize,
    /// The first tick at or after its time.
    pub tick: u32,
    /// The stream's running number, from 1.
    pub stream: u32,
}

#[derive(Clone, PartialEq, Eq, Debug)]
pub struct Log {
    pub file: String,
    pub releases: Vec<Release>,
    /// How many times were no whole number of ticks.
    pub rounded: usize,
}

impl Log {
    /// Two words a release, as the library takes them.
    pub fn words(&self) -> Vec<u32> {
        self.releases
            .iter()
            .flat_map(|release| [release.tick, release.stream])
            .collect()
    }
}

/// Reads a log of a line, or finds all its errors.
pub fn read(text: &Text, line: &Line) -> Result<Log, Vec<Fault>> {
    let mut reader = Reader {
        line,
        streams: running_numbers(line),
        bare: line.scale.unit(),
        rounded: 0,
    };
    let (mut releases, mut faults) = (Vec::new(), Vec::new());
    let mut first = true;
    for row in text.rows() {
        let (said, _comment) = row.text.split_once('#').unwrap_or((row.text, ""));
        if said.trim_matches(BLANKS).is_empty() {
            continue;
        }
        let header = std::mem::take(&mut first)
            .then(|| reader.header(said))
            .flatten();
        let read = match header {
            Some(header) => header.map(|()| None),
            None => reader.release(row.number, said).map(Some),
        };
        match read {
            Ok(release) => releases.extend(release),
            Err(message) => faults.push(Fault::at(&text.file, row.number, message)),
        }
    }
    let faults = text.with_faults(faults);
    match faults.is_empty() {
        true => Ok(Log {
            file: text.file.clone(),
            releases,
            rounded: reader.rounded,
        }),
        false => Err(faults),
    }
}

/// The running number of each stream, by node and stream.
fn running_numbers(line: &Line) -> HashMap<&str, HashMap<&str, u32>> {
    let mut number = 0;
    let mut streams = HashMap::new();
    for node in &line.nodes {
        let own: &mut HashMap<&str, u32> = streams.entry(node.name.as_str()).or_default();
        for stream in &node.streams {
            number += 1;
            own.insert(&stream.name, number);
        }
    }
    streams
}

struct Reader<'l> {
    line: &'l Line,
    streams: HashMap<&'l str, HashMap<&'l str, u32>>,
    /// The unit of numbers that have none.
    bare: Unit,
    rounded: usize,
}

impl Reader<'_> {
    /// Takes the heading `time,stream`, which may name the unit of bare numbers.
    /// None if the line is no heading.
    fn header(&mut self, said: &str) -> Option<Result<(), String>> {
        let fields = fields(said).ok()?;
        let [time, stream] = fields.as_slice() else {
            return None;
        };
        let (head, rest) = time.split_at_checked(4)?;
        if !head.eq_ignore_ascii_case("time") || !stream.eq_ignore_ascii_case("stream") {
            return None;
        }
        let rest = rest.trim_matches(BLANKS);
        if rest.is_empty() {
            return Some(Ok(()));
        }
        let unit = header_unit(rest).and_then(|word| Unit::read(word.trim_matches(BLANKS)));
        Some(match unit {
            Some(unit) => {
                self.bare = unit;
                Ok(())
            }
            None => Err(format!(
                "found {} after \"time\", expected a unit as in time_ms: {UNITS}",
                quoted(rest)
            )),
        })
    }

    fn release(&mut self, line: usize, said: &str) -> Result<Release, String> {
        let fields = fields(said)?;
        let [time, name] = fields.as_slice() else {
            let count = fields.len();
            let fields = if count == 1 { "field" } else { "fields" };
            return Err(format!(
                "found {count} {fields}, expected two: a time and NODE.STREAM"
            ));
        };
        let stream = self.stream(name)?;
        let tick = self.tick(time)?;
        Ok(Release { line, tick, stream })
    }

    /// A time in ticks: a message queued between two counts from the later one.
    fn tick(&mut self, time: &str) -> Result<u32, String> {
        let duration = Duration::read(time, Some(self.bare))?;
        let exact = Exact::of(&duration, self.line.scale.tick.as_ref());
        let exact = exact.ok_or_else(|| {
            let file = &self.line.file;
            format!("found {duration}, expected ticks: {file} has no tick statement")
        })?;
        self.rounded += usize::from(!exact.is_whole());
        let ticks = u32::try_from(exact.up());
        ticks.map_err(|_| format!("found {duration}, expected at most {} ticks", u32::MAX))
    }

    fn stream(&self, name: &str) -> Result<u32, String> {
        let shown = quoted(name);
        let Some((node, stream)) = name.split_once('.') else {
            return Err(format!("found {shown}, expected NODE.STREAM"));
        };
        let Some(streams) = self.streams.get(node) else {
            let file = &self.line.file;
            return Err(format!(
                "found {shown}, expected a node of {file}: none is called {}",
                quoted(node)
            ));
        };
        let number = streams.get(stream).copied();
        number.ok_or_else(|| {
            format!(
                "found {shown}, expected a stream of node {node}: none is called {}",
                quoted(stream)
            )
        })
    }
}

/// The unit in `_ms`, `(ms)` or `[ms]`.
fn header_unit(rest: &str) -> Option<&str> {
    let inside = |open, close| {
        rest.strip_prefix(open)
            .and_then(|rest: &str| rest.strip_suffix(close))
    };
    rest.strip_prefix('_')
        .or_else(|| inside('(', ')'))
        .or_else(|| inside('[', ']'))
}

/// The fields of a line. They are separated by semicolons, or else by commas, or
/// else by blanks, of which there may be one between a number and its unit.
fn fields(said: &str) -> Result<Vec<String>, String> {
    let pieces = unquoted_pieces(said.trim_matches(BLANKS))?;
    let has = |separator| {
        pieces
            .iter()
            .any(|(piece, quoted)| !quoted && piece.contains(separator))
    };
    if has(';') {
        return Ok(split_fields(&pieces, ';'));
    }
    if has(',') {
        return Ok(split_fields(&pieces, ','));
    }
    let mut words: Vec<String> = Vec::new();
    for (piece, quoted) in pieces {
        match quoted {
            true => words.push(piece),
            false => words.extend(
                piece
                    .split(BLANKS)
                    .filter(|word| !word.is_empty())
                    .map(String::from),
            ),
        }
    }
    match words.pop() {
        Some(name) if !words.is_empty() => Ok(vec![words.join(" "), name]),
        name => Ok(name.into_iter().collect()),
    }
}

/// The pieces of a line in double quotes and between them, and whether they are.
fn unquoted_pieces(said: &str) -> Result<Vec<(String, bool)>, String> {
    let pieces: Vec<&str> = said.split('"').collect();
    if pieces.len() % 2 == 0 {
        return Err(
            "found a quotation mark without another, expected two around a field".to_string(),
        );
    }
    let pieces = pieces.into_iter().enumerate();
    Ok(pieces
        .map(|(index, piece)| (piece.to_string(), index % 2 == 1))
        .collect())
}

fn split_fields(pieces: &[(String, bool)], separator: char) -> Vec<String> {
    let mut fields = vec![String::new()];
    for (piece, quoted) in pieces {
        let parts: Vec<&str> = if *quoted {
            vec![piece]
        } else {
            piece.split(separator).collect()
        };
        for (index, part) in parts.into_iter().enumerate() {
            if index > 0 {
                fields.push(String::new());
            }
            if let Some(last) = fields.last_mut() {
                last.push_str(part);
            }
        }
    }
    fields
        .into_iter()
        .map(|field| field.trim_matches(BLANKS).to_string())
        .collect()
}

#[cfg(test)]
mod tests {
    use super::*;

    #[test]
    fn fields_are_separated_in_several_ways() {
        for said in [
            "101.2 ms controller.damper",
            "101.2 ms\tcontroller.damper",
            "101.2 ms, controller.damper",
            "101.2 ms;controller.damper ",
            "\"101.2 ms\",\"controller.damper\"",
            "\"101.2 ms\" \"controller.damper\"",
            " \"101.2 ms\";\tcontroller.damper",
        ] {
            assert_eq!(
                fields(said).unwrap(),
                ["101.2 ms", "controller.damper"],
                "{said}"
            );
        }
        assert_eq!(fields("101,2;a.b").unwrap(), ["101,2", "a.b"]);
        assert_eq!(fields("1,a.b,").unwrap(), ["1", "a.b", ""]);
        assert_eq!(fields("a.b").unwrap(), ["a.b"]);
        assert!(fields("\"1,a.b").is_err());
    }

    #[test]
    fn a_heading_may_name_a_unit() {
        assert_eq!(header_unit("_ms"), Some("ms"));
        assert_eq!(header_unit("(ms)"), Some("ms"));
        assert_eq!(header_unit("[ms]"), Some("ms"));
        assert_eq!(header_unit("ms"), None);
    }
}
