//! `text`: a line file from a sheet of words.

use std::ffi::OsStr;
use std::fmt::Write;
use std::io::Read;

use wistorvan::check_sheet;

use crate::duration::Duration;
use crate::fault::{Failure, Fault, Refused};
use crate::load::of_texts;
use crate::plan::{NodePlan, Plan, StreamPlan};
use crate::report::Report;
use crate::text::{read_bytes, shown_name, Text, MOST_LINE_BYTES};
use crate::tick::{Scale, Tick};

pub fn text(sheet: &OsStr, tick: Option<&OsStr>, input: &mut dyn Read) -> Result<Report, Failure> {
    let tick = tick.map(read_tick).transpose()?;
    let file = shown_name(sheet);
    let words = read_words(sheet, &file, input)?;
    if let Err(refusal) = check_sheet(&words) {
        let fault = Fault::of_file(&file, cause(&refusal.to_string()));
        let number = refusal.number();
        return Err(Failure::Refusals(vec![Refused { number, fault }]));
    }
    let internal = |what: &str| Fault::of_file(&file, format!("internal error: {what}"));
    let plan = tables(&words).ok_or_else(|| internal("the sheet could not be read"))?;
    let again = plan
        .write()
        .map_err(|refusal| internal(&refusal.to_string()))?;
    if again.words != words {
        return Err(internal("the sheet written again is another one").into());
    }
    let text = line_file(&plan, &Scale { tick });
    hold(&text, &words)?;
    Ok(Report::text(true, text))
}

fn read_tick(length: &OsStr) -> Result<Tick, Fault> {
    let length = length.to_string_lossy();
    let tick = Duration::read(&length, None).and_then(Tick::new);
    tick.map_err(|message| Fault::of_use(format!("text: --tick: {message}")))
}

fn read_words(sheet: &OsStr, file: &str, input: &mut dyn Read) -> Result<Vec<u32>, Fault> {
    let bytes = read_bytes(sheet, input, MOST_LINE_BYTES)?;
    let words = bytes
        .chunks(4)
        .map(|bytes| bytes.try_into().map(u32::from_le_bytes));
    let words: Result<Vec<u32>, _> = words.collect();
    words.map_err(|_| {
        let message = format!(
            "found {} bytes, expected a multiple of 4: a sheet is a table of 32-bit words",
            bytes.len()
        );
        Fault::of_file(file, message)
    })
}

/// A refusal's sentence without its number, which comes after it here.
fn cause(sentence: &str) -> String {
    sentence
        .split_once(": ")
        .map_or(sentence, |(_, cause)| cause)
        .to_string()
}

/// The tables of a valid sheet, by its layout: three words, then three a node
/// (place, count, budget), then three a stream (period, deadline, jitter).
fn tables(words: &[u32]) -> Option<Plan> {
    let (header, rest) = words.split_at_checked(3)?;
    let (contents, bodies) = rest.split_at_checked(3 * usize::try_from(*header.first()?).ok()?)?;
    let stream = |words: &[u32]| {
        Some(StreamPlan {
            period: *words.first()?,
            deadline: *words.get(1)?,
            jitter: *words.get(2)?,
        })
    };
    let mut streams = bodies.chunks_exact(3).map(stream);
    let mut nodes = Vec::new();
    for row in contents.chunks_exact(3) {
        let (count, budget) = (*row.get(1)?, *row.get(2)?);
        let own = streams.by_ref().take(count as usize);
        nodes.push(NodePlan {
            budget,
            streams: own.collect::<Option<_>>()?,
        });
    }
    Some(Plan {
        message: *header.get(1)?,
        slot: *header.get(2)?,
        nodes,
    })
}

fn line_file(plan: &Plan, scale: &Scale) -> String {
    let show = |ticks: u32| scale.show(ticks.into());
    let mut text = scale
        .tick
        .map_or(String::new(), |tick| format!("tick {tick}\n"));
    text.push_str(&format!(
        "message {}\nslot {}\n",
        show(plan.message),
        show(plan.slot)
    ));
    for (node, number) in plan.nodes.iter().zip(1..) {
        // Writing to a string does not fail.
        let _ = writeln!(text, "node node{number} budget {}", node.budget);
        for (stream, number) in node.streams.iter().zip(1..) {
            let (period, deadline) = (show(stream.period), show(stream.deadline));
            let jitter = match stream.jitter {
                0 => String::new(),
                jitter => format!(" jitter {}", show(jitter)),
            };
            let _ = writeln!(
                text,
                "  stream stream{number} period {period} deadline {deadline}{jitter}"
            );
        }
    }
    text
}

/// The text has to make the same words. With a very long tick its numbers are
/// too long for a line file.
fn hold(text: &str, words: &[u32]) -> Result<(), Failure> {
    let again = of_texts(Text::of_string("the line file", text), None, true);
    let message = match again {
        Ok(again) if again.sheet.words == words => return Ok(()),
        Ok(_) => "internal error: the line file makes another sheet",
        Err(_) => "text: --tick: found a length with which durations have too many digits, expected a shorter one",
    };
    Err(Fault::of_use(message).into())
}

#[cfg(test)]
mod tests {
    use super::*;

    #[test]
    fn tables_are_read_by_the_layout() {
        let sheet = [2, 5, 1, 9, 2, 1, 15, 1, 2, 40, 39, 0, 60, 59, 7, 30, 30, 0];
        let plan = tables(&sheet).unwrap();
        assert_eq!((plan.message, plan.slot), (5, 1));
        let streams = plan.nodes[0].streams.iter();
        let words: Vec<_> = streams.map(|s| (s.period, s.deadline, s.jitter)).collect();
        assert_eq!(words, [(40, 39, 0), (60, 59, 7)]);
        assert_eq!((plan.nodes[1].budget, plan.nodes[1].streams.len()), (2, 1));
        assert_eq!(tables(&[2, 5]), None);
    }
}
