//! What the two programs write, byte for byte.

use std::fmt::Write;

use crate::{admit, check_sheet, refusal, replay, Answer, NOT_BEGUN};

/// The longest valid sheet: 3 + 3 × 16 + 3 × 256 words.
pub const MOST_SHEET_BYTES: usize = 3_276;
/// A horizon and 4,096 releases.
pub const MOST_SECOND_BYTES: usize = 32_772;

const MOST_STREAMS: usize = 256;

/// Little-endian words, or None for a length that no whole table has.
fn words(bytes: &[u8], most: usize) -> Option<Vec<u32>> {
    if !bytes.len().is_multiple_of(4) || bytes.len() > most {
        return None;
    }
    let word = |four: &[u8]| u32::from_le_bytes([four[0], four[1], four[2], four[3]]);
    Some(bytes.chunks_exact(4).map(word).collect())
}

fn refused(answer: Answer) -> String {
    let Answer {
        number,
        second,
        third,
    } = answer;
    format!("refused {number} at {second} {third}\n")
}

/// The words of a valid sheet, or the refusal.
fn valid_sheet(bytes: &[u8]) -> Result<Vec<u32>, Answer> {
    let sheet = words(bytes, MOST_SHEET_BYTES).ok_or(refusal(1, 0, 0))?;
    match check_sheet(&sheet) {
        Answer { number: 0, .. } => Ok(sheet),
        answer => Err(answer),
    }
}

/// Node and stream numbers in sheet order, read off the rows of a valid sheet.
fn stream_places(sheet: &[u32]) -> Vec<(u32, u32)> {
    let rows = sheet[3..].chunks_exact(3).take(sheet[0] as usize);
    let nodes = (1u32..).zip(rows.map(|row| row[1]));
    nodes
        .flat_map(|(node, count)| (1..=count).map(move |stream| (node, stream)))
        .collect()
}

/// The admit program: sheet bytes in, text out.
pub fn admit_program(input: &[u8]) -> String {
    let sheet = match valid_sheet(input) {
        Ok(sheet) => sheet,
        Err(answer) => return refused(answer),
    };
    let mut room = [0; MOST_STREAMS];
    let answer = admit(&sheet, &mut room);
    if answer.number != 0 {
        return refused(answer);
    }
    let mut text = String::from("node stream wait\n");
    for ((node, stream), wait) in stream_places(&sheet).into_iter().zip(room) {
        let _ = writeln!(text, "{node} {stream} {wait}");
    }
    let _ = writeln!(text, "admitted {}", answer.second);
    text
}

/// The replay program: the bytes of both files in, text out.
pub fn replay_program(sheet: &[u8], second: &[u8]) -> String {
    let sheet = match valid_sheet(sheet) {
        Ok(sheet) => sheet,
        Err(answer) => return refused(answer),
    };
    let second = words(second, MOST_SECOND_BYTES).unwrap_or_default();
    let Some((&horizon, log)) = second.split_first() else {
        return refused(refusal(9, 0, 0));
    };
    let mut room = vec![0; log.len() / 2];
    let answer = replay(&sheet, log, horizon, &mut room);
    if answer.number != 0 {
        return refused(answer);
    }
    let mut text = String::from("release begin\n");
    for (release, begin) in (1u32..).zip(room) {
        let _ = match begin {
            NOT_BEGUN => writeln!(text, "{release} -"),
            tick => writeln!(text, "{release} {tick}"),
        };
    }
    let _ = writeln!(text, "turns {} next {}", answer.second, answer.third);
    text
}
