//! The wrong writers.

use crate::sheet::{HEADER_WORDS, ROW_WORDS, STREAM_WORDS};
use crate::writer::{check_streams, put, stream_right, Part};
use crate::{refusal, success, write_sheet, Answer, Tables};

/// Error 12: every body has the place of the first one, as if no stream came
/// before it.
pub fn write_one_place(tables: &Tables, room: &mut [u32]) -> Answer {
    write_edited(tables, room, |words| {
        let first = words[HEADER_WORDS];
        rows(words).for_each(|row| row[0] = first);
    })
}

/// Error 13: count and budget stand the wrong way round in a row.
pub fn write_rows_swapped(tables: &Tables, room: &mut [u32]) -> Answer {
    write_edited(tables, room, |words| {
        rows(words).for_each(|row| row.swap(1, 2));
    })
}

/// Error 14: refusal 6 goes before refusal 5.
pub fn write_room_before_streams(tables: &Tables, room: &mut [u32]) -> Answer {
    write_with(tables, |nodes, words| {
        if room.len() < words.len() {
            return Err(refusal(6, 0, 0));
        }
        check_streams(nodes, stream_right)?;
        put(&words, room)
    })
}

/// Error 15: the number of deadlines is not checked. Those that are missing
/// are 1, those too many are not used.
pub fn write_any_deadlines(tables: &Tables, room: &mut [u32]) -> Answer {
    let mut tables = tables.clone();
    tables.deadlines.resize(tables.periods.len(), 1);
    write_sheet(&tables, room)
}

/// Error 16: a 0 comes after the sheet, if the room goes on.
pub fn write_past_the_sheet(tables: &Tables, room: &mut [u32]) -> Answer {
    let answer = write_sheet(tables, room);
    if answer.number == 0 {
        if let Some(word) = room.get_mut(answer.second as usize) {
            *word = 0;
        }
    }
    answer
}

/// Error 17: the budget of the last node is not in the cycle.
pub fn write_short_cycle(tables: &Tables, room: &mut [u32]) -> Answer {
    let mut answer = write_sheet(tables, room);
    if let (0, Some(last)) = (answer.number, tables.budgets.last()) {
        answer.third -= last * tables.message_ticks;
    }
    answer
}

/// Error 18: period and deadline stand the wrong way round in a body.
pub fn write_bodies_swapped(tables: &Tables, room: &mut [u32]) -> Answer {
    write_edited(tables, room, |words| {
        streams(words).for_each(|stream| stream.swap(0, 1));
    })
}

/// Error 19: a room that is long enough is written before refusal 5 is found.
pub fn write_before_streams(tables: &Tables, room: &mut [u32]) -> Answer {
    write_with(tables, |nodes, words| {
        let written = put(&words, room);
        check_streams(nodes, stream_right)?;
        written
    })
}

/// The row of each node in the words of a sheet.
fn rows(words: &mut [u32]) -> impl Iterator<Item = &mut [u32]> {
    let nodes = words[0] as usize;
    words[HEADER_WORDS..]
        .chunks_exact_mut(ROW_WORDS)
        .take(nodes)
}

/// The words of each stream in the words of a sheet.
pub(super) fn streams(words: &mut [u32]) -> impl Iterator<Item = &mut [u32]> {
    let bodies = HEADER_WORDS + ROW_WORDS * words[0] as usize;
    words[bodies..].chunks_exact_mut(STREAM_WORDS)
}

/// Has the words changed between the checks of the tables and the room.
pub(super) fn write_edited(
    tables: &Tables,
    room: &mut [u32],
    edit: impl FnOnce(&mut [u32]),
) -> Answer {
    write_with(tables, |nodes, mut words| {
        check_streams(nodes, stream_right)?;
        edit(&mut words);
        put(&words, room)
    })
}

/// As in the good program up to refusal 4; `finish` does the rest with the
/// nodes and the words of the sheet.
pub(super) fn write_with(
    tables: &Tables,
    finish: impl FnOnce(&[Part], Vec<u32>) -> Result<(), Answer>,
) -> Answer {
    let nodes = match tables.nodes() {
        Ok(nodes) => nodes,
        Err(answer) => return answer,
    };
    let words = tables.words(&nodes);
    let good = success(words.len() as u64, tables.cycle(&nodes));
    finish(&nodes, words).err().unwrap_or(good)
}
