//! The wrong edits. Request Nine of document 02 says which words are set, who may
//! set them, and in which order the sheet, the stream, the node and the new words
//! are judged.

use super::writer::streams;
use crate::admission::last_try;
use crate::edits::find;
use crate::sheet::{Bus, HEADER_WORDS, LAST_TICK, ROW_WORDS, STREAM_WORDS};
use crate::writer::stream_right;
use crate::{check_sheet, edit_stream, success, Answer, Edit};

type Words = [u32; STREAM_WORDS];

/// Error 85: the jitter is set in the next stream's period too, if there is a
/// next one.
pub fn edit_the_next_too(sheet: &mut [u32], edit: &Edit) -> Answer {
    let answer = edit_stream(sheet, edit);
    if answer.number == 0 {
        let next = first_word(sheet, edit) + STREAM_WORDS;
        if let Some(word) = sheet.get_mut(next) {
            *word = edit.jitter;
        }
    }
    answer
}

/// Error 86: refusal 13 goes before refusal 8.
pub fn edit_own_before_stream(sheet: &mut [u32], edit: &Edit) -> Answer {
    match edit_stream(sheet, edit) {
        Answer { number: 8, .. } if edit.node != edit.own_node => edit.refused(13),
        answer => answer,
    }
}

/// Error 87: the new words are set before they are judged.
pub fn edit_before_judging(sheet: &mut [u32], edit: &Edit) -> Answer {
    edit_with(sheet, edit, |sheet, words| {
        put(sheet, edit, words);
        stream_right(words)
    })
}

/// Error 88: the place of refusal 13 has our own node.
pub fn edit_refused_at_own_node(sheet: &mut [u32], edit: &Edit) -> Answer {
    let mut answer = edit_stream(sheet, edit);
    if answer.number == 13 {
        answer.second = edit.own_node;
    }
    answer
}

/// Error 89: the jitter is judged and left as it was.
pub fn edit_keeping_the_jitter(sheet: &mut [u32], edit: &Edit) -> Answer {
    edit_putting(sheet, edit, |sheet, [period, deadline, _]| {
        let jitter = sheet[first_word(sheet, edit) + 2];
        [period, deadline, jitter]
    })
}

/// Error 90: the old words of the stream that is named are not judged.
pub fn edit_setting_right(sheet: &mut [u32], edit: &Edit) -> Answer {
    let mut mended = sheet.to_vec();
    if check_sheet(sheet).number == 5 && is_there(sheet, edit) {
        put(&mut mended, edit, edit.words());
    }
    let answer = edit_stream(&mut mended, edit);
    if answer.number == 0 {
        sheet.copy_from_slice(&mended);
    }
    answer
}

/// Error 91: the new deadline is held to the old period.
pub fn edit_by_the_old_period(sheet: &mut [u32], edit: &Edit) -> Answer {
    edit_judging(sheet, edit, |old, [period, deadline, jitter]| {
        let period_right = (1..=LAST_TICK).contains(&period);
        period_right && (1..=old[0]).contains(&deadline) && jitter < period
    })
}

/// Error 92: whoever has no node on the sheet may set any stream.
pub fn edit_from_no_node(sheet: &mut [u32], edit: &Edit) -> Answer {
    let own_node = match is_node(sheet, edit.own_node) {
        true => edit.own_node,
        false => edit.node,
    };
    edit_stream(sheet, &Edit { own_node, ..*edit })
}

/// Error 93: refusal 13 goes before refusal 8 where our own node is not on the
/// sheet, even if it is the one that is named.
pub fn edit_own_on_the_sheet(sheet: &mut [u32], edit: &Edit) -> Answer {
    let there = is_node(sheet, edit.own_node);
    match edit_stream(sheet, edit) {
        Answer { number: 8, .. } if !there => edit.refused(13),
        answer => answer,
    }
}

/// Error 94: refusal 5 for the new words goes before refusal 13.
pub fn edit_words_before_own(sheet: &mut [u32], edit: &Edit) -> Answer {
    words_before(sheet, edit, &[13])
}

/// Error 95: refusal 5 for the new words goes before refusal 8.
pub fn edit_words_before_stream(sheet: &mut [u32], edit: &Edit) -> Answer {
    words_before(sheet, edit, &[8, 13])
}

/// Error 96: refusal 5 for the old words goes after refusals 8 and 13.
pub fn edit_old_words_last(sheet: &mut [u32], edit: &Edit) -> Answer {
    let answer = edit_stream(sheet, edit);
    if check_sheet(sheet).number != 5 {
        return answer;
    }
    let mut mended = sheet.to_vec();
    streams(&mut mended).for_each(|words| words.copy_from_slice(&[1, 1, 0]));
    match edit_stream(&mut mended, edit) {
        sooner if [8, 13].contains(&sooner.number) => sooner,
        _ => answer,
    }
}

/// Error 97: the stream that is set is counted over the whole sheet.
pub fn edit_by_running_number(sheet: &mut [u32], edit: &Edit) -> Answer {
    edit_with(sheet, edit, |sheet, words| {
        let right = stream_right(words);
        let stream = streams(sheet).nth(edit.stream as usize - 1);
        if let Some(old) = stream.filter(|_| right) {
            old.copy_from_slice(&words);
        }
        right
    })
}

/// Error 98: a jitter as long as the new period is taken.
pub fn edit_jitter_to_the_period(sheet: &mut [u32], edit: &Edit) -> Answer {
    edit_judging(sheet, edit, |_, [period, deadline, jitter]| {
        stream_right([period, deadline, 0]) && jitter <= period
    })
}

/// Error 99: refusal 7 where the new words leave no J in time.
pub fn edit_in_time_only(sheet: &mut [u32], edit: &Edit) -> Answer {
    let mut edited = sheet.to_vec();
    let answer = edit_stream(&mut edited, edit);
    if let (0, Ok(bus)) = (answer.number, Bus::read(&edited)) {
        let stream = bus.find(edit.node, edit.stream);
        if stream.is_some_and(|stream| last_try(&bus, stream) == 0) {
            return edit.refused(7);
        }
        sheet.copy_from_slice(&edited);
    }
    answer
}

/// Error 100: period and deadline are set the wrong way round.
pub fn edit_words_swapped(sheet: &mut [u32], edit: &Edit) -> Answer {
    edit_putting(sheet, edit, |_, [period, deadline, jitter]| {
        [deadline, period, jitter]
    })
}

/// Error 101: a success answers the node and the stream.
pub fn edit_answering_the_place(sheet: &mut [u32], edit: &Edit) -> Answer {
    let answer = edit_stream(sheet, edit);
    match answer.number {
        0 => success(edit.node.into(), edit.stream.into()),
        _ => answer,
    }
}

/// Error 102: there is no refusal 13.
pub fn edit_any_node(sheet: &mut [u32], edit: &Edit) -> Answer {
    let own_node = edit.node;
    edit_stream(sheet, &Edit { own_node, ..*edit })
}

/// Where the words of a stream that is there begin.
fn first_word(sheet: &[u32], edit: &Edit) -> usize {
    sheet[row(edit.node)] as usize + STREAM_WORDS * (edit.stream as usize - 1)
}

fn row(node: u32) -> usize {
    HEADER_WORDS + ROW_WORDS * (node as usize - 1)
}

fn put(sheet: &mut [u32], edit: &Edit, words: Words) {
    let first = first_word(sheet, edit);
    sheet[first..first + STREAM_WORDS].copy_from_slice(&words);
}

fn is_node(sheet: &[u32], node: u32) -> bool {
    sheet.first().is_some_and(|n| (1..=*n).contains(&node))
}

/// Whether a sheet with right contents has the stream that is named.
fn is_there(sheet: &[u32], edit: &Edit) -> bool {
    is_node(sheet, edit.node) && (1..=sheet[row(edit.node) + 1]).contains(&edit.stream)
}

/// As in the good program up to refusal 13; `finish` does the rest with the sheet
/// and the new words, and answers whether they are right.
fn edit_with(
    sheet: &mut [u32],
    edit: &Edit,
    finish: impl FnOnce(&mut [u32], Words) -> bool,
) -> Answer {
    match find(sheet, edit) {
        Ok(_) if finish(sheet, edit.words()) => success(0, 0),
        Ok(_) => edit.refused(5),
        Err(answer) => answer,
    }
}

/// Has the new words judged, beside the old ones, in another way.
fn edit_judging(sheet: &mut [u32], edit: &Edit, right: fn(Words, Words) -> bool) -> Answer {
    edit_with(sheet, edit, |sheet, words| {
        let first = first_word(sheet, edit);
        let right = right([0, 1, 2].map(|word| sheet[first + word]), words);
        if right {
            put(sheet, edit, words);
        }
        right
    })
}

/// Sets other words in place of those that were judged.
fn edit_putting(
    sheet: &mut [u32],
    edit: &Edit,
    other: impl FnOnce(&[u32], Words) -> Words,
) -> Answer {
    edit_with(sheet, edit, |sheet, words| {
        let right = stream_right(words);
        if right {
            let words = other(sheet, words);
            put(sheet, edit, words);
        }
        right
    })
}

/// Refusal 5 for the new words in place of these.
fn words_before(sheet: &mut [u32], edit: &Edit, later: &[u32]) -> Answer {
    let answer = edit_stream(sheet, edit);
    match later.contains(&answer.number) && !stream_right(edit.words()) {
        true => edit.refused(5),
        false => answer,
    }
}
