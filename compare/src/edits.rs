//! Edits: by both on the case's sheet, and what the proved library answers about
//! the streams of other nodes before and after; and pairs of sheets that are alike
//! in all that its answers about one node depend on.

use peer::generate::{AlikeCase, EditsCase};
use peer::stats::{alike_names, edit_names};
use peer::Edit;

use crate::tally::{Outcome, Tally};
use crate::{proved, second};

/// An edit of the second program, good or broken.
pub type EditStream = fn(&mut [u32], &Edit) -> peer::Answer;

/// Words before and after the lent sheet, which stay: 0 and 1 would do as words of
/// a sheet, the others would not.
const AROUND: [u32; 4] = [0, 1, 2_000_000_000, u32::MAX];

fn with_around(sheet: &[u32]) -> Vec<u32> {
    [&AROUND, sheet, &AROUND].concat()
}

/// The sheet between the words around it.
fn between(words: &mut [u32]) -> &mut [u32] {
    let end = words.len() - AROUND.len();
    &mut words[AROUND.len()..end]
}

pub fn edited_by_proved(sheet: &[u32], edit: &Edit) -> Outcome {
    let Edit {
        own_node,
        node,
        stream,
        period,
        deadline,
        jitter,
    } = *edit;
    proved(&with_around(sheet), |words| {
        let sheet = between(words);
        wistorvan::raw::edit_stream(sheet, own_node, node, stream, period, deadline, jitter)
    })
}

pub fn edited_by_second(entry: EditStream, sheet: &[u32], edit: &Edit) -> Outcome {
    second(&with_around(sheet), |words| entry(between(words), edit))
}

/// Both on each edit of the case: all three numbers, and every word of the sheet
/// and around it. The first that is carried out is looked at further.
pub fn compare_edits(tally: &mut Tally, name: &str, case: &EditsCase) {
    let mut first = None;
    for edit in &case.edits {
        tally.new_edit();
        let mine = edited_by_proved(&case.sheet, edit);
        let other = edited_by_second(peer::edit_stream, &case.sheet, edit);
        let alone = (&case.sheet, edit);
        let same = tally.compare("edit", name, &alone, &mine, &other);
        let number = other.answer.0;
        tally.named("edit", number, edit_names(&case.sheet, edit));
        if same && number == 0 {
            first.get_or_insert((edit, mine.left));
        }
    }
    if let Some((edit, mut words)) = first {
        compare_after(tally, name, &case.sheet, between(&mut words), edit);
    }
}

fn one_stream(sheet: &[u32], node: u32, stream: u32) -> Outcome {
    proved(&[], |_| wistorvan::raw::one_stream(sheet, node, stream))
}

/// The node's number of streams.
fn count(sheet: &[u32], node: u32) -> u32 {
    sheet[3 * node as usize + 1]
}

/// The sheet that an edit leaves is valid, and every answer about a stream of
/// another node is as it was.
fn compare_after(tally: &mut Tally, name: &str, sheet: &[u32], after: &[u32], edit: &Edit) {
    let alone = (sheet, edit);
    let checked = proved(&[], |_| wistorvan::raw::check_sheet(after));
    let valid = Outcome {
        answer: (0, 0, 0),
        left: vec![],
    };
    tally.compare("sheet after an edit", name, &alone, &checked, &valid);
    for node in (1..=sheet[0]).filter(|&node| node != edit.own_node) {
        for stream in 1..=count(sheet, node) {
            let asked = (sheet, edit, node, stream);
            let then = one_stream(after, node, stream);
            let before = one_stream(sheet, node, stream);
            tally.compare("other node after an edit", name, &asked, &then, &before);
        }
    }
}

/// On both sheets the proved library answers the same about every stream of the
/// own node.
pub fn compare_alike(tally: &mut Tally, name: &str, case: &AlikeCase) {
    tally.new_pair();
    let [sheet, other] = &case.sheets;
    let node = case.own_node;
    for stream in 1..=count(sheet, node) {
        let asked = (case, stream);
        let there = one_stream(other, node, stream);
        let here = one_stream(sheet, node, stream);
        tally.compare("sheets alike", name, &asked, &there, &here);
    }
    tally.named("sheets alike", 0, alike_names(case));
}
