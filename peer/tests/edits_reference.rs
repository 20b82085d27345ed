//! Edits against a literal one that works in the sheet itself, and the two claims
//! of request Nine: what an edit leaves as it was elsewhere, and what the answers
//! about a node do not depend on.

mod common;

use common::*;
use peer::generate::{alike_case, edits_case, named_alike, named_edits};
use peer::generate::{AlikeCase, EditsCase};
use peer::stats::{alike_names, ALIKE_NAMES};
use peer::{check_sheet, edit_stream, one_stream, read_tables, Answer, Edit};

/// The answer by the words of the request, one refusal after the other; the words
/// are set where they stand.
fn literal_edit(sheet: &mut [u32], edit: &Edit) -> Answer {
    let old = check_sheet(sheet);
    if old.number != 0 {
        return old;
    }
    let (node, stream) = (edit.node, edit.stream);
    if node == 0 || node > sheet[0] || stream == 0 || stream > sheet[3 * node as usize + 1] {
        return answer(8, node, stream);
    }
    if node != edit.own_node {
        return answer(13, node, stream);
    }
    let outside = |word: u32, most: u32| word == 0 || word > most;
    if outside(edit.period, 1_000_000_000)
        || outside(edit.deadline, edit.period)
        || edit.jitter >= edit.period
    {
        return answer(5, node, stream);
    }
    let place = sheet[3 * node as usize] as usize + 3 * (stream as usize - 1);
    sheet[place] = edit.period;
    sheet[place + 1] = edit.deadline;
    sheet[place + 2] = edit.jitter;
    answer(0, 0, 0)
}

/// Answer, and every word of the sheet after it.
fn check_case(case: &EditsCase, name: &str) {
    for edit in &case.edits {
        let (mut sheet, mut expected) = (case.sheet.clone(), case.sheet.clone());
        let given = edit_stream(&mut sheet, edit);
        assert_eq!(given, literal_edit(&mut expected, edit), "{name} {edit:?}");
        assert_eq!(sheet, expected, "{name} {edit:?}");
        if given.number == 0 {
            assert_eq!(check_sheet(&sheet), answer(0, 0, 0), "{name} {edit:?}");
        }
    }
}

#[test]
fn generated_and_named_edits() {
    for index in 0..10_000 {
        check_case(&edits_case(9, index), &index.to_string());
    }
    for (name, case) in named_edits() {
        check_case(&case, name);
    }
}

/// An edit and its opposite leave the sheet as it was.
#[test]
fn taken_back() {
    let mut taken_back = 0;
    for index in 0..2_000 {
        let case = edits_case(10, index);
        for edit in &case.edits {
            let mut sheet = case.sheet.clone();
            if edit_stream(&mut sheet, edit).number != 0 {
                continue;
            }
            let place = (edit.node as usize - 1, edit.stream as usize - 1);
            let old = bodies(&case.sheet)[place.0][place.1];
            let back = Edit::new(edit.own_node, (edit.node, edit.stream), old);
            assert_eq!(edit_stream(&mut sheet, &back), answer(0, 0, 0));
            assert_eq!(sheet, case.sheet, "case {index}");
            taken_back += 1;
        }
    }
    assert!(taken_back > 900, "{taken_back}");
}

/// The answers about all streams of a node, in their order.
fn answers(sheet: &[u32], node: u32) -> Vec<Answer> {
    let streams = 1..=sheet[3 * node as usize + 1];
    streams
        .map(|stream| one_stream(sheet, node, stream))
        .collect()
}

#[derive(Default, Debug)]
struct Count {
    pairs: usize,
    listed: usize,
    long: usize,
    late: usize,
}

impl Count {
    fn add(&mut self, answers: &[Answer]) {
        self.pairs += 1;
        for one in answers {
            assert!([0, 7].contains(&one.number), "{one:?}");
            self.listed += usize::from(one.number == 0);
            self.long += usize::from(one.number == 0 && one.third > 1);
            self.late += usize::from(one.number == 7);
        }
    }
}

/// "Every wait, J and late mark of the owner's nodes then stays as it was."
#[test]
fn other_nodes_keep_their_answers() {
    let mut count = Count::default();
    for index in 0..2_000 {
        let case = edits_case(11, index);
        let mut sheet = case.sheet.clone();
        let carried_out = |edit: &&Edit| edit_stream(&mut sheet, edit).number == 0;
        let Some(edit) = case.edits.iter().find(carried_out) else {
            continue;
        };
        for node in (1..=sheet[0]).filter(|&node| node != edit.own_node) {
            let before = answers(&case.sheet, node);
            assert_eq!(answers(&sheet, node), before, "case {index}, node {node}");
            count.add(&before);
        }
    }
    assert!(count.pairs > 3_000 && count.listed > 7_000, "{count:?}");
    assert!(count.long > 2_500 && count.late > 2_500, "{count:?}");
}

/// What two sheets have to be alike in, and what they must not be refused for.
fn assert_alike(case: &AlikeCase) {
    let tables = case.sheets.each_ref().map(|sheet| read_tables(sheet));
    let [Ok(one), Ok(other)] = tables else {
        panic!("{case:?}");
    };
    assert_eq!(one.counts.len(), other.counts.len());
    let ticks = [&one, &other].map(|tables| (tables.message_ticks, tables.slot_ticks));
    assert_eq!(ticks[0], ticks[1]);
    assert_eq!(one.budgets, other.budgets);
    let own = case.own_node as usize - 1;
    let [first, second] = case
        .sheets
        .each_ref()
        .map(|sheet| bodies(sheet).remove(own));
    assert_eq!(first, second);
}

/// "Two valid sheets alike in n, TMS, TPR, budgets and guest streams give the same
/// one-stream answers on those streams."
#[test]
fn sheets_alike_give_the_same_answers() {
    let (mut count, mut names) = (Count::default(), vec![]);
    for index in 0..2_000 {
        let case = alike_case(12, index);
        assert_alike(&case);
        let [one, other] = case.sheets.each_ref().map(|it| answers(it, case.own_node));
        assert_eq!(one, other, "case {index}");
        count.add(&one);
        names.extend(alike_names(&case));
    }
    assert!(count.pairs == 2_000 && count.listed > 5_000, "{count:?}");
    assert!(count.long > 2_500 && count.late > 2_500, "{count:?}");
    for (name, share) in ALIKE_NAMES.iter().zip([1_100, 850, 130, 160, 750, 550]) {
        let times = names.iter().filter(|it| *it == name).count();
        assert!(times >= share, "{name}: {times}");
    }
}

#[test]
fn named_pairs() {
    for (name, case) in named_alike() {
        assert_alike(&case);
        let expected: &[Answer] = match name {
            "no stream of the own node" => &[],
            "late with and without" => &[answer(0, 11, 1), answer(7, 2, 2)],
            _ => &[answer(0, 11, 1), answer(0, 23, 2)],
        };
        for sheet in &case.sheets {
            assert_eq!(answers(sheet, case.own_node), expected, "{name}");
        }
    }
}

/// The words in which two sheets have to be alike do count: where one of them is
/// changed, many answers are others.
#[test]
fn answers_depend_on_what_is_alike() {
    let mut differ = [0; 4];
    for index in 0..1_000 {
        let AlikeCase { own_node, sheets } = alike_case(13, index);
        let sheet = &sheets[0];
        let before = answers(sheet, own_node);
        let own = own_node as usize;
        let another = own % sheet[0] as usize + 1;
        let places = [1, 2, 3 * another + 2, sheet[3 * own] as usize + 1];
        for (times, place) in differ.iter_mut().zip(places) {
            let word = *sheet.get(place).unwrap_or(&1);
            let mut changed = sheet.clone();
            // Half of it is in range, and makes no search much longer. The last
            // place is a deadline of the own node.
            if word > 1 {
                changed[place] = word / 2;
                *times += usize::from(answers(&changed, own_node) != before);
            }
        }
    }
    assert!(differ.iter().all(|&times| times > 200), "{differ:?}");
}
