//! How generated cases spread over the answers of an edit and over their causes,
//! what an edit that is carried out does, and how two sheets alike may differ.

use super::{fitting, words_cause, Figures};
use crate::admission::{last_try, least_cycles};
use crate::edits::place;
use crate::generate::{alike_case, edits_case, AlikeCase};
use crate::sheet::{Bus, LAST_TICK};
use crate::writer::stream_right;
use crate::{check_sheet, edit_stream, one_stream, read_tables, Edit, Tables};

/// What an edit that is carried out may set.
pub const SET_NAMES: [&str; 10] = [
    "no word changed",
    "one word changed",
    "all three words changed",
    "period 1",
    "period 10^9",
    "deadline at the period",
    "jitter just below the period",
    "the first stream of the sheet",
    "the last stream of the sheet",
    "the only stream of its node",
];

/// What it may do to the streams of its node.
pub const MOVED_NAMES: [&str; 6] = [
    "another rank",
    "made late",
    "no longer late",
    "another stream made late",
    "another stream no longer late",
    "another wait of the node changed",
];

/// What may be wrong, or wrong too, where there is no such stream.
pub const NO_STREAM_NAMES: [&str; 8] = [
    "named node 0",
    "named node too large",
    "named stream 0",
    "named stream too large",
    "a node without streams",
    "own node not on the sheet either",
    "not the own node either",
    "wrong words too",
];

/// What the own node may be where another is named, and what may be wrong too.
pub const NOT_OWN_NAMES: [&str; 4] = [
    "own node on the sheet",
    "own node 0",
    "own node too large",
    "wrong words too",
];

/// What may be wrong too where a stream of the sheet is out of range as it is.
pub const OLD_WORDS_NAMES: [&str; 5] = [
    "old words",
    "old words that would be set right",
    "old words and no such stream",
    "old words and not the own node",
    "old words and wrong new ones",
];

/// What may be wrong with the new words. A program that held the deadline to the
/// old period would take the last.
pub const NEW_WORDS_NAMES: [&str; 7] = [
    "period low",
    "period high",
    "deadline low",
    "deadline above period",
    "jitter at period",
    "jitter above period",
    "deadline within the old period",
];

/// How two sheets alike may differ elsewhere, and where the own node stands.
pub const ALIKE_NAMES: [&str; 6] = [
    "other counts elsewhere",
    "every count elsewhere another",
    "the same counts elsewhere, other words",
    "no stream elsewhere in one of them",
    "the own body at another place",
    "the own node between others",
];

/// More tries of J are not worth a name.
const MOST_TRIES: u64 = 20_000;

/// The names that fit an edit of this sheet, by the number that is answered; none
/// for a sheet that is refused for another reason than its words.
pub fn edit_names(sheet: &[u32], edit: &Edit) -> Vec<&'static str> {
    let mut after = sheet.to_vec();
    let answer = edit_stream(&mut after, edit);
    let Ok(tables) = read_tables(sheet) else {
        return match answer.number {
            5 => old_words_names(sheet, edit),
            _ => vec![],
        };
    };
    match answer.number {
        0 => {
            let set = set_names(&tables, [sheet, &after], edit);
            [set, moved_names([sheet, &after], edit)].concat()
        }
        5 => new_words_names(&tables, edit),
        8 => no_stream_names(&tables, edit),
        _ => not_own_names(&tables, edit),
    }
}

fn on_the_sheet(tables: &Tables, node: u32) -> bool {
    node >= 1 && node as usize <= tables.counts.len()
}

fn no_stream_names(tables: &Tables, edit: &Edit) -> Vec<&'static str> {
    let there = on_the_sheet(tables, edit.node);
    let count = there.then(|| tables.counts[edit.node as usize - 1]);
    fitting(
        NO_STREAM_NAMES,
        [
            edit.node == 0,
            edit.node > 0 && !there,
            there && edit.stream == 0,
            there && edit.stream > 0,
            count == Some(0),
            edit.own_node == edit.node && !there,
            edit.own_node != edit.node,
            !stream_right(edit.words()),
        ],
    )
}

fn not_own_names(tables: &Tables, edit: &Edit) -> Vec<&'static str> {
    let there = on_the_sheet(tables, edit.own_node);
    fitting(
        NOT_OWN_NAMES,
        [
            there,
            edit.own_node == 0,
            edit.own_node > 0 && !there,
            !stream_right(edit.words()),
        ],
    )
}

fn new_words_names(tables: &Tables, edit: &Edit) -> Vec<&'static str> {
    let [period, deadline, jitter] = edit.words();
    let cause = words_cause(period, deadline, jitter);
    let [.., above, _, _, within] = NEW_WORDS_NAMES;
    let stream = place(tables, edit.node, edit.stream);
    let by_old = stream.is_some_and(|stream| deadline <= tables.periods[stream]);
    let fits = |name| name == cause || name == within && cause == above && by_old;
    fitting(NEW_WORDS_NAMES, NEW_WORDS_NAMES.map(fits))
}

/// The contents of the sheet are right here.
fn old_words_names(sheet: &[u32], edit: &Edit) -> Vec<&'static str> {
    let row = 3 * edit.node as usize;
    let there = edit.node >= 1 && edit.node <= sheet[0];
    let has = there && edit.stream >= 1 && edit.stream <= sheet[row + 1];
    let (own, right) = (edit.node == edit.own_node, stream_right(edit.words()));
    let mut mended = sheet.to_vec();
    if has {
        let first = sheet[row] as usize + 3 * (edit.stream as usize - 1);
        mended[first..first + 3].copy_from_slice(&edit.words());
    }
    fitting(
        OLD_WORDS_NAMES,
        [
            true,
            own && check_sheet(&mended).number == 0,
            !has,
            has && !own,
            has && own && !right,
        ],
    )
}

/// Wait and J of each stream of a node, none for a late one; none at all if that
/// takes too many tries.
fn waits(bus: &Bus, node: u32) -> Option<Vec<Option<(u64, u64)>>> {
    let node = &bus.nodes()[node as usize - 1];
    let mut left = MOST_TRIES;
    let streams = node.first..node.first + node.count;
    let waits = streams.map(|stream| {
        let last = last_try(bus, stream).min(left + 1);
        let found = least_cycles(bus, stream, last);
        left = left.checked_sub(found.map_or(last, |found| found.cycles))?;
        Some(found.map(|found| (found.wait, found.cycles)))
    });
    waits.collect()
}

/// The streams of a node in the order of their rank.
fn order(bus: &Bus, node: u32) -> Vec<usize> {
    let node = &bus.nodes()[node as usize - 1];
    let mut streams: Vec<usize> = (node.first..node.first + node.count).collect();
    streams.sort_by_key(|&stream| bus.priority(stream));
    streams
}

fn set_names(tables: &Tables, sheets: [&[u32]; 2], edit: &Edit) -> Vec<&'static str> {
    let [period, deadline, jitter] = edit.words();
    let words = sheets[0].iter().zip(sheets[1]);
    let changed = words.filter(|(old, new)| old != new).count();
    let stream = place(tables, edit.node, edit.stream);
    fitting(
        SET_NAMES,
        [
            changed == 0,
            changed == 1,
            changed == 3,
            period == 1,
            period == LAST_TICK,
            deadline == period,
            jitter > 0 && jitter == period - 1,
            stream == Some(0),
            stream.is_some_and(|stream| stream + 1 == tables.periods.len()),
            tables.counts[edit.node as usize - 1] == 1,
        ],
    )
}

fn moved_names(sheets: [&[u32]; 2], edit: &Edit) -> Vec<&'static str> {
    let [Ok(before), Ok(after)] = sheets.map(Bus::read) else {
        return vec![];
    };
    let mut pairs: Vec<_> = match [&before, &after].map(|bus| waits(bus, edit.node)) {
        [Some(old), Some(new)] => old.into_iter().zip(new).collect(),
        _ => vec![],
    };
    let own = match pairs.is_empty() {
        true => (None, None),
        false => pairs.remove(edit.stream as usize - 1),
    };
    let made_late = |(old, new): &(Option<_>, Option<_>)| old.is_some() && new.is_none();
    let in_time = |(old, new): &(Option<_>, Option<_>)| old.is_none() && new.is_some();
    let changed =
        |(old, new): &(Option<_>, Option<_>)| old.is_some() && new.is_some() && old != new;
    fitting(
        MOVED_NAMES,
        [
            order(&before, edit.node) != order(&after, edit.node),
            made_late(&own),
            in_time(&own),
            pairs.iter().any(made_late),
            pairs.iter().any(in_time),
            pairs.iter().any(changed),
        ],
    )
}

/// The names that fit a pair of sheets.
pub fn alike_names(case: &AlikeCase) -> Vec<&'static str> {
    let [Ok(one), Ok(other)] = case.sheets.each_ref().map(|sheet| read_tables(sheet)) else {
        return vec![];
    };
    let own = case.own_node as usize - 1;
    let elsewhere = |tables: &Tables| {
        let mut counts = tables.counts.clone();
        counts.remove(own);
        counts
    };
    let counts = [elsewhere(&one), elsewhere(&other)];
    let mut pairs = counts[0].iter().zip(&counts[1]);
    let empty = |counts: &Vec<u32>| counts.iter().all(|&count| count == 0);
    let body = |sheet: &[u32]| sheet[3 * case.own_node as usize];
    let [first, second] = &case.sheets;
    fitting(
        ALIKE_NAMES,
        [
            counts[0] != counts[1],
            !counts[0].is_empty() && pairs.all(|(one, other)| one != other),
            counts[0] == counts[1] && first != second,
            counts.iter().any(empty) && !counts.iter().all(empty),
            body(first) != body(second),
            own > 0 && own + 1 < one.counts.len(),
        ],
    )
}

/// Over the edits of so many cases.
pub fn gather_edits(seed: u64, count: u64) -> Figures {
    let mut figures = Figures::default();
    for index in 0..count {
        let case = edits_case(seed, index);
        for edit in &case.edits {
            let answer = edit_stream(&mut case.sheet.clone(), edit);
            figures.total("edits", 1);
            figures.add(match (answer.number, answer.second) {
                (4, 0) => "edit 4 at 0 0".to_string(),
                (4, _) => "edit 4 at a node".to_string(),
                (number, _) => format!("edit {number}"),
            });
            for name in edit_names(&case.sheet, edit) {
                figures.add(format!("edit {}, {name}", answer.number));
            }
        }
    }
    figures
}

/// Over so many pairs of sheets, and the streams that are asked about on both.
pub fn gather_alike(seed: u64, count: u64) -> Figures {
    let mut figures = Figures::default();
    for index in 0..count {
        let case = alike_case(seed, index);
        for name in alike_names(&case) {
            figures.add(format!("alike, {name}"));
        }
        let sheet = &case.sheets[0];
        for stream in 1..=sheet[3 * case.own_node as usize + 1] {
            let answer = one_stream(sheet, case.own_node, stream);
            figures.add(format!("alike, answer {}", answer.number));
            let long = answer.number == 0 && answer.third > 1;
            figures.total("alike, answer 0, J 2 or more", u64::from(long));
        }
    }
    figures
}
