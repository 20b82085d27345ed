//! What was compared, how often each answer occurred, and what differed.

use std::collections::{BTreeMap, BTreeSet};
use std::fmt::Debug;

use peer::stats::LIST_NAMES;
use peer::stats::{ALIKE_NAMES, MOVED_NAMES, NEW_WORDS_NAMES, NOT_OWN_NAMES};
use peer::stats::{EVENT_NAMES, IN_TIME_NAMES, JITTER_FAULTS, JITTER_NAMES, TOO_LATE_NAMES};
use peer::stats::{FOUND_NAMES, LATE_NAMES, NO_ROW_NAMES, ROW_NAMES};
use peer::stats::{HORIZON_FAULTS, JOINED_NAMES, PIECE_FAULTS, PIECE_NAMES, RECORD_FAULTS};
use peer::stats::{NO_STREAM_NAMES, OLD_WORDS_NAMES, SET_NAMES};

use crate::far;

/// An entry, the number it answered, and the kind of place, what was far, what
/// the search for J or for budgets came to, what a jitter was or did, or what a
/// piece, pieces joined, a list of records, an edit or a pair of sheets had or came
/// to.
pub type Kind = (&'static str, u32, &'static str);

/// The far numbers that a whole run must have met.
pub const FAR: [Kind; 8] = [
    ("admit", 0, far::WAIT),
    ("one stream", 0, far::WAIT),
    ("replay", 0, far::BEGIN),
    ("replay", 0, far::TURNS),
    ("step", 0, far::BEGIN),
    ("admit program", 0, far::WAIT),
    ("replay program", 0, far::BEGIN),
    ("replay program", 0, far::TURNS),
];

/// The long searches for J, and the reasons for which streams are late, that a
/// whole run must have met with both entries that answer them; and the rows of
/// budgets and the reasons for which there is none.
pub fn searches() -> Vec<Kind> {
    let of = |entry| {
        let found = FOUND_NAMES.map(|name| (entry, 0, name));
        let late = LATE_NAMES.map(|name| (entry, 7, name));
        found.into_iter().chain(late)
    };
    let rows = ROW_NAMES.map(|name| ("find budgets", 0, name));
    let no_rows = NO_ROW_NAMES.map(|name| ("find budgets", 11, name));
    let budgets = rows.into_iter().chain(no_rows);
    of("one stream").chain(of("admit")).chain(budgets).collect()
}

/// The kinds of jitters that a whole run must have met: in sheets and tables,
/// right and wrong, in answers that they change, and in logs that they allow.
pub fn jitters() -> Vec<Kind> {
    [
        of("sheet", 0, &JITTER_NAMES),
        of("sheet", 5, &JITTER_FAULTS),
        of("write", 0, &JITTER_NAMES),
        of("write", 5, &JITTER_FAULTS),
        of("one stream", 0, &IN_TIME_NAMES),
        of("one stream", 7, &TOO_LATE_NAMES),
        of("replay", 0, &EVENT_NAMES),
    ]
    .concat()
}

/// What a whole run must have met of pieces: what one that is carried out may be
/// or do, what may be wrong with record, releases and horizon, and what pieces
/// joined may come to.
pub fn expected_pieces() -> Vec<Kind> {
    [
        of("resume", 0, &PIECE_NAMES),
        of("resume", 9, &PIECE_FAULTS),
        of("resume", 10, &HORIZON_FAULTS),
        of("resume", 16, &RECORD_FAULTS),
        of("pieces joined", 0, &JOINED_NAMES),
    ]
    .concat()
}

/// What a whole run must have met of lists of stream records.
pub fn expected_records() -> Vec<Kind> {
    of("records", 0, &LIST_NAMES)
}

/// What a whole run must have met of edits: what one that is carried out may set or
/// do, what may be wrong with stream, node and words, and how sheets alike may
/// differ.
pub fn expected_edits() -> Vec<Kind> {
    [
        of("edit", 0, &SET_NAMES),
        of("edit", 0, &MOVED_NAMES),
        of("edit", 5, &OLD_WORDS_NAMES),
        of("edit", 5, &NEW_WORDS_NAMES),
        of("edit", 8, &NO_STREAM_NAMES),
        of("edit", 13, &NOT_OWN_NAMES),
        of("sheets alike", 0, &ALIKE_NAMES),
    ]
    .concat()
}

fn of(entry: &'static str, number: u32, names: &[&'static str]) -> Vec<Kind> {
    let kinds = names.iter().map(|&name| (entry, number, name));
    kinds.collect()
}

/// The answers that a whole run must have met.
pub const EXPECTED: [Kind; 125] = [
    ("sheet", 0, "success"),
    ("sheet", 1, "0 0"),
    ("sheet", 2, "0 0"),
    ("sheet", 3, "0 0"),
    ("sheet", 4, "0 0"),
    ("sheet", 4, "node 0"),
    ("sheet", 5, "node stream"),
    ("admit", 0, "success"),
    ("admit", 1, "0 0"),
    ("admit", 2, "0 0"),
    ("admit", 3, "0 0"),
    ("admit", 4, "0 0"),
    ("admit", 4, "node 0"),
    ("admit", 5, "node stream"),
    ("admit", 6, "0 0"),
    ("admit", 7, "node stream"),
    ("one stream", 0, "success"),
    ("one stream", 4, "node 0"),
    ("one stream", 5, "node stream"),
    ("one stream", 7, "node stream"),
    ("one stream", 8, "node stream"),
    ("one stream", 8, "node 0"),
    ("replay", 0, "success"),
    ("replay", 1, "0 0"),
    ("replay", 2, "0 0"),
    ("replay", 3, "0 0"),
    ("replay", 4, "0 0"),
    ("replay", 4, "node 0"),
    ("replay", 5, "node stream"),
    ("replay", 6, "0 0"),
    ("replay", 9, "0 0"),
    ("replay", 9, "0 and a number"),
    ("replay", 10, "0 0"),
    ("step", 0, "success"),
    ("step", 1, "0 0"),
    ("step", 2, "0 0"),
    ("step", 3, "0 0"),
    ("step", 4, "0 0"),
    ("step", 4, "node 0"),
    ("step", 5, "node stream"),
    ("step", 6, "0 0"),
    ("step", 9, "0 and a number"),
    ("step", 16, "0 0"),
    ("replay as steps", 0, "success"),
    ("write", 0, "success"),
    ("write", 2, "0 0"),
    ("write", 3, "0 0"),
    ("write", 4, "0 0"),
    ("write", 4, "node 0"),
    ("write", 5, "node stream"),
    ("write", 6, "0 0"),
    ("read back", 0, "success"),
    ("written again", 0, "success"),
    ("find budgets", 0, "success"),
    ("find budgets", 1, "0 0"),
    ("find budgets", 2, "0 0"),
    ("find budgets", 3, "0 0"),
    ("find budgets", 4, "0 0"),
    ("find budgets", 4, "node 0"),
    ("find budgets", 5, "node stream"),
    ("find budgets", 6, "0 0"),
    ("find budgets", 11, "node 0"),
    ("row admitted", 0, "success"),
    ("resume", 0, "success"),
    ("resume", 1, "0 0"),
    ("resume", 2, "0 0"),
    ("resume", 3, "0 0"),
    ("resume", 4, "0 0"),
    ("resume", 4, "node 0"),
    ("resume", 5, "node stream"),
    ("resume", 6, "0 0"),
    ("resume", 9, "0 0"),
    ("resume", 9, "0 and a number"),
    ("resume", 10, "0 0"),
    ("resume", 12, "0 0"),
    ("resume", 16, "0 0"),
    ("records", 0, "success"),
    ("records", 1, "0 0"),
    ("records", 2, "0 0"),
    ("records", 3, "0 0"),
    ("records", 4, "0 0"),
    ("records", 4, "node 0"),
    ("records", 5, "node stream"),
    ("records", 6, "0 0"),
    ("records", 9, "0 and a number"),
    ("records", 10, "0 0"),
    ("records after a turn", 0, "success"),
    ("edit", 0, "success"),
    ("edit", 1, "0 0"),
    ("edit", 2, "0 0"),
    ("edit", 3, "0 0"),
    ("edit", 4, "0 0"),
    ("edit", 4, "node 0"),
    ("edit", 5, "node stream"),
    ("edit", 8, "0 0"),
    ("edit", 8, "0 and a number"),
    ("edit", 8, "node 0"),
    ("edit", 8, "node stream"),
    ("edit", 13, "node stream"),
    ("sheet after an edit", 0, "success"),
    ("other node after an edit", 0, "success"),
    ("other node after an edit", 7, "node stream"),
    ("sheets alike", 0, "success"),
    ("sheets alike", 7, "node stream"),
    ("pieces joined", 0, "success"),
    ("pieces joined", 0, "a release begun in a later piece"),
    ("pieces joined", 0, "a release left waiting"),
    ("admit program", 0, "success"),
    ("admit program", 1, "0 0"),
    ("admit program", 2, "0 0"),
    ("admit program", 3, "0 0"),
    ("admit program", 4, "0 0"),
    ("admit program", 4, "node 0"),
    ("admit program", 5, "node stream"),
    ("admit program", 7, "node stream"),
    ("replay program", 0, "success"),
    ("replay program", 1, "0 0"),
    ("replay program", 2, "0 0"),
    ("replay program", 3, "0 0"),
    ("replay program", 4, "0 0"),
    ("replay program", 4, "node 0"),
    ("replay program", 5, "node stream"),
    ("replay program", 9, "0 0"),
    ("replay program", 9, "0 and a number"),
    ("replay program", 10, "0 0"),
];

fn place(answer: (u32, u32, u32)) -> &'static str {
    match answer {
        (0, _, _) => "success",
        (_, 0, 0) => "0 0",
        (_, 0, _) => "0 and a number",
        (_, _, 0) => "node 0",
        _ => "node stream",
    }
}

/// What an entry answered and what it left: the words lent to it, or what a
/// program wrote.
#[derive(Clone, PartialEq, Eq, Debug)]
pub struct Outcome<Left = Vec<u32>> {
    pub answer: (u32, u32, u32),
    pub left: Left,
}

#[derive(Default)]
pub struct Tally {
    cases: u64,
    tables: u64,
    budgets: u64,
    pieces: u64,
    records: u64,
    edits: u64,
    pairs: u64,
    differences: u64,
    answers: BTreeMap<Kind, u64>,
    missing: BTreeSet<Kind>,
}

impl Tally {
    pub fn new_case(&mut self) {
        self.cases += 1;
    }

    pub fn new_tables(&mut self) {
        self.tables += 1;
    }

    pub fn new_budgets(&mut self) {
        self.budgets += 1;
    }

    pub fn new_pieces(&mut self) {
        self.pieces += 1;
    }

    pub fn new_records(&mut self) {
        self.records += 1;
    }

    pub fn new_edit(&mut self) {
        self.edits += 1;
    }

    pub fn new_pair(&mut self) {
        self.pairs += 1;
    }

    /// Counts one answer, and says where the two programs differ; answers whether
    /// they agree.
    pub fn compare<Left: PartialEq + Debug>(
        &mut self,
        entry: &'static str,
        name: &str,
        case: &dyn Debug,
        proved: &Outcome<Left>,
        second: &Outcome<Left>,
    ) -> bool {
        let kind = (entry, second.answer.0, place(second.answer));
        *self.answers.entry(kind).or_default() += 1;
        if proved != second {
            self.differences += 1;
            println!("{entry} differs on {name}");
            println!("  proved {proved:?}");
            println!("  second program {second:?}");
            println!("  on {case:?}");
        }
        proved == second
    }

    /// Counts what was far in a success; answers whether anything was.
    pub fn reached(&mut self, entry: &'static str, far: &[Option<&'static str>]) -> bool {
        for what in far.iter().flatten() {
            *self.answers.entry((entry, 0, what)).or_default() += 1;
        }
        far.iter().any(Option::is_some)
    }

    /// Counts what is known by name of an answer with this number: what the
    /// search behind it came to, what a jitter was or did, or what a piece or an
    /// edit had.
    pub fn named(
        &mut self,
        entry: &'static str,
        number: u32,
        names: impl IntoIterator<Item = &'static str>,
    ) {
        for name in names {
            *self.answers.entry((entry, number, name)).or_default() += 1;
        }
    }

    /// All of these must have been met by now.
    pub fn expect(&mut self, kinds: &[Kind]) {
        let unmet = kinds.iter().filter(|kind| !self.answers.contains_key(kind));
        self.missing.extend(unmet);
    }

    /// Prints the counts and answers whether there was no difference and all
    /// that was expected.
    pub fn report(&self) -> bool {
        println!("cases {}", self.cases);
        println!("tables {}", self.tables);
        println!("budgets {}", self.budgets);
        println!("replays by pieces {}", self.pieces);
        println!("replays with records {}", self.records);
        println!("edits {}", self.edits);
        println!("pairs of sheets alike {}", self.pairs);
        for ((entry, number, place), times) in &self.answers {
            println!("{entry} {number} ({place}) {times}");
        }
        println!("differences {}", self.differences);
        for kind in &self.missing {
            println!("never met: {kind:?}");
        }
        self.differences == 0 && self.missing.is_empty()
    }
}
