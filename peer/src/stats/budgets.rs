//! How generated cases spread over the answers of the search for budgets. What
//! a row took, or why there is none, is read off the rounds.

use std::collections::BTreeSet;

use super::edges::{edge, LATE_BY_ONE};
use super::jitter::without;
use super::search::found_names;
use super::{fitting, room_kind, Figures};
use crate::admission::listed;
use crate::budgets::{is_late, late_nodes, round, start};
use crate::generate::budgets_case;
use crate::sheet::{Bus, MOST_BUDGET, MOST_NODES};
use crate::{check_sheet, find_budgets};

/// So many rounds are many.
const MANY: u64 = 100;

/// What a row that was found may be.
pub const ROW_NAMES: [&str; 4] = [
    "a row above all ones",
    "a budget of 16",
    "a hundred rounds or more",
    "more than without jitter",
];

/// What the node that a refusal 11 names may be.
pub const NO_ROW_NAMES: [&str; 8] = [
    "late in every round",
    "in time at first",
    "behind a late node below 16",
    "before a late node below 16",
    "behind a node in time at 16",
    "before another late node at 16",
    "after a hundred rounds or more",
    "late for jitter alone",
];

/// The names that fit a row to which the sheet is known to lead.
pub fn row_names(sheet: &[u32], row: &[u32]) -> Vec<&'static str> {
    let above: u32 = row.iter().map(|&budget| budget.saturating_sub(1)).sum();
    // Each round gives one more at least, so that few rows ask for a count.
    let may_be_many = u64::from(above) >= MANY;
    let many = may_be_many && round_count(sheet) >= Some(MANY);
    let sum = row.iter().map(|&budget| budget as usize).sum();
    let more = above > 0 && without_jitter(sheet).is_some_and(|steady| steady.sum() < sum);
    fitting(ROW_NAMES, [above > 0, row.contains(&16), many, more])
}

/// The names that fit the node of a refusal 11.
pub fn no_row_names(sheet: &[u32]) -> Vec<&'static str> {
    let Some(rounds) = rounds(sheet, |_| {}) else {
        return vec![];
    };
    let Rounds { bus, count, .. } = rounds;
    let full = |node: usize| bus.nodes()[node].budget == MOST_BUDGET;
    let late = late_nodes(&bus);
    let Some(&named) = late.iter().find(|&&node| full(node)) else {
        return vec![];
    };
    let mut before = 0..named;
    let after = || late.iter().filter(|&&node| node > named);
    let fits = [
        // From 1 to 16 it took fifteen of the rounds.
        count == 15,
        count > 15,
        late[0] < named,
        after().any(|&node| !full(node)),
        before.any(|node| full(node) && !is_late(&bus, node)),
        after().any(|&node| full(node)),
        count >= MANY,
        without_jitter(sheet).is_some_and(|steady| steady.found),
    ];
    fitting(NO_ROW_NAMES, fits)
}

/// The rounds as they would go without any jitter.
fn without_jitter(sheet: &[u32]) -> Option<Rounds> {
    let bus = Bus::read(sheet).ok()?;
    let steady = without(&bus, 0..bus.streams().len());
    Some(Rounds::of(steady, |_| {}))
}

/// What the rounds come to.
struct Rounds {
    /// With the last row.
    bus: Bus,
    /// How many gave anything.
    count: u64,
    /// Whether that row is the one that was looked for.
    found: bool,
}

impl Rounds {
    /// Each row is shown before the round that it is judged by.
    fn of(mut bus: Bus, mut show: impl FnMut(&Bus)) -> Rounds {
        start(&mut bus);
        let mut count = 0;
        loop {
            show(&bus);
            match round(&mut bus) {
                Ok(true) => count += 1,
                ended => {
                    let found = ended.is_ok();
                    return Rounds { bus, count, found };
                }
            }
        }
    }

    fn sum(&self) -> usize {
        self.bus.nodes().iter().map(|node| node.budget).sum()
    }
}

/// The rounds of a valid sheet.
fn rounds(sheet: &[u32], show: impl FnMut(&Bus)) -> Option<Rounds> {
    Some(Rounds::of(Bus::read(sheet).ok()?, show))
}

/// How many rounds give anything, whether or not they lead to a row; none for a
/// sheet that is refused for itself.
pub fn round_count(sheet: &[u32]) -> Option<u64> {
    Some(rounds(sheet, |_| {})?.count)
}

pub fn gather_budgets(seed: u64, count: u64) -> Figures {
    let mut figures = Figures::default();
    for index in 0..count {
        let case = budgets_case(seed, index);
        let mut room = case.room.clone();
        let answer = find_budgets(&case.sheet, &mut room);
        figures.total("budgets", 1);
        figures.add(match (answer.number, answer.second) {
            (0, _) => "find 0".to_string(),
            (number, 0) => format!("find {number} at 0 0"),
            (number, _) => format!("find {number} at a node"),
        });
        if check_sheet(&case.sheet).number == 0 {
            let words = case.room.len();
            figures.add(format!("room of find {}", room_kind(words, MOST_NODES)));
            figures.add(format!("room of find, {words:3} words"));
        }
        match answer.number {
            0 => count_row(&mut figures, &case.sheet, &room[..MOST_NODES]),
            6 => {
                let later = find_budgets(&case.sheet, &mut [0; MOST_NODES]);
                figures.add(format!("find 6 before {}", later.number));
            }
            11 => {
                let names = no_row_names(&case.sheet).into_iter();
                names.for_each(|name| figures.add(format!("find 11, {name}")));
            }
            _ => {}
        }
    }
    figures
}

/// The streams at the edge of the late test by the budgets that the bus has.
fn edges(bus: &Bus) -> impl Iterator<Item = &'static str> + '_ {
    let streams = 0..bus.streams().len();
    streams.filter_map(|stream| Some(edge(bus, stream)?.0))
}

fn count_row(figures: &mut Figures, sheet: &[u32], row: &[u32]) {
    figures.add(format!("find 0, {:2} nodes", sheet[0]));
    for &budget in row.iter().take(sheet[0] as usize) {
        figures.add(format!("find 0, node of budget {budget:2}"));
    }
    let mut kinds = BTreeSet::from_iter(row_names(sheet, row));
    let found = rounds(sheet, |bus| {
        if edges(bus).any(|kind| kind == LATE_BY_ONE) {
            kinds.insert("a stream late by one tick on the way");
        }
    });
    if let Some(Rounds { bus, count, .. }) = found {
        figures.highest("most rounds to a row", count);
        if edges(&bus).next().is_some() {
            kinds.insert("a stream just in time by the row");
        }
        let streams = 0..bus.streams().len();
        let listed = streams.filter_map(|stream| listed(&bus, stream));
        let longest = listed.map(|listed| listed.cycles).max();
        kinds.extend(found_names(longest.unwrap_or(0)));
    }
    for kind in kinds {
        figures.add(format!("find 0, {kind}"));
    }
}
