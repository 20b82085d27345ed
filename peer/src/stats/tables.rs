//! How generated tables spread over the answers of the writer and their
//! causes.

use super::{kinds_of_jitters, words_cause, Figures};
use crate::generate::{tables_case, TablesCase};
use crate::sheet::LAST_TICK;
use crate::{write_sheet, Answer, Tables};

/// What may be wrong, in the order of the refusals.
const STAGES: [&str; 7] = [
    "nodes",
    "ticks",
    "number of budgets",
    "row",
    "number of streams",
    "stream",
    "room",
];

pub fn gather_tables(seed: u64, count: u64) -> Figures {
    let mut figures = Figures::default();
    for index in 0..count {
        let case = tables_case(seed, index);
        figures.total("tables", 1);
        let answer = write_sheet(&case.tables, &mut case.room.clone());
        figures.add(match (answer.number, answer.second, answer.third) {
            (0, _, _) => "write 0".to_string(),
            (number, 0, 0) => format!("write {number} at 0 0"),
            (number, _, 0) => format!("write {number} at a node"),
            (number, _, _) => format!("write {number} at a stream"),
        });
        count_order(&mut figures, &case);
        match answer.number {
            0 => count_sheet(&mut figures, &case),
            _ => figures.add(format!("write {} {}", answer.number, cause(&case, answer))),
        }
    }
    figures
}

fn sum(counts: &[u32]) -> usize {
    counts.iter().map(|&count| count as usize).sum()
}

/// Which stages are wrong, each looked at by itself.
fn wrong(case: &TablesCase) -> [bool; 7] {
    let tables = &case.tables;
    let (nodes, streams) = (tables.counts.len(), sum(&tables.counts));
    let in_range = |words: &[u32], most: u32| words.iter().all(|&word| word >= 1 && word <= most);
    let mut deadlines = tables.periods.iter().zip(&tables.deadlines);
    let mut jitters = tables.periods.iter().zip(&tables.jitters);
    [
        !(1..=16).contains(&nodes),
        !in_range(&[tables.message_ticks, tables.slot_ticks], 10_000),
        tables.budgets.len() != nodes,
        tables.counts.iter().any(|&count| count > 16) || !in_range(&tables.budgets, 16),
        wrong_lengths(tables).contains(&true),
        !in_range(&tables.periods, LAST_TICK)
            || deadlines.any(|(&period, &deadline)| deadline < 1 || deadline > period)
            || jitters.any(|(&period, &jitter)| jitter >= period),
        case.room.len() < 3 + 3 * nodes + 3 * streams,
    ]
}

/// Whether the periods, the deadlines and the jitters are too few or too many.
fn wrong_lengths(tables: &Tables) -> [bool; 3] {
    let streams = sum(&tables.counts);
    [&tables.periods, &tables.deadlines, &tables.jitters].map(|table| table.len() != streams)
}

/// The first stage that is wrong with each later one that is wrong too.
fn count_order(figures: &mut Figures, case: &TablesCase) {
    let wrong = wrong(case);
    let mut stages = STAGES.iter().zip(wrong).filter(|stage| stage.1);
    let Some((first, _)) = stages.next() else {
        return;
    };
    for (later, _) in stages {
        figures.add(format!("write {first} before {later}"));
    }
}

fn low(word: u32) -> &'static str {
    match word {
        0 => "low",
        _ => "high",
    }
}

fn cause(case: &TablesCase, answer: Answer) -> String {
    let tables = &case.tables;
    let (nodes, streams) = (tables.counts.len(), sum(&tables.counts));
    match answer.number {
        2 => low(nodes as u32).to_string(),
        3 => match (tables.message_ticks, tables.slot_ticks) {
            (message, 1..=10_000) => format!("message {}", low(message)),
            (1..=10_000, slot) => format!("slot {}", low(slot)),
            _ => "both".to_string(),
        },
        4 if answer.second > 0 => row_cause(tables, answer.second as usize - 1),
        4 if tables.budgets.len() < nodes => "too few budgets".to_string(),
        4 if tables.budgets.len() > nodes => "too many budgets".to_string(),
        4 => match wrong_lengths(tables) {
            [true, false, false] => "number of periods",
            [false, true, false] => "number of deadlines",
            [false, false, true] => "number of jitters",
            _ => "number of several",
        }
        .to_string(),
        5 => tables_fault(tables, answer.second, answer.third).to_string(),
        _ => match 3 + 3 * nodes + 3 * streams - case.room.len() {
            1 => "by one word".to_string(),
            _ => "by more".to_string(),
        },
    }
}

fn row_cause(tables: &Tables, node: usize) -> String {
    let total: u64 = tables.counts.iter().map(|&count| u64::from(count)).sum();
    let budget = tables.budgets[node];
    match (tables.counts[node] > 16, !(1..=16).contains(&budget)) {
        (true, _) if total as u32 as usize == tables.periods.len() => {
            "count, sum comes round".into()
        }
        (true, false) if total > u64::from(u32::MAX) => "count, sum past 32 bits".into(),
        (true, false) => "count".into(),
        (false, _) => format!("budget {}", low(budget)),
        _ => "count and budget".into(),
    }
}

/// Which word of a stream of tables is wrong, given its place in refusal 5.
pub fn tables_fault(tables: &Tables, node: u32, stream: u32) -> &'static str {
    let before = sum(&tables.counts[..node as usize - 1]);
    let stream = before + stream as usize - 1;
    words_cause(
        tables.periods[stream],
        tables.deadlines[stream],
        tables.jitters[stream],
    )
}

fn count_sheet(figures: &mut Figures, case: &TablesCase) {
    let tables = &case.tables;
    let (nodes, streams) = (tables.counts.len(), tables.periods.len());
    figures.add(format!("write 0, {nodes:2} nodes"));
    for count in &tables.counts {
        figures.add(format!("write 0, node of {count:2} streams"));
    }
    for budget in &tables.budgets {
        figures.add(format!("write 0, budget of {budget:2}"));
    }
    for length in [0, 256] {
        if streams == length {
            figures.add(format!("write 0, {length} streams"));
        }
    }
    figures.add(match case.room.len() - (3 + 3 * nodes + 3 * streams) {
        0 => "write 0, room exact".to_string(),
        _ => "write 0, room longer".to_string(),
    });
    for (name, words, most) in [
        ("message", &[tables.message_ticks][..], 10_000),
        ("slot", &[tables.slot_ticks], 10_000),
        ("period", &tables.periods, LAST_TICK),
        ("deadline", &tables.deadlines, LAST_TICK),
    ] {
        for end in [1, most] {
            if words.contains(&end) {
                figures.add(format!("write 0, {name} {end}"));
            }
        }
    }
    for name in kinds_of_jitters(tables) {
        figures.add(format!("write 0, {name}"));
    }
}
