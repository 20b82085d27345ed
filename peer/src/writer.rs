//! Writing a sheet from its tables, and reading the tables of a sheet.

use crate::sheet::{
    check_sheet, HEADER_WORDS, LAST_TICK, LONGEST_SLOT, MOST_BUDGET, MOST_NODES,
    MOST_STREAMS_A_NODE, ROW_WORDS, STREAM_WORDS,
};
use crate::{refusal, success, Answer};

/// What a sheet says, but for the places of its bodies: a count and a budget
/// for each node, a period, a deadline and a jitter for each stream in sheet
/// order. What is lent to the writer may hold anything.
#[derive(Clone, PartialEq, Eq, Debug)]
pub struct Tables {
    pub message_ticks: u32,
    pub slot_ticks: u32,
    pub counts: Vec<u32>,
    pub budgets: Vec<u32>,
    pub periods: Vec<u32>,
    pub deadlines: Vec<u32>,
    pub jitters: Vec<u32>,
}

/// A node with its own part of the periods, of the deadlines and of the
/// jitters.
pub(crate) struct Part<'a> {
    pub budget: u32,
    periods: &'a [u32],
    deadlines: &'a [u32],
    jitters: &'a [u32],
}

/// Makes the sheet in the first words of the room and answers their number
/// and the full cycle. Refusals 2 to 6.
pub fn write_sheet(tables: &Tables, room: &mut [u32]) -> Answer {
    tables.write(room).unwrap_or_else(|answer| answer)
}

/// The tables of a valid sheet, or refusals 1 to 5.
pub fn read_tables(sheet: &[u32]) -> Result<Tables, Answer> {
    let answer = check_sheet(sheet);
    if answer.number != 0 {
        return Err(answer);
    }
    let mut tables = Tables {
        message_ticks: sheet[1],
        slot_ticks: sheet[2],
        counts: Vec::new(),
        budgets: Vec::new(),
        periods: Vec::new(),
        deadlines: Vec::new(),
        jitters: Vec::new(),
    };
    let rows = sheet[HEADER_WORDS..].chunks_exact(ROW_WORDS);
    for row in rows.take(sheet[0] as usize) {
        tables.counts.push(row[1]);
        tables.budgets.push(row[2]);
        let body = sheet[row[0] as usize..].chunks_exact(STREAM_WORDS);
        for stream in body.take(row[1] as usize) {
            tables.periods.push(stream[0]);
            tables.deadlines.push(stream[1]);
            tables.jitters.push(stream[2]);
        }
    }
    Ok(tables)
}

impl Tables {
    fn write(&self, room: &mut [u32]) -> Result<Answer, Answer> {
        let nodes = self.nodes()?;
        check_streams(&nodes, stream_right)?;
        let words = self.words(&nodes);
        put(&words, room)?;
        Ok(success(words.len() as u64, self.cycle(&nodes)))
    }

    /// Refusals 2 to 4, or the tables cut up by node.
    pub(crate) fn nodes(&self) -> Result<Vec<Part<'_>>, Answer> {
        if self.counts.is_empty() || self.counts.len() > MOST_NODES {
            return Err(refusal(2, 0, 0));
        }
        let allowed = 1..=LONGEST_SLOT;
        if !allowed.contains(&self.message_ticks) || !allowed.contains(&self.slot_ticks) {
            return Err(refusal(3, 0, 0));
        }
        if self.budgets.len() != self.counts.len() {
            return Err(refusal(4, 0, 0));
        }
        let rows = || self.counts.iter().zip(&self.budgets);
        let budget_right = |budget: u32| budget >= 1 && budget <= MOST_BUDGET as u32;
        let wrong = rows().position(|(&count, &budget)| {
            count > MOST_STREAMS_A_NODE as u32 || !budget_right(budget)
        });
        if let Some(node) = wrong {
            return Err(refusal(4, node as u32 + 1, 0));
        }
        // Each node takes its part off the front; that nothing is missing and
        // nothing left says that the lengths are right.
        let mut rest = [&self.periods, &self.deadlines, &self.jitters].map(|table| &table[..]);
        let parts = rows().map(|(&count, &budget)| {
            let [periods, deadlines, jitters] = &mut rest;
            Some(Part {
                budget,
                periods: periods.split_off(..count as usize)?,
                deadlines: deadlines.split_off(..count as usize)?,
                jitters: jitters.split_off(..count as usize)?,
            })
        });
        match parts.collect() {
            Some(parts) if rest.iter().all(|table| table.is_empty()) => Ok(parts),
            _ => Err(refusal(4, 0, 0)),
        }
    }

    pub(crate) fn words(&self, nodes: &[Part]) -> Vec<u32> {
        let mut contents = vec![nodes.len() as u32, self.message_ticks, self.slot_ticks];
        let first = HEADER_WORDS + ROW_WORDS * nodes.len();
        let mut bodies = Vec::new();
        for node in nodes {
            let place = (first + bodies.len()) as u32;
            contents.extend([place, node.periods.len() as u32, node.budget]);
            bodies.extend(node.streams().flatten());
        }
        [contents, bodies].concat()
    }

    /// The full cycle, as the longest turns of all nodes together.
    pub(crate) fn cycle(&self, nodes: &[Part]) -> u64 {
        let (message, slot) = (u64::from(self.message_ticks), u64::from(self.slot_ticks));
        let turn = |node: &Part| u64::from(node.budget) * message + slot;
        nodes.iter().map(turn).sum()
    }
}

impl<'a> Part<'a> {
    /// Period, deadline and jitter of each.
    pub(crate) fn streams(&self) -> impl Iterator<Item = [u32; STREAM_WORDS]> + 'a {
        let tables = self.periods.iter().zip(self.deadlines).zip(self.jitters);
        tables.map(|((&period, &deadline), &jitter)| [period, deadline, jitter])
    }
}

/// Whether the words of a stream are in range.
pub(crate) fn stream_right([period, deadline, jitter]: [u32; STREAM_WORDS]) -> bool {
    period <= LAST_TICK && (1..=period).contains(&deadline) && jitter < period
}

/// Refusal 5, if not all streams are as `right` says.
pub(crate) fn check_streams(
    nodes: &[Part],
    right: fn([u32; STREAM_WORDS]) -> bool,
) -> Result<(), Answer> {
    for (node, number) in nodes.iter().zip(1..) {
        if let Some(stream) = node.streams().position(|stream| !right(stream)) {
            return Err(refusal(5, number, stream as u32 + 1));
        }
    }
    Ok(())
}

/// Refusal 6, or the words in the room.
pub(crate) fn put(words: &[u32], room: &mut [u32]) -> Result<(), Answer> {
    match room.get_mut(..words.len()) {
        Some(part) => part.copy_from_slice(words),
        None => return Err(refusal(6, 0, 0)),
    }
    Ok(())
}
