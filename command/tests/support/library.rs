//! What the library itself answers about the tables of a generated line: the
//! test's own way to the proved entries, apart from the command's.

use wistorvan::{admit, find_budgets, one_stream, write_sheet, Refusal, Tables};
use wistorvan::{LONGEST_SHEET, MAX_NODES, MAX_STREAMS};

use super::lines::{Line, Stream};

/// A line in ticks: periods, deadlines and jitters in sheet order.
#[derive(Clone)]
pub struct Ticks {
    pub message: u32,
    pub slot: u32,
    pub counts: Vec<u32>,
    pub budgets: Vec<u32>,
    pub periods: Vec<u32>,
    pub deadlines: Vec<u32>,
    pub jitters: Vec<u32>,
}

/// The answer about one stream, as `check --json` has it.
#[derive(PartialEq, Eq, Debug)]
pub struct Listed {
    pub late: bool,
    pub wait: Option<i64>,
    pub cycles: Option<i64>,
    pub delivery: Option<i64>,
    pub left: Option<i64>,
}

pub struct Sheet {
    pub words: Vec<u32>,
    pub cycle: u32,
}

pub fn ticks(line: &Line, nodes: usize) -> Ticks {
    let nodes = &line.nodes[..nodes];
    let streams: Vec<&Stream> = nodes.iter().flat_map(|node| &node.streams).collect();
    Ticks {
        message: line.message.ticks,
        slot: line.slot.ticks,
        counts: nodes.iter().map(|node| node.streams.len() as u32).collect(),
        budgets: nodes.iter().map(|node| node.budget).collect(),
        periods: streams.iter().map(|stream| stream.period.ticks).collect(),
        deadlines: streams.iter().map(|stream| stream.deadline.ticks).collect(),
        jitters: streams.iter().map(|stream| stream.jitter.ticks).collect(),
    }
}

impl Ticks {
    pub fn sheet(&self) -> Result<Sheet, Refusal> {
        let tables = Tables {
            message_ticks: self.message,
            slot_ticks: self.slot,
            counts: &self.counts,
            budgets: &self.budgets,
            periods: &self.periods,
            deadlines: &self.deadlines,
            jitters: &self.jitters,
        };
        let mut room = [0; LONGEST_SHEET];
        let written = write_sheet(&tables, &mut room)?;
        Ok(Sheet {
            words: written.sheet.to_vec(),
            cycle: written.cycle,
        })
    }

    pub fn admitted(&self) -> bool {
        let sheet = self.sheet();
        sheet.is_ok_and(|sheet| admit(&sheet.words, &mut [0; MAX_STREAMS]).is_ok())
    }

    /// The least budgets, or the node that the library names.
    pub fn least_budgets(&self) -> Result<Vec<i64>, u32> {
        let sheet = self.sheet().map_err(|_| 0_u32)?;
        let mut room = [0; MAX_NODES];
        let found = find_budgets(&sheet.words, &mut room).map_err(|refusal| refusal.place().0)?;
        Ok(found.row.iter().map(|&budget| i64::from(budget)).collect())
    }

    /// The place of a node's first stream in the tables.
    fn first(&self, node: usize) -> usize {
        self.counts[..node].iter().sum::<u32>() as usize
    }

    /// Nodes and streams, both from 0, in sheet order.
    pub fn places(&self) -> Vec<(usize, usize)> {
        let node = |(node, &count)| (0..count as usize).map(move |stream| (node, stream));
        self.counts.iter().enumerate().flat_map(node).collect()
    }

    /// By what a stream is ranked in its node.
    fn rank(&self, at: usize) -> (u32, u32, usize) {
        (self.deadlines[at], self.periods[at], at)
    }

    /// From the event of the stream at this place in the tables.
    fn delivery(&self, cycles: u32, cycle: u32, node: usize, at: usize) -> i64 {
        let turn = i64::from(self.budgets[node]) * i64::from(self.message) + i64::from(self.slot);
        i64::from(self.jitters[at]) + i64::from(cycles) * i64::from(cycle) - 1 + turn
    }

    pub fn listed(&self, sheet: &Sheet, node: usize, stream: usize) -> Listed {
        let answer = one_stream(&sheet.words, node as u32 + 1, stream as u32 + 1).ok();
        let at = self.first(node) + stream;
        let delivery = match answer {
            Some(listed) => Some(self.delivery(listed.cycles, sheet.cycle, node, at)),
            None => self.needed(node, at),
        };
        Listed {
            late: answer.is_none(),
            wait: answer.map(|listed| i64::from(listed.wait)),
            cycles: answer.map(|listed| i64::from(listed.cycles)),
            delivery,
            left: delivery.map(|ticks| i64::from(self.deadlines[at]) - ticks),
        }
    }

    /// The delivery of a stream whose own deadline is left out: its node has
    /// the streams ranked above it, and it has the longest deadline there is.
    pub fn needed(&self, node: usize, at: usize) -> Option<i64> {
        let own = self.first(node)..self.first(node) + self.counts[node] as usize;
        let above: Vec<usize> = own
            .filter(|&other| self.rank(other) < self.rank(at))
            .collect();
        let mut alone = self.clone();
        alone.counts = vec![0; self.counts.len()];
        alone.counts[node] = above.len() as u32 + 1;
        alone.periods = above.iter().map(|&other| self.periods[other]).collect();
        alone.deadlines = above.iter().map(|&other| self.deadlines[other]).collect();
        alone.jitters = above.iter().map(|&other| self.jitters[other]).collect();
        alone.periods.push(1_000_000_000);
        alone.deadlines.push(1_000_000_000);
        alone.jitters.push(0);
        let sheet = alone.sheet().ok()?;
        let answer = one_stream(&sheet.words, node as u32 + 1, above.len() as u32 + 1).ok()?;
        Some(self.delivery(answer.cycles, sheet.cycle, node, at))
    }

    /// The nearest other budget of a node with which the line is admitted:
    /// below its own, or else above.
    pub fn other_budget(&self, node: usize) -> Option<u32> {
        let own = self.budgets[node];
        let mut tried = self.clone();
        (1..own).rev().chain(own + 1..=16).find(|&budget| {
            tried.budgets[node] = budget;
            tried.admitted()
        })
    }

    /// The same line with another deadline of one stream.
    pub fn with_deadline(&self, node: usize, stream: usize, deadline: u32) -> Ticks {
        let mut changed = self.clone();
        let at = self.first(node) + stream;
        changed.deadlines[at] = deadline;
        changed
    }

    pub fn in_time(&self, node: usize, stream: usize) -> bool {
        let asked = |sheet: Sheet| one_stream(&sheet.words, node as u32 + 1, stream as u32 + 1);
        self.sheet().and_then(asked).is_ok()
    }
}
