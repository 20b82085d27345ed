//! What would help a line that is late: only what was put to the library, and
//! found to be so.

use wistorvan::Refusal;

use crate::answers::{full_name, names, Answers};
use crate::json::{self, Value};
use crate::line::Line;
use crate::plan::{Place, Plan, Sheet};

/// The largest budget of the rules.
const MOST_BUDGET: u32 = 16;

/// So many budgets that change are named without the others.
const FEW: usize = 6;

/// Another budget of a node.
#[derive(Clone, Copy, PartialEq, Eq, Debug)]
pub struct BudgetChange {
    pub node: usize,
    pub from: u32,
    pub to: u32,
}

/// A longer deadline of a late stream.
#[derive(Clone, Copy, PartialEq, Eq, Debug)]
pub struct LongerDeadline {
    pub place: Place,
    pub from: u32,
    /// The least with which the stream is in time.
    pub deadline: u32,
    /// Whether the whole line is admitted then.
    pub admitted: bool,
}

#[derive(Clone, PartialEq, Eq, Debug)]
pub struct Helps {
    /// Changes of one budget with which the line is admitted.
    pub one_budget: Vec<BudgetChange>,
    /// The least budgets, or the node that is late even with 16.
    pub budgets: Result<Vec<BudgetChange>, usize>,
    pub deadlines: Vec<LongerDeadline>,
}

impl Helps {
    /// Asks about a line with late streams. The recorder's budget comes first.
    pub fn ask(
        line: &Line,
        plan: &Plan,
        sheet: &Sheet,
        answers: &Answers,
    ) -> Result<Helps, Refusal> {
        let mut nodes: Vec<usize> = (0..plan.nodes.len()).collect();
        if line.recorder.is_some() && !nodes.is_empty() {
            nodes.rotate_right(1);
        }
        let changes = nodes.into_iter().map(|node| one_budget(plan, node));
        let changes: Vec<Option<BudgetChange>> = changes.collect::<Result<_, _>>()?;
        let late = answers.late();
        let deadlines = late
            .iter()
            .map(|stream| longer_deadline(plan, stream.place));
        let deadlines: Vec<Option<LongerDeadline>> = deadlines.collect::<Result<_, _>>()?;
        Ok(Helps {
            one_budget: changes.into_iter().flatten().collect(),
            budgets: sheet
                .least_budgets()?
                .map(|(row, _)| changes_to(plan, &row)),
            deadlines: deadlines.into_iter().flatten().collect(),
        })
    }

    fn none(&self) -> bool {
        self.one_budget.is_empty() && self.budgets.is_err() && self.deadlines.is_empty()
    }
}

fn changes_to(plan: &Plan, row: &[u32]) -> Vec<BudgetChange> {
    let nodes = plan.nodes.iter().zip(row).enumerate();
    nodes
        .map(|(node, (plan, to))| BudgetChange {
            node,
            from: plan.budget,
            to: *to,
        })
        .collect()
}

/// The nearest budget of a node below its own with which the line is admitted,
/// or else the nearest above.
fn one_budget(plan: &Plan, node: usize) -> Result<Option<BudgetChange>, Refusal> {
    let Some(from) = plan.nodes.get(node).map(|node| node.budget) else {
        return Ok(None);
    };
    for to in (1..from).rev().chain(from + 1..=MOST_BUDGET) {
        if plan.with_budget(node, to).admitted()? {
            return Ok(Some(BudgetChange { node, from, to }));
        }
    }
    Ok(None)
}

/// The least deadline of a stream, up to its period, with which it is in time.
/// A longer deadline can put it below others, and so make its delivery later; it
/// never makes it earlier. So each delivery found is the next deadline to ask
/// about.
fn longer_deadline(plan: &Plan, place: Place) -> Result<Option<LongerDeadline>, Refusal> {
    let Some(stream) = plan.stream(place) else {
        return Ok(None);
    };
    let from = stream.deadline;
    let mut deadline = from;
    loop {
        let changed = plan.with_deadline(place, deadline);
        if changed.write()?.one_stream(place)?.is_some() {
            let admitted = changed.admitted()?;
            return Ok(Some(LongerDeadline {
                place,
                from,
                deadline,
                admitted,
            }));
        }
        let needed = changed
            .needed_delivery(place)?
            .and_then(|needed| u32::try_from(needed).ok());
        match needed.filter(|needed| *needed > deadline && *needed <= stream.period) {
            Some(needed) => deadline = needed,
            None => return Ok(None),
        }
    }
}

/// The lines under "What would help".
pub fn lines(line: &Line, helps: &Helps) -> Vec<String> {
    let mut lines: Vec<String> = helps
        .one_budget
        .iter()
        .map(|change| one_budget_line(line, change))
        .collect();
    lines.push(budgets_line(line, helps));
    lines.extend(
        helps
            .deadlines
            .iter()
            .map(|longer| deadline_line(line, longer)),
    );
    if helps.none() {
        let more = "Nothing simple was found: no deadline up to its period brings a late stream in time either.";
        lines.push(more.to_string());
    }
    lines
}

fn node_name(line: &Line, node: usize) -> &str {
    line.nodes.get(node).map_or("", |node| &node.name)
}

fn one_budget_line(line: &Line, change: &BudgetChange) -> String {
    let BudgetChange { node, from, to } = change;
    let node = node_name(line, *node);
    format!("Budget {to} instead of {from} for {node}: then the whole line is in time.")
}

fn budgets_line(line: &Line, helps: &Helps) -> String {
    let row = match &helps.budgets {
        Ok(row) => row,
        Err(node) => {
            let node = node_name(line, *node);
            return format!(
                "No budgets of 1 to 16 help: node {node} has a late stream even with 16."
            );
        }
    };
    let changed = row.iter().filter(|change| change.from != change.to);
    let few = changed.clone().count() <= FEW;
    let named: Vec<&BudgetChange> = if few {
        changed.collect()
    } else {
        row.iter().collect()
    };
    let others = if named.len() < row.len() {
        " (the others as they are)"
    } else {
        ""
    };
    let named: Vec<String> = named
        .iter()
        .map(|change| format!("{} {}", node_name(line, change.node), change.to))
        .collect();
    format!("The least budgets that work: {}{others}.", named.join(", "))
}

fn deadline_line(line: &Line, longer: &LongerDeadline) -> String {
    let name = full_name(line, longer.place);
    let (from, to) = (
        line.scale.show(longer.from.into()),
        line.scale.show(longer.deadline.into()),
    );
    let then = match longer.admitted {
        true => "then the whole line is in time",
        false => "then it is in time, and others are still late",
    };
    format!("Deadline {to} instead of {from} for {name}, if that is soon enough: {then}.")
}

/// The same as JSON.
pub fn value(line: &Line, helps: &Helps) -> Value {
    let change = |change: &BudgetChange| {
        Value::Object(vec![
            ("node", Value::text(node_name(line, change.node))),
            ("from", Value::number(change.from)),
            ("to", Value::number(change.to)),
        ])
    };
    let deadline = |longer: &LongerDeadline| {
        let (node, stream) = names(line, longer.place);
        Value::Object(vec![
            ("node", Value::text(node)),
            ("stream", Value::text(stream)),
            ("deadline", Value::number(longer.deadline)),
            ("admitted", Value::Bool(longer.admitted)),
        ])
    };
    Value::Object(vec![
        ("budgets_one", json::list(&helps.one_budget, change)),
        (
            "budgets",
            json::optional(&helps.budgets.as_ref().ok(), |row| json::list(row, change)),
        ),
        ("deadlines", json::list(&helps.deadlines, deadline)),
    ])
}
