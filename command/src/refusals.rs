//! All refusals of a line as sentences. The library judges: each part of the
//! line is put to it by itself, with good values for the rest, and then the
//! whole.

use wistorvan::Refusal;

use crate::fault::{Failure, Fault, Refused};
use crate::line::{Line, Node, Stream};
use crate::plan::{NodePlan, Plan, Sheet, StreamPlan};
use crate::tick::plural;

/// The sheet of a line, or all refusals of it.
pub fn sheet(line: &Line) -> Result<Sheet, Failure> {
    let refused = refused_parts(line);
    if !refused.is_empty() {
        return Err(Failure::Refusals(refused));
    }
    // No part is refused; if the whole is, the library's own words say why.
    Plan::of(line).write().map_err(|refusal| {
        let fault = Fault::of_file(&line.file, refusal.to_string());
        let number = refusal.number();
        Failure::Refusals(vec![Refused { number, fault }])
    })
}

/// A line of one node that has nothing to refuse but what is put into it.
fn one_node(budget: u32, streams: Vec<StreamPlan>) -> Plan {
    Plan {
        message: 1,
        slot: 1,
        nodes: vec![NodePlan { budget, streams }],
    }
}

fn refused_parts(line: &Line) -> Vec<Refused> {
    let mut parts = vec![refused_message(line), refused_slot(line)];
    // Message and slot may stand in either order.
    parts.sort_by_key(|part| part.as_ref().and_then(|refused| refused.fault.line));
    for node in &line.nodes {
        parts.push(refused_node(node));
        parts.extend(
            node.streams
                .iter()
                .map(|stream| refused_stream(line, node, stream)),
        );
    }
    // A line has to be one without its recorder too.
    if line.recorder.is_some() {
        parts.push(refused_count(&line.without_recorder()));
    }
    parts.push(refused_count(line));
    parts.into_iter().flatten().collect()
}

/// The refusal of a part, as a sentence.
fn asked(plan: &Plan, fault: impl FnOnce() -> Fault) -> Option<Refused> {
    let refusal: Refusal = plan.write().err()?;
    Some(Refused {
        number: refusal.number(),
        fault: fault(),
    })
}

/// A number of ticks, and what it was rounded from.
fn ticks(line: &Line, file: &str, number: usize, what: &str, ticks: u32) -> String {
    let mut rounded = line.rounded.iter();
    let rounded = rounded.find(|r| r.file == file && r.line == number && r.what.starts_with(what));
    let from = rounded.map_or(String::new(), |rounded| {
        format!(" (rounded from {})", rounded.from)
    });
    plural(ticks.into(), "tick") + &from
}

fn refused_message(line: &Line) -> Option<Refused> {
    let mut plan = one_node(1, vec![]);
    plan.message = line.message.ticks;
    asked(&plan, || {
        let ticks = ticks(
            line,
            &line.file,
            line.message.line,
            "message",
            line.message.ticks,
        );
        let rule = "a message takes 1 to 10,000 ticks";
        Fault::at(
            &line.file,
            line.message.line,
            format!("message {ticks}: {rule}"),
        )
    })
}

fn refused_slot(line: &Line) -> Option<Refused> {
    let mut plan = one_node(1, vec![]);
    plan.slot = line.slot.ticks;
    asked(&plan, || {
        let ticks = ticks(line, &line.file, line.slot.line, "slot", line.slot.ticks);
        let rule = "a slot takes 1 to 10,000 ticks";
        Fault::at(&line.file, line.slot.line, format!("slot {ticks}: {rule}"))
    })
}

fn refused_node(node: &Node) -> Option<Refused> {
    let budget = node.budget.unwrap_or(1);
    let stream = StreamPlan {
        period: 1,
        deadline: 1,
        jitter: 0,
    };
    let plan = one_node(budget, vec![stream; node.streams.len()]);
    asked(&plan, || {
        let streams = plural(node.streams.len() as u64, "stream");
        let rule = "a node has at most 16 streams and a budget of 1 to 16";
        let message = format!("node {}: {streams} and budget {budget}: {rule}", node.name);
        Fault::at(&node.file, node.line, message)
    })
}

fn refused_stream(line: &Line, node: &Node, stream: &Stream) -> Option<Refused> {
    asked(&one_node(1, vec![StreamPlan::of(stream)]), || {
        let value = |key: &str, value| {
            format!("{key} {}", ticks(line, &node.file, stream.line, key, value))
        };
        let (period, deadline) = (
            value("period", stream.period),
            value("deadline", stream.deadline),
        );
        let values = match stream.jitter {
            0 => format!("{period} and {deadline}"),
            jitter => format!("{period}, {deadline} and {}", value("jitter", jitter)),
        };
        let rule = "a period is 1 to 1,000,000,000 ticks, a deadline 1 tick to its period and a jitter less than its period";
        let message = format!(
            "stream {} of node {}: {values}: {rule}",
            stream.name, node.name
        );
        Fault::at(&node.file, stream.line, message)
    })
}

fn refused_count(line: &Line) -> Option<Refused> {
    let mut plan = one_node(1, vec![]);
    plan.nodes = vec![plan.nodes.remove(0); line.nodes.len()];
    asked(&plan, || {
        let nodes = plural(line.nodes.len() as u64, "node");
        let recorder = line.recorder.as_ref().map_or("", |_| " with the recorder");
        Fault::of_file(
            &line.file,
            format!("{nodes}{recorder}: a line has 1 to 16 nodes"),
        )
    })
}
