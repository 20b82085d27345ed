//! Holding lists of the command's JSON to the library's answers.

use super::hold::{equal, holds, list, number, optional, text, Held};
use super::json::Json;
use super::library::{Listed, Sheet, Ticks};
use super::lines::{Line, Stream};

/// The rows of a list of streams are the library's answers, in sheet order.
pub fn streams_hold(
    rows: &[Json],
    line: &Line,
    ticks: &Ticks,
    sheet: &Sheet,
) -> Result<Vec<Listed>, String> {
    equal("number of streams", rows.len(), ticks.places().len())?;
    let mut all = Vec::new();
    for (row, (node, stream)) in rows.iter().zip(ticks.places()) {
        let named = &line.nodes[node];
        equal("node", text(row, "node")?, &named.name)?;
        equal("stream", text(row, "stream")?, &named.streams[stream].name)?;
        equal(
            "period",
            number(row, "period")?,
            named.streams[stream].period.ticks.into(),
        )?;
        equal(
            "deadline",
            number(row, "deadline")?,
            named.streams[stream].deadline.ticks.into(),
        )?;
        equal(
            "jitter",
            number(row, "jitter")?,
            named.streams[stream].jitter.ticks.into(),
        )?;
        let said = Listed {
            late: row.get("late") == Some(&Json::Bool(true)),
            wait: optional(row, "wait")?,
            cycles: optional(row, "cycles")?,
            delivery: optional(row, "delivery")?,
            left: optional(row, "left")?,
        };
        let expected = ticks.listed(sheet, node, stream);
        equal("stream's answers", said, expected)?;
        all.push(ticks.listed(sheet, node, stream));
    }
    Ok(all)
}

/// The budgets that would help are those that the library admits.
pub fn budgets_help(helps: &Json, line: &Line, ticks: &Ticks) -> Held {
    let mut said = Vec::new();
    for row in list(helps, "budgets_one")? {
        said.push((text(row, "node")?, number(row, "from")?, number(row, "to")?));
    }
    let mut expected = Vec::new();
    for (at, node) in line.nodes.iter().enumerate() {
        let other = ticks.other_budget(at).map(i64::from);
        expected.extend(other.map(|to| (node.name.as_str(), i64::from(node.budget), to)));
    }
    // A recorder's budget is named first.
    said.sort();
    expected.sort();
    equal("one budget changed", said, expected)
}

/// Each deadline that would help is the least one, at most the period; a late
/// stream that is not listed has none.
pub fn deadlines_help(helps: &Json, line: &Line, ticks: &Ticks, streams: &[Listed]) -> Held {
    let mut said = list(helps, "deadlines")?.iter().peekable();
    for ((node, stream), _) in ticks
        .places()
        .into_iter()
        .zip(streams)
        .filter(|(_, row)| row.late)
    {
        let named = &line.nodes[node].streams[stream];
        let Some(least) = least_deadline(ticks, node, stream, named) else {
            continue;
        };
        let shorter = named.deadline.ticks..least.min(named.deadline.ticks + 64);
        let in_time = |ticks_below| {
            ticks
                .with_deadline(node, stream, ticks_below)
                .in_time(node, stream)
        };
        holds(
            "a shorter deadline helps too",
            !shorter.into_iter().any(in_time),
        )?;
        let row = said
            .next()
            .ok_or("a deadline that would help is not listed")?;
        equal(
            "node of a deadline",
            text(row, "node")?,
            &line.nodes[node].name,
        )?;
        equal("stream of a deadline", text(row, "stream")?, &named.name)?;
        equal("least deadline", number(row, "deadline")?, least.into())?;
        let admitted = ticks.with_deadline(node, stream, least).admitted();
        equal(
            "admitted with it",
            row.get("admitted"),
            Some(&Json::Bool(admitted)),
        )?;
    }
    holds(
        "a deadline is listed that does not help",
        said.next().is_none(),
    )
}

/// By the delivery at each deadline in turn: it never falls as deadlines grow.
fn least_deadline(ticks: &Ticks, node: usize, stream: usize, named: &Stream) -> Option<u32> {
    let mut deadline = named.deadline.ticks;
    loop {
        let tried = ticks.with_deadline(node, stream, deadline);
        if tried.in_time(node, stream) {
            return Some(deadline);
        }
        let at = ticks
            .places()
            .iter()
            .position(|&place| place == (node, stream))?;
        let needed = u32::try_from(tried.needed(node, at)?).ok()?;
        deadline = Some(needed).filter(|&ticks| ticks <= named.period.ticks)?;
    }
}

/// The least budgets of all nodes, or null where the library has none.
pub fn row_holds(said: Option<&Json>, line: &Line, ticks: &Ticks) -> Held {
    let Ok(least) = ticks.least_budgets() else {
        return equal("least budgets", said, Some(&Json::Null));
    };
    let rows = said.and_then(Json::list).ok_or("no least budgets")?;
    equal("number of least budgets", rows.len(), least.len())?;
    for ((row, to), node) in rows.iter().zip(least).zip(&line.nodes) {
        equal("node of a budget", text(row, "node")?, &node.name)?;
        equal("its own budget", number(row, "from")?, node.budget.into())?;
        equal("its least budget", number(row, "to")?, to)?;
    }
    Ok(())
}

/// The durations of a line that are no whole ticks are listed, with their ticks.
pub fn rounded_holds(rows: &[Json], line: &Line) -> Held {
    let streams = line.nodes.iter().flat_map(|node| &node.streams);
    let spans = streams.flat_map(|stream| [&stream.period, &stream.deadline, &stream.jitter]);
    let spans = spans.chain([&line.message, &line.slot]);
    let rounded = spans.filter(|span| span.rounded);
    let mut expected: Vec<i64> = rounded.map(|span| span.ticks.into()).collect();
    let said: Result<Vec<i64>, String> = rows.iter().map(|row| number(row, "ticks")).collect();
    let mut said = said?;
    said.sort();
    expected.sort();
    equal("rounded", said, expected)
}
