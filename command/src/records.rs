//! The record of each stream in the answer of `replay`, as text and as JSON.

use crate::answers::{full_name, names};
use crate::json::{self, Value};
use crate::line::Line;
use crate::replay::Stream;
use crate::report::cell;
use crate::table::{table, Align, Column};

/// A row for each stream of the line.
pub fn rows(line: &Line, streams: &[Stream]) -> String {
    const COLUMNS: [Column; 5] = [
        ("stream", Align::Left),
        ("begun", Align::Right),
        ("longest so far", Align::Right),
        ("listed wait", Align::Right),
        ("over", Align::Right),
    ];
    let rows: Vec<Vec<String>> = streams.iter().map(|stream| row(line, stream)).collect();
    table(&COLUMNS, &rows)
}

/// Where nothing has begun there is no longest wait, and nothing is held to the
/// listed wait of a late stream, which has none.
fn row(line: &Line, stream: &Stream) -> Vec<String> {
    let Stream {
        place,
        listed,
        record,
    } = stream;
    let shown = |ticks: Option<u32>| cell(&line.scale, ticks.map(u64::from));
    let (wait, over) = match listed {
        Some(_) => (shown(*listed), record.over.to_string()),
        None => ("late".to_string(), "-".to_string()),
    };
    vec![
        full_name(line, *place),
        record.begun.to_string(),
        shown((record.begun > 0).then_some(record.longest)),
        wait,
        over,
    ]
}

/// The three numbers of each record as the library has them.
pub fn value(line: &Line, streams: &[Stream]) -> Value {
    json::list(streams, |stream| {
        let (node, name) = names(line, stream.place);
        Value::Object(vec![
            ("node", Value::text(node)),
            ("stream", Value::text(name)),
            ("begun", Value::number(stream.record.begun)),
            ("longest", Value::number(stream.record.longest)),
            (
                "listed",
                json::optional(&stream.listed, |listed| Value::number(*listed)),
            ),
            ("over", Value::number(stream.record.over)),
        ])
    })
}
