//! Changes in Rust the recorder's own streams on the owner's sheet: the waits of
//! the owner's streams stay as they are, whatever the recorder's become. What is
//! not the recorder's, or no valid stream, is refused. It prints what
//! examples/edit.c prints.

use std::ops::RangeInclusive;

use wistorvan::{admit, edit_stream, one_stream, Reason, Refusal, MAX_STREAMS};

/// Five nodes; a message takes 5 ticks, a protocol slot 1. Then a row for each
/// node: place of its body, streams, budget.
#[rustfmt::skip]
const LINE: [u32; 48] = [
    5, 5, 1,
    18, 3, 2, // line controller
    27, 2, 1, // belt drive
    33, 2, 2, // burner
    39, 1, 1, // moisture probe
    42, 2, 1, // recorder
    // Belt speed, damper command, burner shut-off: period, deadline, jitter.
    200, 80, 0, 500, 99, 0, 1000, 70, 0,
    200, 200, 0, 10000, 10000, 0, // actual speed, drive state
    250, 250, 0, 1000, 1000, 0, // flame signal, gas pressure
    500, 500, 0, // moisture
    1000, 1000, 0, 10000, 10000, 0, // recorder block, recorder state
];
const OWNER: RangeInclusive<u32> = 1..=4;
const RECORDER: u32 = 5;

/// The listed waits of the streams of some nodes, one by one; a late one has
/// none.
fn waits(sheet: &[u32], nodes: RangeInclusive<u32>) -> Result<String, Refusal> {
    let mut shown = Vec::new();
    for node in nodes {
        for stream in 1..=sheet[3 * node as usize + 1] {
            shown.push(match one_stream(sheet, node, stream) {
                Ok(listed) => listed.wait.to_string(),
                Err(refusal) if refusal.reason() == Reason::Late => "late".to_string(),
                Err(refusal) => return Err(refusal),
            });
        }
    }
    Ok(shown.join(" "))
}

fn ask(sheet: &[u32]) -> Result<(), Refusal> {
    println!("  waits of the owner: {}", waits(sheet, OWNER)?);
    let own = waits(sheet, RECORDER..=RECORDER)?;
    println!("  waits of the recorder: {own}");
    let mut room = [0; MAX_STREAMS];
    println!("  admitted: cycle {}", admit(sheet, &mut room)?.cycle);
    Ok(())
}

/// A stream by its node and number, and its new period, deadline and jitter.
fn edit(sheet: &mut [u32], place: (u32, u32), words: [u32; 3]) -> Result<(), Refusal> {
    let ((node, stream), [period, deadline, jitter]) = (place, words);
    edit_stream(sheet, RECORDER, node, stream, period, deadline, jitter)
}

fn main() -> Result<(), Refusal> {
    let mut sheet = LINE;
    println!("the line with its recorder");
    ask(&sheet)?;
    for (what, place, words) in [
        (
            "recorder block every 100 ticks, queued up to 30 after its event",
            (RECORDER, 1),
            [100, 100, 30],
        ),
        (
            "recorder state due within 80 ticks",
            (RECORDER, 2),
            [10000, 80, 0],
        ),
        ("damper command due within 200 ticks", (1, 2), [500, 200, 0]),
        (
            "recorder block due within 101 ticks",
            (RECORDER, 1),
            [100, 101, 30],
        ),
    ] {
        println!("{what}");
        if let Err(refusal) = edit(&mut sheet, place, words).and_then(|()| ask(&sheet)) {
            println!("  {refusal}");
        }
    }
    Ok(())
}
