//! Replays a log in Rust with a record of each stream: its messages begun, the
//! longest of their waits, and how many of them waited longer than listed. It
//! prints what examples/records.c prints.

use wistorvan::{one_stream, replay_with_records, Reason, Recorded, Refusal, StreamRecord};

/// Two nodes; a message takes 5 ticks, a protocol slot 1. Then a row for each
/// node: place of its body, streams, budget. Then period, deadline and jitter of
/// each stream.
#[rustfmt::skip]
const SHEET: [u32; 18] = [
    2, 5, 1,
    9, 2, 1,
    15, 1, 2,
    40, 40, 0, 60, 60, 0,
    30, 30, 0,
];

/// Two words a release: the tick at which it is queued, and the running number
/// of its stream. Node 1 queues four messages of its stream 1 at once, which
/// breaks its period and keeps its stream 2 waiting; stream 3, of node 2, keeps
/// its own.
const LOG: [u32; 16] = [0, 1, 0, 1, 0, 1, 0, 1, 0, 2, 1, 3, 31, 3, 61, 3];
const HORIZON: u32 = 70;

/// The node and number of each stream, in sheet order.
const STREAMS: [(u32, u32); 3] = [(1, 1), (1, 2), (2, 1)];

/// The listed wait is the one that the records are held to; a late stream has
/// none.
fn listed_wait(sheet: &[u32], node: u32, stream: u32) -> Result<String, Refusal> {
    match one_stream(sheet, node, stream) {
        Ok(listed) => Ok(listed.wait.to_string()),
        Err(refusal) if refusal.reason() == Reason::Late => Ok("late".to_string()),
        Err(refusal) => Err(refusal),
    }
}

fn show(what: &str, sheet: &[u32], recorded: &Recorded) -> Result<(), Refusal> {
    let begins: Vec<String> = recorded.begins.iter().map(u32::to_string).collect();
    let (turns, begins) = (recorded.turns, begins.join(" "));
    println!("{what}: turns {turns}, begins {begins}");
    println!("  node  stream  begun  longest  listed  over");
    for ((node, stream), record) in STREAMS.into_iter().zip(recorded.records) {
        let StreamRecord {
            begun,
            longest,
            over,
        } = record;
        let listed = listed_wait(sheet, node, stream)?;
        println!("  {node:>4}  {stream:>6}  {begun:>5}  {longest:>7}  {listed:>6}  {over:>4}");
    }
    Ok(())
}

/// A list that is shorter than the streams is refused, and what is lent stays as
/// it is.
fn show_refusal(begins: &mut [u32], list: &mut [StreamRecord]) {
    let before = (begins.to_vec(), list.to_vec());
    let refused = replay_with_records(&SHEET, &LOG, HORIZON / 2, begins, list);
    let refusal = refused.expect_err("the list is too short");
    assert_eq!((begins.to_vec(), list.to_vec()), before);
    let (records, number, (a, b)) = (list.len(), refusal.number(), refusal.place());
    println!("a list of {records} records: refused {number} at {a} {b}, begins and list as before");
}

fn main() -> Result<(), Refusal> {
    let (mut begins, mut list) = ([0; LOG.len() / 2], [StreamRecord::default(); 3]);
    let recorded = replay_with_records(&SHEET, &LOG, HORIZON, &mut begins, &mut list)?;
    show("sheet A", &SHEET, &recorded)?;
    show_refusal(&mut begins, &mut list[..STREAMS.len() - 1]);
    let mut sheet = SHEET;
    (sheet[10], sheet[13]) = (38, 38);
    let recorded = replay_with_records(&sheet, &LOG, HORIZON, &mut begins, &mut list)?;
    show("both deadlines of node 1 cut to 38", &sheet, &recorded)
}
