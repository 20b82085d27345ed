//! Asks the proved planner about sheet A from Rust, once by every function, and
//! shows two refusals. It prints what examples/ask.c prints.

use wistorvan::{admit, begun, check_sheet, one_stream, replay, step};
use wistorvan::{Bus, Reason, Refusal, MAX_STREAMS, NOT_BEGUN};

const SHEET_A: [u32; 18] = [2, 5, 1, 9, 2, 1, 15, 1, 2, 40, 40, 0, 60, 60, 0, 30, 30, 0];
const LOG: [u32; 6] = [0, 1, 0, 2, 1, 3];

fn show(what: &str, words: &[u32]) {
    let shown = words
        .iter()
        .map(|&word| begun(word).map_or("-".to_string(), |tick| tick.to_string()));
    println!("{what}: {}", shown.collect::<Vec<_>>().join(" "));
}

fn ask_before_running() -> Result<(), Refusal> {
    check_sheet(&SHEET_A)?;
    println!("sheet A: valid");
    let listed = one_stream(&SHEET_A, 1, 2)?;
    println!(
        "stream 2 of node 1: wait {}, J {}",
        listed.wait, listed.cycles
    );
    let mut room = [0; MAX_STREAMS];
    let admission = admit(&SHEET_A, &mut room)?;
    println!(
        "admitted: {} streams, cycle {}",
        admission.waits.len(),
        admission.cycle
    );
    show("waits", admission.waits);
    Ok(())
}

fn run_log() -> Result<(), Refusal> {
    let mut room = [0; LOG.len() / 2];
    let replayed = replay(&SHEET_A, &LOG, 12, &mut room)?;
    println!(
        "replay to 12: {} turns, next at {}",
        replayed.turns, replayed.next
    );
    show("begins", replayed.begins);

    let mut bus = Bus::START;
    let mut begins = [NOT_BEGUN; LOG.len() / 2];
    let stepped = step(&SHEET_A, &LOG, &mut bus, &mut begins)?;
    println!(
        "one step: {} taken, next at {}",
        stepped.taken, stepped.next
    );
    show("begins", &begins);
    println!(
        "next turn: tick {}, node {}, turns {}",
        bus.tick, bus.node, bus.turns
    );
    Ok(())
}

fn be_refused() {
    let empty = check_sheet(&[]).expect_err("an empty sheet is refused");
    println!("an empty sheet: {empty}");

    let mut sheet = SHEET_A;
    sheet[10] = 38;
    sheet[13] = 38;
    let late = admit(&sheet, &mut [0; MAX_STREAMS]).expect_err("the stream is late");
    assert_eq!(late.reason(), Reason::Late);
    println!("deadlines of 38: {late}");
}

fn main() -> Result<(), Refusal> {
    ask_before_running()?;
    run_log()?;
    be_refused();
    Ok(())
}
