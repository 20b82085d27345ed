//! Asks in Rust for the smallest budgets of a line. With its own the line is
//! refused, with those that are found it is admitted; and with a shorter
//! deadline no budgets work. It prints what examples/budgets.c prints.

use wistorvan::{admit, find_budgets, Refusal, MAX_NODES, MAX_STREAMS};

/// Three nodes; a message takes 5 ticks, a protocol slot 1. Then a row for each
/// node: place of its body, streams, budget.
#[rustfmt::skip]
const LINE: [u32; 36] = [
    3, 5, 1,
    12, 4, 2, // line controller
    24, 2, 1, // burner
    30, 2, 4, // recorder
    // Belt speed, damper command, burner shut-off, fan speed: period, deadline,
    // jitter.
    200, 59, 0, 500, 69, 0, 1000, 49, 0, 400, 69, 0,
    250, 39, 0, 1000, 49, 0, // flame signal, gas pressure
    1000, 1000, 0, 10000, 10000, 0, // recorder block, recorder state
];
const NODES: usize = 3;
const SHUT_OFF_DEADLINE: usize = 19;

/// Where the budget of a node stands, the first node being 0.
fn budget_at(node: usize) -> usize {
    5 + 3 * node
}

fn shown(words: &[u32]) -> String {
    let words: Vec<String> = words.iter().map(u32::to_string).collect();
    words.join(" ")
}

fn ask(sheet: &[u32]) -> Result<(), Refusal> {
    let budgets: Vec<u32> = (0..NODES).map(|node| sheet[budget_at(node)]).collect();
    println!("the line with budgets {}", shown(&budgets));
    let mut waits = [0; MAX_STREAMS];
    let admission = admit(sheet, &mut waits)?;
    println!(
        "  admitted: cycle {}, waits {}",
        admission.cycle,
        shown(admission.waits)
    );
    Ok(())
}

/// Puts the budgets into the sheet where some are found.
fn find(what: &str, sheet: &mut [u32]) -> Result<(), Refusal> {
    println!("{what}");
    let mut room = [0; MAX_NODES];
    let found = find_budgets(sheet, &mut room)?;
    println!(
        "  found: {}, sum {}, cycle {}",
        shown(found.row),
        found.sum,
        found.cycle
    );
    for (node, &budget) in found.row.iter().enumerate() {
        sheet[budget_at(node)] = budget;
    }
    Ok(())
}

fn show_refused(asked: Result<(), Refusal>) {
    if let Err(refusal) = asked {
        println!("  {refusal}");
    }
}

fn main() {
    let mut sheet = LINE;
    show_refused(ask(&sheet));
    show_refused(find("the smallest budgets", &mut sheet));
    show_refused(ask(&sheet));
    sheet[SHUT_OFF_DEADLINE] = 19;
    show_refused(find(
        "the smallest budgets with the burner shut-off due within 19 ticks",
        &mut sheet,
    ));
}
