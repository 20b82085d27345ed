//! Makes sheets from tables in Rust and asks whether each is admitted: sheet A,
//! sheet A with deadlines that cannot be met, sheet A with streams that queue
//! late, and tables that make no sheet. It prints what examples/make.c prints.

use wistorvan::{admit, write_sheet, Refusal, Tables, LONGEST_SHEET, MAX_STREAMS};

/// Node 1 has two streams and may send one message a turn, node 2 has one
/// stream and may send two.
const LINE: Tables = Tables {
    message_ticks: 5,
    slot_ticks: 1,
    counts: &[2, 1],
    budgets: &[1, 2],
    periods: &[40, 60, 30],
    deadlines: &[40, 60, 30],
    jitters: &[0, 0, 0],
};

fn shown(words: &[u32]) -> String {
    let words: Vec<String> = words.iter().map(u32::to_string).collect();
    words.join(" ")
}

fn make_and_ask(tables: &Tables) -> Result<(), Refusal> {
    let (mut room, mut waits) = ([0; LONGEST_SHEET], [0; MAX_STREAMS]);
    let sheet = write_sheet(tables, &mut room)?.sheet;
    println!("  sheet: {}", shown(sheet));
    let admission = admit(sheet, &mut waits)?;
    println!(
        "  admitted: cycle {}, waits {}",
        admission.cycle,
        shown(admission.waits)
    );
    Ok(())
}

fn main() {
    let due = |deadlines| Tables { deadlines, ..LINE };
    let late = |jitters| Tables { jitters, ..LINE };
    for (what, tables) in [
        ("sheet A from its tables", LINE),
        ("both deadlines of node 1 cut to 38", due(&[38, 38, 30])),
        (
            "stream 1 of node 1 queued up to 7 ticks after its event: stream 2 may wait for two of it",
            late(&[7, 0, 0]),
        ),
        (
            "the stream of node 2 queued up to 4 ticks after its event, from which its deadline runs",
            late(&[0, 0, 4]),
        ),
        ("a deadline of 61 for a period of 60", due(&[40, 61, 30])),
        ("a jitter of 40 for a period of 40", late(&[40, 0, 0])),
    ] {
        println!("{what}");
        if let Err(refusal) = make_and_ask(&tables) {
            println!("  {refusal}");
        }
    }
}
