//! Replays a log in Rust piece by piece, as it is written, and then as a whole:
//! the begins, the turns and the next tick are the same. It prints what
//! examples/pieces.c prints.

use wistorvan::{replay, resume, Checkpoint, Refusal, MAX_WAITING, NOT_BEGUN};

/// Two nodes; a message takes 5 ticks, a protocol slot 1. Then a row for each
/// node: place of its body, streams, budget. Then period, deadline and jitter of
/// each stream.
#[rustfmt::skip]
const SHEET: [u32; 18] = [
    2, 5, 1,
    9, 2, 1,
    15, 1, 2,
    40, 40, 0, 60, 60, 0,
    30, 30, 0,
];

/// Releases, two words each, and the horizon: the tick at which a release is
/// queued, and the running number of its stream.
const PIECES: [(&[u32], u32); 3] = [(&[0, 1, 0, 2], 1), (&[1, 3], 12), (&[], 40)];

fn shown(words: &[u32]) -> String {
    let words: Vec<String> = words.iter().map(u32::to_string).collect();
    words.join(" ")
}

fn show_waiting(checkpoint: &Checkpoint) {
    match &checkpoint.numbers[..checkpoint.waiting as usize] {
        [] => println!("; waiting: none"),
        numbers => println!("; waiting: {}", shown(numbers)),
    }
}

/// A tick below the last horizon is refused, and the checkpoint stays as it is.
fn show_refusal(checkpoint: &mut Checkpoint) {
    let (past, mut room) = (checkpoint.horizon - 1, [0; 2 * MAX_WAITING]);
    let refused = resume(&SHEET, &[past, 1], 50, checkpoint, &mut room);
    let refusal = refused.expect_err("the tick is outside the piece");
    let (number, (a, b)) = (refusal.number(), refusal.place());
    println!("a release at {past}: refused {number} at {a} {b}");
}

fn show(what: &str, begins: &[u32], turns: u32, next: u32) {
    println!(
        "{what}: begins {}, turns {turns}, next {next}",
        shown(begins)
    );
}

fn main() -> Result<(), Refusal> {
    let (mut checkpoint, mut room) = (Checkpoint::fresh(), [0; 2 * MAX_WAITING]);
    let (mut log, mut begins) = (vec![], vec![]);
    for (releases, horizon) in PIECES {
        log.extend(releases);
        begins.resize(log.len() / 2, NOT_BEGUN);
        let resumed = resume(&SHEET, releases, horizon, &mut checkpoint, &mut room)?;
        print!("up to {horizon}:");
        for (release, begin) in resumed.begun() {
            print!(" release {release} begins at {begin}");
            begins[release as usize - 1] = begin;
        }
        show_waiting(&checkpoint);
    }
    show_refusal(&mut checkpoint);
    show("by pieces", &begins, checkpoint.turns, checkpoint.tick);
    let mut whole = vec![0; log.len() / 2];
    let replayed = replay(&SHEET, &log, checkpoint.horizon, &mut whole)?;
    show(
        "the whole log",
        replayed.begins,
        replayed.turns,
        replayed.next,
    );
    Ok(())
}
