//! What the command says in cases that the samples do not have, in process.

#[path = "support/run.rs"]
mod run;

use std::fs;
use std::path::Path;

use run::run;

/// A file in the folder for tests.
fn file(name: &str, text: &str) -> String {
    let path = Path::new(env!("CARGO_TARGET_TMPDIR")).join(name);
    fs::write(&path, text).unwrap();
    path.to_str().unwrap().to_string()
}

/// What a run writes; the file is standard input.
fn said(args: &[&str], input: &str, status: u8) -> String {
    let ran = run(args, input.as_bytes());
    assert_eq!((ran.status, ran.err.len()), (status, 0));
    String::from_utf8(ran.out).unwrap()
}

/// Holds the first line, and lines that come after it.
fn holds(said: &str, first: &str, others: &[&str]) {
    assert_eq!(said.lines().next(), Some(first));
    for other in others {
        let found = said.lines().any(|line| line.trim_start() == *other);
        assert!(found, "{other:?} is not in\n{said}");
    }
}

/// A line in ticks, with these nodes: a message takes 5 ticks and a slot 1.
fn line(nodes: &str) -> String {
    format!("message 5 ticks\nslot 1 tick\n{nodes}")
}

const SHEET_A: &str = "node a budget 1\nstream b period 40 ticks deadline 40 ticks\n\
                       stream c period 60 ticks deadline 60 ticks\n\
                       node d budget 2\nstream e period 30 ticks deadline 30 ticks\n";

#[test]
fn few_streams() {
    let none = said(&["check", "-"], &line("node a budget 1"), 0);
    holds(
        &none,
        "Yes: standard input has no streams, so none is late.",
        &["Full cycle 6 ticks."],
    );
    let one = said(
        &["check", "-"],
        &line("node a budget 1\nstream b period 20 ticks deadline 20 ticks"),
        0,
    );
    holds(
        &one,
        "Yes: the only stream of standard input is delivered by its deadline.",
        &[],
    );
}

#[test]
fn late_streams() {
    let node = "node a budget 1\nstream b period 10 ticks deadline 10 ticks\nstream c period 10 ticks deadline 10 ticks\n\
                stream d period 100 ticks deadline 10 ticks\nstream e period 100 ticks deadline 10 ticks";
    holds(
        &said(&["check", "-"], &line(node), 1),
        "No: 4 of 4 streams of standard input are late: a.b, a.c, a.d and 1 more.",
        &[
            "a     b                  -         11 ticks  10 ticks   1 tick  over",
            "a     d                  -                -  10 ticks         - no bound",
            "a.b: up to 11 ticks from queuing to delivery, 1 tick over its deadline of 10 ticks. That is longer than its \
             period of 10 ticks: later messages of it can queue behind, so it can take still longer.",
            "a.e: no bound was found up to 1,000,000,000 ticks: the streams ranked above it fill the turns of its node, \
             or nearly.",
            "No budgets of 1 to 16 help: node a has a late stream even with 16.",
            "Nothing simple was found: no deadline up to its period brings a late stream in time either.",
        ],
    );
}

#[test]
fn what_helps() {
    // A message takes 1 tick and a slot 5.
    let line = "message 1 tick\nslot 5 ticks\nnode a budget 1\nstream b period 50 ticks deadline 15 ticks\n\
                stream c period 50 ticks deadline 15 ticks\n";
    let file = file("late.txt", line);
    holds(
        &said(&["check", "-"], line, 1),
        "No: 1 of 2 streams of standard input is late: a.c.",
        &[
            "Budget 2 instead of 1 for a: then the whole line is in time.",
            "The least budgets that work: a 2.",
            "Deadline 17 ticks instead of 15 ticks for a.c, if that is soon enough: then the whole line is in time.",
        ],
    );
    let recorder = "node r budget 1\nstream x period 50 ticks deadline 50 ticks";
    holds(
        &said(&["check", &file, "--with", "-"], recorder, 1),
        &format!("No: with standard input 2 of 3 streams of {file} are late: a.b, a.c."),
        &[
            "Without it 1 of 2 is late already: a.c.",
            "a.c: up to 29 ticks from queuing to delivery, 14 ticks over its deadline of 15 ticks. It is late without the \
             recorder too.",
            // Above 15 ticks it is ranked below the other.
            "Deadline 29 ticks instead of 15 ticks for a.b, if that is soon enough: then it is in time, and others are \
             still late.",
        ],
    );
}

const EVENT: &str =
    "Waits count from the first tick at or after a message is queued; deliveries and deadlines \
     from the first at or after its event, which is up to its jitter earlier.";

#[test]
fn jitter() {
    // One above lengthens the wait of another: 33 + 7 is its period.
    let above = SHEET_A.replace("deadline 40 ticks", "deadline 40 ticks jitter 7 ticks");
    holds(
        &said(&["check", "-"], &line(&above), 0),
        "Yes: all 3 streams of standard input are delivered by their deadlines.",
        &[
            "node  stream   jitter  longest wait  latest delivery  deadline      left",
            "a     b       7 ticks      16 ticks         29 ticks  40 ticks  11 ticks",
            "a     c             -      50 ticks         56 ticks  60 ticks   4 ticks",
            "d     e             -      16 ticks         27 ticks  30 ticks   3 ticks",
            EVENT,
        ],
    );
    // Its own makes a stream late, of which the delivery counts from the event.
    let own = line(&SHEET_A.replace("deadline 30 ticks", "jitter 4 ticks deadline 30 ticks"));
    holds(
        &said(&["check", "-"], &own, 1),
        "No: 1 of 3 streams of standard input is late: d.e.",
        &[
            "d     e       4 ticks             -         31 ticks  30 ticks   1 tick  over",
            "d.e: up to 31 ticks from its event to delivery, 1 tick over its deadline of 30 ticks. That is longer than \
             its period of 30 ticks: later messages of it can queue behind, so it can take still longer.",
            "Budget 1 instead of 2 for d: then the whole line is in time.",
            EVENT,
        ],
    );
    // Without jitter there is no column and no word of it.
    let without = said(&["check", "-"], &line(SHEET_A), 0);
    assert!(!without.contains("jitter") && !without.contains("event"));
    let recorder = "node r budget 1\nstream x period 90 ticks deadline 90 ticks jitter 9 ticks";
    let file = file("no-jitter.txt", &line(SHEET_A));
    holds(
        &said(&["check", &file, "--with", "-"], recorder, 1),
        &format!("No: with standard input 2 of 4 streams of {file} are late: a.c, d.e."),
        &["r     x       90 ticks  9 ticks            -    22 ticks                -        37 ticks         -  53 ticks"],
    );
}

#[test]
fn a_jitter_of_nothing_is_none() {
    let zero = SHEET_A.replace("deadline 40 ticks", "deadline 40 ticks jitter 0 ticks");
    for args in [["check", "-"], ["budgets", "-"]] {
        assert_eq!(said(&args, &line(&zero), 0), said(&args, &line(SHEET_A), 0));
    }
}

#[test]
fn rounding_is_told() {
    let line = "tick 1 ms\nmessage 0.5 ms\nslot 1 ms\nnode a budget 1\nstream b period 1 s deadline 50.5 ms";
    let notes = [
        "Full cycle 2 ms (2 ticks of 1 ms).",
        "Rounded to whole ticks: standard input, line 2: message, from 0.5 ms to 1 ms.",
        "Rounded to whole ticks: standard input, line 5: deadline of a.b, from 50.5 ms to 50 ms.",
    ];
    let yes = "Yes: the only stream of standard input is delivered by its deadline.";
    let queued = "Times count from the first tick at or after a message is queued.";
    holds(&said(&["check", "-"], line, 0), yes, &notes);
    holds(&said(&["check", "-"], line, 0), yes, &[queued]);
    let jitter = format!("{line} jitter 0.01 ms");
    let rounded =
        "Rounded to whole ticks: standard input, line 5: jitter of a.b, from 0.01 ms to 1 ms.";
    holds(&said(&["check", "-"], &jitter, 0), yes, &notes);
    holds(&said(&["check", "-"], &jitter, 0), yes, &[rounded, EVENT]);
}

#[test]
fn budgets() {
    let node = |deadline: u32| {
        format!(
            "message 1 tick\nslot 5 ticks\nnode a\nstream b period 50 ticks deadline {deadline} ticks\n\
             stream c period 50 ticks deadline {deadline} ticks\n"
        )
    };
    holds(
        &said(&["budgets", "-"], &node(15), 0),
        "Yes: the least budgets of standard input are found; with them the full cycle is 7 ticks.",
        &[
            "a                      -             2",
            "The file does not have all budgets, so it has no full cycle of its own.",
            "The least budgets give the shortest full cycle that works, not each stream its shortest wait.",
        ],
    );
    let never = Path::new(env!("CARGO_TARGET_TMPDIR")).join("never.txt");
    let never = never.to_str().unwrap();
    holds(
        &said(&["budgets", "-", "--write", never], &node(10), 1),
        "No: no budgets of 1 to 16 make every stream of standard input in time; node a is the first that is late with 16.",
        &["a                      -             -", &format!("{never} is not written.")],
    );
    assert!(!Path::new(never).exists());
}

#[test]
fn waits_in_a_replay() {
    let file = file("a.txt", &line(SHEET_A));
    let replay = |log: &str, more: &[&str], status| {
        let args = [&["replay", file.as_str(), "-"], more].concat();
        said(&args, log, status)
    };
    holds(
        &replay("", &[], 0),
        "Yes: standard input has no messages, so none waited too long.",
        &[],
    );
    let one = "Yes: the only message of standard input began within its listed wait: a.b, queued at 0 ticks, waited 0 of 16 ticks.";
    holds(&replay("0 a.b", &[], 0), one, &[]);
    // Case P9 of the rules.
    holds(
        &replay("0 a.b\n0 a.c\n1 d.e\n", &["--until", "40"], 0),
        "Yes: all 3 messages of standard input began within their listed waits; closest: d.e, queued at 1 tick, waited 5 of 16 ticks.",
        &["0 ticks  a.c     12 ticks  12 ticks     33 ticks  21 ticks", "25 turns started before 40 ticks; the next would start at 40 ticks."],
    );
    let burst = "0 a.b\n0 a.b\n0 a.b\n0 a.b\n0 a.c\n";
    let so = "Then this stream or one ranked above it in its node was released more often than its period and jitter allow.";
    let row = "0 ticks  a.b     21 ticks  21 ticks     16 ticks   5 ticks over";
    holds(
        &replay(burst, &[], 1),
        "No: 1 of 5 messages of standard input waited longer than the listed wait; worst: a.b, queued at 0 ticks, waited 21 of 16 ticks.",
        &[so, row],
    );
    holds(
        &replay(burst, &["--until", "20"], 1),
        "No: 1 of 5 messages of standard input waited longer than the listed wait; worst: a.b, queued at 0 ticks, waited 20 of 16 ticks and has not begun.",
        &[so, "2 of 5 messages had not begun by 20 ticks.", "0 ticks  a.b            -         -     16 ticks         - over"],
    );
    let none = "Yes: none of 2 messages of standard input has begun, and none waited longer than its listed wait so far.";
    holds(
        &replay("0 a.b\n5 d.e", &["--until", "0"], 0),
        none,
        &["2 of 2 messages had not begun by 0 ticks."],
    );
}

#[test]
fn late_streams_in_a_replay_are_told_apart() {
    let file = file(
        "late-a.txt",
        &line(
            &SHEET_A
                .replace("deadline 60", "deadline 38")
                .replace("deadline 40", "deadline 38"),
        ),
    );
    let said = said(&["replay", &file, "-"], "0 a.c\n0 d.e\n9 a.c\n", 1);
    let first = "No: 2 of 3 messages of standard input are of streams that are late, and so have no listed wait: a.c.";
    holds(
        &said,
        first,
        &["The other one waited no longer than its listed wait: d.e, queued at 0 ticks, waited 6 of 16 ticks."],
    );
}

#[test]
fn records_in_a_replay() {
    let records = |nodes: &str, log: &str, until: &str, status| -> Vec<String> {
        let file = file("records.txt", &line(nodes));
        let said = said(&["replay", &file, "-", "--until", until], log, status);
        let table = said.lines().skip_while(|line| !line.starts_with("stream "));
        table
            .take_while(|line| !line.is_empty())
            .map(str::to_string)
            .collect()
    };
    let burst = "0 a.b\n0 a.b\n0 a.b\n0 a.b\n0 a.c\n1 d.e\n31 d.e\n";
    assert_eq!(
        records(SHEET_A, burst, "70", 1),
        [
            "stream  begun  longest so far  listed wait  over",
            "a.b         4        26 ticks     16 ticks     2",
            "a.c         1        38 ticks     33 ticks     1",
            "d.e         2         5 ticks     16 ticks     0",
        ]
    );
    // What has not begun is in no record, also where it has waited too long.
    assert_eq!(
        records(SHEET_A, burst, "20", 1)[1..],
        [
            "a.b         3        19 ticks     16 ticks     1",
            "a.c         0               -     33 ticks     0",
            "d.e         1         5 ticks     16 ticks     0",
        ]
    );
    let late = SHEET_A
        .replace("deadline 60", "deadline 38")
        .replace("deadline 40", "deadline 38");
    assert_eq!(
        records(&late, burst, "70", 1)[1..],
        [
            "a.b         4        26 ticks     16 ticks     2",
            "a.c         1        38 ticks         late     -",
            "d.e         2         5 ticks     16 ticks     0",
        ]
    );
    let none = records("node a budget 1", "", "5", 0);
    assert_eq!(none, ["stream  begun  longest so far  listed wait  over"]);
}

#[test]
fn times_of_a_log() {
    let file = file("log-times.txt", "tick 0.1 ms\nmessage 0.5 ms\nslot 0.1 ms\nnode a budget 1\nstream b period 1 s deadline 1 s");
    let queued = |log: &str| -> Vec<String> {
        let said = said(&["replay", &file, "-"], log, 0);
        let rows = said.lines().skip_while(|line| !line.is_empty());
        let rows = rows.skip(2).take_while(|line| !line.is_empty());
        rows.map(|line| line.trim().split("  ").next().unwrap().to_string())
            .collect()
    };
    assert_eq!(queued("5 a.b\n0.01s a.b"), ["5.0 ms", "10.0 ms"]);
    assert_eq!(
        queued("\u{feff}time,stream\r\n5,a.b\r\n6.01,a.b\r\n"),
        ["5.0 ms", "6.1 ms"]
    );
    for header in [
        "time_s,stream",
        "time (s),stream",
        "time [s];stream",
        "TIME_s stream",
        "\"time (s)\",\"stream\"",
    ] {
        assert_eq!(
            queued(&format!("# morning\n\n{header}\n1,a.b")),
            ["1000.0 ms"],
            "{header}"
        );
    }
    assert_eq!(
        queued("time_ticks,stream\n7;\"a.b\"\n1 s\ta.b # late"),
        ["0.7 ms", "1000.0 ms"]
    );
    let rounded = said(
        &["replay", &file, "-", "--until", "20.05"],
        "5.01 a.b\n6 a.b\n",
        0,
    );
    for note in [
        "Rounded up to whole ticks: 1 of 2 times in standard input.",
        "Rounded up to a whole tick: --until, from 20.05 ms to 20.1 ms.",
    ] {
        assert!(rounded.contains(note), "{rounded}");
    }
}
