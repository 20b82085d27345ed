//! Recorders, logs and sheets.

use super::run::{run, to_bytes};
use super::{file, line, message};

#[test]
fn recorders() {
    let line_file = file(
        "line.txt",
        line("node a budget 1\nstream b period 1 s deadline 1 s").as_bytes(),
    );
    let check = |recorder: &str, status: u8| {
        let ran = run(&["check", &line_file, "--with", "-"], recorder.as_bytes());
        message(&ran, status, "standard input")
    };
    assert_eq!(check("", 2), "found no node, expected one");
    assert_eq!(
        check("tick 1 ms\nnode r budget 1", 2),
        "line 1: found \"tick\", which belongs to the line, expected \"node\" or \"stream\""
    );
    assert_eq!(
        check("node r budget 1\nslot 1 ms", 2),
        "line 2: found \"slot\", which belongs to the line, expected \"node\" or \"stream\""
    );
    assert_eq!(check("node r budget 1\nnode s budget 1", 2), "line 2: found a second node, expected one node in a recorder's file (the first is in line 1)");
    assert_eq!(
        check("nod r budget 1\n", 2),
        "line 1: found \"nod\", expected \"node\" or \"stream\"\nfound no node, expected one"
    );
    assert_eq!(
        check("\nnode a budget 1", 2),
        format!("line 2: found node \"a\" a second time, expected another name (the first is in {line_file}, line 4)")
    );
    assert_eq!(
        check("node r budget 17", 1),
        "line 1: node r: 0 streams and budget 17: a node has at most 16 streams and a budget of 1 to 16 (refused 4)"
    );
    let nodes: String = (0..16)
        .map(|node| format!("node n{node} budget 1\n"))
        .collect();
    let full = file("full.txt", line(&nodes).as_bytes());
    let ran = run(&["check", &full, "--with", "-"], b"node r budget 1");
    assert_eq!(
        message(&ran, 1, &full),
        "17 nodes with the recorder: a line has 1 to 16 nodes (refused 2)"
    );
    let bare = file("bare.txt", line("").as_bytes());
    for command in ["check", "budgets", "words"] {
        let ran = run(&[command, &bare, "--with", "-"], b"node r budget 1");
        let message = message(&ran, 1, &bare);
        assert_eq!(message, "0 nodes: a line has 1 to 16 nodes (refused 2)");
    }
    let in_ticks = file(
        "ticks.txt",
        b"message 1 tick\nslot 1 tick\nnode a budget 1\n",
    );
    let ran = run(
        &["check", &in_ticks, "--with", "-"],
        b"node r budget 1\nstream s period 1 s deadline 1 s",
    );
    assert_eq!(
        message(&ran, 2, "standard input"),
        format!("line 2: found 1 s, expected ticks: {in_ticks} has no tick statement")
    );
    let ran = run(
        &["check", &in_ticks, "--with", "-"],
        b"node r budget 1\nstream s period 9 ticks deadline 9 ticks jitter 1 ms",
    );
    assert_eq!(
        message(&ran, 2, "standard input"),
        format!("line 2: found 1 ms, expected ticks: {in_ticks} has no tick statement")
    );
}

#[test]
fn logs() {
    let line_file = file(
        "log-line.txt",
        line("node a budget 1\nstream b period 1 s deadline 1 s").as_bytes(),
    );
    let replay = |log: &str, status: u8| {
        let ran = run(&["replay", &line_file, "-"], log.as_bytes());
        message(&ran, status, "standard input")
    };
    assert_eq!(
        replay("5", 2),
        "line 1: found 1 field, expected two: a time and NODE.STREAM"
    );
    assert_eq!(
        replay("5,a.b,6", 2),
        "line 1: found 3 fields, expected two: a time and NODE.STREAM"
    );
    assert_eq!(
        replay("5,b", 2),
        "line 1: found \"b\", expected NODE.STREAM"
    );
    assert_eq!(
        replay("# log\n5,c.b", 2),
        format!("line 2: found \"c.b\", expected a node of {line_file}: none is called \"c\"")
    );
    assert_eq!(
        replay("5,a.c", 2),
        "line 1: found \"a.c\", expected a stream of node a: none is called \"c\""
    );
    assert_eq!(
        replay("5 mss,a.b", 2),
        "line 1: found \"mss\", expected a unit: us, ms, s, min, h or ticks"
    );
    assert_eq!(
        replay("5,5;a.b", 2),
        "line 1: found \"5,5\", expected a number without a comma: write 5.5, with a point"
    );
    assert_eq!(
        replay("\"5,a.b", 2),
        "line 1: found a quotation mark without another, expected two around a field"
    );
    assert_eq!(replay("time_sec,stream\n5,a.b", 2), "line 1: found \"_sec\" after \"time\", expected a unit as in time_ms: us, ms, s, min, h or ticks");
    assert_eq!(
        replay("5 h,a.b\n500 h,a.b", 2),
        "line 2: found 500 h, expected at most 4294967295 ticks"
    );
    assert_eq!(
        replay("5,a.b\n4,a.b\n\n4,a.b\n40 h,a.b\n41h,a.b", 1),
        "line 2: a release at 40 ticks after 50 ticks in line 1: times are at most 1,000,000,000 ticks and never fall (refused 9)\n\
         line 5: a release at 1440000000 ticks after 40 ticks in line 4: times are at most 1,000,000,000 ticks and never fall (refused 9)\n\
         line 6: a release at 1476000000 ticks after 1440000000 ticks in line 5: times are at most 1,000,000,000 ticks and never fall (refused 9)"
    );
    assert_eq!(
        replay(&"5,a.b\n".repeat(4097), 1),
        "line 4097: 4097 releases up to here: a log has at most 4,096 (refused 9)"
    );
    assert_eq!(
        replay(&" ".repeat((4 << 20) + 1), 2),
        "found more than 4194304 bytes, expected at most 4 MiB"
    );
}

#[test]
fn sheets() {
    let text =
        |bytes: &[u8], status: u8| message(&run(&["text", "-"], bytes), status, "standard input");
    assert_eq!(text(b"", 1), "the sheet has fewer than 3 words (refused 1)");
    assert_eq!(
        text(b"12345", 2),
        "found 5 bytes, expected a multiple of 4: a sheet is a table of 32-bit words"
    );
    let words = |words: &[u32]| to_bytes(words);
    assert_eq!(
        text(&words(&[1, 5, 1, 6, 1, 1, 10, 10, 10]), 1),
        "stream 1 of node 1: wrong period, deadline or jitter (refused 5)"
    );
    let long = run(
        &["text", "-", "--tick", "999999999999999h"],
        &words(&[1, 5, 1, 6, 1, 1, 10, 10, 0]),
    );
    assert_eq!(
        message(&long, 2, "wistorvan"),
        "text: --tick: found a length with which durations have too many digits, expected a shorter one"
    );
}
