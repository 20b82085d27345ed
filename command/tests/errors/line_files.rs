//! Line files: errors of the text, of statements, names and durations, and the
//! library's refusals.

use super::run::run;
use super::{in_line, line, refused, wrong};

#[test]
fn statements() {
    in_line(
        "nodd a budget 2",
        "line 4: found \"nodd\", expected \"tick\", \"message\", \"slot\", \"node\" or \"stream\"",
    );
    in_line(
        "stream a period 5ms deadline 5ms",
        "line 4: found \"stream\" before the first node, expected \"node\" above it",
    );
    in_line(
        "node",
        "line 4: found the end of the line, expected the name of the node",
    );
    in_line("node a\n stream", "line 4: found the end of the line, expected \"budget\" and a number\nline 5: found the end of the line, expected the name of the stream");
    in_line(
        "node a budgett 2",
        "line 4: found \"budgett\", expected \"budget\"",
    );
    in_line(
        "node a budget",
        "line 4: found the end of the line, expected a whole number",
    );
    in_line(
        "node a budget two",
        "line 4: found \"two\", expected a whole number",
    );
    in_line(
        "node a budget 4294967296",
        "line 4: found \"4294967296\", expected at most 4294967295",
    );
    in_line(
        "node a budget 2 3",
        "line 4: found \"3\", expected the end of the line",
    );
    in_line(
        "node a budget 2 budget 2",
        "line 4: found \"budget\" a second time, expected it once",
    );
    in_line(
        "tick 1 ms",
        "line 4: found \"tick\" a second time, expected it once (line 1)",
    );
    in_line(
        "slot 1 ms",
        "line 4: found \"slot\" a second time, expected it once (line 3)",
    );
    assert_eq!(
        wrong("slot 1 tick\nnode a budget 1\nmessage 1 tick"),
        "line 3: found \"message\" after the first node (line 2), expected it before"
    );
    assert_eq!(
        wrong("slot 1 ms\nmessage 1 ms\ntick 1 ms"),
        "line 3: found \"tick\" after a duration in time (line 1), expected it before"
    );
    assert_eq!(
        wrong("slot 1 tick 5\nmessage 1 tick"),
        "line 1: found \"5\", expected the end of the line"
    );
}

#[test]
fn streams() {
    let in_node = |rest: &str, expected: &str| {
        in_line(
            &format!("node a budget 1\n{rest}"),
            &format!("line 5: {expected}"),
        )
    };
    in_node(
        "stream b",
        "found the end of the line, expected \"period\" and \"deadline\"",
    );
    in_node(
        "stream b period 5 ms",
        "found the end of the line, expected \"deadline\"",
    );
    in_node(
        "stream b deadline 5 ms",
        "found the end of the line, expected \"period\"",
    );
    in_node(
        "stream b 5 ms",
        "found \"5\", expected \"period\", \"deadline\" or \"jitter\"",
    );
    in_node(
        "stream b period 5 ms 6",
        "found \"6\", expected \"deadline\" or \"jitter\"",
    );
    in_node(
        "stream b jitter 1 ms 6",
        "found \"6\", expected \"period\" or \"deadline\"",
    );
    in_node(
        "stream b period 5 ms deadline 5 ms x",
        "found \"x\", expected \"jitter\" or the end of the line",
    );
    in_node(
        "stream b period 5 ms jitter 1 ms deadline 5 ms x",
        "found \"x\", expected the end of the line",
    );
    in_node(
        "stream b jitter 1 ms",
        "found the end of the line, expected \"period\" and \"deadline\"",
    );
    in_node(
        "stream b jitter 1 ms period 5 ms",
        "found the end of the line, expected \"deadline\"",
    );
    in_node(
        "stream b period 5 ms deadline 5 ms jitter",
        "found the end of the line, expected a duration such as 50 ms",
    );
    in_node(
        "stream b period 5 ms jitter deadline 5 ms",
        "found \"deadline\", expected a duration such as 50 ms",
    );
    in_node(
        "stream b jitter 1 ms jitter 1 ms period 5 ms deadline 5 ms",
        "found \"jitter\" a second time, expected it once",
    );
    in_node(
        "stream b period 5 ms deadline 5 ms jitter -1 ms",
        "found \"-1\", expected a duration such as 50 ms",
    );
    in_node(
        "stream b period 5 ms deadline 5 ms jitter 120 h",
        "found 120 h, which is 4320000000 ticks, expected at most 4294967295 ticks",
    );
    in_node(
        "stream b period 5 ms deadline",
        "found the end of the line, expected a duration such as 50 ms",
    );
    in_node(
        "stream b period deadline 5 ms",
        "found \"deadline\", expected a duration such as 50 ms",
    );
    in_node(
        "stream b period 5 ms period 5 ms",
        "found \"period\" a second time, expected it once",
    );
    in_node(
        "stream b period 5 deadline 5 ms",
        "found \"5\" without a unit, expected us, ms, s, min, h or ticks after it",
    );
    in_node(
        "stream b period 5 sec deadline 5 ms",
        "found \"sec\", expected a unit: us, ms, s, min, h or ticks",
    );
    in_node(
        "stream b period 5\u{a0}ms deadline 5 ms",
        "found \"<U+00A0>ms\", expected a unit: us, ms, s, min, h or ticks",
    );
    in_node(
        "stream b period 1e3 ms deadline 5 ms",
        "found \"e3\", expected a unit: us, ms, s, min, h or ticks",
    );
    in_node(
        "stream b period 0,5 ms deadline 0.5 ms",
        "found \"0,5\", expected a number without a comma: write 0.5, with a point",
    );
    in_node(
        "stream b period 2.5 ticks deadline 5 ms",
        "found 2.5 ticks, expected a whole number of ticks",
    );
    in_node(
        "stream b period 120 h deadline 5 ms",
        "found 120 h, which is 4320000000 ticks, expected at most 4294967295 ticks",
    );
    in_node(
        "stream b period 4294967296 ticks deadline 5 ms",
        "found 4294967296 ticks, expected at most 4294967295 ticks",
    );
}

#[test]
fn names() {
    in_line(
        "node a/b budget 1",
        "line 4: found \"/\" in the name \"a/b\", expected letters, digits, \"-\" and \"_\"",
    );
    in_line("node a\u{a0}b budget 1", "line 4: found U+00A0 in the name \"a<U+00A0>b\", expected letters, digits, \"-\" and \"_\"");
    in_line(
        "node a\u{301} budget 1",
        "line 4: found U+0301 in the name \"a<U+0301>\", expected letters, digits, \"-\" and \"_\"",
    );
    in_line(
        &format!("node {} budget 1", "n".repeat(41)),
        "line 4: found a name of 41 characters, expected at most 40",
    );
    in_line(
        "node a budget 1\n\nnode a budget 1",
        "line 6: found node \"a\" a second time, expected another name (the first is in line 4)",
    );
    in_line(
        "node a budget 1\nstream b period 1ms deadline 1ms\nstream b period 1ms deadline 1ms",
        "line 6: found stream \"b\" a second time, expected another name (the first is in line 5)",
    );
    let alphabets = line("node Öfen budget 2\nstream температура period 50 ms deadline 50 ms\nnode 乾燥機 budget 1\nnode A budget 1\nnode a budget 1");
    assert_eq!(run(&["check", "-"], alphabets.as_bytes()).status, 0);
}

#[test]
fn ticks() {
    assert_eq!(
        wrong("message 1 ms\nslot 1 tick\nnode a budget 1\n stream b period 1 s deadline 1 s"),
        "line 1: found 1 ms, expected ticks: the file has no tick statement"
    );
    assert_eq!(
        wrong("tick 1 tick\nmessage 1 ms\nslot 1 ms"),
        "line 1: found 1 tick, expected a length in time: us, ms, s, min or h"
    );
    assert_eq!(
        wrong("tick 0.0 ms\nmessage 1 ms\nslot 1 ms"),
        "line 1: found 0 ms, expected a length over 0"
    );
    assert_eq!(
        wrong("tick 0.1\nmessage 1 ms\nslot 1 ms"),
        "line 1: found \"0.1\" without a unit, expected us, ms, s, min, h or ticks after it"
    );
    let order = "tick 1 ms\nmessage 1 ms\nslot 1 ms\nnode a budget 1\n\
                 stream b period 9 ms deadline 8.4 ms\nstream c period 90 ms deadline 8.3 ms";
    assert_eq!(
        wrong(order),
        "line 6: streams c (line 6) and b (line 5) of node a change their order where they are rounded to ticks of 1 ms: \
         c goes first by the durations as written, b by ticks; a shorter tick is needed"
    );
    // The other way round the lower stream number keeps the order.
    let kept = order
        .replace("period 9 ms", "period 90 ms")
        .replace("8.4", "8.2");
    assert_eq!(run(&["check", "-"], kept.as_bytes()).status, 0);
}

#[test]
fn texts() {
    let missing = "found no \"message\", expected it once, before the first node\nfound no \"slot\", expected it once, before the first node";
    assert_eq!(wrong(""), missing);
    assert_eq!(wrong("# nothing\r\n\r\n"), missing);
    assert_eq!(
        wrong("message 1 tick\nslot 1 tick\nnode a\u{0} budget 1\n"),
        "line 3: found the control character U+0000, expected text"
    );
    assert_eq!(
        wrong("message 1 tick # \u{7}\nslot 1 tick"),
        "line 1: found the control character U+0007, expected text"
    );
    assert_eq!(
        wrong(b"message 1 tick\nslot 1 tick\n# caf\xe9\n"),
        "line 3: found 0xE9 at byte 6 of the line, expected UTF-8 text"
    );
    let utf16 = wrong(b"\xff\xfen\0o\0");
    assert!(utf16.starts_with("line 1: found 0xFF at byte 1 of the line, expected UTF-8 text (it looks like UTF-16; save it as UTF-8)\n"));
    assert_eq!(
        wrong(vec![b' '; (1 << 20) + 1]),
        "found more than 1048576 bytes, expected at most 1 MiB"
    );
    assert_eq!(
        wrong(vec![b'x'; 2 << 20]),
        "found more than 1048576 bytes, expected at most 1 MiB"
    );
    assert_eq!(wrong(vec![b' '; 1 << 20]), missing);
    let binary: Vec<u8> = (0..=255).cycle().take(4096).collect();
    assert_eq!(run(&["check", "-"], &binary).status, 2);
}

#[test]
fn line_ends_and_marks() {
    let text = line("# one\n\nnode a budget 1 # 2\n\tstream b deadline 5ms period 5ms jitter 1ms");
    let expected = run(&["words", "-"], text.as_bytes()).out;
    assert!(!expected.is_empty());
    for changed in [
        text.replace('\n', "\r\n"),
        text.replace('\n', "\r"),
        format!("\u{feff}{text}"),
        text.trim_end().to_string(),
    ] {
        assert_eq!(run(&["words", "-"], changed.as_bytes()).out, expected);
    }
    for end in ["\r\n", "\r"] {
        let changed = line("# one\n\nnod").replace('\n', end);
        assert!(wrong(changed).starts_with("line 6: found \"nod\""));
    }
    assert!(wrong(format!("\u{feff}\u{feff}{text}")).starts_with("line 1: found \"<U+FEFF>tick\""));
}

#[test]
fn all_errors_in_line_order() {
    let text = "tick 1 s\nmessage 5\nnode a budget x\nstream b period 1,5 s deadline 9 x\nstream b period 200000000000 s deadline 1 s\nnode a budget 1";
    let lines: Vec<String> = wrong(text)
        .lines()
        .map(|line| line.split(", expected").next().unwrap().to_string())
        .collect();
    let expected = [
        "line 2: found \"5\" without a unit",
        "line 3: found \"x\"",
        "line 4: found \"1,5\"",
        "line 4: found \"x\"",
        "line 5: found stream \"b\" a second time",
        "line 5: found 200000000000 s, which is 200000000000 ticks",
        "line 6: found node \"a\" a second time",
        "found no \"slot\"",
    ];
    assert_eq!(lines, expected);
    let many = wrong("x\n".repeat(30));
    assert_eq!(
        (many.lines().count(), many.lines().last()),
        (21, Some("and 12 more"))
    );
}

#[test]
fn refusals() {
    let ticks = "message 0 ticks\nslot 10001 ticks\nnode a budget 17\nstream b period 500 ticks deadline 600 ticks\n\
                 stream c period 0 ticks deadline 0 ticks\nnode d budget 0\n";
    assert_eq!(
        refused(ticks),
        "line 1: message 0 ticks: a message takes 1 to 10,000 ticks (refused 3)\n\
         line 2: slot 10001 ticks: a slot takes 1 to 10,000 ticks (refused 3)\n\
         line 3: node a: 2 streams and budget 17: a node has at most 16 streams and a budget of 1 to 16 (refused 4)\n\
         line 4: stream b of node a: period 500 ticks and deadline 600 ticks: \
         a period is 1 to 1,000,000,000 ticks, a deadline 1 tick to its period and a jitter less than its period (refused 5)\n\
         line 5: stream c of node a: period 0 ticks and deadline 0 ticks: \
         a period is 1 to 1,000,000,000 ticks, a deadline 1 tick to its period and a jitter less than its period (refused 5)\n\
         line 6: node d: 0 streams and budget 0: a node has at most 16 streams and a budget of 1 to 16 (refused 4)"
    );
    let rounded = line("node a budget 1\nstream b period 1 ms deadline 0.05 ms");
    assert_eq!(
        refused(&rounded),
        "line 5: stream b of node a: period 10 ticks and deadline 0 ticks (rounded from 0.05 ms): \
         a period is 1 to 1,000,000,000 ticks, a deadline 1 tick to its period and a jitter less than its period (refused 5)"
    );
    // A jitter that is less than its period, and no longer where it is rounded.
    let rounded = line("node a budget 1\nstream b period 1 ms deadline 1 ms jitter 0.95 ms");
    assert_eq!(
        refused(&rounded),
        "line 5: stream b of node a: period 10 ticks, deadline 10 ticks and jitter 10 ticks (rounded from 0.95 ms): \
         a period is 1 to 1,000,000,000 ticks, a deadline 1 tick to its period and a jitter less than its period (refused 5)"
    );
    assert_eq!(
        refused("message 1 tick\nslot 1 tick"),
        "0 nodes: a line has 1 to 16 nodes (refused 2)"
    );
    let nodes: String = (0..17)
        .map(|node| format!("node n{node} budget 1\n"))
        .collect();
    assert_eq!(
        refused(&line(&nodes)),
        "17 nodes: a line has 1 to 16 nodes (refused 2)"
    );
    let streams: String = (0..17)
        .map(|stream| format!("stream s{stream} period 1 s deadline 1 s\n"))
        .collect();
    assert_eq!(
        refused(&line(&format!("node a budget 1\n{streams}"))),
        "line 4: node a: 17 streams and budget 1: a node has at most 16 streams and a budget of 1 to 16 (refused 4)"
    );
    // Errors win over refusals.
    assert_eq!(wrong(format!("{ticks}nod")).lines().count(), 1);
}
