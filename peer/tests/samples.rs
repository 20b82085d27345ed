//! The tool that makes words of texts, and the sample texts.

use std::io::Write;
use std::path::PathBuf;
use std::process::{Command, Output, Stdio};

use peer::text::{admit_program, replay_program};

fn project(path: &str) -> PathBuf {
    PathBuf::from(env!("CARGO_MANIFEST_DIR"))
        .join("..")
        .join(path)
}

fn run_words(text: &[u8]) -> Output {
    let mut child = Command::new(project("tools/words"))
        .stdin(Stdio::piped())
        .stdout(Stdio::piped())
        .stderr(Stdio::piped())
        .spawn()
        .unwrap();
    child.stdin.take().unwrap().write_all(text).unwrap();
    child.wait_with_output().unwrap()
}

fn words(text: &str) -> Vec<u8> {
    let output = run_words(text.as_bytes());
    assert!(output.status.success(), "{output:?}");
    assert!(output.stderr.is_empty(), "{output:?}");
    output.stdout
}

fn sample(name: &str) -> Vec<u8> {
    words(&std::fs::read_to_string(project("samples").join(name)).unwrap())
}

fn sample_replay(name: &str) -> String {
    let log = sample(&format!("{name}-log.txt"));
    replay_program(&sample(&format!("{name}.txt")), &log)
}

#[test]
fn words_of_every_size() {
    let numbers = [0, 1, 10, 37, 92, 127, 128, 255, 256, 65_535, 65_536];
    let large = [2_147_483_647, 2_147_483_648, 4_294_967_294, u32::MAX];
    let all = [&numbers[..], &large[..]].concat().repeat(20);
    let text: Vec<String> = all.iter().map(u32::to_string).collect();
    let expected: Vec<u8> = all.iter().flat_map(|word| word.to_le_bytes()).collect();
    assert_eq!(words(&text.join("\n")), expected);
    assert_eq!(words(&text.join(" \t ")), expected);
}

#[test]
fn words_skips_comments() {
    let text = "# nothing 5\n1 # one\n\n  2#two 3\n#\n007";
    let expected = [1, 0, 0, 0, 2, 0, 0, 0, 7, 0, 0, 0];
    assert_eq!(words(text), expected);
    assert_eq!(words(""), []);
    assert_eq!(words("# no words\n"), []);
}

#[test]
fn words_names_the_line_and_the_token() {
    let bad = [
        "4294967296",
        "99999999999999999999",
        "-1",
        "+1",
        "1.0",
        "1e3",
        "0x10",
        "one",
    ];
    for token in bad {
        let output = run_words(format!("1 2\n# 3\n4 {token} 5\n6\n").as_bytes());
        assert_eq!(output.status.code(), Some(1), "{token}");
        assert!(output.stdout.is_empty(), "{token}");
        let message = String::from_utf8(output.stderr).unwrap();
        assert!(message.contains("line 3"), "{message}");
        assert!(message.contains(token), "{message}");
    }
}

#[test]
fn sample_sheet_a() {
    assert_eq!(
        admit_program(&sample("sheet-a.txt")),
        "node stream wait\n1 1 16\n1 2 33\n2 1 16\nadmitted 3\n"
    );
    assert_eq!(
        sample_replay("sheet-a"),
        "release begin\n1 0\n2 12\n3 6\nturns 25 next 40\n"
    );
}

#[test]
fn sample_sheet_p7() {
    assert_eq!(admit_program(&sample("sheet-p7.txt")), "refused 7 at 1 1\n");
    assert_eq!(
        sample_replay("sheet-p7"),
        "release begin\n1 0\n2 6\n3 18\n4 12\n5 24\n6 -\nturns 5 next 30\n"
    );
}

#[test]
fn sample_line_of_sixteen_nodes() {
    // Each row of a stream says its own number and listed wait.
    let text = std::fs::read_to_string(project("samples/line16.txt")).unwrap();
    let mut expected = String::from("node stream wait\n");
    for line in text.lines().filter(|line| line.contains(": waits ")) {
        let field = |name: &str| {
            let rest = &line[line.find(name).unwrap() + name.len()..];
            rest.split([' ', ',']).next().unwrap().to_string()
        };
        let (node, stream, wait) = (field("node "), field("stream "), field("waits "));
        expected += &format!("{node} {stream} {wait}\n");
    }
    expected += "admitted 35\n";
    assert_eq!(admit_program(&sample("line16.txt")), expected);
    let replayed = sample_replay("line16");
    assert_eq!(replayed.matches('-').count(), 1);
    assert!(replayed.ends_with("\n67 -\nturns 1070 next 1400\n"));
}
