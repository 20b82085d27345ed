//! What the programs write, through the library and through the binary.

mod common;

use std::fs;
use std::io::Write;
use std::path::PathBuf;
use std::process::{Command, Stdio};

use common::*;
use peer::text::{admit_program, replay_program};

const ADMITTED_A: &str = "node stream wait\n1 1 16\n1 2 33\n2 1 16\nadmitted 3\n";
const REPLAYED_P9: &str = "release begin\n1 0\n2 12\n3 6\nturns 25 next 40\n";
const SECOND_P9: [u32; 7] = [40, 0, 1, 0, 2, 1, 3];

fn run_admit(input: &[u8]) -> String {
    let mut child = Command::new(env!("CARGO_BIN_EXE_peer"))
        .arg("admit")
        .stdin(Stdio::piped())
        .stdout(Stdio::piped())
        .spawn()
        .unwrap();
    child.stdin.take().unwrap().write_all(input).unwrap();
    let output = child.wait_with_output().unwrap();
    assert!(output.status.success());
    String::from_utf8(output.stdout).unwrap()
}

fn run_replay(files: &[PathBuf]) -> String {
    let output = Command::new(env!("CARGO_BIN_EXE_peer"))
        .arg("replay")
        .args(files)
        .output()
        .unwrap();
    assert!(output.status.success());
    String::from_utf8(output.stdout).unwrap()
}

fn file(name: &str, content: &[u8]) -> PathBuf {
    let path = PathBuf::from(env!("CARGO_TARGET_TMPDIR")).join(name);
    fs::write(&path, content).unwrap();
    path
}

#[test]
fn admit_sheet_a_to_the_byte() {
    assert_eq!(admit_program(&bytes(&SHEET_A)), ADMITTED_A);
    assert_eq!(run_admit(&bytes(&SHEET_A)), ADMITTED_A);
}

#[test]
fn admit_keeps_sheet_order_whatever_the_rank() {
    let p3 = bytes(&sheet_a_with(&[(13, 37)]));
    let expected = "node stream wait\n1 1 33\n1 2 16\n2 1 16\nadmitted 3\n";
    assert_eq!(admit_program(&p3), expected);
    assert_eq!(run_admit(&p3), expected);
}

#[test]
fn admit_refuses_in_one_line() {
    let late = bytes(&sheet_a_with(&[(10, 30), (13, 37)]));
    assert_eq!(admit_program(&late), "refused 7 at 1 2\n");
    assert_eq!(run_admit(&late), "refused 7 at 1 2\n");
    let short = bytes(&SHEET_A[..17]);
    assert_eq!(admit_program(&short), "refused 4 at 0 0\n");
}

#[test]
fn admit_with_jitters() {
    // The waits start when a message is queued.
    let in_time = bytes(&sheet_a_with(&[(11, 7), (14, 4), (17, 3)]));
    let expected = "node stream wait\n1 1 16\n1 2 50\n2 1 16\nadmitted 3\n";
    assert_eq!(admit_program(&in_time), expected);
    assert_eq!(run_admit(&in_time), expected);
    let late = bytes(&sheet_a_with(&[(11, 7), (14, 5), (17, 3)]));
    assert_eq!(admit_program(&late), "refused 7 at 1 2\n");
    let bad = bytes(&sheet_a_with(&[(14, 60)]));
    assert_eq!(admit_program(&bad), "refused 5 at 1 2\n");
    assert_eq!(run_admit(&bad), "refused 5 at 1 2\n");
}

#[test]
fn admit_of_no_streams() {
    let sheet = sheet(1, 1, &[(1, &[]), (3, &[])]);
    assert_eq!(
        admit_program(&bytes(&sheet)),
        "node stream wait\nadmitted 0\n"
    );
}

#[test]
fn admit_judges_the_length_first() {
    for input in [vec![], [bytes(&SHEET_A), vec![0]].concat(), vec![1, 2, 3]] {
        assert_eq!(admit_program(&input), "refused 1 at 0 0\n");
        assert_eq!(run_admit(&input), "refused 1 at 0 0\n");
    }
    // n is 0 here: refusal 2 at the limit, 1 past it.
    for length in [2_252, 2_256, 3_276] {
        assert_eq!(admit_program(&vec![0; length]), "refused 2 at 0 0\n");
    }
    for length in [3_277, 3_280, 100_000] {
        assert_eq!(admit_program(&vec![0; length]), "refused 1 at 0 0\n");
    }
    assert_eq!(run_admit(&vec![0; 3_276]), "refused 2 at 0 0\n");
    assert_eq!(run_admit(&vec![0; 3_280]), "refused 1 at 0 0\n");
}

#[test]
fn admit_of_the_longest_sheet() {
    let streams = [(1_000_000_000, 1_000_000_000); 16];
    let sheet = bytes(&sheet(10_000, 10_000, &[(16, &streams[..]); 16]));
    assert_eq!(sheet.len(), 3_276);
    let text = run_admit(&sheet);
    let lines: Vec<&str> = text.lines().collect();
    assert_eq!(lines.len(), 258);
    assert_eq!(lines[1], "1 1 2719999");
    assert_eq!(lines[256], "16 16 2869999");
    assert_eq!(lines[257], "admitted 256");
}

#[test]
fn replay_p9_to_the_byte() {
    let (sheet, second) = (bytes(&SHEET_A), bytes(&SECOND_P9));
    assert_eq!(replay_program(&sheet, &second), REPLAYED_P9);
    let files = [file("p9-sheet", &sheet), file("p9-second", &second)];
    assert_eq!(run_replay(&files), REPLAYED_P9);
}

#[test]
fn replay_of_p9_with_the_deadline_of_p3() {
    // Stream 2 goes first now; what stream 3 does is the same.
    let sheet = bytes(&sheet_a_with(&[(13, 37)]));
    assert_eq!(
        replay_program(&sheet, &bytes(&SECOND_P9)),
        "release begin\n1 12\n2 0\n3 6\nturns 25 next 40\n"
    );
}

#[test]
fn replay_does_not_read_the_jitters() {
    let sheet = bytes(&sheet_a_with(&[(11, 39), (14, 59), (17, 29)]));
    assert_eq!(replay_program(&sheet, &bytes(&SECOND_P9)), REPLAYED_P9);
    let bad = bytes(&sheet_a_with(&[(17, 30)]));
    assert_eq!(
        replay_program(&bad, &bytes(&SECOND_P9)),
        "refused 5 at 2 1\n"
    );
}

#[test]
fn replay_shows_what_has_not_begun() {
    let second = bytes(&with(&SECOND_P9, &[(0, 12)]));
    assert_eq!(
        replay_program(&bytes(&SHEET_A), &second),
        "release begin\n1 0\n2 -\n3 6\nturns 2 next 12\n"
    );
}

#[test]
fn replay_of_a_horizon_alone() {
    assert_eq!(
        replay_program(&bytes(&SHEET_A), &bytes(&[40])),
        "release begin\nturns 40 next 40\n"
    );
}

#[test]
fn replay_judges_the_second_file_after_the_sheet() {
    let sheet = bytes(&SHEET_A);
    let odd_bytes = [bytes(&SECOND_P9), vec![0]].concat();
    let too_long = bytes(&vec![0; 8_194]);
    for second in [vec![], odd_bytes, too_long, vec![1]] {
        assert_eq!(replay_program(&sheet, &second), "refused 9 at 0 0\n");
        let bad = bytes(&sheet_a_with(&[(9, 0)]));
        assert_eq!(replay_program(&bad, &second), "refused 5 at 1 1\n");
        assert_eq!(replay_program(&[1], &second), "refused 1 at 0 0\n");
    }
    assert_eq!(
        replay_program(&vec![0; 3_280], &bytes(&SECOND_P9)),
        "refused 1 at 0 0\n"
    );
    assert_eq!(
        replay_program(&vec![0; 3_276], &bytes(&SECOND_P9)),
        "refused 2 at 0 0\n"
    );
}

#[test]
fn replay_of_the_longest_second_file() {
    let second = bytes(&[&[10][..], &[0, 1].repeat(4_096)].concat());
    assert_eq!(second.len(), 32_772);
    let text = replay_program(&bytes(&SHEET_A), &second);
    assert_eq!(text.lines().count(), 4_098);
    assert!(text.starts_with("release begin\n1 0\n2 7\n3 -\n"));
    assert!(text.ends_with("\n4096 -\nturns 3 next 13\n"));
}

#[test]
fn replay_names_the_log_and_the_horizon() {
    let sheet = bytes(&SHEET_A);
    assert_eq!(
        replay_program(&sheet, &bytes(&[40, 0, 1, 0])),
        "refused 9 at 0 0\n"
    );
    assert_eq!(
        replay_program(&sheet, &bytes(&[u32::MAX, 0, 1, 0, 4])),
        "refused 9 at 0 2\n"
    );
    assert_eq!(
        replay_program(&sheet, &bytes(&[1_000_000_001, 0, 1])),
        "refused 10 at 0 0\n"
    );
}

#[test]
fn files_that_cannot_be_read_count_as_empty() {
    let sheet = file("readable-sheet", &bytes(&SHEET_A));
    let second = file("readable-second", &bytes(&SECOND_P9));
    let missing = PathBuf::from(env!("CARGO_TARGET_TMPDIR")).join("no-such-file");
    let directory = PathBuf::from(env!("CARGO_TARGET_TMPDIR"));
    for unreadable in [missing, directory] {
        let no_sheet = [unreadable.clone(), second.clone()];
        assert_eq!(run_replay(&no_sheet), "refused 1 at 0 0\n");
        let no_second = [sheet.clone(), unreadable];
        assert_eq!(run_replay(&no_second), "refused 9 at 0 0\n");
    }
    assert_eq!(run_replay(&[sheet]), "refused 9 at 0 0\n");
    assert_eq!(run_replay(&[]), "refused 1 at 0 0\n");
}
