//! Runs the built program on the samples, from the repository's root, and holds
//! what it writes and its exit status to the files in tests/expected. With
//! WISTORVAN_WRITE_EXPECTED=1 those files are written instead.

use std::fs;
use std::io::Write;
use std::path::{Path, PathBuf};
use std::process::{Command, Output, Stdio};

fn root() -> PathBuf {
    Path::new(env!("CARGO_MANIFEST_DIR")).join("..")
}

/// Runs the program with these words as its arguments.
fn run(args: &str, input: &[u8]) -> Output {
    let mut child = Command::new(env!("CARGO_BIN_EXE_wistorvan"))
        .args(args.split_whitespace())
        .current_dir(root())
        .stdin(Stdio::piped())
        .stdout(Stdio::piped())
        .stderr(Stdio::piped())
        .spawn()
        .unwrap();
    // A program that does not read its input may be gone before all is written.
    let _ = child.stdin.take().unwrap().write_all(input);
    child.wait_with_output().unwrap()
}

/// What a run came to: the command, what it wrote, and its exit status.
fn told(args: &str, output: &Output) -> String {
    let out = String::from_utf8(output.stdout.clone()).unwrap();
    let err = String::from_utf8(output.stderr.clone()).unwrap();
    let err = if err.is_empty() {
        err
    } else {
        format!("on standard error:\n{err}")
    };
    let status = output.status.code().unwrap();
    format!("$ wistorvan {args}\n{out}{err}exit status {status}\n")
}

/// Holds a run to the stored file.
fn holds(name: &str, args: &str) {
    let told = told(args, &run(args, b""));
    let file = Path::new(env!("CARGO_MANIFEST_DIR")).join(format!("tests/expected/{name}.txt"));
    if std::env::var_os("WISTORVAN_WRITE_EXPECTED").is_some() {
        fs::write(&file, &told).unwrap();
    }
    let expected = fs::read_to_string(&file).unwrap();
    assert!(
        told == expected,
        "{name}: wrote\n{told}instead of\n{expected}"
    );
}

const LINE: &str = "samples/dryer/line.txt";
const WITH: &str = "--with samples/dryer/recorder.txt";
const MORNING: &str = "samples/dryer/morning.csv";
const MORNING_WITH: &str = "samples/dryer/morning-recorder.csv";

#[test]
fn help_and_version() {
    holds("help", "--help");
    holds("version", "--version");
    for command in ["check", "budgets", "replay", "words", "text"] {
        holds(&format!("help-{command}"), &format!("{command} --help"));
    }
}

#[test]
fn check() {
    holds("check", &format!("check {LINE}"));
    holds("check-json", &format!("check {LINE} --json"));
    holds("check-with", &format!("check {LINE} {WITH}"));
    holds("check-with-json", &format!("check {LINE} {WITH} --json"));
}

#[test]
fn budgets() {
    holds("budgets", &format!("budgets {LINE}"));
    holds("budgets-json", &format!("budgets {LINE} --json"));
    holds("budgets-with", &format!("budgets {LINE} {WITH}"));
    holds(
        "budgets-with-json",
        &format!("budgets {LINE} {WITH} --json"),
    );
}

#[test]
fn replay() {
    holds("replay", &format!("replay {LINE} {MORNING}"));
    holds("replay-json", &format!("replay {LINE} {MORNING} --json"));
    holds(
        "replay-until",
        &format!("replay {LINE} {MORNING} --until 71.23555s"),
    );
    holds(
        "replay-with",
        &format!("replay {LINE} {MORNING_WITH} {WITH}"),
    );
    holds(
        "replay-with-json",
        &format!("replay {LINE} {MORNING_WITH} {WITH} --json"),
    );
    // The recorder's messages are of a node that the line does not have.
    holds("replay-unknown", &format!("replay {LINE} {MORNING_WITH}"));
}

#[test]
fn bad_use() {
    holds("use-none", "");
    holds("use-unknown", "chekc samples/dryer/line.txt");
    holds("use-unknown-json", "chekc --json");
    holds("use-after-version", "--version samples/dryer/line.txt");
    holds("use-no-file", "check");
    holds("use-one-file", "replay samples/dryer/line.txt");
    holds(
        "use-two-files",
        "check samples/dryer/line.txt samples/dryer/recorder.txt",
    );
    holds("use-option", "check samples/dryer/line.txt --jsn");
    holds(
        "use-option-json",
        "budgets samples/dryer/line.txt --wiht x --json",
    );
    holds("use-no-json", "words samples/dryer/line.txt --json");
    holds("use-no-value", "check samples/dryer/line.txt --with");
    holds(
        "use-twice",
        "check samples/dryer/line.txt --with a --with b",
    );
    holds("use-input-twice", "check - --with -");
    holds(
        "use-missing",
        "check samples/dryer/lines.txt --with samples/dryer/recorders.txt",
    );
    holds("use-folder", "check samples/dryer");
    holds(
        "use-until",
        "replay samples/dryer/line.txt samples/dryer/morning.csv --until 5,5ms",
    );
    holds(
        "use-until-refused",
        "replay samples/dryer/line.txt samples/dryer/morning.csv --until 40h",
    );
    holds(
        "use-until-long",
        "replay samples/dryer/line.txt samples/dryer/morning.csv --until 1000h",
    );
    holds("use-tick", "text samples/dryer/line.txt --tick 1tick");
}

#[test]
fn text() {
    let words = run("words command/tests/lines/sheet-a.txt", b"").stdout;
    let text =
        |tick: &str| String::from_utf8(run(&format!("text - {tick}"), &words).stdout).unwrap();
    let expected = "message 5 ticks\nslot 1 tick\n\
                    node node1 budget 1\n  stream stream1 period 40 ticks deadline 40 ticks\n  \
                    stream stream2 period 60 ticks deadline 60 ticks\n\
                    node node2 budget 2\n  stream stream1 period 30 ticks deadline 30 ticks\n";
    assert_eq!(text(""), expected);
    let expected = "tick 0.25 ms\nmessage 1.25 ms\nslot 0.25 ms\n\
                    node node1 budget 1\n  stream stream1 period 10.00 ms deadline 10.00 ms\n  \
                    stream stream2 period 15.00 ms deadline 15.00 ms\n\
                    node node2 budget 2\n  stream stream1 period 7.50 ms deadline 7.50 ms\n";
    assert_eq!(text("--tick 0.25ms"), expected);
    assert_eq!(text("--tick=0.250ms"), expected);
    let jitter = expected.replace("deadline 15.00 ms\n", "deadline 15.00 ms jitter 1.75 ms\n");
    let words = run("words -", jitter.as_bytes()).stdout;
    let again = run("text - --tick 0.25ms", &words).stdout;
    assert_eq!(String::from_utf8(again).unwrap(), jitter);
}

/// The example of each help text, run by a shell.
#[test]
fn examples_of_the_help_texts() {
    let program = Path::new(env!("CARGO_BIN_EXE_wistorvan"));
    let path = format!(
        "{}:{}",
        program.parent().unwrap().display(),
        std::env::var("PATH").unwrap()
    );
    for help in [
        "--help",
        "check --help",
        "budgets --help",
        "replay --help",
        "words --help",
        "text --help",
    ] {
        let help = String::from_utf8(run(help, b"").stdout).unwrap();
        let (_, example) = help.split_once("\nExample: ").unwrap();
        let shell = Command::new("sh")
            .args(["-c", example])
            .current_dir(root())
            .env("PATH", &path)
            .output();
        let output = shell.unwrap();
        assert!(matches!(output.status.code(), Some(0 | 1)), "{example}");
        assert!(
            !output.stdout.is_empty() && output.stderr.is_empty(),
            "{example}"
        );
    }
}

/// A new name in the folder for tests.
fn new_file(name: &str) -> PathBuf {
    let file = Path::new(env!("CARGO_TARGET_TMPDIR")).join(name);
    let _ = fs::remove_file(&file);
    file
}

#[test]
fn a_written_line_is_admitted_and_not_overwritten() {
    let file = new_file("least.txt");
    let args = format!("budgets {LINE} {WITH} --write {}", file.display());
    assert_eq!(run(&args, b"").status.code(), Some(0));
    let written = fs::read_to_string(&file).unwrap();
    let line = fs::read_to_string(root().join(LINE)).unwrap();
    assert!(
        written.contains("node burner budget 1\n") && written.contains("node recorder budget 1\n")
    );
    assert!(written.contains("node controller budget 2\n"));
    assert_eq!(written.lines().next(), line.lines().next());
    assert_eq!(
        run(&format!("check {}", file.display()), b"").status.code(),
        Some(0)
    );

    let again = run(&args, b"");
    assert_eq!(again.status.code(), Some(2));
    let message = "found a file of this name, expected a new one: it is not overwritten";
    assert_eq!(
        String::from_utf8(again.stderr).unwrap(),
        format!("{}: {message}\n", file.display())
    );
    assert_eq!(fs::read_to_string(&file).unwrap(), written);
}

#[test]
fn words_go_to_a_file() {
    let file = new_file("words.sheet");
    let output = run(&format!("words {LINE} --output {}", file.display()), b"");
    assert_eq!((output.status.code(), output.stdout.len()), (Some(0), 0));
    assert_eq!(
        fs::read(&file).unwrap(),
        run(&format!("words {LINE}"), b"").stdout
    );
}

#[test]
fn a_reader_that_has_gone_is_no_panic() {
    let mut child = Command::new(env!("CARGO_BIN_EXE_wistorvan"))
        .args(["replay", LINE, MORNING])
        .current_dir(root())
        .stdout(Stdio::piped())
        .stderr(Stdio::piped())
        .spawn()
        .unwrap();
    drop(child.stdout.take());
    let output = child.wait_with_output().unwrap();
    assert!(matches!(output.status.code(), Some(0 | 2)));
    assert!(output.stderr.is_empty());
}

#[test]
fn inputs_without_an_end_are_not_read_to_it() {
    for command in ["check", "budgets", "words", "text"] {
        let output = run(&format!("{command} /dev/zero"), b"");
        assert_eq!(output.status.code(), Some(2));
        let message = "/dev/zero: found more than 1048576 bytes, expected at most 1 MiB\n";
        assert_eq!(String::from_utf8(output.stderr).unwrap(), message);
    }
    let output = run(&format!("replay {LINE} /dev/zero"), b"");
    let message = "/dev/zero: found more than 4194304 bytes, expected at most 4 MiB\n";
    assert_eq!(String::from_utf8(output.stderr).unwrap(), message);
}
