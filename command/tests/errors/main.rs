//! Each kind of error and refusal with its exact text, in process: the file is
//! standard input.

mod line_files;
mod other_files;
#[path = "../support/run.rs"]
mod run;

use std::fs;
use std::path::{Path, PathBuf};

use run::{run, Ran};

/// A file in the folder for tests.
fn file(name: &str, text: &[u8]) -> String {
    let path: PathBuf = Path::new(env!("CARGO_TARGET_TMPDIR")).join(name);
    fs::write(&path, text).unwrap();
    path.to_str().unwrap().to_string()
}

/// What goes to standard error, without the file's name before each line.
fn message(ran: &Ran, status: u8, file: &str) -> String {
    assert_eq!((ran.status, ran.out.len()), (status, 0));
    let text = String::from_utf8(ran.err.clone()).unwrap();
    let prefix = format!("{file}: ");
    text.lines()
        .map(|line| line.strip_prefix(&prefix).unwrap_or(line))
        .collect::<Vec<_>>()
        .join("\n")
}

/// What `check` says of a line file with errors.
fn wrong(text: impl AsRef<[u8]>) -> String {
    message(&run(&["check", "-"], text.as_ref()), 2, "standard input")
}

/// What `check` says of a line that the library refuses.
fn refused(text: &str) -> String {
    message(&run(&["check", "-"], text.as_bytes()), 1, "standard input")
}

/// A line in ticks of 0.1 ms, with this after its slot.
fn line(rest: &str) -> String {
    format!("tick 0.1 ms\nmessage 0.5 ms\nslot 0.1 ms\n{rest}\n")
}

fn in_line(rest: &str, expected: &str) {
    assert_eq!(wrong(line(rest)), expected, "{rest}");
}
