//! The programs of document 01 and the figures of the case generator.

use std::ffi::{OsStr, OsString};
use std::fs::File;
use std::io::{self, Read, Write};
use std::process::ExitCode;

use peer::stats;
use peer::text::{admit_program, replay_program, MOST_SECOND_BYTES, MOST_SHEET_BYTES};

const USAGE: &str = "usage: peer admit < SHEET
       peer replay SHEETFILE SECONDFILE
       peer stats SEED COUNT
";

/// One byte over the limit is enough to know that an input is too long.
/// What cannot be read, such as a directory, counts as empty.
fn read_input(input: impl Read, most: usize) -> Vec<u8> {
    let mut bytes = Vec::new();
    match input.take(most as u64 + 1).read_to_end(&mut bytes) {
        Ok(_) => bytes,
        Err(_) => Vec::new(),
    }
}

/// A missing argument and a file that cannot be opened count as empty.
fn read_file(name: Option<&OsString>, most: usize) -> Vec<u8> {
    match name.map(File::open) {
        Some(Ok(file)) => read_input(file, most),
        _ => Vec::new(),
    }
}

fn number(argument: Option<&OsString>) -> Option<u64> {
    argument?.to_str()?.parse().ok()
}

/// What is to be written, or None if the arguments make no sense.
fn answer(arguments: &[OsString]) -> Option<String> {
    let argument = |place: usize| arguments.get(place);
    match argument(0).map(OsString::as_os_str).and_then(OsStr::to_str) {
        Some("admit") => {
            let input = read_input(io::stdin().lock(), MOST_SHEET_BYTES);
            Some(admit_program(&input))
        }
        Some("replay") => {
            let sheet = read_file(argument(1), MOST_SHEET_BYTES);
            let second = read_file(argument(2), MOST_SECOND_BYTES);
            Some(replay_program(&sheet, &second))
        }
        Some("stats") => {
            let (seed, count) = (number(argument(1))?, number(argument(2))?);
            Some(stats::gather(seed, count).to_string())
        }
        _ => None,
    }
}

fn main() -> ExitCode {
    let arguments: Vec<OsString> = std::env::args_os().skip(1).collect();
    let Some(text) = answer(&arguments) else {
        eprint!("{USAGE}");
        return ExitCode::from(2);
    };
    match io::stdout().write_all(text.as_bytes()) {
        Ok(()) => ExitCode::SUCCESS,
        Err(_) => ExitCode::FAILURE,
    }
}
