//! `words`: the sheet of a line as little-endian 32-bit words.

use std::ffi::OsStr;

use crate::fault::{Failure, Fault};
use crate::load::Loaded;
use crate::output::create;
use crate::report::Report;

pub fn words(loaded: &Loaded, output: Option<&OsStr>, terminal: bool) -> Result<Report, Failure> {
    let bytes: Vec<u8> = loaded
        .sheet
        .words
        .iter()
        .flat_map(|word| word.to_le_bytes())
        .collect();
    let output = match output {
        Some(file) => {
            create(file, &bytes)?;
            vec![]
        }
        None if terminal => return Err(Fault::of_use(TERMINAL).into()),
        None => bytes,
    };
    Ok(Report { status: 0, output })
}

const TERMINAL: &str =
    "words: found a terminal as standard output, expected a file or a pipe: words are no text; \
                        add --output FILE or > FILE";
