//! Writing files: one that exists is not overwritten.

use std::ffi::OsStr;
use std::fs::File;
use std::io::{ErrorKind, Write};

use crate::fault::Fault;
use crate::text::shown_name;

pub fn create(name: &OsStr, bytes: &[u8]) -> Result<(), Fault> {
    if name == "-" {
        return Err(Fault::of_use(
            "found \"-\" as the file to write, expected a file's name",
        ));
    }
    let shown = shown_name(name);
    let written = File::create_new(name).and_then(|mut file| file.write_all(bytes));
    written.map_err(|error| match error.kind() {
        ErrorKind::AlreadyExists => Fault::of_file(
            &shown,
            "found a file of this name, expected a new one: it is not overwritten",
        ),
        _ => Fault::of_file(&shown, error.to_string()),
    })
}
