//! Runs the command in process.

// Each program that has this file uses a part of it.
#![allow(dead_code)]

use std::ffi::OsString;

pub struct Ran {
    pub status: u8,
    pub out: Vec<u8>,
    pub err: Vec<u8>,
}

/// The command with these arguments, and with the bytes as standard input.
pub fn run(args: &[&str], mut input: &[u8]) -> Ran {
    let args: Vec<OsString> = args.iter().map(OsString::from).collect();
    let (mut out, mut err) = (Vec::new(), Vec::new());
    let status = wistorvan_command::run(&args, &mut input, &mut out, &mut err);
    Ran { status, out, err }
}

/// Little-endian bytes as words; bytes left over are dropped.
pub fn to_words(bytes: &[u8]) -> Vec<u32> {
    let words = bytes.chunks_exact(4);
    words
        .map(|w| u32::from_le_bytes([w[0], w[1], w[2], w[3]]))
        .collect()
}

pub fn to_bytes(words: &[u32]) -> Vec<u8> {
    words.iter().flat_map(|word| word.to_le_bytes()).collect()
}
