//! Changes of bytes by chance: of single ones, of lines, of words and numbers.

use super::random::Random;

/// Words and numbers that a file may turn on.
pub const TOKENS: [&str; 45] = [
    "tick",
    "message",
    "slot",
    "node",
    "stream",
    "budget",
    "period",
    "deadline",
    "jitter",
    "us",
    "ms",
    "s",
    "min",
    "h",
    "ticks",
    "µs",
    "#",
    ".",
    ",",
    ";",
    "\"",
    "-",
    "+1",
    "1e9",
    "0",
    "1",
    "2",
    "16",
    "17",
    "0.1",
    "0.5ms",
    "0,5",
    "1.",
    ".5",
    "65535",
    "1000000000",
    "1000000001",
    "4294967295",
    "4294967296",
    "18446744073709551616",
    "340282366920938463463374607431768211456",
    "999999999999999",
    "1000000000000000",
    "0.000000001",
    "0.0000000001",
];

/// Characters that are not seen, or end a line somewhere, or are long.
pub const INVISIBLE: [&str; 16] = [
    "\u{feff}",
    "\u{a0}",
    "\u{200b}",
    "\u{202e}",
    "\u{2028}",
    "\u{85}",
    "\u{ad}",
    "\u{3000}",
    "\0",
    "\u{1b}",
    "\u{7f}",
    "\t",
    "\r",
    "\n",
    "\u{10ffff}",
    "\u{1f600}",
];

pub fn noise(random: &mut Random) -> Vec<u8> {
    let length = random.below(200);
    (0..length).map(|_| random.below(256) as u8).collect()
}

/// A place in the bytes, or just behind them.
fn place(random: &mut Random, bytes: &[u8]) -> usize {
    random.within(0, bytes.len() as u64) as usize
}

pub fn piece(random: &mut Random, bytes: &[u8]) -> Vec<u8> {
    let first = place(random, bytes);
    let length = random.below(200) as usize;
    bytes[first..].iter().take(length).copied().collect()
}

pub fn insert(random: &mut Random, bytes: &mut Vec<u8>, what: &[u8]) {
    let at = place(random, bytes);
    bytes.splice(at..at, what.iter().copied());
}

pub fn flip(random: &mut Random, bytes: &mut [u8]) {
    let at = place(random, bytes);
    if let Some(byte) = bytes.get_mut(at) {
        *byte ^= 1 << random.below(8);
    }
}

pub fn cut(random: &mut Random, bytes: &mut Vec<u8>) {
    let at = place(random, bytes);
    let end = bytes.len().min(at + random.pick(&[1, 2, 4, 20, 10_000]));
    bytes.drain(at..end);
}

/// Deletes a line, doubles it, or moves it.
pub fn change_lines(random: &mut Random, bytes: &mut Vec<u8>) {
    let mut lines: Vec<Vec<u8>> = bytes
        .split_inclusive(|&b| b == b'\n')
        .map(<[u8]>::to_vec)
        .collect();
    if lines.is_empty() {
        return;
    }
    let at = random.below(lines.len() as u64) as usize;
    let other = random.below(lines.len() as u64) as usize;
    match random.below(4) {
        0 => drop(lines.remove(at)),
        1 => lines.insert(other, lines[at].clone()),
        2 => lines.swap(at, other),
        _ => {
            let times = random.below(20) as usize;
            let many = vec![lines[at].clone(); times];
            lines.splice(at..at, many);
        }
    }
    *bytes = lines.concat();
}

pub fn line_ends(random: &mut Random, bytes: &mut Vec<u8>) {
    let end = random.pick(&["\r\n", "\r", "\n\n", ""]);
    let lines: Vec<&[u8]> = bytes.split(|&b| b == b'\n').collect();
    *bytes = lines.join(end.as_bytes());
}

/// Puts a 32-bit word of a sheet to another number.
pub fn change_word(random: &mut Random, bytes: &mut [u8]) {
    let at = random.below(bytes.len() as u64 / 4 + 1) as usize * 4;
    if let Some(word) = bytes.get_mut(at..at + 4) {
        let number = random.pick(&[0, 1, 2, 16, 17, 10_000, 10_001, 1_000_000_000, u32::MAX]);
        word.copy_from_slice(&number.to_le_bytes());
    }
}

/// Where the words of a text start and end.
fn tokens(bytes: &[u8], inside: impl Fn(u8) -> bool) -> Vec<(usize, usize)> {
    let mut found = Vec::new();
    let mut start = None;
    for (at, &byte) in bytes.iter().chain([&b' ']).enumerate() {
        let within = at < bytes.len() && inside(byte);
        match (within, start) {
            (true, None) => start = Some(at),
            (false, Some(first)) => {
                found.push((first, at));
                start = None;
            }
            _ => {}
        }
    }
    found
}

/// Swaps two words, or puts another word in the place of one.
pub fn change_tokens(random: &mut Random, bytes: &mut Vec<u8>) {
    let found = tokens(bytes, |byte| !byte.is_ascii_whitespace());
    if found.is_empty() {
        return;
    }
    let (first, end) = random.pick(&found);
    let (from, to) = random.pick(&found);
    let other = bytes[from..to].to_vec();
    let new = if random.one_in(2) {
        other
    } else {
        random.pick(&TOKENS).as_bytes().to_vec()
    };
    bytes.splice(first..end, new);
}

/// Puts another number in the place of one.
pub fn change_digits(random: &mut Random, bytes: &mut Vec<u8>) {
    let found = tokens(bytes, |byte| byte.is_ascii_digit());
    if found.is_empty() {
        return;
    }
    let (first, end) = random.pick(&found);
    let new = match random.below(16) {
        0 => random.pick(&TOKENS).to_string(),
        1 => random.below(u64::MAX).to_string(),
        2..=4 => random.below(10_000).to_string(),
        _ => random.below(20).to_string(),
    };
    bytes.splice(first..end, new.into_bytes());
}
