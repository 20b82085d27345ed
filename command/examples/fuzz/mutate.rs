//! Inputs for the fuzzer: texts and sheets from the samples and the tests,
//! changed by chance.

use std::fs;
use std::path::Path;

use super::edits::{change_digits, change_lines, change_tokens, change_word, cut, flip, insert};
use super::edits::{line_ends, noise, piece, INVISIBLE, TOKENS};
use super::random::Random;

/// What an input is meant to be.
#[derive(Clone, Copy, PartialEq, Eq)]
pub enum Kind {
    Line,
    Recorder,
    Log,
    Sheet,
}

pub struct Corpus {
    lines: Vec<Vec<u8>>,
    recorders: Vec<Vec<u8>>,
    logs: Vec<Vec<u8>>,
    sheets: Vec<Vec<u8>>,
    others: Vec<Vec<u8>>,
}

/// The files of a folder with this ending, in order of name.
fn folder(path: &Path, ending: &str) -> Vec<Vec<u8>> {
    let Ok(entries) = fs::read_dir(path) else {
        return Vec::new();
    };
    let mut paths: Vec<_> = entries.flatten().map(|entry| entry.path()).collect();
    paths.sort();
    let named = |path: &std::path::PathBuf| path.to_string_lossy().ends_with(ending);
    paths.into_iter().filter(named).flat_map(fs::read).collect()
}

/// The words of a text of decimal numbers, as tools/words takes it.
fn words_of(text: &[u8]) -> Vec<u8> {
    let text = String::from_utf8_lossy(text);
    let said = text
        .lines()
        .map(|line| line.split('#').next().unwrap_or(""));
    let words = said
        .flat_map(str::split_whitespace)
        .flat_map(str::parse::<u32>);
    words.flat_map(u32::to_le_bytes).collect()
}

impl Corpus {
    /// From the repository's folder.
    pub fn read(root: &Path) -> Corpus {
        let dryer = root.join("samples/dryer");
        let tests = root.join("command/tests");
        let numbers = folder(&root.join("samples"), ".txt");
        // Recorder and logs fit the dryer's line alone, so it comes more often.
        let own = folder(&dryer, "line.txt");
        let mut lines: Vec<Vec<u8>> = std::iter::repeat_n(own, 6).flatten().collect();
        lines.extend(folder(&tests.join("lines"), ".txt"));
        Corpus {
            lines,
            recorders: folder(&dryer, "recorder.txt"),
            logs: folder(&dryer, ".csv"),
            sheets: numbers.iter().map(|text| words_of(text)).collect(),
            others: [folder(&tests.join("expected"), ""), numbers].concat(),
        }
    }

    pub fn is_whole(&self) -> bool {
        let parts = [
            &self.lines,
            &self.recorders,
            &self.logs,
            &self.sheets,
            &self.others,
        ];
        parts.iter().all(|part| !part.is_empty())
    }

    fn of(&self, kind: Kind) -> &[Vec<u8>] {
        match kind {
            Kind::Line => &self.lines,
            Kind::Recorder => &self.recorders,
            Kind::Log => &self.logs,
            Kind::Sheet => &self.sheets,
        }
    }

    fn any(&self, random: &mut Random) -> &[u8] {
        let parts = [
            &self.lines,
            &self.recorders,
            &self.logs,
            &self.sheets,
            &self.others,
        ];
        let part = random.pick(&parts);
        &part[random.index(part.len())]
    }

    /// An input meant to be of this kind: mostly changed a little.
    pub fn input(&self, random: &mut Random, kind: Kind) -> Vec<u8> {
        let mut bytes = match random.below(40) {
            0 => self.any(random).to_vec(),
            1 => noise(random),
            _ => {
                let known = self.of(kind);
                known[random.index(known.len())].clone()
            }
        };
        // Half of them change in numbers alone, and mostly stay well-formed.
        let numbers_alone = random.one_in(2) && kind != Kind::Sheet;
        for _ in 0..random.pick(&[0, 0, 1, 1, 1, 2, 2, 3, 9]) {
            match numbers_alone {
                true => change_digits(random, &mut bytes),
                false => self.change(random, &mut bytes),
            }
        }
        bytes
    }

    fn change(&self, random: &mut Random, bytes: &mut Vec<u8>) {
        match random.below(20) {
            0 => flip(random, bytes),
            1 => cut(random, bytes),
            2 => {
                let whole = self.any(random);
                let other = piece(random, whole);
                insert(random, bytes, &other);
            }
            3 => {
                let character = random.pick(&INVISIBLE);
                insert(random, bytes, character.as_bytes());
            }
            4 => {
                let token = random.pick(&TOKENS);
                insert(random, bytes, token.as_bytes());
            }
            5 | 6 => change_lines(random, bytes),
            7 => line_ends(random, bytes),
            8 => change_word(random, bytes),
            9..=11 => change_tokens(random, bytes),
            _ => change_digits(random, bytes),
        }
    }
}
