//! `fuzz SECONDS SEED` runs every subcommand in process on changed samples,
//! changed texts of the tests and random bytes. It ends with status 1, and says
//! what was asked, if a run
//! - panics, or ends with a status that is not 0, 1 or 2,
//! - ends with status 2 and no message,
//! - writes JSON that cannot be read,
//! - answers yes or no where `admit`, asked about the words that `words` gives
//!   for the same files, says otherwise,
//! - writes budgets to a file that `check` does not answer with yes, or
//! - makes a text of a sheet of which `words` does not make the same sheet.
//!
//! At the end it prints how many runs of each status it made. Overflow is
//! checked in both profiles of this package.

#[path = "fuzz/edits.rs"]
mod edits;
#[path = "../tests/support/json.rs"]
mod json;
#[path = "fuzz/judge.rs"]
mod judge;
#[path = "fuzz/mutate.rs"]
mod mutate;
#[path = "../tests/support/random.rs"]
mod random;

use std::collections::BTreeMap;
use std::ffi::OsString;
use std::fs;
use std::os::unix::ffi::OsStringExt;
use std::panic::set_hook;
use std::path::Path;
use std::process::ExitCode;
use std::time::{Duration, Instant};

use judge::{judge, run, Question, NEW, PANIC};
use mutate::{Corpus, Kind};
use random::Random;

/// Arguments that may stand anywhere.
const ARGUMENTS: [&str; 30] = [
    "check",
    "budgets",
    "replay",
    "words",
    "text",
    "--json",
    "--with",
    "--until",
    "--write",
    "--output",
    "--tick",
    "--help",
    "--version",
    "-h",
    "-",
    "--",
    "",
    "line",
    "recorder",
    "log",
    "sheet",
    "missing",
    ".",
    "0.1ms",
    "5",
    "10 ticks",
    "--json=1",
    "--wit",
    "\u{a0}",
    "0.5,ms",
];

/// Asks questions until the time is over, and counts what came of them.
struct Fuzzer {
    random: Random,
    corpus: Corpus,
    runs: BTreeMap<(String, u8), u64>,
    slowest: (Duration, String),
}

impl Fuzzer {
    /// Writes a changed input to a file, or keeps it for standard input; gives
    /// the argument that names it.
    fn file(&mut self, question: &mut Question, kind: Kind, name: &'static str) -> &'static str {
        let bytes = self.corpus.input(&mut self.random, kind);
        if question.input.is_empty() && !question.has("-") && self.random.one_in(4) {
            question.input = bytes;
            return "-";
        }
        // Some file systems are slow to write over a file, so it goes first.
        let _ = fs::remove_file(name);
        fs::write(name, bytes).expect("the fuzzer's own folder can be written");
        name
    }

    fn question(&mut self) -> Question {
        if self.random.one_in(12) {
            return self.any_arguments();
        }
        let command = self
            .random
            .pick(&["check", "check", "budgets", "replay", "words", "text"]);
        let mut question = Question::new(&[command]);
        let (kind, name) = if command == "text" {
            (Kind::Sheet, "sheet")
        } else {
            (Kind::Line, "line")
        };
        let first = self.file(&mut question, kind, name);
        question.args.push(first.into());
        if command == "replay" {
            let log = self.file(&mut question, Kind::Log, "log");
            question.args.push(log.into());
        }
        for option in self.options(command) {
            question.args.extend(option.iter().map(OsString::from));
        }
        if command != "text" && self.random.one_in(2) {
            let recorder = self.file(&mut question, Kind::Recorder, "recorder");
            question.args.extend(["--with".into(), recorder.into()]);
        }
        question
    }

    /// Some of a subcommand's options, without the recorder.
    fn options(&mut self, command: &str) -> Vec<&'static [&'static str]> {
        let until: [&[&str]; 4] = [
            &["--until", "90000"],
            &["--until", "2 s"],
            &["--until", "0"],
            &["--until", "1e9"],
        ];
        let length: [&[&str]; 4] = [
            &["--tick", "0.1ms"],
            &["--tick", "7 us"],
            &["--tick", "1 h"],
            &["--tick", "0ms"],
        ];
        let known: &[&'static [&'static str]] = match command {
            "check" => &[&["--json"]],
            "budgets" => &[&["--json"], &["--write", NEW]],
            "replay" => &[&["--json"], until[self.random.below(4) as usize]],
            "words" => &[&["--output", NEW]],
            _ => &[length[self.random.below(4) as usize]],
        };
        known
            .iter()
            .filter(|_| self.random.one_in(2))
            .copied()
            .collect()
    }

    /// Any arguments in any order, one of them perhaps no text at all.
    fn any_arguments(&mut self) -> Question {
        let count = self.random.below(7);
        let mut args: Vec<OsString> = Vec::new();
        for _ in 0..count {
            args.push(self.random.pick(&ARGUMENTS).into());
        }
        if self.random.one_in(8) {
            args.push(OsString::from_vec(vec![b'a', 0xff, 0xfe]));
        }
        let input = self.corpus.input(&mut self.random, Kind::Line);
        Question {
            args,
            input,
            proper: false,
        }
    }

    /// Runs one question and holds what came of it.
    fn step(&mut self) -> Result<(), (String, Question)> {
        let _ = fs::remove_file(NEW);
        let question = self.question();
        let began = Instant::now();
        let judged = run(&question).and_then(|ran| {
            let took = began.elapsed();
            if took > self.slowest.0 {
                self.slowest = (took, format!("{:?}", question.args));
            }
            let command = question
                .args
                .first()
                .map(|arg| arg.to_string_lossy().into_owned());
            let known = command.filter(|name| ARGUMENTS[..5].contains(&name.as_str()));
            let name = known.unwrap_or("other arguments".to_string());
            *self.runs.entry((name, ran.status)).or_default() += 1;
            judge(&question, &ran)
        });
        judged.map_err(|wrong| (wrong, question))
    }
}

/// Says what was asked, with the files, which stay in the folder.
fn report(wrong: &str, question: &Question, folder: &Path) {
    println!("WRONG: {wrong}\nasked: {:?}", question.args);
    println!(
        "standard input: {:?}",
        String::from_utf8_lossy(&question.input)
    );
    println!("the files are in {}", folder.display());
}

fn fuzz(seconds: u64, seed: u64) -> Result<bool, std::io::Error> {
    let root = Path::new(env!("CARGO_MANIFEST_DIR")).join("..");
    let corpus = Corpus::read(&root);
    if !corpus.is_whole() {
        return Err(std::io::Error::other("samples or stored texts are missing"));
    }
    let folder = std::env::temp_dir().join(format!("wistorvan-fuzz-{}", std::process::id()));
    fs::create_dir_all(&folder)?;
    std::env::set_current_dir(&folder)?;
    let slowest = (Duration::ZERO, String::new());
    let mut fuzzer = Fuzzer {
        random: Random::new(seed),
        corpus,
        runs: BTreeMap::new(),
        slowest,
    };
    let began = Instant::now();
    while began.elapsed() < Duration::from_secs(seconds) {
        if let Err((wrong, question)) = fuzzer.step() {
            report(&wrong, &question, &folder);
            return Ok(false);
        }
    }
    for ((command, status), runs) in &fuzzer.runs {
        println!("{command}: {runs} runs with status {status}");
    }
    println!(
        "slowest: {} us, {}",
        fuzzer.slowest.0.as_micros(),
        fuzzer.slowest.1
    );
    std::env::set_current_dir("/")?;
    fs::remove_dir_all(&folder)?;
    Ok(true)
}

fn main() -> ExitCode {
    let mut numbers = std::env::args().skip(1).map(|arg| arg.parse::<u64>());
    let (Some(Ok(seconds)), Some(Ok(seed)), None) =
        (numbers.next(), numbers.next(), numbers.next())
    else {
        eprintln!("usage: fuzz SECONDS SEED");
        return ExitCode::from(2);
    };
    set_hook(Box::new(|panic| {
        if let Ok(mut said) = PANIC.lock() {
            *said = panic.to_string();
        }
    }));
    match fuzz(seconds, seed) {
        Ok(true) => ExitCode::SUCCESS,
        Ok(false) => ExitCode::from(1),
        Err(error) => {
            eprintln!("{error}");
            ExitCode::from(2)
        }
    }
}
