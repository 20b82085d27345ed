//! Whole runs of the command `wistorvan`, from start to end of the process,
//! beside the proved program on the same sheet. The two take turns, so that
//! both meet the machine in the same state; each figure is the median.

use std::fs::{self, File};
use std::io::{Error, Result};
use std::path::{Path, PathBuf};
use std::process::{Command, Stdio};
use std::time::{Duration, Instant};

use crate::Random;

/// A program with its arguments; standard input is a file.
struct Run {
    program: PathBuf,
    args: Vec<PathBuf>,
    input: PathBuf,
}

impl Run {
    fn new(program: &Path, args: &[&Path]) -> Run {
        let args = args.iter().map(PathBuf::from).collect();
        Run {
            program: program.to_path_buf(),
            args,
            input: PathBuf::from("/dev/null"),
        }
    }

    /// How long one run takes, in nanoseconds. It has to end well.
    fn time(&self) -> Result<f64> {
        let mut command = Command::new(&self.program);
        command
            .args(&self.args)
            .stdin(File::open(&self.input)?)
            .stdout(Stdio::null());
        let began = Instant::now();
        let status = command
            .status()
            .map_err(|error| named(&self.program, error))?;
        let took = began.elapsed().as_nanos() as f64;
        match status.success() {
            true => Ok(took),
            false => Err(Error::other(format!(
                "{} {:?}: {status}",
                self.program.display(),
                self.args
            ))),
        }
    }
}

fn median(mut times: Vec<f64>) -> f64 {
    times.sort_by(f64::total_cmp);
    times[times.len() / 2]
}

/// Runs both by turns for so long, and prints the medians.
fn pair(what: &str, command: &Run, proved: &Run, time: Duration) -> Result<()> {
    let (mut ours, mut theirs) = (Vec::new(), Vec::new());
    let began = Instant::now();
    while began.elapsed() < time || ours.is_empty() {
        ours.push(command.time()?);
        theirs.push(proved.time()?);
    }
    let runs = ours.len();
    let (ours, theirs) = (median(ours), median(theirs));
    println!(
        "{what}: command {:.0} us, proved program {:.0} us, ratio {:.2} ({runs} runs of each)",
        ours / 1e3,
        theirs / 1e3,
        ours / theirs
    );
    Ok(())
}

fn bytes(words: &[u32]) -> Vec<u8> {
    words.iter().flat_map(|word| word.to_le_bytes()).collect()
}

/// What a run of the command writes, as a file.
fn output_to(file: &Path, program: &Path, args: &[&Path]) -> Result<()> {
    let mut command = Command::new(program);
    let status = command.args(args).stdout(File::create(file)?).status();
    match status.map_err(|error| named(program, error))? {
        status if status.success() => Ok(()),
        status => Err(Error::other(format!(
            "{} {args:?}: {status}",
            program.display()
        ))),
    }
}

/// The error of a program that is not there, with its name.
fn named(program: &Path, error: Error) -> Error {
    Error::other(format!("{}: {error}", program.display()))
}

/// An admitted line of sixteen nodes with sixteen streams each.
fn largest_line(random: &mut Random) -> Vec<u32> {
    let mut period = || 500_000 + random.below(500_000) as u32;
    let mut streams = || {
        (0..16)
            .map(|_| period())
            .map(|ticks| (ticks, ticks - ticks / 8))
            .collect()
    };
    let nodes: Vec<(u32, Vec<(u32, u32)>)> = (0..16).map(|_| (4, streams())).collect();
    crate::sheet(5, 1, &nodes)
}

/// 4,096 releases of the largest line, as words after the horizon and as text:
/// each stream sixteen times, no sooner than its period allows.
fn long_log(random: &mut Random) -> (Vec<u32>, String) {
    let (mut words, mut text) = (vec![1_000_000_000], String::from("time,stream\n"));
    for burst in 0..16 {
        let mut tick = burst * 1_100_000;
        for stream in 0..256 {
            tick += random.below(40) as u32;
            words.extend([tick, stream + 1]);
            text += &format!("{tick},node{}.stream{}\n", stream / 16 + 1, stream % 16 + 1);
        }
    }
    (words, text)
}

/// The sample, the largest line and a long log, in the programs' forms.
struct Files {
    folder: PathBuf,
    sample: PathBuf,
}

impl Files {
    fn make(folder: PathBuf, sample: PathBuf, wistorvan: &Path, seed: u64) -> Result<Files> {
        let mut random = Random(seed.max(1));
        let files = Files { folder, sample };
        fs::create_dir_all(&files.folder)?;
        output_to(
            &files.at("sample.sheet"),
            wistorvan,
            &[Path::new("words"), &files.sample],
        )?;
        fs::write(files.at("largest.sheet"), bytes(&largest_line(&mut random)))?;
        output_to(
            &files.at("largest.txt"),
            wistorvan,
            &[Path::new("text"), &files.at("largest.sheet")],
        )?;
        let (words, text) = long_log(&mut random);
        fs::write(files.at("log.words"), bytes(&words))?;
        fs::write(files.at("log.csv"), text)?;
        Ok(files)
    }

    fn at(&self, name: &str) -> PathBuf {
        self.folder.join(name)
    }
}

/// Times each question for a quarter of the seconds.
pub fn command(seconds: u64, seed: u64) -> Result<()> {
    let root = Path::new(env!("CARGO_MANIFEST_DIR")).join("..");
    let wistorvan = root.join("command/target/release/wistorvan");
    let program = |name: &str| root.join("crates").join(name).join("out").join(name);
    let folder = std::env::temp_dir().join(format!("wistorvan-bench-{}", std::process::id()));
    let files = Files::make(
        folder,
        root.join("samples/dryer/line.txt"),
        &wistorvan,
        seed,
    )?;
    let time = Duration::from_secs(seconds) / 4;
    let admit = |sheet: &str| Run {
        input: files.at(sheet),
        ..Run::new(&program("admit"), &[])
    };
    let ask = |args: &[&Path]| Run::new(&wistorvan, args);
    let (check, replay) = (Path::new("check"), Path::new("replay"));
    let (line, log) = (files.at("largest.txt"), files.at("log.csv"));
    pair(
        "--version, beside admit of the sample",
        &ask(&[Path::new("--version")]),
        &admit("sample.sheet"),
        time,
    )?;
    pair(
        "check of the sample",
        &ask(&[check, &files.sample]),
        &admit("sample.sheet"),
        time,
    )?;
    pair(
        "check of 16 nodes of 16 streams",
        &ask(&[check, &line]),
        &admit("largest.sheet"),
        time,
    )?;
    let proved = Run::new(
        &program("replay"),
        &[&files.at("largest.sheet"), &files.at("log.words")],
    );
    pair(
        "replay of 4,096 releases on it",
        &ask(&[replay, &line, &log]),
        &proved,
        time,
    )?;
    fs::remove_dir_all(&files.folder)
}
