//! The admit and the replay program, run as they are built, against what the
//! second program writes: to the byte, and nothing on standard error.

use std::fs;
use std::io::{self, Write};
use std::path::{Path, PathBuf};
use std::process::{Child, Command, Stdio};

use peer::generate::Case;
use peer::text::{admit_program, replay_program, MOST_SECOND_BYTES, MOST_SHEET_BYTES};

use crate::far;
use crate::tally::{Outcome, Tally};

/// Makes the new length of a file out of its length and the most it may have;
/// none for a file that is not there.
pub type Change = fn(usize, usize) -> Option<usize>;

pub const CHANGES: [Change; 7] = [
    |bytes, _| Some(bytes.saturating_sub(1)),
    |bytes, _| Some(bytes.saturating_sub(3)),
    |bytes, _| Some(bytes + 2),
    |bytes, _| Some(bytes + 4),
    |_, most| Some(most + 4),
    |_, _| Some(0),
    |_, _| None,
];

/// What a program wrote, and whether it ended well.
#[derive(PartialEq, Eq, Debug)]
struct Written {
    out: String,
    error: String,
    ended: bool,
}

type File = Option<Vec<u8>>;

/// The last folder on the way to the programs' files: no buffer that holds
/// only short paths holds theirs.
const LONG_NAME: &str =
    "a folder with a name so long that no path through it is of under a hundred bytes";

/// Where the programs' crates are, each with its program in out/, and a
/// folder of their own for their files.
pub struct Programs {
    crates: PathBuf,
    folder: PathBuf,
}

impl Drop for Programs {
    fn drop(&mut self) {
        let _ = fs::remove_dir_all(&self.folder);
    }
}

impl Programs {
    pub fn new() -> io::Result<Programs> {
        let crates = Path::new(env!("CARGO_MANIFEST_DIR")).join("../crates");
        let folder = std::env::temp_dir().join(format!("compare-{}", std::process::id()));
        fs::create_dir_all(folder.join(LONG_NAME))?;
        Ok(Programs { crates, folder })
    }

    fn start(&self, name: &str, files: &[PathBuf]) -> io::Result<Child> {
        Command::new(self.crates.join(name).join("out").join(name))
            .args(files)
            .stdin(Stdio::piped())
            .stdout(Stdio::piped())
            .stderr(Stdio::piped())
            .spawn()
    }

    fn admit(&self, sheet: &File) -> io::Result<Outcome<Written>> {
        let mut child = self.start("admit", &[])?;
        if let (Some(mut input), Some(bytes)) = (child.stdin.take(), sheet) {
            // The program need not read the whole of too long a sheet.
            let _ = input.write_all(bytes);
        }
        outcome(child)
    }

    fn replay(&self, sheet: &File, second: &File) -> io::Result<Outcome<Written>> {
        let files = [self.file("sheet", sheet)?, self.file("second", second)?];
        outcome(self.start("replay", &files)?)
    }

    fn file(&self, name: &str, file: &File) -> io::Result<PathBuf> {
        let path = self.folder.join(LONG_NAME).join(name);
        match file {
            Some(bytes) => fs::write(&path, bytes)?,
            None if path.exists() => fs::remove_file(&path)?,
            None => {}
        }
        Ok(path)
    }

    /// Both programs on the case as it is, then with each change of each file.
    pub fn compare(
        &self,
        tally: &mut Tally,
        name: &str,
        case: &Case,
        changes: &[Change],
    ) -> io::Result<()> {
        let sheet = bytes(&case.sheet);
        let second = bytes(&[&[case.horizon], &case.log[..]].concat());
        let whole = (Some(sheet.clone()), Some(second.clone()));
        let mut round = Round {
            programs: self,
            tally,
            name,
            case,
        };
        round.admit(&whole.0)?;
        round.replay(&whole.0, &whole.1)?;
        for change in changes {
            let other = changed(&sheet, *change, MOST_SHEET_BYTES);
            round.admit(&other)?;
            round.replay(&other, &whole.1)?;
            let other = changed(&second, *change, MOST_SECOND_BYTES);
            round.replay(&whole.0, &other)?;
        }
        Ok(())
    }
}

/// The programs on one case.
struct Round<'a> {
    programs: &'a Programs,
    tally: &'a mut Tally,
    name: &'a str,
    case: &'a Case,
}

impl Round<'_> {
    fn admit(&mut self, sheet: &File) -> io::Result<()> {
        let proved = self.programs.admit(sheet)?;
        let second = expected(admit_program(content(sheet)));
        let text = &second.left.out;
        let wait = far::wait(&far::rows(text));
        self.tally.reached("admit program", &[wait]);
        let name = format!("{}, {}", self.name, length(sheet));
        self.tally
            .compare("admit program", &name, self.case, &proved, &second);
        Ok(())
    }

    fn replay(&mut self, sheet: &File, log: &File) -> io::Result<()> {
        let proved = self.programs.replay(sheet, log)?;
        let second = expected(replay_program(content(sheet), content(log)));
        let text = &second.left.out;
        let begin = far::begin(&far::rows(text));
        let turns = far::turns_written(text).and_then(far::turns);
        self.tally.reached("replay program", &[begin, turns]);
        let name = format!("{}, {} and {}", self.name, length(sheet), length(log));
        self.tally
            .compare("replay program", &name, self.case, &proved, &second);
        Ok(())
    }
}

fn bytes(words: &[u32]) -> Vec<u8> {
    words.iter().flat_map(|word| word.to_le_bytes()).collect()
}

fn changed(bytes: &[u8], change: Change, most: usize) -> File {
    let mut file = bytes.to_vec();
    file.resize(change(bytes.len(), most)?, 1);
    Some(file)
}

/// A file that is not there counts as empty.
fn content(file: &File) -> &[u8] {
    file.as_deref().unwrap_or_default()
}

fn length(file: &File) -> String {
    match file {
        Some(bytes) => format!("{} bytes", bytes.len()),
        None => "no file".to_string(),
    }
}

fn outcome(child: Child) -> io::Result<Outcome<Written>> {
    let output = child.wait_with_output()?;
    let text = |bytes: &[u8]| String::from_utf8_lossy(bytes).into_owned();
    let out = text(&output.stdout);
    Ok(Outcome {
        answer: answer(&out),
        left: Written {
            out,
            error: text(&output.stderr),
            ended: output.status.success(),
        },
    })
}

fn expected(out: String) -> Outcome<Written> {
    Outcome {
        answer: answer(&out),
        left: Written {
            out,
            error: String::new(),
            ended: true,
        },
    }
}

/// The numbers of a refusal's line; 0 0 0 for any other text.
fn answer(text: &str) -> (u32, u32, u32) {
    let Some(line) = text.strip_prefix("refused ") else {
        return (0, 0, 0);
    };
    let mut numbers = line.split_whitespace().filter_map(|word| word.parse().ok());
    let mut next = || numbers.next().unwrap_or(0);
    (next(), next(), next())
}
