//! Questions of the fuzzer, and what every answer is held to.

use std::ffi::OsString;
use std::fs;
use std::panic::{catch_unwind, AssertUnwindSafe};
use std::path::Path;
use std::sync::Mutex;

use super::json::{read_output, Json};

/// The file that `budgets --write` and `words --output` make.
pub const NEW: &str = "new";

/// What a panic said, kept by the hook.
pub static PANIC: Mutex<String> = Mutex::new(String::new());

pub struct Ran {
    pub status: u8,
    pub out: Vec<u8>,
    pub err: Vec<u8>,
}

/// One question: the arguments, and the file that comes on standard input.
#[derive(Clone, Default)]
pub struct Question {
    pub args: Vec<OsString>,
    pub input: Vec<u8>,
    /// Whether the arguments are as the subcommand's help has them.
    pub proper: bool,
}

impl Question {
    pub fn new(words: &[&str]) -> Question {
        let args = words.iter().map(OsString::from).collect();
        Question {
            args,
            input: Vec::new(),
            proper: true,
        }
    }

    pub fn has(&self, word: &str) -> bool {
        self.args.iter().any(|arg| arg == word)
    }

    fn is(&self, command: &str) -> bool {
        self.args.first().is_some_and(|arg| arg == command)
    }

    /// The same files asked of another subcommand, without its options.
    fn of_other(&self, command: &str) -> Question {
        let mut args = vec![OsString::from(command)];
        args.extend(self.args.get(1).cloned());
        if let Some(at) = self.args.iter().position(|arg| arg == "--with") {
            args.extend(self.args[at..].iter().take(2).cloned());
        }
        Question {
            args,
            ..self.clone()
        }
    }
}

pub fn run(question: &Question) -> Result<Ran, String> {
    let (mut out, mut err) = (Vec::new(), Vec::new());
    let mut input = question.input.as_slice();
    let run = || wistorvan_command::run(&question.args, &mut input, &mut out, &mut err);
    match catch_unwind(AssertUnwindSafe(run)) {
        Ok(status) => Ok(Ran { status, out, err }),
        Err(_) => Err(format!(
            "panic: {}",
            PANIC
                .lock()
                .map_or_else(|_| String::new(), |said| said.clone())
        )),
    }
}

/// Holds a run to what is promised of every run, and of its subcommand.
pub fn judge(question: &Question, ran: &Ran) -> Result<(), String> {
    if ran.status > 2 {
        return Err(format!("status {}", ran.status));
    }
    let told = !ran.err.is_empty() || question.has("--json") && !ran.out.is_empty();
    if ran.status == 2 && !told {
        return Err("status 2 without a message".to_string());
    }
    if question.has("--json") && ran.out.first() == Some(&b'{') {
        judge_json(ran)?;
    } else if question.has("--json") && question.proper {
        return Err("no object".to_string());
    }
    if !question.proper || ran.status == 2 {
        return Ok(());
    }
    if question.is("check") {
        judge_check(question, ran)
    } else if question.is("text") {
        judge_text(question, ran)
    } else if question.is("budgets") && question.has("--write") {
        judge_written(ran)
    } else {
        Ok(())
    }
}

/// The answer goes with the status, and nothing stands beside the object.
fn judge_json(ran: &Ran) -> Result<(), String> {
    let said = read_output(&ran.out)?;
    let answer = said.get("answer").and_then(Json::text).unwrap_or("none");
    let status = match answer {
        "yes" => 0,
        "no" | "refused" => 1,
        "error" => 2,
        _ => return Err(format!("the answer {answer:?}")),
    };
    let filled = |key| {
        said.get(key)
            .and_then(Json::list)
            .is_some_and(|list| !list.is_empty())
    };
    if status != ran.status || !ran.err.is_empty() {
        return Err(format!(
            "the answer {answer:?} with status {} and {} bytes on standard error",
            ran.status,
            ran.err.len()
        ));
    }
    if answer == "error" && !filled("errors") || answer == "refused" && !filled("refusals") {
        return Err(format!("the answer {answer:?} without its list"));
    }
    Ok(())
}

/// A yes exactly if the library admits the words of the same files.
fn judge_check(question: &Question, ran: &Ran) -> Result<(), String> {
    let words = run(&question.of_other("words"))?;
    let sheet: Vec<u32> = to_words(&words.out);
    let admitted = wistorvan::admit(&sheet, &mut [0; wistorvan::MAX_STREAMS]).is_ok();
    match (ran.status, words.status) {
        (0, 0) if admitted => Ok(()),
        (1, 0) if !admitted => Ok(()),
        (1, 1) => Ok(()),
        _ => Err(format!(
            "check ends with {}, words with {}, admitted: {admitted}",
            ran.status, words.status
        )),
    }
}

/// `words` makes the same sheet of the text that `text` made.
fn judge_text(question: &Question, ran: &Ran) -> Result<(), String> {
    let bytes = match question.args.get(1) {
        Some(name) if name != "-" => fs::read(name).unwrap_or_default(),
        _ => question.input.clone(),
    };
    let valid = bytes.len() % 4 == 0 && wistorvan::check_sheet(&to_words(&bytes)).is_ok();
    if ran.status != 0 {
        return if valid {
            Err("no text of a valid sheet".to_string())
        } else {
            Ok(())
        };
    }
    let again = run(&Question {
        input: ran.out.clone(),
        ..Question::new(&["words", "-"])
    })?;
    if valid && again.status == 0 && again.out == bytes {
        return Ok(());
    }
    Err("the text of the sheet does not make the same sheet".to_string())
}

/// A file of budgets is there after a yes alone, and `check` answers it with yes.
fn judge_written(ran: &Ran) -> Result<(), String> {
    let written = Path::new(NEW).exists();
    if ran.status != 0 {
        return if written {
            Err("budgets written without a yes".to_string())
        } else {
            Ok(())
        };
    }
    match run(&Question::new(&["check", NEW]))?.status {
        0 if written => Ok(()),
        status => Err(format!("check of the written budgets ends with {status}")),
    }
}

fn to_words(bytes: &[u8]) -> Vec<u32> {
    let words = bytes.chunks_exact(4);
    words
        .map(|w| u32::from_le_bytes([w[0], w[1], w[2], w[3]]))
        .collect()
}
