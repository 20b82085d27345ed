//! The command `wistorvan`: a line file, a recorder and a log in, answers of the
//! proved planner out. The command reads, converts and lays out; every yes, no,
//! wait, J, budget and begin in what it writes is an answer of an entry of the
//! library.

#![forbid(unsafe_code)]

mod answers;
mod args;
mod budgets;
mod check;
mod draft;
mod duration;
mod fault;
mod help;
mod helps;
mod json;
mod line;
mod load;
mod log;
mod output;
mod plan;
mod reader;
mod records;
mod refusals;
mod replay;
mod replay_report;
mod report;
mod sheet_text;
mod statement;
mod table;
mod text;
mod tick;
mod words;

use std::ffi::OsString;
use std::io::{ErrorKind, Read, Write};

use args::Request;
use fault::{Failure, Fault};
use json::Value;
use report::Report;
use text::{Text, MOST_LOG_BYTES};

/// Runs the command with its arguments, without the program's name, and answers
/// the exit status: 0 yes, 1 no, 2 bad use or a file with errors.
pub fn run(
    args: &[OsString],
    input: &mut dyn Read,
    out: &mut dyn Write,
    err: &mut dyn Write,
) -> u8 {
    run_on(false, args, input, out, err)
}

/// The same where it is known whether standard output is a terminal.
pub fn run_on(
    terminal: bool,
    args: &[OsString],
    input: &mut dyn Read,
    out: &mut dyn Write,
    err: &mut dyn Write,
) -> u8 {
    let as_json = args::wants_json(args);
    match answer(args, as_json, input, terminal) {
        Ok(report) => finish(out, err, &report.output, report.status),
        Err(failure) if as_json => {
            let command = json::optional(&args::command(args), |name| Value::text(name));
            let fields = [vec![("command", command)], failure.fields()].concat();
            let text = format!("{}\n", Value::Object(fields));
            finish(out, err, text.as_bytes(), failure.status())
        }
        Err(failure) => {
            // Where standard error is closed there is nobody to tell.
            let _ = err.write_all(failure.text().as_bytes());
            failure.status()
        }
    }
}

fn answer(
    args: &[OsString],
    as_json: bool,
    input: &mut dyn Read,
    terminal: bool,
) -> Result<Report, Failure> {
    let request = args::read(args).map_err(Fault::of_use)?;
    match request {
        Request::Help(command) => Ok(Report::text(true, help::text(command).to_string())),
        Request::Version => Ok(Report::text(
            true,
            format!("wistorvan {}\n", env!("CARGO_PKG_VERSION")),
        )),
        Request::Check(files) => check::check(&load::load(&files, input, true)?, as_json),
        Request::Words { files, output } => words::words(
            &load::load(&files, input, true)?,
            output.as_deref(),
            terminal,
        ),
        Request::Budgets { files, write } => budgets::budgets(
            &load::load(&files, input, false)?,
            write.as_deref(),
            as_json,
        ),
        Request::Replay { files, log, until } => {
            let text = Text::read(&log, input, MOST_LOG_BYTES);
            let (loaded, text) = both(load::load(&files, input, true), text)?;
            replay_report::replay(&loaded, &text, until.as_deref(), as_json)
        }
        Request::Text { sheet, tick } => sheet_text::text(&sheet, tick.as_deref(), input),
    }
}

/// Both, or what stops either. Errors win over refusals.
fn both<L, T>(line: Result<L, Failure>, text: Result<T, Fault>) -> Result<(L, T), Failure> {
    match (line, text) {
        (Ok(line), Ok(text)) => Ok((line, text)),
        (Err(Failure::Errors(faults)), Err(fault)) => {
            Err(Failure::Errors([faults, vec![fault]].concat()))
        }
        (_, Err(fault)) => Err(fault.into()),
        (Err(failure), _) => Err(failure),
    }
}

/// Writes an answer. A reader that has gone, as `head` does, is told nothing.
fn finish(out: &mut dyn Write, err: &mut dyn Write, bytes: &[u8], status: u8) -> u8 {
    match out.write_all(bytes).and_then(|()| out.flush()) {
        Ok(()) => status,
        Err(error) => {
            if error.kind() != ErrorKind::BrokenPipe {
                let _ = writeln!(err, "wistorvan: standard output: {error}");
            }
            2
        }
    }
}
