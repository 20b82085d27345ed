//! The program: its arguments, its standard streams and its exit status.

use std::ffi::OsString;
use std::io::{stderr, stdin, stdout, IsTerminal};
use std::process::ExitCode;

fn main() -> ExitCode {
    let args: Vec<OsString> = std::env::args_os().skip(1).collect();
    let terminal = stdout().is_terminal();
    let status =
        wistorvan_command::run_on(terminal, &args, &mut stdin(), &mut stdout(), &mut stderr());
    ExitCode::from(status)
}
