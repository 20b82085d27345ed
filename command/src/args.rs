//! The command's arguments.

use std::ffi::{OsStr, OsString};

use crate::load::Files;
use crate::text::quoted;
use crate::tick::plural;

/// What is asked for.
#[derive(Clone, PartialEq, Eq, Debug)]
pub enum Request {
    /// Help on a subcommand, or on the whole.
    Help(Option<&'static str>),
    Version,
    Check(Files),
    Budgets {
        files: Files,
        write: Option<OsString>,
    },
    Replay {
        files: Files,
        log: OsString,
        until: Option<OsString>,
    },
    Words {
        files: Files,
        output: Option<OsString>,
    },
    Text {
        sheet: OsString,
        tick: Option<OsString>,
    },
}

/// The arguments that a subcommand takes.
struct Form {
    name: &'static str,
    files: &'static [&'static str],
    /// Options with a value, and what the value is.
    options: &'static [(&'static str, &'static str)],
    json: bool,
}

const WITH: (&str, &str) = ("--with", "RECORDER");

const FORMS: [Form; 5] = [
    Form {
        name: "check",
        files: &["LINE"],
        options: &[WITH],
        json: true,
    },
    Form {
        name: "budgets",
        files: &["LINE"],
        options: &[WITH, ("--write", "NEW")],
        json: true,
    },
    Form {
        name: "replay",
        files: &["LINE", "LOG"],
        options: &[WITH, ("--until", "TIME")],
        json: true,
    },
    Form {
        name: "words",
        files: &["LINE"],
        options: &[WITH, ("--output", "FILE")],
        json: false,
    },
    Form {
        name: "text",
        files: &["SHEET"],
        options: &[("--tick", "LENGTH")],
        json: false,
    },
];

/// The arguments as read: files, and options with their values.
#[derive(Default)]
struct Given {
    files: Vec<OsString>,
    options: Vec<(&'static str, OsString)>,
}

/// The subcommand that is named first, if there is one.
fn form(args: &[OsString]) -> Option<&'static Form> {
    let first = args.first()?;
    FORMS.iter().find(|form| OsStr::new(form.name) == first)
}

pub fn command(args: &[OsString]) -> Option<&'static str> {
    form(args).map(|form| form.name)
}

/// Whether one of these is among the options, which end with `--`.
fn has_option(args: &[OsString], names: &[&str]) -> bool {
    let mut options = args.iter().take_while(|arg| *arg != "--");
    options.any(|arg| names.iter().any(|name| arg == name))
}

/// Whether the answer is to be JSON, also where the arguments have errors.
pub fn wants_json(args: &[OsString]) -> bool {
    form(args).is_none_or(|form| form.json) && has_option(args, &["--json"])
}

/// Reads the arguments, without the program's name.
pub fn read(args: &[OsString]) -> Result<Request, String> {
    let (Some(form), Some(rest)) = (form(args), args.get(1..)) else {
        return without_command(args);
    };
    if has_option(rest, &["--help", "-h"]) {
        return Ok(Request::Help(Some(form.name)));
    }
    let given = given(form, rest).map_err(|message| {
        format!(
            "{}: {message}; see \"wistorvan {} --help\"",
            form.name, form.name
        )
    })?;
    let request = request(form, given);
    request.map_err(|message| {
        format!(
            "{}: {message}; see \"wistorvan {} --help\"",
            form.name, form.name
        )
    })
}

/// Help and version stand alone.
fn without_command(args: &[OsString]) -> Result<Request, String> {
    let words: Vec<String> = args
        .iter()
        .map(|arg| arg.to_string_lossy().into_owned())
        .collect();
    let words: Vec<&str> = words.iter().map(String::as_str).collect();
    let names: Vec<&str> = FORMS.iter().map(|form| form.name).collect();
    let (found, expected) = match words.as_slice() {
        ["--help" | "-h"] => return Ok(Request::Help(None)),
        ["--version" | "-V"] => return Ok(Request::Version),
        [first @ ("--help" | "-h" | "--version" | "-V"), more, ..] => {
            (quoted(more), format!("nothing after {first}"))
        }
        [] => (
            "no subcommand".to_string(),
            format!("one of {}", names.join(", ")),
        ),
        [other, ..] => (quoted(other), format!("one of {}", names.join(", "))),
    };
    Err(format!(
        "found {found}, expected {expected}; see \"wistorvan --help\""
    ))
}

fn given(form: &Form, args: &[OsString]) -> Result<Given, String> {
    let mut given = Given::default();
    let mut rest = args.iter();
    let mut only_files = false;
    while let Some(arg) = rest.next() {
        let text = arg.to_string_lossy();
        if only_files || arg == "-" || !text.starts_with('-') {
            given.files.push(arg.clone());
        } else if arg == "--" {
            only_files = true;
        } else if arg == "--json" && form.json {
            // Looked for before: errors are JSON then too.
        } else {
            let value = rest.as_slice().first();
            let joined = option(form, &mut given, arg, value)?;
            if !joined {
                rest.next();
            }
        }
    }
    Ok(given)
}

/// Takes an option and its value, which may stand after `=`. Whether it does.
fn option(
    form: &Form,
    given: &mut Given,
    arg: &OsStr,
    next: Option<&OsString>,
) -> Result<bool, String> {
    let text = arg.to_string_lossy();
    let (name, joined) = match arg.to_str().and_then(|arg| arg.split_once('=')) {
        Some((name, value)) => (name, Some(OsString::from(value))),
        None => (text.as_ref(), None),
    };
    let Some((name, value)) = form.options.iter().find(|(option, _)| *option == name) else {
        return Err(format!(
            "found the unknown option {}, expected {}",
            quoted(&text),
            known(form)
        ));
    };
    if given.options.iter().any(|(option, _)| option == name) {
        return Err(format!("found {name} a second time, expected it once"));
    }
    let is_joined = joined.is_some();
    let following = next.filter(|next| *next == "-" || !next.to_string_lossy().starts_with('-'));
    match joined.or_else(|| following.cloned()) {
        Some(found) if !found.is_empty() => given.options.push((name, found)),
        _ => {
            return Err(format!(
                "found {name} without its value, expected {value} after it"
            ))
        }
    }
    Ok(is_joined)
}

/// The options of a subcommand, for messages.
fn known(form: &Form) -> String {
    let mut names: Vec<&str> = form.options.iter().map(|(name, _)| *name).collect();
    if form.json {
        names.push("--json");
    }
    names.join(", ")
}

fn request(form: &'static Form, given: Given) -> Result<Request, String> {
    count_files(form, &given)?;
    let value = |name: &str| {
        let found = given.options.iter().find(|(option, _)| *option == name);
        found.map(|(_, value)| value.clone())
    };
    let recorder = value("--with");
    if given
        .files
        .iter()
        .chain(&recorder)
        .filter(|name| *name == "-")
        .count()
        > 1
    {
        return Err("found \"-\" twice, expected standard input once".to_string());
    }
    let mut files = given.files.iter().cloned();
    let line = files.next().unwrap_or_default();
    let second = files.next().unwrap_or_default();
    let (write, until, output, tick) = (
        value("--write"),
        value("--until"),
        value("--output"),
        value("--tick"),
    );
    if form.name == "text" {
        return Ok(Request::Text { sheet: line, tick });
    }
    let files = Files { line, recorder };
    Ok(match form.name {
        "check" => Request::Check(files),
        "budgets" => Request::Budgets { files, write },
        "replay" => Request::Replay {
            files,
            log: second,
            until,
        },
        _ => Request::Words { files, output },
    })
}

fn count_files(form: &Form, given: &Given) -> Result<(), String> {
    let (found, expected) = (given.files.len(), form.files.len());
    let found = plural(found as u64, "file");
    let names = form.files.join(" and ");
    match given.files.len() == expected {
        true => Ok(()),
        false => Err(format!("found {found}, expected {expected}: {names}")),
    }
}

#[cfg(test)]
mod tests {
    use super::*;

    fn words(text: &str) -> Vec<OsString> {
        text.split_whitespace().map(OsString::from).collect()
    }

    fn files(line: &str, recorder: Option<&str>) -> Files {
        Files {
            line: line.into(),
            recorder: recorder.map(OsString::from),
        }
    }

    #[test]
    fn options_may_stand_anywhere() {
        let expected = Ok(Request::Check(files("a", Some("b"))));
        for text in [
            "check a --with b",
            "check --with b a",
            "check --with=b --json a",
            "check --with b -- a",
        ] {
            assert_eq!(read(&words(text)), expected, "{text}");
        }
        assert_eq!(
            read(&words("check -- --json")),
            Ok(Request::Check(files("--json", None)))
        );
        assert_eq!(
            read(&words("check - --with b")),
            Ok(Request::Check(files("-", Some("b"))))
        );
    }

    #[test]
    fn help_wins() {
        let help = Ok(Request::Help(Some("replay")));
        assert_eq!(read(&words("replay --help --nothing")), help);
        assert_eq!(read(&words("replay --nothing -h a b c")), help);
        assert_eq!(read(&words("--help")), Ok(Request::Help(None)));
        assert_eq!(read(&words("-V")), Ok(Request::Version));
    }

    #[test]
    fn json_is_wanted_where_it_is_known() {
        assert!(wants_json(&words("check --jsn --json")));
        assert!(wants_json(&words("chekc --json")));
        assert!(!wants_json(&words("words a --json")));
        assert!(!wants_json(&words("check -- --json")));
    }
}
