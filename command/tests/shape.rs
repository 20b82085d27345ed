//! The shape of JSON answers is the one that docs/COMMAND.md has: the same
//! fields in the same order.

#[path = "support/json.rs"]
mod json;
#[path = "support/run.rs"]
mod run;

use std::fs;
use std::path::{Path, PathBuf};

use json::{read_output, Json};
use run::run;

fn root() -> PathBuf {
    Path::new(env!("CARGO_MANIFEST_DIR")).join("..")
}

/// The words in backquotes.
fn names(text: &str) -> Vec<String> {
    let pieces = text.split('`').skip(1).step_by(2);
    pieces.map(str::to_string).collect()
}

/// The second cell of the row of the page that starts with this cell.
fn row(first: &str) -> String {
    let page = fs::read_to_string(root().join("docs/COMMAND.md")).unwrap();
    let (_, page) = page.split_once("\n## JSON\n").unwrap();
    let start = format!("| {first} | ");
    let found = page.lines().find_map(|line| line.strip_prefix(&start));
    found.unwrap_or_else(|| panic!("{start}")).to_string()
}

/// The fields of the objects that a row describes, after the given opening.
fn item(first: &str, opening: &str) -> Vec<String> {
    let text = row(first);
    let (_, rest) = text.split_once(opening).unwrap();
    names(rest.split('}').next().unwrap())
}

fn answer(args: &str, input: &str) -> Json {
    let root = root();
    let args: Vec<String> = args
        .split_whitespace()
        .map(|arg| match arg.starts_with("samples/") {
            true => root.join(arg).to_str().unwrap().to_string(),
            false => arg.to_string(),
        })
        .collect();
    let args: Vec<&str> = args.iter().map(String::as_str).collect();
    let ran = run(&args, input.as_bytes());
    assert!(ran.err.is_empty());
    read_output(&ran.out).unwrap()
}

/// The first item of a list.
fn first<'j>(object: &'j Json, key: &str) -> &'j Json {
    let list = object.get(key).and_then(Json::list);
    list.and_then(|list| list.first())
        .unwrap_or_else(|| panic!("no {key}"))
}

fn top(command: &str) -> Vec<String> {
    let start = ["command", "answer"].map(str::to_string);
    start.into_iter().chain(names(&row(command))).collect()
}

const LATE: &str = "tick 1 ms\nmessage 0.5 ms\nslot 5 ms\nnode a budget 1\n\
                    stream b period 50 ms deadline 15 ms\nstream c period 50 ms deadline 15 ms\n";

#[test]
fn check() {
    let keys = "`streams`, `before`";
    let with = "check samples/dryer/line.txt --with samples/dryer/recorder.txt --json";
    for answer in [
        answer("check samples/dryer/line.txt --json", ""),
        answer(with, ""),
        answer("check - --json", LATE),
    ] {
        assert_eq!(answer.keys(), top("check"));
        assert_eq!(first(&answer, "streams").keys(), item(keys, "[{"));
        assert_eq!(answer.get("tick").unwrap().keys(), item("`tick`", "{"));
    }
    let with = answer(with, "");
    assert_eq!(first(&with, "before").keys(), item(keys, "[{"));
    let late = answer("check - --json", LATE);
    assert_eq!(first(&late, "rounded").keys(), item("`rounded`", "[{"));
    let helps = late.get("helps").unwrap();
    assert_eq!(helps.keys(), ["budgets_one", "budgets", "deadlines"]);
    for key in helps.keys() {
        assert_eq!(
            first(helps, key).keys(),
            item("`helps`", &format!("`{key}`: [{{"))
        );
    }
}

#[test]
fn budgets() {
    for answer in [
        answer("budgets samples/dryer/line.txt --json", ""),
        answer(
            "budgets - --json",
            &LATE.replace("deadline 15", "deadline 5"),
        ),
    ] {
        assert_eq!(answer.keys(), top("budgets"));
        assert_eq!(first(&answer, "nodes").keys(), item("`nodes`", "[{"));
    }
}

#[test]
fn replay() {
    let answer = answer(
        "replay samples/dryer/line.txt samples/dryer/morning.csv --json",
        "",
    );
    assert_eq!(answer.keys(), top("replay"));
    assert_eq!(first(&answer, "messages").keys(), item("`messages`", "[{"));
    assert_eq!(first(&answer, "records").keys(), item("`records`", "[{"));
    assert_eq!(
        answer.get("worst").unwrap().keys(),
        item("`messages`", "[{")
    );
}

#[test]
fn errors_and_refusals() {
    let error = answer("check - --json", "nod");
    assert_eq!(error.keys(), ["command", "answer", "errors"]);
    assert_eq!(first(&error, "errors").keys(), item("error", "[{"));
    let refused = answer("check - --json", &LATE.replace("budget 1", "budget 17"));
    assert_eq!(refused.keys(), ["command", "answer", "refusals"]);
    assert_eq!(first(&refused, "refusals").keys(), item("refused", "[{"));
}
