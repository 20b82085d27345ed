//! Ten thousand generated line files: what the subcommands say about each is
//! what the library says about the tables that it was written from. The tables
//! go to the library by the test's own way.

mod support {
    pub mod answers;
    pub mod case;
    pub mod hold;
    pub mod json;
    pub mod library;
    pub mod lines;
    pub mod numbers;
    pub mod random;
    pub mod releases;
    pub mod run;
}

use std::fs;
use std::path::Path;

use support::answers::{budgets_help, deadlines_help, rounded_holds, row_holds, streams_hold};
use support::case::{order_kept, Case};
use support::hold::{equal, holds, list, number, optional, text, Held};
use support::json::Json;
use support::library::{ticks, Listed, Sheet, Ticks};
use support::random::Random;
use support::releases::{messages_hold, releases};
use support::run::{run, to_bytes};

const CASES: usize = 10_000;

/// What was seen, so that a generator gone wrong does not pass unseen.
#[derive(Default, Debug)]
struct Seen {
    yes: usize,
    no: usize,
    refused: usize,
    order_lost: usize,
    with_recorder: usize,
    in_time_units: usize,
    rounded: usize,
    late_streams: usize,
    /// Streams with jitter, and those that are late by nothing else.
    jitters: usize,
    late_by_jitter: usize,
    no_bound: usize,
    no_budgets: usize,
    budgets_written: usize,
    replayed: usize,
    waited_too_long: usize,
    recorded_too_long: usize,
    unlisted: usize,
}

fn words_hold(case: &Case, sheet: &Sheet) -> Held {
    let ran = case.ask(&["words", "-"]);
    equal("status of words", ran.status, 0)?;
    equal("standard error of words", ran.err.len(), 0)?;
    equal("words", ran.out, to_bytes(&sheet.words))
}

fn check_holds(case: &Case, ticks: &Ticks, sheet: &Sheet, seen: &mut Seen) -> Held {
    let (status, said) = case.ask_json(&case.text, &["check", "-"])?;
    let admitted = ticks.admitted();
    let answer = if admitted { "yes" } else { "no" };
    equal("status of check", status, u8::from(!admitted))?;
    equal("answer", text(&said, "answer")?, answer)?;
    equal("cycle", number(&said, "cycle")?, sheet.cycle.into())?;
    let streams = streams_hold(list(&said, "streams")?, &case.line, ticks, sheet)?;
    let late = streams.iter().filter(|row| row.late).count();
    equal("admitted", admitted, late == 0)?;
    rounded_holds(list(&said, "rounded")?, &case.line)?;
    if !admitted {
        let helps = said.get("helps").ok_or("no helps")?;
        budgets_help(helps, &case.line, ticks)?;
        row_holds(helps.get("budgets"), &case.line, ticks)?;
        deadlines_help(helps, &case.line, ticks, &streams)?;
    }
    let counted = if admitted {
        &mut seen.yes
    } else {
        &mut seen.no
    };
    *counted += 1;
    seen.late_streams += late;
    seen.jitters += ticks.jitters.iter().filter(|&&jitter| jitter > 0).count();
    let by_jitter = |(row, jitter): &(&Listed, &u32)| {
        row.late && row.left.is_some_and(|left| left + i64::from(**jitter) >= 0)
    };
    seen.late_by_jitter += streams.iter().zip(&ticks.jitters).filter(by_jitter).count();
    seen.no_bound += streams.iter().filter(|row| row.delivery.is_none()).count();
    seen.rounded += usize::from(!list(&said, "rounded")?.is_empty());
    before_holds(case, &said)?;
    plain_holds(case, admitted)
}

/// With a recorder, the line without it is listed too.
fn before_holds(case: &Case, said: &Json) -> Held {
    if case.recorder.is_none() {
        return Ok(());
    }
    let before = ticks(&case.line, case.line.nodes.len() - 1);
    let sheet = before.sheet().map_err(|refusal| refusal.to_string())?;
    streams_hold(list(said, "before")?, &case.line, &before, &sheet).map(|_| ())
}

/// The answer in words begins with yes or no, and has the same status.
fn plain_holds(case: &Case, admitted: bool) -> Held {
    let ran = case.ask(&["check", "-"]);
    equal("status of check in words", ran.status, u8::from(!admitted))?;
    let first: &[u8] = if admitted { b"Yes: " } else { b"No: " };
    holds("the first word of check", ran.out.starts_with(first))
}

/// The least budgets are the library's, also where the file has none.
fn budgets_hold(case: &Case, ticks: &Ticks, seen: &mut Seen) -> Held {
    let least = ticks.least_budgets();
    seen.no_budgets += usize::from(least.is_err());
    for (of_file, text_of) in [(true, &case.text), (false, &case.bare)] {
        let (status, said) = case.ask_json(text_of, &["budgets", "-"])?;
        equal("status of budgets", status, u8::from(least.is_err()))?;
        let late = least
            .as_ref()
            .err()
            .map(|&node| &case.line.nodes[node as usize - 1].name);
        equal(
            "late node",
            said.get("late_node").and_then(Json::text),
            late.map(String::as_str),
        )?;
        let rows = list(&said, "nodes")?;
        equal("number of nodes", rows.len(), case.line.nodes.len())?;
        for (at, (row, node)) in rows.iter().zip(&case.line.nodes).enumerate() {
            let own = of_file || case.recorder.is_some() && at + 1 == rows.len();
            equal("node", text(row, "node")?, &node.name)?;
            equal(
                "budget",
                optional(row, "budget")?,
                own.then_some(node.budget.into()),
            )?;
            equal(
                "least",
                optional(row, "least")?,
                least.as_ref().ok().map(|row| row[at]),
            )?;
        }
    }
    Ok(())
}

/// A file with the least budgets is there exactly if there are such budgets; it
/// makes the words of the same tables with them, and is admitted.
fn written_holds(case: &Case, ticks: &Ticks, seen: &mut Seen) -> Held {
    let new = case.file("new.txt");
    let _ = fs::remove_file(&new);
    case.ask_about(&case.bare, &["budgets", "-", "--write", &new]);
    let Ok(least) = ticks.least_budgets() else {
        return holds("budgets are written", !Path::new(&new).exists());
    };
    let mut fitted = ticks.clone();
    fitted.budgets = least.iter().map(|&budget| budget as u32).collect();
    let sheet = fitted.sheet().map_err(|refusal| refusal.to_string())?;
    seen.budgets_written += 1;
    equal(
        "words of the new file",
        run(&["words", &new], &[]).out,
        to_bytes(&sheet.words),
    )?;
    equal(
        "check of the new file",
        run(&["check", &new], &[]).status,
        0,
    )
}

/// Begins, turns, listed waits and records of a generated log are the library's.
fn replay_holds(
    case: &Case,
    ticks: &Ticks,
    sheet: &Sheet,
    random: &mut Random,
    seen: &mut Seen,
) -> Held {
    let log = releases(random, &case.line, ticks, sheet);
    let file = case.put("log.csv", &log.text);
    let until = format!("{}ticks", log.horizon);
    let (status, said) = case.ask_json(&case.text, &["replay", "-", &file, "--until", &until])?;
    let outcome = messages_hold(&said, &case.line, ticks, sheet, &log)?;
    seen.replayed += 1;
    seen.waited_too_long += usize::from(outcome.over);
    seen.recorded_too_long += usize::from(outcome.recorded);
    seen.unlisted += usize::from(outcome.unlisted);
    let no = outcome.over || outcome.unlisted;
    equal(
        "answer of replay",
        text(&said, "answer")?,
        if no { "no" } else { "yes" },
    )?;
    equal("status of replay", status, u8::from(no))
}

/// A refused line: the library's own refusal is among those listed.
fn refused_holds(case: &Case, expected: u32) -> Held {
    for command in ["check", "budgets"] {
        let (status, said) = case.ask_json(&case.text, &[command, "-"])?;
        equal("status of a refused line", status, 1)?;
        equal("answer about it", text(&said, "answer")?, "refused")?;
        let rows = list(&said, "refusals")?.iter();
        let numbers: Result<Vec<i64>, String> = rows.map(|row| number(row, "number")).collect();
        holds(
            "the library's refusal is listed",
            numbers?.contains(&expected.into()),
        )?;
    }
    equal("status of its words", case.ask(&["words", "-"]).status, 1)
}

/// A line whose ticks would rank streams otherwise than its durations.
fn error_holds(case: &Case) -> Held {
    let (status, said) = case.ask_json(&case.text, &["check", "-"])?;
    equal("status of a line in disorder", status, 2)?;
    equal("answer about it", text(&said, "answer")?, "error")?;
    holds("an error is listed", !list(&said, "errors")?.is_empty())
}

fn case_holds(case: &Case, random: &mut Random, seen: &mut Seen) -> Held {
    if let Some(text) = &case.recorder {
        case.put("recorder.txt", text);
        seen.with_recorder += 1;
    }
    seen.in_time_units += usize::from(case.line.tick.is_some());
    if !case.line.nodes.iter().all(order_kept) {
        seen.order_lost += 1;
        return error_holds(case);
    }
    let ticks = ticks(&case.line, case.line.nodes.len());
    let sheet = match ticks.sheet() {
        Ok(sheet) => sheet,
        Err(refusal) => {
            seen.refused += 1;
            return refused_holds(case, refusal.number());
        }
    };
    words_hold(case, &sheet)?;
    check_holds(case, &ticks, &sheet, seen)?;
    budgets_hold(case, &ticks, seen)?;
    if random.one_in(4) {
        written_holds(case, &ticks, seen)?;
        replay_holds(case, &ticks, &sheet, random, seen)?;
    }
    Ok(())
}

#[test]
fn generated_lines_get_the_answers_of_the_library() {
    let folder = Path::new(env!("CARGO_TARGET_TMPDIR")).join("generated");
    fs::create_dir_all(&folder).unwrap();
    let mut random = Random::new(20_261_117);
    let mut seen = Seen::default();
    for number in 0..CASES {
        let case = Case::new(&mut random, &folder);
        let held = case_holds(&case, &mut random, &mut seen);
        let show = |wrong| panic!("case {number}: {wrong}\n{}\n{:?}", case.text, case.recorder);
        held.unwrap_or_else(show);
    }
    println!("{seen:?}");
    assert!(
        seen.yes > 2_000 && seen.no > 2_000 && seen.refused > 1_000,
        "{seen:?}"
    );
    assert!(
        seen.with_recorder > 500 && seen.in_time_units > 4_000 && seen.rounded > 500,
        "{seen:?}"
    );
    assert!(
        seen.jitters > 5_000 && seen.late_by_jitter > 500,
        "{seen:?}"
    );
    assert!(
        seen.order_lost > 100 && seen.no_bound > 500 && seen.no_budgets > 500,
        "{seen:?}"
    );
    assert!(
        seen.replayed > 1_000
            && seen.waited_too_long > 100
            && seen.recorded_too_long > 100
            && seen.unlisted > 100
            && seen.budgets_written > 500,
        "{seen:?}"
    );
}
