//! Compares the proved library and programs with the second program, on
//! generated cases and on named ones, and shows that the comparison catches
//! broken variants of the second program.

mod broken;
mod budgets;
mod edits;
mod far;
mod pieces;
mod programs;
mod records;
mod step;
mod tally;
mod writer;

use std::io;
use std::process::ExitCode;

use budgets::compare_budgets;
use edits::{compare_alike, compare_edits};
use peer::generate::{alike_case, budgets_case, case, edits_case};
use peer::generate::{made_up_case, pieces_case, records_case, tables_case};
use peer::generate::{named, named_alike, named_budgets, named_edits};
use peer::generate::{named_pieces, named_records, named_tables};
use peer::generate::{AlikeCase, BudgetsCase, Case, EditsCase};
use peer::generate::{PiecesCase, RecordsCase, TablesCase};
use peer::read_tables;
use peer::stats::{
    event_names, found_names, jitter_names, kinds_of_jitters, late_name, sheet_fault,
};
use pieces::compare_pieces;
use programs::{Programs, CHANGES};
use records::compare_records;
use step::{compare_step, compare_steps};
use tally::{expected_edits, expected_pieces, expected_records, jitters, searches};
use tally::{Outcome, Tally, EXPECTED, FAR};
use writer::{compare_tables, compare_written_again};

const USAGE: &str =
    "usage: compare SEED COUNT (cases 0 to COUNT - 1 of all kinds and the named ones)
       compare SEED INDEX one (one case of each kind again)
       compare SEED INDEX named (one named case again, whatever the seed)
       compare SEED INDEX named tables (one of the named tables again)
       compare SEED INDEX named budgets (one of the named budgets again)
       compare SEED INDEX named pieces (one of the named replays by pieces again)
       compare SEED INDEX named records (one of the named replays with records again)
       compare SEED INDEX named edits (one of the named edits again)
       compare SEED INDEX named alike (one of the named pairs of sheets again)
       compare SEED COUNT broken (against the broken variants)
       compare SEED INDEX broken one (one case of each kind again, against those)
";

/// Starting a program takes long, so only one case in so many is run with it,
/// and so many of those that have far numbers.
const PROGRAMS_EVERY: u64 = 100;
const FAR_PROGRAMS: u64 = 400;

/// So many generated cases must have all far numbers, all long searches, all
/// kinds of rows, of jitters, of pieces, of lists and of edits among them; fewer
/// may leave them to the named cases.
const FAR_CASES: u64 = 5_000;

/// Runs an entry of the second program on a copy of the room.
fn second(room: &[u32], mut entry: impl FnMut(&mut [u32]) -> peer::Answer) -> Outcome {
    let mut words = room.to_vec();
    let a = entry(&mut words);
    Outcome {
        answer: (a.number, a.second, a.third),
        left: words,
    }
}

/// Runs an entry of the proved library on a copy of the room.
fn proved(room: &[u32], mut entry: impl FnMut(&mut [u32]) -> wistorvan::raw::Answer) -> Outcome {
    let mut words = room.to_vec();
    let a = entry(&mut words);
    Outcome {
        answer: (a.number, a.second, a.third),
        left: words,
    }
}

/// All entries that take a sheet, and the writer on the case's own if it is
/// valid; whether what the programs write has far numbers.
fn compare_case(tally: &mut Tally, name: &str, case: &Case) -> bool {
    tally.new_case();
    compare_sheet(tally, name, case);
    compare_one_stream(tally, name, case);
    let far_waits = compare_admit(tally, name, case);
    let (whole, far_replay) = compare_replay(tally, name, case);
    compare_step(tally, name, case);
    compare_steps(tally, name, case, &whole);
    compare_written_again(tally, name, case);
    far_waits || far_replay
}

fn compare_sheet(tally: &mut Tally, name: &str, case: &Case) {
    let mine = proved(&[], |_| wistorvan::raw::check_sheet(&case.sheet));
    let other = second(&[], |_| peer::check_sheet(&case.sheet));
    tally.compare("sheet", name, case, &mine, &other);
    match (other.answer, read_tables(&case.sheet)) {
        (_, Ok(tables)) => tally.named("sheet", 0, kinds_of_jitters(&tables)),
        ((5, node, stream), _) => tally.named("sheet", 5, [sheet_fault(&case.sheet, node, stream)]),
        _ => {}
    }
}

fn compare_one_stream(tally: &mut Tally, name: &str, case: &Case) {
    let (sheet, node, stream) = (&case.sheet, case.node, case.stream);
    let mine = proved(&[], |_| wistorvan::raw::one_stream(sheet, node, stream));
    let other = second(&[], |_| peer::one_stream(sheet, node, stream));
    tally.compare("one stream", name, case, &mine, &other);
    match other.answer {
        (0, wait, cycles) => {
            tally.reached("one stream", &[far::wait(&[wait])]);
            tally.named("one stream", 0, found_names(cycles.into()));
        }
        (7, ..) => tally.named("one stream", 7, late_name(sheet, node, stream)),
        _ => {}
    }
    let names = jitter_names(sheet, node, stream);
    tally.named("one stream", other.answer.0, names);
}

/// Answers whether a wait is far.
fn compare_admit(tally: &mut Tally, name: &str, case: &Case) -> bool {
    let mine = proved(&case.room, |room| wistorvan::raw::admit(&case.sheet, room));
    let other = second(&case.room, |room| peer::admit(&case.sheet, room));
    tally.compare("admit", name, case, &mine, &other);
    match other.answer {
        (0, streams, cycle) => {
            let waits = &other.left[..streams as usize];
            if let Some(longest) = waits.iter().map(|wait| (wait + 1) / cycle).max() {
                tally.named("admit", 0, found_names(longest.into()));
            }
            tally.reached("admit", &[far::wait(waits)])
        }
        (7, node, stream) => {
            tally.named("admit", 7, late_name(&case.sheet, node, stream));
            false
        }
        _ => false,
    }
}

/// Answers what the proved replay gives, and whether that is far.
fn compare_replay(tally: &mut Tally, name: &str, case: &Case) -> (Outcome, bool) {
    let (sheet, log) = (&case.sheet, &case.log);
    let whole = proved(&case.room, |room| {
        wistorvan::raw::replay(sheet, log, case.horizon, room)
    });
    let other = second(&case.room, |room| {
        peer::replay(sheet, log, case.horizon, room)
    });
    tally.compare("replay", name, case, &whole, &other);
    let far = match other.answer {
        (0, turns, _) => {
            tally.named("replay", 0, event_names(case));
            let begins = &other.left[..log.len() / 2];
            tally.reached("replay", &[far::begin(begins), far::turns(turns)])
        }
        _ => false,
    };
    (whole, far)
}

/// The generated cases of all kinds and the named ones, some of the cases with
/// the programs.
fn run_all(seed: u64, count: u64) -> io::Result<Tally> {
    let (programs, mut tally) = (Programs::new()?, Tally::default());
    let mut far_left = FAR_PROGRAMS;
    for index in 0..count {
        let name = format!("case {index}: `compare {seed} {index} one`");
        let case = case(seed, index);
        let far = compare_case(&mut tally, &name, &case);
        compare_tables(&mut tally, &name, &tables_case(seed, index));
        compare_budgets(&mut tally, &name, &budgets_case(seed, index));
        compare_pieces(&mut tally, &name, &pieces_case(seed, index));
        compare_pieces(&mut tally, &name, &made_up_case(seed, index));
        compare_records(&mut tally, &name, &records_case(seed, index));
        compare_edits(&mut tally, &name, &edits_case(seed, index));
        compare_alike(&mut tally, &name, &alike_case(seed, index));
        if index % PROGRAMS_EVERY == 0 {
            let change = (index / PROGRAMS_EVERY) as usize % CHANGES.len();
            programs.compare(&mut tally, &name, &case, &CHANGES[change..=change])?;
        } else if far && far_left > 0 {
            far_left -= 1;
            programs.compare(&mut tally, &name, &case, &[])?;
        }
    }
    // By the generated cases alone, where there are enough.
    if count >= FAR_CASES {
        tally.expect(&FAR);
        tally.expect(&searches());
        tally.expect(&jitters());
        tally.expect(&expected_pieces());
        tally.expect(&expected_records());
        tally.expect(&expected_edits());
    }
    for (index, (name, case)) in named().iter().enumerate() {
        let name = format!("{name}: `compare {seed} {index} named`");
        run_one(&programs, &mut tally, &name, case)?;
    }
    for (index, (name, tables)) in named_tables().iter().enumerate() {
        let name = format!("{name}: `compare {seed} {index} named tables`");
        compare_tables(&mut tally, &name, tables);
    }
    for (index, (name, budgets)) in named_budgets().iter().enumerate() {
        let name = format!("{name}: `compare {seed} {index} named budgets`");
        compare_budgets(&mut tally, &name, budgets);
    }
    for (index, (name, pieces)) in named_pieces().iter().enumerate() {
        let name = format!("{name}: `compare {seed} {index} named pieces`");
        compare_pieces(&mut tally, &name, pieces);
    }
    for (index, (name, records)) in named_records().iter().enumerate() {
        let name = format!("{name}: `compare {seed} {index} named records`");
        compare_records(&mut tally, &name, records);
    }
    for (index, (name, edits)) in named_edits().iter().enumerate() {
        let name = format!("{name}: `compare {seed} {index} named edits`");
        compare_edits(&mut tally, &name, edits);
    }
    for (index, (name, alike)) in named_alike().iter().enumerate() {
        let name = format!("{name}: `compare {seed} {index} named alike`");
        compare_alike(&mut tally, &name, alike);
    }
    tally.expect(&FAR);
    tally.expect(&searches());
    tally.expect(&jitters());
    tally.expect(&EXPECTED);
    Ok(tally)
}

/// One case with both programs and all changes of their files.
fn run_one(programs: &Programs, tally: &mut Tally, name: &str, case: &Case) -> io::Result<()> {
    compare_case(tally, name, case);
    programs.compare(tally, name, case, &CHANGES)
}

/// Cases to be run again, of the kinds that are given.
#[derive(Default)]
struct Again {
    case: Option<Case>,
    tables: Option<TablesCase>,
    budgets: Option<BudgetsCase>,
    pieces: Option<PiecesCase>,
    made_up: Option<PiecesCase>,
    records: Option<RecordsCase>,
    edits: Option<EditsCase>,
    alike: Option<AlikeCase>,
}

impl Again {
    /// A case of each kind.
    fn all(seed: u64, index: u64) -> Again {
        Again {
            case: Some(case(seed, index)),
            tables: Some(tables_case(seed, index)),
            budgets: Some(budgets_case(seed, index)),
            pieces: Some(pieces_case(seed, index)),
            made_up: Some(made_up_case(seed, index)),
            records: Some(records_case(seed, index)),
            edits: Some(edits_case(seed, index)),
            alike: Some(alike_case(seed, index)),
        }
    }

    /// One of the named cases of a kind, with its name.
    fn named(kind: &[&str], index: usize) -> Option<(&'static str, Again)> {
        let mut again = Again::default();
        let name = match kind {
            [] => pick(named(), index, &mut again.case)?,
            ["tables"] => pick(named_tables(), index, &mut again.tables)?,
            ["budgets"] => pick(named_budgets(), index, &mut again.budgets)?,
            ["pieces"] => pick(named_pieces(), index, &mut again.pieces)?,
            ["records"] => pick(named_records(), index, &mut again.records)?,
            ["edits"] => pick(named_edits(), index, &mut again.edits)?,
            ["alike"] => pick(named_alike(), index, &mut again.alike)?,
            _ => return None,
        };
        Some((name, again))
    }

    /// Whether all of it is as it should be.
    fn run(&self, name: &str) -> io::Result<bool> {
        let mut tally = Tally::default();
        if let Some(case) = &self.case {
            run_one(&Programs::new()?, &mut tally, name, case)?;
        }
        if let Some(tables) = &self.tables {
            compare_tables(&mut tally, name, tables);
        }
        if let Some(budgets) = &self.budgets {
            compare_budgets(&mut tally, name, budgets);
        }
        for pieces in [&self.pieces, &self.made_up].into_iter().flatten() {
            compare_pieces(&mut tally, name, pieces);
        }
        if let Some(records) = &self.records {
            compare_records(&mut tally, name, records);
        }
        if let Some(edits) = &self.edits {
            compare_edits(&mut tally, name, edits);
        }
        if let Some(alike) = &self.alike {
            compare_alike(&mut tally, name, alike);
        }
        Ok(tally.report())
    }
}

/// Puts one of some named cases into its place, and answers its name.
fn pick<C>(
    cases: Vec<(&'static str, C)>,
    index: usize,
    place: &mut Option<C>,
) -> Option<&'static str> {
    let (name, case) = cases.into_iter().nth(index)?;
    *place = Some(case);
    Some(name)
}

/// Whether all is as it should be, or None if the arguments make no sense.
fn run(arguments: &[&str]) -> Option<io::Result<bool>> {
    let seed: u64 = arguments.first()?.parse().ok()?;
    let number: u64 = arguments.get(1)?.parse().ok()?;
    let index = usize::try_from(number).ok()?;
    Some(match &arguments[2..] {
        [] => run_all(seed, number).map(|tally| tally.report()),
        ["one"] => Again::all(seed, number).run("that case"),
        ["named", kind @ ..] => {
            let (name, again) = Again::named(kind, index)?;
            again.run(name)
        }
        ["broken"] => Ok(broken::run(seed, number)),
        ["broken", "one"] => Ok(broken::one(seed, number)),
        _ => return None,
    })
}

fn main() -> ExitCode {
    let arguments: Vec<String> = std::env::args().skip(1).collect();
    let arguments: Vec<&str> = arguments.iter().map(String::as_str).collect();
    match run(&arguments) {
        None => {
            eprint!("{USAGE}");
            ExitCode::from(2)
        }
        Some(Err(error)) => {
            eprintln!(
                "crates/admit/out/admit or crates/replay/out/replay could not be run: {error}"
            );
            ExitCode::from(3)
        }
        Some(Ok(true)) => ExitCode::SUCCESS,
        Some(Ok(false)) => ExitCode::FAILURE,
    }
}
