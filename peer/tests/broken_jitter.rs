//! Each wrong use of the jitter makes its error, and is right where that plays
//! no part.

mod common;

use common::*;
use peer::generate::{budgets_case, tables_case, Case, TablesCase};
use peer::{admit, broken, check_sheet, find_budgets, replay, write_sheet, Tables};

const ADMITS: [(&str, Admit); 8] = [
    ("to the period", broken::admit_with_jitter_to_the_period),
    (
        "below the deadline",
        broken::admit_with_jitter_below_the_deadline,
    ),
    ("own above", broken::admit_with_own_jitter_above),
    ("none above", broken::admit_without_jitter_above),
    ("none late", broken::admit_late_without_jitter),
    ("twice late", broken::admit_with_jitter_twice_late),
    ("from the event", broken::admit_waiting_from_the_event),
    ("by slack", broken::admit_ranked_by_slack),
];

const WRITERS: [(&str, Writer); 3] = [
    ("no jitters", broken::write_no_jitters),
    ("any jitters", broken::write_any_jitters),
    ("to the period", broken::write_jitter_to_the_period),
];

/// Sheet A with these jitters.
fn jitters(words: [u32; 3]) -> Vec<u32> {
    sheet_a_with(&[(11, words[0]), (14, words[1]), (17, words[2])])
}

/// The waits of an admission of sheet A with these jitters, or its refusal.
fn listed(entry: Admit, words: [u32; 3]) -> Result<Vec<u32>, (u32, u32, u32)> {
    let (given, room) = waits(entry, &jitters(words), 3);
    match given.number {
        0 => Ok(room),
        number => Err((number, given.second, given.third)),
    }
}

#[test]
fn to_the_period() {
    let entry = broken::admit_with_jitter_to_the_period;
    // As late as any that is as long as the deadline.
    assert_eq!(listed(admit, [0, 60, 0]), Err((5, 1, 2)));
    assert_eq!(listed(entry, [0, 60, 0]), Err((7, 1, 2)));
    assert_eq!(listed(entry, [0, 61, 0]), Err((5, 1, 2)));
    assert_eq!(listed(entry, [0, 59, 0]), listed(admit, [0, 59, 0]));
    assert_eq!(listed(entry, [7, 4, 3]), listed(admit, [7, 4, 3]));
}

#[test]
fn below_the_deadline() {
    let entry = broken::admit_with_jitter_below_the_deadline;
    let shorter = |jitter: u32| sheet_a_with(&[(16, 25), (17, jitter)]);
    assert_eq!(waits(admit, &shorter(25), 3).0, answer(7, 2, 1));
    assert_eq!(waits(entry, &shorter(25), 3).0, answer(5, 2, 1));
    assert_eq!(waits(entry, &shorter(24), 3).0, answer(7, 2, 1));
    assert_eq!(listed(entry, [7, 4, 3]), listed(admit, [7, 4, 3]));
}

#[test]
fn own_above() {
    let entry = broken::admit_with_own_jitter_above;
    assert_eq!(listed(admit, [0, 21, 0]), Ok(vec![16, 33, 16]));
    assert_eq!(listed(entry, [0, 21, 0]), Err((7, 1, 2)));
    assert_eq!(listed(entry, [0, 6, 0]), Ok(vec![16, 33, 16]));
    assert_eq!(listed(admit, [7, 0, 0]), Ok(vec![16, 50, 16]));
    assert_eq!(listed(entry, [7, 0, 0]), Ok(vec![16, 33, 16]));
    assert_eq!(listed(entry, [7, 4, 3]), Ok(vec![16, 33, 16]));
    assert_eq!(listed(entry, [0, 0, 3]), listed(admit, [0, 0, 3]));
}

#[test]
fn none_above() {
    let entry = broken::admit_without_jitter_above;
    assert_eq!(listed(entry, [7, 0, 0]), Ok(vec![16, 33, 16]));
    assert_eq!(listed(entry, [7, 5, 0]), Ok(vec![16, 33, 16]));
    for right in [[6, 21, 3], [0, 22, 0], [19, 0, 0]] {
        assert_eq!(listed(entry, right), listed(admit, right));
    }
}

#[test]
fn none_late() {
    let entry = broken::admit_late_without_jitter;
    assert_eq!(listed(entry, [0, 22, 0]), Ok(vec![16, 33, 16]));
    assert_eq!(listed(entry, [39, 0, 29]), Err((7, 1, 2)));
    assert_eq!(listed(entry, [29, 0, 29]), Ok(vec![16, 50, 16]));
    for right in [[18, 4, 3], [0, 21, 0]] {
        assert_eq!(listed(entry, right), listed(admit, right));
    }
}

#[test]
fn twice_late() {
    let entry = broken::admit_with_jitter_twice_late;
    assert_eq!(listed(entry, [0, 11, 0]), Err((7, 1, 2)));
    assert_eq!(listed(entry, [0, 0, 2]), Err((7, 2, 1)));
    for right in [[9, 2, 1], [0, 10, 0], [0, 22, 0]] {
        assert_eq!(listed(entry, right), listed(admit, right));
    }
}

#[test]
fn from_the_event() {
    let entry = broken::admit_waiting_from_the_event;
    assert_eq!(listed(entry, [7, 4, 3]), Ok(vec![23, 54, 19]));
    for right in [[0, 0, 0], [7, 5, 3], [19, 0, 0]] {
        assert_eq!(listed(entry, right), listed(admit, right));
    }
}

#[test]
fn by_slack() {
    let entry = broken::admit_ranked_by_slack;
    let sheet = jittery_sheet(5, 1, &[(1, &[[60, 40, 0], [60, 41, 10]])]);
    assert_eq!(waits(admit, &sheet, 2).1, [5, 11]);
    assert_eq!(waits(entry, &sheet, 2).1, [11, 5]);
    // No less than 0 is left of a deadline, and then the period decides.
    let short = jittery_sheet(5, 1, &[(1, &[[70, 30, 31], [60, 31, 59]])]);
    assert_eq!(waits(entry, &short, 2), waits(admit, &short, 2));
    let replayed = |entry: fn(&[u32], &[u32], u32, &mut [u32]) -> peer::Answer| {
        let mut room = [OLD; 2];
        (entry(&sheet, &[0, 1, 0, 2], 12, &mut room), room)
    };
    assert_eq!(replayed(replay), (answer(0, 2, 12), [0, 6]));
    assert_eq!(
        replayed(broken::replay_ranked_by_slack),
        (answer(0, 2, 12), [6, 0])
    );
}

#[test]
fn right_without_jitter() {
    let p8 = with(&SHEET_P7, &[(6, 9), (7, 9)]);
    let bad = sheet_a_with(&[(10, 41)]);
    for (name, entry) in ADMITS {
        for sheet in [&SHEET_A[..], &SHEET_P7, &p8, &bad, &p7_just_in_time()] {
            assert_eq!(waits(entry, sheet, 3), waits(admit, sheet, 3), "{name}");
        }
        let short = waits(entry, &SHEET_A, 2);
        assert_eq!(short, waits(admit, &SHEET_A, 2), "{name}");
    }
}

fn small_but(change: impl FnOnce(&mut Tables)) -> TablesCase {
    TablesCase {
        tables: tables_a_but(|tables| {
            tables.jitters = vec![1, 2, 3];
            change(tables);
        }),
        room: vec![OLD; 20],
    }
}

#[test]
fn wrong_writers() {
    let case = small_but(|_| {});
    let sheet = [&jitters([1, 2, 3])[..], &[OLD, OLD]].concat();
    let good = (answer(0, 18, 17), sheet.clone());
    assert_eq!(written_by(write_sheet, &case), good);
    let zeros = [&SHEET_A[..], &[OLD, OLD]].concat();
    assert_eq!(
        written_by(broken::write_no_jitters, &case),
        (answer(0, 18, 17), zeros)
    );
    for length in 0..6 {
        let case = small_but(|tables| tables.jitters.resize(length, 9));
        if length != 3 {
            let refused = (answer(4, 0, 0), vec![OLD; 20]);
            assert_eq!(written_by(write_sheet, &case), refused);
            assert_eq!(written_by(broken::write_no_jitters, &case), refused);
        }
        let mut expected = sheet.clone();
        (length..3).for_each(|missing| expected[11 + 3 * missing] = 0);
        let given = written_by(broken::write_any_jitters, &case);
        assert_eq!(given, (answer(0, 18, 17), expected));
    }
    let case = small_but(|tables| tables.jitters[1] = 60);
    let refused = (answer(5, 1, 2), vec![OLD; 20]);
    for (name, writer) in WRITERS {
        let given = written_by(writer, &case);
        match name {
            "to the period" => assert_eq!(given, (answer(0, 18, 17), with(&sheet, &[(14, 60)]))),
            _ => assert_eq!(given, refused),
        }
    }
    let case = small_but(|tables| tables.jitters[1] = 61);
    for (name, writer) in WRITERS {
        assert_eq!(written_by(writer, &case), refused, "{name}");
    }
    let case =
        small_but(|tables| (tables.periods[0], tables.deadlines[0], tables.jitters[0]) = (0, 0, 0));
    let refused = (answer(5, 1, 1), vec![OLD; 20]);
    for (name, writer) in WRITERS {
        assert_eq!(written_by(writer, &case), refused, "{name}");
    }
}

#[test]
fn budgets_without_jitter() {
    let find = broken::find_without_jitter;
    for name in [
        "a jitter of 9 that takes 2",
        "a jitter of 16 above that takes 2",
        "a jitter of 17 that no row allows",
    ] {
        let case = named_budgets_case(name);
        assert_eq!(found_by(find, &case).0, answer(0, 1, 10), "{name}");
        assert_ne!(found_by(find_budgets, &case).0, answer(0, 1, 10), "{name}");
    }
    for name in [
        "a jitter of 8 that 1 allows",
        "one node that needs 2",
        "more only makes it later",
        "a jitter of 60, a short room",
    ] {
        let case = named_budgets_case(name);
        let good = found_by(find_budgets, &case);
        assert_eq!(found_by(find, &case), good, "{name}");
    }
}

/// Whether a valid sheet has no jitter at all.
fn is_steady(sheet: &[u32]) -> bool {
    let mut streams = bodies(sheet).into_iter().flatten();
    streams.all(|[_, _, jitter]| jitter == 0)
}

#[test]
fn wrong_admissions_on_generated_cases() {
    let least = [5, 30, 70, 40, 70, 60, 200, 60];
    for ((name, entry), least) in ADMITS.into_iter().zip(least) {
        let cases = count(|case| {
            let differ = admits_differ(entry, case);
            let valid = check_sheet(&case.sheet).number == 0;
            assert!(!(differ && valid && is_steady(&case.sheet)), "{name}");
            differ
        });
        assert!(cases >= least, "{name}: {cases}");
    }
}

#[test]
fn wrong_replays_on_generated_cases() {
    let differ = |case: &Case| {
        let given = |entry: fn(&[u32], &[u32], u32, &mut [u32]) -> peer::Answer| {
            let mut room = case.room.clone();
            let given = entry(&case.sheet, &case.log, case.horizon, &mut room);
            (given, room)
        };
        given(replay) != given(broken::replay_ranked_by_slack)
    };
    let cases = count(differ);
    assert!(cases >= 30, "{cases}");
}

#[test]
fn wrong_writers_on_generated_tables() {
    let cases: Vec<_> = (0..2_000).map(|index| tables_case(1, index)).collect();
    for ((name, writer), least) in WRITERS.into_iter().zip([700, 12, 6]) {
        let differ = |case: &&TablesCase| written_by(writer, case) != written_by(write_sheet, case);
        let cases = cases.iter().filter(differ).count();
        assert!(cases >= least, "{name}: {cases}");
    }
}

#[test]
fn wrong_budgets_on_generated_cases() {
    let cases = (0..2_000).map(|index| budgets_case(1, index));
    let differing = cases.filter(|case| {
        let find = broken::find_without_jitter;
        found_by(find, case) != found_by(find_budgets, case)
    });
    let differing = differing.count();
    assert!(differing >= 100, "{differing}");
}
