//! The search that jumps answers as the one that does not, and each wrong jump
//! makes its error and is right where that plays no part.

mod common;

use common::*;
use peer::generate::{case, named, Case};
use peer::stats::{late_name, LATE_NAMES};
use peer::{admit, broken, check_sheet, one_stream};

const TICKS: u32 = 1_000_000_000;

const JUMPS: [(&str, Admit); 5] = [
    ("too far", broken::admit_jumping_too_far),
    ("rates rounded up", broken::admit_rounding_rates_up),
    ("every place taken", broken::admit_with_every_place_taken),
    ("counted twice", broken::admit_counting_fast_twice),
    ("over jitters", broken::admit_jumping_over_jitters),
];

/// What was compared.
#[derive(Default, Debug)]
struct Compared {
    all: u32,
    /// J over 64, over 1,000 and over 10,000.
    found: [u32; 3],
    /// By the reason.
    late: [u32; 3],
}

impl Compared {
    /// Asks both searches about every stream of a valid sheet.
    fn add(&mut self, sheet: &[u32]) {
        for (node, streams) in (1..).zip(bodies(sheet)) {
            for stream in 1..=streams.len() as u32 {
                let given = one_stream(sheet, node, stream);
                let jumping = broken::one_stream_jumping(sheet, node, stream);
                assert_eq!(jumping, given, "{node} {stream} of {sheet:?}");
                self.all += 1;
                if given.number == 0 {
                    let over = [64, 1_000, 10_000].map(|least| u32::from(given.third > least));
                    (0..3).for_each(|place| self.found[place] += over[place]);
                } else {
                    let reason = late_name(sheet, node, stream);
                    let place = LATE_NAMES.iter().position(|name| Some(*name) == reason);
                    self.late[place.unwrap()] += 1;
                }
            }
        }
    }
}

#[test]
fn the_search_that_jumps_is_right_on_generated_cases() {
    let mut compared = Compared::default();
    for index in 0..6_000 {
        let Case {
            sheet,
            node,
            stream,
            ..
        } = case(21, index);
        let given = one_stream(&sheet, node, stream);
        assert_eq!(broken::one_stream_jumping(&sheet, node, stream), given);
        if check_sheet(&sheet).number == 0 {
            compared.add(&sheet);
        }
    }
    let Compared { all, found, late } = compared;
    assert!(all > 50_000, "{all}");
    assert!(
        found[0] > 500 && found[1] > 150 && found[2] > 20,
        "{found:?}"
    );
    assert!(late.iter().all(|&times| times > 100), "{late:?}");
}

/// The longest searches of all are left to the release build.
#[test]
#[cfg(not(debug_assertions))]
fn the_search_that_jumps_is_right_on_named_cases() {
    let mut compared = Compared::default();
    for (_, Case { sheet, .. }) in named() {
        if check_sheet(&sheet).number == 0 {
            compared.add(&sheet);
        }
    }
    let Compared { found, late, .. } = compared;
    assert!(found[2] >= 3, "{found:?}");
    assert!(late.iter().all(|&times| times >= 4), "{late:?}");
}

/// A cycle of 17 ticks, and budget 1 for the node of these streams.
fn streams(streams: &[(u32, u32)]) -> Vec<u32> {
    sheet(5, 1, &[(1, streams), (2, &[])])
}

#[test]
fn too_far() {
    let entry = broken::admit_jumping_too_far;
    assert_eq!(waits(admit, &SHEET_A, 3).1, [16, 33, 16]);
    assert_eq!(waits(entry, &SHEET_A, 3).1, [16, 50, 16]);
    // J is 2, and the deadline of 44 ends the search there.
    let late = sheet_a_with(&[(10, 40), (12, 60), (13, 44)]);
    assert_eq!(waits(admit, &late, 3).1, [16, 33, 16]);
    assert_eq!(waits(entry, &late, 3), (answer(7, 1, 2), vec![OLD; 3]));
}

#[test]
fn rates_rounded_up() {
    let entry = broken::admit_rounding_rates_up;
    // 17 / 30 and 17 / 60 are 580.3 and 290.1 parts of 1,024.
    let right = streams(&[(30, 22), (60, 60), (TICKS, TICKS)]);
    assert_eq!(waits(admit, &right, 3).0, answer(0, 3, 17));
    assert_eq!(waits(entry, &right, 3), waits(admit, &right, 3));
    // 257 / 258 and 257 / 67,000 are 1,020.03 and 3.93.
    let nearly = [(258, 258), (67_000, 67_000), (TICKS, TICKS)];
    let mut nodes = vec![(16, &[][..]); 16];
    nodes[0] = (1, &nearly);
    let nearly = sheet(1, 1, &nodes);
    let listed = vec![256, 258 * 257 - 1, 25_026 * 257 - 1];
    assert_eq!(waits(admit, &nearly, 3), (answer(0, 3, 257), listed));
    assert_eq!(waits(entry, &nearly, 3), (answer(7, 1, 3), vec![OLD; 3]));
}

#[test]
fn every_place_taken() {
    let entry = broken::admit_with_every_place_taken;
    // Five releases of those above come in five cycles, and six in six.
    let taken = streams(&[(40, 40), (50, 50), (1_000, 1_000)]);
    assert_eq!(waits(admit, &taken, 3).1, [16, 33, 118]);
    assert_eq!(waits(entry, &taken, 3).1, [16, 33, 89]);
    assert_eq!(waits(entry, &SHEET_A, 3), waits(admit, &SHEET_A, 3));
    // The first J is not jumped to, so that P7's second stream is right.
    let p7 = p7_just_in_time();
    assert_eq!(waits(entry, &p7, 2), waits(admit, &p7, 2));
}

#[test]
fn counted_twice() {
    let entry = broken::admit_counting_fast_twice;
    // 1 + 1 by what 17 / 40 leaves is over 3, and J 3 is the last in time.
    assert_eq!(waits(entry, &SHEET_A, 3), (answer(7, 1, 2), vec![OLD; 3]));
    let longer = sheet_a_with(&[(12, 100), (13, 100)]);
    assert_eq!(waits(admit, &longer, 3).1, [16, 33, 16]);
    assert_eq!(waits(entry, &longer, 3).1, [16, 67, 16]);
}

/// A jitter of 7 brings one release more in two cycles, but not in three.
#[test]
fn over_jitters() {
    let entry = broken::admit_jumping_over_jitters;
    let sheet = |jitter: u32| sheet_a_with(&[(11, jitter), (12, 200), (13, 200)]);
    assert_eq!(waits(admit, &sheet(7), 3).1, [16, 50, 16]);
    // 1 + 1 + 7 / 40 by what 17 / 40 leaves is over 3.
    assert_eq!(waits(entry, &sheet(7), 3).1, [16, 67, 16]);
    assert_eq!(waits(entry, &sheet(0), 3), waits(admit, &sheet(0), 3));
}

#[test]
fn right_without_a_jump() {
    let p8 = with(&SHEET_P7, &[(6, 9), (7, 9)]);
    let bad = sheet_a_with(&[(10, 41)]);
    let first_cycle = sheet(5, 1, &[(2, &[(40, 40), (60, 60)]), (1, &[(30, 30)])]);
    for (name, entry) in JUMPS {
        for sheet in [&first_cycle[..], &p8, &bad] {
            assert_eq!(waits(entry, sheet, 3), waits(admit, sheet, 3), "{name}");
        }
        let short = waits(entry, &SHEET_A, 2);
        assert_eq!(short, waits(admit, &SHEET_A, 2), "{name}");
    }
}

#[test]
fn wrong_jumps_on_generated_cases() {
    let least = [250, 25, 60, 250, 30];
    for ((name, entry), least) in JUMPS.into_iter().zip(least) {
        let cases = count(|case| admits_differ(entry, case));
        assert!(cases >= least, "{name}: {cases}");
    }
}
