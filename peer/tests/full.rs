//! Nodes that the streams above one nearly fill, fill exactly or overfill: the
//! generated ones, the named ones, and the names that tell them apart.

mod common;

use common::*;
use peer::generate::Case;
use peer::one_stream;
use peer::stats::{found_names, gather, late_name, FOUND_NAMES, LATE_NAMES};

const TICKS: u32 = 1_000_000_000;

/// Shares of 5,000 cases.
#[test]
fn cases_spread_over_long_searches() {
    let figures = gather(8, 5_000);
    let least = |kind: &str, shares: [u64; 4]| {
        for (name, share) in FOUND_NAMES.into_iter().zip(shares) {
            least(&figures, &[&format!("{kind}, {name}")], share);
        }
    };
    least("one stream 0", [30, 80, 25, 2]);
    least("stream just in time", [150, 250, 60, 3]);
    least("stream late by one tick", [12, 30, 8, 1]);
}

#[test]
fn cases_spread_over_the_reasons_why_streams_are_late() {
    let figures = gather(8, 5_000);
    for (name, share) in LATE_NAMES.into_iter().zip([200, 20, 200]) {
        least(&figures, &[&format!("one stream 7, {name}")], share);
    }
    let filled = format!("one stream 7, {}", LATE_NAMES[1]);
    for kind in ["by binary fractions", "by other fractions"] {
        least(&figures, &[&format!("{filled} {kind}")], 8);
    }
}

#[test]
fn long_searches_spread_over_nodes_and_budgets() {
    let figures = gather(9, 10_000);
    for number in 1..=16 {
        let nodes = format!("one stream 0, J over 64, {number:2} nodes");
        let budget = format!("one stream 0, J over 64, budget {number:2}");
        least(&figures, &[&nodes, &budget], 1);
    }
}

#[test]
fn names_of_long_searches() {
    let names = |cycles: u64| found_names(cycles).collect::<Vec<_>>();
    let [some, many, thousands, far] = FOUND_NAMES;
    for (ends, expected) in [
        ([1, 16], &[][..]),
        ([17, 64], &[some]),
        ([65, 1_000], &[many]),
        ([1_001, 10_000], &[many, thousands]),
        ([10_001, 1_000_000_000], &[many, thousands, far]),
    ] {
        assert_eq!(ends.map(names), [expected, expected], "{ends:?}");
    }
}

/// One node in which the last stream is below streams of these periods.
fn below(ticks: [u32; 2], budget: u32, above: &[u32]) -> Vec<u32> {
    let mut streams: Vec<(u32, u32)> = above.iter().map(|&period| (period, 1)).collect();
    streams.push((TICKS, 2));
    sheet(ticks[0], ticks[1], &[(budget, &streams)])
}

fn reason(ticks: [u32; 2], budget: u32, above: &[u32]) -> &'static str {
    let number = above.len() as u32 + 1;
    late_name(&below(ticks, budget, above), 1, number).unwrap()
}

/// The sum of C / period by the product of all periods, against the budget.
fn reason_by_product(cycle: u32, budget: u32, above: &[u32]) -> &'static str {
    let product: u64 = above.iter().map(|&period| u64::from(period)).product();
    let parts = above.iter().map(|&period| product / u64::from(period));
    let taken = u64::from(cycle) * parts.sum::<u64>();
    LATE_NAMES[match u64::from(budget) * product {
        whole if taken < whole => 0,
        whole if taken == whole => 1,
        _ => 2,
    }]
}

#[test]
fn reasons_of_small_numbers() {
    let periods = [12, 16, 18, 20, 24, 30, 36, 40, 48, 60, 72, 84];
    let mut times = [0; 3];
    for number in 0..12 * 12 * 12 * 12 * 2 {
        let digits = [1, 12, 144, 1_728].map(|divisor| number / divisor % 12);
        let above = digits.map(|digit| periods[digit]);
        // A cycle of 12 ticks, for both budgets.
        let (slot, budget) = [(7, 1), (2, 2)][number / 20_736];
        let expected = reason_by_product(12, budget, &above);
        assert_eq!(reason([5, slot], budget, &above), expected, "{above:?}");
        let which = LATE_NAMES.iter().position(|name| *name == expected);
        times[which.unwrap()] += 1;
    }
    assert!(times.iter().all(|&times| times >= 200), "{times:?}");
}

/// A tick of one period decides, where the sum is next to the budget.
#[test]
fn reasons_one_tick_apart() {
    let [past, filled, overfilled] = LATE_NAMES;
    for (ticks, budget, above, one) in [
        // 1/3 + 1/7 + 1/43 + 1/1807 is 1/2 less 1/3263442; the cycle is 2.
        ([1, 1], 1, &[3, 7, 43, 1_807][..], 3_263_442),
        ([5, 1], 1, &[12, 18], 36),
        ([10_000, 10_000], 16, &[159_375; 14], 159_375),
        // 1/2 + 1/3 + 1/7 + 1/43 + 1/1807 is 1 less 1/3263442.
        ([99, 1], 1, &[200, 300, 700, 4_300, 180_700], 326_344_200),
    ] {
        let reason = |one: u32| reason(ticks, budget, &[above, &[one]].concat());
        assert_eq!(reason(one + 1), past, "{above:?}");
        assert_eq!(reason(one), filled, "{above:?}");
        assert_eq!(reason(one - 1), overfilled, "{above:?}");
    }
    // The greatest numbers.
    assert_eq!(reason([1, 1], 1, &[TICKS; 15]), past);
    assert_eq!(reason([10_000, 10_000], 16, &[1; 15]), overfilled);
}

#[test]
fn no_reason_without_the_stream() {
    let sheet = below([5, 1], 1, &[12]);
    assert_eq!(late_name(&sheet, 1, 2), Some(LATE_NAMES[0]));
    for (node, stream) in [(0, 1), (2, 1), (1, 0), (1, 3)] {
        assert_eq!(late_name(&sheet, node, stream), None);
    }
    assert_eq!(late_name(&sheet[1..], 1, 2), None);
}

#[test]
fn named_full_nodes() {
    let [past, filled, overfilled] = LATE_NAMES;
    for (name, expected) in [
        ("a half, a third and a sixth, full", filled),
        ("a half, a quarter and two eighths, full", filled),
        ("one stream, full", filled),
        ("a half, a third and nearly a sixth, late by one", past),
        ("slow streams in a node nearly full, late by one", past),
        ("fifteen equal streams, full", filled),
        ("fifteen equal streams but for a tick, overfull", overfilled),
        ("fifteen equal streams but for a tick, late by one", past),
        ("a far J with all in time, late by one", past),
    ] {
        let Case {
            sheet,
            node,
            stream,
            ..
        } = named_case(name);
        assert_eq!(late_name(&sheet, node, stream), Some(expected), "{name}");
        let given = one_stream(&sheet, node, stream);
        assert_eq!(given, answer(7, node, stream), "{name}");
        assert_admit_refused(&sheet, given);
    }
}

#[test]
fn named_long_searches_in_nearly_full_nodes() {
    for (name, wait, cycles) in [
        (
            "a half, a third and nearly a sixth, just in time",
            222 * 6 - 1,
            222,
        ),
        (
            "slow streams in a node nearly full, just in time",
            888 * 6 - 1,
            888,
        ),
        (
            "fifteen equal streams but for a tick, just in time",
            90 * 96 - 1 + 15 * 5,
            90,
        ),
        ("a J of twenty", 20 * 19 - 1, 20),
        (
            "a far J with all in time, just in time",
            25_026 * 257 - 1,
            25_026,
        ),
    ] {
        let case = named_case(name);
        let given = one_stream(&case.sheet, case.node, case.stream);
        assert_eq!(given, answer(0, wait, cycles), "{name}");
    }
    let far = named_case("a far J with all in time, just in time").sheet;
    let waits = vec![256, 258 * 257 - 1, 25_026 * 257 - 1];
    assert_eq!(admitted(&far, 3), (answer(0, 3, 257), waits));
}
