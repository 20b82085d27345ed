//! The search for budgets: rows and refusals on small sheets, worked out by hand.

mod common;

use common::*;
use peer::generate::named_budgets;
use peer::{check_sheet, find_budgets, find_budgets_by_rounds, Answer};

/// One stream a node, with messages and slots of one tick. Served in the first
/// cycle, it is delivered 2n + 1 ticks after its release with all ones, a tick
/// later for each that another node has more, and two for each of its own.
fn single(deadlines: &[u32]) -> Vec<u32> {
    let streams: Vec<[(u32, u32); 1]> = deadlines.iter().map(|&it| [(500, it)]).collect();
    let nodes: Vec<(u32, &[(u32, u32)])> = streams.iter().map(|it| (9, &it[..])).collect();
    sheet(1, 1, &nodes)
}

fn refused(sheet: &[u32]) -> (u32, u32, u32) {
    let Answer {
        number,
        second,
        third,
    } = found(sheet).0;
    (number, second, third)
}

#[test]
fn all_ones_are_enough_for_sheet_a() {
    assert_eq!(found(&SHEET_A), (answer(0, 2, 12), vec![1, 1]));
}

/// Two streams of one deadline: with 1 the cycle takes 10 ticks and the second
/// waits for two, with 2 it takes 11 ticks and the second waits for one.
#[test]
fn both_sides_of_each_edge() {
    let pair = |deadline: u32| sheet(1, 9, &[(5, &[(90, deadline), (90, deadline)])]);
    for deadline in [90, 30, 29] {
        assert_eq!(found(&pair(deadline)), (answer(0, 1, 10), vec![1]));
    }
    for deadline in [28, 22, 21] {
        assert_eq!(found(&pair(deadline)), (answer(0, 2, 11), vec![2]));
    }
    for deadline in [20, 1] {
        assert_eq!(refused(&pair(deadline)), (11, 1, 0));
    }
}

/// Two streams that are delivered 29 ticks after queuing with 1, the second of
/// them, and 21 with 2. The deadlines run from the events.
#[test]
fn both_sides_of_each_edge_with_jitter() {
    for (first, second, row) in [
        (0, 0, Some(1)),
        (0, 8, Some(1)),
        (0, 9, Some(2)),
        (0, 16, Some(2)),
        (0, 17, None),
        (16, 0, Some(1)),
        (16, 8, Some(1)),
        (16, 9, Some(2)),
        (16, 16, Some(2)),
        // The first is in time with 1 and late with 2.
        (17, 8, Some(1)),
        (17, 9, None),
        (18, 0, None),
        (36, 0, None),
    ] {
        let streams = [[37, 37, first], [90, 37, second]];
        let sheet = jittery_sheet(1, 9, &[(7, &streams)]);
        let expected = match row {
            Some(budget) => (answer(0, budget, 9 + budget), vec![budget]),
            None => (answer(11, 1, 0), vec![]),
        };
        assert_eq!(found(&sheet), expected, "{first} {second}");
    }
}

/// What one node gets makes the other late, which gets more in its turn.
#[test]
fn more_for_one_may_take_more_for_another() {
    // Cycles of 20 ticks and one more for each message: with 1 and 1 the second
    // stream of node 2 is delivered after 2 × 22 − 1 + 11 = 54 ticks, with 2 and
    // 1 after 56.
    let needs_two = [(200, 50), (200, 50)];
    let pair = |deadline: u32| {
        let other = [(200, deadline), (200, deadline)];
        sheet(1, 10, &[(16, &needs_two), (16, &other)])
    };
    assert_eq!(found(&pair(56)), (answer(0, 3, 23), vec![2, 1]));
    assert_eq!(found(&pair(55)), (answer(0, 4, 24), vec![2, 2]));
    assert_eq!(found(&pair(54)), (answer(0, 4, 24), vec![2, 2]));
    assert_eq!(found(&pair(53)), (answer(0, 4, 24), vec![2, 2]));
}

#[test]
fn nodes_without_streams_stay_at_one() {
    let needs_three = [(90, 59); 3];
    let nodes: [(u32, &[(u32, u32)]); 3] = [(4, &[]), (4, &needs_three), (4, &[])];
    let sheet = sheet(1, 9, &nodes);
    assert_eq!(found(&sheet), (answer(0, 5, 32), vec![1, 3, 1]));
    for nodes in 1..=16 {
        let sheet = common::sheet(5, 2, &vec![(3, &[][..]); nodes]);
        let sum = nodes as u32;
        assert_eq!(found(&sheet), (answer(0, sum, 7 * sum), vec![1; nodes]));
    }
}

#[test]
fn the_first_of_two_that_come_to_16_in_one_round_is_named() {
    // Both late from the first round on; with a tick more both are in time.
    assert_eq!(refused(&single(&[4, 4])), (11, 1, 0));
    assert_eq!(found(&single(&[5, 5])), (answer(0, 2, 4), vec![1, 1]));
    // The second and the third, and the first a round later.
    assert_eq!(refused(&single(&[7, 6, 6])), (11, 2, 0));
    assert_eq!(refused(&single(&[6, 7, 6])), (11, 1, 0));
}

/// The second comes to 16 while the first has 15 and could still get more.
#[test]
fn the_earliest_round_goes_before_the_node_order() {
    assert_eq!(refused(&single(&[5, 4])), (11, 2, 0));
    assert_eq!(refused(&single(&[4, 5])), (11, 1, 0));
    assert_eq!(refused(&single(&[8, 7, 6])), (11, 3, 0));
    assert_eq!(refused(&single(&[7, 6, 8])), (11, 2, 0));
    // The first is late in that last round alone, and so still at 1.
    assert_eq!(refused(&single(&[21, 6, 500])), (11, 2, 0));
}

/// By the row before the round the second node is late a round after the third,
/// although the first gets more in the same round.
#[test]
fn a_round_is_judged_by_the_row_before_it() {
    let case = named_budgets_case("the third late a round before the second");
    assert_eq!(refused(&case.sheet), (11, 3, 0));
}

/// A node that is in time at 16 is passed over, and so is a late one below.
#[test]
fn only_a_late_node_at_16_is_named() {
    let case = named_budgets_case("behind one that is in time at 16");
    assert_eq!(refused(&case.sheet), (11, 2, 0));
    let case = named_budgets_case("one by one to 16, late by one");
    assert_eq!(refused(&case.sheet), (11, 9, 0));
}

#[test]
fn sixteen_words_of_room() {
    for words in [16, 17, 300] {
        let mut room = vec![OLD; words];
        assert_eq!(find_budgets(&SHEET_A, &mut room), answer(0, 2, 12));
        let mut expected = vec![OLD; words];
        expected[..16].fill(0);
        expected[..2].fill(1);
        assert_eq!(room, expected);
    }
    // Fewer are too few, however many nodes there are.
    let nobody = sheet(1, 1, &[(1, &[])]);
    for sheet in [&SHEET_A[..], &nobody, &single(&[4, 4])] {
        for words in [0, 1, 2, 15] {
            let mut room = vec![OLD; words];
            assert_eq!(find_budgets(sheet, &mut room), answer(6, 0, 0));
            assert_eq!(room, vec![OLD; words]);
        }
    }
    assert_eq!(find_budgets(&single(&[4, 4]), &mut [0; 16]).number, 11);
}

/// Every fault of a sheet goes before the room and before the row.
#[test]
fn faults_of_the_sheet_go_first() {
    let late = single(&[4, 4]);
    let faulty = [
        late[..2].to_vec(),
        with(&late, &[(0, 17)]),
        with(&late, &[(2, 0)]),
        late[..8].to_vec(),
        with(&late, &[(3, 10)]),
        [&late[..], &[1]].concat(),
        with(&late, &[(12, 0)]),
        with(&late, &[(14, 500)]),
    ];
    let places = [
        (1, 0, 0),
        (2, 0, 0),
        (3, 0, 0),
        (4, 0, 0),
        (4, 1, 0),
        (4, 0, 0),
        (5, 2, 1),
        (5, 2, 1),
    ];
    for (sheet, place) in faulty.iter().zip(places) {
        assert_eq!(refused(sheet), place);
        for words in [0, 15] {
            let mut room = vec![OLD; words];
            assert_eq!(find_budgets(sheet, &mut room), check_sheet(sheet));
            assert_eq!(room, vec![OLD; words]);
        }
    }
}

/// They are checked, though they are not used.
#[test]
fn budgets_of_the_sheet() {
    for word in [0, 17, u32::MAX] {
        assert_eq!(refused(&sheet_a_with(&[(5, word)])), (4, 1, 0));
        assert_eq!(refused(&sheet_a_with(&[(8, word)])), (4, 2, 0));
    }
    for one in 1..=16 {
        for other in 1..=16 {
            let sheet = sheet_a_with(&[(5, one), (8, other)]);
            assert_eq!(found(&sheet), (answer(0, 2, 12), vec![1, 1]));
        }
    }
}

#[test]
fn named_cases() {
    let expected = [
        ("all ones", answer(0, 2, 12)),
        ("one node without streams", answer(0, 1, 2)),
        ("sixteen nodes without streams", answer(0, 16, 320_000)),
        (
            "sixteen nodes of sixteen, all largest",
            answer(0, 16, 320_000),
        ),
        ("the longest turns, just in time", answer(0, 256, 2_720_000)),
        ("one by one to 16, just in time", answer(0, 256, 576)),
        ("one node that needs 2", answer(0, 2, 11)),
        ("empty nodes around one that needs 3", answer(0, 5, 32)),
        ("a jitter of 8 that 1 allows", answer(0, 1, 10)),
        ("a jitter of 9 that takes 2", answer(0, 2, 11)),
        ("a jitter of 16 that takes 2", answer(0, 2, 11)),
        ("a jitter of 15 above that 1 allows", answer(0, 1, 10)),
        ("a jitter of 16 above that takes 2", answer(0, 2, 11)),
        ("sixteen nodes of sixteen, all smallest", answer(11, 1, 0)),
        ("the longest turns, late by one", answer(11, 1, 0)),
        ("one by one to 16, late by one", answer(11, 9, 0)),
        ("both late in every round", answer(11, 1, 0)),
        ("the second late first", answer(11, 2, 0)),
        ("the first late first", answer(11, 1, 0)),
        ("the third late a round before the second", answer(11, 3, 0)),
        ("behind one that is in time at 16", answer(11, 2, 0)),
        ("a jitter of 17 that no row allows", answer(11, 1, 0)),
        ("a jitter at the deadline", answer(11, 1, 0)),
        ("a jitter above the deadline", answer(11, 1, 0)),
        ("more only makes it later", answer(11, 1, 0)),
        ("nothing at all", answer(1, 0, 0)),
        ("every word the greatest", answer(2, 0, 0)),
        ("a slot of 10001 ticks, a short room", answer(3, 0, 0)),
        ("a budget of 0, a short room", answer(4, 1, 0)),
        ("a budget of 17, a short room", answer(4, 2, 0)),
        ("a deadline of 0, a short room", answer(5, 1, 2)),
        ("a jitter of 60, a short room", answer(5, 1, 2)),
        ("a good sheet, no room", answer(6, 0, 0)),
        ("a good sheet, a room of 2", answer(6, 0, 0)),
        ("a good sheet, a room of 15", answer(6, 0, 0)),
        ("no row and a room of 15", answer(6, 0, 0)),
        ("a sheet of a hundred thousand words", answer(4, 0, 0)),
        ("a room of a hundred thousand words", answer(0, 2, 12)),
    ];
    let cases = named_budgets();
    assert_eq!(expected.len(), cases.len());
    for (name, expected) in expected {
        let case = named_budgets_case(name);
        let (given, left) = found_by(find_budgets, &case);
        assert_eq!(given, expected, "{name}");
        let changed = if given.number == 0 { 16 } else { 0 };
        assert_eq!(left[changed..], case.room[changed..], "{name}");
        let by_rounds = found_by(find_budgets_by_rounds, &case);
        assert_eq!(by_rounds, (given, left), "{name}");
    }
}
