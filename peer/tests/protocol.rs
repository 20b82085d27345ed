//! Single rules of the bus, the log, the replay and the step.

mod common;

use common::*;
use peer::{one_stream, replay, step, Record};

fn record(tick: u32, node: u32, turns: u32) -> Record {
    Record { tick, node, turns }
}

#[test]
fn the_first_turn_is_node_1_at_tick_0() {
    assert_eq!(replayed(&SHEET_A, &[0, 1], 1), (answer(0, 1, 6), vec![0]));
}

#[test]
fn a_release_at_the_start_tick_is_taken() {
    assert_eq!(
        replayed(&SHEET_A, &[0, 3, 1, 3], 20).1,
        [1, 6],
        "node 2's turn starts at 1"
    );
}

#[test]
fn a_message_can_wait_its_listed_wait_to_the_tick() {
    let sheet = sheet(
        5,
        1,
        &[(1, &[(40, 40), (60, 60), (100, 100)]), (2, &[(30, 30)])],
    );
    assert_eq!(one_stream(&sheet, 1, 2), answer(0, 33, 2));
    // Node 2 floods the bus, and the lowest stream of node 1 has its turn at 0.
    let log = [0, 3, 0, 4, 0, 4, 0, 4, 0, 4, 0, 4, 0, 4, 1, 1, 1, 2];
    let begins = replayed(&sheet, &log, 35).1;
    assert_eq!(begins[8], 1 + 33);
}

#[test]
fn a_message_can_be_delivered_at_its_deadline_to_the_tick() {
    let nodes: [(u32, &[(u32, u32)]); 2] = [(2, &[(100, 27), (100, 100)]), (1, &[(30, 30)])];
    let sheet = sheet(5, 1, &nodes);
    assert_eq!(one_stream(&sheet, 1, 1), answer(0, 16, 1));
    // All others fill their turns. The message comes just after the start of
    // one and goes first in the next; another follows it, and then the slot.
    let log = [0, 2, 0, 2, 0, 2, 0, 3, 1, 1];
    let (given, begins) = replayed(&sheet, &log, 18);
    assert_eq!(begins, [0, 5, 22, 11, 17]);
    assert_eq!(given, answer(0, 3, 1 + 27));
}

#[test]
fn priority_goes_before_log_order() {
    assert_eq!(replayed(&SHEET_A, &[0, 2, 0, 1], 10).1, [7, 0]);
}

/// Releases streams of one node at tick 0, with a budget of 1, and answers
/// their numbers in the order of the begins. Single steps must give the same
/// begins as the replay, and one turn with budget for all the same order.
fn order_of_begins(streams: &[(u32, u32)], released: &[u32]) -> Vec<u32> {
    let sheet_of = |budget: u32| sheet(5, 1, &[(budget, streams)]);
    let log: Vec<u32> = released.iter().flat_map(|&stream| [0, stream]).collect();
    let begins = replayed(&sheet_of(1), &log, 6 * released.len() as u32).1;
    let mut stepped = vec![NOT_BEGUN; released.len()];
    let mut at = record(0, 1, 0);
    for _ in released {
        let given = step(&sheet_of(1), &log, &mut at, &mut stepped);
        assert_eq!((given.number, given.second), (0, 1));
    }
    assert_eq!(stepped, begins);
    let mut whole = vec![NOT_BEGUN; released.len()];
    step(&sheet_of(16), &log, &mut record(0, 1, 0), &mut whole);
    let mut order: Vec<usize> = (0..released.len()).collect();
    order.sort_by_key(|&release| begins[release]);
    let in_turn: Vec<u32> = order.iter().map(|&release| whole[release]).collect();
    let expected: Vec<u32> = (0..released.len() as u32).map(|taken| 5 * taken).collect();
    assert_eq!(in_turn, expected);
    order.iter().map(|&release| released[release]).collect()
}

#[test]
fn the_shorter_deadline_goes_first() {
    // By period the order would be 1 2 3.
    let streams = [(30, 30), (40, 20), (50, 10)];
    for released in [[1, 2, 3], [3, 2, 1], [2, 3, 1]] {
        assert_eq!(order_of_begins(&streams, &released), [3, 2, 1]);
    }
    // Equal periods do not matter while the deadlines differ.
    let streams = [(50, 20), (50, 50), (50, 10)];
    assert_eq!(order_of_begins(&streams, &[1, 2, 3]), [3, 1, 2]);
    // One tick less than the other is enough, however long the period.
    let streams = [(30, 30), (1_000_000_000, 29)];
    assert_eq!(order_of_begins(&streams, &[1, 2]), [2, 1]);
}

#[test]
fn equal_deadlines_go_by_the_shorter_period() {
    let streams = [(50, 30), (40, 30), (30, 30)];
    for released in [[1, 2, 3], [3, 2, 1], [2, 3, 1]] {
        assert_eq!(order_of_begins(&streams, &released), [3, 2, 1]);
    }
    let streams = [(30, 30), (40, 30), (50, 30)];
    assert_eq!(order_of_begins(&streams, &[3, 2, 1]), [1, 2, 3]);
    let streams = [(1_000_000_000, 1), (999_999_999, 1)];
    assert_eq!(order_of_begins(&streams, &[1, 2]), [2, 1]);
}

#[test]
fn equal_deadlines_and_periods_go_by_the_lower_number() {
    let streams = [(50, 30), (50, 30), (50, 30)];
    for released in [[1, 2, 3], [3, 2, 1], [2, 3, 1]] {
        assert_eq!(order_of_begins(&streams, &released), [1, 2, 3]);
    }
}

#[test]
fn all_levels_of_the_rank_together() {
    let streams = [(60, 40), (50, 40), (90, 20), (50, 40), (40, 40), (40, 39)];
    let released = [6, 5, 4, 3, 2, 1, 3];
    let expected = [3, 3, 6, 5, 2, 4, 1];
    assert_eq!(order_of_begins(&streams, &released), expected);
}

#[test]
fn waits_read_the_same_rank() {
    // In a cycle of 6 ticks with budget 1, each one above costs a cycle; the
    // last in rank is just in time.
    let streams = [(60, 41), (50, 41), (90, 20), (50, 41), (41, 41), (41, 40)];
    let sheet = sheet(5, 1, &[(1, &streams)]);
    for (stream, above) in (1..).zip([5, 3, 0, 4, 2, 1]) {
        let expected = answer(0, 6 * above + 5, above + 1);
        assert_eq!(one_stream(&sheet, 1, stream), expected, "stream {stream}");
    }
}

#[test]
fn a_rank_is_for_one_node_only() {
    // Node 2's stream has the shortest deadline of all; node 1 still goes
    // first, and its own order stays.
    let sheet = sheet(5, 1, &[(1, &[(40, 40), (60, 30)]), (1, &[(10, 1)])]);
    let log = [0, 3, 0, 1, 0, 2];
    assert_eq!(replayed(&sheet, &log, 20).1, [6, 12, 0]);
    assert_eq!(one_stream(&sheet, 1, 2), answer(0, 11, 1));
}

#[test]
fn one_stream_goes_by_log_order() {
    let sheet = sheet(5, 1, &[(2, &[(50, 50)])]);
    assert_eq!(replayed(&sheet, &[0, 1, 0, 1, 0, 1], 20).1, [0, 5, 11]);
}

#[test]
fn a_turn_begun_before_the_horizon_is_finished() {
    assert_eq!(
        replayed(&SHEET_A, &[0, 3, 0, 3], 2),
        (answer(0, 2, 12), vec![1, 6])
    );
}

#[test]
fn a_waiting_stream_of_lower_priority_gives_way_to_a_later_release() {
    // At 6 both wait again; the stream of shorter deadline goes first.
    assert_eq!(replayed(&SHEET_P7, &[0, 1, 0, 2, 6, 1], 18).1, [0, 12, 6]);
}

#[test]
fn what_the_room_held_plays_no_part() {
    for old in [5, NOT_BEGUN, 0] {
        let mut room = [old; 3];
        assert_eq!(
            replay(&SHEET_A, &[0, 1, 0, 2, 1, 3], 12, &mut room),
            answer(0, 2, 12)
        );
        assert_eq!(room, [0, NOT_BEGUN, 6]);
    }
}

#[test]
fn a_late_stream_is_replayed() {
    let sheet = with(&SHEET_P7, &[(6, 9), (7, 9)]);
    assert_eq!(replayed(&sheet, &[0, 1], 6), (answer(0, 1, 6), vec![0]));
}

#[test]
fn broken_periods_are_replayed() {
    let log = [0, 1, 0, 1, 0, 1, 0, 1];
    assert_eq!(replayed(&SHEET_P7, &log, 24).1, [0, 6, 12, 18]);
}

#[test]
fn releases_at_or_after_the_horizon_are_accepted() {
    let log = [4, 1, 6, 1, 1_000_000_000, 2];
    assert_eq!(
        replayed(&SHEET_P7, &log, 6),
        (answer(0, 5, 10), vec![4, NOT_BEGUN, NOT_BEGUN])
    );
}

#[test]
fn largest_log_is_replayed() {
    let log: Vec<u32> = (0..4_096).flat_map(|_| [0, 1]).collect();
    let (given, begins) = replayed(&SHEET_P7, &log, 1_000_000_000 / 1_000);
    assert_eq!(begins[4_095], 4_095 * 6);
    assert_eq!(given.second, 4_096 + 1_000_000 - 4_096 * 6);
}

#[test]
fn step_runs_one_turn_in_place() {
    let mut at = record(0, 1, 0);
    let mut room = [NOT_BEGUN, NOT_BEGUN, NOT_BEGUN, OLD];
    let log = [0, 1, 0, 2, 1, 3];
    assert_eq!(step(&SHEET_A, &log, &mut at, &mut room), answer(0, 1, 6));
    assert_eq!(at, record(6, 2, 1));
    assert_eq!(room, [0, NOT_BEGUN, NOT_BEGUN, OLD]);
    assert_eq!(step(&SHEET_A, &log, &mut at, &mut room), answer(0, 1, 12));
    assert_eq!(at, record(12, 1, 2));
    assert_eq!(room, [0, NOT_BEGUN, 6, OLD]);
}

#[test]
fn step_takes_made_up_rooms_as_they_stand() {
    // Only the second and the last wait; the words of the others are kept,
    // be they later than the record or one less than not begun.
    let mut at = record(100, 2, 9);
    let mut room = [NOT_BEGUN - 1, NOT_BEGUN, 900, 0, NOT_BEGUN];
    let log = [0, 3, 1, 3, 2, 3, 3, 3, 100, 3];
    assert_eq!(step(&SHEET_A, &log, &mut at, &mut room), answer(0, 2, 111));
    assert_eq!(room, [NOT_BEGUN - 1, 100, 900, 0, 105]);
    assert_eq!(at, record(111, 1, 10));
}

#[test]
fn step_leaves_other_nodes_and_later_releases() {
    let mut at = record(10, 1, 3);
    let mut room = [NOT_BEGUN; 3];
    let log = [0, 3, 10, 2, 11, 1];
    assert_eq!(step(&SHEET_A, &log, &mut at, &mut room), answer(0, 1, 16));
    assert_eq!(room, [NOT_BEGUN, 10, NOT_BEGUN]);
}

#[test]
fn step_takes_the_first_of_the_budget_in_priority_order() {
    let sheet = sheet(7, 2, &[(2, &[(90, 90), (40, 40), (40, 40), (10, 10)])]);
    let mut at = record(50, 1, 0);
    let mut room = [NOT_BEGUN; 6];
    let log = [0, 1, 0, 3, 1, 2, 1, 2, 2, 4, 51, 4];
    assert_eq!(step(&sheet, &log, &mut at, &mut room), answer(0, 2, 66));
    assert_eq!(room, [NOT_BEGUN, NOT_BEGUN, 57, NOT_BEGUN, 50, NOT_BEGUN]);
}

#[test]
fn silent_step_moves_on() {
    let mut at = record(3, 2, 8);
    assert_eq!(step(&SHEET_A, &[], &mut at, &mut []), answer(0, 0, 4));
    assert_eq!(at, record(4, 1, 9));
}

#[test]
fn step_at_the_last_tick_passes_it() {
    let streams = [(1, 1); 16];
    let sheet = sheet(10_000, 10_000, &[(16, &streams[..])]);
    let last = 1_000_000_000;
    let mut at = record(last, 1, last);
    let log = [last, 1].repeat(20);
    let mut room = [NOT_BEGUN; 20];
    assert_eq!(
        step(&sheet, &log, &mut at, &mut room),
        answer(0, 16, last + 170_000)
    );
    assert_eq!(at, record(last + 170_000, 1, last + 1));
    assert_eq!(room[15], last + 150_000);
    assert_eq!(room[16..], [NOT_BEGUN; 4]);
}
