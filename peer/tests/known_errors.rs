//! The five errors of document 01, each on an input where it would show.

mod common;

use common::*;
use peer::{admit, one_stream};

#[test]
fn releases_are_not_counted_by_ceiling() {
    // Counting ceil(33 / 33) = 1 would leave the second stream at 33.
    let sheet = sheet_a_with(&[(9, 33), (10, 33)]);
    assert_eq!(one_stream(&sheet, 1, 2), answer(0, 50, 3));
    // The same in the first cycle: ceil(10 / 10) = 1 would give 15.
    let sheet = with(&SHEET_P7, &[(5, 2)]);
    assert_eq!(one_stream(&sheet, 1, 2), answer(0, 26, 2));
}

#[test]
fn a_release_during_a_turn_does_not_join_it() {
    // Node 2's turn at 1 lasts to 7; joining would begin the second at 6.
    assert_eq!(
        replayed(&SHEET_A, &[0, 3, 3, 3], 20),
        (answer(0, 10, 20), vec![1, 8])
    );
}

#[test]
fn releases_while_waiting_count_too() {
    // One release of the stream above and no more would give 11.
    assert_eq!(one_stream(&SHEET_P7, 1, 2), answer(0, 17, 3));
}

#[test]
fn a_silent_node_uses_its_slot() {
    // Node 1 is silent at 0, so node 2 begins after its slot.
    let sheet = sheet(5, 4, &[(1, &[(50, 50)]), (1, &[(50, 50)])]);
    assert_eq!(replayed(&sheet, &[0, 2], 5), (answer(0, 2, 13), vec![4]));
    assert_eq!(replayed(&sheet, &[], 12), (answer(0, 3, 12), vec![]));
}

#[test]
fn no_wait_is_written_before_a_late_stream_is_found() {
    // The first two streams have waits; the third is late.
    let sheet = sheet_a_with(&[(16, 20)]);
    let mut room = [OLD; 3];
    assert_eq!(admit(&sheet, &mut room), answer(7, 2, 1));
    assert_eq!(room, [OLD; 3]);
}
