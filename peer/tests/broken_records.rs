//! Each wrong list of stream records makes its error, and is right where that
//! plays no part.

mod common;

use common::*;
use peer::generate::{named_records, records_case, RecordsCase};
use peer::{broken, replay_with_records, Answer, StreamRecord};

type Recorded = fn(&[u32], &[u32], u32, &mut [u32], &mut [StreamRecord]) -> Answer;

const WRONG: [(&str, Recorded); 15] = [
    ("equal", broken::records_counting_equal),
    ("late", broken::records_counting_late),
    ("last wait", broken::records_of_last_wait),
    ("to the end", broken::records_to_the_end),
    ("marking", broken::records_marking_only),
    ("if admitted", broken::records_if_admitted),
    ("the next", broken::records_of_the_next),
    ("zeroing all", broken::records_zeroing_all),
    ("kept", broken::records_kept_if_none),
    ("zeroed early", broken::records_zeroed_early),
    ("after begins", broken::records_after_begins),
    ("before horizon", broken::records_list_before_horizon),
    ("before log", broken::records_list_before_log),
    ("over deadline", broken::records_over_deadline),
    ("last turn", broken::records_of_last_turn),
];

fn given(recorded: Recorded, case: &RecordsCase) -> (Answer, Vec<u32>, Vec<StreamRecord>) {
    let (mut room, mut records) = (case.room.clone(), case.records.clone());
    let answer = recorded(
        &case.sheet,
        &case.log,
        case.horizon,
        &mut room,
        &mut records,
    );
    (answer, room, records)
}

/// The named cases on which a variant differs.
fn differing(recorded: Recorded) -> Vec<&'static str> {
    let cases = named_records().into_iter();
    let differ =
        cases.filter(|(_, case)| given(recorded, case) != given(replay_with_records, case));
    differ.map(|(name, _)| name).collect()
}

#[test]
fn each_differs_where_its_error_shows() {
    let equal = "a wait as long as listed";
    assert!(differing(broken::records_counting_equal).contains(&equal));
    assert!(!differing(broken::records_counting_equal).contains(&"P9 with records"));
    let late = [
        "a late stream that waits long",
        "a late stream beside one over",
    ];
    assert_eq!(differing(broken::records_counting_late), late);
    assert_eq!(differing(broken::records_if_admitted), [late[1]]);
    assert!(differing(broken::records_to_the_end).contains(&"P9 with records"));
    let longest = "the longest log at once on the slowest bus";
    let several = ["a burst", longest, late[1]];
    assert_eq!(differing(broken::records_marking_only), several);
    assert!(differing(broken::records_of_the_next).contains(&"P9 with records"));
    let past = [
        "P11 with records",
        "P12 with records",
        "no streams and a list",
        "a burst",
    ];
    let zeroing = differing(broken::records_zeroing_all);
    assert_eq!(zeroing, [&past[..], &[late[1]]].concat());
    assert!(differing(broken::records_kept_if_none).contains(&"P10 with records"));
    let last_turn = differing(broken::records_of_last_turn);
    assert!(last_turn.contains(&"P9 with records") && !last_turn.contains(&"P12 with records"));
    // Listed 5, deadline 20: a wait of 6 is longer than listed and in time.
    let over_deadline = differing(broken::records_over_deadline);
    assert!(over_deadline.contains(&"a wait longer than listed"));
    assert!(!over_deadline.contains(&"a wait as long as listed"));
    // What they do before the refusal is all that differs.
    assert_eq!(
        differing(broken::records_zeroed_early),
        ["a list one record short"]
    );
    let short = ["a list one record short", "no list"];
    assert_eq!(differing(broken::records_after_begins), short);
}

/// The last wait of a stream that has waited longer before.
#[test]
fn last_wait() {
    let mut case = named_records().swap_remove(0).1;
    case.log = vec![0, 1, 0, 1, 100, 1];
    case.horizon = 200;
    assert_eq!(given(replay_with_records, &case).2[0].longest, 7);
    assert!(given(broken::records_of_last_wait, &case).2[0].longest < 7);
}

#[test]
fn list_before_horizon() {
    let mut case = named_records().swap_remove(0).1;
    case.records.clear();
    case.horizon = 1_000_000_001;
    assert_eq!(given(replay_with_records, &case).0, answer(10, 0, 0));
    let before = broken::records_list_before_horizon;
    assert_eq!(given(before, &case).0, answer(6, 0, 0));
    case.horizon = 40;
    assert_eq!(given(before, &case), given(replay_with_records, &case));
    case.log[1] = 9;
    assert_eq!(given(replay_with_records, &case).0, answer(9, 0, 1));
    let before_log = broken::records_list_before_log;
    assert_eq!(given(before_log, &case).0, answer(6, 0, 0));
}

/// Each is caught by generated cases, and none on all of them.
#[test]
fn caught_by_generated_cases() {
    for (name, recorded) in WRONG {
        let differ = (0..3_000).filter(|&index| {
            let case = records_case(5, index);
            given(recorded, &case) != given(replay_with_records, &case)
        });
        let count = differ.count();
        assert!(count > 0 && count < 2_900, "{name}: {count}");
    }
}
