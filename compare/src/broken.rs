//! The proved library against variants of the second program that make the
//! errors listed in document 01, go by a wrong rank, write a sheet wrongly,
//! start a search at a wrong place, judge by a wrong late test, jump wrongly in
//! the search for J, search wrongly for budgets, use the jitter wrongly, replay
//! pieces wrongly, record streams wrongly, or edit a sheet wrongly. Each of them
//! has to differ somewhere.

use peer::broken;
use peer::generate::{budgets_case, case, edits_case, made_up_case};
use peer::generate::{pieces_case, records_case, tables_case};
use peer::generate::{BudgetsCase, Case, EditsCase, Piece, PiecesCase, RecordsCase, TablesCase};
use peer::Checkpoint;

use crate::budgets::{found_by_proved, found_by_second, Find};
use crate::edits::{edited_by_proved, edited_by_second, EditStream};
use crate::pieces::{resumed_by_proved, resumed_by_second, Resume};
use crate::records::{recorded_by_proved, recorded_by_second, Records};
use crate::step::{stepped_by_proved, stepped_by_second, Step};
use crate::tally::Outcome;
use crate::writer::{written_by_proved, written_by_second, Writer};
use crate::{proved, second};

enum Entry {
    Admit(fn(&[u32], &mut [u32]) -> peer::Answer),
    Replay(fn(&[u32], &[u32], u32, &mut [u32]) -> peer::Answer),
    Write(Writer),
    Step(Step),
    Find(Find),
    Resume(Resume),
    Records(Records),
    Edit(EditStream),
}

const VARIANTS: [(&str, Entry); 102] = [
    (
        "1, releases counted by ceiling",
        Entry::Admit(broken::admit_by_ceiling),
    ),
    (
        "2, a release during a turn joins it",
        Entry::Replay(broken::replay_joining),
    ),
    (
        "3, one release of each stream above",
        Entry::Admit(broken::admit_one_release_each),
    ),
    (
        "4, no slot for a silent node",
        Entry::Replay(broken::replay_without_silent_slots),
    ),
    (
        "5, waits written before a late stream is found",
        Entry::Admit(broken::admit_writing_early),
    ),
    (
        "6, waits ranked by period",
        Entry::Admit(broken::admit_ranked_by_period),
    ),
    (
        "7, replay ranked by period",
        Entry::Replay(broken::replay_ranked_by_period),
    ),
    (
        "8, waits with equal deadlines ranked by number",
        Entry::Admit(broken::admit_tied_by_number),
    ),
    (
        "9, replay with equal deadlines ranked by number",
        Entry::Replay(broken::replay_tied_by_number),
    ),
    (
        "10, waits with ties ranked by the higher number",
        Entry::Admit(broken::admit_tied_by_higher_number),
    ),
    (
        "11, replay with ties ranked by the higher number",
        Entry::Replay(broken::replay_tied_by_higher_number),
    ),
    (
        "12, all bodies at the first one's place",
        Entry::Write(broken::write_one_place),
    ),
    (
        "13, count and budget swapped",
        Entry::Write(broken::write_rows_swapped),
    ),
    (
        "14, refusal 6 before refusal 5",
        Entry::Write(broken::write_room_before_streams),
    ),
    (
        "15, any number of deadlines",
        Entry::Write(broken::write_any_deadlines),
    ),
    (
        "16, a word written past the sheet",
        Entry::Write(broken::write_past_the_sheet),
    ),
    (
        "17, a cycle without the last budget",
        Entry::Write(broken::write_short_cycle),
    ),
    (
        "18, period and deadline swapped",
        Entry::Write(broken::write_bodies_swapped),
    ),
    (
        "19, the room written before refusal 5 is found",
        Entry::Write(broken::write_before_streams),
    ),
    (
        "20, replay without what was left at the turn before",
        Entry::Replay(broken::replay_starting_late),
    ),
    (
        "21, step without what waits before a begun release",
        Entry::Step(broken::step_after_last_begun),
    ),
    (
        "22, a message delivered when it ends",
        Entry::Admit(broken::admit_delivering_at_own_end),
    ),
    (
        "23, a message delivered as if the last of its turn",
        Entry::Admit(broken::admit_delivering_behind_own_place),
    ),
    (
        "24, a message delivered before the protocol slot",
        Entry::Admit(broken::admit_delivering_before_the_slot),
    ),
    (
        "25, a delivery at the deadline is late",
        Entry::Admit(broken::admit_late_at_the_deadline),
    ),
    (
        "26, a jump one J too far",
        Entry::Admit(broken::admit_jumping_too_far),
    ),
    (
        "27, no hope by rates rounded up",
        Entry::Admit(broken::admit_rounding_rates_up),
    ),
    (
        "28, a jump to a J with every place taken",
        Entry::Admit(broken::admit_with_every_place_taken),
    ),
    (
        "29, a jump that counts fast streams twice",
        Entry::Admit(broken::admit_counting_fast_twice),
    ),
    (
        "30, one node a round gets more",
        Entry::Find(broken::find_one_a_round),
    ),
    (
        "31, a round judged by the row that it raises",
        Entry::Find(broken::find_by_the_new_row),
    ),
    (
        "32, rounds from the sheet's own budgets",
        Entry::Find(broken::find_from_own_budgets),
    ),
    (
        "33, budgets up to 15 only",
        Entry::Find(broken::find_to_fifteen),
    ),
    (
        "34, refusal 11 at a node that is not late",
        Entry::Find(broken::find_naming_any_at_sixteen),
    ),
    (
        "35, refusal 11 at a node below 16",
        Entry::Find(broken::find_naming_any_late),
    ),
    (
        "36, the cycle of the sheet's own budgets",
        Entry::Find(broken::find_with_own_cycle),
    ),
    (
        "37, a row without the words past the nodes",
        Entry::Find(broken::find_writing_nodes_only),
    ),
    (
        "38, a word a node is room enough",
        Entry::Find(broken::find_in_a_short_room),
    ),
    (
        "39, refusal 11 before refusal 6",
        Entry::Find(broken::find_before_the_room),
    ),
    (
        "40, a jitter as long as the period",
        Entry::Admit(broken::admit_with_jitter_to_the_period),
    ),
    (
        "41, refusal 5 for a jitter from the deadline on",
        Entry::Admit(broken::admit_with_jitter_below_the_deadline),
    ),
    (
        "42, releases above counted with the stream's own jitter",
        Entry::Admit(broken::admit_with_own_jitter_above),
    ),
    (
        "43, releases above counted without jitter",
        Entry::Admit(broken::admit_without_jitter_above),
    ),
    (
        "44, a late test without the own jitter",
        Entry::Admit(broken::admit_late_without_jitter),
    ),
    (
        "45, a late test with the own jitter twice",
        Entry::Admit(broken::admit_with_jitter_twice_late),
    ),
    (
        "46, waits that start at the event",
        Entry::Admit(broken::admit_waiting_from_the_event),
    ),
    (
        "47, waits ranked by deadline less jitter",
        Entry::Admit(broken::admit_ranked_by_slack),
    ),
    (
        "48, replay ranked by deadline less jitter",
        Entry::Replay(broken::replay_ranked_by_slack),
    ),
    (
        "49, every jitter written as 0",
        Entry::Write(broken::write_no_jitters),
    ),
    (
        "50, any number of jitters",
        Entry::Write(broken::write_any_jitters),
    ),
    (
        "51, a jitter as long as the period written",
        Entry::Write(broken::write_jitter_to_the_period),
    ),
    (
        "52, budgets judged without jitter",
        Entry::Find(broken::find_without_jitter),
    ),
    (
        "53, a jump that takes jitters for whole releases",
        Entry::Admit(broken::admit_jumping_over_jitters),
    ),
    (
        "54, a tick at the new horizon taken",
        Entry::Resume(broken::resume_to_the_horizon),
    ),
    (
        "55, log order lost when places close up",
        Entry::Resume(broken::resume_losing_order),
    ),
    (
        "56, a place past the waiting left as it was",
        Entry::Resume(broken::resume_leaving_stale),
    ),
    (
        "57, releases numbered from 1 in each piece",
        Entry::Resume(broken::resume_numbering_anew),
    ),
    (
        "58, turns of the piece alone",
        Entry::Resume(broken::resume_counting_anew),
    ),
    (
        "59, refusal 12 only where places run out",
        Entry::Resume(broken::resume_till_places_run_out),
    ),
    (
        "60, refusal 6 by the messages begun",
        Entry::Resume(broken::resume_in_a_short_room),
    ),
    (
        "61, a record changed by refusal 12",
        Entry::Resume(broken::resume_adding_before_refusal),
    ),
    (
        "62, waiting ticks taken as due",
        Entry::Resume(broken::resume_with_all_due),
    ),
    (
        "63, refusal 9 before refusal 16",
        Entry::Resume(broken::resume_record_after_log),
    ),
    (
        "64, a place of refusal 9 in the whole log",
        Entry::Resume(broken::resume_placing_in_the_log),
    ),
    (
        "65, 4,096 releases in each piece",
        Entry::Resume(broken::resume_counting_one_piece),
    ),
    (
        "66, an unchanged horizon refused",
        Entry::Resume(broken::resume_moving_on_only),
    ),
    (
        "67, refusal 16 for waiting ticks that fall",
        Entry::Resume(broken::resume_in_order_only),
    ),
    (
        "68, refusal 16 for a stream past the waiting",
        Entry::Resume(broken::resume_with_known_streams),
    ),
    (
        "69, refusal 6 before refusal 12",
        Entry::Resume(broken::resume_room_before_places),
    ),
    (
        "70, a wait as long as listed counted",
        Entry::Records(broken::records_counting_equal),
    ),
    (
        "71, a late stream counted",
        Entry::Records(broken::records_counting_late),
    ),
    (
        "72, the last wait for the longest",
        Entry::Records(broken::records_of_last_wait),
    ),
    (
        "73, waits up to the end of the message",
        Entry::Records(broken::records_to_the_end),
    ),
    (
        "74, one counted, however many waited longer",
        Entry::Records(broken::records_marking_only),
    ),
    (
        "75, no stream judged where one is late",
        Entry::Records(broken::records_if_admitted),
    ),
    (
        "76, another stream's record changed",
        Entry::Records(broken::records_of_the_next),
    ),
    (
        "77, the whole list zeroed",
        Entry::Records(broken::records_zeroing_all),
    ),
    (
        "78, the record of a silent stream kept",
        Entry::Records(broken::records_kept_if_none),
    ),
    (
        "79, the list zeroed before the last refusal",
        Entry::Records(broken::records_zeroed_early),
    ),
    (
        "80, begins written before the list is found short",
        Entry::Records(broken::records_after_begins),
    ),
    (
        "81, the list before the horizon",
        Entry::Records(broken::records_list_before_horizon),
    ),
    (
        "82, the list before the log",
        Entry::Records(broken::records_list_before_log),
    ),
    (
        "83, waits held to the deadline",
        Entry::Records(broken::records_over_deadline),
    ),
    (
        "84, only the last turn's messages in the list",
        Entry::Records(broken::records_of_last_turn),
    ),
    (
        "85, a word of the next stream set",
        Entry::Edit(broken::edit_the_next_too),
    ),
    (
        "86, refusal 13 before refusal 8",
        Entry::Edit(broken::edit_own_before_stream),
    ),
    (
        "87, new words judged after they are set",
        Entry::Edit(broken::edit_before_judging),
    ),
    (
        "88, refusal 13 at the own node",
        Entry::Edit(broken::edit_refused_at_own_node),
    ),
    (
        "89, the jitter left as it was",
        Entry::Edit(broken::edit_keeping_the_jitter),
    ),
    (
        "90, old words not judged where new ones come",
        Entry::Edit(broken::edit_setting_right),
    ),
    (
        "91, a new deadline held to the old period",
        Entry::Edit(broken::edit_by_the_old_period),
    ),
    (
        "92, no refusal 13 where the own node is not there",
        Entry::Edit(broken::edit_from_no_node),
    ),
    (
        "93, refusal 13 before 8 where the own node is not there",
        Entry::Edit(broken::edit_own_on_the_sheet),
    ),
    (
        "94, refusal 5 for new words before refusal 13",
        Entry::Edit(broken::edit_words_before_own),
    ),
    (
        "95, refusal 5 for new words before refusal 8",
        Entry::Edit(broken::edit_words_before_stream),
    ),
    (
        "96, refusal 5 for old words after 8 and 13",
        Entry::Edit(broken::edit_old_words_last),
    ),
    (
        "97, the stream counted over the whole sheet",
        Entry::Edit(broken::edit_by_running_number),
    ),
    (
        "98, a new jitter as long as the period",
        Entry::Edit(broken::edit_jitter_to_the_period),
    ),
    (
        "99, refusal 7 for new words that are late",
        Entry::Edit(broken::edit_in_time_only),
    ),
    (
        "100, new period and deadline swapped",
        Entry::Edit(broken::edit_words_swapped),
    ),
    (
        "101, a success with the place",
        Entry::Edit(broken::edit_answering_the_place),
    ),
    ("102, no refusal 13", Entry::Edit(broken::edit_any_node)),
];

/// A case of each kind.
struct Cases {
    case: Case,
    tables: TablesCase,
    budgets: BudgetsCase,
    /// From a fresh record, and from a made-up one.
    pieces: [PiecesCase; 2],
    records: RecordsCase,
    edits: EditsCase,
}

impl Cases {
    fn new(seed: u64, index: u64) -> Cases {
        Cases {
            case: case(seed, index),
            tables: tables_case(seed, index),
            budgets: budgets_case(seed, index),
            pieces: [pieces_case(seed, index), made_up_case(seed, index)],
            records: records_case(seed, index),
            edits: edits_case(seed, index),
        }
    }
}

/// A piece of a case, the record before it and what the library gives.
struct Resumed<'a> {
    sheet: &'a [u32],
    piece: &'a Piece,
    before: Checkpoint,
    given: Outcome,
}

/// Each piece of a case, from the record that the one before has led to.
fn resumed(case: &PiecesCase) -> Vec<Resumed<'_>> {
    let (mut record, sheet) = (case.record.clone(), &case.sheet[..]);
    let each = case.pieces.iter().map(|piece| {
        let given = resumed_by_proved(sheet, piece, &record);
        let (_, after) = resumed_by_second(peer::resume, sheet, piece, &record);
        Resumed {
            sheet,
            piece,
            before: std::mem::replace(&mut record, after),
            given,
        }
    });
    each.collect()
}

/// The first piece on which a variant differs, each from the right record.
fn resumed_otherwise(resume: Resume, resumed: &[Resumed]) -> Option<(Outcome, Outcome)> {
    resumed.iter().find_map(|one| {
        let (bad, _) = resumed_by_second(resume, one.sheet, one.piece, &one.before);
        (one.given != bad).then(|| (one.given.clone(), bad))
    })
}

/// The first edit on which a variant differs from what the library gives.
fn edited_otherwise(
    entry: EditStream,
    case: &EditsCase,
    given: &[Outcome],
) -> Option<(Outcome, Outcome)> {
    case.edits.iter().zip(given).find_map(|(edit, given)| {
        let bad = edited_by_second(entry, &case.sheet, edit);
        (*given != bad).then(|| (given.clone(), bad))
    })
}

/// For each variant, what the library and the variant give if they differ.
fn differences(cases: &Cases) -> [Option<(Outcome, Outcome)>; VARIANTS.len()] {
    let case = &cases.case;
    let (sheet, log, horizon) = (&case.sheet, &case.log, case.horizon);
    let TablesCase { tables, room } = &cases.tables;
    let admit = proved(&case.room, |room| wistorvan::raw::admit(sheet, room));
    let replay = proved(&case.room, |room| {
        wistorvan::raw::replay(sheet, log, horizon, room)
    });
    let write = written_by_proved(tables, room);
    let step = stepped_by_proved(case);
    let find = found_by_proved(&cases.budgets);
    let records = recorded_by_proved(&cases.records);
    let resumed: Vec<Resumed> = cases.pieces.iter().flat_map(resumed).collect();
    let edits = &cases.edits;
    let edited = edits.edits.iter();
    let edited: Vec<Outcome> = edited
        .map(|edit| edited_by_proved(&edits.sheet, edit))
        .collect();
    VARIANTS.each_ref().map(|(_, entry)| {
        let (good, bad) = match entry {
            Entry::Admit(entry) => (&admit, second(&case.room, |room| entry(sheet, room))),
            Entry::Replay(entry) => (
                &replay,
                second(&case.room, |room| entry(sheet, log, horizon, room)),
            ),
            Entry::Write(entry) => (&write, written_by_second(*entry, tables, room)),
            Entry::Step(entry) => (&step, stepped_by_second(*entry, case)),
            Entry::Find(entry) => (&find, found_by_second(*entry, &cases.budgets)),
            Entry::Records(entry) => (&records, recorded_by_second(*entry, &cases.records)),
            Entry::Resume(entry) => return resumed_otherwise(*entry, &resumed),
            Entry::Edit(entry) => return edited_otherwise(*entry, edits, &edited),
        };
        (*good != bad).then(|| (good.clone(), bad))
    })
}

/// Whether each variant was caught.
pub fn run(seed: u64, count: u64) -> bool {
    let mut caught = [(0u64, None); VARIANTS.len()];
    for index in 0..count {
        let found = differences(&Cases::new(seed, index));
        for ((times, first), _) in caught.iter_mut().zip(found).filter(|(_, it)| it.is_some()) {
            *times += 1;
            first.get_or_insert(index);
        }
    }
    for ((error, _), (times, first)) in VARIANTS.iter().zip(caught) {
        match first {
            Some(index) => println!(
                "error {error}: {times} of {count} cases differ, \
                 first case {index}: `compare {seed} {index} broken one`"
            ),
            None => println!("error {error}: never caught"),
        }
    }
    caught.iter().all(|(times, _)| *times > 0)
}

/// Shows one case of each kind again; whether any variant is caught on them.
pub fn one(seed: u64, index: u64) -> bool {
    let cases = Cases::new(seed, index);
    let found = differences(&cases);
    for ((error, _), difference) in VARIANTS.iter().zip(&found) {
        if let Some((good, bad)) = difference {
            println!("error {error}: differs");
            println!("  proved {good:?}");
            println!("  broken {bad:?}");
        }
    }
    println!("on {:?}", cases.case);
    println!("and {:?}", cases.tables);
    println!("and {:?}", cases.budgets);
    println!("and {:?}", cases.pieces);
    println!("and {:?}", cases.records);
    println!("and {:?}", cases.edits);
    found.iter().any(Option::is_some)
}
