//! The five errors that document 01 has seen in fitters' sheets, three wrong
//! ranks, eight wrong writers, two wrong starting places, four wrong late tests,
//! five wrong jumps, ten wrong searches for budgets, thirteen wrong uses of the
//! jitter, sixteen wrong replays by pieces, fifteen wrong lists of stream records
//! and eighteen wrong edits, each made on purpose, so that a comparison can show
//! that it catches them. All else is as in the good program, but for the search
//! that the wrong jumps are made in.

mod budgets;
mod delivery;
mod edits;
mod jitter;
mod jumps;
mod pieces;
mod records;
mod start;
mod writer;

use crate::admission::{last_try, late, listed, write_waits, Above};
use crate::replay::{write_begins, Operation};
use crate::sheet::{levels, Bus, Rank, Stream, MOST_STREAMS_A_NODE};
use crate::{admission, replay, success, Answer, NOT_BEGUN};

pub use budgets::{
    find_before_the_room, find_by_the_new_row, find_from_own_budgets, find_in_a_short_room,
    find_naming_any_at_sixteen, find_naming_any_late, find_one_a_round, find_to_fifteen,
    find_to_seventeen, find_with_own_cycle, find_writing_nodes_only,
};
pub use delivery::{
    admit_delivering_at_own_end, admit_delivering_before_the_slot,
    admit_delivering_behind_own_place, admit_late_at_the_deadline,
};
pub use edits::{
    edit_answering_the_place, edit_any_node, edit_before_judging, edit_by_running_number,
    edit_by_the_old_period, edit_from_no_node, edit_in_time_only, edit_jitter_to_the_period,
    edit_keeping_the_jitter, edit_old_words_last, edit_own_before_stream, edit_own_on_the_sheet,
    edit_refused_at_own_node, edit_setting_right, edit_the_next_too, edit_words_before_own,
    edit_words_before_stream, edit_words_swapped,
};
pub use jitter::{
    admit_late_without_jitter, admit_ranked_by_slack, admit_waiting_from_the_event,
    admit_with_jitter_below_the_deadline, admit_with_jitter_to_the_period,
    admit_with_jitter_twice_late, admit_with_own_jitter_above, admit_without_jitter_above,
    find_without_jitter, replay_ranked_by_slack, write_any_jitters, write_jitter_to_the_period,
    write_no_jitters,
};
pub use jumps::{
    admit_counting_fast_twice, admit_jumping_over_jitters, admit_jumping_too_far,
    admit_rounding_rates_up, admit_with_every_place_taken, one_stream_jumping,
};
pub use pieces::{
    resume_adding_before_refusal, resume_counting_anew, resume_counting_one_piece,
    resume_in_a_short_room, resume_in_order_only, resume_leaving_stale, resume_losing_order,
    resume_moving_on_only, resume_numbering_anew, resume_placing_in_the_log,
    resume_record_after_log, resume_room_before_places, resume_till_places_run_out,
    resume_to_the_horizon, resume_with_all_due, resume_with_known_streams,
};
pub use records::{
    records_after_begins, records_counting_equal, records_counting_late, records_if_admitted,
    records_kept_if_none, records_list_before_horizon, records_list_before_log,
    records_marking_only, records_of_last_turn, records_of_last_wait, records_of_the_next,
    records_over_deadline, records_to_the_end, records_zeroed_early, records_zeroing_all,
};
pub use start::{replay_starting_late, step_after_last_begun};
pub use writer::{
    write_any_deadlines, write_before_streams, write_bodies_swapped, write_one_place,
    write_past_the_sheet, write_room_before_streams, write_rows_swapped, write_short_cycle,
};

/// A bus whose clock may stand still is given up after so many turns.
pub const MOST_TURNS: u64 = 100_000;

/// Error 1: counts releases by ceiling, without the one at the last tick.
pub fn admit_by_ceiling(sheet: &[u32], room: &mut [u32]) -> Answer {
    admit_counting(sheet, room, |window, stream| {
        (window + stream.jitter).div_ceil(stream.period)
    })
}

/// Error 2: a message released during a turn joins it.
pub fn replay_joining(sheet: &[u32], log: &[u32], horizon: u32, room: &mut [u32]) -> Answer {
    let bus = match replay::check(sheet, log, horizon, room) {
        Ok(bus) => bus,
        Err(answer) => return answer,
    };
    room[..log.len() / 2].fill(NOT_BEGUN);
    let operation = &mut Operation::new(&bus, log);
    run(operation, horizon, u64::MAX, |operation, node, start| {
        serve_joining(operation, node, start, room) * bus.message_ticks + bus.slot_ticks
    })
}

/// Error 3: counts one release of each stream above and none that come while
/// the stream waits.
pub fn admit_one_release_each(sheet: &[u32], room: &mut [u32]) -> Answer {
    admit_counting(sheet, room, |_, _| 1)
}

/// Error 4: a silent node has no protocol slot. Stops after `MOST_TURNS`.
pub fn replay_without_silent_slots(
    sheet: &[u32],
    log: &[u32],
    horizon: u32,
    room: &mut [u32],
) -> Answer {
    let bus = match replay::check(sheet, log, horizon, room) {
        Ok(bus) => bus,
        Err(answer) => return answer,
    };
    room[..log.len() / 2].fill(NOT_BEGUN);
    let operation = &mut Operation::new(&bus, log);
    run(operation, horizon, MOST_TURNS, |operation, node, start| {
        if operation.earliest[node] > start {
            return 0;
        }
        operation.serve(node, start, room) * bus.message_ticks + bus.slot_ticks
    })
}

/// Error 5: writes each wait as it is found, even if a later stream is late.
pub fn admit_writing_early(sheet: &[u32], room: &mut [u32]) -> Answer {
    let bus = match admission::check(sheet, room) {
        Ok(bus) => bus,
        Err(answer) => return answer,
    };
    let streams = bus.streams().len();
    for (stream, word) in room[..streams].iter_mut().enumerate() {
        match listed(&bus, stream) {
            Some(found) => *word = found.wait as u32,
            None => return late(&bus, stream),
        }
    }
    success(streams as u64, bus.cycle())
}

/// Error 6: the old rank, by which no deadline counts.
pub fn admit_ranked_by_period(sheet: &[u32], room: &mut [u32]) -> Answer {
    admit_ranked(sheet, room, by_period)
}

/// Error 7: the same in the replay.
pub fn replay_ranked_by_period(
    sheet: &[u32],
    log: &[u32],
    horizon: u32,
    room: &mut [u32],
) -> Answer {
    replay_ranked(sheet, log, horizon, room, by_period)
}

/// Error 8: equal deadlines go by the stream number, whatever the periods.
pub fn admit_tied_by_number(sheet: &[u32], room: &mut [u32]) -> Answer {
    admit_ranked(sheet, room, without_period)
}

/// Error 9: the same in the replay.
pub fn replay_tied_by_number(sheet: &[u32], log: &[u32], horizon: u32, room: &mut [u32]) -> Answer {
    replay_ranked(sheet, log, horizon, room, without_period)
}

/// Error 10: of equal deadlines and periods, the higher stream number first.
pub fn admit_tied_by_higher_number(sheet: &[u32], room: &mut [u32]) -> Answer {
    admit_ranked(sheet, room, higher_number_first)
}

/// Error 11: the same in the replay.
pub fn replay_tied_by_higher_number(
    sheet: &[u32],
    log: &[u32],
    horizon: u32,
    room: &mut [u32],
) -> Answer {
    replay_ranked(sheet, log, horizon, room, higher_number_first)
}

// The wrong ranks: the right one without a level, or with one turned round.

fn by_period(stream: &Stream, number: u64) -> u64 {
    levels(0, stream.period, number)
}

fn without_period(stream: &Stream, number: u64) -> u64 {
    levels(stream.deadline, 0, number)
}

fn higher_number_first(stream: &Stream, number: u64) -> u64 {
    let number = MOST_STREAMS_A_NODE as u64 - 1 - number;
    levels(stream.deadline, stream.period, number)
}

fn admit_ranked(sheet: &[u32], room: &mut [u32], rank: Rank) -> Answer {
    match admission::check(sheet, room) {
        Ok(mut bus) => {
            bus.rank_by(rank);
            write_waits(&bus, room)
        }
        Err(answer) => answer,
    }
}

fn replay_ranked(sheet: &[u32], log: &[u32], horizon: u32, room: &mut [u32], rank: Rank) -> Answer {
    match replay::check(sheet, log, horizon, room) {
        Ok(mut bus) => {
            bus.rank_by(rank);
            write_begins(&bus, log, horizon, room)
        }
        Err(answer) => answer,
    }
}

/// Counts the releases of a stream above in a window.
type Count = fn(u64, &Above) -> u64;

/// Admits with another count of releases.
fn admit_counting(sheet: &[u32], room: &mut [u32], count: Count) -> Answer {
    admit_with(sheet, room, |bus, stream| wait_counting(bus, stream, count))
}

/// Admits with what `wait` lists for a stream, none for a late one.
fn admit_with(
    sheet: &[u32],
    room: &mut [u32],
    wait: impl Fn(&Bus, usize) -> Option<u64>,
) -> Answer {
    let bus = match admission::check(sheet, room) {
        Ok(bus) => bus,
        Err(answer) => return answer,
    };
    let mut waits = Vec::new();
    for stream in 0..bus.streams().len() {
        match wait(&bus, stream) {
            Some(wait) => waits.push(wait as u32),
            None => return late(&bus, stream),
        }
    }
    room[..waits.len()].copy_from_slice(&waits);
    success(waits.len() as u64, bus.cycle())
}

fn wait_counting(bus: &Bus, stream: usize, count: Count) -> Option<u64> {
    let node = &bus.nodes()[bus.node_of(stream)];
    let (cycle, budget) = (bus.cycle(), node.budget as u64);
    let above = bus.above(stream);
    let above: Vec<Above> = above.map(|other| (&bus.streams()[other]).into()).collect();
    let releases = |window: u64| -> u64 { above.iter().map(|it| count(window, it)).sum() };
    // The late test asks for J alone, however the releases are counted. No
    // count falls as the window grows, so that x is never negative.
    let cycles = (1..=last_try(bus, stream)).find(|j| releases(j * cycle - 1) < j * budget)?;
    let window = cycles * cycle - 1;
    Some(window + (releases(window) - (cycles - 1) * budget) * bus.message_ticks)
}

/// As in the good program, but for what one turn does: `turn` is handed the
/// node and the start tick and answers how many ticks go by.
fn run(
    operation: &mut Operation,
    horizon: u32,
    most_turns: u64,
    mut turn: impl FnMut(&mut Operation, usize, u64) -> u64,
) -> Answer {
    let nodes = operation.bus.nodes().len();
    let (mut tick, mut node, mut turns) = (0, 0, 0);
    while tick < u64::from(horizon) && turns < most_turns {
        tick += turn(operation, node, tick);
        turns += 1;
        node = (node + 1) % nodes;
    }
    success(turns, tick)
}

/// Looks at the queue again before each message of the turn.
fn serve_joining(operation: &mut Operation, node: usize, start: u64, room: &mut [u32]) -> u64 {
    let budget = operation.bus.nodes()[node].budget as u64;
    let count = operation.bus.nodes()[node].count;
    let mut taken = 0;
    while taken < budget {
        let now = start + taken * operation.bus.message_ticks;
        let queues = &operation.queues;
        let mut order = operation.order[node][..count].iter();
        let Some(&stream) = order.find(|&&stream| queues.head_tick(stream) <= now) else {
            break;
        };
        room[operation.queues.pop(stream)] = now as u32;
        taken += 1;
    }
    taken
}
