//! The wrong starting places. Request Three of document 02 says where a turn
//! starts its search: at the first release not yet begun.

use super::run;
use crate::replay::{self, Operation};
use crate::{step, Answer, Record, NOT_BEGUN};

/// Error 20: a turn starts its search after all that had come when the turn
/// before started, so what was left waiting then never begins.
pub fn replay_starting_late(sheet: &[u32], log: &[u32], horizon: u32, room: &mut [u32]) -> Answer {
    let bus = match replay::check(sheet, log, horizon, room) {
        Ok(bus) => bus,
        Err(answer) => return answer,
    };
    room[..log.len() / 2].fill(NOT_BEGUN);
    let operation = &mut Operation::new(&bus, log);
    let mut last_start = None;
    run(operation, horizon, u64::MAX, |operation, node, start| {
        if let Some(before) = last_start.replace(start) {
            pass_over(operation, node, before);
        }
        operation.serve(node, start, room) * bus.message_ticks + bus.slot_ticks
    })
}

/// Error 21: a step starts its search after the last release that has begun,
/// so those that wait before it are missed.
pub fn step_after_last_begun(
    sheet: &[u32],
    log: &[u32],
    record: &mut Record,
    room: &mut [u32],
) -> Answer {
    let releases = room.len().min(log.len() / 2);
    let begun = |word: &u32| *word != NOT_BEGUN;
    let last = room[..releases].iter().rposition(begun);
    let start = last.map_or(0, |last| last + 1);
    // The good step passes over what has begun, so all before the start is
    // shown to it as begun and put back after it.
    let before = room[..start].to_vec();
    room[..start].fill(0);
    let answer = step(sheet, log, record, room);
    room[..start].copy_from_slice(&before);
    answer
}

/// Takes what has come to a node by this tick out of its queues.
fn pass_over(operation: &mut Operation, node: usize, tick: u64) {
    let count = operation.bus.nodes()[node].count;
    for &stream in &operation.order[node][..count] {
        while operation.queues.head_tick(stream) <= tick {
            operation.queues.pop(stream);
        }
    }
}
