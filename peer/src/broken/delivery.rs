//! The wrong late tests. Request Four of document 02 says when a message is
//! delivered: when the protocol slot of its turn ends.

use super::admit_with;
use crate::admission::{delivery, least_cycles, Listed};
use crate::sheet::Bus;
use crate::Answer;

/// Error 22: the old test, by which a message is delivered when it ends.
pub fn admit_delivering_at_own_end(sheet: &[u32], room: &mut [u32]) -> Answer {
    admit_judging(sheet, room, own_end)
}

/// Error 23: the turn ends behind the message's own place, as if none came
/// after it in its turn.
pub fn admit_delivering_behind_own_place(sheet: &[u32], room: &mut [u32]) -> Answer {
    admit_judging(sheet, room, |bus, stream, found| {
        own_end(bus, stream, found) + bus.slot_ticks
    })
}

/// Error 24: the turn ends before its protocol slot.
pub fn admit_delivering_before_the_slot(sheet: &[u32], room: &mut [u32]) -> Answer {
    admit_judging(sheet, room, |bus, stream, found| {
        delivery(bus, stream, found.cycles) - bus.slot_ticks
    })
}

/// Error 25: a delivery at the deadline itself is late.
pub fn admit_late_at_the_deadline(sheet: &[u32], room: &mut [u32]) -> Answer {
    admit_judging(sheet, room, |bus, stream, found| {
        delivery(bus, stream, found.cycles) + 1
    })
}

/// Ticks from an event to the end of its message at the latest.
fn own_end(bus: &Bus, stream: usize, found: Listed) -> u64 {
    u64::from(bus.streams()[stream].jitter) + found.wait + bus.message_ticks
}

/// Admits with another delivery, which must not be above the deadline.
fn admit_judging(
    sheet: &[u32],
    room: &mut [u32],
    delivered: fn(&Bus, usize, Listed) -> u64,
) -> Answer {
    admit_with(sheet, room, |bus, stream| {
        let own = &bus.streams()[stream];
        let (deadline, jitter) = (u64::from(own.deadline), u64::from(own.jitter));
        // None of these delivers before jitter + J × C, so no later J is in time.
        let last = deadline.saturating_sub(jitter) / bus.cycle();
        let found = least_cycles(bus, stream, last)?;
        (delivered(bus, stream, found) <= deadline).then_some(found.wait)
    })
}
