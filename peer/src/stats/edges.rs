//! Streams at the edge of the late test.

use std::collections::BTreeSet;

use super::search::found_names;
use super::Figures;
use crate::admission::{delivery, last_try, least_cycles};
use crate::sheet::Bus;
use crate::Answer;

pub(super) const JUST_IN_TIME: &str = "just in time";
pub(super) const LATE_BY_ONE: &str = "late by one tick";

/// Whether a stream is delivered just at its deadline or one tick after it,
/// and after how many cycles.
pub(super) fn edge(bus: &Bus, stream: usize) -> Option<(&'static str, u64)> {
    // A stream late by one takes one J more than is worth a try.
    let cycles = least_cycles(bus, stream, last_try(bus, stream) + 1)?.cycles;
    let deadline = u64::from(bus.streams()[stream].deadline);
    match delivery(bus, stream, cycles) {
        ticks if ticks == deadline => Some((JUST_IN_TIME, cycles)),
        ticks if ticks == deadline + 1 => Some((LATE_BY_ONE, cycles)),
        _ => None,
    }
}

/// Streams at the edge, and sheets that have such.
pub(super) fn count_edges(figures: &mut Figures, sheet: &[u32], answer: Answer) {
    let Ok(bus) = Bus::read(sheet) else { return };
    let mut kinds = BTreeSet::new();
    for stream in 0..bus.streams().len() {
        let Some((kind, cycles)) = edge(&bus, stream) else {
            continue;
        };
        for name in found_names(cycles) {
            figures.add(format!("stream {kind}, {name}"));
        }
        let cycles = if cycles == 1 { "1" } else { "2 or more" };
        let budget = match bus.nodes()[bus.node_of(stream)].budget {
            1 => "1",
            _ => "over 1",
        };
        figures.add(format!("stream {kind}, J {cycles}, budget {budget}"));
        if bus.streams()[stream].jitter > 0 {
            figures.add(format!("stream {kind}, J {cycles}, with jitter"));
        }
        kinds.insert(format!("sheet with a stream {kind}"));
        if answer.number == 0 {
            kinds.insert(format!("sheet admitted with a stream {kind}"));
        }
        let place = bus.place(stream);
        if (7, place.0, place.1) == (answer.number, answer.second, answer.third) {
            kinds.insert(format!("sheet refused for a stream {kind}"));
        }
    }
    kinds.into_iter().for_each(|kind| figures.add(kind));
}
