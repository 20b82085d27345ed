//! Finding the least budgets with which no stream is late: request Five of
//! document 02.
//!
//! A late node that keeps its budget stays late when others get more. The cycle
//! is longer then, so that for each J the streams above have released no less
//! and the delivery comes later, while J × budget is as before. Now let some
//! row admit the sheet, and let another have no more than it for any node.
//! Then a late node of the other has less than that row gives it, and one more
//! for it does not go past that row either. So from all ones on, late nodes may
//! get one more each in any order, several at a time or one: no row that admits
//! the sheet is ever passed. If it ends with no late node, the last row admits
//! the sheet and none that does has less for any node, and only one row can be
//! like that. If a late node has 16 already, no row admits the sheet.
//!
//! The rounds of the request are one such order, and the one by which the row is
//! found here is another. Where no row is found, the node to be named depends on
//! the order, so for this the rounds are run as the request has them.

use crate::admission::listed;
use crate::sheet::{Bus, MOST_BUDGET, MOST_NODES};
use crate::{refusal, success, Answer};

/// The bus of a sheet, if the room is long enough for a row.
pub(crate) fn check(sheet: &[u32], room: &[u32]) -> Result<Bus, Answer> {
    let bus = Bus::read(sheet)?;
    match room.len() < MOST_NODES {
        true => Err(refusal(6, 0, 0)),
        false => Ok(bus),
    }
}

/// Budget 1 everywhere, whatever the sheet has.
pub(crate) fn start(bus: &mut Bus) {
    (0..bus.nodes().len()).for_each(|node| bus.set_budget(node, 1));
}

/// Whether the node has a late stream by the budgets that the bus has now.
pub(crate) fn is_late(bus: &Bus, node: usize) -> bool {
    let node = &bus.nodes()[node];
    (node.first..node.first + node.count).any(|stream| listed(bus, stream).is_none())
}

pub(crate) fn late_nodes(bus: &Bus) -> Vec<usize> {
    let nodes = 0..bus.nodes().len();
    nodes.filter(|&node| is_late(bus, node)).collect()
}

/// Gives one more to each of these nodes and answers whether there are any, or
/// the first of them that has `most` already.
pub(crate) fn raise(bus: &mut Bus, nodes: &[usize], most: usize) -> Result<bool, usize> {
    let full = |&&node: &&usize| bus.nodes()[node].budget == most;
    if let Some(&node) = nodes.iter().find(full) {
        return Err(node);
    }
    for &node in nodes {
        bus.set_budget(node, bus.nodes()[node].budget + 1);
    }
    Ok(!nodes.is_empty())
}

/// One round of the request. The late nodes are all known before the first of
/// them gets more.
pub(crate) fn round(bus: &mut Bus) -> Result<bool, usize> {
    let late = late_nodes(bus);
    raise(bus, &late, MOST_BUDGET)
}

/// Each node in turn gets more until it is not late, round and round, until all
/// have been looked at since the last change. Answers whether that ends with no
/// late node.
fn settle(bus: &mut Bus) -> bool {
    let nodes = bus.nodes().len();
    let (mut node, mut in_time) = (0, 0);
    while in_time < nodes {
        if !is_late(bus, node) {
            in_time += 1;
            node = (node + 1) % nodes;
        } else if raise(bus, &[node], MOST_BUDGET).is_ok() {
            in_time = 0;
        } else {
            return false;
        }
    }
    true
}

/// Goes on by rounds until one changes nothing, and writes the row or names the
/// node that can get no more.
pub(crate) fn go_on(
    bus: &mut Bus,
    room: &mut [u32],
    round: impl Fn(&mut Bus) -> Result<bool, usize>,
) -> Answer {
    loop {
        match round(bus) {
            Ok(true) => {}
            Ok(false) => return write_row(bus, room),
            Err(node) => return refusal(11, node as u32 + 1, 0),
        }
    }
}

/// Writes the budgets that the bus has now.
fn write_row(bus: &Bus, room: &mut [u32]) -> Answer {
    let mut row = [0; MOST_NODES];
    for (word, node) in row.iter_mut().zip(bus.nodes()) {
        *word = node.budget as u32;
    }
    room[..MOST_NODES].copy_from_slice(&row);
    success(row.iter().map(|&word| u64::from(word)).sum(), bus.cycle())
}

/// Writes the least budgets that admit the sheet into the first sixteen words,
/// 0 past the last node, and answers their sum and the full cycle. Refusals 1 to
/// 6 and 11.
pub fn find_budgets(sheet: &[u32], room: &mut [u32]) -> Answer {
    let mut bus = match check(sheet, room) {
        Ok(bus) => bus,
        Err(answer) => return answer,
    };
    start(&mut bus);
    if settle(&mut bus) {
        return write_row(&bus, room);
    }
    start(&mut bus);
    go_on(&mut bus, room, round)
}

/// The same by the rounds alone.
pub fn find_budgets_by_rounds(sheet: &[u32], room: &mut [u32]) -> Answer {
    match check(sheet, room) {
        Ok(mut bus) => {
            start(&mut bus);
            go_on(&mut bus, room, round)
        }
        Err(answer) => answer,
    }
}
