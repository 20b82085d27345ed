//! The wrong searches for budgets. Request Five of document 02 says who gets
//! one more in a round, by which row that is judged, and which node is named
//! where that comes to an end.

use crate::budgets::{check, go_on, is_late, late_nodes, raise, round, start};
use crate::sheet::{Bus, MOST_BUDGET, MOST_NODES};
use crate::{find_budgets, read_tables, refusal, Answer};

/// Error 30: only the first late node of a round gets one more.
pub fn find_one_a_round(sheet: &[u32], room: &mut [u32]) -> Answer {
    find_with(sheet, room, |bus| {
        let late = late_nodes(bus);
        raise(bus, &late[..late.len().min(1)], MOST_BUDGET)
    })
}

/// Error 31: a node is judged by the row that is being raised, in which those
/// before it have their one more already.
pub fn find_by_the_new_row(sheet: &[u32], room: &mut [u32]) -> Answer {
    find_with(sheet, room, |bus| {
        let mut any = false;
        for node in 0..bus.nodes().len() {
            if is_late(bus, node) {
                any = raise(bus, &[node], MOST_BUDGET)?;
            }
        }
        Ok(any)
    })
}

/// Error 32: the rounds start from the budgets of the sheet.
pub fn find_from_own_budgets(sheet: &[u32], room: &mut [u32]) -> Answer {
    match check(sheet, room) {
        Ok(mut bus) => go_on(&mut bus, room, round),
        Err(answer) => answer,
    }
}

/// Error 33: nobody gets more than 15.
pub fn find_to_fifteen(sheet: &[u32], room: &mut [u32]) -> Answer {
    find_to(sheet, room, 15)
}

/// Error 34: the node that is named has 16 but need not be late.
pub fn find_naming_any_at_sixteen(sheet: &[u32], room: &mut [u32]) -> Answer {
    find_with(sheet, room, |bus| {
        let mut nodes = bus.nodes().iter();
        let first = nodes.position(|node| node.budget == MOST_BUDGET);
        round(bus).map_err(|node| first.unwrap_or(node))
    })
}

/// Error 35: the node that is named is late but need not have 16.
pub fn find_naming_any_late(sheet: &[u32], room: &mut [u32]) -> Answer {
    find_with(sheet, room, |bus| {
        let first = late_nodes(bus).first().copied();
        round(bus).map_err(|node| first.unwrap_or(node))
    })
}

/// Error 36: the cycle that is answered is that of the sheet's own budgets.
pub fn find_with_own_cycle(sheet: &[u32], room: &mut [u32]) -> Answer {
    let mut answer = find_budgets(sheet, room);
    if let (0, Ok(bus)) = (answer.number, Bus::read(sheet)) {
        answer.third = bus.cycle() as u32;
    }
    answer
}

/// Error 37: the words past the last node are left as they are.
pub fn find_writing_nodes_only(sheet: &[u32], room: &mut [u32]) -> Answer {
    let mut row = room.to_vec();
    let answer = find_budgets(sheet, &mut row);
    let nodes = read_tables(sheet).map_or(0, |tables| tables.counts.len());
    room.iter_mut()
        .zip(row)
        .take(nodes)
        .for_each(|(word, new)| *word = new);
    answer
}

/// Error 38: a room with a word a node is long enough.
pub fn find_in_a_short_room(sheet: &[u32], room: &mut [u32]) -> Answer {
    let nodes = read_tables(sheet).map_or(0, |tables| tables.counts.len());
    if room.len() < nodes {
        return refusal(6, 0, 0);
    }
    let mut row = room.to_vec();
    row.resize(room.len().max(MOST_NODES), 0);
    let answer = find_budgets(sheet, &mut row);
    room.copy_from_slice(&row[..room.len()]);
    answer
}

/// Error 39: refusal 11 goes before refusal 6.
pub fn find_before_the_room(sheet: &[u32], room: &mut [u32]) -> Answer {
    let answer = find_budgets(sheet, room);
    let later = find_budgets(sheet, &mut [0; MOST_NODES]);
    match (answer.number, later.number) {
        (6, 11) => later,
        _ => answer,
    }
}

/// No error: the rounds go on up to 17, and the answer is the same. A node that
/// is in time has no period as short as the cycle and the jitter together, so
/// that the first cycle brings at most fifteen releases above any of its
/// streams. With 16 in place of 17 it would be in time just as well, and sooner.
/// So whoever is late at 16 is late at 17, one round later, when no other node
/// can have 17.
pub fn find_to_seventeen(sheet: &[u32], room: &mut [u32]) -> Answer {
    find_to(sheet, room, 17)
}

fn find_to(sheet: &[u32], room: &mut [u32], most: usize) -> Answer {
    find_with(sheet, room, |bus| {
        let late = late_nodes(bus);
        raise(bus, &late, most)
    })
}

/// As in the good program, but for what one round does.
pub(super) fn find_with(
    sheet: &[u32],
    room: &mut [u32],
    round: impl Fn(&mut Bus) -> Result<bool, usize>,
) -> Answer {
    match check(sheet, room) {
        Ok(mut bus) => {
            start(&mut bus);
            go_on(&mut bus, room, round)
        }
        Err(answer) => answer,
    }
}
