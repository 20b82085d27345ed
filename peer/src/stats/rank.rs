//! Which level of the rank put one stream of a node before another: in a
//! sheet, and at the turns of a replay or a step. Read off the words alone.

use std::collections::{BTreeSet, VecDeque};

use crate::generate::Case;
use crate::NOT_BEGUN;

/// Deadline, period and place in the node: the order of these is the rank.
type Stream = (u32, u32, usize);

/// The levels met, by name.
pub(super) type Levels = BTreeSet<&'static str>;

/// What puts the first of two streams before the second; none where the
/// shorter deadline goes along with the old rank by period and number.
fn level(first: Stream, second: Stream) -> Option<&'static str> {
    if first.0 != second.0 {
        return match (second.1, second.2) < (first.1, first.2) {
            true if second.1 < first.1 => Some("deadline against period"),
            true => Some("deadline against number"),
            false => None,
        };
    }
    Some(match first.1 == second.1 {
        true => "number",
        false if first.2 < second.2 => "period along with number",
        false => "period against number",
    })
}

/// The streams of each node of a valid sheet, in sheet order.
fn nodes(sheet: &[u32]) -> Vec<Vec<Stream>> {
    let rows = sheet[3..].chunks_exact(3).take(sheet[0] as usize);
    rows.map(|row| {
        let body = sheet[row[0] as usize..].chunks_exact(3);
        let streams = body.take(row[1] as usize).enumerate();
        streams.map(|(place, words)| (words[1], words[0], place))
    })
    .map(Iterator::collect)
    .collect()
}

/// Adds the levels that put one of the first ahead of one of the others.
fn add_levels(levels: &mut Levels, first: &[Stream], others: &[Stream]) {
    for one in first {
        let behind = others.iter().filter(|&other| one < other);
        levels.extend(behind.filter_map(|other| level(*one, *other)));
    }
}

pub(super) fn of_sheet(sheet: &[u32]) -> Levels {
    let mut levels = Levels::new();
    for streams in nodes(sheet) {
        add_levels(&mut levels, &streams, &streams);
    }
    levels
}

/// The releases of a stream still to begin: tick and begin.
type Queue = (Stream, VecDeque<(u32, u32)>);

/// The queues of each node, from the begins of a whole replay.
fn queues(case: &Case, begins: &[u32]) -> Vec<Vec<Queue>> {
    let mut running = 0;
    let mut queue_of = |stream: Stream| {
        running += 1;
        let releases = case.log.chunks_exact(2).zip(begins);
        let own = releases.filter(|(release, _)| release[1] == running);
        (
            stream,
            own.map(|(release, &begin)| (release[0], begin)).collect(),
        )
    };
    let nodes = nodes(&case.sheet).into_iter();
    nodes
        .map(|streams| streams.into_iter().map(&mut queue_of).collect())
        .collect()
}

/// What one turn after the other of a node took, and what it left waiting.
fn add_turns(levels: &mut Levels, queues: &mut [Queue], message: u32) {
    let head = |queue: &Queue| queue.1.front().copied().unwrap_or((u32::MAX, NOT_BEGUN));
    while let Some(start) = queues.iter().map(|queue| head(queue).1).min() {
        if start == NOT_BEGUN {
            return;
        }
        let waiting = queues.iter().filter(|queue| head(queue).0 <= start);
        let waiting: Vec<Stream> = waiting.map(|queue| queue.0).collect();
        // A slot lies between two turns, so that their begins never join.
        let (mut taken, mut begin) = (Vec::new(), start);
        while let Some(queue) = queues.iter_mut().find(|queue| head(queue).1 == begin) {
            queue.1.pop_front();
            taken.push(queue.0);
            begin += message;
        }
        add_levels(levels, &taken, &waiting);
    }
}

pub(super) fn of_replay(case: &Case, begins: &[u32]) -> Levels {
    let mut levels = Levels::new();
    for mut queues in queues(case, begins) {
        add_turns(&mut levels, &mut queues, case.sheet[1]);
    }
    levels
}

/// From the words that the step left, and those that the case held.
pub(super) fn of_step(case: &Case, after: &[u32]) -> Levels {
    let nodes = nodes(&case.sheet);
    let node = case.record.node as usize - 1;
    let before: usize = nodes[..node].iter().map(Vec::len).sum();
    let (mut waiting, mut taken) = (Vec::new(), Vec::new());
    for (index, release) in case.log.chunks_exact(2).enumerate() {
        let stream = (release[1] as usize - 1).checked_sub(before);
        let Some(&stream) = stream.and_then(|place| nodes[node].get(place)) else {
            continue;
        };
        if release[0] <= case.record.tick && case.step_room[index] == NOT_BEGUN {
            waiting.push(stream);
            if after[index] != NOT_BEGUN {
                taken.push(stream);
            }
        }
    }
    let mut levels = Levels::new();
    add_levels(&mut levels, &taken, &waiting);
    levels
}
