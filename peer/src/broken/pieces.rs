//! The wrong replays by pieces. Request Seven of document 02 says what a piece
//! may hold, what stands in the places after it, and in which order and by what
//! it is refused.

use crate::log::{check_releases, MOST_RELEASES};
use crate::pieces::{all_waiting, carry_on, check_horizon, check_piece, check_record, check_space};
use crate::pieces::{most_releases, ticks_of_piece, Run, MOST_WAITING};
use crate::sheet::Bus;
use crate::{refusal, resume, Answer, Checkpoint, Lent};

/// Error 54: a tick at the new horizon is taken.
pub fn resume_to_the_horizon(lent: &Lent, record: &mut Checkpoint, room: &mut [u32]) -> Answer {
    resume_judging(lent, record, room, |bus, record| {
        let ticks = ticks_of_piece(record, lent.horizon.saturating_add(1));
        check_record(bus, record)?;
        check_releases(
            lent.piece,
            bus.streams().len(),
            most_releases(record),
            ticks,
        )
    })
}

/// Error 55: the last of the waiting takes the place of one that has begun, and
/// the log order is lost.
pub fn resume_losing_order(lent: &Lent, record: &mut Checkpoint, room: &mut [u32]) -> Answer {
    resume_changed(lent, record, room, |run, _, after| {
        let mut left: Vec<usize> = (0..run.messages.len()).collect();
        for (begun, _) in &run.begun {
            let place = left.iter().position(|index| index == begun);
            place.map(|place| left.swap_remove(place));
        }
        for (place, index) in after.places.iter_mut().zip(left) {
            *place = run.messages[index];
        }
    })
}

/// Error 56: a place past the waiting still holds what it held.
pub fn resume_leaving_stale(lent: &Lent, record: &mut Checkpoint, room: &mut [u32]) -> Answer {
    resume_changed(lent, record, room, |run, before, after| {
        for place in after.waiting as usize..MOST_WAITING {
            let held = run.messages.get(place);
            after.places[place] = *held.unwrap_or(&before.places[place]);
        }
    })
}

/// Error 57: the releases of each piece are numbered from 1.
pub fn resume_numbering_anew(lent: &Lent, record: &mut Checkpoint, room: &mut [u32]) -> Answer {
    resume_running(lent, record, room, |run, waiting| {
        for (number, message) in (1..).zip(&mut run.messages[waiting..]) {
            message.number = number;
        }
        run.go_to(u64::from(lent.horizon));
    })
}

/// Error 58: the turns that are answered are those of the piece alone.
pub fn resume_counting_anew(lent: &Lent, record: &mut Checkpoint, room: &mut [u32]) -> Answer {
    let before = record.turns;
    let mut answer = resume(lent, record, room);
    if answer.number == 0 {
        answer.third -= before;
    }
    answer
}

/// Error 59: refusal 12 only if the places run out on the way. A place is free
/// again when its message begins.
pub fn resume_till_places_run_out(
    lent: &Lent,
    record: &mut Checkpoint,
    room: &mut [u32],
) -> Answer {
    let answer = resume(lent, record, room);
    let (12, Ok(bus)) = (answer.number, Bus::read(lent.sheet)) else {
        return answer;
    };
    let mut run = Run::new(&bus, record, lent.piece);
    run.go_to(u64::from(lent.horizon));
    let places = run.messages.iter().enumerate();
    let mut added = places.skip(record.waiting as usize);
    let full = added.any(|(index, message)| {
        let tick = u64::from(message.tick);
        let free = run.begun.iter().filter(|begun| begun.1 < tick).count();
        index - free >= MOST_WAITING
    });
    if full || run.left().len() > MOST_WAITING {
        return answer;
    }
    if room.len() < 2 * run.messages.len() {
        return refusal(6, 0, 0);
    }
    carry_on(&bus, lent, record, room)
}

/// Error 60: refusal 6 asks two words only for each message that begins.
pub fn resume_in_a_short_room(lent: &Lent, record: &mut Checkpoint, room: &mut [u32]) -> Answer {
    let mut long = room.to_vec();
    long.resize(room.len().max(2 * MOST_WAITING), 0);
    let mut after = record.clone();
    let answer = resume(lent, &mut after, &mut long);
    if answer.number == 0 && room.len() < 2 * answer.second as usize {
        return refusal(6, 0, 0);
    }
    room.copy_from_slice(&long[..room.len()]);
    *record = after;
    answer
}

/// Error 61: with refusal 12 the record has those of the releases that found a
/// place.
pub fn resume_adding_before_refusal(
    lent: &Lent,
    record: &mut Checkpoint,
    room: &mut [u32],
) -> Answer {
    let answer = resume(lent, record, room);
    if let (12, Ok(bus)) = (answer.number, Bus::read(lent.sheet)) {
        let free = MOST_WAITING - record.waiting as usize;
        let run = Run::new(&bus, record, &lent.piece[..2 * free]);
        record.places.copy_from_slice(&run.messages);
        record.waiting = MOST_WAITING as u32;
        record.releases += free as u32;
    }
    answer
}

/// Error 62: what waits in the record is due, whatever its tick.
pub fn resume_with_all_due(lent: &Lent, record: &mut Checkpoint, room: &mut [u32]) -> Answer {
    resume_running(lent, record, room, |run, waiting| {
        let messages = run.messages.clone();
        for message in &mut run.messages[..waiting] {
            message.tick = 0;
        }
        run.queue();
        run.go_to(u64::from(lent.horizon));
        run.messages = messages;
    })
}

/// Error 63: the order of the step's refusals, 9 before 16.
pub fn resume_record_after_log(lent: &Lent, record: &mut Checkpoint, room: &mut [u32]) -> Answer {
    resume_judging(lent, record, room, |bus, record| {
        check_piece(bus, lent, record)?;
        check_record(bus, record)
    })
}

/// Error 64: the place of refusal 9 counts from the first release of all.
pub fn resume_placing_in_the_log(lent: &Lent, record: &mut Checkpoint, room: &mut [u32]) -> Answer {
    let mut answer = resume(lent, record, room);
    if answer.number == 9 && answer.third > 0 {
        answer.third += record.releases;
    }
    answer
}

/// Error 65: each piece may have as many releases as a log.
pub fn resume_counting_one_piece(lent: &Lent, record: &mut Checkpoint, room: &mut [u32]) -> Answer {
    resume_judging(lent, record, room, |bus, record| {
        let ticks = ticks_of_piece(record, lent.horizon);
        check_record(bus, record)?;
        check_releases(lent.piece, bus.streams().len(), MOST_RELEASES, ticks)
    })
}

/// Error 66: a horizon that stays is refused like a fallen one.
pub fn resume_moving_on_only(lent: &Lent, record: &mut Checkpoint, room: &mut [u32]) -> Answer {
    let stays = record.horizon == lent.horizon;
    resume_refusing(lent, record, room, stays.then_some(10), &[0, 6, 12])
}

/// Error 67: a record whose waiting ticks fall is refused.
pub fn resume_in_order_only(lent: &Lent, record: &mut Checkpoint, room: &mut [u32]) -> Answer {
    let waiting = record.places.iter().take(record.waiting as usize);
    let falls = !waiting.is_sorted_by_key(|place| place.tick);
    resume_refusing(lent, record, room, falls.then_some(16), &[0, 6, 9, 10, 12])
}

/// Error 68: a stream that the sheet has not is refused past the waiting too.
pub fn resume_with_known_streams(lent: &Lent, record: &mut Checkpoint, room: &mut [u32]) -> Answer {
    let streams = Bus::read(lent.sheet).map_or(0, |bus| bus.streams().len()) as u32;
    let mut places = record.places.iter();
    let unknown = places.any(|place| place.stream > streams);
    resume_refusing(
        lent,
        record,
        room,
        unknown.then_some(16),
        &[0, 6, 9, 10, 12],
    )
}

/// Error 69: refusal 6 goes before refusal 12.
pub fn resume_room_before_places(lent: &Lent, record: &mut Checkpoint, room: &mut [u32]) -> Answer {
    let short = room.len() < 2 * all_waiting(lent.piece, record);
    resume_refusing(lent, record, room, short.then_some(6), &[12])
}

/// As in the good program, but for how record and releases are judged.
fn resume_judging<T>(
    lent: &Lent,
    record: &mut Checkpoint,
    room: &mut [u32],
    judge: impl FnOnce(&Bus, &Checkpoint) -> Result<T, Answer>,
) -> Answer {
    let judged = Bus::read(lent.sheet).and_then(|bus| {
        judge(&bus, record)?;
        check_horizon(lent, record)?;
        check_space(lent, record, room)?;
        Ok(bus)
    });
    match judged {
        Ok(bus) => carry_on(&bus, lent, record, room),
        Err(answer) => answer,
    }
}

/// As in the good program, but for how the run goes; `go` is handed the number
/// of those that waited before.
fn resume_running(
    lent: &Lent,
    record: &mut Checkpoint,
    room: &mut [u32],
    go: impl FnOnce(&mut Run, usize),
) -> Answer {
    let mut good = (record.clone(), room.to_vec());
    let answer = resume(lent, &mut good.0, &mut good.1);
    let (0, Ok(bus)) = (answer.number, Bus::read(lent.sheet)) else {
        return answer;
    };
    let mut run = Run::new(&bus, record, lent.piece);
    go(&mut run, record.waiting as usize);
    run.write_begun(room);
    *record = run.record(lent, record.releases);
    run.answer()
}

/// Has the record changed after the run: `change` is handed the run, the record
/// before it and the one after it.
fn resume_changed(
    lent: &Lent,
    record: &mut Checkpoint,
    room: &mut [u32],
    change: impl FnOnce(&Run, &Checkpoint, &mut Checkpoint),
) -> Answer {
    let before = record.clone();
    let answer = resume(lent, record, room);
    if let (0, Ok(bus)) = (answer.number, Bus::read(lent.sheet)) {
        let mut run = Run::new(&bus, &before, lent.piece);
        run.go_to(u64::from(lent.horizon));
        change(&run, &before, record);
    }
    answer
}

/// Gives another refusal at 0 0, if there is one, in place of these answers.
fn resume_refusing(
    lent: &Lent,
    record: &mut Checkpoint,
    room: &mut [u32],
    number: Option<u32>,
    instead_of: &[u32],
) -> Answer {
    let mut good = (record.clone(), room.to_vec());
    let answer = resume(lent, &mut good.0, &mut good.1);
    match number {
        Some(number) if instead_of.contains(&answer.number) => refusal(number, 0, 0),
        _ => {
            *record = good.0;
            room.copy_from_slice(&good.1);
            answer
        }
    }
}
