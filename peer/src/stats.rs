//! How generated cases spread over the answers and over their causes. The
//! causes are read off the words here, apart from the code that refuses.

mod budgets;
mod edges;
mod edits;
mod jitter;
mod pieces;
mod rank;
mod records;
mod search;
mod tables;

use std::collections::BTreeMap;
use std::fmt;

use crate::admission::{last_try, Above};
use crate::generate::{case, total_tries, Case, FAR_BEGIN, FAR_TURNS, FAR_WAIT};
use crate::sheet::{Bus, LAST_TICK};
use crate::{admit, check_sheet, one_stream, replay, step, Answer, NOT_BEGUN};
use edges::{count_edges, edge};
use jitter::count_jitters;
use search::{count_found, count_late};

pub use budgets::{gather_budgets, no_row_names, round_count, row_names, NO_ROW_NAMES, ROW_NAMES};
pub use edits::{alike_names, edit_names, gather_alike, gather_edits};
pub use edits::{ALIKE_NAMES, MOVED_NAMES, NEW_WORDS_NAMES, NOT_OWN_NAMES};
pub use edits::{NO_STREAM_NAMES, OLD_WORDS_NAMES, SET_NAMES};
pub use jitter::{event_names, jitter_names, kinds_of_jitters};
pub use jitter::{EVENT_NAMES, IN_TIME_NAMES, JITTER_NAMES, TOO_LATE_NAMES};
pub use pieces::{gather_pieces, joined_names, Resumed};
pub use pieces::{HORIZON_FAULTS, JOINED_NAMES, PIECE_FAULTS, PIECE_NAMES, RECORD_FAULTS};
pub use records::{gather_records, list_names, LIST_NAMES};
pub use search::{found_names, late_name, FOUND_NAMES, LATE_NAMES};
pub use tables::{gather_tables, tables_fault};

/// Counts by name, one line each when written out.
#[derive(Default)]
pub struct Figures {
    counts: BTreeMap<String, u64>,
}

impl Figures {
    /// 0 for what never happened.
    pub fn count(&self, name: &str) -> u64 {
        self.counts.get(name).copied().unwrap_or(0)
    }

    fn add(&mut self, name: String) {
        *self.counts.entry(name).or_insert(0) += 1;
    }

    fn total(&mut self, name: &str, amount: u64) {
        *self.counts.entry(name.to_string()).or_insert(0) += amount;
    }

    fn highest(&mut self, name: &str, amount: u64) {
        let entry = self.counts.entry(name.to_string()).or_insert(0);
        *entry = (*entry).max(amount);
    }
}

impl fmt::Display for Figures {
    fn fmt(&self, out: &mut fmt::Formatter) -> fmt::Result {
        for (name, count) in &self.counts {
            writeln!(out, "{name}: {count}")?;
        }
        Ok(())
    }
}

/// The names that fit.
fn fitting<const N: usize>(names: [&'static str; N], fits: [bool; N]) -> Vec<&'static str> {
    let pairs = names.into_iter().zip(fits);
    pairs
        .filter_map(|(name, fits)| fits.then_some(name))
        .collect()
}

pub fn gather(seed: u64, count: u64) -> Figures {
    let mut figures = Figures::default();
    for index in 0..count {
        let case = case(seed, index);
        figures.total("cases", 1);
        count_sheet(&mut figures, &case);
        count_question(&mut figures, &case);
        count_rooms(&mut figures, &case);
        count_admit(&mut figures, &case);
        count_replay(&mut figures, &case);
        count_step(&mut figures, &case);
    }
    figures
}

/// Which of the three words of a row are wrong.
fn row_cause(sheet: &[u32], node: usize) -> &'static str {
    let row = |node: usize| &sheet[3 * node..3 * node + 3];
    let before: u32 = (1..node).map(|node| 3 * row(node)[1]).sum();
    let place = row(node)[0] != 3 + 3 * sheet[0] + before;
    let count = row(node)[1] > 16;
    let budget = row(node)[2] < 1 || row(node)[2] > 16;
    match (place, count, budget) {
        (true, false, false) => "place",
        (false, true, false) => "stream count",
        (false, false, true) if row(node)[2] == 0 => "budget low",
        (false, false, true) => "budget high",
        _ => "several words of a row",
    }
}

fn length_cause(sheet: &[u32]) -> &'static str {
    let contents = 3 + 3 * sheet[0] as usize;
    if sheet.len() < contents {
        return "short contents";
    }
    let rows = sheet[3..contents].chunks_exact(3);
    let end = contents + rows.map(|row| 3 * row[1] as usize).sum::<usize>();
    match sheet.len() < end {
        true => "bodies too short",
        false => "bodies too long",
    }
}

/// Which word of a stream of a sheet is wrong, given its place in refusal 5.
pub fn sheet_fault(sheet: &[u32], node: u32, stream: u32) -> &'static str {
    let place = sheet[3 * node as usize] as usize + 3 * (stream as usize - 1);
    words_cause(sheet[place], sheet[place + 1], sheet[place + 2])
}

/// How a jitter is wrong.
pub const JITTER_FAULTS: [&str; 2] = ["jitter at period", "jitter above period"];

/// Which word of a stream is wrong.
fn words_cause(period: u32, deadline: u32, jitter: u32) -> &'static str {
    match (period, deadline) {
        (0, _) => "period low",
        (period, _) if period > LAST_TICK => "period high",
        (_, 0) => "deadline low",
        (period, deadline) if deadline > period => "deadline above period",
        (period, _) if jitter == period => JITTER_FAULTS[0],
        _ => JITTER_FAULTS[1],
    }
}

fn header_cause(word: u32) -> &'static str {
    match word {
        0 => "low",
        _ => "high",
    }
}

fn sheet_cause(sheet: &[u32], answer: Answer) -> String {
    let (node, stream) = (answer.second, answer.third);
    match answer.number {
        1 => format!("1 with {} words", sheet.len()),
        2 => format!("2 {}", header_cause(sheet[0])),
        3 if (1..=10_000).contains(&sheet[1]) => format!("3 slot {}", header_cause(sheet[2])),
        3 => format!("3 message {}", header_cause(sheet[1])),
        4 if node == 0 => format!("4 {}", length_cause(sheet)),
        4 => format!("4 {}", row_cause(sheet, node as usize)),
        5 => format!("5 {}", sheet_fault(sheet, node, stream)),
        other => format!("{other} unexpected"),
    }
}

fn count_sheet(figures: &mut Figures, case: &Case) {
    let answer = check_sheet(&case.sheet);
    if answer.number != 0 {
        figures.add(format!("sheet {}", sheet_cause(&case.sheet, answer)));
        return;
    }
    figures.total("sheet valid", 1);
    figures.add(format!("sheet of {:2} nodes", case.sheet[0]));
    for row in case.sheet[3..].chunks_exact(3).take(case.sheet[0] as usize) {
        figures.add(format!("node of {:2} streams", row[1]));
    }
    for level in rank::of_sheet(&case.sheet) {
        figures.add(format!("sheet ranked by {level}"));
    }
    if demand_is_wide(&case.sheet) {
        figures.total("sheet with a sum past 32 bits", 1);
    }
    let answer = admit(&case.sheet, &mut [0; 256]);
    let admitted = answer.number == 0;
    figures.total("sheet admitted", u64::from(admitted));
    if admitted && answer.second > 0 {
        figures.total("sheet admitted with streams", 1);
    }
    count_edges(figures, &case.sheet, answer);
    count_jitters(figures, &case.sheet);
}

/// Whether some search sums up more releases than 32 bits hold.
fn demand_is_wide(sheet: &[u32]) -> bool {
    let Ok(bus) = Bus::read(sheet) else {
        return false;
    };
    let releases = |stream: usize| {
        let last = (last_try(&bus, stream) * bus.cycle()).saturating_sub(1);
        bus.above(stream)
            .map(|other| Above::from(&bus.streams()[other]).releases(last))
            .sum::<u64>()
    };
    (0..bus.streams().len()).any(|stream| releases(stream) > u64::from(u32::MAX))
}

fn question_cause(case: &Case) -> &'static str {
    if case.node == 0 || case.node > case.sheet[0] {
        return match case.node {
            0 => "node 0",
            _ => "node too large",
        };
    }
    match case.stream {
        0 => "stream 0",
        _ => "stream too large",
    }
}

fn count_question(figures: &mut Figures, case: &Case) {
    let answer = one_stream(&case.sheet, case.node, case.stream);
    match answer.number {
        0 => {
            let cycles = match answer.third {
                1 => "1",
                2 => "2",
                3..=9 => "3 to 9",
                10..=999 => "10 to 999",
                _ => "1000 or more",
            };
            figures.add(format!("one stream 0, J {cycles}"));
            figures.total("one stream 0, J 2 or more", u64::from(answer.third >= 2));
            let far = answer.second > FAR_WAIT;
            figures.total("one stream 0, a wait over 10^8", u64::from(far));
            count_found(figures, &case.sheet, case.node, u64::from(answer.third));
        }
        7 => {
            figures.add("one stream 7".to_string());
            count_late(figures, &case.sheet, case.node, case.stream);
        }
        8 => figures.add(format!("one stream 8 {}", question_cause(case))),
        number => figures.add(format!("one stream {number}")),
    }
    if let (0 | 7, Ok(bus)) = (answer.number, Bus::read(&case.sheet)) {
        let stream = bus.find(case.node, case.stream);
        if let Some((kind, _)) = stream.and_then(|stream| edge(&bus, stream)) {
            figures.add(format!("one stream {}, {kind}", answer.number));
        }
    }
    for name in jitter_names(&case.sheet, case.node, case.stream) {
        figures.add(format!("one stream {}, {name}", answer.number));
    }
}

/// How long a room is for what an entry wants to write.
fn room_kind(words: usize, needed: usize) -> &'static str {
    match words {
        0 => "empty",
        _ if words < needed => "short",
        _ if words == needed => "exact",
        _ => "longer",
    }
}

fn count_rooms(figures: &mut Figures, case: &Case) {
    let Ok(bus) = Bus::read(&case.sheet) else {
        return;
    };
    let (streams, releases) = (bus.streams().len(), case.log.len() / 2);
    let (room, step_room) = (case.room.len(), case.step_room.len());
    figures.add(format!("room of admit {}", room_kind(room, streams)));
    figures.add(format!("room of replay {}", room_kind(room, releases)));
    figures.add(format!("room of step {}", room_kind(step_room, releases)));
}

fn count_admit(figures: &mut Figures, case: &Case) {
    let mut room = case.room.clone();
    let answer = admit(&case.sheet, &mut room);
    figures.add(format!("admit {}", answer.number));
    if answer.number == 0 {
        let waits = &room[..answer.second as usize];
        let far = waits.iter().any(|&wait| wait > FAR_WAIT);
        figures.total("admit 0, a wait over 10^8", u64::from(far));
    }
    if let Ok(bus) = Bus::read(&case.sheet) {
        let tries = total_tries(&bus, u64::MAX);
        figures.highest("most tries of a sheet", tries);
        figures.total("tries of all sheets", tries);
    }
}

fn log_cause(log: &[u32], answer: Answer) -> &'static str {
    if answer.third == 0 {
        return match log.len() % 2 {
            0 => "too many releases",
            _ => "odd length",
        };
    }
    let at = 2 * (answer.third as usize - 1);
    match (log[at], log[at + 1]) {
        (tick, _) if tick > LAST_TICK => "tick too large",
        (tick, _) if at > 0 && tick < log[at - 2] => "falling tick",
        (_, 0) => "stream 0",
        _ => "stream too large",
    }
}

fn count_replay(figures: &mut Figures, case: &Case) {
    let mut room = case.room.clone();
    let answer = replay(&case.sheet, &case.log, case.horizon, &mut room);
    match answer.number {
        0 => {
            let releases = case.log.len() / 2;
            let begun = || room[..releases].iter().filter(|&&word| word != NOT_BEGUN);
            let far_begin = begun().any(|&begin| begin > FAR_BEGIN);
            let far_turns = answer.second > FAR_TURNS;
            figures.add("replay 0".to_string());
            figures.total("releases replayed", releases as u64);
            figures.total("releases begun", begun().count() as u64);
            figures.total("replay 0, a begin over 10^9", u64::from(far_begin));
            figures.total("replay 0, over 10^6 turns", u64::from(far_turns));
            figures.total("turns of all replays", u64::from(answer.second));
            figures.highest("most turns of a replay", u64::from(answer.second));
            figures.total("replay 0, empty log", u64::from(releases == 0));
            figures.total("replay 0, 4096 releases", u64::from(releases == 4096));
            figures.total("replay 0, horizon 0", u64::from(case.horizon == 0));
            figures.total(
                "replay 0, horizon 10^9",
                u64::from(case.horizon == LAST_TICK),
            );
            for level in rank::of_replay(case, &room) {
                figures.add(format!("replay 0, ordered by {level}"));
            }
            for name in event_names(case) {
                figures.add(format!("replay 0, {name}"));
            }
        }
        9 => figures.add(format!("replay 9 {}", log_cause(&case.log, answer))),
        number => figures.add(format!("replay {number}")),
    }
}

fn record_cause(case: &Case) -> &'static str {
    let tick = case.record.tick > LAST_TICK;
    let turns = case.record.turns > LAST_TICK;
    let node = case.record.node == 0 || case.record.node > case.sheet[0];
    match (tick, turns, node) {
        (true, false, false) => "tick",
        (false, true, false) => "turns",
        (false, false, true) if case.record.node == 0 => "node 0",
        (false, false, true) => "node too large",
        _ => "several",
    }
}

fn count_step(figures: &mut Figures, case: &Case) {
    let (mut record, mut room) = (case.record, case.step_room.clone());
    let answer = step(&case.sheet, &case.log, &mut record, &mut room);
    match answer.number {
        0 => {
            let taken = match answer.second {
                0 => "0",
                1 => "1",
                _ => "2 or more",
            };
            figures.add(format!("step 0, taken {taken}"));
            let mut words = room.iter().zip(&case.step_room);
            let far = words.any(|(new, old)| new != old && *new > FAR_BEGIN);
            figures.total("step 0, a begin over 10^9", u64::from(far));
            for level in rank::of_step(case, &room) {
                figures.add(format!("step 0, ordered by {level}"));
            }
        }
        9 => figures.add(format!("step 9 {}", log_cause(&case.log, answer))),
        16 => figures.add(format!("step 16 {}", record_cause(case))),
        number => figures.add(format!("step {number}")),
    }
}
