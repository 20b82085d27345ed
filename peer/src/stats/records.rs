//! How generated cases spread over the answers of the replay with stream records,
//! and what is known by name of a list.

use super::{fitting, Figures};
use crate::admission::listed;
use crate::generate::{records_case, RecordsCase};
use crate::records::waits;
use crate::sheet::Bus;
use crate::{replay_with_records, StreamRecord};

/// What a list that was written may show, or its replay have been.
pub const LIST_NAMES: [&str; 12] = [
    "no stream",
    "no message begun",
    "a stream without a begun message",
    "a message left waiting",
    "a wait as long as listed",
    "a wait longer than listed",
    "several waits longer than listed",
    "a late stream that waited",
    "a late stream beside one over",
    "a longest wait that is not the last",
    "a wait over 10^6",
    "records past the streams",
];

const LONG_WAIT: u32 = 1_000_000;

/// The names that fit what a case that is carried out comes to; none for one that
/// is refused.
pub fn list_names(case: &RecordsCase) -> Vec<&'static str> {
    let (mut room, mut records) = (case.room.clone(), case.records.clone());
    let (sheet, log) = (&case.sheet, &case.log);
    match replay_with_records(sheet, log, case.horizon, &mut room, &mut records).number {
        0 => names(case, &room[..log.len() / 2], &records),
        _ => Vec::new(),
    }
}

fn names(case: &RecordsCase, begins: &[u32], records: &[StreamRecord]) -> Vec<&'static str> {
    let Ok(bus) = Bus::read(&case.sheet) else {
        return Vec::new();
    };
    let streams = bus.streams().len();
    let own = &records[..streams];
    let limits: Vec<Option<u32>> = (0..streams)
        .map(|stream| listed(&bus, stream).map(|found| found.wait as u32))
        .collect();
    let all: Vec<(usize, u32)> = waits(&case.log, begins).collect();
    let with = |test: &dyn Fn(&StreamRecord, Option<u32>) -> bool| {
        own.iter()
            .zip(&limits)
            .any(|(record, limit)| test(record, *limit))
    };
    let last = |stream: usize| {
        let of_stream = all.iter().rev().find(|wait| wait.0 == stream);
        of_stream.map_or(0, |wait| wait.1)
    };
    let late_waited = with(&|record, limit| limit.is_none() && record.longest > 0);
    let over = with(&|record, _| record.over > 0);
    fitting(
        LIST_NAMES,
        [
            streams == 0,
            streams > 0 && all.is_empty(),
            with(&|record, _| record.begun == 0),
            all.len() < case.log.len() / 2,
            all.iter()
                .any(|&(stream, wait)| limits[stream] == Some(wait)),
            over,
            with(&|record, _| record.over > 1),
            late_waited,
            late_waited && over,
            (0..streams).any(|stream| own[stream].longest != last(stream)),
            own.iter().any(|record| record.longest > LONG_WAIT),
            records.len() > streams,
        ],
    )
}

/// Over so many cases.
pub fn gather_records(seed: u64, count: u64) -> Figures {
    let mut figures = Figures::default();
    for index in 0..count {
        let case = records_case(seed, index);
        let (mut room, mut records) = (case.room.clone(), case.records.clone());
        let (sheet, log) = (&case.sheet, &case.log);
        let number = replay_with_records(sheet, log, case.horizon, &mut room, &mut records).number;
        figures.add(format!("records {number}"));
        match number {
            6 if room.len() < log.len() / 2 => figures.add("records 6, room".to_string()),
            6 => figures.add("records 6, list".to_string()),
            _ => {}
        }
        for name in list_names(&case) {
            figures.add(format!("records 0, {name}"));
        }
    }
    figures
}
