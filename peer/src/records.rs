//! The replay with a record of each stream beside the begin ticks. The list is
//! worked out afresh from the log and the begin ticks, once the last turn is
//! over; a program that keeps it as the messages begin must come to the same
//! after every turn.

use crate::admission::listed;
use crate::replay::{check, write_begins};
use crate::sheet::Bus;
use crate::{refusal, Answer, NOT_BEGUN};

/// What is recorded of a stream.
#[derive(Clone, Copy, Default, PartialEq, Eq, Debug)]
pub struct StreamRecord {
    /// Its messages begun.
    pub begun: u32,
    /// The longest of their waits.
    pub longest: u32,
    /// How many of them waited longer than the listed wait; 0 for a late stream.
    pub over: u32,
}

impl StreamRecord {
    /// One message more, after this wait; a late stream has no listed wait.
    fn add(&mut self, wait: u32, listed: Option<u64>) {
        self.begun += 1;
        self.longest = self.longest.max(wait);
        self.over += u32::from(listed.is_some_and(|listed| u64::from(wait) > listed));
    }
}

/// The bus of what a replay with such a list accepts.
pub(crate) fn check_with_list(
    sheet: &[u32],
    log: &[u32],
    horizon: u32,
    room: &[u32],
    records: &[StreamRecord],
) -> Result<Bus, Answer> {
    let bus = check(sheet, log, horizon, room)?;
    match records.len() < bus.streams().len() {
        true => Err(refusal(6, 0, 0)),
        false => Ok(bus),
    }
}

/// Stream and wait of each message that has begun, in log order.
pub(crate) fn waits<'a>(
    log: &'a [u32],
    begins: &'a [u32],
) -> impl Iterator<Item = (usize, u32)> + 'a {
    let releases = log.chunks_exact(2).zip(begins);
    let begun = releases.filter(|(_, &begin)| begin != NOT_BEGUN);
    begun.map(|(release, begin)| (release[1] as usize - 1, begin - release[0]))
}

/// The records of a sheet's streams, from the log and the begins.
pub(crate) fn work_out(bus: &Bus, log: &[u32], begins: &[u32]) -> Vec<StreamRecord> {
    let streams = bus.streams().len();
    let listed: Vec<Option<u64>> = (0..streams)
        .map(|stream| listed(bus, stream).map(|found| found.wait))
        .collect();
    let mut records = vec![StreamRecord::default(); streams];
    for (stream, wait) in waits(log, begins) {
        records[stream].add(wait, listed[stream]);
    }
    records
}

/// The same of a valid sheet and a log that it accepts.
pub fn records_afresh(sheet: &[u32], log: &[u32], begins: &[u32]) -> Option<Vec<StreamRecord>> {
    let bus = Bus::read(sheet).ok()?;
    Some(work_out(&bus, log, begins))
}

/// The replay, and the records of the sheet's streams in the first places of the
/// list.
pub fn replay_with_records(
    sheet: &[u32],
    log: &[u32],
    horizon: u32,
    room: &mut [u32],
    records: &mut [StreamRecord],
) -> Answer {
    let bus = match check_with_list(sheet, log, horizon, room, records) {
        Ok(bus) => bus,
        Err(answer) => return answer,
    };
    let answer = write_begins(&bus, log, horizon, room);
    let worked_out = work_out(&bus, log, &room[..log.len() / 2]);
    records[..worked_out.len()].copy_from_slice(&worked_out);
    answer
}
