//! The entries with their plain three numbers, as the static library answers
//! them; for code that compares or stores whole answers. Everybody else is
//! better served by the functions at the crate's root, which take the same
//! arguments.
//!
//! What this boundary assumes: that a lent table passes as a pointer to its
//! words and then their number, a list of stream records likewise, a record, or a table whose length is fixed, as
//! one pointer, and that an answer comes back as three 32-bit words in C's
//! layout. No compiler holds the declarations here to the Rattle
//! source; tests/declarations.rs compares their text with it. The library asks
//! nothing of its caller, so there is nothing to test before a call.

use crate::{Bus, Checkpoint, Refusal, StreamRecord, Tables};

/// Three numbers. Number 0 is success; any other is a refusal, and the two
/// after it are its place.
///
/// ```
/// use wistorvan::raw;
///
/// let answer = raw::check_sheet(&[17, 5, 1]);
/// assert_eq!((answer.number, answer.second, answer.third), (2, 0, 0));
/// ```
#[repr(C)]
#[derive(Clone, Copy, PartialEq, Eq, Debug)]
pub struct Answer {
    /// 0, or the number of the refusal.
    pub number: u32,
    /// The first of the two numbers of a success, or of a refusal's place.
    pub second: u32,
    /// The second of the two numbers of a success, or of a refusal's place.
    pub third: u32,
}

impl Answer {
    /// The two numbers of a success, or the refusal.
    pub(crate) fn accepted(self) -> Result<(u32, u32), Refusal> {
        match self.number {
            0 => Ok((self.second, self.third)),
            number => Err(Refusal::new(number, (self.second, self.third))),
        }
    }
}

mod linked {
    use super::{Answer, Bus, Checkpoint, StreamRecord};

    extern "C" {
        pub fn wistorvan_check_sheet(sheet: *const u32, sheet_words: usize) -> Answer;
        pub fn wistorvan_one_stream(
            sheet: *const u32,
            sheet_words: usize,
            node: u32,
            stream: u32,
        ) -> Answer;
        pub fn wistorvan_admit(
            sheet: *const u32,
            sheet_words: usize,
            room: *mut u32,
            room_words: usize,
        ) -> Answer;
        pub fn wistorvan_replay(
            sheet: *const u32,
            sheet_words: usize,
            log: *const u32,
            log_words: usize,
            horizon: u32,
            room: *mut u32,
            room_words: usize,
        ) -> Answer;
        pub fn wistorvan_replay_records(
            sheet: *const u32,
            sheet_words: usize,
            log: *const u32,
            log_words: usize,
            horizon: u32,
            room: *mut u32,
            room_words: usize,
            records: *mut StreamRecord,
            records_count: usize,
        ) -> Answer;
        pub fn wistorvan_step(
            sheet: *const u32,
            sheet_words: usize,
            log: *const u32,
            log_words: usize,
            bus: *mut Bus,
            room: *mut u32,
            room_words: usize,
        ) -> Answer;
        pub fn wistorvan_resume(
            sheet: *const u32,
            sheet_words: usize,
            piece: *const u32,
            piece_words: usize,
            horizon: u32,
            checkpoint: *mut Checkpoint,
            room: *mut u32,
            room_words: usize,
        ) -> Answer;
        pub fn wistorvan_write_sheet(
            message_ticks: u32,
            slot_ticks: u32,
            counts: *const u32,
            counts_words: usize,
            budgets: *const u32,
            budgets_words: usize,
            periods: *const u32,
            periods_words: usize,
            deadlines: *const u32,
            deadlines_words: usize,
            jitters: *const u32,
            jitters_words: usize,
            room: *mut u32,
            room_words: usize,
        ) -> Answer;
        pub fn wistorvan_edit_stream(
            sheet: *mut u32,
            sheet_words: usize,
            own_node: u32,
            node: u32,
            stream: u32,
            period: u32,
            deadline: u32,
            jitter: u32,
        ) -> Answer;
        pub fn wistorvan_find_budgets(
            sheet: *const u32,
            sheet_words: usize,
            room: *mut u32,
            room_words: usize,
        ) -> Answer;
    }
}

// SAFETY, of every call below: each pointer goes with the length of its own
// slice; what is only read is lent as const; a room, a list, a record and a sheet
// that is edited are lent for writing and to nobody else meanwhile.

/// [`crate::check_sheet`]: 0 0 0 for a valid sheet.
///
/// ```
/// let answer = wistorvan::raw::check_sheet(&[1, 5, 1, 6, 1, 1, 20, 20, 0]);
/// assert_eq!(answer.number, 0);
/// ```
#[must_use]
pub fn check_sheet(sheet: &[u32]) -> Answer {
    unsafe { linked::wistorvan_check_sheet(sheet.as_ptr(), sheet.len()) }
}

/// [`crate::one_stream`]: the listed wait and J.
///
/// ```
/// let answer = wistorvan::raw::one_stream(&[1, 5, 1, 6, 1, 1, 20, 20, 0], 1, 1);
/// assert_eq!((answer.number, answer.second, answer.third), (0, 5, 1));
/// ```
#[must_use]
pub fn one_stream(sheet: &[u32], node: u32, stream: u32) -> Answer {
    unsafe { linked::wistorvan_one_stream(sheet.as_ptr(), sheet.len(), node, stream) }
}

/// [`crate::admit`]: the number of streams and the full cycle; the listed
/// waits in the room's first words.
///
/// ```
/// let mut room = [0; 1];
/// let answer = wistorvan::raw::admit(&[1, 5, 1, 6, 1, 1, 20, 20, 0], &mut room);
/// assert_eq!((answer.number, answer.second, answer.third), (0, 1, 6));
/// assert_eq!(room, [5]);
/// ```
#[must_use]
pub fn admit(sheet: &[u32], room: &mut [u32]) -> Answer {
    unsafe { linked::wistorvan_admit(sheet.as_ptr(), sheet.len(), room.as_mut_ptr(), room.len()) }
}

/// [`crate::replay`]: the turns started and the tick the next would start; a
/// begin tick for each release in the room's first words.
///
/// ```
/// let mut room = [0; 1];
/// let answer = wistorvan::raw::replay(&[1, 5, 1, 6, 1, 1, 20, 20, 0], &[2, 1], 4, &mut room);
/// assert_eq!((answer.number, answer.second, answer.third), (0, 3, 8));
/// assert_eq!(room, [2]);
/// ```
#[must_use]
pub fn replay(sheet: &[u32], log: &[u32], horizon: u32, room: &mut [u32]) -> Answer {
    unsafe {
        linked::wistorvan_replay(
            sheet.as_ptr(),
            sheet.len(),
            log.as_ptr(),
            log.len(),
            horizon,
            room.as_mut_ptr(),
            room.len(),
        )
    }
}

/// [`crate::replay_with_records`]: the numbers and begin ticks of [`replay`], and
/// a record of each stream in the list's first places.
///
/// ```
/// use wistorvan::{raw, StreamRecord};
///
/// let (mut room, mut records) = ([0; 1], [StreamRecord::default(); 1]);
/// let sheet = [1, 5, 1, 6, 1, 1, 20, 20, 0];
/// let answer = raw::replay_with_records(&sheet, &[2, 1], 4, &mut room, &mut records);
/// assert_eq!((answer.number, answer.second, answer.third), (0, 3, 8));
/// assert_eq!((records[0].begun, records[0].longest, records[0].over), (1, 0, 0));
/// ```
#[must_use]
pub fn replay_with_records(
    sheet: &[u32],
    log: &[u32],
    horizon: u32,
    room: &mut [u32],
    records: &mut [StreamRecord],
) -> Answer {
    unsafe {
        linked::wistorvan_replay_records(
            sheet.as_ptr(),
            sheet.len(),
            log.as_ptr(),
            log.len(),
            horizon,
            room.as_mut_ptr(),
            room.len(),
            records.as_mut_ptr(),
            records.len(),
        )
    }
}

/// [`crate::step`]: the messages taken and the tick the next turn starts.
///
/// ```
/// use wistorvan::{raw, Bus, NOT_BEGUN};
///
/// let (mut bus, mut room) = (Bus::START, [NOT_BEGUN; 1]);
/// let answer = raw::step(&[1, 5, 1, 6, 1, 1, 20, 20, 0], &[0, 1], &mut bus, &mut room);
/// assert_eq!((answer.number, answer.second, answer.third), (0, 1, 6));
/// assert_eq!((room, bus.tick, bus.turns), ([0], 6, 1));
/// ```
#[must_use]
pub fn step(sheet: &[u32], log: &[u32], bus: &mut Bus, room: &mut [u32]) -> Answer {
    unsafe {
        linked::wistorvan_step(
            sheet.as_ptr(),
            sheet.len(),
            log.as_ptr(),
            log.len(),
            bus,
            room.as_mut_ptr(),
            room.len(),
        )
    }
}

/// [`crate::resume`]: the messages begun in the piece and the turns so far;
/// number and begin tick of each message begun in the room's first words.
///
/// ```
/// use wistorvan::{raw, Checkpoint};
///
/// let (mut checkpoint, mut room) = (Checkpoint::fresh(), [7; 3]);
/// let answer = raw::resume(&[1, 5, 1, 6, 1, 1, 20, 20, 0], &[2, 1], 4, &mut checkpoint, &mut room);
/// assert_eq!((answer.number, answer.second, answer.third), (0, 1, 3));
/// assert_eq!((room, checkpoint.tick, checkpoint.waiting), ([1, 2, 7], 8, 0));
/// ```
#[must_use]
pub fn resume(
    sheet: &[u32],
    piece: &[u32],
    horizon: u32,
    checkpoint: &mut Checkpoint,
    room: &mut [u32],
) -> Answer {
    unsafe {
        linked::wistorvan_resume(
            sheet.as_ptr(),
            sheet.len(),
            piece.as_ptr(),
            piece.len(),
            horizon,
            checkpoint,
            room.as_mut_ptr(),
            room.len(),
        )
    }
}

/// [`crate::write_sheet`]: the words written and the full cycle; the sheet in
/// the room's first words.
///
/// ```
/// use wistorvan::{raw, Tables};
///
/// let tables = Tables {
///     message_ticks: 5,
///     slot_ticks: 1,
///     counts: &[1],
///     budgets: &[1],
///     periods: &[10],
///     deadlines: &[9],
///     jitters: &[2],
/// };
/// let mut room = [0; 9];
/// let answer = raw::write_sheet(&tables, &mut room);
/// assert_eq!((answer.number, answer.second, answer.third), (0, 9, 6));
/// assert_eq!(room, [1, 5, 1, 6, 1, 1, 10, 9, 2]);
/// ```
#[must_use]
pub fn write_sheet(tables: &Tables<'_>, room: &mut [u32]) -> Answer {
    unsafe {
        linked::wistorvan_write_sheet(
            tables.message_ticks,
            tables.slot_ticks,
            tables.counts.as_ptr(),
            tables.counts.len(),
            tables.budgets.as_ptr(),
            tables.budgets.len(),
            tables.periods.as_ptr(),
            tables.periods.len(),
            tables.deadlines.as_ptr(),
            tables.deadlines.len(),
            tables.jitters.as_ptr(),
            tables.jitters.len(),
            room.as_mut_ptr(),
            room.len(),
        )
    }
}

/// [`crate::edit_stream`]: 0 0 0; the three words of the stream are set in the
/// sheet.
///
/// ```
/// let mut sheet = [1, 5, 1, 6, 1, 1, 20, 20, 0];
/// let answer = wistorvan::raw::edit_stream(&mut sheet, 1, 1, 1, 30, 25, 2);
/// assert_eq!((answer.number, answer.second, answer.third), (0, 0, 0));
/// assert_eq!(sheet, [1, 5, 1, 6, 1, 1, 30, 25, 2]);
/// ```
#[must_use]
pub fn edit_stream(
    sheet: &mut [u32],
    own_node: u32,
    node: u32,
    stream: u32,
    period: u32,
    deadline: u32,
    jitter: u32,
) -> Answer {
    unsafe {
        linked::wistorvan_edit_stream(
            sheet.as_mut_ptr(),
            sheet.len(),
            own_node,
            node,
            stream,
            period,
            deadline,
            jitter,
        )
    }
}

/// [`crate::find_budgets`]: the sum of the budgets and the full cycle with
/// them; the budgets in the room's first sixteen words, 0 past the last node.
///
/// ```
/// let mut room = [7; 17];
/// let answer = wistorvan::raw::find_budgets(&[1, 5, 1, 6, 1, 3, 20, 20, 0], &mut room);
/// assert_eq!((answer.number, answer.second, answer.third), (0, 1, 6));
/// assert_eq!(room, [1, 0, 0, 0, 0, 0, 0, 0, 0, 0, 0, 0, 0, 0, 0, 0, 7]);
/// ```
#[must_use]
pub fn find_budgets(sheet: &[u32], room: &mut [u32]) -> Answer {
    unsafe {
        linked::wistorvan_find_budgets(sheet.as_ptr(), sheet.len(), room.as_mut_ptr(), room.len())
    }
}
