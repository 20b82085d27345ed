//! The proved planner for slot-skipping (TDMA/SS) buses, for Rust programs: a
//! safe face over the static library that `rt lib` in crates/wistorvan writes.
//!
//! A sheet describes a bus and its message streams. The planner says whether
//! every stream meets its deadline, lists each stream's longest wait, and
//! replays a log of releases (a release is the queuing of a message):
//!
//! ```
//! # fn main() -> Result<(), wistorvan::Refusal> {
//! // Two nodes; a message takes 5 ticks, a protocol slot 1. Node 1 has two
//! // streams and a budget of 1, node 2 one stream and a budget of 2. A stream
//! // has a least period, a deadline and a jitter, which is 0 here.
//! let sheet = [2, 5, 1, 9, 2, 1, 15, 1, 2, 40, 40, 0, 60, 60, 0, 30, 30, 0];
//!
//! let mut room = [0; wistorvan::MAX_STREAMS];
//! let admission = wistorvan::admit(&sheet, &mut room)?;
//! assert_eq!(admission.waits, [16, 33, 16]);
//! assert_eq!(admission.cycle, 17);
//! # Ok(())
//! # }
//! ```
//!
//! Sheets and logs are tables of words, laid out as the repository's README
//! says; [`write_sheet`] makes a sheet, so that nobody has to lay one out by
//! hand, and [`find_budgets`] finds the smallest budgets with which no stream
//! is late. [`edit_stream`] changes a stream of one node in a sheet, and with it
//! no wait of another node's streams. [`replay_with_records`] counts for each
//! stream what the replay has seen of it. A log that is still being written is
//! replayed piece by piece with [`resume`]. Every function takes any tables: what
//! is wrong with them comes back as a [`Refusal`] with a [`Reason`], a place and
//! a sentence, and then no lent word has changed. Of all refusals that apply, the
//! first in the order that stands at each function is given. [`raw`] has the same
//! functions with the plain three numbers.
//!
//! # Linking
//!
//! The build looks for libwistorvan.a in the folder that the environment
//! variable `WISTORVAN_LIB_DIR` names (a relative name starts at this crate's
//! folder), or else in crates/wistorvan/out of the repository. The library is
//! for x86-64 Linux.

#![deny(missing_docs)]

pub mod raw;
mod refusal;

pub use refusal::{Reason, Refusal};

/// The word of a release that has not begun. [`begun`] reads such words.
///
/// ```
/// // Before horizon 0 no turn starts.
/// let mut room = [7; 1];
/// let replayed = wistorvan::replay(&[1, 5, 1, 6, 1, 1, 20, 20, 0], &[0, 1], 0, &mut room).unwrap();
/// assert_eq!(replayed.begins, [wistorvan::NOT_BEGUN]);
/// ```
pub const NOT_BEGUN: u32 = 4294967295;

/// The most nodes of a sheet: a room of so many words is long enough for
/// [`find_budgets`], and none that is shorter.
///
/// ```
/// let mut room = [0; wistorvan::MAX_NODES];
/// assert!(wistorvan::find_budgets(&[1, 5, 1, 6, 1, 1, 20, 20, 0], &mut room).is_ok());
/// ```
pub const MAX_NODES: usize = 16;

/// The most streams of a sheet: a room of so many words is long enough for
/// [`admit`], and a list of so many records for [`replay_with_records`].
///
/// ```
/// let mut room = [0; wistorvan::MAX_STREAMS];
/// assert!(wistorvan::admit(&[1, 5, 1, 6, 1, 1, 20, 20, 0], &mut room).is_ok());
/// ```
pub const MAX_STREAMS: usize = 256;

/// The most releases of a log: a room of so many words is long enough for
/// [`replay`] and [`step`].
///
/// ```
/// let mut room = [0; wistorvan::MAX_RELEASES];
/// assert!(wistorvan::replay(&[1, 5, 1, 6, 1, 1, 20, 20, 0], &[2, 1], 4, &mut room).is_ok());
/// ```
pub const MAX_RELEASES: usize = 4096;

/// The words of the longest sheet: a room of so many words is long enough for
/// [`write_sheet`].
///
/// ```
/// use wistorvan::{write_sheet, Tables, LONGEST_SHEET, MAX_STREAMS};
///
/// let most = Tables {
///     message_ticks: 5,
///     slot_ticks: 1,
///     counts: &[16; 16],
///     budgets: &[16; 16],
///     periods: &[10_000; MAX_STREAMS],
///     deadlines: &[10_000; MAX_STREAMS],
///     jitters: &[50; MAX_STREAMS],
/// };
/// let mut room = [0; LONGEST_SHEET];
/// assert_eq!(write_sheet(&most, &mut room).unwrap().sheet.len(), LONGEST_SHEET);
/// ```
pub const LONGEST_SHEET: usize = 819;

/// The most messages that wait and come in one piece: a room of twice so many
/// words is long enough for [`resume`].
///
/// ```
/// use wistorvan::{resume, Checkpoint, MAX_WAITING};
///
/// let (mut checkpoint, mut room) = (Checkpoint::fresh(), [0; 2 * MAX_WAITING]);
/// let sheet = [1, 5, 1, 6, 1, 1, 20, 20, 0];
/// let most = [0, 1].repeat(MAX_WAITING);
/// assert!(resume(&sheet, &most, 4, &mut checkpoint, &mut room).is_ok());
/// ```
pub const MAX_WAITING: usize = 256;

/// The words of a [`Checkpoint`].
///
/// ```
/// use wistorvan::{Checkpoint, CHECKPOINT_WORDS};
///
/// assert_eq!(size_of::<Checkpoint>(), CHECKPOINT_WORDS * size_of::<u32>());
/// ```
pub const CHECKPOINT_WORDS: usize = 6 + 3 * MAX_WAITING;

/// The begin tick that a word of a room stands for, if the release has begun.
///
/// ```
/// use wistorvan::{begun, NOT_BEGUN};
///
/// assert_eq!(begun(12), Some(12));
/// assert_eq!(begun(NOT_BEGUN), None);
/// ```
#[must_use]
pub const fn begun(word: u32) -> Option<u32> {
    match word {
        NOT_BEGUN => None,
        tick => Some(tick),
    }
}

/// The bus between two turns.
///
/// ```
/// use wistorvan::Bus;
///
/// assert_eq!(Bus::START, Bus { tick: 0, node: 1, turns: 0 });
/// ```
#[repr(C)]
#[derive(Clone, Copy, PartialEq, Eq, Hash, Debug)]
pub struct Bus {
    /// The tick at which the next turn starts.
    pub tick: u32,
    /// The node whose turn it is, from 1.
    pub node: u32,
    /// How many turns have gone before it.
    pub turns: u32,
}

impl Bus {
    /// The bus starts at tick 0 with node 1's turn.
    ///
    /// ```
    /// assert_eq!(wistorvan::Bus::START.node, 1);
    /// ```
    pub const START: Bus = Bus {
        tick: 0,
        node: 1,
        turns: 0,
    };
}

/// A replay between two pieces of its log.
///
/// The releases that wait stand in log order from place 0: the number of each in
/// the whole log, from 1, its tick and the running number of its stream. After a
/// piece every place past them is 0.
///
/// ```
/// use wistorvan::{resume, Checkpoint};
///
/// # fn main() -> Result<(), wistorvan::Refusal> {
/// // Two messages come at once; the second waits for the next turn.
/// let mut checkpoint = Checkpoint::fresh();
/// resume(&[1, 5, 1, 6, 1, 1, 20, 20, 0], &[0, 1, 0, 1], 1, &mut checkpoint, &mut [0; 4])?;
/// assert_eq!((checkpoint.tick, checkpoint.turns), (6, 1));
/// let waiting = checkpoint.waiting as usize;
/// assert_eq!(checkpoint.numbers[..waiting], [2]);
/// # Ok(())
/// # }
/// ```
#[repr(C)]
#[derive(Clone, PartialEq, Eq, Hash, Debug)]
pub struct Checkpoint {
    /// The horizon of the last piece.
    pub horizon: u32,
    /// The tick at which the next turn starts.
    pub tick: u32,
    /// The node whose turn it is, from 1.
    pub node: u32,
    /// How many turns have gone before it, in all pieces.
    pub turns: u32,
    /// How many releases all pieces had.
    pub releases: u32,
    /// How many releases wait: so many places are in use.
    pub waiting: u32,
    /// The number of each release that waits.
    pub numbers: [u32; MAX_WAITING],
    /// The tick of each release that waits.
    pub ticks: [u32; MAX_WAITING],
    /// The stream of each release that waits.
    pub streams: [u32; MAX_WAITING],
}

impl Checkpoint {
    /// Before the first piece: horizon 0, the first turn that of node 1 at tick
    /// 0, and nothing waits.
    ///
    /// ```
    /// let checkpoint = wistorvan::Checkpoint::fresh();
    /// assert_eq!((checkpoint.horizon, checkpoint.node, checkpoint.waiting), (0, 1, 0));
    /// assert_eq!(checkpoint, wistorvan::Checkpoint::default());
    /// ```
    #[must_use]
    pub const fn fresh() -> Checkpoint {
        Checkpoint {
            horizon: 0,
            tick: 0,
            node: 1,
            turns: 0,
            releases: 0,
            waiting: 0,
            numbers: [0; MAX_WAITING],
            ticks: [0; MAX_WAITING],
            streams: [0; MAX_WAITING],
        }
    }
}

/// The fresh one.
impl Default for Checkpoint {
    fn default() -> Checkpoint {
        Checkpoint::fresh()
    }
}

/// What a sheet is made from: the bus and its nodes and streams, in tables.
///
/// ```
/// use wistorvan::Tables;
///
/// // Two nodes. Node 1 has two streams and a budget of 1, node 2 one stream
/// // and a budget of 2. A message takes 5 ticks, a protocol slot 1.
/// let line = Tables {
///     message_ticks: 5,
///     slot_ticks: 1,
///     counts: &[2, 1],
///     budgets: &[1, 2],
///     periods: &[40, 60, 30],
///     deadlines: &[40, 60, 30],
///     jitters: &[0, 0, 0],
/// };
/// // The same line with a shorter deadline of node 1's second stream.
/// let changed = Tables { deadlines: &[40, 37, 30], ..line };
/// assert_eq!(changed.periods, line.periods);
/// ```
#[derive(Clone, Copy, PartialEq, Eq, Hash, Debug)]
pub struct Tables<'t> {
    /// TMS, the ticks of a message: 1 to 10,000.
    pub message_ticks: u32,
    /// TPR, the ticks of a protocol slot: 1 to 10,000.
    pub slot_ticks: u32,
    /// The number of streams of each node, 0 to 16. There are as many nodes
    /// as there are words here, 1 to 16.
    pub counts: &'t [u32],
    /// The budget of each node, 1 to 16: as many words as `counts`.
    pub budgets: &'t [u32],
    /// The least period of each stream, node by node, 1 to 1,000,000,000: as
    /// many words as the sum of `counts`.
    pub periods: &'t [u32],
    /// The deadline of each stream, counted from the event of a message, 1 to
    /// its period: as many words as `periods`.
    pub deadlines: &'t [u32],
    /// The jitter of each stream, how many ticks after its event a message may
    /// be queued, 0 to less than its period: as many words as `periods`.
    pub jitters: &'t [u32],
}

/// What [`one_stream`] answers.
///
/// ```
/// // One node with a budget of 1 and one stream: full cycle 6.
/// let listed = wistorvan::one_stream(&[1, 5, 1, 6, 1, 1, 20, 20, 0], 1, 1).unwrap();
/// assert_eq!((listed.wait, listed.cycles), (5, 1));
/// ```
#[derive(Clone, Copy, PartialEq, Eq, Hash, Debug)]
pub struct ListedWait {
    /// The listed wait, in ticks from queuing to begin: no message of the
    /// stream waits longer, if it and those ranked above it in its node keep
    /// their least periods and jitters: each has events at least a period
    /// apart, and queues each message 0 to jitter ticks after its event.
    pub wait: u32,
    /// J: the fewest full cycles whose turns take more messages than can have
    /// come ahead of it by then. Each message is delivered at most
    /// jitter + J × C − 1 + budget × TMS + TPR ticks after its event, under the
    /// same premise, and that is at most its deadline.
    pub cycles: u32,
}

/// What [`admit`] answers.
///
/// ```
/// let mut room = [0; 1];
/// let admission = wistorvan::admit(&[1, 5, 1, 6, 1, 1, 20, 20, 0], &mut room).unwrap();
/// assert_eq!((admission.waits.len(), admission.cycle), (1, 6));
/// ```
#[derive(Clone, Copy, PartialEq, Eq, Hash, Debug)]
pub struct Admission<'r> {
    /// The listed waits of all streams in sheet order: the first words of the
    /// lent room.
    pub waits: &'r [u32],
    /// C, the full cycle in ticks.
    pub cycle: u32,
}

/// What [`replay`] answers.
///
/// ```
/// // One release at tick 2, during the third of the idle bus's turns.
/// let mut room = [0; 1];
/// let replay = wistorvan::replay(&[1, 5, 1, 6, 1, 1, 20, 20, 0], &[2, 1], 4, &mut room).unwrap();
/// assert_eq!((replay.begins[0], replay.turns, replay.next), (2, 3, 8));
/// ```
#[derive(Clone, Copy, PartialEq, Eq, Hash, Debug)]
pub struct Replay<'r> {
    /// The begin tick of each release in log order, or [`NOT_BEGUN`]: the
    /// first words of the lent room.
    pub begins: &'r [u32],
    /// How many turns started before the horizon.
    pub turns: u32,
    /// The tick at which the next turn would start.
    pub next: u32,
}

/// What a replay has seen of one stream. A list of them is lent to
/// [`replay_with_records`].
///
/// ```
/// use wistorvan::{StreamRecord, MAX_STREAMS};
///
/// let list = [StreamRecord::default(); MAX_STREAMS];
/// assert_eq!(list[0], StreamRecord { begun: 0, longest: 0, over: 0 });
/// ```
#[repr(C)]
#[derive(Clone, Copy, PartialEq, Eq, Hash, Debug, Default)]
pub struct StreamRecord {
    /// Messages begun.
    pub begun: u32,
    /// The longest of their waits, in ticks from queuing to begin.
    pub longest: u32,
    /// How many of them waited longer than the listed wait. A late stream has
    /// no listed wait, and this stays 0.
    pub over: u32,
}

/// What [`replay_with_records`] answers.
///
/// ```
/// use wistorvan::{replay_with_records, StreamRecord};
///
/// let (mut room, mut list) = ([0; 1], [StreamRecord::default(); 1]);
/// let sheet = [1, 5, 1, 6, 1, 1, 20, 20, 0];
/// let recorded = replay_with_records(&sheet, &[2, 1], 4, &mut room, &mut list).unwrap();
/// assert_eq!((recorded.begins[0], recorded.turns, recorded.next), (2, 3, 8));
/// assert_eq!(recorded.records[0].begun, 1);
/// ```
#[derive(Clone, Copy, PartialEq, Eq, Hash, Debug)]
pub struct Recorded<'r> {
    /// The begin tick of each release in log order, or [`NOT_BEGUN`]: the
    /// first words of the lent room.
    pub begins: &'r [u32],
    /// The record of each stream in sheet order: the first of the lent list.
    pub records: &'r [StreamRecord],
    /// How many turns started before the horizon.
    pub turns: u32,
    /// The tick at which the next turn would start.
    pub next: u32,
}

/// What [`step`] answers.
///
/// ```
/// use wistorvan::{step, Bus};
///
/// // Nothing is released: the turn is one slot long.
/// let mut bus = Bus::START;
/// let step = step(&[1, 5, 1, 6, 1, 1, 20, 20, 0], &[], &mut bus, &mut []).unwrap();
/// assert_eq!((step.taken, step.next), (0, 1));
/// ```
#[derive(Clone, Copy, PartialEq, Eq, Hash, Debug)]
pub struct Step {
    /// How many messages the turn took.
    pub taken: u32,
    /// The tick at which the next turn starts.
    pub next: u32,
}

/// What [`resume`] answers.
///
/// ```
/// use wistorvan::{resume, Checkpoint};
///
/// // Two releases, at ticks 2 and 3: the second one waits for a turn.
/// let (mut checkpoint, mut room) = (Checkpoint::fresh(), [0; 4]);
/// let piece = [2, 1, 3, 1];
/// let resumed = resume(&[1, 5, 1, 6, 1, 1, 20, 20, 0], &piece, 9, &mut checkpoint, &mut room).unwrap();
/// assert_eq!((resumed.words, resumed.turns), (&[1, 2, 2, 8][..], 4));
/// assert_eq!(resumed.begun().collect::<Vec<_>>(), [(1, 2), (2, 8)]);
/// ```
#[derive(Clone, Copy, PartialEq, Eq, Hash, Debug)]
pub struct Resumed<'r> {
    /// Two words for each message begun in this piece, in the order begun: the
    /// number of its release in the whole log, from 1, and its begin tick. The
    /// first words of the lent room.
    pub words: &'r [u32],
    /// How many turns started so far, in all pieces.
    pub turns: u32,
}

impl<'r> Resumed<'r> {
    /// The messages begun in this piece, in the order begun: the number of the
    /// release in the whole log, and the begin tick.
    ///
    /// ```
    /// use wistorvan::{resume, Checkpoint};
    ///
    /// let (mut checkpoint, mut room) = (Checkpoint::fresh(), [0; 2]);
    /// let sheet = [1, 5, 1, 6, 1, 1, 20, 20, 0];
    /// let resumed = resume(&sheet, &[2, 1], 9, &mut checkpoint, &mut room).unwrap();
    /// assert!(resumed.begun().eq([(1, 2)]));
    /// ```
    pub fn begun(&self) -> impl Iterator<Item = (u32, u32)> + 'r {
        self.words.chunks_exact(2).map(|pair| (pair[0], pair[1]))
    }
}

/// What [`write_sheet`] answers.
///
/// ```
/// use wistorvan::{write_sheet, Tables};
///
/// // A node without streams.
/// let tables = Tables {
///     message_ticks: 5,
///     slot_ticks: 1,
///     counts: &[0],
///     budgets: &[2],
///     periods: &[],
///     deadlines: &[],
///     jitters: &[],
/// };
/// let mut room = [0; 6];
/// let written = write_sheet(&tables, &mut room).unwrap();
/// assert_eq!((written.sheet, written.cycle), (&[1, 5, 1, 6, 0, 2][..], 11));
/// ```
#[derive(Clone, Copy, PartialEq, Eq, Hash, Debug)]
pub struct Written<'r> {
    /// The sheet: the first words of the lent room.
    pub sheet: &'r [u32],
    /// C, the full cycle in ticks.
    pub cycle: u32,
}

/// What [`find_budgets`] answers.
///
/// ```
/// use wistorvan::{find_budgets, MAX_NODES};
///
/// // The sheet has a budget of 3; 1 is enough.
/// let mut room = [0; MAX_NODES];
/// let found = find_budgets(&[1, 5, 1, 6, 1, 3, 20, 20, 0], &mut room).unwrap();
/// assert_eq!((found.row, found.sum, found.cycle), (&[1][..], 1, 6));
/// ```
#[derive(Clone, Copy, PartialEq, Eq, Hash, Debug)]
pub struct Budgets<'r> {
    /// The budget of each node, from node 1 on: the first words of the lent
    /// room.
    pub row: &'r [u32],
    /// The sum of the row.
    pub sum: u32,
    /// C, the full cycle in ticks with this row.
    pub cycle: u32,
}

/// Whether a sheet is valid.
///
/// # Errors
///
/// In this order: [`Reason::SheetTooShort`], [`Reason::BadNodeCount`],
/// [`Reason::BadDuration`], [`Reason::BadContents`], [`Reason::BadStream`].
///
/// ```
/// use wistorvan::{check_sheet, Reason};
///
/// assert!(check_sheet(&[1, 5, 1, 6, 1, 1, 20, 20, 0]).is_ok());
/// // A deadline longer than its period.
/// let refusal = check_sheet(&[1, 5, 1, 6, 1, 1, 10, 11, 0]).unwrap_err();
/// assert_eq!((refusal.reason(), refusal.place()), (Reason::BadStream, (1, 1)));
/// ```
pub fn check_sheet(sheet: &[u32]) -> Result<(), Refusal> {
    raw::check_sheet(sheet).accepted().map(|_| ())
}

/// The listed wait of one stream of a node; both count from 1.
///
/// # Errors
///
/// In this order: those of [`check_sheet`], [`Reason::NoSuchStream`],
/// [`Reason::Late`].
///
/// ```
/// use wistorvan::{one_stream, Reason};
///
/// let sheet = [2, 5, 1, 9, 2, 1, 15, 1, 2, 40, 40, 0, 60, 60, 0, 30, 30, 0];
/// assert_eq!(one_stream(&sheet, 1, 2).unwrap().wait, 33);
/// let refusal = one_stream(&sheet, 2, 2).unwrap_err();
/// assert_eq!((refusal.reason(), refusal.place()), (Reason::NoSuchStream, (2, 2)));
/// ```
pub fn one_stream(sheet: &[u32], node: u32, stream: u32) -> Result<ListedWait, Refusal> {
    let (wait, cycles) = raw::one_stream(sheet, node, stream).accepted()?;
    Ok(ListedWait { wait, cycles })
}

/// Admits a sheet none of whose streams is late. The listed waits go to the
/// room's first words, the rest of which stays; [`MAX_STREAMS`] words are
/// always enough.
///
/// # Errors
///
/// In this order: those of [`check_sheet`], [`Reason::RoomTooShort`],
/// [`Reason::Late`].
///
/// ```
/// use wistorvan::{admit, Reason, MAX_STREAMS};
///
/// let mut sheet = [2, 5, 1, 9, 2, 1, 15, 1, 2, 40, 40, 0, 60, 60, 0, 30, 30, 0];
/// let mut room = [0; MAX_STREAMS];
/// assert_eq!(admit(&sheet, &mut room).unwrap().waits, [16, 33, 16]);
/// // The deadlines of node 1: the shorter period goes first, and stream 2 is late.
/// sheet[10] = 38;
/// sheet[13] = 38;
/// let refusal = admit(&sheet, &mut room).unwrap_err();
/// assert_eq!((refusal.reason(), refusal.place()), (Reason::Late, (1, 2)));
/// ```
pub fn admit<'r>(sheet: &[u32], room: &'r mut [u32]) -> Result<Admission<'r>, Refusal> {
    let (streams, cycle) = raw::admit(sheet, room).accepted()?;
    Ok(Admission {
        waits: &room[..streams as usize],
        cycle,
    })
}

/// Replays a log of releases from tick 0 up to a horizon. The begin ticks go
/// to the room's first words, the rest of which stays; a word a release is
/// enough. It does not ask whether the sheet would be admitted.
///
/// # Errors
///
/// In this order: those of [`check_sheet`], [`Reason::BadLog`],
/// [`Reason::HorizonTooLarge`], [`Reason::RoomTooShort`].
///
/// ```
/// use wistorvan::{begun, replay, Reason};
///
/// let sheet = [2, 5, 1, 9, 2, 1, 15, 1, 2, 40, 40, 0, 60, 60, 0, 30, 30, 0];
/// // Two words a release: the tick at which it is queued, and its stream by
/// // running number.
/// let log = [0, 1, 0, 2, 1, 3];
/// let mut room = [0; 3];
/// let replayed = replay(&sheet, &log, 12, &mut room).unwrap();
/// let begins: Vec<Option<u32>> = replayed.begins.iter().copied().map(begun).collect();
/// assert_eq!(begins, [Some(0), None, Some(6)]);
/// assert_eq!((replayed.turns, replayed.next), (2, 12));
///
/// let refusal = replay(&sheet, &[0, 1, 0, 4], 12, &mut room).unwrap_err();
/// assert_eq!((refusal.reason(), refusal.place()), (Reason::BadLog, (0, 2)));
/// ```
pub fn replay<'r>(
    sheet: &[u32],
    log: &[u32],
    horizon: u32,
    room: &'r mut [u32],
) -> Result<Replay<'r>, Refusal> {
    let (turns, next) = raw::replay(sheet, log, horizon, room).accepted()?;
    Ok(Replay {
        begins: &room[..log.len() / 2],
        turns,
        next,
    })
}

/// [`replay`] with a record of each stream beside the begin ticks: its messages
/// begun, the longest of their waits, and how many waited longer than the listed
/// wait. The records go to the list's first places, in sheet order; the rest
/// stays, and what they held before plays no part. A late stream is judged by
/// itself, and also on a sheet that would not be admitted: its third number stays 0.
///
/// # Errors
///
/// Those of [`replay`], and then [`Reason::RoomTooShort`] for a list with fewer
/// records than the sheet has streams; [`MAX_STREAMS`] are always enough.
///
/// ```
/// use wistorvan::{replay_with_records, Reason, StreamRecord};
///
/// let sheet = [2, 5, 1, 9, 2, 1, 15, 1, 2, 40, 40, 0, 60, 60, 0, 30, 30, 0];
/// let log = [0, 1, 0, 2, 1, 3];
/// let (mut room, mut list) = ([0; 3], [StreamRecord::default(); 3]);
/// let recorded = replay_with_records(&sheet, &log, 40, &mut room, &mut list).unwrap();
/// let longest: Vec<u32> = recorded.records.iter().map(|record| record.longest).collect();
/// assert_eq!(longest, [0, 12, 5]);
///
/// let refusal = replay_with_records(&sheet, &log, 40, &mut room, &mut list[..2]).unwrap_err();
/// assert_eq!(refusal.reason(), Reason::RoomTooShort);
/// ```
pub fn replay_with_records<'r>(
    sheet: &[u32],
    log: &[u32],
    horizon: u32,
    room: &'r mut [u32],
    records: &'r mut [StreamRecord],
) -> Result<Recorded<'r>, Refusal> {
    let (turns, next) = raw::replay_with_records(sheet, log, horizon, room, records).accepted()?;
    Ok(Recorded {
        begins: &room[..log.len() / 2],
        records: &records[..streams(sheet)],
        turns,
        next,
    })
}

/// How many streams a valid sheet has: three words each after its contents.
fn streams(sheet: &[u32]) -> usize {
    (sheet.len() - 3 - 3 * sheet[0] as usize) / 3
}

/// Runs one turn of the record's node and sets the record to the next turn.
/// The room has a word for each release in log order: those that are
/// [`NOT_BEGUN`] wait, and the begins of this turn are written.
///
/// # Errors
///
/// In this order: those of [`check_sheet`], [`Reason::BadLog`],
/// [`Reason::BadBus`], [`Reason::RoomTooShort`].
///
/// ```
/// use wistorvan::{step, Bus, Reason, NOT_BEGUN};
///
/// # fn main() -> Result<(), wistorvan::Refusal> {
/// let sheet = [2, 5, 1, 9, 2, 1, 15, 1, 2, 40, 40, 0, 60, 60, 0, 30, 30, 0];
/// let log = [0, 1, 0, 2, 1, 3];
/// let (mut bus, mut begins) = (Bus::START, [NOT_BEGUN; 3]);
/// while bus.tick < 13 {
///     step(&sheet, &log, &mut bus, &mut begins)?;
/// }
/// assert_eq!(begins, [0, 12, 6]);
/// assert_eq!(bus, Bus { tick: 18, node: 2, turns: 3 });
///
/// bus.node = 3;
/// let refusal = step(&sheet, &log, &mut bus, &mut begins).unwrap_err();
/// assert_eq!(refusal.reason(), Reason::BadBus);
/// # Ok(())
/// # }
/// ```
pub fn step(sheet: &[u32], log: &[u32], bus: &mut Bus, room: &mut [u32]) -> Result<Step, Refusal> {
    let (taken, next) = raw::step(sheet, log, bus, room).accepted()?;
    Ok(Step { taken, next })
}

/// Replays the next piece of a log, from where the checkpoint stands up to a new
/// horizon, and sets the checkpoint to its end. A piece has two words a release,
/// like a log, with ticks from the checkpoint's horizon up to below the new one;
/// the horizon may also stay as it is. The messages begun in this piece go to
/// the room's first words, the rest of which stays; two words for each message
/// that waits and each release of the piece are enough, and so are twice
/// [`MAX_WAITING`] words.
///
/// From [`Checkpoint::fresh`], with one sheet and however a log is cut, the
/// pieces give each release the begin that [`replay`] gives the whole log at
/// the last horizon, and the same turns. A checkpoint that was made up is taken
/// as it stands, if it is not refused.
///
/// # Errors
///
/// In this order: those of [`check_sheet`], [`Reason::BadBus`],
/// [`Reason::BadLog`], [`Reason::HorizonTooLarge`],
/// [`Reason::TooManyWaiting`], [`Reason::RoomTooShort`].
///
/// ```
/// use wistorvan::{resume, Checkpoint, Reason, MAX_WAITING};
///
/// # fn main() -> Result<(), wistorvan::Refusal> {
/// let sheet = [2, 5, 1, 9, 2, 1, 15, 1, 2, 40, 40, 0, 60, 60, 0, 30, 30, 0];
/// let (mut checkpoint, mut room) = (Checkpoint::fresh(), [0; 2 * MAX_WAITING]);
///
/// // Release 1 begins at tick 0; release 2 waits for the node's next turn.
/// let first = resume(&sheet, &[0, 1, 0, 2], 1, &mut checkpoint, &mut room)?;
/// assert!(first.begun().eq([(1, 0)]));
/// assert_eq!((checkpoint.tick, checkpoint.waiting), (6, 1));
/// let second = resume(&sheet, &[1, 3], 40, &mut checkpoint, &mut room)?;
/// assert!(second.begun().eq([(3, 6), (2, 12)]));
/// assert_eq!((second.turns, checkpoint.tick), (25, 40));
///
/// // The tick is below the horizon of the piece before.
/// let refusal = resume(&sheet, &[39, 1], 50, &mut checkpoint, &mut room).unwrap_err();
/// assert_eq!((refusal.reason(), refusal.place()), (Reason::BadLog, (0, 1)));
/// # Ok(())
/// # }
/// ```
pub fn resume<'r>(
    sheet: &[u32],
    piece: &[u32],
    horizon: u32,
    checkpoint: &mut Checkpoint,
    room: &'r mut [u32],
) -> Result<Resumed<'r>, Refusal> {
    let (begun, turns) = raw::resume(sheet, piece, horizon, checkpoint, room).accepted()?;
    Ok(Resumed {
        words: &room[..2 * begun as usize],
        turns,
    })
}

/// Makes a sheet from tables. It goes to the room's first words, the rest of
/// which stays; [`LONGEST_SHEET`] words are always enough. What is made is
/// valid; whether its streams are in time is for [`admit`] to say.
///
/// # Errors
///
/// In this order: [`Reason::BadNodeCount`], [`Reason::BadDuration`],
/// [`Reason::BadContents`], [`Reason::BadStream`], [`Reason::RoomTooShort`].
///
/// ```
/// use wistorvan::{admit, write_sheet, Reason, Tables, LONGEST_SHEET, MAX_STREAMS};
///
/// # fn main() -> Result<(), wistorvan::Refusal> {
/// let line = Tables {
///     message_ticks: 5,
///     slot_ticks: 1,
///     counts: &[2, 1],
///     budgets: &[1, 2],
///     periods: &[40, 60, 30],
///     deadlines: &[40, 60, 30],
///     jitters: &[0, 0, 0],
/// };
/// let mut room = [0; LONGEST_SHEET];
/// let written = write_sheet(&line, &mut room)?;
/// assert_eq!(written.sheet, [2, 5, 1, 9, 2, 1, 15, 1, 2, 40, 40, 0, 60, 60, 0, 30, 30, 0]);
/// assert_eq!(written.cycle, 17);
/// assert_eq!(admit(written.sheet, &mut [0; MAX_STREAMS])?.waits, [16, 33, 16]);
///
/// // If stream 1 of node 1 queues up to 7 ticks late, two of its messages can
/// // come before one of stream 2.
/// let late = Tables { jitters: &[7, 0, 0], ..line };
/// let written = write_sheet(&late, &mut room)?;
/// assert_eq!(admit(written.sheet, &mut [0; MAX_STREAMS])?.waits, [16, 50, 16]);
///
/// // A deadline longer than its period: stream 2 of node 1.
/// let wrong = Tables { deadlines: &[40, 61, 30], ..line };
/// let refusal = write_sheet(&wrong, &mut room).unwrap_err();
/// assert_eq!((refusal.reason(), refusal.place()), (Reason::BadStream, (1, 2)));
/// # Ok(())
/// # }
/// ```
pub fn write_sheet<'r>(tables: &Tables<'_>, room: &'r mut [u32]) -> Result<Written<'r>, Refusal> {
    let (words, cycle) = raw::write_sheet(tables, room).accepted()?;
    Ok(Written {
        sheet: &room[..words as usize],
        cycle,
    })
}

/// Changes one stream of the caller's own node in place: its period, deadline
/// and jitter in the sheet, and no other word. Nodes and the streams of a node
/// count from 1. The sheet stays valid.
///
/// Every stream of every other node has the wait and J that it had, or is late as
/// it was: two valid sheets alike in n, TMS, TPR, budgets and one node's streams
/// get the same answers of [`one_stream`] on those streams, whatever the other
/// nodes have. Of [`admit`]'s [`Reason::Late`] and of the budgets that
/// [`find_budgets`] finds nothing is promised, since they read every stream.
///
/// # Errors
///
/// In this order: those of [`check_sheet`] for the sheet as it was,
/// [`Reason::NoSuchStream`], [`Reason::NotOwnNode`], also where `own_node` is no
/// node of the sheet, and then [`Reason::BadStream`] for the new words.
///
/// ```
/// use wistorvan::{edit_stream, one_stream, Reason};
///
/// # fn main() -> Result<(), wistorvan::Refusal> {
/// // Node 1 is ours. Its stream 1 comes more often from now on, so that its
/// // stream 2 waits longer; the stream of node 2 waits as long as before.
/// let mut sheet = [2, 5, 1, 9, 2, 1, 15, 1, 2, 40, 40, 0, 60, 60, 0, 30, 30, 0];
/// let (own, other) = (one_stream(&sheet, 1, 2)?, one_stream(&sheet, 2, 1));
/// let (own_node, period, deadline, jitter) = (1, 30, 29, 2);
/// edit_stream(&mut sheet, own_node, 1, 1, period, deadline, jitter)?;
/// assert_eq!(sheet[9..12], [30, 29, 2]);
/// assert_eq!((own.wait, one_stream(&sheet, 1, 2)?.wait), (33, 50));
/// assert_eq!(one_stream(&sheet, 2, 1), other);
///
/// // A stream of another node is not changed.
/// let refusal = edit_stream(&mut sheet, own_node, 2, 1, 40, 40, 0).unwrap_err();
/// assert_eq!((refusal.reason(), refusal.place()), (Reason::NotOwnNode, (2, 1)));
/// # Ok(())
/// # }
/// ```
pub fn edit_stream(
    sheet: &mut [u32],
    own_node: u32,
    node: u32,
    stream: u32,
    period: u32,
    deadline: u32,
    jitter: u32,
) -> Result<(), Refusal> {
    raw::edit_stream(sheet, own_node, node, stream, period, deadline, jitter)
        .accepted()
        .map(|_| ())
}

/// Finds the smallest budgets with which no stream of a sheet is late: no node
/// has less in any other budgets that work. The search starts with 1
/// everywhere, and each round gives one more to every node with a late stream;
/// the sheet's own budgets are checked and not used. The budgets go to the
/// room's first [`MAX_NODES`] words, with 0 past the last node; the rest of it
/// stays.
///
/// # Errors
///
/// In this order: those of [`check_sheet`], [`Reason::RoomTooShort`],
/// [`Reason::NoBudgets`].
///
/// ```
/// use wistorvan::{admit, find_budgets, Reason, MAX_NODES, MAX_STREAMS};
///
/// # fn main() -> Result<(), wistorvan::Refusal> {
/// // One node with two streams, each due within 15 ticks. A message takes 1
/// // tick and a slot 5; with one message a turn the second stream is late.
/// let mut sheet = [1, 1, 5, 6, 2, 1, 50, 15, 0, 50, 15, 0];
/// let late = admit(&sheet, &mut [0; MAX_STREAMS]).unwrap_err();
/// assert_eq!((late.reason(), late.place()), (Reason::Late, (1, 2)));
///
/// let mut room = [0; MAX_NODES];
/// let found = find_budgets(&sheet, &mut room)?;
/// assert_eq!((found.row, found.sum, found.cycle), (&[2][..], 2, 7));
/// sheet[5] = found.row[0];
/// assert!(admit(&sheet, &mut [0; MAX_STREAMS]).is_ok());
///
/// // Due within 10 ticks, where a cycle and a turn of one message take 11.
/// sheet[7] = 10;
/// let refusal = find_budgets(&sheet, &mut room).unwrap_err();
/// assert_eq!((refusal.reason(), refusal.place()), (Reason::NoBudgets, (1, 0)));
/// # Ok(())
/// # }
/// ```
pub fn find_budgets<'r>(sheet: &[u32], room: &'r mut [u32]) -> Result<Budgets<'r>, Refusal> {
    let (sum, cycle) = raw::find_budgets(sheet, room).accepted()?;
    // The first word of a sheet that is not refused is its number of nodes.
    Ok(Budgets {
        row: &room[..sheet[0] as usize],
        sum,
        cycle,
    })
}
