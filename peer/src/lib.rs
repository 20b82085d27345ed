//! The independent second program: written from document 01 and, for the rank,
//! the writer, the late test, the budgets, the jitter, the pieces, the stream
//! records and the edits, requests One, Two and Four to Nine of document 02 alone,
//! so that the proved program can be compared with it. It shares no code with
//! that program, and keeps other accounts: running remainders in the search for
//! J, one queue a stream in the replay, two heaps a node in the replay by pieces,
//! a sheet put together apart from the room in the writer, budgets raised node by
//! node, stream records counted once the replay is over, an edited sheet written
//! anew from its tables. J is tried one by one from 1 up, as far as the deadline
//! allows: a search that leaves some out is measured against that.
//!
//! Every entry is total: whatever is handed in gets an answer, and a refusal
//! changes no lent word.

mod admission;
pub mod broken;
mod budgets;
mod edits;
pub mod events;
pub mod generate;
mod log;
mod pieces;
mod records;
mod replay;
mod sheet;
pub mod stats;
mod step;
pub mod text;
mod writer;

pub use admission::{admit, one_stream};
pub use budgets::{find_budgets, find_budgets_by_rounds};
pub use edits::{edit_stream, Edit};
pub use pieces::{resume, Checkpoint, Lent, Place, CHECKPOINT_WORDS, MOST_WAITING};
pub use records::{records_afresh, replay_with_records, StreamRecord};
pub use replay::replay;
pub use sheet::check_sheet;
pub use step::step;
pub use writer::{read_tables, write_sheet, Tables};

/// The word in a room of begin ticks that stands for a message not begun.
pub const NOT_BEGUN: u32 = 4294967295;

/// The three numbers of an answer. Number 0 is success.
#[derive(Clone, Copy, PartialEq, Eq, Debug)]
pub struct Answer {
    pub number: u32,
    pub second: u32,
    pub third: u32,
}

/// Where the bus stands between two turns.
#[derive(Clone, Copy, PartialEq, Eq, Debug)]
pub struct Record {
    pub tick: u32,
    pub node: u32,
    pub turns: u32,
}

/// Every number that is answered fits 32 bits: ticks stay below 10^9 + 170,000
/// and listed waits, cycles and turns below that, the turns of a made-up record
/// and of a piece together at 2 × 10^9.
pub(crate) fn success(second: u64, third: u64) -> Answer {
    Answer {
        number: 0,
        second: second as u32,
        third: third as u32,
    }
}

pub(crate) fn refusal(number: u32, second: u32, third: u32) -> Answer {
    Answer {
        number,
        second,
        third,
    }
}
