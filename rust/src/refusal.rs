//! What the planner says where it does not answer.

use std::error::Error;
use std::fmt;

/// What is refused. The names are those of the header for C.
///
/// Later versions will name more numbers (14 and 15 are kept for them), so a
/// `match` needs an arm for the rest.
///
/// ```
/// use wistorvan::{one_stream, Reason};
///
/// let sheet = [1, 5, 1, 6, 1, 1, 10, 9, 0];
/// let advice = match one_stream(&sheet, 1, 1).unwrap_err().reason() {
///     Reason::Late => "a longer deadline, a larger budget, or fewer messages",
///     Reason::NoSuchStream => "nodes and streams count from 1",
///     _ => "look the sheet over",
/// };
/// assert_eq!(advice, "a longer deadline, a larger budget, or fewer messages");
/// ```
#[non_exhaustive]
#[derive(Clone, Copy, PartialEq, Eq, Hash, Debug)]
pub enum Reason {
    /// 1: the sheet has under 3 words. Place 0, 0.
    SheetTooShort,
    /// 2: n, the number of nodes, is not 1 to 16. Place 0, 0.
    BadNodeCount,
    /// 3: TMS or TPR, the duration of a message or of a protocol slot in
    /// ticks, is not 1 to 10,000. Place 0, 0.
    BadDuration,
    /// 4: the contents. First, the sheet has fewer than 3 + 3n words, or the
    /// tables of budgets and counts (write sheet) differ in length: place
    /// 0, 0. Then, node by node, a row has a wrong place of the body, more
    /// than 16 streams or a budget that is not 1 to 16: place node, 0. Then,
    /// the total length is wrong, or the tables of periods, deadlines and
    /// jitters (write sheet) do not have a word for each stream counted: place
    /// 0, 0.
    BadContents,
    /// 5: a period is not 1 to 1,000,000,000, a deadline not 1 to its period or
    /// a jitter not less than its period, on the sheet or in the tables (write
    /// sheet), first in sheet order, or in the new words (edit stream). Place
    /// node, stream.
    BadStream,
    /// 6: the room is shorter than one word a stream (admit) or a release
    /// (replay, replay with records, step), than the sheet (write sheet), than
    /// sixteen words, however few the nodes are (find budgets), or than two
    /// words for each message that waits and each release of the piece, begun or
    /// not (resume); or the list has fewer records than the sheet has streams
    /// (replay with records). Place 0, 0.
    RoomTooShort,
    /// 7: a stream is late: a message of it could be delivered after its
    /// deadline, which runs from its event, jitter ticks before its queuing at
    /// most (delivery is when its turn's protocol slot ends). The first in
    /// sheet order (admit) or the asked one (one stream). Place node, stream.
    Late,
    /// 8: the sheet has no such stream (one stream, edit stream). Place node,
    /// stream as asked.
    NoSuchStream,
    /// 9: the log, or a piece of it (resume). First, its length is odd, then, it
    /// has more than 4,096 releases, with those of all pieces before: place
    /// 0, 0. Then, the first release with a tick over 1,000,000,000, a tick
    /// below the one before, a tick below the checkpoint's horizon or not below
    /// the new one (resume) or an unknown stream: place 0, release from 1, which
    /// counts within the piece.
    BadLog,
    /// 10: the horizon is over 1,000,000,000, or below the checkpoint's
    /// (resume). Place 0, 0.
    HorizonTooLarge,
    /// 11: no budgets of 1 to 16 make every stream in time. The node has a
    /// late stream and 16 already, in the earliest round with such a node, and
    /// is the first of them. Place node, 0.
    NoBudgets,
    /// 12: the messages that wait and the releases of the piece are more than
    /// 256 together, whatever could begin between (resume). Place 0, 0.
    TooManyWaiting,
    /// 13: the stream is on the sheet, but not on the caller's own node (edit
    /// stream). Place node, stream as asked.
    NotOwnNode,
    /// 16: the tick or the turns of the bus or the checkpoint are over
    /// 1,000,000,000, or its node is not 1 to n; or the checkpoint has more than
    /// 256 waiting, more than 4,096 releases so far, or an unknown stream that
    /// waits. Place 0, 0.
    BadBus,
    /// A number that this version has no name for: see [`Refusal::number`].
    Unnamed,
}

/// A refusal: its number, its place, and as text a sentence that has both.
///
/// Nothing is changed by an entry that refuses: no word of a room or a sheet
/// and no field of a stream record, a bus record or a checkpoint.
///
/// ```
/// use wistorvan::{admit, Reason};
///
/// // Sheet A with 38 for both deadlines of node 1.
/// let sheet = [2, 5, 1, 9, 2, 1, 15, 1, 2, 40, 38, 0, 60, 38, 0, 30, 30, 0];
/// let refusal = admit(&sheet, &mut [0; 3]).unwrap_err();
/// assert_eq!(refusal.reason(), Reason::Late);
/// assert_eq!(refusal.number(), 7);
/// assert_eq!(refusal.place(), (1, 2));
/// assert_eq!(refusal.to_string(), "refused 7 at 1 2: stream 2 of node 1 would be late");
/// ```
#[derive(Clone, Copy, PartialEq, Eq, Hash, Debug)]
pub struct Refusal {
    number: u32,
    place: (u32, u32),
}

impl Refusal {
    pub(crate) const fn new(number: u32, place: (u32, u32)) -> Refusal {
        Refusal { number, place }
    }

    /// The number: 1 to 13 or 16, or one that a later library has.
    ///
    /// ```
    /// assert_eq!(wistorvan::check_sheet(&[]).unwrap_err().number(), 1);
    /// ```
    #[must_use]
    pub const fn number(&self) -> u32 {
        self.number
    }

    /// The place: what the two numbers are stands at each [`Reason`].
    ///
    /// ```
    /// // A wrong place of the body of node 1.
    /// let refusal = wistorvan::check_sheet(&[1, 5, 1, 7, 1, 1, 20, 20, 0]).unwrap_err();
    /// assert_eq!(refusal.place(), (1, 0));
    /// ```
    #[must_use]
    pub const fn place(&self) -> (u32, u32) {
        self.place
    }

    /// The number by name.
    ///
    /// ```
    /// use wistorvan::{check_sheet, Reason};
    ///
    /// assert_eq!(check_sheet(&[]).unwrap_err().reason(), Reason::SheetTooShort);
    /// ```
    #[must_use]
    pub const fn reason(&self) -> Reason {
        match self.number {
            1 => Reason::SheetTooShort,
            2 => Reason::BadNodeCount,
            3 => Reason::BadDuration,
            4 => Reason::BadContents,
            5 => Reason::BadStream,
            6 => Reason::RoomTooShort,
            7 => Reason::Late,
            8 => Reason::NoSuchStream,
            9 => Reason::BadLog,
            10 => Reason::HorizonTooLarge,
            11 => Reason::NoBudgets,
            12 => Reason::TooManyWaiting,
            13 => Reason::NotOwnNode,
            16 => Reason::BadBus,
            _ => Reason::Unnamed,
        }
    }

    /// What is wrong, without the number.
    fn write_cause(&self, f: &mut fmt::Formatter<'_>) -> fmt::Result {
        let (a, b) = self.place;
        match self.reason() {
            Reason::SheetTooShort => write!(f, "the sheet has fewer than 3 words"),
            Reason::BadNodeCount => write!(f, "the number of nodes is not 1 to 16"),
            Reason::BadDuration => write!(f, "TMS or TPR is not 1 to 10,000"),
            Reason::BadContents if a == 0 => write!(f, "the sheet or a table has a wrong length"),
            Reason::BadContents => write!(f, "node {a}: wrong place, stream count or budget"),
            Reason::BadStream => write!(
                f,
                "stream {b} of node {a}: wrong period, deadline or jitter"
            ),
            Reason::RoomTooShort => write!(
                f,
                "the room is too short for waits, begins, sheet or budgets, or the list for records"
            ),
            Reason::Late => write!(f, "stream {b} of node {a} would be late"),
            Reason::NoSuchStream => write!(f, "the sheet has no stream {b} of node {a}"),
            Reason::BadLog if b == 0 => write!(f, "the log's length is odd or over 4,096 releases"),
            Reason::BadLog => write!(f, "release {b}: wrong tick or unknown stream"),
            Reason::HorizonTooLarge => {
                write!(
                    f,
                    "the horizon is over 1,000,000,000 or below the checkpoint's"
                )
            }
            Reason::NoBudgets => write!(
                f,
                "no budgets of 1 to 16 work: node {a} is late even with 16"
            ),
            Reason::TooManyWaiting => {
                write!(f, "the waiting and the piece's releases are more than 256")
            }
            Reason::NotOwnNode => write!(f, "stream {b} of node {a} is not on the own node"),
            Reason::BadBus => write!(
                f,
                "the record's tick, node, turns, releases or waiting are out of range"
            ),
            Reason::Unnamed => write!(f, "this version has no name for the number"),
        }
    }
}

/// `refused`, the number, `at`, the place, as the programs write it; then what
/// is wrong.
impl fmt::Display for Refusal {
    fn fmt(&self, f: &mut fmt::Formatter<'_>) -> fmt::Result {
        let (a, b) = self.place;
        write!(f, "refused {} at {a} {b}: ", self.number)?;
        self.write_cause(f)
    }
}

impl Error for Refusal {}

#[cfg(test)]
mod tests {
    use super::*;

    /// The names and numbers of the header's enum, success left out.
    fn named_in_header() -> Vec<(String, u32)> {
        let header = include_str!("../../include/wistorvan.h");
        let (_, rest) = header.split_once("enum wistorvan_number {").unwrap();
        let (list, _) = rest.split_once("};").unwrap();
        let named = list.lines().filter_map(|line| line.split_once(" = "));
        named
            .map(|(name, number)| (name.trim(), number.trim_end_matches(',')))
            .map(|(name, number)| (name.to_string(), number.parse().unwrap()))
            .filter(|(_, number)| *number != 0)
            .collect()
    }

    /// `SheetTooShort` as `WISTORVAN_SHEET_TOO_SHORT`.
    fn name_in_c(reason: Reason) -> String {
        let mut name = "WISTORVAN".to_string();
        for letter in format!("{reason:?}").chars() {
            if letter.is_uppercase() {
                name.push('_');
            }
            name.extend(letter.to_uppercase());
        }
        name
    }

    #[test]
    fn reasons_are_those_of_the_header() {
        let named: Vec<(String, u32)> = (0..1000)
            .map(|number| (Refusal::new(number, (0, 0)).reason(), number))
            .filter(|(reason, _)| *reason != Reason::Unnamed)
            .map(|(reason, number)| (name_in_c(reason), number))
            .collect();
        assert_eq!(named.len(), 14);
        assert_eq!(named, named_in_header());
    }

    #[test]
    fn a_number_without_a_name_is_still_told() {
        let later = Refusal::new(14, (3, 4));
        assert_eq!((later.number(), later.place()), (14, (3, 4)));
        assert_eq!(later.reason(), Reason::Unnamed);
        assert_eq!(
            later.to_string(),
            "refused 14 at 3 4: this version has no name for the number"
        );
    }
}
