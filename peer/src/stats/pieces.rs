//! How generated cases spread over the answers of the replay by pieces, and what
//! is known by name of a piece, of a refusal and of pieces joined.

use super::{fitting, Figures};
use crate::generate::{made_up_case, pieces_case, Piece, PiecesCase, FAR_BEGIN, FAR_TURNS};
use crate::pieces::{all_waiting, MOST_WAITING};
use crate::sheet::LAST_TICK;
use crate::{resume, Answer, Checkpoint};

/// What a piece that is carried out may be or do.
pub const PIECE_NAMES: [&str; 13] = [
    "no release",
    "one release",
    "an unchanged horizon",
    "all places taken",
    "a begin of one that waited",
    "some left waiting",
    "ticks of the waiting that fall",
    "a message never due",
    "a word past the waiting",
    "no turn before the horizon",
    "over 10^6 turns",
    "a begin over 10^9",
    "over 10^9 turns so far",
];

/// What is wrong with a record that is refused 16.
pub const RECORD_FAULTS: [&str; 8] = [
    "tick",
    "turns",
    "node 0",
    "node too large",
    "too many waiting",
    "too many releases so far",
    "waiting stream 0",
    "waiting stream too large",
];

/// What is wrong with a piece that is refused 9.
pub const PIECE_FAULTS: [&str; 9] = [
    "odd length",
    "too many releases",
    "tick too large",
    "falling tick",
    "tick below the old horizon",
    "tick at the new horizon",
    "tick past the new horizon",
    "stream 0",
    "stream too large",
];

/// What is wrong with a horizon that is refused 10.
pub const HORIZON_FAULTS: [&str; 2] = ["fallen", "too large"];

/// What pieces that are joined may have come to.
pub const JOINED_NAMES: [&str; 7] = [
    "a release begun in a later piece",
    "a release left waiting",
    "every release begun",
    "no release at all",
    "a piece without releases",
    "ten pieces or more",
    "a piece refused on the way",
];

/// One piece: the sheet, the record before it and after it, and what it answered
/// and left of its room.
pub struct Resumed<'a> {
    pub sheet: &'a [u32],
    pub before: &'a Checkpoint,
    pub piece: &'a Piece,
    pub answer: Answer,
    pub after: &'a Checkpoint,
    pub room: &'a [u32],
}

impl Resumed<'_> {
    /// The names that fit, whatever was answered.
    pub fn names(&self) -> Vec<&'static str> {
        match self.answer.number {
            0 => self.success_names(),
            9 => vec![self.piece_fault()],
            10 => vec![HORIZON_FAULTS[usize::from(self.piece.horizon >= self.before.horizon)]],
            16 => vec![self.record_fault()],
            _ => vec![],
        }
    }

    /// Release number and begin tick of each message begun.
    pub fn begun(&self) -> impl Iterator<Item = (u32, u32)> + '_ {
        let begun = self.room.chunks_exact(2).take(self.answer.second as usize);
        begun.map(|words| (words[0], words[1]))
    }

    /// Whether a message has begun that came with a piece before. Those of this
    /// piece have numbers above all so far, if the record is not made up.
    pub fn begins_earlier_release(&self) -> bool {
        let releases = self.before.releases;
        self.begun().any(|(number, _)| number <= releases)
    }

    fn success_names(&self) -> Vec<&'static str> {
        let Resumed { before, after, .. } = *self;
        let places = &before.places[..before.waiting as usize];
        let mut stale = before.places[places.len()..].iter();
        let turns = after.turns - before.turns;
        let fits = [
            self.piece.releases.is_empty(),
            self.piece.releases.len() == 2,
            after.horizon == before.horizon,
            all_waiting(&self.piece.releases, before) == MOST_WAITING,
            self.begins_earlier_release(),
            after.waiting > 0,
            places.windows(2).any(|pair| pair[1].tick < pair[0].tick),
            places
                .iter()
                .any(|place| place.tick > after.tick && place.tick > LAST_TICK),
            stale.any(|place| [place.number, place.tick, place.stream] != [0; 3]),
            turns == 0 && after.horizon > before.horizon,
            turns > FAR_TURNS,
            self.begun().any(|(_, begin)| begin > FAR_BEGIN),
            after.turns > LAST_TICK,
        ];
        fitting(PIECE_NAMES, fits)
    }

    /// The first that is found, if several are wrong. The sheet is valid.
    fn record_fault(&self) -> &'static str {
        let (record, nodes) = (self.before, self.sheet[0]);
        let mut waiting = record.places.iter().take(record.waiting as usize);
        let wrong = [
            record.tick > LAST_TICK,
            record.turns > LAST_TICK,
            record.node == 0,
            record.node > nodes,
            record.waiting as usize > MOST_WAITING,
            record.releases > 4_096,
            waiting.any(|place| place.stream == 0),
        ];
        // What else there is, is a stream that the sheet has not.
        let first = wrong.into_iter().position(|wrong| wrong);
        RECORD_FAULTS[first.unwrap_or(wrong.len())]
    }

    fn piece_fault(&self) -> &'static str {
        let (words, horizon) = (&self.piece.releases, self.piece.horizon);
        let at = match (self.answer.third as usize).checked_sub(1) {
            None => return PIECE_FAULTS[usize::from(words.len() % 2 == 0)],
            Some(release) => 2 * release,
        };
        let falls = at > 0 && words[at] < words[at - 2];
        let fault = match (words[at], words[at + 1]) {
            (tick, _) if tick > LAST_TICK => 2,
            (tick, _) if tick < self.before.horizon => 4,
            _ if falls => 3,
            (tick, _) if tick == horizon => 5,
            (tick, _) if tick > horizon => 6,
            (_, 0) => 7,
            _ => 8,
        };
        PIECE_FAULTS[fault]
    }
}

/// The names that fit pieces from a fresh record on.
pub fn joined_names(resumed: &[Resumed]) -> Vec<&'static str> {
    let done = || resumed.iter().filter(|one| one.answer.number == 0);
    let (releases, left) = done().last().map_or((0, 0), |one| {
        let Checkpoint {
            releases, waiting, ..
        } = one.after;
        (*releases, *waiting)
    });
    let fits = [
        done().any(Resumed::begins_earlier_release),
        left > 0,
        left == 0 && releases > 0,
        releases == 0,
        done().any(|one| one.piece.releases.is_empty()),
        done().count() >= 10,
        done().count() < resumed.len(),
    ];
    fitting(JOINED_NAMES, fits)
}

pub fn gather_pieces(seed: u64, count: u64) -> Figures {
    let mut figures = Figures::default();
    for index in 0..count {
        count_pieces(&mut figures, &pieces_case(seed, index));
        count_pieces(&mut figures, &made_up_case(seed, index));
    }
    figures
}

fn count_pieces(figures: &mut Figures, case: &PiecesCase) {
    figures.total("pieces", case.pieces.len() as u64);
    figures.highest("most pieces of a case", case.pieces.len() as u64);
    let mut record = case.record.clone();
    for piece in &case.pieces {
        let (before, mut room) = (record.clone(), piece.room.clone());
        let answer = resume(&piece.on(&case.sheet), &mut record, &mut room);
        let resumed = Resumed {
            sheet: &case.sheet,
            before: &before,
            piece,
            answer,
            after: &record,
            room: &room,
        };
        count_piece(figures, &resumed);
    }
}

fn count_piece(figures: &mut Figures, resumed: &Resumed) {
    let number = resumed.answer.number;
    figures.add(format!("resume {number}"));
    for name in resumed.names() {
        figures.add(format!("resume {number}, {name}"));
    }
    if number == 0 {
        figures.total("messages begun", u64::from(resumed.answer.second));
        let needed = 2 * all_waiting(&resumed.piece.releases, resumed.before);
        let kind = super::room_kind(resumed.piece.room.len(), needed);
        figures.add(format!("room of resume {kind}"));
    }
}
