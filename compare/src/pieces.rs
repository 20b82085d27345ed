//! The replay by pieces: one piece after another by both, and the pieces joined
//! against the proved whole replay.

use peer::generate::{Piece, PiecesCase};
use peer::stats::{joined_names, Resumed};
use peer::{Answer, Checkpoint, Lent, Place, CHECKPOINT_WORDS, NOT_BEGUN};

use crate::tally::{Outcome, Tally};
use crate::{proved, second};

/// A replay by pieces of the second program, good or broken.
pub type Resume = fn(&Lent, &mut Checkpoint, &mut [u32]) -> Answer;

/// The same record for the proved library.
fn checkpoint_of(record: &Checkpoint) -> wistorvan::Checkpoint {
    let table = |word: fn(&Place) -> u32| record.places.each_ref().map(word);
    wistorvan::Checkpoint {
        horizon: record.horizon,
        tick: record.tick,
        node: record.node,
        turns: record.turns,
        releases: record.releases,
        waiting: record.waiting,
        numbers: table(|place| place.number),
        ticks: table(|place| place.tick),
        streams: table(|place| place.stream),
    }
}

/// All words of a record of the proved library, in the order of its table.
fn words(record: &wistorvan::Checkpoint) -> Vec<u32> {
    let first = [
        record.horizon,
        record.tick,
        record.node,
        record.turns,
        record.releases,
        record.waiting,
    ];
    [&first[..], &record.numbers, &record.ticks, &record.streams].concat()
}

/// What is left is the room, and the words of the record after it.
pub fn resumed_by_proved(sheet: &[u32], piece: &Piece, record: &Checkpoint) -> Outcome {
    let mut record = checkpoint_of(record);
    let (releases, horizon) = (&piece.releases, piece.horizon);
    let mut outcome = proved(&piece.room, |room| {
        wistorvan::raw::resume(sheet, releases, horizon, &mut record, room)
    });
    outcome.left.extend(words(&record));
    outcome
}

/// The same of a replay by the second program, and its record.
pub fn resumed_by_second(
    resume: Resume,
    sheet: &[u32],
    piece: &Piece,
    record: &Checkpoint,
) -> (Outcome, Checkpoint) {
    let mut record = record.clone();
    let mut outcome = second(&piece.room, |room| {
        resume(&piece.on(sheet), &mut record, room)
    });
    outcome.left.extend(record.words());
    (outcome, record)
}

/// A piece that both have replayed: the sheet, the record before it, and what the
/// second program gave.
struct Done<'a> {
    sheet: &'a [u32],
    piece: &'a Piece,
    before: Checkpoint,
    outcome: Outcome,
    after: Checkpoint,
}

impl Done<'_> {
    fn resumed(&self) -> Resumed<'_> {
        let (number, second, third) = self.outcome.answer;
        let left = &self.outcome.left;
        Resumed {
            sheet: self.sheet,
            before: &self.before,
            piece: self.piece,
            answer: Answer {
                number,
                second,
                third,
            },
            after: &self.after,
            room: &left[..left.len() - CHECKPOINT_WORDS],
        }
    }
}

/// Both on each piece of the case, one after the other: all three numbers, all
/// words of the record and of the room. From a fresh record on the pieces are
/// joined too. A case ends with its first difference: some have thousands of
/// pieces.
pub fn compare_pieces(tally: &mut Tally, name: &str, case: &PiecesCase) {
    tally.new_pieces();
    let mut done: Vec<Done> = Vec::new();
    for piece in &case.pieces {
        let before = done.last().map_or(&case.record, |one| &one.after).clone();
        let mine = resumed_by_proved(&case.sheet, piece, &before);
        let (outcome, after) = resumed_by_second(peer::resume, &case.sheet, piece, &before);
        let alone = (&case.sheet, &before, piece);
        if !tally.compare("resume", name, &alone, &mine, &outcome) {
            return;
        }
        let one = Done {
            sheet: &case.sheet,
            piece,
            before,
            outcome,
            after,
        };
        let resumed = one.resumed();
        tally.named("resume", resumed.answer.number, resumed.names());
        done.push(one);
    }
    let valid = wistorvan::raw::check_sheet(&case.sheet).number == 0;
    if valid && case.record == Checkpoint::fresh() {
        let resumed: Vec<Resumed> = done.iter().map(Done::resumed).collect();
        compare_joined(tally, name, &case.sheet, &resumed);
    }
}

/// The pieces that were carried out, joined: their releases as one log give the
/// proved whole replay the same begins, turns and next tick at the last horizon.
fn compare_joined(tally: &mut Tally, name: &str, sheet: &[u32], resumed: &[Resumed]) {
    let carried = || resumed.iter().filter(|one| one.answer.number == 0);
    let fresh = Checkpoint::fresh();
    let last = carried().last().map_or(&fresh, |one| one.after);
    let log: Vec<u32> = carried()
        .flat_map(|one| &one.piece.releases)
        .copied()
        .collect();
    let room = vec![0; log.len() / 2];
    let mut whole = proved(&room, |room| {
        wistorvan::raw::replay(sheet, &log, last.horizon, room)
    });
    let begins = (1..).zip(&whole.left);
    whole.left = begins
        .flat_map(|(number, &begin)| [number, begin])
        .collect();
    let joined = Outcome {
        answer: (0, last.turns, last.tick),
        left: joined(carried().flat_map(Resumed::begun), last),
    };
    let horizons: Vec<u32> = carried().map(|one| one.after.horizon).collect();
    let cut = (sheet, &log, horizons);
    tally.compare("pieces joined", name, &cut, &joined, &whole);
    tally.named("pieces joined", 0, joined_names(resumed));
}

/// Number and begin of each release in the order of the log: those begun, and
/// those that the last record has waiting.
fn joined(begun: impl Iterator<Item = (u32, u32)>, last: &Checkpoint) -> Vec<u32> {
    let waiting = &last.places[..last.waiting as usize];
    let waiting = waiting.iter().map(|place| (place.number, NOT_BEGUN));
    let mut releases: Vec<(u32, u32)> = begun.chain(waiting).collect();
    releases.sort_unstable();
    let words = releases.into_iter();
    words.flat_map(|(number, begin)| [number, begin]).collect()
}
