//! Cases for the replay by pieces: logs that are cut up at horizons of all
//! kinds, and records that no replay has left.

use super::any_word;
use super::faults::damage_sheet;
use super::logs::{ordered_log, Traffic};
use super::made_up::made_up;
use super::random::Random;
use super::sheets::bus_sheet;
use crate::pieces::{all_waiting, MOST_WAITING};
use crate::sheet::{Bus, LAST_TICK};
use crate::{resume, Checkpoint, Lent};

/// A record, and pieces that are handed in one after the other.
#[derive(Clone, PartialEq, Eq, Debug)]
pub struct PiecesCase {
    pub sheet: Vec<u32>,
    pub record: Checkpoint,
    pub pieces: Vec<Piece>,
}

/// Two words a release, and the room that is lent with it.
#[derive(Clone, PartialEq, Eq, Debug, Default)]
pub struct Piece {
    pub releases: Vec<u32>,
    pub horizon: u32,
    pub room: Vec<u32>,
}

impl Piece {
    /// What is lent with it to be read.
    pub fn on<'a>(&'a self, sheet: &'a [u32]) -> Lent<'a> {
        Lent {
            sheet,
            piece: &self.releases,
            horizon: self.horizon,
        }
    }
}

/// A log that is cut up, from a fresh record on; the same for the same seed and
/// index, whatever other cases are made.
pub fn pieces_case(seed: u64, index: u64) -> PiecesCase {
    let random = &mut Random::new(seed, index);
    let sheet = sheet(random);
    let (log, last) = whole_log(random, Bus::read(&sheet).ok().as_ref());
    cut_up(random, sheet, Checkpoint::fresh(), &log, last)
}

/// The same from a record that no replay has left.
pub fn made_up_case(seed: u64, index: u64) -> PiecesCase {
    let random = &mut Random::new(seed, index);
    let sheet = sheet(random);
    let bus = Bus::read(&sheet).ok();
    let record = made_up(random, bus.as_ref());
    let (log, last) = log_after(random, bus.as_ref(), &record);
    cut_up(random, sheet, record, &log, last)
}

/// Mostly a valid one.
fn sheet(random: &mut Random) -> Vec<u32> {
    let mut sheet = bus_sheet(random);
    if random.percent(30) {
        damage_sheet(random, &mut sheet);
    }
    sheet
}

/// Pieces one after the other, until every further one would be refused.
fn cut_up(
    random: &mut Random,
    sheet: Vec<u32>,
    record: Checkpoint,
    log: &[u32],
    last: u32,
) -> PiecesCase {
    let mut builder = Builder::new(sheet, record);
    for horizon in horizons(random, log, builder.now.horizon, last) {
        builder.go_on(random, log, horizon);
        if builder.stuck {
            break;
        }
    }
    builder.case
}

/// How far a log goes: some cycles, or as far as ticks go.
fn span(random: &mut Random, bus: Option<&Bus>) -> u64 {
    let cycle = bus.map_or(17, Bus::cycle);
    let ticks = match random.weighted(&[30, 30, 25, 15]) {
        0 => random.between(1, 3 * cycle),
        1 => random.between(1, 40 * cycle),
        2 => random.between(1, 10_000_000),
        _ => u64::from(LAST_TICK),
    };
    ticks.min(u64::from(LAST_TICK))
}

fn traffic(bus: Option<&Bus>, span: u64) -> Traffic<'_> {
    let streams = bus.map_or(3, |bus| bus.streams().len() as u32);
    Traffic {
        bus,
        streams,
        span,
        sharp: None,
    }
}

/// A log from tick 0 and its last horizon. What comes at that horizon or after
/// it is in no piece.
fn whole_log(random: &mut Random, bus: Option<&Bus>) -> (Vec<u32>, u32) {
    let span = span(random, bus);
    let log = match bus.filter(|bus| !bus.streams().is_empty()) {
        Some(bus) if random.percent(8) => long_log(random, bus),
        _ => ordered_log(random, &traffic(bus, span)),
    };
    let last_tick = log.len().checked_sub(2).map_or(0, |last| log[last]);
    let cycle = bus.map_or(17, Bus::cycle);
    let soon = random.below(2 * cycle);
    let last = match random.weighted(&[30, 30, 25, 10, 5]) {
        0 => u64::from(last_tick) + 1,
        1 => u64::from(last_tick) + 1 + soon,
        2 => span,
        3 => u64::from(LAST_TICK),
        _ => random.below(span + 1),
    };
    (log, last.min(u64::from(LAST_TICK)) as u32)
}

/// More releases than there are places, at a pace that the bus keeps up with or
/// nearly so.
fn long_log(random: &mut Random, bus: &Bus) -> Vec<u32> {
    let streams = bus.streams().len() as u64;
    let apart = random.pick(&[bus.cycle() / 8, bus.cycle() / 2, 2 * bus.cycle()]);
    let (mut tick, mut log) = (0, Vec::new());
    for _ in 0..random.between(250, 700) {
        log.extend([tick as u32, random.between(1, streams) as u32]);
        tick += random.below(2 * apart + 1);
        if tick >= u64::from(LAST_TICK) {
            break;
        }
    }
    log
}

/// Releases after the horizon of a record, and a horizon after them. A record
/// with a horizon that no piece may have gets one that is far too large, or a
/// fallen one.
fn log_after(random: &mut Random, bus: Option<&Bus>, record: &Checkpoint) -> (Vec<u32>, u32) {
    let start = record.horizon;
    if start > LAST_TICK {
        return (vec![], random.pick(&[LAST_TICK, start, u32::MAX]));
    }
    let left = u64::from(LAST_TICK - start);
    let span = span(random, bus).min(left);
    let mut log = match random.percent(70) {
        true => ordered_log(random, &traffic(bus, span)),
        false => vec![],
    };
    log.truncate(2 * random.pick(&[1, 2, 8, 300]));
    let ticks = log.iter_mut().step_by(2);
    ticks.for_each(|tick| *tick = tick.saturating_add(start));
    // Often past the next turn, which may be far from the horizon.
    let turn = u64::from(record.tick.saturating_sub(start));
    let after = turn + random.below(200);
    let span = random.pick(&[span, span, after, after, left, 0]);
    (log, start + span.min(left) as u32)
}

/// Where a log is cut: at ticks of releases and next to them, so that pieces
/// have so many releases by and large, and at any other ticks. In order, the
/// last one last, and some of them twice.
fn horizons(random: &mut Random, log: &[u32], first: u32, last: u32) -> Vec<u32> {
    let apart = match log.len() / 2 {
        0..=40 => random.pick(&[1, 1, 2, 5, 20, 100]),
        41..=400 => random.pick(&[10, 30, 100, 400]),
        _ => random.pick(&[60, 120, 250, 600]),
    };
    let mut cuts = Vec::new();
    for release in log.chunks_exact(2).step_by(apart) {
        let later = random.below(50) as u32;
        cuts.push(release[0].saturating_add(random.pick(&[0, 0, 1, 1, later])));
    }
    for _ in 0..random.pick(&[0, 0, 1, 3]) {
        let span = u64::from(last.saturating_sub(first));
        cuts.push(first + random.below(span + 1) as u32);
    }
    cuts.retain(|&cut| cut >= first && cut < last);
    cuts.sort_unstable();
    cuts.dedup();
    if let (true, Some(&cut)) = (random.percent(15), cuts.last()) {
        cuts.push(cut);
    }
    cuts.push(last);
    if random.percent(10) {
        cuts.push(last);
    }
    cuts
}

/// A case that is being made, and the record that its pieces have led to.
struct Builder {
    case: PiecesCase,
    now: Checkpoint,
    /// Every further piece would be refused for the sheet or the record.
    stuck: bool,
}

impl Builder {
    fn new(sheet: Vec<u32>, record: Checkpoint) -> Builder {
        let case = PiecesCase {
            sheet,
            record: record.clone(),
            pieces: vec![],
        };
        Builder {
            case,
            now: record,
            stuck: false,
        }
    }

    /// The releases of a log up to a horizon: as one piece, or as several where
    /// they and the waiting are too many for the places. A piece with a fault
    /// may come before, and one that is too long.
    fn go_on(&mut self, random: &mut Random, log: &[u32], horizon: u32) {
        let wanted = self.releases(log, horizon);
        if random.percent(6) {
            self.hand_in_wrong(random, wanted.clone(), horizon);
        }
        if all_waiting(&wanted, &self.now) <= MOST_WAITING || random.percent(50) {
            self.hand_in(random, wanted, horizon);
        }
        while self.now.horizon < horizon {
            let sooner = self.longest(log, horizon);
            if sooner <= self.now.horizon {
                break;
            }
            let some = self.releases(log, sooner);
            self.hand_in(random, some, sooner);
            if self.now.horizon != sooner {
                break;
            }
        }
    }

    /// The releases of a log from the horizon of the record up to this one.
    fn releases(&self, log: &[u32], horizon: u32) -> Vec<u32> {
        let ticks = self.now.horizon..horizon;
        let releases = log.chunks_exact(2);
        let own = releases.filter(|release| ticks.contains(&release[0]));
        own.flatten().copied().collect()
    }

    /// The last horizon up to this one by which the places are enough.
    fn longest(&self, log: &[u32], horizon: u32) -> u32 {
        let free = MOST_WAITING.saturating_sub(self.now.waiting as usize);
        let rest = self.releases(log, horizon);
        rest.get(2 * free).copied().unwrap_or(horizon)
    }

    /// Hands a piece in, in a room that is long enough.
    fn hand_in(&mut self, random: &mut Random, releases: Vec<u32>, horizon: u32) {
        let needed = 2 * all_waiting(&releases, &self.now).min(MOST_WAITING);
        let more = random.pick(&[0, 0, 1, 2, 9]);
        self.push(Piece {
            releases,
            horizon,
            room: words(random, needed + more),
        });
    }

    fn push(&mut self, piece: Piece) {
        let mut room = piece.room.clone();
        let answer = resume(&piece.on(&self.case.sheet), &mut self.now, &mut room);
        self.stuck = matches!(answer.number, 1..=5 | 16);
        self.case.pieces.push(piece);
    }

    /// The same piece with something wrong with it, or at least not alike. If
    /// it is carried out all the same, the log goes on behind it.
    fn hand_in_wrong(&mut self, random: &mut Random, releases: Vec<u32>, horizon: u32) {
        let needed = 2 * all_waiting(&releases, &self.now).min(MOST_WAITING);
        let mut piece = Piece {
            releases,
            horizon,
            room: words(random, needed),
        };
        spoil(random, &mut piece, &self.now);
        self.push(piece);
    }
}

/// A few words again and again, since most of the time would go into rooms
/// otherwise.
fn words(random: &mut Random, length: usize) -> Vec<u32> {
    let some: Vec<u32> = (0..7).map(|_| any_word(random)).collect();
    some.into_iter().cycle().take(length).collect()
}

fn spoil(random: &mut Random, piece: &mut Piece, record: &Checkpoint) {
    match random.weighted(&[25, 50, 20, 5]) {
        0 => {
            let short = random.pick(&[1, 1, 2, 30]);
            let length = piece.room.len().saturating_sub(short);
            piece.room.truncate(length);
        }
        1 => spoil_releases(random, piece, record),
        2 => spoil_horizon(random, piece, record),
        _ => {
            spoil_releases(random, piece, record);
            spoil_horizon(random, piece, record);
        }
    }
}

/// One release, or one more where there is none.
fn spoil_releases(random: &mut Random, piece: &mut Piece, record: &Checkpoint) {
    if piece.releases.is_empty() {
        piece.releases = vec![record.horizon, 1];
    }
    let releases = piece.releases.len() / 2;
    let at = 2 * random.below(releases as u64) as usize;
    let last = 2 * (releases - 1);
    match random.weighted(&[15, 10, 15, 25, 10, 20, 5]) {
        0 => piece.releases[last] = piece.horizon,
        1 => piece.releases[last] = random.pick(&[piece.horizon.saturating_add(1), LAST_TICK + 1]),
        2 => piece.releases[0] = record.horizon.wrapping_sub(1),
        3 => {
            let tick = piece.releases[last].saturating_sub(1);
            let between = random.between(u64::from(record.horizon.min(tick)), u64::from(tick));
            piece.releases.extend([between as u32, 1]);
        }
        4 => piece.releases.truncate(2 * releases - 1),
        5 => piece.releases[at + 1] = random.pick(&[0, 0, 257, u32::MAX]),
        _ => {
            let more = 4_097 - record.releases.min(4_096) as usize;
            let release = [piece.releases[last], 1];
            piece.releases.extend(release.repeat(more));
        }
    }
}

/// Alone, so that no release is outside the piece first.
fn spoil_horizon(random: &mut Random, piece: &mut Piece, record: &Checkpoint) {
    if random.percent(80) {
        piece.releases.clear();
    }
    let fallen = record.horizon.saturating_sub(1);
    let past = LAST_TICK + 1;
    piece.horizon = random.pick(&[fallen, fallen, past, past, 0, u32::MAX]);
}
