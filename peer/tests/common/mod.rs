//! Shared by the tests; each test file uses a part of it.
#![allow(dead_code)]

use std::fmt::Debug;

use peer::generate::{case, named, named_budgets, named_pieces, named_tables};
use peer::generate::{BudgetsCase, Case, PiecesCase, TablesCase};
use peer::stats::Figures;
use peer::{admit, find_budgets, one_stream, replay, resume, write_sheet};
use peer::{Answer, Checkpoint, Lent, Place, Tables};

pub const NOT_BEGUN: u32 = peer::NOT_BEGUN;

/// Sheet A of document 01: a cycle of 17 ticks.
pub const SHEET_A: [u32; 18] = [2, 5, 1, 9, 2, 1, 15, 1, 2, 40, 40, 0, 60, 60, 0, 30, 30, 0];
/// The sheet of P7.
pub const SHEET_P7: [u32; 12] = [1, 5, 1, 6, 2, 1, 10, 10, 0, 100, 100, 0];

/// P7 with 11 11 first: a cycle of 6 ticks, and the first just in time.
pub fn p7_just_in_time() -> Vec<u32> {
    with(&SHEET_P7, &[(6, 11), (7, 11)])
}

/// A word that no entry writes in the tests that use it.
pub const OLD: u32 = 777_777_777;

pub fn answer(number: u32, second: u32, third: u32) -> Answer {
    Answer {
        number,
        second,
        third,
    }
}

/// Sheet A with some words changed.
pub fn sheet_a_with(changes: &[(usize, u32)]) -> Vec<u32> {
    with(&SHEET_A, changes)
}

pub fn with(words: &[u32], changes: &[(usize, u32)]) -> Vec<u32> {
    let mut words = words.to_vec();
    for &(place, word) in changes {
        words[place] = word;
    }
    words
}

/// Builds a valid layout from budgets and streams without jitter: period and
/// deadline of each.
pub fn sheet(message: u32, slot: u32, nodes: &[(u32, &[(u32, u32)])]) -> Vec<u32> {
    let steady = |streams: &[(u32, u32)]| -> Vec<[u32; 3]> {
        let streams = streams.iter();
        streams
            .map(|&(period, deadline)| [period, deadline, 0])
            .collect()
    };
    let nodes: Vec<_> = nodes.iter().map(|node| (node.0, steady(node.1))).collect();
    let nodes: Vec<_> = nodes.iter().map(|node| (node.0, &node.1[..])).collect();
    jittery_sheet(message, slot, &nodes)
}

/// The same with period, deadline and jitter of each stream.
pub fn jittery_sheet(message: u32, slot: u32, nodes: &[(u32, &[[u32; 3]])]) -> Vec<u32> {
    let mut words = vec![nodes.len() as u32, message, slot];
    let mut place = 3 + 3 * nodes.len() as u32;
    for (budget, streams) in nodes {
        words.extend([place, streams.len() as u32, *budget]);
        place += 3 * streams.len() as u32;
    }
    for (_, streams) in nodes {
        words.extend(streams.iter().flatten());
    }
    words
}

/// Period, deadline and jitter of each stream of each node of a valid sheet.
pub fn bodies(sheet: &[u32]) -> Vec<Vec<[u32; 3]>> {
    let rows = sheet[3..].chunks_exact(3).take(sheet[0] as usize);
    rows.map(|row| {
        let body = sheet[row[0] as usize..].chunks_exact(3);
        let streams = body.take(row[1] as usize);
        streams
            .map(|words| [words[0], words[1], words[2]])
            .collect()
    })
    .collect()
}

/// A stream, taken apart in the plainest way.
#[derive(Clone, Copy)]
pub struct Stream {
    pub period: u64,
    pub deadline: u64,
    pub jitter: u64,
}

/// The sum H by the words of document 01 and request Six, over these streams.
pub fn releases(above: &[Stream], window: u64) -> u64 {
    let counts = above
        .iter()
        .map(|stream| 1 + (window + stream.jitter) / stream.period);
    counts.sum()
}

/// A valid sheet, taken apart in the plainest way.
pub struct Plain {
    pub message: u64,
    pub slot: u64,
    pub cycle: u64,
    /// Budget and streams of each node.
    pub nodes: Vec<(u64, Vec<Stream>)>,
}

pub fn plain(sheet: &[u32]) -> Plain {
    let word = |place: usize| u64::from(sheet[place]);
    let mut nodes = Vec::new();
    for node in 0..sheet[0] as usize {
        let row = 3 + 3 * node;
        let body = sheet[row] as usize;
        let count = sheet[row + 1] as usize;
        let stream = |number: usize| Stream {
            period: word(body + 3 * number),
            deadline: word(body + 3 * number + 1),
            jitter: word(body + 3 * number + 2),
        };
        nodes.push((word(row + 2), (0..count).map(stream).collect::<Vec<_>>()));
    }
    let budgets: u64 = nodes.iter().map(|node| node.0).sum();
    Plain {
        message: word(1),
        slot: word(2),
        cycle: budgets * word(1) + word(0) * word(2),
        nodes,
    }
}

/// The rank by the words of the request: shorter deadline first, then shorter
/// period, then lower stream number. Numbers are those in the node, from 0.
pub fn ranks_above(streams: &[Stream], one: usize, other: usize) -> bool {
    let (first, second) = (streams[one], streams[other]);
    if first.deadline != second.deadline {
        return first.deadline < second.deadline;
    }
    if first.period != second.period {
        return first.period < second.period;
    }
    one < other
}

/// The streams of a node above one of them.
pub fn streams_above(streams: &[Stream], stream: usize) -> Vec<Stream> {
    let others = (0..streams.len()).filter(|&other| ranks_above(streams, other, stream));
    others.map(|other| streams[other]).collect()
}

/// Admits into a room with two words to spare; those two must stay.
pub fn admitted(sheet: &[u32], streams: usize) -> (Answer, Vec<u32>) {
    let mut room = vec![OLD; streams + 2];
    let given = admit(sheet, &mut room);
    assert_eq!(room[streams..], [OLD, OLD], "words past the waits");
    room.truncate(streams);
    (given, room)
}

/// Asserts the answer and that no word of a large room changed.
pub fn assert_admit_refused(sheet: &[u32], expected: Answer) {
    let mut room = [OLD; 300];
    assert_eq!(admit(sheet, &mut room), expected);
    assert_eq!(room, [OLD; 300], "a refusal changes no word");
}

/// Replays into a room with two words to spare; those two must stay.
pub fn replayed(sheet: &[u32], log: &[u32], horizon: u32) -> (Answer, Vec<u32>) {
    let releases = log.len() / 2;
    let mut room = vec![OLD; releases + 2];
    let given = replay(sheet, log, horizon, &mut room);
    assert_eq!(room[releases..], [OLD, OLD], "words past the releases");
    room.truncate(releases);
    (given, room)
}

pub fn assert_replay_refused(sheet: &[u32], log: &[u32], horizon: u32, expected: Answer) {
    let mut room = [OLD; 5_000];
    assert_eq!(replay(sheet, log, horizon, &mut room), expected);
    assert_eq!(room, [OLD; 5_000], "a refusal changes no word");
}

pub fn listed_wait(sheet: &[u32], node: u32, stream: u32) -> u32 {
    let given = one_stream(sheet, node, stream);
    assert_eq!(given.number, 0, "{given:?}");
    given.second
}

pub fn bytes(words: &[u32]) -> Vec<u8> {
    words.iter().flat_map(|word| word.to_le_bytes()).collect()
}

/// The admission, good or broken.
pub type Admit = fn(&[u32], &mut [u32]) -> Answer;

/// The answer of an admission, and what it leaves of an exact room.
pub fn waits(entry: Admit, sheet: &[u32], streams: usize) -> (Answer, Vec<u32>) {
    let mut room = vec![OLD; streams];
    (entry(sheet, &mut room), room)
}

/// Whether a broken admission shows on a case.
pub fn admits_differ(bad: Admit, case: &Case) -> bool {
    let given = |entry: Admit| {
        let mut room = case.room.clone();
        (entry(&case.sheet, &mut room), room)
    };
    given(admit) != given(bad)
}

/// Of 2,000 generated cases.
pub fn count(differ: impl Fn(&Case) -> bool) -> usize {
    let cases = (0..2_000).map(|index| case(1, index));
    cases.filter(|case| differ(case)).count()
}

/// The tables of sheet A.
pub fn tables_a() -> Tables {
    Tables {
        message_ticks: 5,
        slot_ticks: 1,
        counts: vec![2, 1],
        budgets: vec![1, 2],
        periods: vec![40, 60, 30],
        deadlines: vec![40, 60, 30],
        jitters: vec![0; 3],
    }
}

pub fn tables_a_but(change: impl FnOnce(&mut Tables)) -> Tables {
    let mut tables = tables_a();
    change(&mut tables);
    tables
}

/// Writes into a room with two words to spare; those two must stay.
pub fn written(tables: &Tables) -> (Answer, Vec<u32>) {
    let words = 3 + 3 * tables.counts.len() + 3 * tables.periods.len();
    let mut room = vec![OLD; words + 2];
    let given = write_sheet(tables, &mut room);
    assert_eq!(room[words..], [OLD, OLD], "words past the sheet");
    room.truncate(words);
    (given, room)
}

/// A writer, good or broken.
pub type Writer = fn(&Tables, &mut [u32]) -> Answer;

/// The answer of a writer on a case, and what it leaves of the room.
pub fn written_by(writer: Writer, case: &TablesCase) -> (Answer, Vec<u32>) {
    let mut room = case.room.clone();
    let given = writer(&case.tables, &mut room);
    (given, room)
}

/// A search for budgets, good or broken.
pub type Find = fn(&[u32], &mut [u32]) -> Answer;

/// The answer of a search for budgets on a case, and what it leaves of the room.
pub fn found_by(find: Find, case: &BudgetsCase) -> (Answer, Vec<u32>) {
    let mut room = case.room.clone();
    let given = find(&case.sheet, &mut room);
    (given, room)
}

/// Finds budgets in a room with two words to spare; those two must stay. Answers
/// the row without the words past the last node, which must be 0 if it is found.
pub fn found(sheet: &[u32]) -> (Answer, Vec<u32>) {
    let mut room = vec![OLD; 18];
    let given = find_budgets(sheet, &mut room);
    assert_eq!(room[16..], [OLD, OLD], "words past the row");
    if given.number != 0 {
        assert_eq!(room, [OLD; 18], "a refusal changes no word");
        return (given, vec![]);
    }
    let nodes = sheet[0] as usize;
    assert!(room[nodes..16].iter().all(|&word| word == 0), "{room:?}");
    room.truncate(nodes);
    (given, room)
}

/// A replay by pieces, good or broken.
pub type Resume = fn(&Lent, &mut Checkpoint, &mut [u32]) -> Answer;

/// Replays a piece on sheet A in a room with two words to spare. Those two must
/// stay, and so must all words and the record if it is refused. Answers number
/// and tick of each message begun.
pub fn resumed(record: &mut Checkpoint, piece: &[u32], horizon: u32) -> (Answer, Vec<(u32, u32)>) {
    resumed_on(&SHEET_A, record, piece, horizon)
}

/// The same on another sheet.
pub fn resumed_on(
    sheet: &[u32],
    record: &mut Checkpoint,
    piece: &[u32],
    horizon: u32,
) -> (Answer, Vec<(u32, u32)>) {
    let before = record.clone();
    let words = 2 * record.waiting as usize + piece.len();
    let mut room = vec![OLD; words + 2];
    let lent = Lent {
        sheet,
        piece,
        horizon,
    };
    let given = resume(&lent, record, &mut room);
    let begun = match given.number {
        0 => given.second as usize,
        _ => 0,
    };
    let (first, rest) = room.split_at(2 * begun);
    assert!(rest.iter().all(|&word| word == OLD), "{room:?}");
    assert!(given.number == 0 || *record == before, "a refusal");
    let begun = first.chunks_exact(2).map(|words| (words[0], words[1]));
    (given, begun.collect())
}

/// A record with these places: number, tick and stream of each.
pub fn record_with(places: &[(u32, u32, u32)]) -> Checkpoint {
    let mut record = Checkpoint::fresh();
    for (place, &(number, tick, stream)) in record.places.iter_mut().zip(places) {
        *place = Place {
            number,
            tick,
            stream,
        };
    }
    record.waiting = places.len() as u32;
    record
}

/// Number, tick and stream of each that waits. All places past them must be 0.
pub fn waiting(record: &Checkpoint) -> Vec<(u32, u32, u32)> {
    let (waiting, rest) = record.places.split_at(record.waiting as usize);
    assert!(rest.iter().all(|place| *place == Place::default()));
    let waiting = waiting.iter();
    waiting
        .map(|place| (place.number, place.tick, place.stream))
        .collect()
}

/// The places of the budgets in a valid sheet.
pub fn budget_places(sheet: &[u32]) -> impl Iterator<Item = usize> {
    (0..sheet[0] as usize).map(|node| 3 + 3 * node + 2)
}

/// A valid sheet with other budgets.
pub fn with_budgets(sheet: &[u32], budgets: &[u32]) -> Vec<u32> {
    let places = budget_places(sheet).zip(budgets);
    let changes: Vec<(usize, u32)> = places.map(|(place, &budget)| (place, budget)).collect();
    with(sheet, &changes)
}

/// The named case that has this name.
pub fn named_case(name: &str) -> Case {
    let mut all = named().into_iter();
    all.find(|case| case.0 == name).expect(name).1
}

/// The named tables that have this name.
pub fn named_tables_case(name: &str) -> TablesCase {
    let mut all = named_tables().into_iter();
    all.find(|case| case.0 == name).expect(name).1
}

/// The named case for the search for budgets that has this name.
pub fn named_budgets_case(name: &str) -> BudgetsCase {
    let mut all = named_budgets().into_iter();
    all.find(|case| case.0 == name).expect(name).1
}

/// The named case for the replay by pieces that has this name.
pub fn named_pieces_case(name: &str) -> PiecesCase {
    let mut all = named_pieces().into_iter();
    all.find(|case| case.0 == name).expect(name).1
}

/// Makes cases again and in another order; at most so many may be equal for
/// another seed or the next index.
pub fn assert_depends_on_seed_and_index_alone<Case: PartialEq + Debug>(
    make: fn(u64, u64) -> Case,
    most_equal: usize,
) {
    let first: Vec<Case> = (0..50).map(|index| make(5, index)).collect();
    for index in (0..50).rev() {
        assert_eq!(make(5, index as u64), first[index]);
    }
    let other = (0..50).filter(|&index| make(6, index) == first[index as usize]);
    assert!(other.count() <= most_equal);
    let shifted = (0..49).filter(|&index| first[index] == first[index + 1]);
    assert!(shifted.count() <= most_equal);
}

/// Each of these has at least this count.
pub fn least(figures: &Figures, names: &[&str], share: u64) {
    for name in names {
        let count = figures.count(name);
        assert!(count >= share, "{name}: {count} of at least {share}");
    }
}
