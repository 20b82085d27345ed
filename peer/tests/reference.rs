//! The fast methods against slow literal ones.

mod common;

use std::cmp::Ordering;

use common::*;
use peer::generate::{case, Case};
use peer::{admit, check_sheet, one_stream, replay, step, Answer, Record};

fn least_common_multiple(one: u64, other: u64) -> u64 {
    let (mut divisor, mut rest) = (one, other);
    while rest > 0 {
        (divisor, rest) = (rest, divisor % rest);
    }
    one / divisor * other
}

impl Plain {
    /// The streams above, node and stream from 0.
    fn above(&self, node: usize, stream: usize) -> Vec<Stream> {
        streams_above(&self.nodes[node].1, stream)
    }

    /// Wait and J by the words of document 01 and request Six, for J up to
    /// `most`, whatever the deadline.
    fn literal(&self, node: usize, stream: usize, most: u64) -> Option<(u64, u64)> {
        let above = self.above(node, stream);
        let budget = self.nodes[node].0;
        let releases = |window: u64| releases(&above, window);
        let cycles = (1..=most).find(|j| releases(j * self.cycle - 1) < j * budget)?;
        let ahead = releases(cycles * self.cycle - 1) - (cycles - 1) * budget;
        Some((cycles * self.cycle - 1 + ahead * self.message, cycles))
    }

    /// A J up to which one must be found if there is one at all. H at
    /// J × C − 1 is the sum of (J × C + jitter) / period, each rounded up, and no
    /// jitter is as long as its period, hence H is less than J × (sum of
    /// C / period) + twice the number of streams above. If the sum in brackets
    /// is below the budget, it is by at least 1 / (least common multiple of the
    /// periods), and J of that multiple times twice the number of streams
    /// serves; if not, none ever does.
    fn sure_bound(&self, node: usize, stream: usize) -> u64 {
        let above = self.above(node, stream);
        let periods = above.iter().map(|stream| stream.period);
        let multiple = periods.fold(1, least_common_multiple);
        2 * above.len() as u64 * multiple + 1
    }

    /// Delivery after the event for J, by the words of requests Four and Six.
    fn delivery(&self, node: usize, stream: usize, cycles: u64) -> u64 {
        let (budget, streams) = &self.nodes[node];
        streams[stream].jitter + cycles * self.cycle - 1 + budget * self.message + self.slot
    }

    fn expected(&self, node: usize, stream: usize, most: u64) -> Answer {
        let deadline = self.nodes[node].1[stream].deadline;
        match self.literal(node, stream, most) {
            Some((wait, cycles)) if self.delivery(node, stream, cycles) <= deadline => {
                answer(0, wait as u32, cycles as u32)
            }
            _ => answer(7, node as u32 + 1, stream as u32 + 1),
        }
    }
}

/// How the deadlines of a small sheet go with its periods.
const STYLES: u32 = 4;

/// How the jitters of a small sheet go with its periods: none, all of one tick,
/// all but one tick of the period, or some of each and more.
const HABITS: u32 = 4;

fn small_jitter(habit: u32, number: u32, place: u32, period: u32) -> u32 {
    let longest = period - 1;
    match habit {
        0 => 0,
        1 => longest.min(1),
        2 => longest,
        _ => [0, 1, longest, period / 2, 3][((number + 1) * (place + 2)) as usize % 5].min(longest),
    }
}

/// Streams with these periods. Style 0 has deadlines like the periods and a
/// last stream that has to wait long; the others have ties of deadlines, the
/// opposite order to the periods, or some of both.
fn small_streams(periods: [u32; 3], number: u32, style: u32) -> Vec<(u32, u32)> {
    if style == 0 {
        let last = (100_000, [40, 400, 100_000][number as usize % 3]);
        let first = periods.map(|period| (period, period));
        return [&first[..], &[last]].concat();
    }
    let [one, two, three] = periods.map(|period| 4 * period);
    let mut all = [one, two, three, 30];
    // The last place too is for any of the periods.
    all.rotate_left(number as usize % 4);
    let shortest = *all.iter().min().unwrap();
    let stream = |place: usize| {
        let shorter = all.iter().filter(|&&period| period < all[place]).count() as u32;
        let deadline = match style {
            1 => shortest,
            2 => shortest - shorter,
            _ => shortest - 2 * (number >> place & 1),
        };
        (all[place], deadline)
    };
    (0..4).map(stream).collect()
}

/// Small sheets of one or two nodes, all combinations of a few numbers.
fn small_sheets(style: u32, habit: u32) -> Vec<Vec<u32>> {
    let mut sheets = Vec::new();
    for number in 0..1_536u32 {
        let digit = |divisor: u32, base: u32| number / divisor % base;
        let (message, slot) = (1 + digit(1, 2), 1 + digit(2, 3));
        let (budget, other) = (1 + digit(6, 2), digit(12, 2));
        let periods = [2 + digit(24, 8), 3 + 2 * digit(192, 8), 7];
        let all = small_streams(periods, number, style).into_iter();
        let all = (0..).zip(all).map(|(place, (period, deadline))| {
            [period, deadline, small_jitter(habit, number, place, period)]
        });
        let all: Vec<[u32; 3]> = all.collect();
        let rest = [[9, 9, 0]];
        let nodes: Vec<(u32, &[[u32; 3]])> = match other {
            0 => vec![(budget, &all)],
            _ => vec![(1, &rest), (budget, &all)],
        };
        sheets.push(jittery_sheet(message, slot, &nodes));
    }
    sheets
}

/// How often a stream of the last node was served in 1 or 2 cycles, in more,
/// or late.
#[derive(Default, Debug)]
struct Served {
    soon: u32,
    long: u32,
    late: u32,
}

fn check_without_any_cut(style: u32, habit: u32) -> Served {
    let mut served = Served::default();
    for sheet in small_sheets(style, habit) {
        let plain = plain(&sheet);
        let node = plain.nodes.len() - 1;
        for stream in 0..4 {
            let most = plain.sure_bound(node, stream);
            let expected = plain.expected(node, stream, most);
            let given = one_stream(&sheet, node as u32 + 1, stream as u32 + 1);
            assert_eq!(given, expected, "{sheet:?} stream {}", stream + 1);
            match (given.number, given.third) {
                (0, ..3) => served.soon += 1,
                (0, _) => served.long += 1,
                _ => served.late += 1,
            }
        }
    }
    served
}

#[test]
fn listed_waits_of_small_sheets_without_any_cut() {
    for (style, habit) in (0..STYLES).flat_map(|it| (0..HABITS).map(move |habit| (it, habit))) {
        let served = check_without_any_cut(style, habit);
        // With all but a tick of each period, all but the first styles' last
        // streams are late.
        let least = match habit {
            2 => served.late,
            _ => served.soon.min(served.long).min(served.late),
        };
        assert!(least > 100, "style {style}, habit {habit}: {served:?}");
    }
}

/// How often each level of the rank orders two streams of a small sheet: the
/// deadline against the period, the period, the number.
#[test]
fn small_sheets_have_ties_of_each_kind() {
    let mut levels = [0; 3];
    for streams in (1..STYLES)
        .flat_map(|style| small_sheets(style, 0))
        .map(|sheet| bodies(&sheet))
    {
        let streams = streams.last().unwrap();
        for (one, other) in (0..4).flat_map(|one| (0..one).map(move |other| (other, one))) {
            let (one, other) = (streams[one], streams[other]);
            let against = (one[0] < other[0]) == (one[1] > other[1]);
            match one[1] == other[1] {
                false => levels[0] += u32::from(against && one[0] != other[0]),
                true if one[0] != other[0] => levels[1] += 1,
                true => levels[2] += 1,
            }
        }
    }
    assert!(levels.iter().all(|&pairs| pairs > 500), "{levels:?}");
}

#[test]
fn questions_of_generated_cases() {
    let mut asked = 0;
    for index in 0..3_000 {
        let Case {
            sheet,
            node,
            stream,
            ..
        } = case(11, index);
        let given = one_stream(&sheet, node, stream);
        if given.number != 0 && given.number != 7 {
            continue;
        }
        // Past the deadline's last cycle no J can be in time.
        let plain = plain(&sheet);
        let (node, stream) = (node as usize - 1, stream as usize - 1);
        let most = plain.nodes[node].1[stream].deadline / plain.cycle + 1;
        assert_eq!(given, plain.expected(node, stream, most), "case {index}");
        asked += 1;
    }
    assert!(asked > 1_500, "{asked}");
}

#[test]
fn admit_agrees_with_the_question_for_each_stream() {
    let mut admitted = 0;
    for index in 0..2_000 {
        let Case { sheet, .. } = case(12, index);
        if check_sheet(&sheet).number != 0 {
            continue;
        }
        let mut room = [OLD; 256];
        let given = admit(&sheet, &mut room);
        let plain = plain(&sheet);
        let mut answers = Vec::new();
        for (node, (_, streams)) in (1..).zip(&plain.nodes) {
            for stream in 1..=streams.len() as u32 {
                answers.push(one_stream(&sheet, node, stream));
            }
        }
        match answers.iter().find(|answer| answer.number != 0) {
            Some(&late) => assert_eq!(given, late, "case {index}"),
            None => {
                let waits: Vec<u32> = answers.iter().map(|answer| answer.second).collect();
                assert_eq!(given, answer(0, waits.len() as u32, plain.cycle as u32));
                assert_eq!(room[..waits.len()], waits);
                admitted += 1;
            }
        }
    }
    assert!(admitted > 500, "{admitted}");
}

/// Steps from the start until the horizon; answers as the replay does.
fn stepped(case: &Case) -> (Answer, Vec<u32>) {
    let mut room = vec![NOT_BEGUN; case.log.len() / 2];
    let mut record = Record {
        tick: 0,
        node: 1,
        turns: 0,
    };
    while record.tick < case.horizon {
        let turn = step(&case.sheet, &case.log, &mut record, &mut room);
        assert_eq!((turn.number, turn.third), (0, record.tick));
    }
    (answer(0, record.turns, record.tick), room)
}

#[test]
fn replay_is_repeated_stepping() {
    let (mut compared, mut begun) = (0, 0);
    for index in 0..2_000 {
        let case = case(13, index);
        let mut room = vec![OLD; case.log.len().div_ceil(2)];
        let given = replay(&case.sheet, &case.log, case.horizon, &mut room);
        if given.number != 0 || given.second > 3_000 {
            continue;
        }
        begun += room.iter().filter(|&&word| word != NOT_BEGUN).count();
        assert_eq!((given, room), stepped(&case), "case {index}");
        compared += 1;
    }
    assert!(compared > 500 && begun > 10_000, "{compared} {begun}");
}

/// One turn by the words of document 01; answers how many it took.
fn literal_turn(plain: &Plain, log: &[u32], tick: u64, node: usize, begins: &mut [u32]) -> u64 {
    let (budget, streams) = &plain.nodes[node];
    let before: usize = plain.nodes[..node].iter().map(|node| node.1.len()).sum();
    let own = before + 1..before + 1 + streams.len();
    let mut queue = Vec::new();
    for (release, words) in log.chunks_exact(2).enumerate() {
        let running = words[1] as usize;
        let released = u64::from(words[0]) <= tick;
        if own.contains(&running) && released && begins[release] == NOT_BEGUN {
            queue.push((running - 1 - before, release));
        }
    }
    queue.sort_by(|one, other| match one.0 == other.0 {
        true => one.1.cmp(&other.1),
        false if ranks_above(streams, one.0, other.0) => Ordering::Less,
        false => Ordering::Greater,
    });
    queue.truncate(*budget as usize);
    for (taken, (_, release)) in (0..).zip(&queue) {
        begins[*release] = (tick + taken * plain.message) as u32;
    }
    queue.len() as u64
}

/// Turn by turn from tick 0; answers as the replay does.
fn literal_replay(case: &Case) -> (Answer, Vec<u32>) {
    let plain = plain(&case.sheet);
    let mut begins = vec![NOT_BEGUN; case.log.len() / 2];
    let (mut tick, mut turns) = (0, 0);
    while tick < u64::from(case.horizon) {
        let node = turns % plain.nodes.len();
        let taken = literal_turn(&plain, &case.log, tick, node, &mut begins);
        tick += taken * plain.message + plain.slot;
        turns += 1;
    }
    (answer(0, turns as u32, tick as u32), begins)
}

#[test]
fn replay_by_the_words() {
    let (mut compared, mut begun) = (0, 0);
    for index in 0..3_000 {
        let case = case(15, index);
        let mut room = vec![OLD; case.log.len().div_ceil(2)];
        let given = replay(&case.sheet, &case.log, case.horizon, &mut room);
        if given.number != 0 || given.second > 3_000 {
            continue;
        }
        begun += room.iter().filter(|&&word| word != NOT_BEGUN).count();
        assert_eq!((given, room), literal_replay(&case), "case {index}");
        compared += 1;
    }
    assert!(compared > 750 && begun > 15_000, "{compared} {begun}");
}

#[test]
fn step_by_the_words() {
    let (mut compared, mut begun) = (0, 0);
    for index in 0..5_000 {
        let case = case(16, index);
        let (mut record, mut room) = (case.record, case.step_room.clone());
        let given = step(&case.sheet, &case.log, &mut record, &mut room);
        if given.number != 0 {
            continue;
        }
        let plain = plain(&case.sheet);
        let (tick, node) = (u64::from(case.record.tick), case.record.node as usize - 1);
        let mut begins = case.step_room.clone();
        let taken = literal_turn(&plain, &case.log, tick, node, &mut begins);
        let next = (tick + taken * plain.message + plain.slot) as u32;
        assert_eq!((given, room), (answer(0, taken as u32, next), begins));
        let after = Record {
            tick: next,
            node: (node + 1) as u32 % plain.nodes.len() as u32 + 1,
            turns: case.record.turns + 1,
        };
        assert_eq!(record, after, "case {index}");
        compared += 1;
        begun += taken;
    }
    assert!(compared > 2_000 && begun > 3_000, "{compared} {begun}");
}
