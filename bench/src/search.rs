//! The search for J: sheets made to hurt. The second program tries every J
//! from 1 on, one by one, which is what the proved search is held against.

use std::hint::black_box;
use std::time::Instant;

use crate::{jittery_sheet, median, sheet};

/// The longest period and deadline.
const LONGEST: u32 = 1_000_000_000;

/// A node with streams of these periods, and so many slow ones below them;
/// each deadline is the period.
fn node(budget: u32, fast: &[u32], slow: usize) -> (u32, Vec<(u32, u32)>) {
    let mut streams: Vec<(u32, u32)> = fast.iter().map(|&p| (p, p)).collect();
    streams.extend(vec![(LONGEST, LONGEST); slow]);
    (budget, streams)
}

/// The sheet of one node with the shortest cycle, C = 2.
fn one_node(fast: &[u32], slow: usize) -> Vec<u32> {
    sheet(1, 1, &[node(1, fast, slow)])
}

/// None for the slow ones, which would be late by it.
fn longest_jitter(period: u32) -> u32 {
    match period {
        LONGEST => 0,
        period => period - 1,
    }
}

/// What is asked of a sheet.
enum Asked {
    Stream(u32),
    Admit,
}

/// A row: its name, its sheet and what is asked of it.
struct Row {
    name: &'static str,
    words: Vec<u32>,
    asked: Asked,
}

fn row(name: &'static str, words: Vec<u32>, asked: Asked) -> Row {
    Row { name, words, asked }
}

impl Row {
    fn proved(&self, room: &mut [u32]) -> [u32; 3] {
        let words = black_box(&self.words[..]);
        let answer = match self.asked {
            Asked::Stream(stream) => wistorvan::raw::one_stream(words, 1, stream),
            Asked::Admit => wistorvan::raw::admit(words, room),
        };
        [answer.number, answer.second, answer.third]
    }

    fn second(&self, room: &mut [u32]) -> [u32; 3] {
        let words = black_box(&self.words[..]);
        let answer = match self.asked {
            Asked::Stream(stream) => peer::one_stream(words, 1, stream),
            Asked::Admit => peer::admit(words, room),
        };
        [answer.number, answer.second, answer.third]
    }

    /// The proved search is timed nine times, the other once: it is long.
    fn print(&self) {
        let mut room = [0; 256];
        let proved = median(|| {
            black_box(self.proved(&mut room));
        });
        let answer = self.proved(&mut room);
        let began = Instant::now();
        let literal = self.second(&mut room);
        let second = began.elapsed().as_nanos() as f64;
        assert_eq!(answer, literal, "{}", self.name);
        println!(
            "{}: answer {answer:?}, proved {:.4} ms, one by one {:.1} ms, one by one / proved {:.0}",
            self.name,
            proved / 1e6,
            second / 1e6,
            second / proved
        );
    }
}

/// Five streams that nearly fill the budget: J is found very late.
const NEARLY_FULL: [u32; 5] = [3, 7, 43, 1807, 3_400_000];

/// The same, a little fuller.
const FULLER: [u32; 5] = [3, 7, 43, 1807, 3_387_809];

/// A node for which the proved search was slowest of all that `bench slowest`
/// has found: its budget, and the periods of fifteen streams.
const SLOWEST: (u32, [u32; 15]) = (
    1,
    [
        25, 5, 24, 10, 442, 54, 55, 65, 32, 93, 99_099, 233, 57, 34_479, 9221,
    ],
);

/// One for which it gains least.
const LEAST_GAIN: (u32, [u32; 15]) = (
    13,
    [
        15,
        12,
        126,
        17,
        24,
        34,
        2,
        16,
        197,
        65,
        79,
        24,
        295,
        17_400,
        999_999_994,
    ],
);

/// Fifteen streams of each of sixteen nodes, found the same way for a whole
/// sheet that is admitted.
const SLOWEST_SHEET: [u32; 15] = [
    33,
    1_157_421,
    2114,
    2_288_588,
    LONGEST,
    2116,
    LONGEST,
    999_999_993,
    LONGEST,
    LONGEST,
    56_186_917,
    LONGEST,
    LONGEST,
    LONGEST,
    LONGEST,
];

pub fn search() {
    let rows = [
        row(
            "five streams above, nearly full",
            one_node(&NEARLY_FULL, 1),
            Asked::Stream(6),
        ),
        row(
            "the same with the longest jitters",
            jittery_sheet(1, 1, &[node(1, &NEARLY_FULL, 1)], longest_jitter),
            Asked::Stream(6),
        ),
        row("overload: 2 2 above", one_node(&[2], 1), Asked::Stream(2)),
    ];
    rows.iter().for_each(Row::print);
}

/// Those for which one by one takes seconds.
pub fn hardest() {
    let rows = [
        row(
            "fifteen streams above, nearly full",
            one_node(&NEARLY_FULL, 11),
            Asked::Stream(16),
        ),
        row(
            "exactly full by fifteen alike",
            one_node(&[30; 15], 1),
            Asked::Stream(16),
        ),
        row(
            "exactly full by 3, 7 and 42",
            one_node(&[3, 7, 42], 1),
            Asked::Stream(4),
        ),
        row(
            "the slowest that was found",
            sheet(1, 1, &[node(SLOWEST.0, &SLOWEST.1, 1)]),
            Asked::Stream(16),
        ),
        row(
            "the least gain that was found",
            sheet(1, 1, &[node(LEAST_GAIN.0, &LEAST_GAIN.1, 1)]),
            Asked::Stream(16),
        ),
        row(
            "a whole sheet of one node",
            one_node(&FULLER, 11),
            Asked::Admit,
        ),
        row(
            "a whole sheet of sixteen nodes",
            sheet(1, 1, &vec![node(1, &SLOWEST_SHEET, 1); 16]),
            Asked::Admit,
        ),
    ];
    rows.iter().for_each(Row::print);
}
