//! Generated lines: tables of ticks, the exact durations that stand for them in
//! a line file, and the file's text, written with a random layout.

use super::random::Random;

/// Femtoseconds: every duration of a line file is a whole number of them.
pub type Exact = u128;

/// A unit of time by its name.
const UNITS: [(&str, Exact); 6] = [
    ("us", 1_000_000_000),
    ("µs", 1_000_000_000),
    ("ms", 1_000_000_000_000),
    ("s", 1_000_000_000_000_000),
    ("min", 60_000_000_000_000_000),
    ("h", 3_600_000_000_000_000_000),
];

/// Lengths of a tick, as they are written and exactly.
const TICKS: [(&str, Exact); 10] = [
    ("0.1 ms", 100_000_000_000),
    ("1 ms", 1_000_000_000_000),
    ("50us", 50_000_000_000),
    ("0.25ms", 250_000_000_000),
    ("0.125 µs", 125_000_000),
    ("3 us", 3_000_000_000),
    ("0.00000007 us", 70),
    ("1 s", 1_000_000_000_000_000),
    ("0.5 min", 30_000_000_000_000_000),
    ("1 h", 3_600_000_000_000_000_000),
];

/// A duration: the ticks that the line file must come to, the exact duration
/// that it states (in ticks if it has no tick length), and how it is written.
pub struct Span {
    pub ticks: u32,
    pub exact: Exact,
    pub rounded: bool,
    pub text: String,
}

pub struct Stream {
    pub name: String,
    pub period: Span,
    pub deadline: Span,
    pub jitter: Span,
}

pub struct Node {
    pub name: String,
    pub budget: u32,
    pub streams: Vec<Stream>,
}

pub struct Line {
    pub tick: Option<&'static str>,
    pub message: Span,
    pub slot: Span,
    pub nodes: Vec<Node>,
}

/// A number of units with up to nine decimals, as many as it needs or more.
fn decimal(random: &mut Random, exact: Exact, unit: Exact) -> Option<String> {
    let whole = exact / unit;
    let billionths = exact % unit * 1_000_000_000;
    if billionths % unit != 0 || whole >= 1_000_000_000_000_000 {
        return None;
    }
    let decimals = format!("{:09}", billionths / unit);
    let needed = decimals.trim_end_matches('0').len();
    let shown = if random.one_in(4) {
        random.within(needed as u64, 9) as usize
    } else {
        needed
    };
    let zeros = if random.one_in(20) && whole < 1000 {
        "00"
    } else {
        ""
    };
    let point = if shown > 0 { "." } else { "" };
    Some(format!("{zeros}{whole}{point}{}", &decimals[..shown]))
}

/// An exact duration in one of the units in which it can be written.
fn in_units(random: &mut Random, exact: Exact) -> String {
    let mut written = Vec::new();
    for (name, unit) in UNITS {
        written.extend(decimal(random, exact, unit).map(|number| (number, name)));
    }
    let (number, name) = &written[random.index(written.len())];
    let between = random.pick(&["", " ", "  ", "\t"]);
    format!("{number}{between}{name}")
}

/// To which side a duration of a line file is rounded.
#[derive(Clone, Copy, PartialEq)]
enum Side {
    Down,
    Up,
}

struct Writer<'r> {
    random: &'r mut Random,
    tick: Option<(&'static str, Exact)>,
    /// Whether durations may be no whole ticks.
    rounds: bool,
}

impl Writer<'_> {
    fn span(&mut self, ticks: u32, side: Side) -> Span {
        let Some((_, tick)) = self.tick else {
            return self.in_ticks(ticks, Exact::from(ticks));
        };
        let exact = Exact::from(ticks) * tick;
        let part = tick / 10 * Exact::from(self.random.within(1, 9));
        let rounded = self.rounds && self.random.one_in(3) && (side == Side::Down || ticks > 0);
        if !rounded && self.random.one_in(5) {
            return self.in_ticks(ticks, exact);
        }
        let exact = match (rounded, side) {
            (false, _) => exact,
            (true, Side::Down) => exact + part,
            (true, Side::Up) => exact - part,
        };
        let text = in_units(self.random, exact);
        Span {
            ticks,
            exact,
            rounded,
            text,
        }
    }

    fn in_ticks(&mut self, ticks: u32, exact: Exact) -> Span {
        let unit = self.random.pick(&["ticks", "tick", " ticks", " tick"]);
        let text = format!("{ticks}{unit}");
        Span {
            ticks,
            exact,
            rounded: false,
            text,
        }
    }

    fn name(&mut self, number: usize) -> String {
        let word = self
            .random
            .pick(&["fan", "Heizung", "пламя", "燃焼", "9", "a-b_c", "-"]);
        format!("{word}{number}")
    }

    fn node(&mut self, number: usize, budget: u32, streams: &[StreamNumbers]) -> Node {
        let name = self.name(number);
        let stream = |(number, numbers): (usize, &StreamNumbers)| Stream {
            name: self.name(number),
            period: self.span(numbers.period, Side::Down),
            deadline: self.span(numbers.deadline, Side::Down),
            jitter: self.span(numbers.jitter, Side::Up),
        };
        let streams = (1..).zip(streams).map(stream).collect();
        Node {
            name,
            budget,
            streams,
        }
    }
}

/// Numbers of ticks, before they get durations and names.
pub struct Numbers {
    pub message: u32,
    pub slot: u32,
    pub nodes: Vec<(u32, Vec<StreamNumbers>)>,
}

#[derive(Clone, Copy)]
pub struct StreamNumbers {
    pub period: u32,
    pub deadline: u32,
    pub jitter: u32,
}

/// A line file's content from numbers of ticks.
pub fn line(random: &mut Random, numbers: &Numbers) -> Line {
    let tick = if random.one_in(3) {
        None
    } else {
        Some(random.pick(&TICKS))
    };
    let rounds = random.one_in(3);
    let mut writer = Writer {
        random,
        tick,
        rounds,
    };
    Line {
        tick: tick.map(|(text, _)| text),
        message: writer.span(numbers.message, Side::Up),
        slot: writer.span(numbers.slot, Side::Up),
        nodes: (1..)
            .zip(&numbers.nodes)
            .map(|(number, (budget, streams))| writer.node(number, *budget, streams))
            .collect(),
    }
}

/// The statements of a node, with its budget or without it, and with the keys
/// of a stream in any order. A jitter of 0 is mostly left out.
pub fn node_statements(random: &mut Random, node: &Node, budget: bool) -> Vec<String> {
    let first = match budget {
        true => format!("node {} budget {}", node.name, node.budget),
        false => format!("node {}", node.name),
    };
    let mut statements = vec![first];
    for Stream {
        name,
        period,
        deadline,
        jitter,
    } in &node.streams
    {
        let mut keys = vec![
            format!("period {}", period.text),
            format!("deadline {}", deadline.text),
        ];
        if jitter.ticks > 0 || random.one_in(8) {
            keys.push(format!("jitter {}", jitter.text));
        }
        if random.one_in(3) {
            let (first, second) = (random.index(keys.len()), random.index(keys.len()));
            keys.swap(first, second);
        }
        statements.push(format!("stream {name} {}", keys.join(" ")));
    }
    statements
}

/// The statements of a line file up to the first node.
pub fn head_statements(random: &mut Random, line: &Line) -> Vec<String> {
    let message = format!("message {}", line.message.text);
    let slot = format!("slot {}", line.slot.text);
    let tick = line.tick.map(|length| format!("tick {length}"));
    let both = if random.one_in(4) {
        [slot, message]
    } else {
        [message, slot]
    };
    tick.into_iter().chain(both).collect()
}

/// Statements as a text of random layout: one line end throughout, blank
/// lines, comments, white space before, between and after the words.
pub fn lay_out(random: &mut Random, statements: &[String]) -> String {
    let mark = if random.one_in(8) { "\u{feff}" } else { "" };
    let mut text = mark.to_string();
    let end = random.pick(&["\n", "\n", "\r\n", "\r"]);
    for statement in statements {
        if random.one_in(6) {
            text += random.pick(&["", "# a comment: node x budget 1", "  \t", "#"]);
            text += end;
        }
        text += random.pick(&["", "", "  ", "\t", "      "]);
        let words: Vec<&str> = statement
            .split(' ')
            .filter(|word| !word.is_empty())
            .collect();
        text += &words.join(random.pick(&[" ", " ", "  ", "\t"]));
        text += random.pick(&["", "", " ", "\t", "# said", " # ünd so", "  #"]);
        text += end;
    }
    if random.one_in(8) {
        text.truncate(text.trim_end_matches(['\n', '\r']).len());
    }
    text
}
