//! A line in ticks: its nodes and streams with the lines that they stand in, and
//! what was rounded. Periods and deadlines are rounded down, message, slot and
//! jitters up: that is the safe side.

use crate::draft::{Draft, NodeDraft, StreamDraft, Written};
use crate::duration::Duration;
use crate::fault::Fault;
use crate::tick::{Exact, Scale, Tick};

/// A duration that was no whole number of ticks.
#[derive(Clone, PartialEq, Eq, Debug)]
pub struct Rounded {
    pub file: String,
    pub line: usize,
    /// Which duration, as `message` or `deadline of controller.damper`.
    pub what: String,
    pub from: Duration,
    pub ticks: u32,
}

#[derive(Clone, PartialEq, Eq, Debug)]
pub struct Stream {
    pub line: usize,
    pub name: String,
    pub period: u32,
    pub deadline: u32,
    pub jitter: u32,
}

#[derive(Clone, PartialEq, Eq, Debug)]
pub struct Node {
    pub file: String,
    pub line: usize,
    pub name: String,
    /// The budget, if the file has one.
    pub budget: Option<u32>,
    pub streams: Vec<Stream>,
}

/// A duration of the bus and the line that it stands in.
#[derive(Clone, Copy, PartialEq, Eq, Debug)]
pub struct Timing {
    pub line: usize,
    pub ticks: u32,
}

/// A line, with the recorder as its last node if there is one.
#[derive(Clone, Debug)]
pub struct Line {
    pub file: String,
    pub recorder: Option<String>,
    pub scale: Scale,
    pub message: Timing,
    pub slot: Timing,
    pub nodes: Vec<Node>,
    pub rounded: Vec<Rounded>,
}

impl Line {
    /// The line as it is without its recorder.
    pub fn without_recorder(&self) -> Line {
        let mut line = self.clone();
        if line.recorder.take().is_some() {
            line.nodes.pop();
        }
        line
    }
}

/// What of a draft could be turned into ticks, and the errors.
#[derive(Default)]
pub struct Converted {
    pub message: Option<Timing>,
    pub slot: Option<Timing>,
    pub nodes: Vec<Node>,
    pub rounded: Vec<Rounded>,
    pub faults: Vec<Fault>,
}

#[derive(Clone, Copy, PartialEq, Eq)]
enum Round {
    Up,
    Down,
}

/// Turns a file's durations into ticks. What has no tick to be counted in is
/// left out: that is an error of the draft.
pub fn convert(draft: &Draft, file: &str, tick: Option<Tick>) -> Converted {
    let mut converter = Converter {
        file,
        tick,
        converted: Converted::default(),
    };
    converter.converted.message = converter.timing("message", draft.message);
    converter.converted.slot = converter.timing("slot", draft.slot);
    for node in &draft.nodes {
        let node = converter.node(node);
        converter.converted.nodes.push(node);
    }
    converter.converted
}

struct Converter<'f> {
    file: &'f str,
    tick: Option<Tick>,
    converted: Converted,
}

impl Converter<'_> {
    fn timing(&mut self, what: &str, written: Option<Written>) -> Option<Timing> {
        let Written { line, duration } = written?;
        let (ticks, _) = self.ticks(line, what, &duration, Round::Up)?;
        Some(Timing { line, ticks })
    }

    /// A duration in ticks, rounded and exactly.
    fn ticks(
        &mut self,
        line: usize,
        what: &str,
        from: &Duration,
        round: Round,
    ) -> Option<(u32, Exact)> {
        let exact = Exact::of(from, self.tick.as_ref())?;
        let rounded = if round == Round::Up {
            exact.up()
        } else {
            exact.ticks
        };
        let Ok(ticks) = u32::try_from(rounded) else {
            self.converted
                .faults
                .push(Fault::at(self.file, line, too_long(from, rounded)));
            return None;
        };
        if !exact.is_whole() {
            self.converted.rounded.push(Rounded {
                file: self.file.to_string(),
                line,
                what: what.to_string(),
                from: *from,
                ticks,
            });
        }
        Some((ticks, exact))
    }

    fn node(&mut self, draft: &NodeDraft) -> Node {
        let streams = draft.streams.iter();
        let streams: Vec<(Stream, Key)> = streams
            .filter_map(|stream| self.stream(&draft.name, stream))
            .collect();
        self.hold_order(&draft.name, &streams);
        Node {
            file: self.file.to_string(),
            line: draft.line,
            name: draft.name.clone(),
            budget: draft.budget,
            streams: streams.into_iter().map(|(stream, _)| stream).collect(),
        }
    }

    fn stream(&mut self, node: &str, draft: &StreamDraft) -> Option<(Stream, Key)> {
        let StreamDraft { line, name, .. } = draft;
        let what = |key: &str| format!("{key} of {node}.{name}");
        let period = self.ticks(*line, &what("period"), &draft.period, Round::Down);
        let deadline = self.ticks(*line, &what("deadline"), &draft.deadline, Round::Down);
        let jitter = match &draft.jitter {
            Some(jitter) => self.ticks(*line, &what("jitter"), jitter, Round::Up)?.0,
            None => 0,
        };
        let ((period, exact_period), (deadline, exact_deadline)) = (period?, deadline?);
        let stream = Stream {
            line: *line,
            name: name.clone(),
            period,
            deadline,
            jitter,
        };
        Some((stream, (exact_deadline, exact_period)))
    }

    /// Rank goes by deadline, then by period. Rounding may make two of them
    /// equal, and so change which stream goes first.
    fn hold_order(&mut self, node: &str, streams: &[(Stream, Key)]) {
        let mut by_time: Vec<(usize, &(Stream, Key))> = streams.iter().enumerate().collect();
        by_time.sort_by_key(|(number, (_, key))| (*key, *number));
        for pair in by_time.windows(2) {
            let [(first, (above, _)), (second, (below, _))] = pair else {
                continue;
            };
            let rank = |stream: &Stream, number| (stream.deadline, stream.period, number);
            if rank(above, first) > rank(below, second) {
                let line = above.line.max(below.line);
                let message = changed_order(node, above, below, self.tick);
                self.converted
                    .faults
                    .push(Fault::at(self.file, line, message));
            }
        }
    }
}

/// Deadline and period, exactly.
type Key = (Exact, Exact);

fn too_long(from: &Duration, ticks: u128) -> String {
    let equal = match from.femtoseconds() {
        Some(_) => format!("{from}, which is {ticks} ticks"),
        None => from.to_string(),
    };
    format!("found {equal}, expected at most {} ticks", u32::MAX)
}

fn changed_order(node: &str, above: &Stream, below: &Stream, tick: Option<Tick>) -> String {
    let tick = tick.map_or(String::new(), |tick| format!(" of {tick}"));
    let (first, second) = (&above.name, &below.name);
    format!(
        "streams {first} (line {}) and {second} (line {}) of node {node} change their order where they are rounded \
         to ticks{tick}: {first} goes first by the durations as written, {second} by ticks; a shorter tick is needed",
        above.line, below.line
    )
}

#[cfg(test)]
mod tests {
    use crate::fault::Failure;
    use crate::load::{of_texts, Loaded};
    use crate::text::Text;

    fn load(text: &str) -> Result<Loaded, Failure> {
        of_texts(Text::of_string("f", text), None, true)
    }

    #[test]
    fn durations_are_rounded_to_the_safe_side() {
        let text = "tick 1 ms\nmessage 0.2 ms\nslot 1.1 ms\nnode a budget 1\n\
                    stream b period 99.9 ms deadline 50.5 ms jitter 0.1 ms";
        let loaded = load(text).unwrap_or_else(|failure| panic!("{failure:?}"));
        let line = loaded.line;
        assert_eq!((line.message.ticks, line.slot.ticks), (1, 2));
        let stream = &line.nodes[0].streams[0];
        assert_eq!((stream.period, stream.deadline, stream.jitter), (99, 50, 1));
        let rounded = line
            .rounded
            .iter()
            .map(|r| format!("{} {}: {} {}", r.line, r.what, r.from, r.ticks));
        let expected = [
            "2 message: 0.2 ms 1",
            "3 slot: 1.1 ms 2",
            "5 period of a.b: 99.9 ms 99",
            "5 deadline of a.b: 50.5 ms 50",
            "5 jitter of a.b: 0.1 ms 1",
        ];
        assert_eq!(rounded.collect::<Vec<String>>(), expected);
    }

    #[test]
    fn whole_ticks_in_other_units_are_not_rounded() {
        let text = "tick 25 us\nmessage 0.5 ms\nslot 1 tick\nnode a budget 1\nstream b period 1 min deadline 0.05 s\n\
                    stream c jitter 0.0005 s period 1 min deadline 60 s";
        let line = load(text)
            .unwrap_or_else(|failure| panic!("{failure:?}"))
            .line;
        let ticks = |stream: usize| {
            let stream = &line.nodes[0].streams[stream];
            (stream.period, stream.deadline, stream.jitter)
        };
        assert_eq!(ticks(0), (2_400_000, 2_000, 0));
        assert_eq!(ticks(1), (2_400_000, 2_400_000, 20));
        assert_eq!(line.rounded.len(), 0);
    }

    #[test]
    fn an_order_that_rounding_changes_is_an_error() {
        let node = |streams: &str| {
            format!("tick 1 ms\nmessage 1 ms\nslot 1 ms\nnode a budget 1\n{streams}")
        };
        let changed = |streams: &str| load(&node(streams)).is_err();
        // Deadlines become equal, and the period decides.
        assert!(changed(
            "stream b period 90 ms deadline 50.1 ms\nstream c period 80 ms deadline 50.2 ms"
        ));
        assert!(!changed(
            "stream b period 80 ms deadline 50.1 ms\nstream c period 90 ms deadline 50.2 ms"
        ));
        // Deadlines and periods become equal, and the number decides.
        assert!(changed(
            "stream b period 90 ms deadline 50.2 ms\nstream c period 90 ms deadline 50.1 ms"
        ));
        assert!(!changed(
            "stream b period 90 ms deadline 50.1 ms\nstream c period 90 ms deadline 50.2 ms"
        ));
        // Equal deadlines, and periods become equal.
        assert!(changed(
            "stream b period 90.5 ms deadline 50 ms\nstream c period 90.1 ms deadline 50 ms"
        ));
        assert!(!changed(
            "stream b period 90.1 ms deadline 50 ms\nstream c period 90.5 ms deadline 50 ms"
        ));
    }
}
