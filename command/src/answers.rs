//! What the library answers about every stream of a line.

use wistorvan::{ListedWait, Refusal};

use crate::json::{self, Value};
use crate::line::Line;
use crate::plan::{Place, Plan, Sheet, StreamPlan};

/// The answer about one stream.
#[derive(Clone, Copy, PartialEq, Eq, Debug)]
pub struct StreamAnswer {
    pub place: Place,
    pub period: u32,
    pub deadline: u32,
    pub jitter: u32,
    /// None if the stream is late.
    pub listed: Option<ListedWait>,
    /// The latest delivery after the event, from which the deadline runs too. A
    /// late stream has one too, unless no J was found for it.
    pub delivery: Option<u64>,
}

impl StreamAnswer {
    pub fn late(&self) -> bool {
        self.listed.is_none()
    }

    pub fn wait(&self) -> Option<u64> {
        self.listed.map(|listed| listed.wait.into())
    }

    /// The deadline less the latest delivery; below 0 for a late stream.
    pub fn left(&self) -> Option<i64> {
        let delivery = i64::try_from(self.delivery?).ok()?;
        Some(i64::from(self.deadline) - delivery)
    }
}

/// The answers about a line.
#[derive(Clone, PartialEq, Eq, Debug)]
pub struct Answers {
    pub admitted: bool,
    pub cycle: u32,
    /// In sheet order.
    pub streams: Vec<StreamAnswer>,
}

impl Answers {
    pub fn ask(plan: &Plan, sheet: &Sheet) -> Result<Answers, Refusal> {
        let streams = plan
            .places()
            .into_iter()
            .map(|place| ask_stream(plan, sheet, place));
        Ok(Answers {
            admitted: plan.admitted()?,
            cycle: sheet.cycle,
            streams: streams.collect::<Result<_, _>>()?,
        })
    }

    pub fn late(&self) -> Vec<&StreamAnswer> {
        self.streams.iter().filter(|stream| stream.late()).collect()
    }

    pub fn find(&self, place: Place) -> Option<&StreamAnswer> {
        self.streams.iter().find(|stream| stream.place == place)
    }
}

fn ask_stream(plan: &Plan, sheet: &Sheet, place: Place) -> Result<StreamAnswer, Refusal> {
    let StreamPlan {
        period,
        deadline,
        jitter,
    } = plan.stream(place).unwrap_or_default();
    let listed = sheet.one_stream(place)?;
    let delivery = match listed {
        Some(listed) => Some(plan.delivery(place, listed.cycles, sheet.cycle)),
        None => plan.needed_delivery(place)?,
    };
    Ok(StreamAnswer {
        place,
        period,
        deadline,
        jitter,
        listed,
        delivery,
    })
}

/// The names of node and stream at a place.
pub fn names(line: &Line, (node, stream): Place) -> (&str, &str) {
    let node = line.nodes.get(node);
    let stream = node.and_then(|node| node.streams.get(stream));
    (
        node.map_or("", |node| &node.name),
        stream.map_or("", |stream| &stream.name),
    )
}

/// `controller.damper`.
pub fn full_name(line: &Line, place: Place) -> String {
    let (node, stream) = names(line, place);
    format!("{node}.{stream}")
}

/// The streams as JSON.
pub fn streams_value(line: &Line, answers: &Answers) -> Value {
    json::list(&answers.streams, |answer| {
        let (node, stream) = names(line, answer.place);
        Value::Object(vec![
            ("node", Value::text(node)),
            ("stream", Value::text(stream)),
            ("period", Value::number(answer.period)),
            ("deadline", Value::number(answer.deadline)),
            ("jitter", Value::number(answer.jitter)),
            ("late", Value::Bool(answer.late())),
            (
                "wait",
                json::optional(&answer.wait(), |wait| Value::number(*wait)),
            ),
            (
                "cycles",
                json::optional(&answer.listed, |listed| Value::number(listed.cycles)),
            ),
            (
                "delivery",
                json::optional(&answer.delivery, |delivery| Value::number(*delivery)),
            ),
            (
                "left",
                json::optional(&answer.left(), |left| Value::number(*left)),
            ),
        ])
    })
}
