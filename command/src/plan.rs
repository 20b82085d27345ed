//! The tables of a line, and the questions that are put to the library about
//! them. Nothing is worked out here but the formula of the latest delivery, which
//! stands in the contract of the one-stream question.

use wistorvan::{
    admit, begun, find_budgets, one_stream, replay, write_sheet, ListedWait, Reason, Refusal,
    Tables, LONGEST_SHEET, MAX_NODES, MAX_STREAMS,
};

use crate::line::{Line, Node, Stream};

/// The longest period, deadline and horizon of the rules.
pub const LONGEST: u32 = 1_000_000_000;

/// The tables of a line.
#[derive(Clone, PartialEq, Eq, Debug)]
pub struct Plan {
    pub message: u32,
    pub slot: u32,
    pub nodes: Vec<NodePlan>,
}

/// A node's budget, and its streams.
#[derive(Clone, PartialEq, Eq, Debug)]
pub struct NodePlan {
    pub budget: u32,
    pub streams: Vec<StreamPlan>,
}

/// The three words of a stream.
#[derive(Clone, Copy, PartialEq, Eq, Default, Debug)]
pub struct StreamPlan {
    pub period: u32,
    pub deadline: u32,
    pub jitter: u32,
}

impl StreamPlan {
    pub fn of(stream: &Stream) -> StreamPlan {
        StreamPlan {
            period: stream.period,
            deadline: stream.deadline,
            jitter: stream.jitter,
        }
    }
}

/// A stream's place: node and stream, both from 0.
pub type Place = (usize, usize);

/// A sheet that the library has written.
#[derive(Clone, PartialEq, Eq, Debug)]
pub struct Sheet {
    pub words: Vec<u32>,
    /// The full cycle in ticks.
    pub cycle: u32,
}

impl Plan {
    /// The tables of a line; a budget that the file does not have is 1.
    pub fn of(line: &Line) -> Plan {
        let node = |node: &Node| NodePlan {
            budget: node.budget.unwrap_or(1),
            streams: node.streams.iter().map(StreamPlan::of).collect(),
        };
        Plan {
            message: line.message.ticks,
            slot: line.slot.ticks,
            nodes: line.nodes.iter().map(node).collect(),
        }
    }

    /// Has the library write the sheet.
    pub fn write(&self) -> Result<Sheet, Refusal> {
        let counts: Vec<u32> = self
            .nodes
            .iter()
            .map(|node| node.streams.len() as u32)
            .collect();
        let budgets: Vec<u32> = self.nodes.iter().map(|node| node.budget).collect();
        let streams = |word: fn(&StreamPlan) -> u32| -> Vec<u32> {
            let streams = self.nodes.iter().flat_map(|node| &node.streams);
            streams.map(word).collect()
        };
        let tables = Tables {
            message_ticks: self.message,
            slot_ticks: self.slot,
            counts: &counts,
            budgets: &budgets,
            periods: &streams(|stream| stream.period),
            deadlines: &streams(|stream| stream.deadline),
            jitters: &streams(|stream| stream.jitter),
        };
        let mut room = [0; LONGEST_SHEET];
        let written = write_sheet(&tables, &mut room)?;
        Ok(Sheet {
            words: written.sheet.to_vec(),
            cycle: written.cycle,
        })
    }

    /// Whether the line is admitted.
    pub fn admitted(&self) -> Result<bool, Refusal> {
        late_or(admit(&self.write()?.words, &mut [0; MAX_STREAMS]).map(|_| ()))
            .map(|answer| answer.is_some())
    }

    /// The same with another budget of a node.
    pub fn with_budget(&self, node: usize, budget: u32) -> Plan {
        let mut plan = self.clone();
        if let Some(node) = plan.nodes.get_mut(node) {
            node.budget = budget;
        }
        plan
    }

    /// The same with another deadline of a stream.
    pub fn with_deadline(&self, (node, stream): Place, deadline: u32) -> Plan {
        let mut plan = self.clone();
        if let Some(stream) = plan
            .nodes
            .get_mut(node)
            .and_then(|node| node.streams.get_mut(stream))
        {
            stream.deadline = deadline;
        }
        plan
    }

    pub fn stream(&self, (node, stream): Place) -> Option<StreamPlan> {
        self.nodes.get(node)?.streams.get(stream).copied()
    }

    /// The places of all streams, in sheet order.
    pub fn places(&self) -> Vec<Place> {
        let of_node = |(node, plan): (usize, &NodePlan)| {
            (0..plan.streams.len()).map(move |stream| (node, stream))
        };
        self.nodes.iter().enumerate().flat_map(of_node).collect()
    }

    /// The latest delivery after a stream's event, where the stream takes so many
    /// cycles: jitter + J × C − 1 + budget × TMS + TPR.
    pub fn delivery(&self, place: Place, cycles: u32, cycle: u32) -> u64 {
        let budget = self.nodes.get(place.0).map_or(0, |node| node.budget);
        let turn = u64::from(budget) * u64::from(self.message) + u64::from(self.slot);
        let jitter = u64::from(self.stream(place).unwrap_or_default().jitter);
        (jitter + u64::from(cycles) * u64::from(cycle) + turn).saturating_sub(1)
    }

    /// The streams ranked above one in its node. If every stream is released
    /// once at tick 0, a node's messages begin in the order of rank.
    pub fn ranked_above(&self, place: Place) -> Result<Vec<usize>, Refusal> {
        let places = self.places();
        let log: Vec<u32> = (1..=places.len() as u32)
            .flat_map(|number| [0, number])
            .collect();
        let mut room = [0; MAX_STREAMS];
        let replayed = replay(&self.write()?.words, &log, LONGEST, &mut room)?;
        let begins: Vec<(Place, Option<u32>)> = places
            .into_iter()
            .zip(replayed.begins.iter().map(|word| begun(*word)))
            .collect();
        let own = begins
            .iter()
            .find(|(other, _)| *other == place)
            .and_then(|(_, begin)| *begin);
        let above = begins
            .iter()
            .filter(|((node, _), begin)| *node == place.0 && *begin < own);
        Ok(above.map(|((_, stream), _)| *stream).collect())
    }

    /// The latest delivery of a stream, whatever its own deadline is; none if
    /// there is no J within the longest deadline. J depends on C, on the budget
    /// and on the streams ranked above, so the question is asked with these
    /// alone, with their jitters, before it in its node, and with the longest
    /// period and deadline and no jitter of its own, which comes to the delivery.
    pub fn needed_delivery(&self, place: Place) -> Result<Option<u64>, Refusal> {
        let above = self.ranked_above(place)?;
        let mut plan = self.clone();
        let Some(node) = plan.nodes.get_mut(place.0) else {
            return Ok(None);
        };
        let mut streams: Vec<StreamPlan> = above
            .iter()
            .filter_map(|stream| node.streams.get(*stream).copied())
            .collect();
        streams.push(StreamPlan {
            period: LONGEST,
            deadline: LONGEST,
            jitter: 0,
        });
        let last = streams.len() - 1;
        node.streams = streams;
        let sheet = plan.write()?;
        let answer = sheet.one_stream((place.0, last))?;
        Ok(answer.map(|listed| self.delivery(place, listed.cycles, sheet.cycle)))
    }
}

impl Sheet {
    /// A stream's listed wait and J; none if it is late.
    pub fn one_stream(&self, (node, stream): Place) -> Result<Option<ListedWait>, Refusal> {
        late_or(one_stream(&self.words, node as u32 + 1, stream as u32 + 1))
    }

    /// The least budgets and the cycle with them, or the node, from 0, that is
    /// late even with 16.
    pub fn least_budgets(&self) -> Result<Result<(Vec<u32>, u32), usize>, Refusal> {
        let mut room = [0; MAX_NODES];
        match find_budgets(&self.words, &mut room) {
            Ok(found) => Ok(Ok((found.row.to_vec(), found.cycle))),
            Err(refusal) if refusal.reason() == Reason::NoBudgets => {
                Ok(Err((refusal.place().0 as usize).saturating_sub(1)))
            }
            Err(refusal) => Err(refusal),
        }
    }
}

/// None for the refusal "late", which is an answer; any other stays a refusal.
fn late_or<T>(answer: Result<T, Refusal>) -> Result<Option<T>, Refusal> {
    match answer {
        Ok(answer) => Ok(Some(answer)),
        Err(refusal) if refusal.reason() == Reason::Late => Ok(None),
        Err(refusal) => Err(refusal),
    }
}

#[cfg(test)]
mod tests {
    use super::*;

    /// A node with streams that queue at once.
    fn node(budget: u32, streams: &[(u32, u32)]) -> NodePlan {
        let stream = |&(period, deadline): &(u32, u32)| StreamPlan {
            period,
            deadline,
            jitter: 0,
        };
        NodePlan {
            budget,
            streams: streams.iter().map(stream).collect(),
        }
    }

    /// The line of the README with its recorder: a message takes 5 ticks, a slot
    /// 1; the second stream of the first node is late.
    fn with_recorder() -> Plan {
        Plan {
            message: 5,
            slot: 1,
            nodes: vec![
                node(2, &[(200, 80), (500, 99), (10_000, 70)]),
                node(1, &[(200, 100), (1_000, 200)]),
                node(2, &[(200, 100), (500, 200)]),
                node(1, &[(500, 300)]),
                node(4, &[(1_000, 500), (10_000, 1_000)]),
            ],
        }
    }

    #[test]
    fn rank_is_the_order_of_begins() {
        let plan = with_recorder();
        assert_eq!(plan.ranked_above((0, 0)).unwrap(), [2]);
        assert_eq!(plan.ranked_above((0, 1)).unwrap(), [0, 2]);
        assert_eq!(plan.ranked_above((0, 2)).unwrap(), []);
        assert_eq!(plan.ranked_above((4, 1)).unwrap(), [0]);
        // Equal deadlines and periods: the lower number.
        let equal = Plan {
            message: 1,
            slot: 1,
            nodes: vec![node(1, &[(50, 50); 3])],
        };
        assert_eq!(equal.ranked_above((0, 2)).unwrap(), [0, 1]);
        assert_eq!(equal.ranked_above((0, 0)).unwrap(), []);
    }

    #[test]
    fn a_late_stream_has_a_latest_delivery() {
        let plan = with_recorder();
        let sheet = plan.write().unwrap();
        assert_eq!((sheet.cycle, plan.admitted()), (55, Ok(false)));
        assert_eq!(sheet.one_stream((0, 1)), Ok(None));
        assert_eq!(plan.needed_delivery((0, 1)), Ok(Some(120)));
        // Exactly so long a deadline is in time.
        assert_eq!(plan.with_deadline((0, 1), 120).admitted(), Ok(true));
        assert_eq!(plan.with_deadline((0, 1), 119).admitted(), Ok(false));
    }

    #[test]
    fn the_question_about_late_streams_fits_those_in_time() {
        let plan = with_recorder();
        let sheet = plan.write().unwrap();
        for place in plan.places() {
            if let Some(listed) = sheet.one_stream(place).unwrap() {
                let delivery = plan.delivery(place, listed.cycles, sheet.cycle);
                assert_eq!(plan.needed_delivery(place), Ok(Some(delivery)));
            }
        }
    }

    #[test]
    fn a_delivery_counts_from_the_event() {
        let mut plan = with_recorder();
        // Its own jitter comes before its queuing.
        plan.nodes[0].streams[1].jitter = 7;
        assert_eq!(plan.needed_delivery((0, 1)), Ok(Some(127)));
        assert_eq!(plan.with_deadline((0, 1), 127).admitted(), Ok(true));
        assert_eq!(plan.with_deadline((0, 1), 126).admitted(), Ok(false));
        // The jitters above it count in J. With one message a turn it is 3, and 4
        // where two messages of the first stream can come within 149 ticks.
        let mut plan = plan.with_budget(0, 1);
        assert_eq!(plan.needed_delivery((0, 1)), Ok(Some(7 + 3 * 50 - 1 + 6)));
        plan.nodes[0].streams[0].jitter = 51;
        assert_eq!(plan.needed_delivery((0, 1)), Ok(Some(7 + 4 * 50 - 1 + 6)));
    }

    #[test]
    fn a_full_node_has_no_bound() {
        let plan = Plan {
            message: 5,
            slot: 1,
            nodes: vec![node(1, &[(5, 5), (100, 100)])],
        };
        assert_eq!(plan.needed_delivery((0, 1)), Ok(None));
    }

    #[test]
    fn least_budgets_or_the_node_that_is_late() {
        let plan = with_recorder();
        assert_eq!(
            plan.write().unwrap().least_budgets(),
            Ok(Ok((vec![1; 5], 30)))
        );
        let late = plan.with_deadline((1, 0), 20).write().unwrap();
        assert_eq!(late.least_budgets(), Ok(Err(1)));
    }
}
