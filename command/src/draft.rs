//! A line file or a recorder's file as it is written: nodes and streams with
//! their line numbers, and durations that are not yet in ticks.

use std::ops::Range;

use crate::duration::Duration;
use crate::tick::Tick;

/// What a file is.
#[derive(Clone, Copy, PartialEq, Eq, Default, Debug)]
pub enum Kind {
    #[default]
    Line,
    /// One node, which is put after those of the line.
    Recorder,
}

/// A duration and the line in which it is written.
#[derive(Clone, Copy, PartialEq, Eq, Debug)]
pub struct Written {
    pub line: usize,
    pub duration: Duration,
}

/// A stream as it is written.
#[derive(Clone, PartialEq, Eq, Debug)]
pub struct StreamDraft {
    pub line: usize,
    pub name: String,
    pub period: Duration,
    pub deadline: Duration,
    /// None where the stream queues its messages at once.
    pub jitter: Option<Duration>,
}

/// A node as it is written.
#[derive(Clone, PartialEq, Eq, Debug)]
pub struct NodeDraft {
    pub line: usize,
    pub name: String,
    pub budget: Option<u32>,
    /// The bytes of the text that the budget has, or where it can be put.
    pub budget_place: Range<usize>,
    pub streams: Vec<StreamDraft>,
}

/// A file as it is written. What has an error is left out.
#[derive(Default)]
pub struct Draft {
    /// Whether there is a tick statement, with an error or without.
    pub has_tick: bool,
    pub tick: Option<Tick>,
    pub message: Option<Written>,
    pub slot: Option<Written>,
    pub nodes: Vec<NodeDraft>,
}
