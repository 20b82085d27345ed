//! Setting the words of one stream in a lent sheet: request Nine of document 02.
//! The sheet is read into tables, the stream is set there, and the sheet is
//! written anew apart from the lent one. All other words were right before, so
//! what the writer refuses is wrong with the new ones.

use crate::sheet::STREAM_WORDS;
use crate::writer::{read_tables, write_sheet, Tables};
use crate::{refusal, success, Answer};

/// What an edit names: our own node, a stream of a node, and the words that the
/// stream is to have. They may be anything.
#[derive(Clone, Copy, PartialEq, Eq, Debug)]
pub struct Edit {
    pub own_node: u32,
    pub node: u32,
    pub stream: u32,
    pub period: u32,
    pub deadline: u32,
    pub jitter: u32,
}

impl Edit {
    /// Our own node, the node and stream that are named, and period, deadline and
    /// jitter in the order of a body.
    pub fn new(own_node: u32, (node, stream): (u32, u32), words: [u32; STREAM_WORDS]) -> Edit {
        let [period, deadline, jitter] = words;
        Edit {
            own_node,
            node,
            stream,
            period,
            deadline,
            jitter,
        }
    }

    /// Period, deadline and jitter.
    pub fn words(&self) -> [u32; STREAM_WORDS] {
        [self.period, self.deadline, self.jitter]
    }

    /// A refusal at the node and stream that are named.
    pub(crate) fn refused(&self, number: u32) -> Answer {
        refusal(number, self.node, self.stream)
    }
}

/// Refusals 1 to 5 for the sheet as it is, 8 and 13, or its tables and the
/// stream's place in them.
pub(crate) fn find(sheet: &[u32], edit: &Edit) -> Result<(Tables, usize), Answer> {
    let tables = read_tables(sheet)?;
    let Some(stream) = place(&tables, edit.node, edit.stream) else {
        return Err(edit.refused(8));
    };
    match edit.node == edit.own_node {
        true => Ok((tables, stream)),
        false => Err(edit.refused(13)),
    }
}

/// Where the words of a stream stand in the tables, if there is such a stream.
pub(crate) fn place(tables: &Tables, node: u32, stream: u32) -> Option<usize> {
    let before = tables.counts.get(..(node as usize).checked_sub(1)?)?;
    let &count = tables.counts.get(before.len())?;
    let first: u32 = before.iter().sum();
    (1..=count)
        .contains(&stream)
        .then(|| (first + stream) as usize - 1)
}

/// The words of the sheet after the edit.
fn edited(sheet: &[u32], edit: &Edit) -> Result<Vec<u32>, Answer> {
    let (mut tables, stream) = find(sheet, edit)?;
    tables.periods[stream] = edit.period;
    tables.deadlines[stream] = edit.deadline;
    tables.jitters[stream] = edit.jitter;
    let mut words = vec![0; sheet.len()];
    match write_sheet(&tables, &mut words) {
        Answer { number: 0, .. } => Ok(words),
        refused => Err(refused),
    }
}

/// Sets period, deadline and jitter of a stream of our own node. Refusals 1 to 5
/// for the sheet as it is, 8, 13, and 5 for the new words.
pub fn edit_stream(sheet: &mut [u32], edit: &Edit) -> Answer {
    match edited(sheet, edit) {
        Ok(words) => {
            sheet.copy_from_slice(&words);
            success(0, 0)
        }
        Err(answer) => answer,
    }
}
