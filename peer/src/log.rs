//! Refusal 9: what a log must keep to.

use std::ops::Range;

use crate::sheet::LAST_TICK;
use crate::{refusal, Answer};

pub(crate) const MOST_RELEASES: usize = 4_096;

/// The number of releases of a log that names only streams 1 to `streams`.
pub(crate) fn check_log(log: &[u32], streams: usize) -> Result<usize, Answer> {
    check_releases(log, streams, MOST_RELEASES, 0..LAST_TICK + 1)
}

/// The same of releases with other limits: at most so many, within these ticks.
pub(crate) fn check_releases(
    log: &[u32],
    streams: usize,
    most: usize,
    ticks: Range<u32>,
) -> Result<usize, Answer> {
    let releases = log.len() / 2;
    if !log.len().is_multiple_of(2) || releases > most {
        return Err(refusal(9, 0, 0));
    }
    let mut previous = ticks.start;
    for (index, release) in log.chunks_exact(2).enumerate() {
        let (tick, stream) = (release[0], release[1]);
        let tick_right = tick < ticks.end && tick >= previous;
        let stream_right = stream >= 1 && stream as usize <= streams;
        if !tick_right || !stream_right {
            return Err(refusal(9, 0, index as u32 + 1));
        }
        previous = tick;
    }
    Ok(releases)
}
