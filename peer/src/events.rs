//! The events behind the releases of a stream: request Six of document 02. Each
//! message is queued 0 to jitter ticks after its event, in the order of the
//! events, and these are a period or more apart. Logs hold the queuing ticks
//! alone, and an event may lie before tick 0.

/// The earliest events for these queuing ticks, or none if no events fit: each
/// is as early as its own message and the event before it allow, so that no
/// other choice leaves more to the next.
pub fn earliest(queued: &[u32], period: u32, jitter: u32) -> Option<Vec<i64>> {
    let mut events: Vec<i64> = Vec::new();
    for &tick in queued {
        let first = i64::from(tick) - i64::from(jitter);
        let event = match events.last() {
            Some(before) => first.max(before + i64::from(period)),
            None => first,
        };
        if event > i64::from(tick) {
            return None;
        }
        events.push(event);
    }
    Some(events)
}

/// The latest events, found from the last one back.
pub fn latest(queued: &[u32], period: u32, jitter: u32) -> Option<Vec<i64>> {
    let mut events: Vec<i64> = Vec::new();
    for &tick in queued.iter().rev() {
        let last = i64::from(tick);
        let event = match events.last() {
            Some(after) => last.min(after - i64::from(period)),
            None => last,
        };
        if event < i64::from(tick) - i64::from(jitter) {
            return None;
        }
        events.push(event);
    }
    events.reverse();
    Some(events)
}

/// The queuing ticks of each of so many streams in a log that names no others.
pub fn queued(log: &[u32], streams: usize) -> Vec<Vec<u32>> {
    let mut ticks = vec![vec![]; streams];
    for release in log.chunks_exact(2) {
        ticks[release[1] as usize - 1].push(release[0]);
    }
    ticks
}
