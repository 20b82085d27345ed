//! Work on the jitters of sheets that are otherwise done. A jitter is no part of
//! the rank: the stream's own counts in its late test, and in the waits of the
//! streams below it.

use super::deadlines::{place, MOST_CYCLES};
use super::lower_of_two;
use super::random::Random;
use crate::admission::{delivery, least_cycles};
use crate::sheet::Bus;

/// The longest jitter that leaves a stream in time as it is ranked now; none if
/// it is late without any.
fn spare(bus: &Bus, stream: usize) -> Option<u64> {
    let own = &bus.streams()[stream];
    let deadline = u64::from(own.deadline);
    // A J past these is late without any jitter.
    let last = MOST_CYCLES.min(deadline / bus.cycle());
    let found = least_cycles(bus, stream, last)?;
    let rest = delivery(bus, stream, found.cycles) - u64::from(own.jitter);
    deadline.checked_sub(rest)
}

/// A jitter with which one release more is counted in a window of some cycles,
/// or with which it just is not.
fn at_a_count(random: &mut Random, bus: &Bus, period: u64) -> u64 {
    let window = random.between(1, 4) * bus.cycle() - 1;
    let counted = (period - window % period) % period;
    (counted + period - random.below(2)) % period
}

/// For a stream that stays in time for the most part.
fn calm(random: &mut Random, bus: &Bus, stream: usize) -> u64 {
    let Some(spare) = spare(bus, stream) else {
        return 0;
    };
    let (any, little) = (random.below(spare + 1), random.below(spare / 8 + 1));
    random.pick(&[0, 0, 1.min(spare), little, little, any, spare])
}

/// The ends of the range, next to the deadline, and all between.
fn any(random: &mut Random, bus: &Bus, stream: usize) -> u64 {
    let own = &bus.streams()[stream];
    let (period, deadline) = (u64::from(own.period), u64::from(own.deadline));
    let jitter = match random.weighted(&[10, 15, 15, 25, 20, 15]) {
        0 => 0,
        1 => 1,
        2 => period - 1,
        3 => random.pick(&[deadline - 1, deadline, deadline + 1]),
        4 => at_a_count(random, bus, period),
        _ => random.below(period),
    };
    jitter.min(period - 1)
}

/// Gives jitters to the streams of a valid sheet that has none: to no stream, to
/// all, so that most stay in time, to one of any kind, or to all of any kind.
pub(super) fn add_jitters(sheet: &mut [u32], random: &mut Random) {
    let Ok(bus) = Bus::read(sheet) else { return };
    let streams = bus.streams().len();
    let habit = random.weighted(&[35, 35, 20, 10]);
    let one = random.below(streams as u64) as usize;
    for stream in 0..streams {
        let jitter = match habit {
            1 => calm(random, &bus, stream),
            2 if stream == one => any(random, &bus, stream),
            3 => any(random, &bus, stream),
            _ => 0,
        };
        sheet[place(sheet, &bus, stream) + 2] = jitter as u32;
    }
}

/// The jitter with one tick to spare, the last one in time or the first late one,
/// for `past` 0, 1 or 2. Below the deadline, and so below the period.
fn at_the_edge(spare: u64, past: u64) -> u32 {
    (spare + past).saturating_sub(1) as u32
}

/// The same of a stream as it is ranked now; none if it is late without any.
pub(super) fn edge_jitter(bus: &Bus, stream: usize, past: u64) -> Option<u32> {
    Some(at_the_edge(spare(bus, stream)?, past))
}

/// Brings one jitter to the edge of the late test, just in time or one tick
/// late, seldom with one tick to spare, and answers of which stream. No wait of
/// the stream itself moves with it.
pub(super) fn sharpen_jitter(sheet: &mut [u32], random: &mut Random) -> Option<usize> {
    let bus = Bus::read(sheet).ok()?;
    let stream = lower_of_two(random, &bus)?;
    let spare = spare(&bus, stream)?;
    let past = random.weighted(&[10, 45, 45]) as u64;
    sheet[place(sheet, &bus, stream) + 2] = at_the_edge(spare, past);
    Some(stream)
}
