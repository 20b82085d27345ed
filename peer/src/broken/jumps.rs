//! A search for J that jumps, right as it is, and the wrong ones made from it.
//! Where a J does not serve, it goes on with the least that can. Split the
//! streams above into fast ones and the rest. From J on the rest have released
//! at least as often as by now, and the fast ones at least
//! (J × C + jitter) / period times, so that a J can serve only if
//! rest + 1 + (sum of jitter / period over the fast ones)
//! + J × (sum of C / period over them) <= J × budget.

use super::admit_with;
use crate::admission::{last_try, Above};
use crate::sheet::Bus;
use crate::{refusal, success, Answer};

/// C / period and jitter / period are counted in so many parts of a release,
/// rounded down: with numbers that are too low no jump goes too far.
const PARTS: u128 = 1 << 34;

/// What J is searched for with.
struct Search {
    /// The streams above, the shortest period first.
    above: Vec<Above>,
    cycle: u64,
    budget: u64,
}

impl Search {
    fn new(bus: &Bus, stream: usize) -> Search {
        let above = bus.above(stream);
        let mut above: Vec<Above> = above.map(|other| (&bus.streams()[other]).into()).collect();
        above.sort_by_key(|stream| stream.period);
        Search {
            above,
            cycle: bus.cycle(),
            budget: bus.nodes()[bus.node_of(stream)].budget as u64,
        }
    }

    /// The releases in J cycles of all but so many of the fastest.
    fn releases(&self, without: usize, cycles: u64) -> u64 {
        let window = cycles * self.cycle - 1;
        let streams = self.above[without..].iter();
        streams.map(|stream| stream.releases(window)).sum()
    }

    /// The sum of these ticks of the fastest, each in parts of its period.
    fn parts(&self, fast: usize, ticks: impl Fn(&Above) -> u64) -> u128 {
        let streams = self.above[..fast].iter();
        let parts = |stream| u128::from(ticks(stream)) * PARTS / u128::from(stream.period);
        streams.map(parts).sum()
    }

    /// The least J that can serve, with so many of the fastest taken as fast
    /// and so many releases of the rest; none if the fast ones fill the budget.
    fn bound(&self, fast: usize, rest: u64) -> Option<u64> {
        let rate = self.parts(fast, |_| self.cycle);
        let free = (u128::from(self.budget) * PARTS).checked_sub(rate)?;
        let needed = (u128::from(rest) + 1) * PARTS + self.parts(fast, |stream| stream.jitter);
        (free > 0).then(|| needed.div_ceil(free) as u64)
    }

    /// The best of the bounds of all splits, given the releases of the rest for
    /// each. The split with no fast stream gives a J above the last one, which
    /// did not serve.
    fn farthest(&self, rest: impl Fn(usize) -> u64) -> Option<u64> {
        let mut best = 0;
        for fast in 0..=self.above.len() {
            best = best.max(self.bound(fast, rest(fast))?);
        }
        Some(best)
    }
}

/// What a search goes by.
struct Rules {
    /// Whether a J that was jumped to serves, given the releases in J cycles
    /// and the places in J turns.
    serves: fn(u64, u64) -> bool,
    /// Where to go on after a J that does not serve; none if no other can.
    next: fn(&Search, u64) -> Option<u64>,
}

const RIGHT: Rules = Rules {
    serves: |releases, places| releases < places,
    next: |search, cycles| search.farthest(|fast| search.releases(fast, cycles)),
};

/// J and x of document 01 by these rules, up to the last J worth a try.
fn jump(search: &Search, rules: &Rules, last: u64) -> Option<(u64, u64)> {
    let mut cycles = 1;
    while cycles <= last {
        let (releases, places) = (search.releases(0, cycles), cycles * search.budget);
        // The first was not jumped to.
        let serves = match cycles {
            1 => RIGHT.serves,
            _ => rules.serves,
        };
        if serves(releases, places) {
            // Below 0 only after a jump too far.
            return Some((cycles, releases.saturating_sub(places - search.budget)));
        }
        cycles = (rules.next)(search, cycles)?;
    }
    None
}

/// The listed wait of a stream and its J, none if it is late.
fn listed(bus: &Bus, stream: usize, rules: &Rules) -> Option<(u64, u64)> {
    let (cycles, ahead) = jump(&Search::new(bus, stream), rules, last_try(bus, stream))?;
    let wait = cycles * bus.cycle() - 1 + ahead * bus.message_ticks;
    Some((wait, cycles))
}

fn admit_jumping(sheet: &[u32], room: &mut [u32], rules: &Rules) -> Answer {
    admit_with(sheet, room, |bus, stream| {
        listed(bus, stream, rules).map(|found| found.0)
    })
}

/// No error: the one-stream question by the search that has none. So it is
/// their errors, and not the jumps, for which the others are caught.
pub fn one_stream_jumping(sheet: &[u32], node: u32, stream: u32) -> Answer {
    let bus = match Bus::read(sheet) {
        Ok(bus) => bus,
        Err(answer) => return answer,
    };
    let Some(index) = bus.find(node, stream) else {
        return refusal(8, node, stream);
    };
    match listed(&bus, index, &RIGHT) {
        Some((wait, cycles)) => success(wait, cycles),
        None => refusal(7, node, stream),
    }
}

/// Error 26: a jump goes one J too far.
pub fn admit_jumping_too_far(sheet: &[u32], room: &mut [u32]) -> Answer {
    let next = |search: &Search, cycles| Some(search.releases(0, cycles) / search.budget + 2);
    admit_jumping(sheet, room, &Rules { next, ..RIGHT })
}

/// The parts by which error 27 rounds. With as many as above, it would be wrong
/// only for a J of over a thousand million, which is past every deadline.
const COARSE_PARTS: u64 = 1 << 10;

/// Error 27: no J can serve if the rates of all streams, each rounded up, come
/// to the budget.
pub fn admit_rounding_rates_up(sheet: &[u32], room: &mut [u32]) -> Answer {
    let next = |search: &Search, cycles| {
        let cycle = COARSE_PARTS * search.cycle;
        let rates = search.above.iter();
        let rate: u64 = rates.map(|stream| cycle.div_ceil(stream.period)).sum();
        match rate < COARSE_PARTS * search.budget {
            true => (RIGHT.next)(search, cycles),
            false => None,
        }
    };
    admit_jumping(sheet, room, &Rules { next, ..RIGHT })
}

/// Error 28: a J that was jumped to serves even if the releases take all its
/// places. (To give up where the rates are one part below the budget would be
/// an error too, but one that shows only for a J of 2^34 or more.)
pub fn admit_with_every_place_taken(sheet: &[u32], room: &mut [u32]) -> Answer {
    let serves = |releases, places| releases <= places;
    admit_jumping(sheet, room, &Rules { serves, ..RIGHT })
}

/// Error 29: the releases of the fast streams are counted with the rest too.
pub fn admit_counting_fast_twice(sheet: &[u32], room: &mut [u32]) -> Answer {
    let next = |search: &Search, cycles| search.farthest(|_| search.releases(0, cycles));
    admit_jumping(sheet, room, &Rules { next, ..RIGHT })
}

/// Error 53: each fast stream with a jitter is counted for one release more.
pub fn admit_jumping_over_jitters(sheet: &[u32], room: &mut [u32]) -> Answer {
    let next = |search: &Search, cycles| {
        search.farthest(|fast| {
            let jittery = search.above[..fast].iter().filter(|it| it.jitter > 0);
            search.releases(fast, cycles) + jittery.count() as u64
        })
    };
    admit_jumping(sheet, room, &Rules { next, ..RIGHT })
}
