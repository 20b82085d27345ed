//! Periods of streams that together take about the whole of a budget. A stream
//! takes C / period of it, the releases that a cycle brings.

use super::random::Random;
use super::sheets::bounded;
use crate::sheet::LAST_TICK;

/// How the sum of C / period compares with the budget.
#[derive(Clone, Copy, PartialEq, Eq)]
pub(super) enum Load {
    Below,
    Exact,
    Above,
    FarAbove,
}

/// What the streams have to share.
pub(super) struct Share {
    pub cycle: u64,
    pub budget: u64,
    /// So many streams at most; 8 are always enough.
    pub most: usize,
}

/// Several streams in the place of one that take as much together: their
/// periods as multiples of its own. By halves alone, whole numbers are split
/// into short binary fractions; by the others, mostly into fractions that are
/// endless in binary.
const HALVES: [&[u64]; 3] = [&[2, 2], &[2, 4, 4], &[2, 4, 8, 8]];
const PARTS: [&[u64]; 7] = [
    &[2, 2],
    &[3, 3, 3],
    &[2, 3, 6],
    &[5, 5, 5, 5, 5],
    &[2, 3, 7, 42],
    &[2, 3, 10, 15],
    &[2, 4, 6, 12],
];

/// Replaces streams by several, where the periods stay in range.
fn split(random: &mut Random, periods: &mut Vec<u64>, ways: &[&[u64]], most: usize) {
    for _ in 0..random.between(0, 8) {
        let at = random.below(periods.len() as u64) as usize;
        let way = random.pick(ways);
        let parts = way.iter().map(|times| times * periods[at]);
        let parts: Vec<u64> = parts.collect();
        let fits = periods.len() + parts.len() <= most + 1;
        if fits && parts.iter().all(|&part| part <= u64::from(LAST_TICK)) {
            periods.splice(at..=at, parts);
        }
    }
}

/// Replaces a stream by one that takes k / (k + 1) as much and one for the
/// rest, where k divides the period.
fn split_unevenly(random: &mut Random, periods: &mut Vec<u64>, most: usize) {
    let at = random.below(periods.len() as u64) as usize;
    let period = periods[at];
    let divides = |k: &u64| period.is_multiple_of(*k) && period * (k + 1) <= u64::from(LAST_TICK);
    let fitting: Vec<u64> = (2..=30).filter(divides).collect();
    if periods.len() < most && !fitting.is_empty() {
        let k = random.pick(&fitting);
        periods.splice(at..=at, [period / k * (k + 1), period * (k + 1)]);
    }
}

impl Share {
    /// Streams with a whole number of releases a cycle, as many as fill the
    /// budget. If that is over 8, the cycle must be even, so that 8 will do.
    fn whole(&self, random: &mut Random) -> Vec<u64> {
        let mut take = |largest: bool| {
            let (mut rest, mut periods) = (self.budget, Vec::new());
            while rest > 0 {
                let divides = |releases: &u64| self.cycle.is_multiple_of(*releases);
                let fitting: Vec<u64> = (1..=rest).rev().filter(divides).collect();
                let releases = match largest {
                    true => fitting[0],
                    false => random.pick(&fitting),
                };
                periods.push(self.cycle / releases);
                rest -= releases;
            }
            periods
        };
        let any = take(false);
        match any.len() <= self.most {
            true => any,
            false => take(true),
        }
    }

    /// As many streams of one period as fill the budget, if there are such.
    fn equal(&self, random: &mut Random) -> Option<Vec<u64>> {
        let divides = |count: &u64| (count * self.cycle).is_multiple_of(self.budget);
        let fitting: Vec<u64> = (1..=self.most as u64).filter(divides).collect();
        let other = (!fitting.is_empty()).then(|| random.pick(&fitting))?;
        let count = random.pick(&[other, *fitting.last()?]);
        Some(vec![count * self.cycle / self.budget; count as usize])
    }

    /// The sum of C / period is the budget.
    fn exact(&self, random: &mut Random) -> Vec<u64> {
        let equal = match random.percent(30) {
            true => self.equal(random),
            false => None,
        };
        let mut periods = equal.unwrap_or_else(|| self.whole(random));
        match random.weighted(&[30, 45, 15, 10]) {
            0 => split(random, &mut periods, &HALVES, self.most),
            1 => split(random, &mut periods, &PARTS, self.most),
            2 => {
                let rounds = random.between(1, 3);
                (0..rounds).for_each(|_| split_unevenly(random, &mut periods, self.most));
            }
            _ => {}
        }
        periods
    }

    /// Any parts of the budget, with the periods rounded to the side of the
    /// load, as long as they are in range.
    fn uneven(&self, random: &mut Random, load: Load) -> Vec<u64> {
        let widest = random.pick(&[2, 10, 40]);
        let count = random.between(1, self.most as u64);
        let parts: Vec<u64> = (0..count).map(|_| random.between(1, widest)).collect();
        let all = self.cycle * parts.iter().sum::<u64>();
        let period = |part: &u64| match load {
            Load::Below => all.div_ceil(self.budget * part),
            _ => all / (self.budget * part),
        };
        parts.iter().map(period).collect()
    }

    /// Changes one period so that the streams take about 1 / `wanted` of a
    /// place less or more, or as little more than that as one tick makes.
    fn shift(&self, random: &mut Random, periods: &mut [u64], load: Load, wanted: u64) {
        let any = random.below(periods.len() as u64) as usize;
        let slowest = (0..periods.len()).max_by_key(|&at| periods[at]);
        let slowest = slowest.unwrap_or(any);
        let at = random.pick(&[any, slowest, slowest]);
        let (period, gap) = (u128::from(periods[at]), u128::from(self.cycle * wanted));
        let changed = match load {
            // 1 / changed is 1 / period − 1 / gap.
            Load::Below if gap <= period => 2 * period,
            Load::Below => (period * gap / (gap - period)).max(period + 1),
            _ => (period * gap / (gap + period)).min(period.saturating_sub(1)),
        };
        periods[at] = changed as u64;
    }

    /// Periods of streams with such a load, that far from the budget.
    pub fn periods(&self, random: &mut Random, load: Load, wanted: u64) -> Vec<u32> {
        let mut periods = match load {
            Load::Below | Load::Above if random.percent(40) => self.uneven(random, load),
            _ => self.exact(random),
        };
        match load {
            Load::Exact => {}
            Load::Below | Load::Above => self.shift(random, &mut periods, load, wanted),
            Load::FarAbove => {
                let divisor = random.pick(&[2, 10, 1_000, u64::from(LAST_TICK)]);
                let count = random.pick(&[1, periods.len()]);
                let changed = periods.iter_mut().take(count);
                changed.for_each(|period| *period /= divisor);
            }
        }
        periods.into_iter().map(bounded).collect()
    }
}
