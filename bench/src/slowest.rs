//! Looks for sheets on which the proved search for J is slow: from a random
//! node that is nearly full it changes a period or two at a time and keeps
//! what is slower, until nothing helps for a while, and then begins anew.

use std::hint::black_box;
use std::time::{Duration, Instant};

use crate::{sheet, Random};

const LONGEST: u32 = 1_000_000_000;

/// What is asked of a sheet: the lowest stream of its one node; all waits of
/// sixteen nodes alike; or the least budgets of sixteen nodes alike.
#[derive(Clone, Copy)]
pub enum Sought {
    Stream,
    Sheet,
    Budgets,
}

/// A node as it is tried: its budget, and the periods of fifteen streams above
/// one of the longest period.
#[derive(Clone)]
struct Guess {
    asked: Sought,
    budget: u32,
    periods: [u32; 15],
}

impl Guess {
    fn nodes(&self) -> u32 {
        match self.asked {
            Sought::Stream => 1,
            Sought::Sheet | Sought::Budgets => 16,
        }
    }

    /// The full cycle of the nodes, with messages and slots of a tick.
    fn cycle(&self) -> f64 {
        f64::from(self.nodes() * (self.budget + 1))
    }

    fn words(&self) -> Vec<u32> {
        let mut streams: Vec<(u32, u32)> = self.periods.iter().map(|&p| (p, p)).collect();
        streams.push((LONGEST, LONGEST));
        let node = (self.budget, streams);
        sheet(1, 1, &vec![node; self.nodes() as usize])
    }

    /// The answer counts whatever it is, but a whole sheet has to be admitted:
    /// a refusal ends the look at it.
    fn counts(&self, words: &[u32], room: &mut [u32]) -> bool {
        match self.asked {
            Sought::Stream => wistorvan::raw::one_stream(words, 1, 16).number != 8,
            Sought::Sheet => wistorvan::raw::admit(words, room).number == 0,
            Sought::Budgets => wistorvan::raw::find_budgets(words, room).number != 6,
        }
    }

    /// How long the proved answer takes, the shortest of three; nothing where
    /// it does not count.
    fn time(&self, room: &mut [u32]) -> Duration {
        let words = self.words();
        let mut once = || {
            let began = Instant::now();
            match black_box(self.counts(black_box(&words), room)) {
                true => began.elapsed(),
                false => Duration::ZERO,
            }
        };
        once().min(once()).min(once())
    }

    /// What the other streams leave of a turn, in messages a cycle.
    fn left(&self, but: usize) -> f64 {
        let taken: f64 = (0..15)
            .filter(|&i| i != but)
            .map(|i| self.cycle() / f64::from(self.periods[i]))
            .sum();
        f64::from(self.budget) - taken
    }

    /// A period that, with the others, nearly fills the turns.
    fn filling(&self, place: usize, random: &mut Random) -> u32 {
        let left = self.left(place);
        let period = match left > 0.0 {
            true => self.cycle() / left + 1.0 + random.below(3) as f64,
            false => f64::from(LONGEST),
        };
        period.min(f64::from(LONGEST)) as u32
    }
}

/// A number from 2 to the longest period, with short ones as likely as long.
fn any_period(random: &mut Random) -> u32 {
    let digits = random.below(30);
    (2 + random.below(1 << digits)).min(u64::from(LONGEST)) as u32
}

fn first_guess(asked: Sought, random: &mut Random) -> Guess {
    let budget = match random.below(2) {
        0 => 1,
        _ => 1 + random.below(16) as u32,
    };
    let mut guess = Guess {
        asked,
        budget,
        periods: [LONGEST; 15],
    };
    for place in 0..15 {
        let full = guess.filling(place, random);
        guess.periods[place] = match random.below(4) {
            0 => full,
            1 => any_period(random).max(full),
            _ => full.saturating_mul(1 + random.below(8) as u32).min(LONGEST),
        };
    }
    guess
}

fn changed(guess: &Guess, random: &mut Random) -> Guess {
    let mut next = guess.clone();
    for _ in 0..1 + random.below(2) {
        let place = random.below(15) as usize;
        let period = next.periods[place];
        let near = 1 + random.below(5) as u32;
        next.periods[place] = match random.below(5) {
            0 => (period + near).min(LONGEST),
            1 => period.saturating_sub(near).max(1),
            2 => (u64::from(period) * (900 + random.below(200)) / 1000 + 1) as u32,
            3 => any_period(random),
            _ => next.filling(place, random),
        }
        .min(LONGEST);
    }
    next
}

/// Looks for so many seconds, and prints each sheet that is slower than all
/// before it.
pub fn slowest(asked: Sought, seconds: u64, seed: u64) {
    let end = Instant::now() + Duration::from_secs(seconds);
    let mut random = Random(seed.max(1));
    let mut room = [0; 256];
    let mut most = Duration::ZERO;
    while Instant::now() < end {
        let mut guess = first_guess(asked, &mut random);
        let mut time = guess.time(&mut room);
        let mut since = 0;
        while since < 400 && Instant::now() < end {
            let next = changed(&guess, &mut random);
            since += 1;
            let slower = |room: &mut [u32]| next.time(room) > time + time / 50;
            // Asked twice: a machine that is busy elsewhere is slow, too.
            if slower(&mut room) && slower(&mut room) {
                time = next.time(&mut room);
                (guess, since) = (next, 0);
            }
        }
        if time > most {
            most = time;
            println!(
                "{:.3} ms: budget {}, periods {:?}",
                most.as_secs_f64() * 1e3,
                guess.budget,
                guess.periods
            );
        }
    }
}
