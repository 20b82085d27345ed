//! Ticks: the length of a tick, durations counted in ticks, and ticks written
//! in the unit of the file.

use std::fmt;

use crate::duration::{Duration, Number, Unit};

/// A duration in ticks. The order of these is that of the durations.
#[derive(Clone, Copy, PartialEq, Eq, PartialOrd, Ord, Debug)]
pub struct Exact {
    pub ticks: u128,
    /// What is left over, in femtoseconds: less than a tick.
    pub rest: u128,
}

impl Exact {
    /// A duration in ticks. None for a time where the file has no tick.
    pub fn of(duration: &Duration, tick: Option<&Tick>) -> Option<Exact> {
        if duration.unit == Unit::Ticks {
            let ticks = duration.number.whole();
            return Some(Exact { ticks, rest: 0 });
        }
        let (time, tick) = (duration.femtoseconds()?, tick?.femtoseconds);
        Some(Exact {
            ticks: time.checked_div(tick)?,
            rest: time.checked_rem(tick)?,
        })
    }

    /// The next whole number of ticks.
    pub fn up(self) -> u128 {
        self.ticks + u128::from(self.rest > 0)
    }

    pub fn is_whole(self) -> bool {
        self.rest == 0
    }
}

/// The length of a tick; its unit is the unit of the file.
#[derive(Clone, Copy, PartialEq, Eq, Debug)]
pub struct Tick {
    length: Duration,
    femtoseconds: u128,
}

impl Tick {
    /// A length in time, and not 0.
    pub fn new(length: Duration) -> Result<Tick, String> {
        let Some(femtoseconds) = length.femtoseconds() else {
            return Err(format!(
                "found {length}, expected a length in time: us, ms, s, min or h"
            ));
        };
        if length.number.is_zero() {
            return Err(format!("found {length}, expected a length over 0"));
        }
        Ok(Tick {
            length,
            femtoseconds,
        })
    }

    pub fn length(&self) -> Number {
        self.length.number
    }

    pub fn unit(&self) -> Unit {
        self.length.unit
    }
}

impl fmt::Display for Tick {
    fn fmt(&self, f: &mut fmt::Formatter<'_>) -> fmt::Result {
        write!(f, "{}", self.length)
    }
}

/// How ticks are written: in the unit of the file, or as ticks.
#[derive(Clone, Copy, PartialEq, Eq, Debug)]
pub struct Scale {
    pub tick: Option<Tick>,
}

impl Scale {
    /// `3.8 ms`, with as many decimals as the tick needs, or `38 ticks`.
    pub fn show(&self, ticks: u64) -> String {
        match &self.tick {
            Some(tick) => format!("{} {}", self.number(ticks), tick.unit().name()),
            None => plural(ticks, "tick"),
        }
    }

    /// The same without the unit.
    pub fn number(&self, ticks: u64) -> String {
        match &self.tick {
            Some(tick) => tick.length().times(ticks),
            None => ticks.to_string(),
        }
    }

    /// A cell of a table: `1 tick` is made as long as `2 ticks`.
    pub fn cell(&self, ticks: u64) -> String {
        let shown = self.show(ticks);
        match shown.as_str() {
            "1 tick" => "1 tick ".to_string(),
            _ => shown,
        }
    }

    /// The unit of numbers that have none.
    pub fn unit(&self) -> Unit {
        self.tick.map_or(Unit::Ticks, |tick| tick.unit())
    }
}

/// `1 tick`, `2 ticks`.
pub fn plural(number: u64, what: &str) -> String {
    let ending = if number == 1 { "" } else { "s" };
    format!("{number} {what}{ending}")
}

#[cfg(test)]
mod tests {
    use super::*;

    fn read(text: &str) -> Duration {
        Duration::read(text, None).unwrap()
    }

    fn tick(text: &str) -> Tick {
        Tick::new(read(text)).unwrap()
    }

    #[test]
    fn a_tick_is_a_time_over_0() {
        let wrong = |text: &str| Tick::new(read(text)).unwrap_err();
        assert_eq!(
            wrong("1 tick"),
            "found 1 tick, expected a length in time: us, ms, s, min or h"
        );
        assert_eq!(wrong("0 ms"), "found 0 ms, expected a length over 0");
    }

    #[test]
    fn ticks_are_exact() {
        let exact = |text: &str, length: &str| Exact::of(&read(text), Some(&tick(length))).unwrap();
        assert_eq!(exact("9.9 ms", "0.1 ms"), Exact { ticks: 99, rest: 0 });
        assert_eq!(exact("1 h", "3 us").ticks, 1_200_000_000);
        let rounded = exact("9.95 ms", "0.1 ms");
        assert_eq!(
            (rounded.ticks, rounded.up(), rounded.is_whole()),
            (99, 100, false)
        );
        assert!(exact("9.95 ms", "1 ms") > exact("9.94 ms", "1 ms"));
        assert_eq!(
            exact("999999999999999 h", "0.000000001 us").ticks,
            3_599_999_999_999_996_400_000_000_000_000_000
        );
        assert_eq!(Exact::of(&read("1 ms"), None), None);
    }

    #[test]
    fn ticks_are_written_in_the_unit_of_the_file() {
        let scale = |length: &str| Scale {
            tick: Some(tick(length)),
        };
        assert_eq!(scale("0.1 ms").show(38), "3.8 ms");
        assert_eq!(scale("0.10 ms").show(40), "4.0 ms");
        assert_eq!(scale("0.25 s").show(3), "0.75 s");
        assert_eq!(scale("3 us").show(7), "21 us");
        assert_eq!(Scale { tick: None }.show(1), "1 tick");
        assert_eq!(Scale { tick: None }.cell(1), "1 tick ");
    }
}
