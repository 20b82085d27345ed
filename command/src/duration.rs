//! Durations as they are written: exact numbers and units. All arithmetic is
//! in whole femtoseconds: nine decimals of a microsecond, the shortest unit, are
//! whole femtoseconds.

use std::fmt;

use crate::text::quoted;

/// The units, for messages.
pub const UNITS: &str = "us, ms, s, min, h or ticks";

/// The most digits before and after the point.
const DIGITS_BEFORE: usize = 15;
const DIGITS_AFTER: usize = 9;

/// Billionths in one.
const BILLION: u128 = 1_000_000_000;

#[derive(Clone, Copy, PartialEq, Eq, Debug)]
pub enum Unit {
    Microseconds,
    Milliseconds,
    Seconds,
    Minutes,
    Hours,
    Ticks,
}

impl Unit {
    /// The unit of a word; both micro signs of Unicode are taken.
    pub fn read(word: &str) -> Option<Unit> {
        match word {
            "us" | "\u{b5}s" | "\u{3bc}s" => Some(Unit::Microseconds),
            "ms" => Some(Unit::Milliseconds),
            "s" => Some(Unit::Seconds),
            "min" => Some(Unit::Minutes),
            "h" => Some(Unit::Hours),
            "tick" | "ticks" => Some(Unit::Ticks),
            _ => None,
        }
    }

    pub fn name(self) -> &'static str {
        match self {
            Unit::Microseconds => "us",
            Unit::Milliseconds => "ms",
            Unit::Seconds => "s",
            Unit::Minutes => "min",
            Unit::Hours => "h",
            Unit::Ticks => "ticks",
        }
    }

    /// Femtoseconds in a billionth of the unit; none for ticks.
    fn femtoseconds(self) -> Option<u128> {
        match self {
            Unit::Microseconds => Some(1),
            Unit::Milliseconds => Some(1_000),
            Unit::Seconds => Some(1_000_000),
            Unit::Minutes => Some(60_000_000),
            Unit::Hours => Some(3_600_000_000),
            Unit::Ticks => None,
        }
    }
}

/// A number with a point, exactly: in billionths.
#[derive(Clone, Copy, PartialEq, Eq, Debug)]
pub struct Number {
    billionths: u128,
}

impl Number {
    /// Digits, and after a point more digits; no sign and no exponent.
    pub fn read(word: &str) -> Result<Number, String> {
        if word.contains(',') {
            return Err(comma(word));
        }
        let (before, after) = word.split_once('.').unwrap_or((word, "0"));
        let digits =
            |part: &str| !part.is_empty() && part.bytes().all(|byte| byte.is_ascii_digit());
        if !digits(before) || !digits(after) {
            return Err(format!(
                "found {}, expected a number such as 50 or 0.5",
                quoted(word)
            ));
        }
        if before.len() > DIGITS_BEFORE || after.len() > DIGITS_AFTER {
            return Err(format!(
                "found {}, expected at most {DIGITS_BEFORE} digits before the point and {DIGITS_AFTER} after it",
                quoted(word)
            ));
        }
        let padded = format!("{before}{after:0<DIGITS_AFTER$}");
        let billionths = padded
            .parse()
            .map_err(|_| format!("found {}, expected a number", quoted(word)))?;
        Ok(Number { billionths })
    }

    pub fn is_zero(self) -> bool {
        self.billionths == 0
    }

    pub fn is_whole(self) -> bool {
        self.billionths % BILLION == 0
    }

    /// The number without its decimals.
    pub fn whole(self) -> u128 {
        self.billionths / BILLION
    }

    /// So many times the number, with the decimals that the number needs.
    pub fn times(self, count: u64) -> String {
        let product = self.billionths.saturating_mul(u128::from(count));
        decimal(product, self.decimals())
    }

    /// How many decimals the number needs.
    fn decimals(self) -> usize {
        let mut rest = self.billionths % BILLION;
        let mut decimals = 0;
        while rest != 0 {
            rest = rest * 10 % BILLION;
            decimals += 1;
        }
        decimals
    }
}

/// With as many decimals as it needs.
impl fmt::Display for Number {
    fn fmt(&self, f: &mut fmt::Formatter<'_>) -> fmt::Result {
        write!(f, "{}", decimal(self.billionths, self.decimals()))
    }
}

/// Billionths as a number with so many decimals.
fn decimal(billionths: u128, decimals: usize) -> String {
    let whole = billionths / BILLION;
    if decimals == 0 {
        return whole.to_string();
    }
    let rest = format!("{:09}", billionths % BILLION);
    let shown: String = rest.chars().take(decimals).collect();
    format!("{whole}.{shown}")
}

/// A comma is for decimals or between thousands; only in the first case is it
/// clear what was meant.
fn comma(word: &str) -> String {
    let meant = match word.split_once(',') {
        Some((_, after)) if after.len() != 3 => Number::read(&word.replacen(',', ".", 1)).ok(),
        _ => None,
    };
    let advice = match meant {
        Some(_) => format!("write {}, with a point", word.replacen(',', ".", 1)),
        None => "write 0.5, with a point, and nothing between thousands".to_string(),
    };
    format!(
        "found {}, expected a number without a comma: {advice}",
        quoted(word)
    )
}

/// A duration as it is written in a file.
#[derive(Clone, Copy, PartialEq, Eq, Debug)]
pub struct Duration {
    pub number: Number,
    pub unit: Unit,
}

impl Duration {
    /// `50ms` or `50 ms`; a number alone has the unit `bare`, if there is one.
    pub fn read(text: &str, bare: Option<Unit>) -> Result<Duration, String> {
        let (number, unit) = split_number(text.trim_matches(' '));
        Duration::of_words(number, unit.trim_start_matches(' '), bare)
    }

    /// A number and its unit; the unit may be empty where `bare` is one.
    pub fn of_words(number: &str, unit: &str, bare: Option<Unit>) -> Result<Duration, String> {
        if number.is_empty() {
            return Err(format!(
                "found {}, expected a duration such as 50 ms",
                quoted(unit)
            ));
        }
        let value = Number::read(number)?;
        let unit = match (unit, bare) {
            ("", Some(bare)) => bare,
            ("", None) => {
                return Err(format!(
                    "found {} without a unit, expected {UNITS} after it",
                    quoted(number)
                ))
            }
            (word, _) => Unit::read(word)
                .ok_or_else(|| format!("found {}, expected a unit: {UNITS}", quoted(word)))?,
        };
        if unit == Unit::Ticks && !value.is_whole() {
            return Err(format!(
                "found {value} ticks, expected a whole number of ticks"
            ));
        }
        Ok(Duration {
            number: value,
            unit,
        })
    }

    /// In femtoseconds; none for ticks.
    pub fn femtoseconds(&self) -> Option<u128> {
        let unit = self.unit.femtoseconds()?;
        self.number.billionths.checked_mul(unit)
    }
}

/// `0.5 ms`, `1 tick`, `5 ticks`.
impl fmt::Display for Duration {
    fn fmt(&self, f: &mut fmt::Formatter<'_>) -> fmt::Result {
        match self.unit {
            Unit::Ticks if self.number.billionths == BILLION => write!(f, "1 tick"),
            unit => write!(f, "{} {}", self.number, unit.name()),
        }
    }
}

/// The number at the start of a word, commas and all, and the rest.
pub fn split_number(word: &str) -> (&str, &str) {
    let of_number = |c: char| c.is_ascii_digit() || c == '.' || c == ',';
    let end = word.find(|c| !of_number(c)).unwrap_or(word.len());
    word.split_at(end)
}

#[cfg(test)]
mod tests {
    use super::*;

    fn read(text: &str) -> Duration {
        Duration::read(text, None).unwrap()
    }

    fn wrong(text: &str) -> String {
        Duration::read(text, None).unwrap_err()
    }

    #[test]
    fn durations_are_written_as_they_were_read() {
        for text in [
            "50 ms",
            "0.5 us",
            "1 tick",
            "0.000000001 us",
            "999999999999999 h",
            "5 ticks",
        ] {
            assert_eq!(read(text).to_string(), text);
            assert_eq!(read(&text.replace(' ', "")).to_string(), text);
        }
        assert_eq!(read("007.500 \u{b5}s").to_string(), "7.5 us");
        assert_eq!(read("7 \u{3bc}s").to_string(), "7 us");
    }

    #[test]
    fn what_is_no_duration_is_named() {
        assert_eq!(
            wrong("50"),
            "found \"50\" without a unit, expected us, ms, s, min, h or ticks after it"
        );
        assert_eq!(
            wrong("50 MS"),
            "found \"MS\", expected a unit: us, ms, s, min, h or ticks"
        );
        assert_eq!(
            wrong("-5 ms"),
            "found \"-5 ms\", expected a duration such as 50 ms"
        );
        assert_eq!(
            wrong(".5ms"),
            "found \".5\", expected a number such as 50 or 0.5"
        );
        assert_eq!(
            wrong("0,5 ms"),
            "found \"0,5\", expected a number without a comma: write 0.5, with a point"
        );
        assert_eq!(
            wrong("1,000 ms"),
            "found \"1,000\", expected a number without a comma: write 0.5, with a point, and nothing between thousands"
        );
        assert_eq!(
            wrong("2.5 ticks"),
            "found 2.5 ticks, expected a whole number of ticks"
        );
        let digits = "expected at most 15 digits before the point and 9 after it";
        assert_eq!(
            wrong("1234567890123456 us"),
            format!("found \"1234567890123456\", {digits}")
        );
        assert_eq!(
            wrong("0.1234567890 us"),
            format!("found \"0.1234567890\", {digits}")
        );
    }
}
