//! Numbers that only some cases reach. A program that cuts a number short, or
//! takes a late begin for none, is wrong on those alone, so a whole run must
//! have met each of them.

use peer::generate::{FAR_BEGIN, FAR_TURNS, FAR_WAIT};
use peer::NOT_BEGUN;

pub const WAIT: &str = "a wait over 10^8";
pub const BEGIN: &str = "a begin over 10^9";
pub const TURNS: &str = "over 10^6 turns";

pub fn wait(waits: &[u32]) -> Option<&'static str> {
    waits.iter().any(|&wait| wait > FAR_WAIT).then_some(WAIT)
}

pub fn begin(begins: &[u32]) -> Option<&'static str> {
    let mut begun = begins.iter().filter(|&&begin| begin != NOT_BEGUN);
    begun.any(|&begin| begin > FAR_BEGIN).then_some(BEGIN)
}

pub fn turns(turns: u32) -> Option<&'static str> {
    (turns > FAR_TURNS).then_some(TURNS)
}

/// The last number of each row of a program's text: waits or begins.
pub fn rows(text: &str) -> Vec<u32> {
    text.lines()
        .filter(|line| line.starts_with(|first: char| first.is_ascii_digit()))
        .filter_map(|line| line.rsplit(' ').next()?.parse().ok())
        .collect()
}

/// The turns in the last line of the replay program's text.
pub fn turns_written(text: &str) -> Option<u32> {
    let line = text.lines().last()?.strip_prefix("turns ")?;
    line.split(' ').next()?.parse().ok()
}
