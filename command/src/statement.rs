//! One statement: the words of a line, and numbers, durations and names taken
//! from them.

use std::ops::Range;

use crate::duration::{split_number, Duration};
use crate::text::{code, invisible, quoted, Row};

/// The most characters of a name.
const MOST_NAME: usize = 40;

/// A word and where it stands in the text.
#[derive(Clone, Copy, PartialEq, Eq, Debug)]
pub struct Token<'t> {
    pub text: &'t str,
    pub start: usize,
}

/// The words of a line without its comment, and how many have been taken.
pub struct Words<'t> {
    tokens: Vec<Token<'t>>,
    taken: usize,
}

impl<'t> Words<'t> {
    pub fn of(row: &Row<'t>) -> Words<'t> {
        let (said, _comment) = row.text.split_once('#').unwrap_or((row.text, ""));
        let mut tokens = Vec::new();
        let mut start = 0;
        for piece in said.split([' ', '\t']) {
            if !piece.is_empty() {
                tokens.push(Token {
                    text: piece,
                    start: row.start + start,
                });
            }
            start += piece.len() + 1;
        }
        Words { tokens, taken: 0 }
    }

    fn peek(&self) -> Option<Token<'t>> {
        self.tokens.get(self.taken).copied()
    }

    pub fn more(&self) -> bool {
        self.peek().is_some()
    }

    pub fn take(&mut self) -> Option<Token<'t>> {
        let token = self.peek()?;
        self.taken += 1;
        Some(token)
    }

    /// Passes over words up to the next of these.
    pub fn skip_to(&mut self, keys: &[&str]) {
        while self.peek().is_some_and(|token| !keys.contains(&token.text)) {
            self.taken += 1;
        }
    }

    /// The byte after the word taken last.
    pub fn last_end(&self) -> usize {
        let last = self
            .taken
            .checked_sub(1)
            .and_then(|index| self.tokens.get(index));
        last.map_or(0, |token| token.start + token.text.len())
    }

    /// Nothing may be left.
    pub fn end(&mut self) -> Result<(), String> {
        match self.peek() {
            None => Ok(()),
            Some(token) => Err(format!(
                "found {}, expected the end of the line",
                quoted(token.text)
            )),
        }
    }

    /// A duration: a number and a unit, in one word or two. A key is no unit.
    pub fn duration(&mut self, keys: &[&str]) -> Result<Duration, String> {
        let expected = "expected a duration such as 50 ms";
        let Some(word) = self.peek().filter(|token| !keys.contains(&token.text)) else {
            let found = self
                .peek()
                .map_or("the end of the line".to_string(), |token| {
                    quoted(token.text)
                });
            return Err(format!("found {found}, {expected}"));
        };
        self.taken += 1;
        let (number, rest) = split_number(word.text);
        let mut unit = rest;
        if rest.is_empty() {
            if let Some(next) = self.peek().filter(|token| !keys.contains(&token.text)) {
                self.taken += 1;
                unit = next.text;
            }
        }
        Duration::of_words(number, unit, None)
    }

    /// A whole number, and where it stands.
    pub fn count(&mut self) -> Result<(u32, Range<usize>), String> {
        let word = self
            .take()
            .ok_or("found the end of the line, expected a whole number")?;
        if !word.text.bytes().all(|byte| byte.is_ascii_digit()) {
            return Err(format!(
                "found {}, expected a whole number",
                quoted(word.text)
            ));
        }
        let number = word.text.parse();
        let number = number
            .map_err(|_| format!("found {}, expected at most {}", quoted(word.text), u32::MAX))?;
        Ok((number, word.start..word.start + word.text.len()))
    }
}

/// What is wrong with a name.
pub fn name_fault(name: &str) -> Option<String> {
    let allowed = |c: char| c.is_alphanumeric() || c == '-' || c == '_';
    if let Some(wrong) = name.chars().find(|c| !allowed(*c)) {
        let shown = if invisible(wrong) {
            code(wrong)
        } else {
            format!("\"{wrong}\"")
        };
        let name = quoted(name);
        return Some(format!(
            "found {shown} in the name {name}, expected letters, digits, \"-\" and \"_\""
        ));
    }
    let length = name.chars().count();
    let message = format!("found a name of {length} characters, expected at most {MOST_NAME}");
    (length > MOST_NAME).then_some(message)
}

#[cfg(test)]
mod tests {
    use super::*;

    fn words(text: &str) -> Words<'_> {
        Words::of(&Row {
            number: 1,
            start: 10,
            text,
        })
    }

    #[test]
    fn words_have_their_places() {
        let taken = words(" node\tfan  # budget 2").tokens;
        let taken: Vec<(&str, usize)> = taken
            .iter()
            .map(|token| (token.text, token.start))
            .collect();
        assert_eq!(taken, [("node", 11), ("fan", 16)]);
    }

    #[test]
    fn a_duration_is_one_word_or_two() {
        for text in ["50ms", "50 ms", "50\tms deadline 3 ms"] {
            assert_eq!(
                words(text).duration(&["deadline"]).unwrap().to_string(),
                "50 ms"
            );
        }
        let bare = words("50 deadline").duration(&["deadline"]).unwrap_err();
        assert_eq!(
            bare,
            "found \"50\" without a unit, expected us, ms, s, min, h or ticks after it"
        );
        let key = words("deadline 5 ms").duration(&["deadline"]).unwrap_err();
        assert_eq!(key, "found \"deadline\", expected a duration such as 50 ms");
    }

    #[test]
    fn counts_are_digits() {
        assert_eq!(words("16").count(), Ok((16, 10..12)));
        assert_eq!(
            words("+2").count().unwrap_err(),
            "found \"+2\", expected a whole number"
        );
        assert_eq!(
            words("4294967296").count().unwrap_err(),
            "found \"4294967296\", expected at most 4294967295"
        );
    }

    #[test]
    fn names_are_of_any_alphabet() {
        assert_eq!(name_fault("Öfen_2-乾燥機"), None);
        assert_eq!(
            name_fault("a\u{a0}b").unwrap(),
            "found U+00A0 in the name \"a<U+00A0>b\", expected letters, digits, \"-\" and \"_\""
        );
        assert_eq!(
            name_fault("a.b").unwrap(),
            "found \".\" in the name \"a.b\", expected letters, digits, \"-\" and \"_\""
        );
        assert_eq!(name_fault(&"é".repeat(40)), None);
        assert_eq!(
            name_fault(&"é".repeat(41)).unwrap(),
            "found a name of 41 characters, expected at most 40"
        );
    }
}
