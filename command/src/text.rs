//! Reading a file: its limit, UTF-8, the byte-order mark, line ends and control
//! characters; and how pieces of a file are quoted in messages.

use std::collections::BTreeMap;
use std::ffi::OsStr;
use std::fs::File;
use std::io::Read;

use crate::fault::Fault;

/// The longest line file or recorder, and the longest log, in bytes.
pub const MOST_LINE_BYTES: usize = 1 << 20;
pub const MOST_LOG_BYTES: usize = 4 << 20;

/// The most characters of a piece of a file in a message.
const MOST_QUOTED: usize = 40;

const BYTE_ORDER_MARK: char = '\u{feff}';

/// The text of a file.
pub struct Text {
    /// The file's name, as messages show it.
    pub file: String,
    /// Without the byte-order mark.
    pub text: String,
    /// Whether there was one.
    pub mark: bool,
    /// What is wrong with the characters, at most one message a line.
    pub faults: BTreeMap<usize, String>,
}

/// A line of a text, without its end.
#[derive(Clone, Copy, PartialEq, Eq, Debug)]
pub struct Row<'t> {
    /// Counted from 1.
    pub number: usize,
    /// The byte of the text at which it starts.
    pub start: usize,
    pub text: &'t str,
}

impl Text {
    /// Reads a file, or standard input for `-`.
    pub fn read(name: &OsStr, input: &mut dyn Read, most: usize) -> Result<Text, Fault> {
        let bytes = read_bytes(name, input, most)?;
        Ok(Text::of_bytes(shown_name(name), &bytes))
    }

    /// A text made here: it has no faults.
    pub fn of_string(file: &str, text: &str) -> Text {
        Text::of_bytes(file.to_string(), text.as_bytes())
    }

    fn of_bytes(file: String, bytes: &[u8]) -> Text {
        let lossy = String::from_utf8_lossy(bytes);
        let (mark, text) = match lossy.strip_prefix(BYTE_ORDER_MARK) {
            Some(rest) => (true, rest.to_string()),
            None => (false, lossy.into_owned()),
        };
        let mut faults = control_faults(&text);
        if let Err(error) = std::str::from_utf8(bytes) {
            faults.append(&mut byte_faults(bytes, error.valid_up_to()));
        }
        Text {
            file,
            text,
            mark,
            faults,
        }
    }

    /// The text with its byte-order mark, as it was read.
    pub fn whole(&self, text: &str) -> String {
        let mark = if self.mark { "\u{feff}" } else { "" };
        format!("{mark}{text}")
    }

    pub fn rows(&self) -> Vec<Row<'_>> {
        rows(&self.text)
    }

    /// The faults of the characters, and the others on lines that have none.
    pub fn with_faults(&self, others: Vec<Fault>) -> Vec<Fault> {
        let own = self.faults.iter();
        let own = own.map(|(line, message)| Fault::at(&self.file, *line, message.as_str()));
        let clean = |fault: &Fault| {
            fault
                .line
                .is_none_or(|line| !self.faults.contains_key(&line))
        };
        let mut faults: Vec<Fault> = own.chain(others.into_iter().filter(clean)).collect();
        // What is about the whole file comes last.
        faults.sort_by_key(|fault| fault.line.unwrap_or(usize::MAX));
        faults
    }
}

/// The bytes of a file, or of standard input for `-`; no more is read than
/// shows that there are too many.
pub fn read_bytes(name: &OsStr, input: &mut dyn Read, most: usize) -> Result<Vec<u8>, Fault> {
    let shown = shown_name(name);
    let system = |error: std::io::Error| Fault::of_file(&shown, error.to_string());
    let mut opened;
    let source: &mut dyn Read = if name == "-" {
        input
    } else {
        opened = File::open(name).map_err(system)?;
        &mut opened
    };
    let mut bytes = Vec::new();
    source
        .take(most as u64 + 1)
        .read_to_end(&mut bytes)
        .map_err(system)?;
    if bytes.len() > most {
        let message = format!(
            "found more than {most} bytes, expected at most {} MiB",
            most >> 20
        );
        return Err(Fault::of_file(&shown, message));
    }
    Ok(bytes)
}

/// A file's name in messages.
pub fn shown_name(name: &OsStr) -> String {
    match name.to_str() {
        Some("-") => "standard input".to_string(),
        _ => visible(&name.to_string_lossy()),
    }
}

/// The lines of a text; each ends with LF, CR LF or CR, or with the text.
fn rows(text: &str) -> Vec<Row<'_>> {
    let mut rows = Vec::new();
    let mut start = 0;
    while let Some(rest) = text.get(start..).filter(|rest| !rest.is_empty()) {
        let length = rest.find(['\n', '\r']).unwrap_or(rest.len());
        let (line, end) = rest.split_at(length);
        rows.push(Row {
            number: rows.len() + 1,
            start,
            text: line,
        });
        start += length + if end.starts_with("\r\n") { 2 } else { 1 };
    }
    rows
}

/// The first control character of each line that has one, tabs left out.
fn control_faults(text: &str) -> BTreeMap<usize, String> {
    let control = |row: &Row| row.text.chars().find(|c| c.is_control() && *c != '\t');
    let found = rows(text)
        .into_iter()
        .filter_map(|row| Some((row.number, control(&row)?)));
    found
        .map(|(line, c)| {
            (
                line,
                format!("found the control character {}, expected text", code(c)),
            )
        })
        .collect()
}

/// The first byte of each line that is no UTF-8.
fn byte_faults(bytes: &[u8], first: usize) -> BTreeMap<usize, String> {
    let mut faults = BTreeMap::new();
    let (mut start, mut number) = (0, 1);
    let utf16 = matches!(bytes, [0xff, 0xfe, ..] | [0xfe, 0xff, ..]);
    let hint = if utf16 {
        " (it looks like UTF-16; save it as UTF-8)"
    } else {
        ""
    };
    while let Some(rest) = bytes.get(start..).filter(|rest| !rest.is_empty()) {
        let length = rest
            .iter()
            .position(|byte| matches!(byte, b'\n' | b'\r'))
            .unwrap_or(rest.len());
        let (line, end) = rest.split_at(length);
        // Before the first wrong byte of the file no line needs to be looked at.
        if start + length >= first {
            if let Some(message) = byte_fault(line, hint) {
                faults.insert(number, message);
            }
        }
        start += length + if end.starts_with(b"\r\n") { 2 } else { 1 };
        number += 1;
    }
    faults
}

fn byte_fault(line: &[u8], hint: &str) -> Option<String> {
    let at = std::str::from_utf8(line).err()?.valid_up_to();
    let byte = line.get(at)?;
    Some(format!(
        "found 0x{byte:02X} at byte {} of the line, expected UTF-8 text{hint}",
        at + 1
    ))
}

/// A character by its code.
pub fn code(character: char) -> String {
    format!("U+{:04X}", u32::from(character))
}

/// Whether a character cannot be seen, or not by itself, as a no-break space.
pub fn invisible(character: char) -> bool {
    // What a debug text escapes, but for the quotation marks and the backslash.
    !matches!(character, '"' | '\'' | '\\') && character.escape_debug().count() > 1
}

/// A text with the characters that cannot be seen by their codes.
pub fn visible(text: &str) -> String {
    let shown = text.chars().map(|c| match invisible(c) {
        true => format!("<{}>", code(c)),
        false => c.to_string(),
    });
    shown.collect()
}

/// A piece of a file in quotation marks, cut where it is long.
pub fn quoted(piece: &str) -> String {
    let cut: String = piece.chars().take(MOST_QUOTED).collect();
    let dots = if cut.len() < piece.len() { "..." } else { "" };
    format!("\"{}{dots}\"", visible(&cut))
}

#[cfg(test)]
mod tests {
    use super::*;

    fn numbered(text: &str) -> Vec<(usize, usize, &str)> {
        rows(text)
            .into_iter()
            .map(|row| (row.number, row.start, row.text))
            .collect()
    }

    #[test]
    fn lines_end_in_three_ways() {
        let expected = [
            (1, 0, "a"),
            (2, 2, "b"),
            (3, 5, ""),
            (4, 6, "c"),
            (5, 8, "d"),
        ];
        assert_eq!(numbered("a\nb\r\n\rc\nd"), expected);
        assert_eq!(numbered(""), []);
        assert_eq!(numbered("a\n"), [(1, 0, "a")]);
    }

    #[test]
    fn bytes_that_are_no_text_are_named_with_their_line() {
        let text = Text::of_bytes("f".into(), b"a\r\ncaf\xe9\nb\x07\x08\n\xff\xfe");
        let faults: Vec<(usize, &str)> =
            text.faults.iter().map(|(k, v)| (*k, v.as_str())).collect();
        assert_eq!(
            faults,
            [
                (2, "found 0xE9 at byte 4 of the line, expected UTF-8 text"),
                (3, "found the control character U+0007, expected text"),
                (4, "found 0xFF at byte 1 of the line, expected UTF-8 text"),
            ]
        );
    }

    #[test]
    fn a_byte_order_mark_is_skipped_and_kept() {
        let text = Text::of_string("f", "\u{feff}a");
        assert_eq!((text.text.as_str(), text.mark), ("a", true));
        assert_eq!(text.whole("b"), "\u{feff}b");
    }

    #[test]
    fn what_cannot_be_seen_is_shown_by_its_code() {
        assert_eq!(quoted("60\u{a0}60"), "\"60<U+00A0>60\"");
        assert_eq!(quoted("a\u{200b}\u{301}é'\""), "\"a<U+200B><U+0301>é'\"\"");
        assert_eq!(quoted(&"x".repeat(50)).len(), 45);
    }
}
