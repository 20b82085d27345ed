//! Text tables: columns of one width, two spaces between them.

use std::ops::RangeInclusive;

/// On which side a column's cells are aligned.
#[derive(Clone, Copy, PartialEq, Eq)]
pub enum Align {
    Left,
    Right,
    /// Left, and only one space after the column before it.
    Remark,
}

/// A column's heading and alignment.
pub type Column = (&'static str, Align);

/// A table with its heading; no line ends with spaces.
pub fn table(columns: &[Column], rows: &[Vec<String>]) -> String {
    let widths: Vec<usize> = (0..columns.len())
        .map(|index| column_width(columns, rows, index))
        .collect();
    let headings: Vec<String> = columns
        .iter()
        .map(|(heading, _)| heading.to_string())
        .collect();
    let mut text = row(columns, &widths, &headings);
    for cells in rows {
        text.push_str(&row(columns, &widths, cells));
    }
    text
}

/// The columns of a terminal that a text takes: two for a character of the East
/// Asian scripts, which is twice as wide.
fn width(cell: &str) -> usize {
    let wide = |c: char| WIDE.iter().any(|range| range.contains(&c));
    cell.chars().map(|c| 1 + usize::from(wide(c))).sum()
}

/// Hangul, kana, ideographs and full-width forms: what Unicode calls wide.
const WIDE: [RangeInclusive<char>; 7] = [
    '\u{1100}'..='\u{115f}',
    '\u{2e80}'..='\u{303e}',
    '\u{3041}'..='\u{a4cf}',
    '\u{ac00}'..='\u{d7a3}',
    '\u{f900}'..='\u{faff}',
    '\u{ff01}'..='\u{ff60}',
    '\u{20000}'..='\u{3fffd}',
];

fn column_width(columns: &[Column], rows: &[Vec<String>], index: usize) -> usize {
    let heading = columns.get(index).map_or(0, |(heading, _)| width(heading));
    let cells = rows.iter().filter_map(|row| row.get(index));
    cells.map(|cell| width(cell)).fold(heading, usize::max)
}

fn row(columns: &[Column], widths: &[usize], cells: &[String]) -> String {
    let mut text = String::new();
    for (index, ((_, align), (width_wanted, cell))) in
        columns.iter().zip(widths.iter().zip(cells)).enumerate()
    {
        let gap = match (index, align) {
            (0, _) => "",
            (_, Align::Remark) => " ",
            _ => "  ",
        };
        let padding = " ".repeat(width_wanted.saturating_sub(width(cell)));
        let padded = match align {
            Align::Right => padding + cell,
            Align::Left | Align::Remark => cell.clone() + &padding,
        };
        text.push_str(gap);
        text.push_str(&padded);
    }
    text.truncate(text.trim_end().len());
    text.push('\n');
    text
}

#[cfg(test)]
mod tests {
    use super::*;

    #[test]
    fn columns_are_aligned() {
        let columns = [
            ("node", Align::Left),
            ("wait", Align::Right),
            ("", Align::Remark),
        ];
        let rows = [["fan", "12.5 ms", ""], ["Öfen", "-", "over"]];
        let rows = rows.map(|row| row.map(String::from).to_vec());
        assert_eq!(
            table(&columns, &rows),
            "node     wait\nfan   12.5 ms\nÖfen        - over\n"
        );
    }

    #[test]
    fn wide_characters_take_two_columns() {
        let rows = [["乾燥機", "1"], ["ｱ", "2"], ["сушилка", "3"]];
        let rows = rows.map(|row| row.map(String::from).to_vec());
        assert_eq!(
            table(&[("node", Align::Left), ("n", Align::Right)], &rows),
            "node     n\n乾燥機   1\nｱ        2\nсушилка  3\n"
        );
    }

    #[test]
    fn a_table_without_rows_has_its_heading() {
        assert_eq!(
            table(&[("a", Align::Left), ("b", Align::Right)], &[]),
            "a  b\n"
        );
    }
}
