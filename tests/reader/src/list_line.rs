//! One line of a correction list: document 01, end of "A correction".

use crate::decimal;
use crate::kinds::is_good_name;
use crate::refusal::{Refusal, MALFORMED_LIST_LINE};

#[derive(Clone, Copy, Debug, PartialEq, Eq)]
pub struct ListLine {
    pub row: u64,
    /// Counted from 0 at the line's start.
    pub name_start: usize,
    pub name_length: usize,
    pub millionths: i64,
    pub decimals: usize,
    pub flag: u8,
}

/// Exactly one line with its line feed; anything else is 26.
pub fn read(line: &[u8]) -> Result<ListLine, Refusal> {
    read_fields(line).ok_or(Refusal::without_place(MALFORMED_LIST_LINE))
}

/// Row, column name, decimal, flag digit, parted by single tabs, no spaces,
/// ended by one line feed.
fn read_fields(line: &[u8]) -> Option<ListLine> {
    let fields: Vec<&[u8]> = line.strip_suffix(b"\n")?.split(|&byte| byte == b'\t').collect();
    let [row, name, value, flag] = fields[..] else { return None };
    if !is_good_name(name) {
        return None;
    }
    let decimal = decimal::read(value)?;
    Some(ListLine {
        row: read_row(row)?,
        name_start: row.len() + 1,
        name_length: name.len(),
        millionths: decimal.millionths,
        decimals: decimal.decimals,
        flag: read_flag(flag)?,
    })
}

/// 1 to 7 digits, the first not 0.
fn read_row(text: &[u8]) -> Option<u64> {
    let is_row = (1..=7).contains(&text.len()) && decimal::is_digits(text) && text[0] != b'0';
    is_row.then(|| decimal::number_of_digits(text) as u64)
}

/// A flag digit, 0 to 9.
fn read_flag(text: &[u8]) -> Option<u8> {
    match text {
        [digit @ b'0'..=b'9'] => Some(digit - b'0'),
        _ => None,
    }
}
