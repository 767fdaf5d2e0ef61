//! Document 01, "Lines": a file is cut into lines, a line into cells, and a
//! cell is trimmed. The rules that belong to no place (1 to 5) stand here too.

use crate::refusal::*;
use std::ops::Range;

pub const MOST_BYTES_OF_A_LINE: usize = 8_192;

const LINE_FEED: u8 = 0x0A;

#[derive(Clone, Copy)]
pub struct Line<'f> {
    /// Counted from 1.
    pub number: usize,
    /// Where its first byte stands in the file, counted from 0.
    pub start: usize,
    /// The bytes up to the line feed.
    pub bytes: &'f [u8],
    pub has_line_feed: bool,
}

/// What stands between two commas of a line, or on one side of a header's `=`,
/// spaces included.
#[derive(Clone, Copy)]
pub struct Cell<'f> {
    /// Where its first byte stands in the file, counted from 0.
    pub start: usize,
    /// The byte column of its first byte, counted from 1: "starts count
    /// leading spaces".
    pub column: usize,
    pub bytes: &'f [u8],
}

/// A file that ends with a line feed has no further line; an empty file has
/// no line at all.
pub fn split(file: &[u8]) -> Vec<Line<'_>> {
    let mut lines = Vec::new();
    let mut start = 0;
    for piece in file.split_inclusive(|&byte| byte == LINE_FEED) {
        let (bytes, has_line_feed) = match piece {
            [bytes @ .., LINE_FEED] => (bytes, true),
            bytes => (bytes, false),
        };
        lines.push(Line { number: lines.len() + 1, start, bytes, has_line_feed });
        start += piece.len();
    }
    lines
}

impl<'f> Line<'f> {
    pub fn refuse(&self, number: u8, column: usize) -> Refusal {
        Refusal { number, line: self.number, column }
    }

    pub fn cells(self) -> impl Iterator<Item = Cell<'f>> {
        let mut offset = 0;
        self.bytes.split(|&byte| byte == b',').map(move |bytes| {
            let cell = self.part(offset..offset + bytes.len());
            offset += bytes.len() + 1;
            cell
        })
    }

    pub fn part(self, range: Range<usize>) -> Cell<'f> {
        let Range { start, .. } = range;
        Cell { start: self.start + start, column: start + 1, bytes: &self.bytes[range] }
    }

    /// The rules every line meets. The lowest number wins, not the leftmost byte.
    pub fn meets_rules_1_to_4(&self) -> Result<(), Refusal> {
        if self.bytes.len() > MOST_BYTES_OF_A_LINE {
            return Err(self.refuse(LINE_TOO_LONG, MOST_BYTES_OF_A_LINE + 1));
        }
        if !self.has_line_feed {
            return Err(self.refuse(NO_LINE_FEED, self.bytes.len() + 1));
        }
        if let Err(error) = std::str::from_utf8(self.bytes) {
            return Err(self.refuse(ILL_FORMED_UTF8, error.valid_up_to() + 1));
        }
        self.has_no_byte(CARRIAGE_RETURN, |byte| byte == 0x0D)
    }

    /// Rule 5, for lines that are neither comments nor after `END_DATA`.
    pub fn meets_rule_5(&self) -> Result<(), Refusal> {
        self.has_no_byte(CONTROL_BYTE, |byte| byte < 0x20 || byte == 0x7F)
    }

    fn has_no_byte(&self, number: u8, forbidden: impl Fn(u8) -> bool) -> Result<(), Refusal> {
        match self.bytes.iter().position(|&byte| forbidden(byte)) {
            Some(offset) => Err(self.refuse(number, offset + 1)),
            None => Ok(()),
        }
    }
}

impl<'f> Cell<'f> {
    pub fn trimmed(&self) -> &'f [u8] {
        trim(self.bytes)
    }

    /// The trimmed part, counted from 0 at the file's start.
    pub fn trimmed_range(&self) -> Range<usize> {
        let inner = range_without_spaces(self.bytes);
        self.start + inner.start..self.start + inner.end
    }
}

/// Only spaces (20) at both ends have no meaning.
pub fn trim(part: &[u8]) -> &[u8] {
    &part[range_without_spaces(part)]
}

/// "A trimmed cell that is all spaces is the empty part at the cell's start."
fn range_without_spaces(part: &[u8]) -> Range<usize> {
    let first = part.iter().position(|&byte| byte != b' ');
    let last = part.iter().rposition(|&byte| byte != b' ');
    match (first, last) {
        (Some(first), Some(last)) => first..last + 1,
        _ => 0..0,
    }
}
