//! A file cell by cell, with one check in all.

use super::c::*;
use super::{part, refused, Refusal};
use std::iter::FusedIterator;

/// A cell, without the spaces at its ends: a part of the file itself.
#[derive(Clone, Copy, Debug, PartialEq, Eq)]
pub struct Cell<'a> {
    pub row: u64,
    pub column: u64,
    pub text: &'a [u8],
}

/// The cells of an accepted file from a place in it on: row by row from the left, each once.
#[derive(Clone, Debug)]
pub struct Walk<'a> {
    file: &'a [u8],
    /// As the C interface left it, standing on the cell that comes next.
    cursor: [u64; 10],
}

/// Checks a file and walks it from its first cell on.
pub fn walk(file: &[u8]) -> Result<Walk<'_>, Refusal> {
    let mut cursor = [0; 10];
    unsafe { pochahuic_walk_open(file.as_ptr(), file.len(), &mut cursor) };
    let [number, line, column, ..] = cursor;
    refused(number, line, column)?;
    Ok(Walk { file, cursor })
}

impl<'a> Iterator for Walk<'a> {
    type Item = Cell<'a>;

    fn next(&mut self) -> Option<Cell<'a>> {
        let [_, _, _, start, length, row, column, ..] = self.cursor;
        if row == 0 {
            return None;
        }
        unsafe { pochahuic_walk_next(self.file.as_ptr(), self.file.len(), &mut self.cursor) };
        Some(Cell { row, column, text: &self.file[part(start, length)] })
    }

    /// The cell it stands on, the rest of its row, and the rows below.
    fn size_hint(&self) -> (usize, Option<usize>) {
        let [.., row, column, _, rows, columns] = self.cursor;
        let left = if row == 0 { 0 } else { 1 + (columns - column) + (rows - row) * columns };
        (left as usize, Some(left as usize))
    }
}

impl ExactSizeIterator for Walk<'_> {}

impl FusedIterator for Walk<'_> {}
