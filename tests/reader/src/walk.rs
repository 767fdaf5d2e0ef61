//! Document 02, request [13]: a file walked cell by cell. It is checked once,
//! when the walk is opened; a refused file gives its refusal and no cell.

use crate::check::check;
use crate::lines::{Cell, Line};
use crate::refusal::Refusal;
use std::ops::Range;

/// A cell with its row and column, counted from 1.
#[derive(Clone, Debug, PartialEq, Eq)]
pub struct WalkedCell {
    pub row: usize,
    pub column: usize,
    /// The trimmed part, counted from 0 at the file's start; of a blank cell
    /// the empty part at its first byte.
    pub part: Range<usize>,
}

/// "The cells are exactly those of single calls, row by row from the left,
/// each once": all cells of the data lines, and of no other line.
pub fn walk(file: &[u8]) -> Result<impl Iterator<Item = WalkedCell> + '_, Refusal> {
    let rows = (1..).zip(check(file)?.rows);
    Ok(rows.flat_map(|(row, line)| cells_of_row(row, line)))
}

fn cells_of_row(row: usize, line: Line<'_>) -> impl Iterator<Item = WalkedCell> + '_ {
    let walked =
        move |(column, cell): (usize, Cell)| WalkedCell { row, column, part: cell.trimmed_range() };
    (1..).zip(line.cells()).map(walked)
}
