//! The reading calls: a cell, a decimal, a flag, a profile. Every call checks
//! the whole file first; a refused file wins over everything, then 21, then 22.

use crate::check::{check, Exchange};
use crate::decimal::{self, MISSING};
use crate::kinds::{self, Kind, Value};
use crate::lines::Cell;
use crate::profiles::Profile;
use crate::refusal::*;
use std::ops::Range;

#[derive(Clone, Copy, Debug, PartialEq)]
pub enum Reading {
    Present { millionths: i64, double: f64 },
    Missing,
}

/// The trimmed part of any cell of the data lines, counted from 0 at the
/// file's start.
pub fn cell(file: &[u8], row: u64, column: u64) -> Result<Range<usize>, Refusal> {
    cell_of(&check(file)?, row, column)
}

/// The same in a file that was checked.
pub fn cell_of(exchange: &Exchange, row: u64, column: u64) -> Result<Range<usize>, Refusal> {
    let (cell, _) = find_cell(exchange, row, column)?;
    Ok(cell.trimmed_range())
}

/// Reads a measured, LATITUDE, LONGITUDE or DEPTH column.
pub fn decimal(file: &[u8], row: u64, column: u64) -> Result<Reading, Refusal> {
    decimal_of(&check(file)?, row, column)
}

/// The same in a file that was checked.
pub fn decimal_of(exchange: &Exchange, row: u64, column: u64) -> Result<Reading, Refusal> {
    let (cell, kind) = find_cell(exchange, row, column)?;
    match kinds::judge(kind, cell.trimmed()) {
        Ok(Value::Millionths(MISSING)) => Ok(Reading::Missing),
        Ok(Value::Millionths(millionths)) => {
            Ok(Reading::Present { millionths, double: decimal::double(millionths) })
        }
        _ => Err(Refusal::without_place(COLUMN_OF_OTHER_KIND)),
    }
}

/// Reads the flag column itself.
pub fn flag(file: &[u8], row: u64, column: u64) -> Result<u8, Refusal> {
    flag_of(&check(file)?, row, column)
}

/// The same in a file that was checked.
pub fn flag_of(exchange: &Exchange, row: u64, column: u64) -> Result<u8, Refusal> {
    let (cell, kind) = find_cell(exchange, row, column)?;
    match kinds::judge(kind, cell.trimmed()) {
        Ok(Value::Flag(flag)) => Ok(flag),
        _ => Err(Refusal::without_place(COLUMN_OF_OTHER_KIND)),
    }
}

/// Gives profile k.
pub fn profile(file: &[u8], k: u64) -> Result<Profile<'_>, Refusal> {
    let exchange = check(file)?;
    let index = index_below(k, exchange.profiles.len())?;
    Ok(exchange.profiles[index])
}

/// The cell at a row and column, and the kind of its column.
pub fn find_cell<'f>(
    exchange: &Exchange<'f>,
    row: u64,
    column: u64,
) -> Result<(Cell<'f>, Kind), Refusal> {
    let row = index_below(row, exchange.rows.len())?;
    let column = index_below(column, exchange.columns.len())?;
    let cell = exchange.rows[row].cells().nth(column);
    let cell = cell.ok_or(Refusal::without_place(NO_SUCH_PLACE))?;
    Ok((cell, exchange.columns[column].kind))
}

/// Rows, columns, profiles and headers count from 1.
pub fn index_below(number: u64, count: usize) -> Result<usize, Refusal> {
    if (1..=count as u64).contains(&number) {
        Ok((number - 1) as usize)
    } else {
        Err(Refusal::without_place(NO_SUCH_PLACE))
    }
}
