//! Document 01, "A correction".

use crate::calls::find_cell;
use crate::check::{check, Exchange};
use crate::decimal;
use crate::kinds::{flag_is_in_set, flagged_parameter, Kind};
use crate::lines::Cell;
use crate::refusal::*;

#[derive(Clone, Copy, Debug, PartialEq, Eq)]
pub struct Correction {
    pub row: u64,
    pub column: u64,
    pub millionths: i64,
    pub decimals: u64,
    pub flag: u64,
}

/// The whole file after the correction, or its refusal: those of the file,
/// then 21 to 25 in number order.
pub fn correct(file: &[u8], correction: &Correction) -> Result<Vec<u8>, Refusal> {
    let exchange = check(file)?;
    let (value_cell, kind) = find_cell(&exchange, correction.row, correction.column)?;
    if kind != Kind::Measured {
        return Err(Refusal::without_place(COLUMN_OF_OTHER_KIND));
    }
    let text = decimal::write(correction.millionths, correction.decimals)
        .ok_or(Refusal::without_place(VALUE_NOT_WRITABLE))?;
    let flag_cell = find_flag_cell(&exchange, correction)?;
    if !flag_fits(flag_cell, correction.flag) {
        return Err(Refusal::without_place(FLAG_NOT_IN_SET));
    }
    if text.len() > value_cell.bytes.len() {
        return Err(Refusal::without_place(TEXT_TOO_LONG));
    }
    let mut corrected = file.to_vec();
    set_at_right(&mut corrected, value_cell, text.as_bytes());
    if let Some((cell, _)) = flag_cell {
        set_at_right(&mut corrected, cell, correction.flag.to_string().as_bytes());
    }
    Ok(corrected)
}

/// The column that holds the flags of a column, counted from 1.
pub fn flag_column_of(exchange: &Exchange, column: u64) -> Option<u64> {
    let parameter = exchange.columns.get(column.checked_sub(1)? as usize)?.name;
    let is_its_flag = |name| flagged_parameter(name) == Some(parameter);
    let index = exchange.columns.iter().position(|other| is_its_flag(other.name))?;
    Some(index as u64 + 1)
}

fn find_flag_cell<'f>(
    exchange: &Exchange<'f>,
    correction: &Correction,
) -> Result<Option<(Cell<'f>, Kind)>, Refusal> {
    match flag_column_of(exchange, correction.column) {
        Some(column) => find_cell(exchange, correction.row, column).map(Some),
        None => Ok(None),
    }
}

/// In the set, or 0 where there is no flag column.
fn flag_fits(flag_cell: Option<(Cell, Kind)>, flag: u64) -> bool {
    match flag_cell {
        Some((_, Kind::Flag { of_ctd_parameter })) => flag_is_in_set(flag, of_ctd_parameter),
        _ => flag == 0,
    }
}

/// The text ends at the cell's last byte; every other byte becomes a space.
fn set_at_right(file: &mut [u8], cell: Cell, text: &[u8]) {
    let end = cell.start + cell.bytes.len();
    file[cell.start..end].fill(b' ');
    file[end - text.len()..end].copy_from_slice(text);
}
