//! A whole column in one call, into tables that the caller lends: entry r - 1
//! is row r's. Refusals in order: the file's, 21, 22, and 29 where a table is
//! shorter than the rows. A refused call changes no entry, and entries past
//! the rows stay as they are.

use crate::calls::{decimal_of, flag_of, Reading};
use crate::check::{check, Exchange};
use crate::refusal::{Refusal, TABLE_TOO_SHORT};

/// The cases of a table of readings.
const PRESENT: u8 = 0;
const MISSING: u8 = 1;

/// The numbers of a reading that is not present are 0.
pub struct Tables {
    pub cases: Vec<u8>,
    pub millionths: Vec<i64>,
    pub values: Vec<f64>,
}

impl Tables {
    fn set(&mut self, index: usize, reading: Reading) {
        let (case, millionths, value) = match reading {
            Reading::Present { millionths, double } => (PRESENT, millionths, double),
            Reading::Missing => (MISSING, 0, 0.0),
        };
        self.cases[index] = case;
        self.millionths[index] = millionths;
        self.values[index] = value;
    }
}

/// The readings of a column; answers the number of rows.
pub fn column_values(file: &[u8], column: u64, tables: &mut Tables) -> Result<usize, Refusal> {
    let readings = of_each_row(&check(file)?, column, decimal_of)?;
    let shortest = tables.cases.len().min(tables.millionths.len()).min(tables.values.len());
    has_room(shortest, readings.len())?;
    for (index, &reading) in readings.iter().enumerate() {
        tables.set(index, reading);
    }
    Ok(readings.len())
}

/// The flags of a flag column; answers the number of rows.
pub fn column_flags(file: &[u8], column: u64, flags: &mut [u8]) -> Result<usize, Refusal> {
    let read = of_each_row(&check(file)?, column, flag_of)?;
    has_room(flags.len(), read.len())?;
    flags[..read.len()].copy_from_slice(&read);
    Ok(read.len())
}

/// Every file has a row, so that 21 and 22 show at the first.
fn of_each_row<T>(
    exchange: &Exchange,
    column: u64,
    read: fn(&Exchange, u64, u64) -> Result<T, Refusal>,
) -> Result<Vec<T>, Refusal> {
    (1..=exchange.rows.len() as u64).map(|row| read(exchange, row, column)).collect()
}

fn has_room(entries: usize, rows: usize) -> Result<(), Refusal> {
    if entries < rows {
        return Err(Refusal::without_place(TABLE_TOO_SHORT));
    }
    Ok(())
}
