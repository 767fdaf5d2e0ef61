//! Pochahuic from Rust: the proved calls of a WHP-Exchange file, over its C interface.
//!
//! Rows, columns, profiles and headers count from 1. Every call on a file but `column_in` checks the whole file first, and answers with the refusal where
//! it is refused; `walk` does so once for all its cells.

use c::*;
use std::fmt;
use std::ops::Range;

mod c;
mod columns;
mod messages;
mod walk;

pub use columns::*;
pub use walk::*;

/// Why and where: line and column are 0 where the refusal has no place in the file.
#[derive(Clone, Copy, Debug, PartialEq, Eq)]
pub struct Refusal {
    pub number: u64,
    pub line: u64,
    pub column: u64,
}

impl Refusal {
    /// What the number says, in one sentence.
    pub fn message(&self) -> &'static str {
        usize::try_from(self.number)
            .ok()
            .and_then(|number| messages::MESSAGES.get(number))
            .copied()
            .unwrap_or("")
    }
}

impl fmt::Display for Refusal {
    fn fmt(&self, to: &mut fmt::Formatter<'_>) -> fmt::Result {
        if self.line != 0 {
            write!(to, "line {}, column {}: ", self.line, self.column)?;
        }
        write!(to, "{} ({})", self.message(), self.number)
    }
}

impl std::error::Error for Refusal {}

/// The first three numbers of an answer: the refusal, if there is one.
fn refused(number: u64, line: u64, column: u64) -> Result<(), Refusal> {
    if number == 0 {
        Ok(())
    } else {
        Err(Refusal { number, line, column })
    }
}

#[derive(Clone, Copy, Debug, PartialEq, Eq)]
pub enum Kind {
    Bottle,
    Ctd,
}

#[derive(Clone, Copy, Debug, PartialEq, Eq)]
pub struct Checked {
    pub kind: Kind,
    pub columns: u64,
    pub rows: u64,
    pub profiles: u64,
    pub missing: u64,
}

/// A missing reading has no number.
#[derive(Clone, Copy, Debug, PartialEq)]
pub enum Reading {
    Present { millionths: i64, value: f64 },
    Missing,
}

#[derive(Clone, Copy, Debug, PartialEq, Eq)]
pub struct Profile {
    pub first: u64,
    pub rows: u64,
    pub castno: u64,
    /// YYYYMMDD
    pub date: u64,
    /// hour and minute, or missing
    pub time: Option<(u64, u64)>,
}

/// One line of a correction list.
#[derive(Clone, Copy, Debug, PartialEq, Eq)]
pub struct Correction<'a> {
    pub row: u64,
    pub name: &'a [u8],
    pub millionths: i64,
    pub decimals: u64,
    pub flag: u64,
}

// Each call below lends a slice by its pointer and length, and arrays and numbers of its own, of the sizes that the C interface writes.

/// Checks a file.
pub fn check(file: &[u8]) -> Result<Checked, Refusal> {
    let mut out = [0; 8];
    unsafe { pochahuic_check(file.as_ptr(), file.len(), &mut out) };
    checked(out)
}

fn checked(out: [u64; 8]) -> Result<Checked, Refusal> {
    let [number, line, column, kind, columns, rows, profiles, missing] = out;
    refused(number, line, column)?;
    let kind = if kind == 2 { Kind::Ctd } else { Kind::Bottle };
    Ok(Checked { kind, columns, rows, profiles, missing })
}

/// A cell, without the spaces at its ends: a part of the file itself.
pub fn cell(file: &[u8], row: u64, column: u64) -> Result<&[u8], Refusal> {
    Ok(&file[cell_place(file, row, column)?])
}

/// Where that cell stands in the file.
pub fn cell_place(file: &[u8], row: u64, column: u64) -> Result<Range<usize>, Refusal> {
    let mut out = [0; 5];
    unsafe { pochahuic_cell(file.as_ptr(), file.len(), row, column, &mut out) };
    place(out)
}

fn place(out: [u64; 5]) -> Result<Range<usize>, Refusal> {
    let [number, line, column, start, length] = out;
    refused(number, line, column)?;
    Ok(part(start, length))
}

fn part(start: u64, length: u64) -> Range<usize> {
    start as usize..(start + length) as usize
}

/// Reads a decimal: a measured, LATITUDE, LONGITUDE or DEPTH column.
pub fn decimal(file: &[u8], row: u64, column: u64) -> Result<Reading, Refusal> {
    let (mut millionths, mut value, mut out) = (0, 0.0, [0; 3]);
    let reading = unsafe {
        pochahuic_decimal(
            file.as_ptr(),
            file.len(),
            row,
            column,
            &mut millionths,
            &mut value,
            &mut out,
        )
    };
    let [number, line, column] = out;
    refused(number, line, column)?;
    Ok(if reading == 0 { Reading::Present { millionths, value } } else { Reading::Missing })
}

/// Reads a flag; the column is the flag column itself.
pub fn flag(file: &[u8], row: u64, column: u64) -> Result<u64, Refusal> {
    let mut out = [0; 4];
    unsafe { pochahuic_flag(file.as_ptr(), file.len(), row, column, &mut out) };
    let [number, line, column, flag] = out;
    refused(number, line, column)?;
    Ok(flag)
}

/// The record of profile k.
pub fn profile(file: &[u8], k: u64) -> Result<Profile, Refusal> {
    let mut out = [0; 10];
    unsafe { pochahuic_profile(file.as_ptr(), file.len(), k, &mut out) };
    let [number, line, column, first, rows, castno, date, given, hour, minute] = out;
    refused(number, line, column)?;
    let time = (given == 1).then_some((hour, minute));
    Ok(Profile { first, rows, castno, date, time })
}

/// The value of profile k under a name, without the spaces at its ends: of the profile's first row, or of a CTD file's header.
pub fn station<'a>(file: &'a [u8], k: u64, name: &[u8]) -> Result<&'a [u8], Refusal> {
    Ok(&file[station_place(file, k, name)?])
}

/// Where that value stands in the file.
pub fn station_place(file: &[u8], k: u64, name: &[u8]) -> Result<Range<usize>, Refusal> {
    let mut out = [0; 5];
    unsafe { pochahuic_station(file.as_ptr(), file.len(), k, name.as_ptr(), name.len(), &mut out) };
    place(out)
}

/// Makes one correction in the file; a refused one changes no byte. The flag is 0 where the column has no flag column.
pub fn correct(
    file: &mut [u8],
    row: u64,
    column: u64,
    millionths: i64,
    decimals: u64,
    flag: u64,
) -> Result<(), Refusal> {
    let mut out = [0; 3];
    unsafe {
        pochahuic_correct(
            file.as_mut_ptr(),
            file.len(),
            row,
            column,
            millionths,
            decimals,
            flag,
            &mut out,
        )
    };
    let [number, line, column] = out;
    refused(number, line, column)
}

/// Reads one line of a correction list, with its line feed.
pub fn read_list_line(line: &[u8]) -> Result<Correction<'_>, Refusal> {
    let (mut millionths, mut out) = (0, [0; 6]);
    unsafe { pochahuic_list_line(line.as_ptr(), line.len(), &mut millionths, &mut out) };
    let [number, row, start, length, decimals, flag] = out;
    refused(number, 0, 0)?;
    let name = &line[start as usize..][..length as usize];
    Ok(Correction { row, name, millionths, decimals, flag })
}
