//! What a file says of itself: where its parts start, the column of a name,
//! the names and units of its columns, and the headers of a CTD file. Every
//! call checks the whole file first; then 21 where there is no such column,
//! header or name. Names are compared as they are, with no trimming and no
//! folding of letters.

use crate::calls::index_below;
use crate::check::{check, Column, Exchange, FileKind};
use crate::correct::flag_column_of;
use crate::kinds::Kind;
use crate::lines::{Cell, Line};
use crate::refusal::{Refusal, NO_SUCH_PLACE};
use std::ops::Range;

/// Where the headers, the names line and the first data line start, counted
/// from 0 at the file's start.
pub struct Opened<'f> {
    pub exchange: Exchange<'f>,
    /// The names line's place where there are no headers.
    pub headers: usize,
    pub names: usize,
    pub first: usize,
}

pub fn open(file: &[u8]) -> Result<Opened<'_>, Refusal> {
    let exchange = check(file)?;
    let names = exchange.names.start;
    let headers = exchange.headers.first().map_or(names, |header| header.name.start);
    Ok(Opened { headers, names, first: exchange.rows[0].start, exchange })
}

/// The number of the column of that name.
pub fn column_named(file: &[u8], name: &[u8]) -> Result<usize, Refusal> {
    number_of(&check(file)?, name).ok_or(Refusal::without_place(NO_SUCH_PLACE))
}

fn number_of(exchange: &Exchange, name: &[u8]) -> Option<usize> {
    let index = exchange.columns.iter().position(|column| column.name == name)?;
    Some(index + 1)
}

/// The trimmed cell of a column in the names line.
pub fn name(file: &[u8], column: u64) -> Result<Range<usize>, Refusal> {
    let exchange = check(file)?;
    label(&exchange, exchange.names, column)
}

/// The trimmed cell of a column in the units line.
pub fn unit(file: &[u8], column: u64) -> Result<Range<usize>, Refusal> {
    let exchange = check(file)?;
    label(&exchange, exchange.units, column)
}

fn label(exchange: &Exchange, line: Line, column: u64) -> Result<Range<usize>, Refusal> {
    let index = index_below(column, exchange.columns.len())?;
    let cell = line.cells().nth(index).ok_or(Refusal::without_place(NO_SUCH_PLACE))?;
    Ok(cell.trimmed_range())
}

/// The trimmed name and value of a header; `NUMBER_HEADERS` is header 1.
pub fn header(file: &[u8], k: u64) -> Result<(Range<usize>, Range<usize>), Refusal> {
    let exchange = check(file)?;
    let header = &exchange.headers[index_below(k, exchange.headers.len())?];
    Ok((header.name.trimmed_range(), header.text.trimmed_range()))
}

/// The trimmed value of profile k under a name: of its first row in a bottle
/// file, of the header in a CTD file.
pub fn station(file: &[u8], k: u64, name: &[u8]) -> Result<Range<usize>, Refusal> {
    let exchange = check(file)?;
    let profile = exchange.profiles[index_below(k, exchange.profiles.len())?];
    let value = match exchange.kind {
        FileKind::Bottle => value_in_row(&exchange, profile.first_row, name),
        FileKind::Ctd => value_of_header(&exchange, name),
    };
    value.map(|cell| cell.trimmed_range()).ok_or(Refusal::without_place(NO_SUCH_PLACE))
}

fn value_in_row<'f>(exchange: &Exchange<'f>, row: usize, name: &[u8]) -> Option<Cell<'f>> {
    let column = number_of(exchange, name)?;
    exchange.rows[row - 1].cells().nth(column - 1)
}

fn value_of_header<'f>(exchange: &Exchange<'f>, name: &[u8]) -> Option<Cell<'f>> {
    let header = exchange.headers.iter().find(|header| header.name.trimmed() == name)?;
    Some(header.text)
}

/// The number of a column's kind, and the number of its flag column, 0 where
/// it has none.
pub fn column(file: &[u8], column: u64) -> Result<(u8, u64), Refusal> {
    let exchange = check(file)?;
    let index = index_below(column, exchange.columns.len())?;
    let flag_column = flag_column_of(&exchange, column).unwrap_or(0);
    Ok((kind_number(&exchange.columns[index]), flag_column))
}

/// The product's numbers for the kinds; EXPOCODE and STNNBR have one each.
fn kind_number(column: &Column) -> u8 {
    match column.kind {
        Kind::Measured => 0,
        Kind::Latitude => 1,
        Kind::Longitude => 2,
        Kind::Depth => 3,
        Kind::Flag { of_ctd_parameter: false } => 4,
        Kind::Flag { of_ctd_parameter: true } => 5,
        Kind::Key if column.name == b"EXPOCODE" => 6,
        Kind::Key => 7,
        Kind::CastNumber => 8,
        Kind::Date => 9,
        Kind::Time => 10,
        Kind::FreeText => 11,
    }
}
