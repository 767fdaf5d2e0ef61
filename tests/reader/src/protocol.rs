//! The request protocol: a header line, then the request's blocks, each of
//! them raw bytes and a line feed; one line for each answer. The last numbers
//! of the header line are the lengths of the blocks.

use crate::correct::Correction;
use std::io::{self, BufRead, Write};

/// Requests with more bytes in their blocks are answered `too long`.
pub const MOST_BYTES_OF_A_REQUEST: usize = 131_072;

/// The most entries of a lent table.
pub const MOST_ENTRIES: usize = 4_096;

/// A call and what it asks for, but for the file or the list line, which is
/// its first block. A name is the second one.
#[derive(Clone, Debug, PartialEq, Eq)]
pub enum Request {
    Check,
    Open,
    Cell { row: u64, column: u64 },
    Decimal { row: u64, column: u64 },
    Flag { row: u64, column: u64 },
    Profile { k: u64 },
    Station { k: u64, name: Vec<u8> },
    Named { name: Vec<u8> },
    Name { column: u64 },
    Unit { column: u64 },
    Header { k: u64 },
    Values { column: u64, entries: [usize; 3] },
    Flags { column: u64, entries: usize },
    Rows { column: u64 },
    Column { column: u64 },
    Walk,
    Correct(Correction),
    Line,
    Report,
}

impl Request {
    /// Of the first word of the header line, its numbers but for the lengths,
    /// and the second block, which is empty where there is none.
    fn new(call: &str, numbers: &[i128], name: Vec<u8>) -> Option<Request> {
        let unsigned = |index: usize| u64::try_from(*numbers.get(index)?).ok();
        let entries = |index: usize| {
            let number = usize::try_from(*numbers.get(index)?).ok()?;
            (number <= MOST_ENTRIES).then_some(number)
        };
        let (request, count) = match call {
            "check" => (Request::Check, 0),
            "open" => (Request::Open, 0),
            "cell" => (Request::Cell { row: unsigned(0)?, column: unsigned(1)? }, 2),
            "decimal" => (Request::Decimal { row: unsigned(0)?, column: unsigned(1)? }, 2),
            "flag" => (Request::Flag { row: unsigned(0)?, column: unsigned(1)? }, 2),
            "profile" => (Request::Profile { k: unsigned(0)? }, 1),
            "station" => (Request::Station { k: unsigned(0)?, name }, 1),
            "named" => (Request::Named { name }, 0),
            "name" => (Request::Name { column: unsigned(0)? }, 1),
            "unit" => (Request::Unit { column: unsigned(0)? }, 1),
            "header" => (Request::Header { k: unsigned(0)? }, 1),
            "values" => {
                let entries = [entries(1)?, entries(2)?, entries(3)?];
                (Request::Values { column: unsigned(0)?, entries }, 4)
            }
            "flags" => (Request::Flags { column: unsigned(0)?, entries: entries(1)? }, 2),
            "rows" => (Request::Rows { column: unsigned(0)? }, 1),
            "column" => (Request::Column { column: unsigned(0)? }, 1),
            "walk" => (Request::Walk, 0),
            "correct" => (Request::Correct(parse_correction(numbers)?), 5),
            "line" => (Request::Line, 0),
            "report" => (Request::Report, 0),
            _ => return None,
        };
        (numbers.len() == count).then_some(request)
    }

    /// The header line, without its line feed, of the request on a first block
    /// of that length.
    pub fn header(&self, length: usize) -> String {
        match self {
            Request::Check => format!("check {length}"),
            Request::Open => format!("open {length}"),
            Request::Cell { row, column } => format!("cell {row} {column} {length}"),
            Request::Decimal { row, column } => format!("decimal {row} {column} {length}"),
            Request::Flag { row, column } => format!("flag {row} {column} {length}"),
            Request::Profile { k } => format!("profile {k} {length}"),
            Request::Station { k, name } => format!("station {k} {length} {}", name.len()),
            Request::Named { name } => format!("named {length} {}", name.len()),
            Request::Name { column } => format!("name {column} {length}"),
            Request::Unit { column } => format!("unit {column} {length}"),
            Request::Header { k } => format!("header {k} {length}"),
            Request::Values { column, entries: [cases, millionths, values] } => {
                format!("values {column} {cases} {millionths} {values} {length}")
            }
            Request::Flags { column, entries } => format!("flags {column} {entries} {length}"),
            Request::Rows { column } => format!("rows {column} {length}"),
            Request::Column { column } => format!("column {column} {length}"),
            Request::Walk => format!("walk {length}"),
            Request::Correct(Correction { row, column, millionths, decimals, flag }) => {
                format!("correct {row} {column} {millionths} {decimals} {flag} {length}")
            }
            Request::Line => format!("line {length}"),
            Request::Report => format!("report {length}"),
        }
    }

    /// The second block, where the request has one.
    pub fn name(&self) -> Option<&[u8]> {
        match self {
            Request::Station { name, .. } | Request::Named { name } => Some(name),
            _ => None,
        }
    }
}

fn parse_correction(numbers: &[i128]) -> Option<Correction> {
    let &[row, column, millionths, decimals, flag] = numbers else { return None };
    Some(Correction {
        row: row.try_into().ok()?,
        column: column.try_into().ok()?,
        millionths: millionths.try_into().ok()?,
        decimals: decimals.try_into().ok()?,
        flag: flag.try_into().ok()?,
    })
}

/// The next request and its first block, or nothing at the end of the input.
pub fn read_request(input: &mut impl BufRead) -> io::Result<Option<(Request, Vec<u8>)>> {
    let mut header = String::new();
    if input.read_line(&mut header)? == 0 {
        return Ok(None);
    }
    let malformed = || io::Error::new(io::ErrorKind::InvalidData, format!("bad request: {header}"));
    let mut words = header.trim_end_matches('\n').split(' ');
    let call = words.next().unwrap_or_default();
    let numbers: Option<Vec<i128>> = words.map(|word| word.parse().ok()).collect();
    let mut numbers = numbers.ok_or_else(malformed)?;
    let name = match call {
        "station" | "named" => Some(numbers.pop().ok_or_else(malformed)?),
        _ => None,
    };
    let length = numbers.pop().ok_or_else(malformed)?;
    let bytes = read_block(input, length)?.ok_or_else(malformed)?;
    let name = match name {
        Some(length) => read_block(input, length)?.ok_or_else(malformed)?,
        None => Vec::new(),
    };
    let request = Request::new(call, &numbers, name).ok_or_else(malformed)?;
    Ok(Some((request, bytes)))
}

/// Nothing where the length is none or no line feed stands after the block.
fn read_block(input: &mut impl BufRead, length: i128) -> io::Result<Option<Vec<u8>>> {
    let Ok(length) = usize::try_from(length) else { return Ok(None) };
    let mut bytes = vec![0; length + 1];
    input.read_exact(&mut bytes)?;
    Ok((bytes.pop() == Some(b'\n')).then_some(bytes))
}

pub fn write_request(output: &mut impl Write, request: &Request, bytes: &[u8]) -> io::Result<()> {
    writeln!(output, "{}", request.header(bytes.len()))?;
    for block in [Some(bytes), request.name()].into_iter().flatten() {
        output.write_all(block)?;
        output.write_all(b"\n")?;
    }
    Ok(())
}
