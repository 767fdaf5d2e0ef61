//! The answers of the request protocol, one line each.

use crate::calls::{self, Reading};
use crate::check::{check, Exchange};
use crate::correct::correct;
use crate::crc::crc32;
use crate::kinds::CastTime;
use crate::labels;
use crate::list_line;
use crate::protocol::{read_request, Request, MOST_BYTES_OF_A_REQUEST};
use crate::refusal::Refusal;
use crate::report::report;
use crate::walk::{walk, WalkedCell};
use crate::whole_columns::{column_flags, column_values, Tables};
use std::io::{self, BufRead, Write};
use std::ops::Range;

/// What every entry of a lent table holds before the call.
const BEFORE: u8 = 77;

/// Answers every request of the input.
pub fn answer_all(input: &mut impl BufRead, output: &mut impl Write) -> io::Result<()> {
    while let Some((request, bytes)) = read_request(input)? {
        writeln!(output, "{}", answer(&request, &bytes))?;
    }
    output.flush()
}

/// The answer's line, without its line feed.
pub fn answer(request: &Request, bytes: &[u8]) -> String {
    if bytes.len() + request.name().map_or(0, <[u8]>::len) > MOST_BYTES_OF_A_REQUEST {
        return "too long".to_string();
    }
    let answer = match *request {
        Request::Check => check(bytes).map(|exchange| format!("accepted {}", counts(&exchange))),
        Request::Open => answer_open(bytes),
        Request::Cell { row, column } => say_place("cell", calls::cell(bytes, row, column)),
        Request::Decimal { row, column } => say_reading(calls::decimal(bytes, row, column)),
        Request::Flag { row, column } => say_flag(calls::flag(bytes, row, column)),
        Request::Profile { k } => answer_profile(bytes, k),
        Request::Station { k, ref name } => say_place("station", labels::station(bytes, k, name)),
        Request::Named { ref name } => {
            labels::column_named(bytes, name).map(|column| format!("column {column}"))
        }
        Request::Name { column } => say_place("name", labels::name(bytes, column)),
        Request::Unit { column } => say_place("unit", labels::unit(bytes, column)),
        Request::Header { k } => answer_header(bytes, k),
        Request::Values { column, entries } => return answer_values(bytes, column, entries),
        Request::Flags { column, entries } => return answer_flags(bytes, column, entries),
        Request::Rows { column } => answer_rows(bytes, column),
        Request::Column { column } => labels::column(bytes, column)
            .map(|(kind, flag_column)| format!("column {kind} {flag_column}")),
        Request::Walk => answer_walk(bytes),
        Request::Correct(correction) => correct(bytes, &correction)
            .map(|corrected| format!("applied {:08x}", crc32(&corrected))),
        Request::Line => answer_line(bytes),
        Request::Report => Ok(answer_report(bytes)),
    };
    or_refusal(answer)
}

fn or_refusal(answer: Result<String, Refusal>) -> String {
    answer.unwrap_or_else(|Refusal { number, line, column }| {
        format!("refused {number} {line} {column}")
    })
}

fn counts(exchange: &Exchange) -> String {
    format!(
        "{} {} {} {} {}",
        exchange.kind.word(),
        exchange.columns.len(),
        exchange.rows.len(),
        exchange.profiles.len(),
        exchange.missing
    )
}

fn answer_open(file: &[u8]) -> Result<String, Refusal> {
    let labels::Opened { exchange, headers, names, first } = labels::open(file)?;
    Ok(format!("opened {} {headers} {names} {first}", counts(&exchange)))
}

fn say_place(word: &str, place: Result<Range<usize>, Refusal>) -> Result<String, Refusal> {
    place.map(|range| format!("{word} {} {}", range.start, range.len()))
}

fn say_reading(reading: Result<Reading, Refusal>) -> Result<String, Refusal> {
    Ok(match reading? {
        Reading::Present { millionths, double } => {
            format!("present {millionths} {:016x}", double.to_bits())
        }
        Reading::Missing => "missing".to_string(),
    })
}

fn say_flag(flag: Result<u8, Refusal>) -> Result<String, Refusal> {
    flag.map(|flag| format!("flag {flag}"))
}

fn answer_profile(file: &[u8], k: u64) -> Result<String, Refusal> {
    let profile = calls::profile(file, k)?;
    let time = match profile.time {
        CastTime::Given { hour, minute } => format!("given {hour} {minute}"),
        CastTime::Missing => "missing".to_string(),
    };
    Ok(format!(
        "profile {} {} {} {} {time}",
        profile.first_row, profile.rows, profile.cast_number, profile.date
    ))
}

fn answer_header(file: &[u8], k: u64) -> Result<String, Refusal> {
    let (name, value) = labels::header(file, k)?;
    let (start, length) = (value.start, value.len());
    Ok(format!("header {} {} {start} {length}", name.start, name.len()))
}

/// The tables' bytes one after the other, the numbers little-endian.
fn answer_values(file: &[u8], column: u64, entries: [usize; 3]) -> String {
    let mut tables = Tables {
        cases: vec![BEFORE; entries[0]],
        millionths: vec![BEFORE.into(); entries[1]],
        values: vec![BEFORE.into(); entries[2]],
    };
    let rows = column_values(file, column, &mut tables);
    let mut bytes = tables.cases;
    bytes.extend(tables.millionths.iter().flat_map(|number| number.to_le_bytes()));
    bytes.extend(tables.values.iter().flat_map(|number| number.to_le_bytes()));
    with_crc(rows.map(|rows| format!("values {rows}")), &bytes)
}

fn answer_flags(file: &[u8], column: u64, entries: usize) -> String {
    let mut flags = vec![BEFORE; entries];
    let rows = column_flags(file, column, &mut flags);
    with_crc(rows.map(|rows| format!("flags {rows}")), &flags)
}

/// What the lent tables hold after the call belongs to a refusal too.
fn with_crc(answer: Result<String, Refusal>, tables: &[u8]) -> String {
    format!("{} {:08x}", or_refusal(answer), crc32(tables))
}

/// Row by row, what the single requests for the cell, the decimal and the
/// flag of the column answer.
fn answer_rows(file: &[u8], column: u64) -> Result<String, Refusal> {
    let exchange = check(file)?;
    let mut lines = String::new();
    for row in 1..=exchange.rows.len() as u64 {
        let cell = say_place("cell", calls::cell_of(&exchange, row, column));
        let reading = say_reading(calls::decimal_of(&exchange, row, column));
        let flag = say_flag(calls::flag_of(&exchange, row, column));
        for answer in [cell, reading, flag] {
            lines += &or_refusal(answer);
            lines.push('\n');
        }
    }
    Ok(format!("rows {} {:08x}", exchange.rows.len(), crc32(lines.as_bytes())))
}

/// A line for each cell that the walk hands out.
fn answer_walk(file: &[u8]) -> Result<String, Refusal> {
    let line = |WalkedCell { row, column, part }| {
        format!("{row} {column} {} {}\n", part.start, part.len())
    };
    let lines: Vec<String> = walk(file)?.map(line).collect();
    Ok(format!("walk {} {:08x}", lines.len(), crc32(lines.concat().as_bytes())))
}

fn answer_line(bytes: &[u8]) -> Result<String, Refusal> {
    let line = list_line::read(bytes)?;
    Ok(format!(
        "line {} {} {} {} {} {}",
        line.row, line.name_start, line.name_length, line.millionths, line.decimals, line.flag
    ))
}

fn answer_report(bytes: &[u8]) -> String {
    let printed = report(bytes);
    format!("report {:08x} {}", crc32(&printed), printed.len())
}
