//! The check of a whole file: document 01, "Lines" and "Refusal numbers". The
//! lines are taken in file order and each place has its function.

use crate::decimal::MISSING;
use crate::kinds::{self, Kind, Value};
use crate::lines::{self, Cell, Line};
use crate::profiles::{self, Profile};
use crate::refusal::*;

const MOST_HEADERS: usize = 64;
const MOST_NAMES: usize = 256;
const MOST_DATA_LINES: usize = 1_000_000;
const END_DATA: &[u8] = b"END_DATA";

#[derive(Clone, Copy, Debug, PartialEq, Eq)]
pub enum FileKind {
    Bottle,
    Ctd,
}

impl FileKind {
    pub fn word(self) -> &'static str {
        match self {
            FileKind::Bottle => "BOTTLE",
            FileKind::Ctd => "CTD",
        }
    }
}

/// What stands before the first `=` of a header line, what stands after it,
/// and what the second says.
pub struct Header<'f> {
    pub name: Cell<'f>,
    pub text: Cell<'f>,
    pub value: Value,
}

pub struct Column<'f> {
    pub name: &'f [u8],
    pub kind: Kind,
}

/// A file that the check accepted.
pub struct Exchange<'f> {
    pub kind: FileKind,
    /// A bottle file has none.
    pub headers: Vec<Header<'f>>,
    pub names: Line<'f>,
    pub units: Line<'f>,
    pub columns: Vec<Column<'f>>,
    pub rows: Vec<Line<'f>>,
    pub profiles: Vec<Profile<'f>>,
    /// Row and measured column pairs that read as missing.
    pub missing: usize,
}

pub fn check(file: &[u8]) -> Result<Exchange<'_>, Refusal> {
    let mut places = Places { lines: lines::split(file), taken: 0 };
    let kind = first_line(places.due_line()?)?;
    places.pass_comments()?;
    let headers = match kind {
        FileKind::Bottle => Vec::new(),
        FileKind::Ctd => header_lines(&mut places)?,
    };
    let names = places.due_line()?;
    let columns = names_line(names, kind)?;
    let units = places.due_line()?;
    has_cell_for_each(units, &columns)?;
    let (rows, missing) = data_lines(&mut places, &columns)?;
    places.pass_free_lines()?;
    let profiles = match kind {
        FileKind::Bottle => profiles::of_bottle_file(&columns, &rows),
        FileKind::Ctd => vec![profiles::of_ctd_file(&headers, &rows)],
    };
    Ok(Exchange { kind, headers, names, units, columns, rows, profiles, missing })
}

/// The lines of the file and how many of them have been taken.
struct Places<'f> {
    lines: Vec<Line<'f>>,
    taken: usize,
}

impl<'f> Places<'f> {
    fn next_line(&self) -> Option<Line<'f>> {
        self.lines.get(self.taken).copied()
    }

    /// A line that must be there and meets rules 1 to 5.
    fn due_line(&mut self) -> Result<Line<'f>, Refusal> {
        let Some(line) = self.next_line() else {
            return Err(Refusal { number: LINE_DUE, line: self.lines.len() + 1, column: 1 });
        };
        line.meets_rules_1_to_4()?;
        line.meets_rule_5()?;
        self.taken += 1;
        Ok(line)
    }

    fn pass_comments(&mut self) -> Result<(), Refusal> {
        while let Some(line) = self.next_line().filter(|line| line.bytes.starts_with(b"#")) {
            line.meets_rules_1_to_4()?;
            self.taken += 1;
        }
        Ok(())
    }

    fn pass_free_lines(&mut self) -> Result<(), Refusal> {
        while let Some(line) = self.next_line() {
            line.meets_rules_1_to_4()?;
            self.taken += 1;
        }
        Ok(())
    }
}

/// Line 1: `BOTTLE` or `CTD`, then nothing or a comma and anything.
fn first_line(line: Line) -> Result<FileKind, Refusal> {
    if line.bytes.starts_with(&[0xEF, 0xBB, 0xBF]) {
        return Err(line.refuse(BYTE_ORDER_MARK, 1));
    }
    let before_comma = line.bytes.split(|&byte| byte == b',').next();
    match before_comma {
        Some(b"BOTTLE") => Ok(FileKind::Bottle),
        Some(b"CTD") => Ok(FileKind::Ctd),
        _ => Err(line.refuse(BAD_FIRST_LINE, 1)),
    }
}

/// The header lines of a CTD file; 13 belongs to the last of them.
fn header_lines<'f>(places: &mut Places<'f>) -> Result<Vec<Header<'f>>, Refusal> {
    let mut line = places.due_line()?;
    let number_of_headers = number_headers(line)?;
    let mut headers = vec![header_line(line, &[])?];
    while headers.len() < number_of_headers {
        line = places.due_line()?;
        headers.push(header_line(line, &headers)?);
    }
    let has = |name: &str| headers.iter().any(|header| header.name.trimmed() == name.as_bytes());
    if !kinds::REQUIRED_NAMES.iter().all(|name| has(name)) {
        return Err(line.refuse(REQUIRED_NAME_ABSENT, 1));
    }
    Ok(headers)
}

/// The first header is `NUMBER_HEADERS` with n from 1 to 64 in one or two digits.
fn number_headers(line: Line) -> Result<usize, Refusal> {
    let bad_header = line.refuse(BAD_HEADER, 1);
    let (name, value) = split_header(line).ok_or(bad_header)?;
    let (name, value) = (name.trimmed(), value.trimmed());
    let is_number = (1..=2).contains(&value.len()) && value.iter().all(u8::is_ascii_digit);
    if name != b"NUMBER_HEADERS" || !is_number {
        return Err(bad_header);
    }
    let number = crate::decimal::number_of_digits(value) as usize;
    if !(1..=MOST_HEADERS).contains(&number) {
        return Err(bad_header);
    }
    Ok(number)
}

/// One header line: 8, 9, then 17, 16, 18 of the value.
fn header_line<'f>(line: Line<'f>, earlier: &[Header<'f>]) -> Result<Header<'f>, Refusal> {
    let (name, text) = split_header(line).ok_or(line.refuse(BAD_HEADER, 1))?;
    if !kinds::is_good_header_name(name.trimmed()) {
        return Err(line.refuse(BAD_HEADER, 1));
    }
    if earlier.iter().any(|header| header.name.trimmed() == name.trimmed()) {
        return Err(line.refuse(NAME_REPEATED, 1));
    }
    let value = kinds::judge(kinds::kind_of_header(name.trimmed()), text.trimmed())
        .map_err(|number| line.refuse(number, text.column))?;
    Ok(Header { name, text, value })
}

/// `NAME = value`, split at the first `=`.
fn split_header(line: Line<'_>) -> Option<(Cell<'_>, Cell<'_>)> {
    let equals = line.bytes.iter().position(|&byte| byte == b'=')?;
    Some((line.part(0..equals), line.part(equals + 1..line.bytes.len())))
}

/// Names, cell by cell: 11, 10, 9; then 12 from the left; then 13.
fn names_line<'f>(line: Line<'f>, kind: FileKind) -> Result<Vec<Column<'f>>, Refusal> {
    let mut names: Vec<Cell> = Vec::new();
    for cell in line.cells() {
        let name = cell.trimmed();
        if names.len() == MOST_NAMES {
            return Err(line.refuse(TOO_MANY_NAMES, cell.column));
        }
        if !kinds::is_good_name(name) {
            return Err(line.refuse(BAD_COLUMN_NAME, cell.column));
        }
        if names.iter().any(|earlier| earlier.trimmed() == name) {
            return Err(line.refuse(NAME_REPEATED, cell.column));
        }
        names.push(cell);
    }
    flags_have_parameters(line, &names)?;
    let has = |name: &str| names.iter().any(|cell| cell.trimmed() == name.as_bytes());
    let has_required = match kind {
        FileKind::Bottle => kinds::REQUIRED_NAMES.iter().all(|name| has(name)),
        FileKind::Ctd => has(kinds::PRESSURE_NAME),
    };
    if !has_required {
        return Err(line.refuse(REQUIRED_NAME_ABSENT, 1));
    }
    let column = |name| Column { name, kind: kinds::kind_of_column(name) };
    Ok(names.iter().map(|cell| column(cell.trimmed())).collect())
}

/// What stands before `_FLAG_W` must be another column of the line and no
/// flag column.
fn flags_have_parameters(line: Line, names: &[Cell]) -> Result<(), Refusal> {
    for cell in names {
        let Some(parameter) = kinds::flagged_parameter(cell.trimmed()) else { continue };
        let is_column = names.iter().any(|other| other.trimmed() == parameter);
        let is_flag_column = kinds::flagged_parameter(parameter).is_some();
        if !is_column || is_flag_column {
            return Err(line.refuse(FLAG_WITHOUT_PARAMETER, cell.column));
        }
    }
    Ok(())
}

fn has_cell_for_each(line: Line, columns: &[Column]) -> Result<(), Refusal> {
    if line.cells().count() != columns.len() {
        return Err(line.refuse(WRONG_NUMBER_OF_CELLS, 1));
    }
    Ok(())
}

/// The data lines up to `END_DATA`, and the count of missing readings.
fn data_lines<'f>(
    places: &mut Places<'f>,
    columns: &[Column],
) -> Result<(Vec<Line<'f>>, usize), Refusal> {
    let mut rows = Vec::new();
    let mut missing = 0;
    loop {
        let line = places.due_line()?;
        if line.bytes == END_DATA {
            if rows.is_empty() {
                return Err(line.refuse(NO_DATA_LINE, 1));
            }
            return Ok((rows, missing));
        }
        if rows.len() == MOST_DATA_LINES {
            return Err(line.refuse(TOO_MANY_DATA_LINES, 1));
        }
        has_cell_for_each(line, columns)?;
        missing += judge_row(line, columns)?;
        rows.push(line);
    }
}

/// Judges a row cell by cell and counts its missing readings.
fn judge_row(line: Line, columns: &[Column]) -> Result<usize, Refusal> {
    let mut missing = 0;
    for (cell, column) in line.cells().zip(columns) {
        let value = kinds::judge(column.kind, cell.trimmed())
            .map_err(|number| line.refuse(number, cell.column))?;
        if column.kind == Kind::Measured && value == Value::Millionths(MISSING) {
            missing += 1;
        }
    }
    Ok(missing)
}
