//! Columns by their names, names, units and headers handed out, and a whole column in one call.

use super::c::*;
use super::{checked, part, place, refused, Checked, Reading, Refusal};
use std::ops::Range;

/// A file's counts, and where its parts start in it.
#[derive(Clone, Copy, Debug, PartialEq, Eq)]
pub struct Opened {
    pub checked: Checked,
    /// The names line's start where there are no headers, as in a bottle file.
    pub headers: usize,
    pub names: usize,
    /// The first data line.
    pub first: usize,
}

/// A header of a CTD file: parts of the file itself, without the spaces at their ends.
#[derive(Clone, Copy, Debug, PartialEq, Eq)]
pub struct Header<'a> {
    pub name: &'a [u8],
    pub value: &'a [u8],
}

/// The cases that `column_values_into` writes.
pub const PRESENT: u8 = 0;
pub const MISSING: u8 = 1;

/// Checks a file and says where its parts start.
pub fn open(file: &[u8]) -> Result<Opened, Refusal> {
    let mut out = [0; 11];
    unsafe { pochahuic_open(file.as_ptr(), file.len(), &mut out) };
    let [counts @ .., headers, names, first] = out;
    let checked = checked(counts)?;
    let [headers, names, first] = [headers, names, first].map(|start| start as usize);
    Ok(Opened { checked, headers, names, first })
}

/// The number of the column of a name, which is compared as it is; 21 where no column has it.
pub fn column_named(file: &[u8], name: &[u8]) -> Result<u64, Refusal> {
    let mut out = [0; 4];
    unsafe {
        pochahuic_column_named(file.as_ptr(), file.len(), name.as_ptr(), name.len(), &mut out)
    };
    number(out)
}

/// The same for whoever opened the file before: in the names line that starts at `names` (`Opened::names`). This call checks nothing, so it costs next to nothing.
pub fn column_in(file: &[u8], names: usize, name: &[u8]) -> Option<u64> {
    let column =
        unsafe { pochahuic_column_in(file.as_ptr(), file.len(), names, name.as_ptr(), name.len()) };
    (column != 0).then_some(column)
}

fn number(out: [u64; 4]) -> Result<u64, Refusal> {
    let [number, line, column, answer] = out;
    refused(number, line, column)?;
    Ok(answer)
}

/// The name of a column, without the spaces at its ends: a part of the file itself.
pub fn name(file: &[u8], column: u64) -> Result<&[u8], Refusal> {
    Ok(&file[name_place(file, column)?])
}

/// Where that name stands in the file.
pub fn name_place(file: &[u8], column: u64) -> Result<Range<usize>, Refusal> {
    let mut out = [0; 5];
    unsafe { pochahuic_name(file.as_ptr(), file.len(), column, &mut out) };
    place(out)
}

/// The unit of a column, likewise; it may be empty.
pub fn unit(file: &[u8], column: u64) -> Result<&[u8], Refusal> {
    Ok(&file[unit_place(file, column)?])
}

/// Where that unit stands in the file.
pub fn unit_place(file: &[u8], column: u64) -> Result<Range<usize>, Refusal> {
    let mut out = [0; 5];
    unsafe { pochahuic_unit(file.as_ptr(), file.len(), column, &mut out) };
    place(out)
}

/// Header k of a CTD file, NUMBER_HEADERS being header 1; a bottle file has none.
pub fn header(file: &[u8], k: u64) -> Result<Header<'_>, Refusal> {
    let (name, value) = header_place(file, k)?;
    Ok(Header { name: &file[name], value: &file[value] })
}

/// Where the name and the value of that header stand in the file.
pub fn header_place(file: &[u8], k: u64) -> Result<(Range<usize>, Range<usize>), Refusal> {
    let mut out = [0; 7];
    unsafe { pochahuic_header(file.as_ptr(), file.len(), k, &mut out) };
    let [number, line, column, start, length, value_start, value_length] = out;
    refused(number, line, column)?;
    Ok((part(start, length), part(value_start, value_length)))
}

/// No file has more rows than line feeds, so that tables of so many entries are long enough.
fn most_rows(file: &[u8]) -> usize {
    file.iter().filter(|&&byte| byte == b'\n').count()
}

/// The readings of a measured, LATITUDE, LONGITUDE or DEPTH column, row 1 first.
pub fn column_values(file: &[u8], column: u64) -> Result<Vec<Reading>, Refusal> {
    let most = most_rows(file);
    let (mut cases, mut millionths, mut values) = (vec![0; most], vec![0; most], vec![0.0; most]);
    let rows = column_values_into(file, column, &mut cases, &mut millionths, &mut values)?;
    cases.truncate(rows);
    let reading = |((case, millionths), value)| match case {
        PRESENT => Reading::Present { millionths, value },
        _ => Reading::Missing,
    };
    Ok(cases.into_iter().zip(millionths).zip(values).map(reading).collect())
}

/// The same into lent tables: entry r - 1 of each is row r's. Answers the number of rows.
///
/// A case is `PRESENT` or `MISSING`; both numbers of a missing reading are 0. A call that is refused, by 29 too where a table has fewer entries than the file has
/// rows, changes no entry; entries past the rows stay as they are.
pub fn column_values_into(
    file: &[u8],
    column: u64,
    cases: &mut [u8],
    millionths: &mut [i64],
    values: &mut [f64],
) -> Result<usize, Refusal> {
    let mut out = [0; 4];
    unsafe {
        pochahuic_column_values(
            file.as_ptr(),
            file.len(),
            column,
            cases.as_mut_ptr(),
            cases.len(),
            millionths.as_mut_ptr(),
            millionths.len(),
            values.as_mut_ptr(),
            values.len(),
            &mut out,
        )
    };
    number(out).map(|rows| rows as usize)
}

/// The flags of a flag column, which is the column given, row 1 first.
pub fn column_flags(file: &[u8], column: u64) -> Result<Vec<u8>, Refusal> {
    let mut flags = vec![0; most_rows(file)];
    let rows = column_flags_into(file, column, &mut flags)?;
    flags.truncate(rows);
    Ok(flags)
}

/// The same into a lent table, as `column_values_into`.
pub fn column_flags_into(file: &[u8], column: u64, flags: &mut [u8]) -> Result<usize, Refusal> {
    let mut out = [0; 4];
    unsafe {
        pochahuic_column_flags(
            file.as_ptr(),
            file.len(),
            column,
            flags.as_mut_ptr(),
            flags.len(),
            &mut out,
        )
    };
    number(out).map(|rows| rows as usize)
}
