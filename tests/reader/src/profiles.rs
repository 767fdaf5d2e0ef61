//! Document 01, "Profiles".

use crate::check::{Column, Header};
use crate::kinds::{self, CastTime, Value};
use crate::lines::Line;

#[derive(Clone, Copy)]
pub struct Profile<'f> {
    /// Counted from 1.
    pub first_row: usize,
    pub rows: usize,
    pub expocode: &'f [u8],
    pub station: &'f [u8],
    pub cast_number: u32,
    pub date: u32,
    pub time: CastTime,
}

/// A profile of a bottle file is a longest run of consecutive rows with equal
/// EXPOCODE, equal STNNBR and equal CASTNO; its record is from its first row.
pub fn of_bottle_file<'f>(columns: &[Column], rows: &[Line<'f>]) -> Vec<Profile<'f>> {
    let mut profiles: Vec<Profile> = Vec::new();
    for (index, &row) in rows.iter().enumerate() {
        let alone = profile_of_row(columns, row, index + 1);
        match profiles.last_mut() {
            Some(last) if have_equal_keys(last, &alone) => last.rows += 1,
            _ => profiles.push(alone),
        }
    }
    profiles
}

/// A CTD file is one profile; what it says comes from the headers, even if a
/// column has that name.
pub fn of_ctd_file<'f>(headers: &[Header<'f>], rows: &[Line]) -> Profile<'f> {
    let mut profile = blank_profile(1, rows.len());
    for header in headers {
        take(&mut profile, header.name.trimmed(), header.text.trimmed(), header.value);
    }
    profile
}

fn profile_of_row<'f>(columns: &[Column], row: Line<'f>, number: usize) -> Profile<'f> {
    let mut profile = blank_profile(number, 1);
    for (cell, column) in row.cells().zip(columns) {
        if !is_in_record(column.name) {
            continue;
        }
        let text = cell.trimmed();
        if let Ok(value) = kinds::judge(column.kind, text) {
            take(&mut profile, column.name, text, value);
        }
    }
    profile
}

fn is_in_record(name: &[u8]) -> bool {
    matches!(name, b"EXPOCODE" | b"STNNBR" | b"CASTNO" | b"DATE" | b"TIME")
}

/// Keys compare by their trimmed bytes, CASTNO as a number.
fn have_equal_keys(one: &Profile, other: &Profile) -> bool {
    one.expocode == other.expocode
        && one.station == other.station
        && one.cast_number == other.cast_number
}

/// The time is missing too where there is no TIME.
fn blank_profile<'f>(first_row: usize, rows: usize) -> Profile<'f> {
    Profile {
        first_row,
        rows,
        expocode: b"",
        station: b"",
        cast_number: 0,
        date: 0,
        time: CastTime::Missing,
    }
}

fn take<'f>(profile: &mut Profile<'f>, name: &[u8], text: &'f [u8], value: Value) {
    match (name, value) {
        (b"EXPOCODE", _) => profile.expocode = text,
        (b"STNNBR", _) => profile.station = text,
        (_, Value::CastNumber(number)) => profile.cast_number = number,
        (_, Value::Date(date)) => profile.date = date,
        (_, Value::Time(time)) => profile.time = time,
        _ => {}
    }
}
