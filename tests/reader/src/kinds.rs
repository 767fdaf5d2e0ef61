//! Document 01, "The catalogue": the names, their kinds, and what a trimmed
//! text of each kind must look like.

use crate::decimal::{self, is_digits, number_of_digits};
use crate::refusal::{BLANK, NOT_OF_ITS_KIND, OUT_OF_RANGE};

pub const STATION_NAMES: [&str; 12] = [
    "BTLNBR", "CASTNO", "DATE", "DEPTH", "EXPOCODE", "LATITUDE", "LONGITUDE", "SAMPNO", "SECT",
    "SECT_ID", "STNNBR", "TIME",
];

pub const MEASURED_NAMES: [&str; 36] = [
    "ALKALI", "CCL4", "CFC-11", "CFC-12", "CFC113", "CTDCT", "CTDOXY", "CTDPRS", "CTDRAW",
    "CTDSAL", "CTDTMP", "DELC13", "DELC14", "DELHE3", "DELHER", "DNSSAL", "HELIER", "HELIUM",
    "NITRAT", "NITRIT", "NO2+NO3", "O18O16", "OXYGEN", "PCO2", "PCO2TMP", "PH", "PHSPHT", "REFTMP",
    "REVPRS", "REVTMP", "SALNTY", "SILCAT", "TCARBN", "THETA", "TRITER", "TRITUM",
];

/// Required as columns of a bottle file or headers of a CTD file.
pub const REQUIRED_NAMES: [&str; 6] =
    ["EXPOCODE", "STNNBR", "CASTNO", "DATE", "LATITUDE", "LONGITUDE"];

/// Required as a column of a CTD file.
pub const PRESSURE_NAME: &str = "CTDPRS";

pub const FLAG_ENDING: &[u8] = b"_FLAG_W";

#[derive(Clone, Copy, Debug, PartialEq, Eq)]
pub enum Kind {
    Key,
    CastNumber,
    Date,
    Time,
    Latitude,
    Longitude,
    Depth,
    Measured,
    Flag { of_ctd_parameter: bool },
    FreeText,
}

/// A profile's cast time, either given or missing.
#[derive(Clone, Copy, Debug, PartialEq, Eq)]
pub enum CastTime {
    Given { hour: u32, minute: u32 },
    Missing,
}

/// What a text says once it is found to be of its kind.
#[derive(Clone, Copy, Debug, PartialEq, Eq)]
pub enum Value {
    Text,
    CastNumber(u32),
    Date(u32),
    Time(CastTime),
    Millionths(i64),
    Flag(u8),
}

/// The name before `_FLAG_W`, if the name is that of a flag column.
pub fn flagged_parameter(name: &[u8]) -> Option<&[u8]> {
    name.strip_suffix(FLAG_ENDING).filter(|parameter| !parameter.is_empty())
}

pub fn kind_of_column(name: &[u8]) -> Kind {
    match flagged_parameter(name) {
        Some(parameter) => Kind::Flag { of_ctd_parameter: parameter.starts_with(b"CTD") },
        None if is_measured(name) => Kind::Measured,
        None => kind_of_station_name(name),
    }
}

/// Only the station names are judged in headers; the rest are free.
pub fn kind_of_header(name: &[u8]) -> Kind {
    kind_of_station_name(name)
}

fn is_measured(name: &[u8]) -> bool {
    MEASURED_NAMES.iter().any(|measured| measured.as_bytes() == name)
}

fn kind_of_station_name(name: &[u8]) -> Kind {
    match name {
        b"EXPOCODE" | b"STNNBR" => Kind::Key,
        b"CASTNO" => Kind::CastNumber,
        b"DATE" => Kind::Date,
        b"TIME" => Kind::Time,
        b"LATITUDE" => Kind::Latitude,
        b"LONGITUDE" => Kind::Longitude,
        b"DEPTH" => Kind::Depth,
        _ => Kind::FreeText,
    }
}

/// Judges a trimmed text: 17, then 16, then 18. Free text may be blank.
pub fn judge(kind: Kind, text: &[u8]) -> Result<Value, u8> {
    if kind == Kind::FreeText {
        return Ok(Value::Text);
    }
    if text.is_empty() {
        return Err(BLANK);
    }
    match kind {
        Kind::Key => judge_key(text),
        Kind::CastNumber => judge_cast_number(text),
        Kind::Date => judge_date(text),
        Kind::Time => judge_time(text),
        Kind::Latitude => judge_decimal_within(text, 90),
        Kind::Longitude => judge_decimal_within(text, 180),
        Kind::Depth | Kind::Measured => judge_decimal(text),
        Kind::Flag { of_ctd_parameter } => judge_flag(text, of_ctd_parameter),
        Kind::FreeText => Ok(Value::Text),
    }
}

/// Key text: no inner space, comma or `/`.
fn judge_key(text: &[u8]) -> Result<Value, u8> {
    if text.iter().any(|byte| b" ,/".contains(byte)) {
        return Err(NOT_OF_ITS_KIND);
    }
    Ok(Value::Text)
}

/// CASTNO: 1 to 9 digits, range 0 to 999.
fn judge_cast_number(text: &[u8]) -> Result<Value, u8> {
    if text.len() > 9 || !is_digits(text) {
        return Err(NOT_OF_ITS_KIND);
    }
    let number = number_of_digits(text) as u32;
    if number > 999 {
        return Err(OUT_OF_RANGE);
    }
    Ok(Value::CastNumber(number))
}

/// DATE: eight digits YYYYMMDD, year not 0000, a Gregorian day.
fn judge_date(text: &[u8]) -> Result<Value, u8> {
    if text.len() != 8 || !is_digits(text) {
        return Err(NOT_OF_ITS_KIND);
    }
    let date = number_of_digits(text) as u32;
    let (year, month, day) = (date / 10_000, date / 100 % 100, date % 100);
    if year == 0 || day == 0 || day > days_in_month(year, month) {
        return Err(OUT_OF_RANGE);
    }
    Ok(Value::Date(date))
}

/// A month that is none has no days.
pub fn days_in_month(year: u32, month: u32) -> u32 {
    let is_leap_year = year % 4 == 0 && (year % 100 != 0 || year % 400 == 0);
    match month {
        1 | 3 | 5 | 7 | 8 | 10 | 12 => 31,
        4 | 6 | 9 | 11 => 30,
        2 if is_leap_year => 29,
        2 => 28,
        _ => 0,
    }
}

/// TIME: four digits HHMM, hour 00 to 23, minute 00 to 59, or `-999`.
fn judge_time(text: &[u8]) -> Result<Value, u8> {
    if text == b"-999" {
        return Ok(Value::Time(CastTime::Missing));
    }
    if text.len() != 4 || !is_digits(text) {
        return Err(NOT_OF_ITS_KIND);
    }
    let hour = number_of_digits(&text[..2]) as u32;
    let minute = number_of_digits(&text[2..]) as u32;
    if hour > 23 || minute > 59 {
        return Err(OUT_OF_RANGE);
    }
    Ok(Value::Time(CastTime::Given { hour, minute }))
}

fn judge_decimal(text: &[u8]) -> Result<Value, u8> {
    match decimal::read(text) {
        Some(decimal) => Ok(Value::Millionths(decimal.millionths)),
        None => Err(NOT_OF_ITS_KIND),
    }
}

/// LATITUDE and LONGITUDE: -999 is out of range like any other such number.
fn judge_decimal_within(text: &[u8], most_degrees: i64) -> Result<Value, u8> {
    match judge_decimal(text)? {
        Value::Millionths(millionths) if millionths.abs() > most_degrees * 1_000_000 => {
            Err(OUT_OF_RANGE)
        }
        value => Ok(value),
    }
}

fn judge_flag(text: &[u8], of_ctd_parameter: bool) -> Result<Value, u8> {
    if text.len() != 1 || !is_digits(text) {
        return Err(NOT_OF_ITS_KIND);
    }
    let flag = text[0] - b'0';
    if !flag_is_in_set(u64::from(flag), of_ctd_parameter) {
        return Err(OUT_OF_RANGE);
    }
    Ok(Value::Flag(flag))
}

/// 1 to 9, but 8 isn't used where the parameter's name begins with CTD.
pub fn flag_is_in_set(flag: u64, of_ctd_parameter: bool) -> bool {
    (1..=9).contains(&flag) && !(flag == 8 && of_ctd_parameter)
}

/// Names are non-empty, of bytes 21 to 7E, with no comma and no lower-case letter.
pub fn is_good_name(name: &[u8]) -> bool {
    let is_good_byte =
        |byte: &u8| (0x21..=0x7E).contains(byte) && *byte != b',' && !byte.is_ascii_lowercase();
    !name.is_empty() && name.iter().all(is_good_byte)
}

/// Header names follow the same byte rule, without `=`, in 1 to 64 bytes.
pub fn is_good_header_name(name: &[u8]) -> bool {
    is_good_name(name) && !name.contains(&b'=') && name.len() <= 64
}
