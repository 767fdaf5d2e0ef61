//! Files that are too large for the gate: the answers of the C interface beside the independent reader's.

use crate::check::FileKind;
use crate::correct::Correction;
use crate::files::{Made, BOTTLE_COLUMNS, MEGABYTE};
use crate::kinds::CastTime;
use crate::walk::WalkedCell;
use crate::whole_columns::{column_flags, column_values, Tables};
use crate::{calls, check, correct, labels, pochahuic, refusal, walk, walks};
use std::hash::{DefaultHasher, Hash, Hasher};

const MOST_DATA_LINES: u64 = 1_000_000;
const CTD_COLUMNS: u64 = 24;

/// An answer in words that are the same on both sides, or the refusal's number, line and column.
type Answer = Result<String, (u64, u64, u64)>;

/// Compares all of it, file by file; says whether there was no difference.
pub fn compare() -> bool {
    let mut requests = Requests { asked: 0, different: 0 };
    for kind in [FileKind::Bottle, FileKind::Ctd] {
        let columns = if kind == FileKind::Bottle { 7 } else { 1 };
        for rows in [MOST_DATA_LINES, MOST_DATA_LINES + 1] {
            let file = Made::new(kind, rows, columns);
            requests.check_and_walk(&format!("{rows} rows of {}", kind.word()), &file.bytes);
        }
    }
    for (kind, columns) in [(FileKind::Bottle, BOTTLE_COLUMNS), (FileKind::Ctd, CTD_COLUMNS)] {
        let file = Made::of_size(kind, 100 * MEGABYTE, columns);
        requests.calls(&file);
        requests.spoilt(&file);
    }
    println!("{} requests, {} different", requests.asked, requests.different);
    requests.different == 0
}

struct Requests {
    asked: usize,
    different: usize,
}

impl Requests {
    fn hold(&mut self, what: &str, ours: Answer, theirs: Answer) {
        self.asked += 1;
        if ours != theirs {
            self.different += 1;
            println!("DIFFERENT: {what}: {ours:?}, the independent reader {theirs:?}");
        }
    }

    /// The check, and the walk over all cells or its refusal.
    fn check_and_walk(&mut self, what: &str, file: &[u8]) {
        let ours = our_check(file);
        println!("{what}, {} bytes: {ours:?}", file.len());
        self.hold(what, ours, their_check(file));
        let (ours, theirs) = both_walks(file);
        self.hold(&format!("{what}, walk"), ours, theirs);
    }

    /// Every call, at the first, a middle and the last row and at places that are not there.
    fn calls(&mut self, file: &Made) {
        let Made { kind, rows, columns, ref bytes } = *file;
        self.check_and_walk(&format!("{rows} rows x {columns} columns of {}", kind.word()), bytes);
        let measured = file.last_measured();
        for (row, column) in [(1, 1), (rows / 2, measured), (rows, columns), (rows + 1, 1)] {
            let what = format!("{}, row {row}, column {column}", kind.word());
            self.hold(&what, our_cell(bytes, row, column), their_cell(bytes, row, column));
            self.hold(&what, our_decimal(bytes, row, column), their_decimal(bytes, row, column));
            self.hold(&what, our_flag(bytes, row, column), their_flag(bytes, row, column));
        }
        self.columns(file);
        for k in [1, rows / 48, rows] {
            let what = format!("{}, profile {k}", kind.word());
            self.hold(&what, our_profile(bytes, k), their_profile(bytes, k));
        }
        for (row, flag) in [(1, 2), (rows, 3), (rows, 0)] {
            let asked =
                Correction { row, column: measured, millionths: -1_500_000, decimals: 2, flag };
            let what = format!("{}, {asked:?}", kind.word());
            self.hold(&what, our_correction(bytes, &asked), their_correction(bytes, &asked));
        }
    }

    /// The file opened, what its columns are called, and whole columns: the last measured one, its flag column, and one that is not there.
    fn columns(&mut self, file: &Made) {
        let (bytes, kind) = (&file.bytes, file.kind.word());
        self.hold(&format!("{kind}, opened"), our_opened(bytes), their_opened(bytes));
        for column in [file.last_measured(), file.columns, file.columns + 1] {
            let what = format!("{kind}, column {column}");
            self.hold(&what, our_label(bytes, column), their_label(bytes, column));
            self.hold(&what, our_values(file, column), their_values(file, column));
            self.hold(&what, our_flags(file, column), their_flags(file, column));
        }
        for k in [1, 2, 11] {
            let what = format!("{kind}, header {k}");
            self.hold(&what, our_header(bytes, k), their_header(bytes, k));
        }
    }

    /// Faults at the very end, which are found only after all the rest.
    fn spoilt(&mut self, file: &Made) {
        let (whole, kind) = (&file.bytes[..], file.kind.word());
        let data = whole.strip_suffix(b"END_DATA\n").expect("a made file ends so");
        let last_flag = data.len() - 2;
        for (name, byte) in [("no flag", b'x'), ("no UTF-8", 0xFF), ("a carriage return", b'\r')] {
            let mut bytes = whole.to_vec();
            bytes[last_flag] = byte;
            self.check_and_walk(&format!("{kind}, {name} in the last data line"), &bytes);
        }
        self.check_and_walk(&format!("{kind}, no END_DATA"), data);
        self.check_and_walk(&format!("{kind}, no last line feed"), &whole[..whole.len() - 1]);
        for length in [8_192, 8_193] {
            let bytes = [whole, &b"a".repeat(length), b"\n"].concat();
            let what = format!("{kind}, a line of {length} bytes after END_DATA");
            self.check_and_walk(&what, &bytes);
        }
    }
}

fn our_refusal(refusal: pochahuic::Refusal) -> (u64, u64, u64) {
    (refusal.number, refusal.line, refusal.column)
}

fn their_refusal(refusal: refusal::Refusal) -> (u64, u64, u64) {
    (refusal.number.into(), refusal.line as u64, refusal.column as u64)
}

fn our_check(file: &[u8]) -> Answer {
    let checked = pochahuic::check(file).map_err(our_refusal)?;
    let kind = if checked.kind == pochahuic::Kind::Ctd { "CTD" } else { "BOTTLE" };
    let pochahuic::Checked { columns, rows, profiles, missing, .. } = checked;
    Ok(format!("{kind} {columns} {rows} {profiles} {missing}"))
}

fn their_check(file: &[u8]) -> Answer {
    let exchange = check::check(file).map_err(their_refusal)?;
    let (kind, columns, rows) = (exchange.kind.word(), exchange.columns.len(), exchange.rows.len());
    Ok(format!("{kind} {columns} {rows} {} {}", exchange.profiles.len(), exchange.missing))
}

fn both_walks(file: &[u8]) -> (Answer, Answer) {
    let ours = walks::walked(file).map_err(our_refusal);
    let theirs = walk::walk(file).map_err(their_refusal);
    match (ours, theirs) {
        (Ok(ours), Ok(theirs)) => side_by_side(ours, theirs),
        (ours, theirs) => (ours.map(|_| "accepted".into()), theirs.map(|_| "accepted".into())),
    }
}

/// How many cells are the same, and what either walk hands out then: nothing, where all are. No cell is kept.
fn side_by_side(
    mut ours: impl Iterator<Item = WalkedCell>,
    mut theirs: impl Iterator<Item = WalkedCell>,
) -> (Answer, Answer) {
    let mut same = 0;
    loop {
        let (our, their) = (ours.next(), theirs.next());
        if our.is_none() || our != their {
            let then = |cell: Option<WalkedCell>| Ok(format!("{same} cells, then {cell:?}"));
            return (then(our), then(their));
        }
        same += 1;
    }
}

fn our_cell(file: &[u8], row: u64, column: u64) -> Answer {
    let place = pochahuic::cell_place(file, row, column).map_err(our_refusal)?;
    Ok(format!("{place:?}"))
}

fn their_cell(file: &[u8], row: u64, column: u64) -> Answer {
    let place = calls::cell(file, row, column).map_err(their_refusal)?;
    Ok(format!("{place:?}"))
}

fn our_decimal(file: &[u8], row: u64, column: u64) -> Answer {
    Ok(match pochahuic::decimal(file, row, column).map_err(our_refusal)? {
        pochahuic::Reading::Present { millionths, value } => format!("{millionths} {value:?}"),
        pochahuic::Reading::Missing => "missing".to_string(),
    })
}

fn their_decimal(file: &[u8], row: u64, column: u64) -> Answer {
    Ok(match calls::decimal(file, row, column).map_err(their_refusal)? {
        calls::Reading::Present { millionths, double } => format!("{millionths} {double:?}"),
        calls::Reading::Missing => "missing".to_string(),
    })
}

fn our_flag(file: &[u8], row: u64, column: u64) -> Answer {
    pochahuic::flag(file, row, column).map(|flag| flag.to_string()).map_err(our_refusal)
}

fn their_flag(file: &[u8], row: u64, column: u64) -> Answer {
    calls::flag(file, row, column).map(|flag| flag.to_string()).map_err(their_refusal)
}

fn our_opened(file: &[u8]) -> Answer {
    let opened = pochahuic::open(file).map_err(our_refusal)?;
    Ok(format!("{} {} {}", opened.headers, opened.names, opened.first))
}

fn their_opened(file: &[u8]) -> Answer {
    let opened = labels::open(file).map_err(their_refusal)?;
    Ok(format!("{} {} {}", opened.headers, opened.names, opened.first))
}

/// The places of a column's name and unit, and the column of that name.
fn our_label(file: &[u8], column: u64) -> Answer {
    let name = pochahuic::name_place(file, column).map_err(our_refusal)?;
    let unit = pochahuic::unit_place(file, column).map_err(our_refusal)?;
    let named = pochahuic::column_named(file, &file[name.clone()]).map_err(our_refusal)?;
    Ok(format!("{name:?} {unit:?} {named}"))
}

fn their_label(file: &[u8], column: u64) -> Answer {
    let name = labels::name(file, column).map_err(their_refusal)?;
    let unit = labels::unit(file, column).map_err(their_refusal)?;
    let named = labels::column_named(file, &file[name.clone()]).map_err(their_refusal)?;
    Ok(format!("{name:?} {unit:?} {named}"))
}

fn our_header(file: &[u8], k: u64) -> Answer {
    pochahuic::header_place(file, k).map(|places| format!("{places:?}")).map_err(our_refusal)
}

fn their_header(file: &[u8], k: u64) -> Answer {
    labels::header(file, k).map(|places| format!("{places:?}")).map_err(their_refusal)
}

fn tables_for(file: &Made) -> Tables {
    let rows = file.rows as usize;
    Tables { cases: vec![77; rows], millionths: vec![77; rows], values: vec![77.0; rows] }
}

/// The rows, and a hash of all three tables.
fn summary(rows: usize, tables: &Tables) -> String {
    let mut hasher = DefaultHasher::new();
    (&tables.cases, &tables.millionths).hash(&mut hasher);
    tables.values.iter().for_each(|value| value.to_bits().hash(&mut hasher));
    format!("{rows} {:016x}", hasher.finish())
}

fn our_values(file: &Made, column: u64) -> Answer {
    let mut tables = tables_for(file);
    let Tables { cases, millionths, values } = &mut tables;
    let rows = pochahuic::column_values_into(&file.bytes, column, cases, millionths, values)
        .map_err(our_refusal)?;
    Ok(summary(rows, &tables))
}

fn their_values(file: &Made, column: u64) -> Answer {
    let mut tables = tables_for(file);
    let rows = column_values(&file.bytes, column, &mut tables).map_err(their_refusal)?;
    Ok(summary(rows, &tables))
}

fn our_flags(file: &Made, column: u64) -> Answer {
    let mut tables = tables_for(file);
    let rows = pochahuic::column_flags_into(&file.bytes, column, &mut tables.cases)
        .map_err(our_refusal)?;
    Ok(summary(rows, &tables))
}

fn their_flags(file: &Made, column: u64) -> Answer {
    let mut tables = tables_for(file);
    let rows = column_flags(&file.bytes, column, &mut tables.cases).map_err(their_refusal)?;
    Ok(summary(rows, &tables))
}

fn our_profile(file: &[u8], k: u64) -> Answer {
    let profile = pochahuic::profile(file, k).map_err(our_refusal)?;
    let pochahuic::Profile { first, rows, castno, date, time } = profile;
    let station = pochahuic::station(file, k, b"STNNBR").map_err(our_refusal)?;
    Ok(format!("{first} {rows} {station:?} {castno} {date} {time:?}"))
}

fn their_profile(file: &[u8], k: u64) -> Answer {
    let profile = calls::profile(file, k).map_err(their_refusal)?;
    let (first, rows, castno) = (profile.first_row, profile.rows, profile.cast_number);
    let time = match profile.time {
        CastTime::Given { hour, minute } => Some((hour, minute)),
        CastTime::Missing => None,
    };
    Ok(format!("{first} {rows} {:?} {castno} {} {time:?}", profile.station, profile.date))
}

/// The bytes that the correction changed, each with its place; the length is the same.
fn change(file: &[u8], corrected: &[u8]) -> String {
    assert!(file.len() == corrected.len());
    let differs = |(one, other): &(&u8, &u8)| one != other;
    let places = file.iter().zip(corrected).enumerate().filter(|(_, pair)| differs(pair));
    places.map(|(place, (_, byte))| format!("{place}:{byte} ")).collect()
}

fn our_correction(file: &[u8], correction: &Correction) -> Answer {
    let mut corrected = file.to_vec();
    let &Correction { row, column, millionths, decimals, flag } = correction;
    let outcome = pochahuic::correct(&mut corrected, row, column, millionths, decimals, flag);
    assert!(outcome.is_ok() || corrected == file, "a refused correction changed the file");
    outcome.map_err(our_refusal)?;
    Ok(change(file, &corrected))
}

fn their_correction(file: &[u8], correction: &Correction) -> Answer {
    let corrected = correct::correct(file, correction).map_err(their_refusal)?;
    Ok(change(file, &corrected))
}
