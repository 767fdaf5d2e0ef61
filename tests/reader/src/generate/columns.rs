//! The calls on names, units and headers, on whole columns and on a file row
//! by row or cell by cell: each aims at what its words promise and at the edges
//! of that.

use super::requests::{column_of, edge, usual};
use super::valid::random_name;
use crate::check::{Exchange, FileKind};
use crate::kinds::{Kind, FLAG_ENDING, MEASURED_NAMES, STATION_NAMES};
use crate::protocol::{Request, MOST_ENTRIES};
use crate::random::Random;

/// Any of these calls, with what it asks for on an accepted file.
pub fn asking(random: &mut Random, exchange: &Exchange) -> Request {
    let any_column = usual(random, exchange.columns.len(), 3);
    match random.below(27) {
        0 => Request::Open,
        1..=4 => {
            let names: Vec<&[u8]> = exchange.columns.iter().map(|column| column.name).collect();
            Request::Named { name: asked_name(random, &names) }
        }
        5 => Request::Name { column: any_column },
        6 | 7 => Request::Unit { column: any_column },
        8 | 9 if exchange.kind == FileKind::Ctd || random.one_in(4) => {
            Request::Header { k: usual(random, exchange.headers.len().max(1), 3) }
        }
        8..=12 => station(random, exchange),
        13..=16 => values(random, exchange, any_column),
        17..=19 => flags(random, exchange, any_column),
        20..=22 => Request::Rows { column: column_to_read(random, exchange, any_column) },
        23 => Request::Column { column: column_to_read(random, exchange, any_column) },
        24 | 25 => Request::Walk,
        _ => Request::Column { column: any_column },
    }
}

/// Any of them on a file that is refused, whatever it asks for.
pub fn asking_of_refused(random: &mut Random) -> Request {
    let (column, k) = (edge(random, 8), edge(random, 1));
    let name = random.pick(&STATION_NAMES).as_bytes().to_vec();
    match random.below(12) {
        0 => Request::Open,
        1 => Request::Named { name },
        2 => Request::Name { column },
        3 => Request::Unit { column },
        4 => Request::Header { k },
        5 => Request::Station { k, name },
        6 => Request::Values { column, entries: [0, 1, 2].map(|_| random.below(4)) },
        7 => Request::Flags { column, entries: random.below(4) },
        8 => Request::Rows { column },
        9 => Request::Column { column },
        _ => Request::Walk,
    }
}

/// The readings of a column that was just corrected, in tables of its size.
pub fn exact_values(exchange: &Exchange, column: u64) -> Request {
    Request::Values { column, entries: [exchange.rows.len().min(MOST_ENTRIES); 3] }
}

fn station(random: &mut Random, exchange: &Exchange) -> Request {
    let columns = exchange.columns.iter().map(|column| column.name);
    let headers = exchange.headers.iter().map(|header| header.name.trimmed());
    // A CTD file has some names in both places, and is asked for columns too.
    let names: Vec<&[u8]> = match exchange.kind {
        FileKind::Ctd if random.one_in(4) => columns.collect(),
        FileKind::Ctd => headers.collect(),
        FileKind::Bottle => columns.collect(),
    };
    let k = usual(random, exchange.profiles.len(), 6);
    let name = match random.below(10) {
        0 => b"NUMBER_HEADERS".to_vec(),
        1..=4 => random.pick(&names).to_vec(),
        _ => asked_name(random, &names),
    };
    Request::Station { k, name }
}

/// One of the names, or a text that is nearly one.
fn asked_name(random: &mut Random, names: &[&[u8]]) -> Vec<u8> {
    let name = random.pick(names);
    match random.below(18) {
        0..=7 => name.to_vec(),
        8 => name[..name.len() - 1].to_vec(),
        9 => name[..random.below(name.len())].to_vec(),
        10 => [name, random.pick(&[FLAG_ENDING, b"X", b"2", b"_", b"="])].concat(),
        11 => [random.pick(&[&b" "[..], b"  ", b"X", b","]), name].concat(),
        12 => [name, random.pick(&[&b" "[..], b"  ", b",", b"\n"])].concat(),
        13 => [name, &[0; 16][..random.between(1, 16)]].concat(),
        14 => name.to_ascii_lowercase(),
        15 => {
            random.pick(&[&b""[..], b" ", b"\0", b",", b"\n", b"_FLAG_W", b"=", b"\xff"]).to_vec()
        }
        16 => absent_name(random),
        _ => [name, b",", random.pick(names)].concat(),
    }
}

/// Mostly of no column or header of the file.
fn absent_name(random: &mut Random) -> Vec<u8> {
    match random.below(4) {
        0 => random_name(random),
        1 => random.pick(&STATION_NAMES).as_bytes().to_vec(),
        2 => random.pick(&[&b"NUMBER_HEADERS"[..], b"ABSENT", b"END_DATA", b"#"]).to_vec(),
        _ => random.pick(&MEASURED_NAMES).as_bytes().to_vec(),
    }
}

/// A decimal column, a flag column or another one.
fn column_to_read(random: &mut Random, exchange: &Exchange, any_column: u64) -> u64 {
    let is_decimal =
        |kind| matches!(kind, Kind::Measured | Kind::Latitude | Kind::Longitude | Kind::Depth);
    let is_measured = |kind| kind == Kind::Measured;
    let is_flag = |kind| matches!(kind, Kind::Flag { .. });
    match random.below(6) {
        0 => column_of(random, exchange, is_decimal, any_column),
        1 | 2 => column_of(random, exchange, is_measured, any_column),
        3 | 4 => column_of(random, exchange, is_flag, any_column),
        _ => any_column,
    }
}

/// Mostly of a decimal column; sometimes one of the three tables is too short.
fn values(random: &mut Random, exchange: &Exchange, any_column: u64) -> Request {
    let is_decimal =
        |kind| matches!(kind, Kind::Measured | Kind::Latitude | Kind::Longitude | Kind::Depth);
    let column = match random.below(3) {
        0 => column_to_read(random, exchange, any_column),
        _ => column_of(random, exchange, is_decimal, any_column),
    };
    let rows = exchange.rows.len();
    let mut entries = [0, 1, 2].map(|_| enough(random, rows));
    if is_too_few(random, exchange, column, is_decimal) {
        entries[random.below(3)] = too_few(random, rows);
    }
    Request::Values { column, entries }
}

fn flags(random: &mut Random, exchange: &Exchange, any_column: u64) -> Request {
    let is_flag = |kind| matches!(kind, Kind::Flag { .. });
    let column = match random.below(4) {
        0 => column_to_read(random, exchange, any_column),
        _ => column_of(random, exchange, is_flag, any_column),
    };
    let rows = exchange.rows.len();
    let entries = match is_too_few(random, exchange, column, is_flag) {
        true => too_few(random, rows),
        false => enough(random, rows),
    };
    Request::Flags { column, entries }
}

/// More often where the call is refused by 21 or 22, which come before 29.
fn is_too_few(
    random: &mut Random,
    exchange: &Exchange,
    column: u64,
    is_read: impl Fn(Kind) -> bool,
) -> bool {
    let index = usize::try_from(column).unwrap_or(usize::MAX).wrapping_sub(1);
    let is_read = exchange.columns.get(index).is_some_and(|column| is_read(column.kind));
    random.one_in(if is_read { 4 } else { 2 })
}

/// The rows, or more; a table has no more than so many entries.
fn enough(random: &mut Random, rows: usize) -> usize {
    let more = random.pick(&[0, 0, 0, 1, 1, 2, 7, MOST_ENTRIES]);
    (rows + more).min(MOST_ENTRIES)
}

fn too_few(random: &mut Random, rows: usize) -> usize {
    random.pick(&[rows - 1, rows - 1, rows / 2, 0]).min(MOST_ENTRIES)
}
