//! The calls on a file: rows, columns and numbers at their edges, and
//! corrections of all sorts.

use crate::calls::find_cell;
use crate::check::Exchange;
use crate::correct::{flag_column_of, Correction};
use crate::kinds::Kind;
use crate::protocol::Request;
use crate::random::Random;

const MILLIONTHS_AT_THE_EDGES: [i64; 27] = [
    0,
    1,
    -1,
    999_999,
    1_000_000,
    -999_000_000,
    999_000_000,
    -999_000_001,
    -998_999_999,
    -500_000,
    500_000,
    100_000_000_000,
    999_999_999_999_999,
    -999_999_999_999_999,
    1_000_000_000_000_000,
    -1_000_000_000_000_000,
    999_999_999_000_000,
    -999_999_999_000_000,
    1_000_000_000_000_001,
    i64::MAX,
    i64::MIN,
    i64::MIN,
    i64::MIN + 1,
    9_223_372_036_854_000_000,
    -9_223_372_036_854_000_000,
    4_294_967_296,
    4_294_967_296_000_000,
];

/// A number at the edges of 1 to `last`, or beyond.
pub fn edge(random: &mut Random, last: usize) -> u64 {
    let last = last as u64;
    let edges = [
        0,
        1,
        1,
        last,
        last,
        last + 1,
        last + 2,
        255,
        256,
        257,
        65_536 + last,
        1 << 31,
        1 << 32,
        (1 << 32) + 1,
        (1 << 32) + last,
        1 << 63,
        (1 << 63) + 1,
        u64::MAX - 1,
        u64::MAX,
    ];
    random.pick(&edges)
}

/// Mostly a number from 1 to `last`; one in so many at its edges.
pub fn usual(random: &mut Random, last: usize, one_in: usize) -> u64 {
    if random.one_in(one_in) {
        edge(random, last)
    } else {
        random.between(1, last) as u64
    }
}

/// Any call that reads, with what it asks for on an accepted file.
pub fn reading(random: &mut Random, exchange: &Exchange) -> Request {
    let row = usual(random, exchange.rows.len(), 6);
    let any_column = usual(random, exchange.columns.len(), 4);
    let is_decimal =
        |kind| matches!(kind, Kind::Measured | Kind::Latitude | Kind::Longitude | Kind::Depth);
    let is_measured = |kind| kind == Kind::Measured;
    let is_free = |kind| kind == Kind::FreeText;
    let is_flag = |kind| matches!(kind, Kind::Flag { .. });
    match random.below(11) {
        0 => Request::Check,
        1 => Request::Report,
        2 => Request::Cell { row, column: any_column },
        3 => Request::Cell { row, column: column_of(random, exchange, is_free, any_column) },
        4 => Request::Decimal { row, column: any_column },
        5 => Request::Decimal { row, column: column_of(random, exchange, is_decimal, any_column) },
        6 | 7 => {
            Request::Decimal { row, column: column_of(random, exchange, is_measured, any_column) }
        }
        8 => Request::Flag { row, column: any_column },
        9 => Request::Flag { row, column: column_of(random, exchange, is_flag, any_column) },
        _ => Request::Profile { k: usual(random, exchange.profiles.len(), 3) },
    }
}

/// A call on a file that is refused, whatever it asks for.
pub fn reading_of_refused(random: &mut Random) -> Request {
    let (row, column) = (edge(random, 3), edge(random, 8));
    match random.below(14) {
        0 => Request::Cell { row, column },
        1 => Request::Decimal { row, column },
        2 => Request::Flag { row, column },
        3 => Request::Profile { k: edge(random, 1) },
        4 => Request::Correct(Correction {
            row,
            column,
            millionths: random.pick(&MILLIONTHS_AT_THE_EDGES),
            decimals: edge(random, 6),
            flag: edge(random, 9),
        }),
        5..=7 => Request::Report,
        _ => Request::Check,
    }
}

/// A column of a kind, counted from 1, or another one where there is none.
pub fn column_of(
    random: &mut Random,
    exchange: &Exchange,
    is_of_kind: impl Fn(Kind) -> bool,
    other: u64,
) -> u64 {
    let columns: Vec<u64> = (1..=exchange.columns.len() as u64)
        .filter(|&column| is_of_kind(exchange.columns[column as usize - 1].kind))
        .collect();
    if columns.is_empty() {
        other
    } else {
        random.pick(&columns)
    }
}

/// A correction, mostly of a measured cell, its text often exactly as wide as
/// the cell or one byte too long.
pub fn correction(random: &mut Random, exchange: &Exchange) -> Correction {
    let row = usual(random, exchange.rows.len(), 14);
    let any_column = usual(random, exchange.columns.len(), 4);
    let is_measured = |kind| kind == Kind::Measured;
    let column = match random.below(10) {
        0 => any_column,
        _ => column_of(random, exchange, is_measured, any_column),
    };
    let width = match find_cell(exchange, row, column) {
        Ok((cell, _)) => cell.bytes.len(),
        Err(_) => 8,
    };
    let (millionths, decimals) = value(random, width);
    Correction { row, column, millionths, decimals, flag: flag(random, exchange, column) }
}

/// Mostly one that column takes.
fn flag(random: &mut Random, exchange: &Exchange, column: u64) -> u64 {
    if random.one_in(6) {
        return random.pick(&[0, 1, 8, 8, 9, 10, 12, 256 + 2, (1 << 32) + 2, 1 << 63, u64::MAX]);
    }
    match flag_column_of(exchange, column) {
        Some(_) => random.between(1, 9) as u64,
        None => 0,
    }
}

fn value(random: &mut Random, width: usize) -> (i64, u64) {
    match random.below(12) {
        0 => (random.pick(&MILLIONTHS_AT_THE_EDGES), random.below(9) as u64),
        1 => {
            let (millionths, _) = value_of_width(random, width);
            (millionths, random.pick(&[7, 8, 255, 256, 1 << 32, (1 << 32) + 2, u64::MAX]))
        }
        2 => {
            let (millionths, decimals) = value_of_width(random, width);
            let off = random.pick(&[1, -1, 10, 100, 1_000, 10_000, 100_000]);
            (millionths + off, decimals)
        }
        3 => (-999_000_000, random.below(7) as u64),
        4 => (random.next() as i64, random.below(7) as u64),
        _ => value_of_width(random, width),
    }
}

/// A value whose text has the width asked for, or one byte more, or fewer.
fn value_of_width(random: &mut Random, width: usize) -> (i64, u64) {
    let length = match random.below(4) {
        0 => width + 1,
        1 => random.between(1, width.max(1)),
        _ => width.max(1),
    };
    let sign = usize::from(length > 1 && random.one_in(3));
    let most_decimals = length.saturating_sub(sign + 2).min(6);
    let decimals = random.between(0, most_decimals);
    let point = usize::from(decimals > 0);
    let whole = length.saturating_sub(sign + point + decimals).clamp(1, 9);
    let first = if whole == 1 { random.below(10) } else { random.between(1, 9) };
    let digits = format!("{first}{}", random.digits(whole - 1 + decimals));
    let size = digits.parse::<i64>().unwrap_or(0) * 10_i64.pow(6 - decimals as u32);
    (if sign == 1 { -size } else { size }, decimals as u64)
}
