//! The benchmark's table.

use crate::check::FileKind;
use crate::correct::Correction;
use crate::files::{Made, BOTTLE_COLUMNS, MEGABYTE};
use crate::timing::{time, Timed};
use crate::{calls, check, columns, correct, memory, pochahuic, walks};
use std::io;

pub const ROUNDS: usize = 25;
const ROUNDS_OF_SIZES: usize = 9;

/// A correction's time against that of one check.
const MOST_OF_A_CORRECTION: f64 = 1.3;
/// The time for a byte at 100 MB against that at 1 MB.
const MOST_OF_A_BYTE: f64 = 1.2;

/// Prints all of it; says whether every figure is within its limit.
pub fn print() -> io::Result<bool> {
    let bottle = Made::new(FileKind::Bottle, 20_000, BOTTLE_COLUMNS);
    let of_bottle = print_calls(&bottle) & columns::print(&bottle) & walks::print(&bottle);
    let ctd = Made::new(FileKind::Ctd, 5_000, 12);
    let of_ctd = print_calls(&ctd) & walks::print(&ctd);
    let of_sizes = print_sizes()?;
    Ok(of_bottle && of_ctd && of_sizes)
}

/// The calls on one file, timed beside the independent reader and two walks that no check can do without.
fn print_calls(file: &Made) -> bool {
    let (bytes, row, column) = (&file.bytes, file.rows, file.last_measured());
    let in_last = Correction { row, column, millionths: 1_500_000, decimals: 1, flag: 2 };
    let in_first = Correction { row: 1, ..in_last };
    let (mut last, mut first) = (bytes.clone(), bytes.clone());
    correct_in(&mut last, &in_last);
    assert!(correct::correct(bytes, &in_last).is_ok_and(|corrected| corrected == last));
    let mut timed = [
        Timed::new("check", || pochahuic::check(bytes).expect("accepted")),
        Timed::new("correction, last row", || correct_in(&mut last, &in_last)),
        Timed::new("correction, first row", || correct_in(&mut first, &in_first)),
        Timed::new("decimal, last row", || pochahuic::decimal(bytes, row, column)),
        Timed::new("independent reader: check", || check::check(bytes).is_ok()),
        Timed::new("independent reader: correction, last row", || {
            correct::correct(bytes, &in_last)
        }),
        Timed::new("independent reader: decimal, last row", || calls::decimal(bytes, row, column)),
        Timed::new("newline walk", || newline_walk(bytes)),
        Timed::new("`std::str::from_utf8`", || std::str::from_utf8(bytes).is_ok()),
    ];
    time(ROUNDS, &mut timed);
    print_speeds(file, &timed, timed[4].seconds());
    let against_check = |index: usize| timed[index].seconds() / timed[0].seconds();
    let of_last = within("correction, last row / check", against_check(1), MOST_OF_A_CORRECTION);
    let of_first = within("correction, first row / check", against_check(2), MOST_OF_A_CORRECTION);
    println!();
    of_last && of_first
}

/// In MB/s, and how often each would be done in the time of the independent reader's check.
fn print_speeds(file: &Made, timed: &[Timed], independent: f64) {
    let Made { kind, rows, columns, .. } = file;
    let (kind, size) = (kind.word(), file.megabytes());
    println!("| {kind}, {rows} rows x {columns} columns, {size:.2} MB | ms | MB/s | ratio |");
    println!("|---|---:|---:|---:|");
    for one in timed {
        let (name, seconds) = (&one.name, one.seconds());
        let (speed, ratio) = (size / seconds, independent / seconds);
        println!("| {name} | {:.3} | {speed:.0} | {ratio:.2} |", seconds * 1e3);
    }
    println!();
}

fn correct_in(file: &mut [u8], correction: &Correction) {
    let &Correction { row, column, millionths, decimals, flag } = correction;
    pochahuic::correct(file, row, column, millionths, decimals, flag).expect("it fits");
}

/// Byte by byte: how many lines there are and how long the longest is.
fn newline_walk(file: &[u8]) -> (usize, usize) {
    let (mut count, mut longest, mut start) = (0, 0, 0);
    for (index, &byte) in file.iter().enumerate() {
        if byte == b'\n' {
            count += 1;
            longest = longest.max(index - start);
            start = index + 1;
        }
    }
    (count, longest)
}

/// The check of bottle files of 1, 10 and 100 MB, and its peak memory at 100 MB.
fn print_sizes() -> io::Result<bool> {
    let sized = |size| Made::of_size(FileKind::Bottle, size * MEGABYTE, BOTTLE_COLUMNS);
    let files = [1, 10, 100].map(sized);
    let timed_check = |file| {
        let Made { bytes, .. }: &Made = file;
        let name = format!("{:.2} MB", file.megabytes());
        Timed::new(name, || pochahuic::check(bytes).expect("accepted"))
    };
    let mut timed = files.each_ref().map(timed_check);
    time(ROUNDS_OF_SIZES, &mut timed);
    println!("| check of | ms | MB/s | ns for a byte |\n|---|---:|---:|---:|");
    for (file, one) in files.iter().zip(&timed) {
        let (milliseconds, speed) = (one.seconds() * 1e3, file.megabytes() / one.seconds());
        println!("| {} | {milliseconds:.3} | {speed:.0} | {:.3} |", one.name, 1e3 / speed);
    }
    println!();
    let for_a_byte = |index: usize| timed[index].seconds() / files[index].megabytes();
    let is_linear =
        within("a byte at 100 MB / at 1 MB", for_a_byte(2) / for_a_byte(0), MOST_OF_A_BYTE);
    print_peak_memory(&files[2])?;
    Ok(is_linear)
}

fn print_peak_memory(file: &Made) -> io::Result<()> {
    let peak = memory::peak_of_a_check(&file.bytes)? as f64 / MEGABYTE as f64;
    let against_file = peak / file.megabytes();
    println!("peak memory of a process that reads and checks the 100 MB file: {peak:.2} MB, {against_file:.3} of the file");
    Ok(())
}

/// Prints a figure with its limit; says whether it is within it.
pub fn within(what: &str, figure: f64, most: f64) -> bool {
    let is_within = figure <= most;
    let verdict = if is_within { "" } else { ": OVER" };
    println!("{what}: {figure:.3} (at most {most}){verdict}");
    is_within
}
