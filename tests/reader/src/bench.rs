//! Times a plain check of a file, beside two walks that no check can do without.

use crate::check::check;
use std::hint::black_box;
use std::io::{self, Write};
use std::time::{Duration, Instant};

const RUNS: usize = 9;

pub fn bench(file: &[u8], output: &mut impl Write) -> io::Result<()> {
    match check(file) {
        Ok(exchange) => {
            let (rows, columns) = (exchange.rows.len(), exchange.columns.len());
            writeln!(output, "{} bytes, {rows} rows, {columns} columns", file.len())?;
        }
        Err(refusal) => writeln!(output, "{} bytes, {refusal:?}", file.len())?,
    }
    print_speed("check", file, |file| check(file).is_ok(), output)?;
    print_speed("newline walk", file, newline_walk, output)?;
    print_speed("from_utf8", file, |file| std::str::from_utf8(file).is_ok(), output)
}

/// Byte by byte: how many lines there are and how long the longest is.
fn newline_walk(file: &[u8]) -> (usize, usize) {
    let (mut count, mut longest, mut start) = (0, 0, 0);
    for (index, &byte) in file.iter().enumerate() {
        if byte == 0x0A {
            count += 1;
            longest = longest.max(index - start);
            start = index + 1;
        }
    }
    (count, longest)
}

fn print_speed<T>(
    what: &str,
    file: &[u8],
    walk: impl Fn(&[u8]) -> T,
    output: &mut impl Write,
) -> io::Result<()> {
    let best = (0..RUNS).map(|_| time_once(file, &walk)).min().unwrap_or_default();
    let seconds = best.as_secs_f64();
    let speed = file.len() as f64 / 1e6 / seconds;
    writeln!(output, "{what:13} {speed:9.1} MB/s  {:9.3} ms, best of {RUNS}", seconds * 1e3)
}

fn time_once<T>(file: &[u8], walk: &impl Fn(&[u8]) -> T) -> Duration {
    let start = Instant::now();
    black_box(walk(black_box(file)));
    start.elapsed()
}
