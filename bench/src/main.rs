//! The benchmark: the calls of the C interface timed beside the independent reader (tests/reader), and both compared on large files.

// Of the wrapper and of the independent reader, only what is timed or compared is used here.
#[allow(dead_code)]
#[path = "../../bindings/rust/src/lib.rs"]
mod pochahuic;

#[path = "../../tests/reader/src/calls.rs"]
mod calls;
#[allow(dead_code)]
#[path = "../../tests/reader/src/check.rs"]
mod check;
#[path = "../../tests/reader/src/correct.rs"]
mod correct;
#[allow(dead_code)]
#[path = "../../tests/reader/src/decimal.rs"]
mod decimal;
#[allow(dead_code)]
#[path = "../../tests/reader/src/kinds.rs"]
mod kinds;
#[allow(dead_code)]
#[path = "../../tests/reader/src/labels.rs"]
mod labels;
#[path = "../../tests/reader/src/lines.rs"]
mod lines;
#[path = "../../tests/reader/src/make.rs"]
mod make;
#[allow(dead_code)]
#[path = "../../tests/reader/src/profiles.rs"]
mod profiles;
#[allow(dead_code)]
#[path = "../../tests/reader/src/random.rs"]
mod random;
#[allow(dead_code)]
#[path = "../../tests/reader/src/refusal.rs"]
mod refusal;
#[path = "../../tests/reader/src/walk.rs"]
mod walk;
#[path = "../../tests/reader/src/whole_columns.rs"]
mod whole_columns;

mod columns;
mod files;
mod large;
mod memory;
mod table;
mod timing;
mod walks;

use std::io;
use std::process::ExitCode;

const USAGE: &str = "usage: bench table | bench large | bench memory FILE";

fn main() -> ExitCode {
    let arguments: Vec<String> = std::env::args().skip(1).collect();
    let words: Vec<&str> = arguments.iter().map(String::as_str).collect();
    let outcome = match words[..] {
        ["table"] => table::print(),
        ["large"] => Ok(large::compare()),
        ["memory", file] => memory::print_peak(file).map(|()| true),
        _ => Err(io::Error::new(io::ErrorKind::InvalidInput, USAGE)),
    };
    match outcome {
        Ok(true) => ExitCode::SUCCESS,
        Ok(false) => ExitCode::FAILURE,
        Err(error) => {
            eprintln!("bench: {error}");
            ExitCode::from(2)
        }
    }
}
