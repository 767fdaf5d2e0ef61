//! The independent reader of WHP-Exchange bottle and CTD files, written from
//! the rules and the words of the calls alone, rule by rule.

mod answers;
mod bench;
mod calls;
mod check;
mod compare;
mod correct;
mod crc;
mod decimal;
mod generate;
mod kinds;
mod labels;
mod lines;
mod list_line;
mod make;
mod profiles;
mod protocol;
mod random;
mod refusal;
mod report;
#[cfg(test)]
mod samples;
mod walk;
mod whole_columns;

use check::FileKind;
use std::fs::{self, File};
use std::io::{self, BufReader, BufWriter, Read, Write};
use std::process::ExitCode;

const USAGE: &str = "\
usage: reader answer                     requests on standard input, answers on standard output
       reader compare REQUESTS ANSWERS   the first answer that is not the reader's own
       reader generate SEED COUNT        requests on standard output
       reader make bottle ROWS COLUMNS   a valid file on standard output; so does make ctd
       reader report                     the report on the file on standard input
       reader bench FILE                 times a check of the file
";

fn main() -> ExitCode {
    let arguments: Vec<String> = std::env::args().skip(1).collect();
    let words: Vec<&str> = arguments.iter().map(String::as_str).collect();
    match run(&words) {
        Ok(true) => ExitCode::SUCCESS,
        Ok(false) => ExitCode::FAILURE,
        Err(error) if error.kind() == io::ErrorKind::BrokenPipe => ExitCode::SUCCESS,
        Err(error) => {
            eprintln!("reader: {error}");
            ExitCode::from(2)
        }
    }
}

/// Whether all went well; only a comparison can say no.
fn run(words: &[&str]) -> io::Result<bool> {
    let mut output = BufWriter::new(io::stdout().lock());
    let mut is_well = true;
    match words {
        ["answer"] => answers::answer_all(&mut io::stdin().lock(), &mut output)?,
        ["compare", requests, answers] => {
            let mut requests = BufReader::new(File::open(requests)?);
            let mut answers = BufReader::new(File::open(answers)?);
            is_well = compare::compare(&mut requests, &mut answers, &mut output)?;
        }
        ["generate", seed, count] => {
            generate::generate(number(seed)?, number(count)? as usize, &mut output)?;
        }
        ["make", kind @ ("bottle" | "ctd"), rows, columns] => {
            let kind = if *kind == "ctd" { FileKind::Ctd } else { FileKind::Bottle };
            make::make(kind, number(rows)? as usize, number(columns)? as usize, &mut output)?;
        }
        ["report"] => {
            let mut file = Vec::new();
            io::stdin().lock().read_to_end(&mut file)?;
            output.write_all(&report::report(&file))?;
        }
        ["bench", file] => bench::bench(&fs::read(file)?, &mut output)?,
        _ => return Err(io::Error::new(io::ErrorKind::InvalidInput, USAGE)),
    }
    output.flush()?;
    Ok(is_well)
}

fn number(word: &str) -> io::Result<u64> {
    let not_a_number = |_| io::Error::new(io::ErrorKind::InvalidInput, USAGE);
    word.parse().map_err(not_a_number)
}
