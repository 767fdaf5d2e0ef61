//! Makes requests from a seed: valid files, files spoilt by rule, calls at the
//! edges, names, whole columns, files to walk, list lines, and sequences of
//! corrections. The same seed and count give the same bytes.

mod columns;
mod draft;
mod limits;
mod list_lines;
mod requests;
mod spoil;
mod spoil_lines;
mod valid;
mod values;
mod walks;

use crate::check::{check, FileKind};
use crate::correct::{correct, flag_column_of};
use crate::protocol::{write_request, Request};
use crate::random::Random;
use draft::Draft;
use std::io::{self, Write};

pub fn generate(seed: u64, count: usize, output: &mut impl Write) -> io::Result<()> {
    let mut random = Random::from_seed(seed);
    let mut requests = Requests { output, left: count };
    while requests.left > 0 {
        match random.below(1_060) {
            0..=119 => read_valid_file(&mut random, &mut requests)?,
            120..=179 => correct_file(&mut random, &mut requests)?,
            180..=689 => read_spoilt_file(&mut random, &mut requests)?,
            690..=829 => read_edited_file(&mut random, &mut requests)?,
            830..=969 => read_list_line(&mut random, &mut requests)?,
            970..=982 => read_file_at_a_limit(&mut random, &mut requests)?,
            983..=993 => read_tiny_file(&mut random, &mut requests)?,
            994..=996 => read_file_of_exact_size(&mut random, &mut requests)?,
            997..=999 => read_large_file(&mut random, &mut requests)?,
            _ => walk_file(&mut random, &mut requests)?,
        }
    }
    Ok(())
}

/// Where the requests go, and how many are still wanted.
struct Requests<'o, O: Write> {
    output: &'o mut O,
    left: usize,
}

impl<O: Write> Requests<'_, O> {
    fn add(&mut self, request: Request, bytes: &[u8]) -> io::Result<()> {
        if self.left > 0 {
            self.left -= 1;
            write_request(self.output, &request, bytes)?;
        }
        Ok(())
    }
}

/// Several calls on one valid file.
fn read_valid_file<O: Write>(random: &mut Random, requests: &mut Requests<O>) -> io::Result<()> {
    let file = valid::valid_draft(random).bytes();
    let count = random.between(2, 8);
    add_readings(random, requests, &file, count)
}

fn add_readings<O: Write>(
    random: &mut Random,
    requests: &mut Requests<O>,
    file: &[u8],
    count: usize,
) -> io::Result<()> {
    match check(file) {
        Ok(exchange) => {
            requests.add(Request::Check, file)?;
            for _ in 1..count {
                let request = match random.below(3) {
                    0 => requests::reading(random, &exchange),
                    _ => columns::asking(random, &exchange),
                };
                requests.add(request, file)?;
            }
        }
        Err(_) if random.one_in(3) => requests.add(columns::asking_of_refused(random), file)?,
        Err(_) => requests.add(requests::reading_of_refused(random), file)?,
    }
    Ok(())
}

/// Corrections one after the other: each gets the file that the one before it
/// left. Between them some of what was written is read back.
fn correct_file<O: Write>(random: &mut Random, requests: &mut Requests<O>) -> io::Result<()> {
    let mut file = valid::valid_draft(random).bytes();
    for _ in 0..random.between(2, 8) {
        let Ok(exchange) = check(&file) else { return Ok(()) };
        let correction = requests::correction(random, &exchange);
        requests.add(Request::Correct(correction), &file)?;
        let Ok(corrected) = correct(&file, &correction) else { continue };
        let (row, column) = (correction.row, correction.column);
        match random.below(7) {
            0 | 1 => requests.add(Request::Decimal { row, column }, &corrected)?,
            2 => requests.add(Request::Cell { row, column }, &corrected)?,
            3 => requests.add(Request::Report, &corrected)?,
            4 => requests.add(columns::exact_values(&exchange, column), &corrected)?,
            5 => requests.add(Request::Walk, &corrected)?,
            _ => {}
        }
        if let Some(column) = flag_column_of(&exchange, column).filter(|_| random.one_in(3)) {
            requests.add(Request::Flag { row, column }, &corrected)?;
        }
        file = corrected;
    }
    Ok(())
}

/// A file spoilt by one rule, or by two or three, so that their order shows.
fn read_spoilt_file<O: Write>(random: &mut Random, requests: &mut Requests<O>) -> io::Result<()> {
    // The kinds are many, so the rules that judge them come twice.
    let rules = [&spoil::RULES_OF_PARTS[..], &spoil_lines::RULES_OF_LINES, &[16, 17, 18]].concat();
    let count = random.pick(&[1, 1, 1, 1, 2, 3]);
    let aims: Vec<u8> = (0..count).map(|_| random.pick(&rules)).collect();
    let mut draft = if aims.contains(&8) {
        valid::draft_of(random, FileKind::Ctd, 1)
    } else {
        valid::valid_draft(random)
    };
    let file = spoilt(random, &mut draft, &aims);
    let readings = random.between(1, 2);
    add_readings(random, requests, &file, readings)
}

fn spoilt(random: &mut Random, draft: &mut Draft, aims: &[u8]) -> Vec<u8> {
    for &rule in aims.iter().filter(|rule| spoil::RULES_OF_PARTS.contains(rule)) {
        spoil::spoil_part(random, draft, rule);
    }
    let mut lines = draft.lines();
    for &rule in aims.iter().filter(|rule| spoil_lines::RULES_OF_LINES.contains(rule)) {
        if rule != 2 {
            spoil_lines::spoil_line(random, &mut lines, rule);
        }
    }
    spoil_lines::join(random, &lines, aims.contains(&2))
}

/// Lines and bytes edited without an aim.
fn read_edited_file<O: Write>(random: &mut Random, requests: &mut Requests<O>) -> io::Result<()> {
    let mut lines = valid::valid_draft(random).lines();
    let edits_lines = random.one_in(3);
    if edits_lines {
        spoil_lines::edit_lines(random, &mut lines);
    }
    let mut file = spoil_lines::join(random, &lines, false);
    if !edits_lines || random.one_in(3) {
        spoil_lines::edit_bytes(random, &mut file);
    }
    let readings = random.between(1, 3);
    add_readings(random, requests, &file, readings)
}

fn read_list_line<O: Write>(random: &mut Random, requests: &mut Requests<O>) -> io::Result<()> {
    let line = list_lines::list_line(random);
    requests.add(Request::Line, &line)
}

fn read_tiny_file<O: Write>(random: &mut Random, requests: &mut Requests<O>) -> io::Result<()> {
    let file = limits::tiny(random);
    add_readings(random, requests, &file, 1)
}

/// Many headers, 255 to 258 names, or a line of 8,191 to 8,194 bytes that is
/// good but for its length.
fn read_file_at_a_limit<O: Write>(
    random: &mut Random,
    requests: &mut Requests<O>,
) -> io::Result<()> {
    let file = match random.below(3) {
        0 => limits::many_headers(random).bytes(),
        1 => {
            let mut draft = valid::valid_draft(random);
            spoilt(random, &mut draft, &[11])
        }
        _ => {
            let mut draft = valid::valid_draft(random);
            let aims = random.pick(&[&[1][..], &[1], &[1, 2]]);
            spoilt(random, &mut draft, aims)
        }
    };
    add_readings(random, requests, &file, 2)
}

/// Files of exactly the sizes where a report or an answer becomes `too long`.
fn read_file_of_exact_size<O: Write>(
    random: &mut Random,
    requests: &mut Requests<O>,
) -> io::Result<()> {
    let file = limits::file_of_size(random);
    let cell = Request::Cell { row: 1, column: 1 };
    let named = Request::Named { name: b"SALNTY"[..random.below(3)].to_vec() };
    let (report, walk) = (Request::Report, Request::Walk);
    let choices = [report.clone(), report, Request::Check, Request::Line, cell, named, walk];
    requests.add(random.pick(&choices), &file)
}

/// A few files of up to about 100 KB.
fn read_large_file<O: Write>(random: &mut Random, requests: &mut Requests<O>) -> io::Result<()> {
    if random.one_in(5) {
        return requests.add(Request::Report, &limits::file_of_many_profiles(random));
    }
    let size = random.pick(&[3_000, 10_000, 10_000, 30_000, 60_000, 100_000]);
    let file = limits::large(random, size).bytes();
    add_readings(random, requests, &file, 2)?;
    requests.add(Request::Walk, &file)?;
    if let Ok(exchange) = check(&file) {
        let correction = requests::correction(random, &exchange);
        requests.add(Request::Correct(correction), &file)?;
    }
    Ok(())
}

/// A walk; and as often as not the cells of one of its columns by single calls.
fn walk_file<O: Write>(random: &mut Random, requests: &mut Requests<O>) -> io::Result<()> {
    let file = walks::file_to_walk(random);
    requests.add(Request::Walk, &file)?;
    match check(&file) {
        Ok(exchange) if random.one_in(2) => {
            let column = random.between(1, exchange.columns.len()) as u64;
            requests.add(Request::Rows { column }, &file)
        }
        _ => Ok(()),
    }
}
