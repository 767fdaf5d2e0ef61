//! Answers the requests of the comparison (tests/reader) over the C interface: standard input to standard output. The report, and what the requests `rows` and
//! `column` ask, which no call of the C interface hands out, are put together from the calls.

use pochahuic::{Cell, Checked, Correction, Kind, Reading, Refusal};
use std::io::{self, BufRead, Write};
use std::ops::Range;

/// What every entry of a lent table holds before the call.
const BEFORE: u8 = 77;

/// Longer requests are answered `too long`, and a report on more than so many bytes is.
const MOST_BYTES: usize = 131_072;
const MOST_REPORTED: usize = 65_536;

/// The CRC-32 of gzip.
fn crc(bytes: &[u8]) -> u32 {
    let bit = |crc: u32| if crc & 1 == 1 { (crc >> 1) ^ 0xEDB8_8320 } else { crc >> 1 };
    let step = |crc: u32, &byte: &u8| (0..8).fold(crc ^ u32::from(byte), |crc, _| bit(crc));
    !bytes.iter().fold(!0, step)
}

fn word(kind: Kind) -> &'static str {
    match kind {
        Kind::Bottle => "BOTTLE",
        Kind::Ctd => "CTD",
    }
}

fn or_refusal(answer: Result<String, Refusal>) -> String {
    answer.unwrap_or_else(|Refusal { number, line, column }| {
        format!("refused {number} {line} {column}")
    })
}

fn counts(checked: Checked) -> String {
    let Checked { kind, columns, rows, profiles, missing } = checked;
    format!("{} {columns} {rows} {profiles} {missing}", word(kind))
}

fn part(said: &str, place: Range<usize>) -> String {
    format!("{said} {} {}", place.start, place.len())
}

fn cell(file: &[u8], row: u64, column: u64) -> Result<String, Refusal> {
    Ok(part("cell", pochahuic::cell_place(file, row, column)?))
}

fn decimal(file: &[u8], row: u64, column: u64) -> Result<String, Refusal> {
    Ok(match pochahuic::decimal(file, row, column)? {
        Reading::Present { millionths, value } => {
            format!("present {millionths} {:016x}", value.to_bits())
        }
        Reading::Missing => "missing".to_string(),
    })
}

fn flag(file: &[u8], row: u64, column: u64) -> Result<String, Refusal> {
    Ok(format!("flag {}", pochahuic::flag(file, row, column)?))
}

fn values(file: &[u8], column: u64, entries: [usize; 3]) -> String {
    let mut cases = vec![BEFORE; entries[0]];
    let mut millionths = vec![i64::from(BEFORE); entries[1]];
    let mut values = vec![f64::from(BEFORE); entries[2]];
    let read =
        pochahuic::column_values_into(file, column, &mut cases, &mut millionths, &mut values);
    let mut tables = cases;
    tables.extend(millionths.iter().flat_map(|number| number.to_le_bytes()));
    tables.extend(values.iter().flat_map(|value| value.to_le_bytes()));
    let said = or_refusal(read.map(|rows| format!("values {rows}")));
    format!("{said} {:08x}", crc(&tables))
}

fn flags(file: &[u8], column: u64, entries: usize) -> String {
    let mut flags = vec![BEFORE; entries];
    let read = pochahuic::column_flags_into(file, column, &mut flags);
    let said = or_refusal(read.map(|rows| format!("flags {rows}")));
    format!("{said} {:08x}", crc(&flags))
}

/// Where a part of some bytes starts in them.
fn start(part: &[u8], bytes: &[u8]) -> usize {
    part.as_ptr() as usize - bytes.as_ptr() as usize
}

/// How many cells the walk says it will hand out, and those that it does.
fn walk(file: &[u8]) -> Result<String, Refusal> {
    let cells = pochahuic::walk(file)?;
    let count = cells.len();
    let mut lines = String::new();
    for Cell { row, column, text } in cells {
        lines += &format!("{row} {column} {} {}\n", start(text, file), text.len());
    }
    Ok(format!("walk {count} {:08x}", crc(lines.as_bytes())))
}

/// Row by row, the answers to the single requests.
fn rows(file: &[u8], column: u64) -> Result<String, Refusal> {
    let count = pochahuic::check(file)?.rows;
    let mut lines = String::new();
    for row in 1..=count {
        for call in [cell, decimal, flag] {
            lines += &or_refusal(call(file, row, column));
            lines.push('\n');
        }
    }
    Ok(format!("rows {count} {:08x}", crc(lines.as_bytes())))
}

/// The kind of a column by its name and by the call that reads its first row, and its flag column by name.
fn column(file: &[u8], column: u64) -> Result<String, Refusal> {
    let name = pochahuic::name(file, column)?;
    let is_decimal = pochahuic::decimal(file, 1, column).is_ok();
    let is_flag = pochahuic::flag(file, 1, column).is_ok();
    let kind = match name {
        b"LATITUDE" => 1,
        b"LONGITUDE" => 2,
        b"DEPTH" => 3,
        _ if is_decimal => 0,
        _ if is_flag => 4 + u8::from(name.starts_with(b"CTD")),
        b"EXPOCODE" => 6,
        b"STNNBR" => 7,
        b"CASTNO" => 8,
        b"DATE" => 9,
        b"TIME" => 10,
        _ => 11,
    };
    let flag_column = pochahuic::column_named(file, &[name, b"_FLAG_W"].concat()).unwrap_or(0);
    Ok(format!("column {kind} {flag_column}"))
}

fn profile(file: &[u8], k: u64) -> Result<String, Refusal> {
    let profile = pochahuic::profile(file, k)?;
    let time = profile
        .time
        .map_or("missing".to_string(), |(hour, minute)| format!("given {hour} {minute}"));
    Ok(format!(
        "profile {} {} {} {} {time}",
        profile.first, profile.rows, profile.castno, profile.date
    ))
}

fn accepted(file: &[u8]) -> Result<Vec<u8>, Refusal> {
    let checked = pochahuic::check(file)?;
    let mut printed = format!("accepted\t{}\n", counts(checked).replace(' ', "\t")).into_bytes();
    for k in 1..=checked.profiles {
        let profile = pochahuic::profile(file, k)?;
        printed.extend(format!("profile\t{}\t{}\t", profile.first, profile.rows).bytes());
        printed.extend(pochahuic::station(file, k, b"EXPOCODE")?);
        printed.push(b'\t');
        printed.extend(pochahuic::station(file, k, b"STNNBR")?);
        printed.extend(format!("\t{}\n", profile.castno).bytes());
    }
    Ok(printed)
}

fn report(file: &[u8]) -> Vec<u8> {
    if file.len() > MOST_REPORTED {
        return b"too long\n".to_vec();
    }
    accepted(file).unwrap_or_else(|refusal| {
        format!("refused\t{}\t{}\t{}\n", refusal.number, refusal.line, refusal.column).into_bytes()
    })
}

/// The column of a name by the call that checks the file; the one that does not must say the same.
fn named(file: &[u8], name: &[u8]) -> Result<u64, Refusal> {
    let asked = pochahuic::column_named(file, name);
    if let Ok(opened) = pochahuic::open(file) {
        assert_eq!(asked.ok(), pochahuic::column_in(file, opened.names, name));
    }
    asked
}

/// The answer to a request: its words but for the lengths, its file or list line, and the name of those that have one.
fn answer(words: &[&str], bytes: &mut [u8], name: &[u8]) -> Result<String, Refusal> {
    let number = |index: usize| words[index].parse::<u64>().expect("a number");
    let entries = |index: usize| words[index].parse::<usize>().expect("a table's length");
    Ok(match words[0] {
        "check" => format!("accepted {}", counts(pochahuic::check(bytes)?)),
        "open" => {
            let opened = pochahuic::open(bytes)?;
            let (counts, headers) = (counts(opened.checked), opened.headers);
            format!("opened {counts} {headers} {} {}", opened.names, opened.first)
        }
        "cell" => cell(bytes, number(1), number(2))?,
        "decimal" => decimal(bytes, number(1), number(2))?,
        "flag" => flag(bytes, number(1), number(2))?,
        "profile" => profile(bytes, number(1))?,
        "station" => part("station", pochahuic::station_place(bytes, number(1), name)?),
        "named" => format!("column {}", named(bytes, name)?),
        "name" => part("name", pochahuic::name_place(bytes, number(1))?),
        "unit" => part("unit", pochahuic::unit_place(bytes, number(1))?),
        "header" => {
            let (name, value) = pochahuic::header_place(bytes, number(1))?;
            part(&part("header", name), value)
        }
        "values" => values(bytes, number(1), [entries(2), entries(3), entries(4)]),
        "flags" => flags(bytes, number(1), entries(2)),
        "walk" => walk(bytes)?,
        "rows" => rows(bytes, number(1))?,
        "column" => column(bytes, number(1))?,
        "correct" => {
            let millionths = words[3].parse().expect("a number");
            pochahuic::correct(bytes, number(1), number(2), millionths, number(4), number(5))?;
            format!("applied {:08x}", crc(bytes))
        }
        "line" => list_line(bytes)?,
        "report" => {
            let printed = report(bytes);
            format!("report {:08x} {}", crc(&printed), printed.len())
        }
        other => panic!("no such request: {other}"),
    })
}

fn list_line(bytes: &[u8]) -> Result<String, Refusal> {
    let Correction { row, name, millionths, decimals, flag } = pochahuic::read_list_line(bytes)?;
    let (start, length) = (start(name, bytes), name.len());
    Ok(format!("line {row} {start} {length} {millionths} {decimals} {flag}"))
}

/// The last word that is left.
fn length(words: &mut Vec<&str>) -> usize {
    words.pop().and_then(|word| word.parse().ok()).expect("a length")
}

/// The bytes of a block, without the line feed after it; none where the request has no such block.
fn block(input: &mut impl BufRead, length: Option<usize>) -> io::Result<Vec<u8>> {
    let Some(length) = length else { return Ok(Vec::new()) };
    let mut bytes = vec![0; length + 1];
    input.read_exact(&mut bytes)?;
    bytes.pop();
    Ok(bytes)
}

fn main() -> io::Result<()> {
    let (mut input, mut output) = (io::stdin().lock(), io::BufWriter::new(io::stdout().lock()));
    let mut header = String::new();
    while input.read_line(&mut header)? != 0 {
        let mut words: Vec<&str> = header.trim_end().split(' ').collect();
        let has_name = matches!(words[0], "named" | "station");
        let name_length = has_name.then(|| length(&mut words));
        let mut bytes = block(&mut input, Some(length(&mut words)))?;
        let name = block(&mut input, name_length)?;
        let said = if bytes.len() + name.len() > MOST_BYTES {
            "too long".to_string()
        } else {
            or_refusal(answer(&words, &mut bytes, &name))
        };
        writeln!(output, "{said}")?;
        header.clear();
    }
    output.flush()
}
