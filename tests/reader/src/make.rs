//! Writes valid files of a given shape, for benchmarks: widths, leading spaces
//! and flag columns as in the example files of source document 000.

use crate::check::FileKind;
use crate::kinds::{flagged_parameter, FLAG_ENDING, MEASURED_NAMES, REQUIRED_NAMES};
use crate::random::Random;
use std::io::{self, Write};

const ROWS_OF_A_CAST: usize = 24;
const LEAST_COLUMNS_OF_A_FULL_STATION: usize = 14;
const FULL_STATION: [&str; 12] = [
    "EXPOCODE", "SECT_ID", "STNNBR", "CASTNO", "SAMPNO", "BTLNBR", "BTLNBR_FLAG_W", "DATE", "TIME",
    "LATITUDE", "LONGITUDE", "DEPTH",
];
const COMMON_PARAMETERS: [&str; 10] = [
    "CTDPRS", "CTDTMP", "CTDSAL", "SALNTY", "CTDOXY", "OXYGEN", "SILCAT", "NITRAT", "NITRIT",
    "PHSPHT",
];

pub fn make(
    kind: FileKind,
    rows: usize,
    columns: usize,
    output: &mut impl Write,
) -> io::Result<()> {
    let mut random = Random::from_seed(rows as u64 * 1_000 + columns as u64);
    writeln!(output, "{},20240310ABCXYZJRS\n# made for the benchmark", kind.word())?;
    let station = match kind {
        FileKind::Ctd => Vec::new(),
        FileKind::Bottle if columns >= LEAST_COLUMNS_OF_A_FULL_STATION => FULL_STATION.to_vec(),
        FileKind::Bottle => REQUIRED_NAMES.to_vec(),
    };
    if kind == FileKind::Ctd {
        write_headers(output)?;
    }
    let mut names: Vec<String> = station.iter().map(|name| name.to_string()).collect();
    add_parameters(&mut names, columns);
    writeln!(output, "{}", names.join(","))?;
    let units: Vec<&str> = names.iter().map(|name| unit_of(name)).collect();
    writeln!(output, "{}", units.join(","))?;
    for row in 0..rows {
        let cells: Vec<String> = names.iter().map(|name| cell(name, row, &mut random)).collect();
        writeln!(output, "{}", cells.join(","))?;
    }
    writeln!(output, "END_DATA")
}

fn write_headers(output: &mut impl Write) -> io::Result<()> {
    writeln!(
        output,
        "NUMBER_HEADERS = 10\nEXPOCODE = 318M20130321\nSECT_ID = P02W\nSTNNBR = 1\nCASTNO = 2\n\
         DATE = 20130322\nTIME = 2205\nLATITUDE =  32.5068\nLONGITUDE =  133.0297\nDEPTH =   166"
    )
}

/// Measured columns, each with its flag column next to it, then unlisted ones.
fn add_parameters(names: &mut Vec<String>, columns: usize) {
    let listed = MEASURED_NAMES.iter().filter(|name| !COMMON_PARAMETERS.contains(name));
    let measured = COMMON_PARAMETERS.iter().chain(listed).map(|name| name.to_string());
    for name in measured.chain((1..).map(|number| format!("EXTRA{number}"))) {
        if names.len() >= columns {
            return;
        }
        let flag = format!("{name}_FLAG_W");
        names.push(name);
        if names.len() < columns {
            names.push(flag);
        }
    }
}

fn unit_of(name: &str) -> &'static str {
    match name {
        "CTDPRS" => "DBAR",
        "CTDTMP" | "THETA" => "ITS-90",
        "CTDSAL" | "SALNTY" => "PSS-78",
        "DEPTH" => "METERS",
        _ if name.as_bytes().ends_with(FLAG_ENDING) => "",
        _ if MEASURED_NAMES.contains(&name) => "UMOL/KG",
        _ => "",
    }
}

/// The cell of a row counted from 0; stations, casts and pressures follow the row.
fn cell(name: &str, row: usize, random: &mut Random) -> String {
    let (cast, bottle) = (row / ROWS_OF_A_CAST, row % ROWS_OF_A_CAST + 1);
    if flagged_parameter(name.as_bytes()).is_some() {
        return random.pick(&["2", "2", "2", "2", "2", "2", "2", "3", "4", "9"]).to_string();
    }
    match name {
        "EXPOCODE" => "33RO20131223".to_string(),
        "SECT_ID" => "     A16S".to_string(),
        "STNNBR" => format!("{:8}", cast / 2 + 1),
        "CASTNO" => format!("{:7}", cast % 2 + 1),
        "SAMPNO" | "BTLNBR" => format!("{bottle:8}"),
        "DATE" => format!("2013{:02}{:02}", cast / 28 % 12 + 1, cast % 28 + 1),
        "TIME" => format!("    {:02}{:02}", cast % 24, bottle * 2),
        "LATITUDE" => format!("{:10.4}", (cast % 1_000) as f64 / 16.0 - 30.0),
        "LONGITUDE" => format!("{:10.4}", (cast % 1_000) as f64 / 8.0 - 60.0),
        "DEPTH" => format!("{:9}", 4_000 + cast % 1_000),
        "CTDPRS" => format!("{:9.1}", bottle as f64 * 20.5),
        _ => measured_cell(name, random),
    }
}

/// One reading in fifty is missing.
fn measured_cell(name: &str, random: &mut Random) -> String {
    let width = 8 + name.len() % 2;
    if random.one_in(50) {
        return format!("{:>width$}", "-999.0");
    }
    let decimals = random.pick(&[1, 2, 4]);
    format!("{:width$.decimals$}", random.below(4_000_000) as f64 / 10_000.0 - 2.0)
}
