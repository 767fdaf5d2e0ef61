//! Valid files of many shapes.

use super::draft::{Draft, DraftHeader, Text};
use super::values::{good, spaced};
use crate::check::FileKind;
use crate::kinds::{
    flagged_parameter, kind_of_column, kind_of_header, MEASURED_NAMES, REQUIRED_NAMES,
    STATION_NAMES,
};
use crate::lines::trim;
use crate::random::Random;

/// Unlisted names: all free text, some of them close to listed or flag names.
const FREE_NAMES: [&str; 22] = [
    "FLUOR", "XMISS", "CTDFLUOR", "CTD", "CTDX", "A=B", "_FLAG_W", "X_FLAG_WX", "FLAG_W", "#", "*",
    "1", "~", "SALNTY2", "CTDPR", "CTDPRSS", "END_DATA", "NUMBER_HEADERS", "EXPOCODE_", "N/A",
    "SALNTY_FLAG", "TIME2",
];

/// A small file of either kind.
pub fn valid_draft(random: &mut Random) -> Draft {
    let kind = random.pick(&[FileKind::Bottle, FileKind::Bottle, FileKind::Ctd]);
    let rows = match random.below(10) {
        0 => random.between(7, 14),
        1..=3 => 1,
        _ => random.between(2, 6),
    };
    draft_of(random, kind, rows)
}

pub fn draft_of(random: &mut Random, kind: FileKind, rows: usize) -> Draft {
    let names = match kind {
        FileKind::Bottle => bottle_names(random),
        FileKind::Ctd => ctd_names(random),
    };
    let headers = match kind {
        FileKind::Bottle => Vec::new(),
        FileKind::Ctd => headers(random),
    };
    Draft {
        kind,
        first_line: first_line(random, kind),
        comments: comments(random),
        headers,
        units: names.iter().map(|_| unit(random)).collect(),
        rows: data_rows(random, &names, rows),
        names,
        end: b"END_DATA".to_vec(),
        further_lines: further_lines(random),
    }
}

fn first_line(random: &mut Random, kind: FileKind) -> Text {
    let stamps = ["", "", ",", ",20240310ABCXYZJRS", ",a,b,,", ", \u{e9}\u{65e5}", ",=#"];
    [kind.word(), random.pick(&stamps)].concat().into_bytes()
}

/// A comment may hold any byte but 0A and 0D.
fn comments(random: &mut Random) -> Vec<Text> {
    let texts = [
        "#", "# made for the tests", "#,,,,", "# \u{e9}\u{1f30a}", "#\tA\u{1}\u{7f}", "#\u{0}",
        "##=", "#END_DATA", "# BOTTLE,20130215CCHSIOSCD",
    ];
    let count = random.pick(&[0, 0, 0, 1, 1, 2, 4]);
    (0..count).map(|_| random.pick(&texts).as_bytes().to_vec()).collect()
}

fn further_lines(random: &mut Random) -> Vec<Text> {
    let texts =
        ["", "END_DATA", "anything, at all", "\t\u{1}\u{7f}", "\u{e9}", "#", "a,b,c", "\u{feff}"];
    let count = random.pick(&[0, 0, 0, 0, 1, 2, 5]);
    (0..count).map(|_| random.pick(&texts).as_bytes().to_vec()).collect()
}

fn unit(random: &mut Random) -> Text {
    let units =
        ["", "", "DBAR", "ITS-90", "PSS-78", " UMOL/KG ", "\u{b0}C", "  ", "a b", "END_DATA"];
    random.pick(&units).as_bytes().to_vec()
}

/// The required names, some of the other station names, measured and free ones.
fn bottle_names(random: &mut Random) -> Vec<Text> {
    let mut names: Vec<Text> = REQUIRED_NAMES.iter().map(|name| name.as_bytes().to_vec()).collect();
    add_other_names(random, &mut names, 4);
    let measured = random.between(0, 6);
    finish_names(random, names, measured)
}

/// CTDPRS and measured names; now and then station names too.
fn ctd_names(random: &mut Random) -> Vec<Text> {
    let mut names = vec![b"CTDPRS".to_vec()];
    if random.one_in(12) {
        return names;
    }
    let one_in = if random.one_in(4) { 4 } else { 40 };
    add_other_names(random, &mut names, one_in);
    let measured = random.between(0, 5);
    finish_names(random, names, measured)
}

/// TIME and DEPTH, which are judged, twice as often as the free ones.
fn add_other_names(random: &mut Random, names: &mut Vec<Text>, one_in: usize) {
    for name in STATION_NAMES {
        let is_new = !names.contains(&name.as_bytes().to_vec());
        let one_in = if matches!(name, "TIME" | "DEPTH") { one_in / 2 } else { one_in };
        if is_new && random.one_in(one_in) {
            names.push(name.as_bytes().to_vec());
        }
    }
}

fn finish_names(random: &mut Random, mut names: Vec<Text>, measured: usize) -> Vec<Text> {
    for _ in 0..measured {
        add_new(&mut names, random.pick(&MEASURED_NAMES).as_bytes().to_vec());
    }
    for _ in 0..random.pick(&[0, 0, 1, 1, 2]) {
        let name = random.pick(&FREE_NAMES).as_bytes().to_vec();
        add_new(&mut names, name);
    }
    if random.one_in(6) {
        let name = random_name(random);
        add_new(&mut names, name);
    }
    let mut names = with_flag_names(random, &names);
    if random.one_in(3) {
        random.shuffle(&mut names);
    }
    names
        .into_iter()
        .map(|name| if random.one_in(8) { spaced(random, name) } else { name })
        .collect()
}

/// Each name, often with its flag column right after it. Any column that is no
/// flag column may have one.
fn with_flag_names(random: &mut Random, names: &[Text]) -> Vec<Text> {
    let mut all = Vec::new();
    for name in names {
        let is_measured = MEASURED_NAMES.iter().any(|measured| measured.as_bytes() == name);
        let is_flagged_often = is_measured || name == b"_FLAG_W" || name.starts_with(b"CTD");
        all.push(name.clone());
        if random.one_in(if is_flagged_often { 2 } else { 12 }) {
            all.push([&name[..], b"_FLAG_W"].concat());
        }
    }
    all
}

fn add_new(names: &mut Vec<Text>, name: Text) {
    let is_flag = flagged_parameter(&name).is_some();
    if !is_flag && !names.contains(&name) {
        names.push(name);
    }
}

/// Of the bytes 21 to 7E without commas and lower-case letters.
pub fn random_name(random: &mut Random) -> Text {
    let good_bytes: Vec<u8> =
        (0x21..=0x7E).filter(|byte: &u8| *byte != b',' && !byte.is_ascii_lowercase()).collect();
    let length = random.pick(&[1, 1, 2, 3, 6, 8, 15, 16, 17, 30]);
    (0..length).map(|_| random.pick(&good_bytes)).collect()
}

/// The headers of a CTD file, `NUMBER_HEADERS` counting them all.
fn headers(random: &mut Random) -> Vec<DraftHeader> {
    let mut names: Vec<Text> = REQUIRED_NAMES.iter().map(|name| name.as_bytes().to_vec()).collect();
    add_other_names(random, &mut names, 4);
    let free_names = ["OXYGEN", "X_FLAG_W", "#A", "CTDPRS", "INSTRUMENT_ID", "DATE_FLAG_W", "-"];
    for _ in 0..random.pick(&[0, 0, 1, 2]) {
        add_new_header_name(&mut names, random.pick(&free_names).as_bytes());
    }
    if random.one_in(3) {
        random.shuffle(&mut names);
    }
    let mut headers: Vec<DraftHeader> = Vec::new();
    for name in names {
        let value = good(random, kind_of_header(&name));
        headers.push(spaced_header(random, &name, &value));
    }
    let number = (headers.len() + 1).to_string();
    let padding = if number.len() == 1 && random.one_in(4) { "0" } else { "" };
    let number = [padding.as_bytes(), number.as_bytes()].concat();
    headers.insert(0, spaced_header(random, b"NUMBER_HEADERS", &number));
    headers
}

fn add_new_header_name(names: &mut Vec<Text>, name: &[u8]) {
    if !names.iter().any(|earlier| earlier == name) {
        names.push(name.to_vec());
    }
}

fn spaced_header(random: &mut Random, name: &[u8], value: &[u8]) -> DraftHeader {
    let equals = random.pick(&[" = ", " = ", " = ", "=", "= ", " =", "  =   "]);
    let before = random.pick(&["", "", "", "", "  "]);
    let after = random.pick(&["", "", "", "", "  "]);
    DraftHeader {
        name: [before.as_bytes(), name].concat(),
        equals: equals.as_bytes().to_vec(),
        value: [value, after.as_bytes()].concat(),
    }
}

/// Rows whose key cells often repeat those of the row above, in the same or
/// another spelling.
pub fn data_rows(random: &mut Random, names: &[Text], count: usize) -> Vec<Vec<Text>> {
    let mut rows: Vec<Vec<Text>> = Vec::new();
    for _ in 0..count {
        let mut row: Vec<Text> = Vec::new();
        for (column, name) in names.iter().enumerate() {
            let above = rows.last().map(|row: &Vec<Text>| row[column].clone());
            row.push(data_cell(random, trim(name), above));
        }
        rows.push(row);
    }
    rows
}

fn data_cell(random: &mut Random, name: &[u8], above: Option<Text>) -> Text {
    let is_key = matches!(name, b"EXPOCODE" | b"STNNBR" | b"CASTNO");
    let text = match above {
        Some(above) if is_key && !random.one_in(6) => respelled(random, name, trim(&above)),
        _ => good(random, kind_of_column(name)),
    };
    spaced(random, text)
}

/// The same cast number, perhaps with another count of leading zeros.
fn respelled(random: &mut Random, name: &[u8], text: &[u8]) -> Text {
    if name == b"CASTNO" && text.len() < 9 && random.one_in(3) {
        return [b"0", text].concat();
    }
    text.to_vec()
}
