//! Files spoilt on purpose, each by the rule whose refusal number it aims at.
//! Some spoilt files stay good, or meet an earlier rule; that is meant.

use super::draft::{Draft, DraftHeader, Text};
use super::valid::random_name;
use super::values::{good, has_range, not_of_kind, out_of_range};
use crate::check::FileKind;
use crate::kinds::{flagged_parameter, kind_of_header, Kind, PRESSURE_NAME, REQUIRED_NAMES};
use crate::lines::trim;
use crate::random::Random;

/// The rules that are broken in a draft's parts.
pub const RULES_OF_PARTS: [u8; 12] = [7, 8, 9, 10, 11, 12, 13, 15, 16, 17, 18, 19];

pub fn spoil_part(random: &mut Random, draft: &mut Draft, rule: u8) {
    match rule {
        7 => spoil_first_line(random, draft),
        8 => spoil_header(random, draft),
        9 => repeat_name(random, draft),
        10 => spoil_column_name(random, draft),
        11 => add_names_to_the_limit(random, draft),
        12 => spoil_flag_column(random, draft),
        13 => leave_out_required_name(random, draft),
        15 => spoil_number_of_cells(random, draft),
        16 => replace_judged_text(random, draft, |kind| kind != Kind::FreeText, not_of_kind),
        17 => replace_judged_text(random, draft, |kind| kind != Kind::FreeText, blank),
        18 => replace_judged_text(random, draft, has_range, out_of_range),
        19 => leave_out_data_lines(random, draft),
        _ => unreachable!("rule {rule} is broken in lines, not in parts"),
    }
}

fn texts<const N: usize>(random: &mut Random, texts: [&str; N]) -> Text {
    random.pick(&texts).as_bytes().to_vec()
}

fn spoil_first_line(random: &mut Random, draft: &mut Draft) {
    let lines = [
        "BOTTLES", "BOTTL", "bottle", "Bottle,x", " BOTTLE", "BOTTLE ", "BOTTLE ,x", "CTDS", "CT",
        "ctd", "CTD ", "CTD ,x", " CTD", "", ",", ",BOTTLE", "#BOTTLE", "#", "BOTTLE;x", "CTD=",
        "BOTTLECTD", "BOTTLE\u{e9}", "CTD\u{feff}", "NUMBER_HEADERS = 10", "END_DATA", "BOTTLE.",
        "CTD", "BOTTLE", "CTD,x", "BOTTLE,x",
    ];
    draft.first_line = texts(random, lines);
}

/// 8: a header without `=`, a bad header name, or a bad NUMBER_HEADERS.
fn spoil_header(random: &mut Random, draft: &mut Draft) {
    if draft.headers.is_empty() {
        draft.headers.push(DraftHeader::new(b"NUMBER_HEADERS", b"7"));
        return;
    }
    let any = random.below(draft.headers.len());
    match random.below(6) {
        0 | 1 => spoil_number_headers(random, draft),
        2 => draft.headers[any].equals = texts(random, ["", " ", ":", " - "]),
        3 => draft.headers[any].name = bad_header_name(random),
        4 => draft.headers[any].equals = texts(random, ["==", "= =", " = = "]),
        _ => draft.headers.swap(0, any),
    }
}

fn spoil_number_headers(random: &mut Random, draft: &mut Draft) {
    let count = draft.headers.len();
    let numbers = ["00", "0", "65", "64", "", "  ", "-1", "+7", "7.", "A", "7 7", "\u{661}"];
    draft.headers[0].value = match random.below(5) {
        0 => (count + 1).to_string().into_bytes(),
        1 => (count - 1).to_string().into_bytes(),
        2 => random.between(0, 99).to_string().into_bytes(),
        3 => format!("{count:03}").into_bytes(),
        _ => texts(random, numbers),
    };
    if random.one_in(8) {
        draft.headers[0].name =
            texts(random, ["NUMBER_HEADER", "NUMBER_HEADERSS", "number_headers"]);
    }
}

fn bad_header_name(random: &mut Random) -> Text {
    match random.below(4) {
        0 => texts(random, ["", " ", "a", "DATe", "A B", "A,B", "\u{e9}", "=", "z"]),
        1 => vec![b'A'; random.pick(&[63, 64, 65, 66, 200])],
        2 => [b"  ", &vec![b'Z'; random.pick(&[64, 65])][..], b" "].concat(),
        _ => {
            let mut name = random_name(random);
            let place = random.below(name.len() + 1);
            name.insert(place, random.pick(b" ,=az{~\x21\x7e@[`"));
            name
        }
    }
}

/// 9: a header or column name that stands there twice, or nearly so.
fn repeat_name(random: &mut Random, draft: &mut Draft) {
    if draft.headers.len() > 1 && random.one_in(2) {
        return repeat_header(random, draft);
    }
    let from = random.below(draft.names.len());
    let mut name = trim(&draft.names[from]).to_vec();
    match random.below(6) {
        0 => name.push(b'X'),
        1 => {
            name.pop();
        }
        2 => name = [b"  ", &name[..], b" "].concat(),
        _ => {}
    }
    let to = random.below(draft.names.len() + 1);
    draft.insert_column(to, name, b"1".to_vec());
}

fn repeat_header(random: &mut Random, draft: &mut Draft) {
    let mut header = random.pick(&draft.headers);
    match random.below(4) {
        0 => header.value = texts(random, ["", "x", "-999"]),
        1 => header.name = [b" ", trim(&header.name), b"  "].concat(),
        _ => {}
    }
    let place = random.between(1, draft.headers.len());
    draft.headers.insert(place, header);
    if !random.one_in(3) {
        draft.headers[0].value = draft.headers.len().to_string().into_bytes();
    }
}

/// 10: empty, or with a byte outside 21 to 7E, or with a lower-case letter.
fn spoil_column_name(random: &mut Random, draft: &mut Draft) {
    let bad_names = ["a", "z", "{", "`", "\u{e9}", "\u{80}", "A B", "\u{feff}A", "\u{a0}"];
    let column = random.below(draft.names.len());
    let name = &mut draft.names[column];
    match random.below(5) {
        0 => *name = texts(random, ["", " ", "   "]),
        1 => *name = texts(random, bad_names),
        2 => name.make_ascii_lowercase(),
        _ => {
            let place = random.below(name.len() + 1);
            name.insert(place, random.pick(b" amz@[`{}~!"));
        }
    }
}

/// 11: 255 to 258 names, one of them perhaps bad or repeated.
fn add_names_to_the_limit(random: &mut Random, draft: &mut Draft) {
    draft.rows.truncate(1);
    let count = random.pick(&[255, 256, 256, 257, 257, 257, 258]);
    let mut number = 0;
    while draft.names.len() < count {
        number += 1;
        draft.insert_column(draft.names.len(), format!("N{number}").into_bytes(), Vec::new());
    }
    if random.one_in(3) {
        let column = random.pick(&[0, 100, 254, draft.names.len() - 1]);
        let first = draft.names[0].clone();
        draft.names[column] =
            random.pick(&[first, b"".to_vec(), b"a".to_vec(), b"Q_FLAG_W".to_vec()]);
    }
}

/// 12: a flag column without its parameter, or a flag column's flag column.
fn spoil_flag_column(random: &mut Random, draft: &mut Draft) {
    let flags = draft.columns_where(|name| flagged_parameter(name).is_some());
    let flag_names =
        ["X_FLAG_W", "SALNTY_FLAG_W", "SALNTY_FLAG_WW", "A_FLAG_W_FLAG_W", "TIME_FLAG_W"];
    let name = match random.below(6) {
        0 => texts(random, ["_FLAG_W", "_FLAG_W_FLAG_W", "_FLAG_W_FLAG_W_FLAG_W"]),
        1 => texts(random, flag_names),
        2 if !flags.is_empty() => {
            let flag = random.pick(&flags);
            [trim(&draft.names[flag]), b"_FLAG_W"].concat()
        }
        3 if !flags.is_empty() => {
            let flag = random.pick(&flags);
            let parameter = flagged_parameter(trim(&draft.names[flag])).map(<[u8]>::to_vec);
            let columns = draft.columns_where(|name| parameter.as_deref() == Some(name));
            columns.iter().for_each(|&column| draft.remove_column(column));
            return;
        }
        4 => [random_name(random), b"_FLAG_W".to_vec()].concat(),
        _ => {
            let parameter = random.below(draft.names.len());
            [trim(&draft.names[parameter]), b"_FLAG_W"].concat()
        }
    };
    let place = random.below(draft.names.len() + 1);
    draft.insert_column(place, name, b"2".to_vec());
}

/// 13: a required column or header is gone or has another name.
fn leave_out_required_name(random: &mut Random, draft: &mut Draft) {
    let in_headers = draft.kind == FileKind::Ctd && !random.one_in(3);
    let required = match (draft.kind, in_headers) {
        (FileKind::Ctd, false) => PRESSURE_NAME,
        _ => random.pick(&REQUIRED_NAMES),
    };
    if in_headers {
        return leave_out_header(random, draft, required);
    }
    let columns = draft.columns_where(|name| name == required.as_bytes());
    if let Some(&column) = columns.first() {
        match random.below(3) {
            0 => draft.names[column].push(b'X'),
            1 => draft.names[column].insert(0, b'_'),
            _ => draft.remove_column(column),
        }
    }
}

fn leave_out_header(random: &mut Random, draft: &mut Draft, required: &str) {
    let is_required = |header: &DraftHeader| trim(&header.name) == required.as_bytes();
    let Some(place) = draft.headers.iter().position(is_required) else { return };
    if random.one_in(3) {
        draft.headers[place].name = [required.as_bytes(), b"_"].concat();
        return;
    }
    draft.headers.remove(place);
    draft.headers[0].value = draft.headers.len().to_string().into_bytes();
}

/// 15: a units or data line with cells too many or too few, or an `END_DATA`
/// that is not exactly that.
fn spoil_number_of_cells(random: &mut Random, draft: &mut Draft) {
    if random.one_in(5) {
        let ends = [
            "END_DATA ", " END_DATA", "END_DATA,", "end_data", "END_DATAX", "END", "",
            "\u{feff}END_DATA",
        ];
        draft.end = texts(random, ends);
        return;
    }
    let row = random.below(draft.rows.len() + 1);
    let cells = if row == 0 { &mut draft.units } else { &mut draft.rows[row - 1] };
    match random.below(5) {
        0 => cells.clear(),
        1 | 2 => cells.push(texts(random, ["", "1", " "])),
        _ => {
            cells.pop();
        }
    }
}

/// 16, 17, 18: another text where a kind is asked, in a cell or a header.
fn replace_judged_text(
    random: &mut Random,
    draft: &mut Draft,
    is_asked: impl Fn(Kind) -> bool,
    text: impl Fn(&mut Random, Kind) -> Text,
) {
    let header_kinds: Vec<Kind> =
        draft.headers.iter().map(|header| kind_of_header(trim(&header.name))).collect();
    let header = place_of_asked_kind(random, &header_kinds, &is_asked);
    if let Some(header) = header.filter(|_| !random.one_in(3)) {
        draft.headers[header].value = text(random, header_kinds[header]);
        return;
    }
    let column_kinds = draft.column_kinds();
    let Some(column) = place_of_asked_kind(random, &column_kinds, &is_asked) else { return };
    if draft.rows.is_empty() {
        return;
    }
    let row = random.below(draft.rows.len());
    let around: &[u8] = if random.one_in(3) { b"  " } else { b"" };
    if let Some(cell) = draft.rows[row].get_mut(column) {
        *cell = [around, &text(random, column_kinds[column]), around].concat();
    }
}

/// Every kind has the same chance, however many places have it.
fn place_of_asked_kind(
    random: &mut Random,
    kinds: &[Kind],
    is_asked: &impl Fn(Kind) -> bool,
) -> Option<usize> {
    let mut asked: Vec<Kind> = Vec::new();
    for &kind in kinds {
        if is_asked(kind) && !asked.contains(&kind) {
            asked.push(kind);
        }
    }
    if asked.is_empty() {
        return None;
    }
    let kind = random.pick(&asked);
    let places: Vec<usize> = (0..kinds.len()).filter(|&place| kinds[place] == kind).collect();
    Some(random.pick(&places))
}

fn blank(random: &mut Random, _: Kind) -> Text {
    vec![b' '; random.below(3)]
}

/// 19: `END_DATA` with no data line; sometimes data lines come after it.
fn leave_out_data_lines(random: &mut Random, draft: &mut Draft) {
    if random.one_in(4) {
        let further = draft.rows.iter().map(|row| row.join(&b','));
        draft.further_lines = further.chain([b"END_DATA".to_vec()]).collect();
    }
    draft.rows.clear();
    if random.one_in(8) {
        draft.units = vec![good(random, Kind::FreeText); draft.names.len()];
    }
}
