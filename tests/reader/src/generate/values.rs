//! Texts of each kind: good ones in many spellings, and ones that are blank,
//! not of the kind, or out of range.

use crate::kinds::{days_in_month, Kind};
use crate::random::Random;

/// -999 in many spellings, all of them missing where a decimal may be.
const MISSING_SPELLINGS: [&str; 10] = [
    "-999", "-999.", "-999.0", "-999.00", "-999.000", "-999.0000", "-999.000000", "-0999",
    "-000000999", "-000000999.000000",
];

/// Close to -999 and present.
const NEARLY_MISSING: [&str; 8] =
    ["-999.01", "-998.999999", "-999.000001", "999", "+999.0", "-9990", "-99.9", "-0999.1"];

const DECIMALS_AT_THE_LIMITS: [&str; 16] = [
    "999999999.999999", "-999999999.999999", "+999999999.999999", "000000000.000000", "-0", "+0",
    "-0.00", ".5", "-.25", "5.", "+5.", "000000001", ".000001", "-.000001", "0.", ".0",
];

const NOT_DECIMALS: [&str; 31] = [
    "1000000000", "0000000001", "1.0000000", ".0000000", "9999999999.9", ".", "+", "-", "+.", "-.",
    "..", "1..2", "1.2.3", ".5.", "NaN", "nan", "inf", "1.2E1", "1e5", "0x10", "--1", "+-1", "-+1",
    "1-", "1+", "1 2", "- 1", "1_000", "1.2a", "\u{ff11}", "-999 .0",
];

pub fn good(random: &mut Random, kind: Kind) -> Vec<u8> {
    match kind {
        Kind::Key => good_key(random),
        Kind::CastNumber => good_cast_number(random),
        Kind::Date => good_date(random),
        Kind::Time => good_time(random),
        Kind::Latitude => good_degrees(random, 90),
        Kind::Longitude => good_degrees(random, 180),
        Kind::Depth | Kind::Measured => good_reading(random),
        Kind::Flag { of_ctd_parameter } => good_flag(random, of_ctd_parameter),
        Kind::FreeText => free_text(random),
    }
}

/// Not blank and not of the kind; a comma in it parts a cell, but no header.
pub fn not_of_kind(random: &mut Random, kind: Kind) -> Vec<u8> {
    match kind {
        Kind::Key => {
            one_of(random, &["A B", "33/1", "/", "7 /", "a  b", "7/8/9", "\u{e9} 1", "A,B", ","])
        }
        Kind::CastNumber => {
            let texts = [
                "0000000001", "1000000000", "-1", "+1", "1.0", "1A", "1 1", "-999", "A", "\u{661}",
            ];
            one_of(random, &texts)
        }
        Kind::Date => {
            let texts = [
                "2024010", "202401011", "2024-1-1", "2024 101", "-2024101", "2024010A", "-999",
                "+2024010", "2024.101", "\u{ff12}0240101", "020240101", "/0240101", "2024010:",
            ];
            one_of(random, &texts)
        }
        Kind::Time => {
            let texts = [
                "706", "07060", "7:06", "-999.0", "-999.", "-0999", "-998", "999", "+999", "12 5",
                "12:30", "1.30", "-100", "AAAA", "24000", "/000", "000:",
            ];
            one_of(random, &texts)
        }
        Kind::Flag { .. } => {
            let texts =
                ["00", "22", "10", "-1", "A", "+", ".", "2.", "\u{e9}", "2 2", "/", ":", "-9"];
            one_of(random, &texts)
        }
        Kind::Latitude | Kind::Longitude | Kind::Depth | Kind::Measured => bad_decimal(random),
        Kind::FreeText => free_text(random),
    }
}

/// The kinds whose range or set does not hold every text of the kind.
pub fn has_range(kind: Kind) -> bool {
    !matches!(kind, Kind::Key | Kind::Depth | Kind::Measured | Kind::FreeText)
}

/// Of the kind, and mostly out of its range or flag set.
pub fn out_of_range(random: &mut Random, kind: Kind) -> Vec<u8> {
    match kind {
        Kind::CastNumber => {
            one_of(random, &["1000", "999999999", "000001000", "0001000", "1001", "000000999"])
        }
        Kind::Date if random.one_in(3) => random.digits(8).into_bytes(),
        Kind::Date => {
            let dates = [
                "20230229", "19000229", "21000229", "00000101", "20240431", "20240631", "20240931",
                "20241131", "20240001", "20241301", "20240100", "20240132", "00000000", "20240230",
                "99999999", "00000229", "01000229", "20240732", "20241232",
            ];
            one_of(random, &dates)
        }
        Kind::Time if random.one_in(4) => random.digits(4).into_bytes(),
        Kind::Time => one_of(random, &["2400", "0060", "9999", "2360", "0099", "2359"]),
        Kind::Latitude => degrees_out_of_range(random, 90),
        Kind::Longitude => degrees_out_of_range(random, 180),
        Kind::Flag { .. } => one_of(random, &["0", "8"]),
        Kind::Key | Kind::Depth | Kind::Measured | Kind::FreeText => good(random, kind),
    }
}

/// A decimal of any good shape.
pub fn any_decimal(random: &mut Random) -> Vec<u8> {
    let sign = random.pick(&["", "", "", "-", "+"]);
    let whole = random.below(10);
    let fraction = random.below(7);
    if whole + fraction == 0 {
        return b"0".to_vec();
    }
    let point = if fraction > 0 || random.one_in(4) { "." } else { "" };
    format!("{sign}{}{point}{}", random.digits(whole), random.digits(fraction)).into_bytes()
}

pub fn bad_decimal(random: &mut Random) -> Vec<u8> {
    if random.one_in(2) {
        return one_of(random, &NOT_DECIMALS);
    }
    let mut text = any_decimal(random);
    let place = random.below(text.len() + 1);
    text.insert(place, random.pick(b"+-.eE x/:,0"));
    text
}

pub fn missing(random: &mut Random) -> Vec<u8> {
    one_of(random, &MISSING_SPELLINGS)
}

/// Text without commas or control bytes, sometimes beyond ASCII, sometimes blank.
pub fn free_text(random: &mut Random) -> Vec<u8> {
    let texts = [
        "", "", "A16S", "24", "P02W", "x y", "a/b", "-999", "END_DATA", "#", "= =", "\u{e9}",
        "Stra\u{df}e 7", "\u{65e5}\u{672c}", "\u{1f30a} wave", "\u{feff}", "\u{80}", "\u{7ff}",
        "\u{800}", "\u{ffff}", "\u{10000}", "\u{10ffff}", "\u{d7ff}\u{e000}", "\u{a0}", "~!@$%^&*",
    ];
    one_of(random, &texts)
}

/// The text with spaces round it, as often as not set at the right of its cell.
pub fn spaced(random: &mut Random, text: Vec<u8>) -> Vec<u8> {
    let (left, right) = match random.below(8) {
        0..=3 => (0, 0),
        4 | 5 => (9_usize.saturating_sub(text.len()), 0),
        6 => (random.below(4), random.below(3)),
        _ => (0, random.between(1, 2)),
    };
    [vec![b' '; left], text, vec![b' '; right]].concat()
}

fn one_of(random: &mut Random, texts: &[&str]) -> Vec<u8> {
    random.pick(texts).as_bytes().to_vec()
}

/// Few different ones, so that neighbouring rows often agree.
fn good_key(random: &mut Random) -> Vec<u8> {
    if random.one_in(80) {
        return vec![b'K'; random.pick(&[17, 64, 65, 300, 2_000])];
    }
    let keys =
        ["33RO20131223", "7", "07", "8", "33XX", "A-1", "\u{e9}7", "-999", "_", "\u{65e5}", "0"];
    one_of(random, &keys)
}

fn good_cast_number(random: &mut Random) -> Vec<u8> {
    match random.below(3) {
        0 => one_of(random, &["1", "01", "001", "000000001", "0", "000000000", "2"]),
        1 => one_of(random, &["999", "000000999", "0999", "998", "10", "100"]),
        _ => format!("{}", random.below(4)).into_bytes(),
    }
}

fn good_date(random: &mut Random) -> Vec<u8> {
    if random.one_in(3) {
        let dates = [
            "20240229", "20000229", "00010101", "99991231", "19000228", "20230228", "00040229",
            "04000229", "20240430", "20241231",
        ];
        return one_of(random, &dates);
    }
    let (year, month) = (random.between(1, 9999) as u32, random.between(1, 12) as u32);
    let day = random.between(1, days_in_month(year, month) as usize);
    format!("{year:04}{month:02}{day:02}").into_bytes()
}

fn good_time(random: &mut Random) -> Vec<u8> {
    if random.one_in(2) {
        return one_of(random, &["0000", "2359", "-999", "0059", "2300", "0706", "1000"]);
    }
    format!("{:02}{:02}", random.below(24), random.below(60)).into_bytes()
}

fn good_degrees(random: &mut Random, most: usize) -> Vec<u8> {
    if random.one_in(3) {
        let texts =
            ["M", "-M", "+M", "M.", "M.0", "-M.000000", "000000M", "0", "-0", ".5", "-.000001"];
        return one_of(random, &texts).replace_all(b'M', &most.to_string());
    }
    let sign = random.pick(&["", "-", "+"]);
    let fraction = random.below(7);
    format!("{sign}{}.{}", random.below(most), random.digits(fraction)).into_bytes()
}

fn degrees_out_of_range(random: &mut Random, most: usize) -> Vec<u8> {
    match random.below(3) {
        0 => missing(random),
        1 => any_decimal(random),
        _ => {
            let texts = ["M.000001", "-M.000001", "+M.1", "N", "-N", "-N.", "999999999.999999"];
            let text = one_of(random, &texts).replace_all(b'M', &most.to_string());
            text.replace_all(b'N', &(most + 1).to_string())
        }
    }
}

fn good_reading(random: &mut Random) -> Vec<u8> {
    match random.below(10) {
        0..=2 => missing(random),
        3 => one_of(random, &NEARLY_MISSING),
        4 => one_of(random, &DECIMALS_AT_THE_LIMITS),
        5 => any_decimal(random),
        _ => {
            let decimals = random.between(1, 4);
            format!("{}.{}", random.below(400), random.digits(decimals)).into_bytes()
        }
    }
}

fn good_flag(random: &mut Random, of_ctd_parameter: bool) -> Vec<u8> {
    match random.between(1, 9) {
        8 if of_ctd_parameter => b"2".to_vec(),
        flag => flag.to_string().into_bytes(),
    }
}

trait ReplaceAll {
    fn replace_all(self, letter: u8, text: &str) -> Self;
}

impl ReplaceAll for Vec<u8> {
    fn replace_all(self, letter: u8, text: &str) -> Vec<u8> {
        let pieces: Vec<&[u8]> = self.split(|&byte| byte == letter).collect();
        pieces.join(text.as_bytes())
    }
}
