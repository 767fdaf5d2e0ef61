//! Lines of a correction list, good and malformed.

use super::spoil_lines::edit_bytes;
use super::valid::random_name;
use super::values::{any_decimal, bad_decimal, missing};
use crate::kinds::MEASURED_NAMES;
use crate::random::Random;

/// What may stand in the place of the single tab, and of the one line feed.
const BAD_TABS: [&[u8]; 4] = [b" ", b"\t\t", b",", b" \t"];
const BAD_ENDS: [&[u8]; 7] = [b"", b"\r\n", b"\n\n", b"\t\n", b" \n", b"\nx", b"\n1\tPH\t1\t0\n"];
const SHORT_LINES: [&[u8]; 6] = [b"", b"\n", b"\t\t\t\n", b"1\n", b"1\tPH\n", b"1\tPH\t7\t2"];

pub fn list_line(random: &mut Random) -> Vec<u8> {
    let mut fields = good_fields(random);
    let (mut tab, mut end): (&[u8], &[u8]) = (b"\t", b"\n");
    match random.below(20) {
        0..=8 => {}
        9..=12 => spoil_field(random, &mut fields),
        13 | 14 => spoil_field_count(random, &mut fields),
        15 => tab = random.pick(&BAD_TABS),
        16 | 17 => end = random.pick(&BAD_ENDS),
        18 => return edited(random, fields.join(tab)),
        _ => return random.pick(&SHORT_LINES).to_vec(),
    }
    [&fields.join(tab)[..], end].concat()
}

fn good_fields(random: &mut Random) -> Vec<Vec<u8>> {
    let name = match random.below(8) {
        0 | 1 => random_name(random),
        2 => vec![b'N'; random.pick(&[16, 64, 65, 256, 1_000, 9_000])],
        _ => random.pick(&MEASURED_NAMES).as_bytes().to_vec(),
    };
    let decimal = if random.one_in(6) { missing(random) } else { any_decimal(random) };
    vec![good_row(random), name, decimal, random.digits(1).into_bytes()]
}

/// 1 to 7 digits, the first not 0.
fn good_row(random: &mut Random) -> Vec<u8> {
    let row = match random.below(4) {
        0 => random.pick(&[1, 9, 10, 999_999, 1_000_000, 1_000_001, 9_999_999]),
        1 => random.between(1, 9_999_999),
        _ => random.between(1, 60),
    };
    row.to_string().into_bytes()
}

fn spoil_field(random: &mut Random, fields: &mut [Vec<u8>]) {
    let rows =
        ["0", "", "01", "10000000", "00000001", "+1", "-1", " 1", "1 ", "1.", "A", "0000000"];
    let names = ["", "salnty", "A,B", "A B", " PH", "\u{e9}", "\u{7f}", "PH\r", "z", "A\u{0}"];
    let flags = ["", "10", "a", "-1", " 2", "2 ", "22", "+", "\u{ff12}", "/", ":"];
    match random.below(4) {
        0 => fields[0] = random.pick(&rows).as_bytes().to_vec(),
        1 => fields[1] = random.pick(&names).as_bytes().to_vec(),
        2 if random.one_in(4) => fields[2] = Vec::new(),
        2 if random.one_in(4) => fields[2] = [b" ", &any_decimal(random)[..]].concat(),
        2 => fields[2] = bad_decimal(random),
        _ => fields[3] = random.pick(&flags).as_bytes().to_vec(),
    }
}

fn spoil_field_count(random: &mut Random, fields: &mut Vec<Vec<u8>>) {
    let place = random.below(fields.len());
    if random.one_in(2) {
        fields.remove(place);
    } else {
        fields.insert(place, fields[place].clone());
    }
}

fn edited(random: &mut Random, mut line: Vec<u8>) -> Vec<u8> {
    line.push(b'\n');
    edit_bytes(random, &mut line);
    line
}
