//! Lines and bytes spoilt on purpose: rules 1 to 6 and 14, and edits that aim
//! at nothing.

use super::draft::{join_lines, Text};
use crate::lines::MOST_BYTES_OF_A_LINE;
use crate::random::Random;

/// The rules that are broken in lines, whatever their place.
pub const RULES_OF_LINES: [u8; 7] = [1, 2, 3, 4, 5, 6, 14];

/// Ill-formed sequences of every sort.
const ILL_FORMED: [&[u8]; 34] = [
    b"\x80", b"\xbf", b"\xc0\x80", b"\xc0\xaf", b"\xc1\xbf", b"\xc2", b"\xc3\x28", b"\xdf",
    b"\xc3\xc3", b"\xe0\x80\x80", b"\xe0\x9f\xbf", b"\xe0\xa0", b"\xe2\x82", b"\xe2\x82\x28",
    b"\xe2\x28\xa1", b"\xed\xa0\x80", b"\xed\xbf\xbf", b"\xed\xad\xbf\xed\xb0\x80", b"\xef\xbf",
    b"\xef\xbb\xef\xbb\xbf", b"\xf0\x80\x80\x80", b"\xf0\x8f\xbf\xbf", b"\xf0\x90\x80",
    b"\xf0\x9f\x98", b"\xf0\x9f\x28\x80", b"\xf0\x9f", b"\xf0", b"\xf4\x90\x80\x80",
    b"\xf5\x80\x80\x80", b"\xf7\xbf\xbf\xbf", b"\xf8\x88\x80\x80\x80", b"\xfc\x84\x80\x80\x80\x80",
    b"\xfe", b"\xff",
];

/// The first and last sequences of the nine rows of RFC 3629's table.
const WELL_FORMED_AT_THE_LIMITS: [&[u8]; 16] = [
    b"\xc2\x80", b"\xdf\xbf", b"\xe0\xa0\x80", b"\xe0\xbf\xbf", b"\xe1\x80\x80", b"\xec\xbf\xbf",
    b"\xed\x80\x80", b"\xed\x9f\xbf", b"\xee\x80\x80", b"\xef\xbf\xbf", b"\xf0\x90\x80\x80",
    b"\xf0\xbf\xbf\xbf", b"\xf1\x80\x80\x80", b"\xf3\xbf\xbf\xbf", b"\xf4\x80\x80\x80",
    b"\xf4\x8f\xbf\xbf",
];

/// The bounds of the first bytes in that table, and the bytes beside them that
/// begin no character.
const FIRST_AT_A_BOUND: [u8; 14] =
    [0xc1, 0xc2, 0xdf, 0xe0, 0xe1, 0xec, 0xed, 0xee, 0xef, 0xf0, 0xf1, 0xf3, 0xf4, 0xf5];
/// The bounds of the later bytes, and the bytes beside them.
const LATER_AT_A_BOUND: [u8; 8] = [0x7f, 0x80, 0x8f, 0x90, 0x9f, 0xa0, 0xbf, 0xc0];

pub fn spoil_line(random: &mut Random, lines: &mut Vec<Text>, rule: u8) {
    match rule {
        1 => stretch_a_line(random, lines),
        3 => insert_sequence(random, lines),
        4 => insert_carriage_return(random, lines),
        5 => insert_control_byte(random, lines),
        6 => insert_byte_order_mark(random, lines),
        14 => {
            let left = random.below(lines.len() + 1);
            lines.truncate(left);
        }
        _ => unreachable!("rule {rule} is not broken in whole lines"),
    }
}

/// The lines as a file; rule 2 leaves out the last line feed.
pub fn join(random: &mut Random, lines: &[Text], breaks_rule_2: bool) -> Vec<u8> {
    let mut file = join_lines(lines);
    if breaks_rule_2 {
        if random.one_in(3) && !file.is_empty() {
            let left = random.below(file.len());
            file.truncate(left);
        } else {
            file.pop();
        }
    }
    file
}

/// One of the lines, the first and the last ones more often.
fn any_line<'l>(random: &mut Random, lines: &'l mut Vec<Text>) -> &'l mut Text {
    if lines.is_empty() {
        lines.push(Vec::new());
    }
    let last = lines.len() - 1;
    let place = match random.below(6) {
        0 => 0,
        1 => last,
        _ => random.between(0, last),
    };
    &mut lines[place]
}

fn insert(random: &mut Random, line: &mut Text, bytes: &[u8]) {
    let place = match random.below(4) {
        0 => 0,
        1 => line.len(),
        _ => random.below(line.len() + 1),
    };
    line.splice(place..place, bytes.iter().copied());
}

/// 1: a line of 8,191 to 8,194 bytes, the added bytes spaces before it where
/// that leaves it good.
fn stretch_a_line(random: &mut Random, lines: &mut Vec<Text>) {
    let length = MOST_BYTES_OF_A_LINE + random.pick(&[0, 1, 1, 2, 3]) - 1;
    let line = any_line(random, lines);
    let filler = random.pick(b"  A,");
    let missing = length.saturating_sub(line.len());
    match (line.first(), random.below(4)) {
        (Some(b'B' | b'C' | b'#'), 0..=2) => {
            line.push(b',');
            line.resize(length, b'x');
        }
        (_, 0 | 1) => {
            line.splice(0..0, vec![b' '; missing]);
        }
        _ => line.resize(length, filler),
    }
    if random.one_in(6) {
        insert(random, line, "\u{e9}".as_bytes());
    }
}

/// 3: ill-formed UTF-8, and well-formed sequences close to it.
fn insert_sequence(random: &mut Random, lines: &mut Vec<Text>) {
    let line = any_line(random, lines);
    let sequence = match random.below(4) {
        0 => random.pick(&WELL_FORMED_AT_THE_LIMITS).to_vec(),
        1 => sequence_at_the_bounds(random),
        _ => random.pick(&ILL_FORMED).to_vec(),
    };
    insert(random, line, &sequence);
}

/// As many bytes as the first one asks for, each at a bound of its range or
/// beside it.
fn sequence_at_the_bounds(random: &mut Random) -> Vec<u8> {
    let first = random.pick(&FIRST_AT_A_BOUND);
    let later = match first {
        ..=0xdf => 1,
        0xe0..=0xef => 2,
        _ => 3,
    };
    let mut sequence = vec![first];
    sequence.extend((0..later).map(|_| random.pick(&LATER_AT_A_BOUND)));
    sequence
}

fn insert_carriage_return(random: &mut Random, lines: &mut Vec<Text>) {
    if random.one_in(5) {
        return lines.iter_mut().for_each(|line| line.push(0x0D));
    }
    let line = any_line(random, lines);
    if random.one_in(2) {
        line.push(0x0D);
    } else {
        insert(random, line, &[0x0D]);
    }
}

fn insert_control_byte(random: &mut Random, lines: &mut Vec<Text>) {
    let byte = match random.below(32) {
        0x0A | 0x0D => 0x7F,
        byte => byte as u8,
    };
    let line = any_line(random, lines);
    insert(random, line, &[byte]);
}

fn insert_byte_order_mark(random: &mut Random, lines: &mut Vec<Text>) {
    let mark = [0xEF, 0xBB, 0xBF];
    if random.one_in(8) {
        let line = any_line(random, lines);
        insert(random, line, &mark);
    } else if let Some(line) = lines.first_mut() {
        line.splice(0..0, mark);
    }
}

/// A line left out, doubled, emptied, or exchanged with another.
pub fn edit_lines(random: &mut Random, lines: &mut Vec<Text>) {
    let (one, other) = (random.below(lines.len()), random.below(lines.len()));
    match random.below(5) {
        0 => {
            lines.remove(one);
        }
        1 => lines.insert(other, lines[one].clone()),
        2 => lines.swap(one, other),
        3 => lines.insert(other, random.pick(&[&b""[..], b"#", b"END_DATA", b",", b" "]).to_vec()),
        _ => lines[one].clear(),
    }
}

/// Random bytes put in, taken out or changed.
pub fn edit_bytes(random: &mut Random, file: &mut Vec<u8>) {
    let telling = b" ,,\n\n\r#=.+-0123456789aZ_/\t\x00\x7f\xc3\xa9\xe2\x80\xff";
    for _ in 0..random.pick(&[1, 1, 1, 2, 3, 8]) {
        let byte = if random.one_in(3) { random.next() as u8 } else { random.pick(telling) };
        let place = random.below(file.len() + 1);
        match random.below(4) {
            0 => file.insert(place, byte),
            1 if place < file.len() => {
                file.remove(place);
            }
            2 => {
                let end = file.len().min(place + random.below(20));
                file.drain(place..end);
            }
            _ if place < file.len() => file[place] = byte,
            _ => file.push(byte),
        }
    }
}
