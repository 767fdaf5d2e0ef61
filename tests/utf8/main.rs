//! Every sequence of four bytes but those with a line feed, at the end of a
//! line: the check's answer beside the standard library's `from_utf8`. Shorter
//! sequences are the ends of longer ones.

#[allow(dead_code, unused_imports)]
#[path = "../../bindings/rust/src/lib.rs"]
mod pochahuic;

use pochahuic::Refusal;
use std::process::ExitCode;
use std::thread;

const BEFORE: &[u8] = b"BOTTLE\n#";
const SEQUENCE: usize = 4;
const LINE_FEED: u8 = 0x0A;
const CARRIAGE_RETURN: u8 = 0x0D;

/// Rules 3 and 4 of the comment, which is line 2; a good one has no line after it, rule 14.
fn due(sequence: &[u8]) -> Refusal {
    let in_comment = |number, place| Refusal { number, line: 2, column: place as u64 + 2 };
    if let Err(error) = std::str::from_utf8(sequence) {
        return in_comment(3, error.valid_up_to());
    }
    match sequence.iter().position(|&byte| byte == CARRIAGE_RETURN) {
        Some(place) => in_comment(4, place),
        None => Refusal { number: 14, line: 3, column: 1 },
    }
}

/// The sequences that begin with one of these bytes: how many there are, and how many get another answer.
fn compare(first_bytes: impl Iterator<Item = u8>) -> (u64, u64) {
    let mut file = [BEFORE, &[0; SEQUENCE], &[LINE_FEED]].concat();
    let (mut asked, mut different) = (0, 0);
    for first in first_bytes {
        for rest in 0..=0xFF_FF_FF_u32 {
            let [_, second, third, fourth] = rest.to_be_bytes();
            let sequence = [first, second, third, fourth];
            if sequence.contains(&LINE_FEED) {
                continue;
            }
            file[BEFORE.len()..][..SEQUENCE].copy_from_slice(&sequence);
            let answer = pochahuic::check(&file).map(|_| ());
            asked += 1;
            if answer != Err(due(&sequence)) {
                different += 1;
                println!("{sequence:02x?}: {answer:?}, but due is {:?}", due(&sequence));
            }
        }
    }
    (asked, different)
}

fn main() -> ExitCode {
    let half = |begin: u8| thread::spawn(move || compare((begin..=0xFF).step_by(2)));
    let halves = [half(0), half(1)].map(|one| one.join().expect("neither half panics"));
    let (asked, different) = (halves[0].0 + halves[1].0, halves[0].1 + halves[1].1);
    println!("{asked} sequences, {different} different");
    if different == 0 {
        ExitCode::SUCCESS
    } else {
        ExitCode::FAILURE
    }
}
