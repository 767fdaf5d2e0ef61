//! Document 01, "The report program and its one full listing".

use crate::check::{check, Exchange};
use crate::refusal::Refusal;

pub const MOST_BYTES_OF_A_REPORT: usize = 65_536;

/// All that the report program prints on these bytes.
pub fn report(input: &[u8]) -> Vec<u8> {
    if input.len() > MOST_BYTES_OF_A_REPORT {
        return b"too long\n".to_vec();
    }
    match check(input) {
        Ok(exchange) => accepted(&exchange),
        Err(refusal) => refused(refusal),
    }
}

fn refused(refusal: Refusal) -> Vec<u8> {
    format!("refused\t{}\t{}\t{}\n", refusal.number, refusal.line, refusal.column).into_bytes()
}

fn accepted(exchange: &Exchange) -> Vec<u8> {
    let mut printed = format!(
        "accepted\t{}\t{}\t{}\t{}\t{}\n",
        exchange.kind.word(),
        exchange.columns.len(),
        exchange.rows.len(),
        exchange.profiles.len(),
        exchange.missing
    )
    .into_bytes();
    for profile in &exchange.profiles {
        printed.extend(format!("profile\t{}\t{}\t", profile.first_row, profile.rows).bytes());
        printed.extend(profile.expocode);
        printed.push(b'\t');
        printed.extend(profile.station);
        printed.extend(format!("\t{}\n", profile.cast_number).bytes());
    }
    printed
}
