//! Document 01, "Decimals" and the text of "A correction". A decimal is cut
//! into a sign, the digits before the point and the digits after it.

pub const MOST_DIGITS_BEFORE_POINT: usize = 9;
pub const MOST_DIGITS_AFTER_POINT: usize = 6;

/// -999, which says that a reading is missing, in millionths.
pub const MISSING: i64 = -999_000_000;

#[derive(Clone, Copy, Debug, PartialEq, Eq)]
pub struct Decimal {
    pub millionths: i64,
    /// How many digits were written after the point.
    pub decimals: usize,
}

pub fn is_digits(text: &[u8]) -> bool {
    text.iter().all(u8::is_ascii_digit)
}

pub fn number_of_digits(digits: &[u8]) -> i128 {
    digits.iter().fold(0, |number, &digit| number * 10 + i128::from(digit - b'0'))
}

/// Reads a trimmed decimal; `None` where it is not of that kind, digit limits
/// included.
pub fn read(text: &[u8]) -> Option<Decimal> {
    let (is_negative, unsigned) = match text {
        [b'-', unsigned @ ..] => (true, unsigned),
        [b'+', unsigned @ ..] => (false, unsigned),
        unsigned => (false, unsigned),
    };
    let mut parts = unsigned.split(|&byte| byte == b'.');
    let whole = parts.next().unwrap_or(b"");
    let fraction = parts.next().unwrap_or(b"");
    let has_second_point = parts.next().is_some();
    if has_second_point || !is_digits(whole) || !is_digits(fraction) {
        return None;
    }
    if whole.is_empty() && fraction.is_empty() {
        return None;
    }
    if whole.len() > MOST_DIGITS_BEFORE_POINT || fraction.len() > MOST_DIGITS_AFTER_POINT {
        return None;
    }
    let size = number_of_digits(whole) * power_of_ten(MOST_DIGITS_AFTER_POINT)
        + number_of_digits(fraction) * power_of_ten(MOST_DIGITS_AFTER_POINT - fraction.len());
    let millionths = if is_negative { -size } else { size };
    Some(Decimal { millionths: millionths as i64, decimals: fraction.len() })
}

/// "The double is the millionths, held exactly, divided once by one million."
pub fn double(millionths: i64) -> f64 {
    millionths as f64 / 1_000_000.0
}

/// The text of a correction; `None` is refusal 23: decimals above 6, value not
/// below 10^15 millionths in size, or not exact in those decimals.
pub fn write(millionths: i64, decimals: u64) -> Option<String> {
    if decimals > MOST_DIGITS_AFTER_POINT as u64 {
        return None;
    }
    let decimals = decimals as usize;
    let size = i128::from(millionths).abs();
    if size >= power_of_ten(15) || size % power_of_ten(MOST_DIGITS_AFTER_POINT - decimals) != 0 {
        return None;
    }
    let sign = if millionths < 0 { "-" } else { "" };
    let whole = size / power_of_ten(MOST_DIGITS_AFTER_POINT);
    let fraction = format!("{:06}", size % power_of_ten(MOST_DIGITS_AFTER_POINT));
    let point = if decimals > 0 { "." } else { "" };
    Some(format!("{sign}{whole}{point}{}", &fraction[..decimals]))
}

fn power_of_ten(exponent: usize) -> i128 {
    10_i128.pow(exponent as u32)
}
