//! The files that are timed and compared.

use crate::check::FileKind;
use crate::make::make;

pub const MEGABYTE: usize = 1_000_000;
/// The columns of the bottle files, whatever their size.
pub const BOTTLE_COLUMNS: u64 = 40;

pub struct Made {
    pub kind: FileKind,
    pub rows: u64,
    pub columns: u64,
    pub bytes: Vec<u8>,
}

impl Made {
    pub fn new(kind: FileKind, rows: u64, columns: u64) -> Made {
        let mut bytes = Vec::new();
        make(kind, rows as usize, columns as usize, &mut bytes).expect("memory takes every byte");
        Made { kind, rows, columns, bytes }
    }

    /// As many rows as make a file of about so many bytes.
    pub fn of_size(kind: FileKind, size: usize, columns: u64) -> Made {
        const SAMPLE: usize = 1_000;
        let sample = Made::new(kind, SAMPLE as u64, columns).bytes.len();
        Made::new(kind, (size * SAMPLE / sample) as u64, columns)
    }

    /// The last measured column; its flag column is next to it.
    pub fn last_measured(&self) -> u64 {
        self.columns - 1
    }

    pub fn megabytes(&self) -> f64 {
        self.bytes.len() as f64 / MEGABYTE as f64
    }
}
