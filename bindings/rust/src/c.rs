//! The calls of the C interface, as `bindings/c/pochahuic.h` declares them.

extern "C" {
    pub fn pochahuic_check(file: *const u8, length: usize, out: *mut [u64; 8]) -> u64;
    pub fn pochahuic_cell(
        file: *const u8,
        length: usize,
        row: u64,
        column: u64,
        out: *mut [u64; 5],
    ) -> u64;
    pub fn pochahuic_decimal(
        file: *const u8,
        length: usize,
        row: u64,
        column: u64,
        millionths: *mut i64,
        value: *mut f64,
        out: *mut [u64; 3],
    ) -> u64;
    pub fn pochahuic_flag(
        file: *const u8,
        length: usize,
        row: u64,
        column: u64,
        out: *mut [u64; 4],
    ) -> u64;
    pub fn pochahuic_profile(file: *const u8, length: usize, k: u64, out: *mut [u64; 10]) -> u64;
    pub fn pochahuic_station(
        file: *const u8,
        length: usize,
        k: u64,
        name: *const u8,
        name_length: usize,
        out: *mut [u64; 5],
    ) -> u64;
    pub fn pochahuic_correct(
        file: *mut u8,
        length: usize,
        row: u64,
        column: u64,
        millionths: i64,
        decimals: u64,
        flag: u64,
        out: *mut [u64; 3],
    ) -> u64;
    pub fn pochahuic_list_line(
        line: *const u8,
        length: usize,
        millionths: *mut i64,
        out: *mut [u64; 6],
    ) -> u64;
    pub fn pochahuic_open(file: *const u8, length: usize, out: *mut [u64; 11]) -> u64;
    pub fn pochahuic_column_named(
        file: *const u8,
        length: usize,
        name: *const u8,
        name_length: usize,
        out: *mut [u64; 4],
    ) -> u64;
    pub fn pochahuic_column_in(
        file: *const u8,
        length: usize,
        names: usize,
        name: *const u8,
        name_length: usize,
    ) -> u64;
    pub fn pochahuic_name(file: *const u8, length: usize, column: u64, out: *mut [u64; 5]) -> u64;
    pub fn pochahuic_unit(file: *const u8, length: usize, column: u64, out: *mut [u64; 5]) -> u64;
    pub fn pochahuic_header(file: *const u8, length: usize, k: u64, out: *mut [u64; 7]) -> u64;
    pub fn pochahuic_column_values(
        file: *const u8,
        length: usize,
        column: u64,
        cases: *mut u8,
        cases_length: usize,
        millionths: *mut i64,
        millionths_length: usize,
        values: *mut f64,
        values_length: usize,
        out: *mut [u64; 4],
    ) -> u64;
    pub fn pochahuic_column_flags(
        file: *const u8,
        length: usize,
        column: u64,
        flags: *mut u8,
        flags_length: usize,
        out: *mut [u64; 4],
    ) -> u64;
    pub fn pochahuic_walk_open(file: *const u8, length: usize, cursor: *mut [u64; 10]) -> u64;
    pub fn pochahuic_walk_next(file: *const u8, length: usize, cursor: *mut [u64; 10]) -> u64;
}
