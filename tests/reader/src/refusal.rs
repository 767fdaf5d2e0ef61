//! Document 01, "Refusal numbers": a refusal is a number, a line and a byte column.

/// The numbers of document 01, each with the words of its table.
pub const LINE_TOO_LONG: u8 = 1;
pub const NO_LINE_FEED: u8 = 2;
pub const ILL_FORMED_UTF8: u8 = 3;
pub const CARRIAGE_RETURN: u8 = 4;
pub const CONTROL_BYTE: u8 = 5;
pub const BYTE_ORDER_MARK: u8 = 6;
pub const BAD_FIRST_LINE: u8 = 7;
pub const BAD_HEADER: u8 = 8;
pub const NAME_REPEATED: u8 = 9;
pub const BAD_COLUMN_NAME: u8 = 10;
pub const TOO_MANY_NAMES: u8 = 11;
pub const FLAG_WITHOUT_PARAMETER: u8 = 12;
pub const REQUIRED_NAME_ABSENT: u8 = 13;
pub const LINE_DUE: u8 = 14;
pub const WRONG_NUMBER_OF_CELLS: u8 = 15;
pub const NOT_OF_ITS_KIND: u8 = 16;
pub const BLANK: u8 = 17;
pub const OUT_OF_RANGE: u8 = 18;
pub const NO_DATA_LINE: u8 = 19;
pub const TOO_MANY_DATA_LINES: u8 = 20;
pub const NO_SUCH_PLACE: u8 = 21;
pub const COLUMN_OF_OTHER_KIND: u8 = 22;
pub const VALUE_NOT_WRITABLE: u8 = 23;
pub const FLAG_NOT_IN_SET: u8 = 24;
pub const TEXT_TOO_LONG: u8 = 25;
pub const MALFORMED_LIST_LINE: u8 = 26;
/// Of the product's own calls: a lent table is too short for the rows.
pub const TABLE_TOO_SHORT: u8 = 29;

#[derive(Clone, Copy, Debug, PartialEq, Eq)]
pub struct Refusal {
    pub number: u8,
    pub line: usize,
    pub column: usize,
}

impl Refusal {
    /// "Line and column are 0 where 'none'."
    pub fn without_place(number: u8) -> Refusal {
        Refusal { number, line: 0, column: 0 }
    }
}
