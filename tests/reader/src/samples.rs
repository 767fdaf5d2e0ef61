//! The bench samples of document 01, its listing of the report on file K, the
//! samples of its readings, the calls on names and columns, and walks, by hand.

use crate::calls::{self, Reading};
use crate::check::check;
use crate::correct::{correct, Correction};
use crate::decimal;
use crate::kinds::{judge, Kind, Value};
use crate::labels;
use crate::list_line;
use crate::refusal::Refusal;
use crate::report::report;
use crate::walk::{walk, WalkedCell};
use crate::whole_columns::{column_flags, column_values, Tables};

const FILE_K: &str = "\
BOTTLE,20240310ABCXYZJRS
# made for the tests
EXPOCODE,STNNBR,CASTNO,DATE,LATITUDE,LONGITUDE,CTDPRS,SALNTY,SALNTY_FLAG_W
,,,,,,DBAR,PSS-78,
33XX20240301,7,1,20240303,-12.5000,  45.2500,  10.0, 35.1234,2
33XX20240301,7,1,20240303,-12.5000,  45.2500,  20.0,-999.0000,9
33XX20240301,8,1,20240304,-13.0000,  45.2500,   9.8, 35.2010,2
END_DATA
";

const BOTTLE_EXAMPLE: &[u8] = include_bytes!("../examples/bottle.csv");
const CTD_EXAMPLE: &[u8] = include_bytes!("../examples/ctd.csv");

fn refusal_of(file: &[u8]) -> (u8, usize, usize) {
    match check(file) {
        Ok(_) => (0, 0, 0),
        Err(refusal) => (refusal.number, refusal.line, refusal.column),
    }
}

fn millionths(text: &str) -> Option<i64> {
    decimal::read(text.as_bytes()).map(|decimal| decimal.millionths)
}

#[test]
fn decimals() {
    assert_eq!(millionths(".5"), Some(500_000));
    assert_eq!(millionths("-.25"), Some(-250_000));
    assert_eq!(millionths("5."), Some(5_000_000));
    assert_eq!(millionths("-0.00"), Some(0));
    assert_eq!(millionths("999999999.999999"), Some(999_999_999_999_999));
    for text in ["1000000000", "1.0000000", ".", "NaN", "1.2E1", "", "+", "1.2.3"] {
        assert_eq!(millionths(text), None, "{text}");
    }
    assert_eq!(millionths("-999.00"), Some(decimal::MISSING));
    assert_ne!(millionths("-999.01"), Some(decimal::MISSING));
    assert_eq!(decimal::double(0).to_bits(), 0);
}

#[test]
fn dates() {
    assert_eq!(judge(Kind::Date, b"20230229"), Err(18));
    assert_eq!(judge(Kind::Date, b"20240229"), Ok(Value::Date(20_240_229)));
}

#[test]
fn utf8_in_a_comment() {
    let with = |bytes: &[u8]| {
        let file = [b"BOTTLE\n#", bytes, b"\n"].concat();
        refusal_of(&file)
    };
    assert_eq!(with(b"\xc3\xa9"), (14, 3, 1));
    assert_eq!(with(b"\xc0\x80"), (3, 2, 2));
    assert_eq!(with(b"\xed\xa0\x80"), (3, 2, 2));
    assert_eq!(with(b"\xf4\x90\x80\x80"), (3, 2, 2));
}

#[test]
fn refused_files() {
    assert_eq!(refusal_of(b""), (14, 1, 1));
    assert_eq!(refusal_of(b"BOTTLES\n\xff\n"), (7, 1, 1));
    assert_eq!(refusal_of(b"BOTTLE,\x0d\xff\n"), (3, 1, 9));
    assert_eq!(refusal_of(b"\xff"), (2, 1, 2));
    assert_eq!(refusal_of(b"#\t\n"), (5, 1, 2));
    assert_eq!(refusal_of(b"CTD\nNUMBER_HEADERS=1\n"), (13, 2, 1));
    assert_eq!(refusal_of(&[b'x'; 8_192]), (2, 1, 8_193));
    assert_eq!(refusal_of(&[b'x'; 8_193]), (1, 1, 8_193));
    let blank_salinity = FILE_K.replacen(" 35.1234", "", 1);
    assert_eq!(refusal_of(blank_salinity.as_bytes()), (17, 5, 53));
    let flag_0 = FILE_K.replacen("35.2010,2", "35.2010,0", 1);
    assert_eq!(refusal_of(flag_0.as_bytes()), (18, 7, 62));
}

#[test]
fn report_on_k() {
    let printed = "accepted\tBOTTLE\t9\t3\t2\t1\n\
                   profile\t1\t2\t33XX20240301\t7\t1\n\
                   profile\t3\t1\t33XX20240301\t8\t1\n";
    assert_eq!(report(FILE_K.as_bytes()), printed.as_bytes());
    assert_eq!(report(&[0; 65_537]), b"too long\n");
}

#[test]
fn corrections_of_k() {
    let file = FILE_K.as_bytes();
    let order = |row, millionths, decimals, flag| {
        correct(file, &Correction { row, column: 8, millionths, decimals, flag })
    };
    let corrected = order(2, 35_130_100, 4, 2).unwrap();
    let expected = FILE_K.replacen("-999.0000,9", "  35.1301,2", 1);
    assert_eq!(corrected, expected.as_bytes());
    assert_eq!(order(1, -999_000_000, 4, 9).map_err(|refusal| refusal.number), Err(25));
    let fitting = order(1, -999_000_000, 3, 9).unwrap();
    assert_eq!(calls::decimal(&fitting, 1, 8), Ok(Reading::Missing));
    assert_eq!(calls::flag(&fitting, 1, 9), Ok(9));
}

#[test]
fn list_lines() {
    let line = list_line::read(b"9999999\tSALNTY\t5.\t0\n").unwrap();
    assert_eq!((line.row, line.millionths, line.decimals, line.flag), (9_999_999, 5_000_000, 0, 0));
    for bad in ["", "\n", "1\tPH\t7.1\t2", "1\tPH\t7.1\t2\n\n", "01\tPH\t7.1\t2\n"] {
        assert!(list_line::read(bad.as_bytes()).is_err(), "{bad:?}");
    }
}

#[test]
fn examples_of_source_document_000() {
    let bottle = "accepted\tBOTTLE\t22\t5\t1\t0\nprofile\t1\t5\t33RO20131223\t1\t2\n";
    assert_eq!(report(BOTTLE_EXAMPLE), bottle.as_bytes());
    let ctd = "accepted\tCTD\t8\t8\t1\t0\nprofile\t1\t8\t318M20130321\t1\t2\n";
    assert_eq!(report(CTD_EXAMPLE), ctd.as_bytes());
}

#[test]
fn labels_of_k() {
    let file = FILE_K.as_bytes();
    let opened = labels::open(file).ok().unwrap();
    assert_eq!((opened.headers, opened.names, opened.first), (46, 46, 140));
    assert_eq!(labels::column_named(file, b"SALNTY"), Ok(8));
    for absent in [&b"SALNT"[..], b"SALNTY_", b" SALNTY", b"SALNTY ", b"salnty", b"SALNTY\0", b""] {
        assert_eq!(labels::column_named(file, absent), Err(Refusal::without_place(21)));
    }
    assert_eq!(labels::name(file, 8), Ok(100..106));
    assert_eq!(labels::unit(file, 8), Ok(132..138));
    assert_eq!(labels::unit(file, 9), Ok(139..139));
    assert_eq!(labels::unit(file, 10), Err(Refusal::without_place(21)));
    assert_eq!(labels::header(file, 1), Err(Refusal::without_place(21)));
    assert_eq!(labels::station(file, 2, b"STNNBR").map(|place| &file[place]), Ok(&b"8"[..]));
    assert_eq!(labels::column(file, 8), Ok((0, 9)));
    assert_eq!(labels::column(file, 9), Ok((4, 0)));
}

#[test]
fn headers_of_the_example() {
    let file = CTD_EXAMPLE;
    let header = |k| labels::header(file, k).map(|(name, value)| (&file[name], &file[value]));
    assert_eq!(header(1), Ok((&b"NUMBER_HEADERS"[..], &b"10"[..])));
    assert_eq!(header(2), Ok((&b"EXPOCODE"[..], &b"318M20130321"[..])));
    assert_eq!(header(0), Err(Refusal::without_place(21)));
    assert_eq!(header(11), Err(Refusal::without_place(21)));
    assert_eq!(labels::station(file, 1, b"STNNBR").map(|place| &file[place]), Ok(&b"1"[..]));
    assert_eq!(labels::station(file, 1, b"CTDPRS"), Err(Refusal::without_place(21)));
}

#[test]
fn whole_columns_of_k() {
    let file = FILE_K.as_bytes();
    let read = |column, [cases, millionths, values]: [usize; 3]| {
        let (cases, millionths) = (vec![77; cases], vec![77; millionths]);
        let mut tables = Tables { cases, millionths, values: vec![77.0; values] };
        let rows = column_values(file, column, &mut tables).map_err(|refusal| refusal.number);
        (rows, tables.cases, tables.millionths, tables.values)
    };
    let millionths = vec![35_123_400, 0, 35_201_000, 77];
    assert_eq!(read(8, [3, 4, 3]), (Ok(3), vec![0, 1, 0], millionths, vec![35.1234, 0.0, 35.201]));
    assert_eq!(read(8, [3, 2, 3]), (Err(29), vec![77; 3], vec![77; 2], vec![77.0; 3]));
    assert_eq!(read(9, [0, 0, 0]).0, Err(22));
    assert_eq!(read(10, [0, 0, 0]).0, Err(21));
    let mut flags = [77; 4];
    assert_eq!(column_flags(file, 9, &mut flags), Ok(3));
    assert_eq!(flags, [2, 9, 2, 77]);
    assert_eq!(column_flags(file, 9, &mut flags[..2]), Err(Refusal::without_place(29)));
    assert_eq!(column_flags(file, 8, &mut flags), Err(Refusal::without_place(22)));
}

#[test]
fn walk_of_k() {
    let file = FILE_K.as_bytes();
    let cells: Vec<WalkedCell> = walk(file).ok().unwrap().collect();
    assert_eq!(cells.len(), 27);
    assert_eq!(cells[0], WalkedCell { row: 1, column: 1, part: 140..152 });
    assert_eq!(cells[5], WalkedCell { row: 1, column: 6, part: 177..184 });
    assert_eq!(cells[26], WalkedCell { row: 3, column: 9, part: 328..329 });
    for WalkedCell { row, column, part } in cells {
        assert_eq!(calls::cell(file, row as u64, column as u64), Ok(part));
    }
}

#[test]
fn walks_of_blank_cells_and_of_refused_files() {
    let headers = "CTD\nNUMBER_HEADERS=7\nEXPOCODE=A\nSTNNBR=1\nCASTNO=1\nDATE=20240101\n\
                   LATITUDE=0\nLONGITUDE=0\n";
    let rows = "CTDPRS,SECT\n,\n 1 ,   \n2,\n3, a  b \nEND_DATA\n4,x\n";
    let parts = |file: &str| {
        let cells = walk(file.as_bytes())?;
        let parts = cells.map(|cell| (cell.part.start - headers.len(), cell.part.len()));
        Ok(parts.collect::<Vec<(usize, usize)>>())
    };
    let walked = parts(&[headers, rows].concat());
    assert_eq!(walked, Ok(vec![(15, 1), (18, 0), (22, 1), (24, 0), (25, 1), (28, 4)]));
    let blank_pressure = rows.replacen("3,", " ,", 1);
    let refused = parts(&[headers, &blank_pressure].concat());
    assert_eq!(refused, Err(Refusal { number: 17, line: 13, column: 1 }));
    assert_eq!(parts(""), Err(Refusal { number: 14, line: 1, column: 1 }));
}
