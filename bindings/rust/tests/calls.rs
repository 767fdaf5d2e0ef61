//! Every call on file K of the rules, accepted and refused; headers on a small CTD file.

use pochahuic::{
    cell, check, column_flags, column_flags_into, column_in, column_named, column_values,
    column_values_into, correct, decimal, flag, header, name, open, profile, read_list_line,
    station, unit, walk, Cell, Checked, Correction, Header, Kind, Opened, Profile, Reading,
    Refusal, MISSING, PRESENT,
};

const K: &[u8] = include_bytes!("../../k_hy1.csv");
/// A CTD file of two rows, by hand.
const CTD: &[u8] = b"CTD,20130709ODF
NUMBER_HEADERS = 7
EXPOCODE = 318M20130321
STNNBR = 1
CASTNO = 2
DATE = 20130322
LATITUDE =  32.5068
LONGITUDE =  133.0297
CTDPRS,CTDPRS_FLAG_W
DBAR,
  2.0,2
-999,9
END_DATA
";
const SALNTY: u64 = 8;
const SALNTY_FLAG_W: u64 = 9;

fn refusal(number: u64, line: u64, column: u64) -> Refusal {
    Refusal { number, line, column }
}

/// K with the bytes of one text replaced by another.
fn changed(from: &str, to: &str) -> Vec<u8> {
    std::str::from_utf8(K).unwrap().replacen(from, to, 1).into_bytes()
}

#[test]
fn the_check_counts() {
    assert_eq!(
        check(K),
        Ok(Checked { kind: Kind::Bottle, columns: 9, rows: 3, profiles: 2, missing: 1 })
    );
}

#[test]
fn a_refusal_says_where_and_why() {
    assert_eq!(check(b""), Err(refusal(14, 1, 1)));
    assert_eq!(check(&changed("2\n33XX", "0\n33XX")), Err(refusal(18, 5, 62)));
    let blank = check(&changed(" 35.1234", "        ")).unwrap_err();
    assert_eq!(blank.to_string(), "line 5, column 53: blank where a value is asked (17)");
    assert_eq!(
        decimal(K, 4, SALNTY).unwrap_err().to_string(),
        "no such row, column, profile, header or name (21)"
    );
}

#[test]
fn cells_are_parts_of_the_file() {
    assert_eq!(cell(K, 1, SALNTY), Ok(&b"35.1234"[..]));
    assert_eq!(cell(K, 3, 2), Ok(&b"8"[..]));
    assert_eq!(cell(K, 0, 1), Err(refusal(21, 0, 0)));
    assert_eq!(cell(K, 1, u64::MAX), Err(refusal(21, 0, 0)));
}

#[test]
fn a_missing_reading_has_no_number() {
    assert_eq!(
        decimal(K, 1, SALNTY),
        Ok(Reading::Present { millionths: 35_123_400, value: 35.1234 })
    );
    assert_eq!(decimal(K, 2, SALNTY), Ok(Reading::Missing));
    assert_eq!(decimal(K, 1, 5), Ok(Reading::Present { millionths: -12_500_000, value: -12.5 }));
    assert_eq!(decimal(K, 1, SALNTY_FLAG_W), Err(refusal(22, 0, 0)));
    assert_eq!(decimal(&K[..10], 1, SALNTY), Err(refusal(2, 1, 11)));
}

#[test]
fn flags_are_read_from_their_own_column() {
    assert_eq!(flag(K, 2, SALNTY_FLAG_W), Ok(9));
    assert_eq!(flag(K, 2, SALNTY), Err(refusal(22, 0, 0)));
}

#[test]
fn profiles_and_their_keys() {
    assert_eq!(
        profile(K, 1),
        Ok(Profile { first: 1, rows: 2, castno: 1, date: 20240303, time: None })
    );
    assert_eq!(profile(K, 3), Err(refusal(21, 0, 0)));
    assert_eq!(station(K, 2, b"STNNBR"), Ok(&b"8"[..]));
    assert_eq!(station(K, 2, b"TIME"), Err(refusal(21, 0, 0)));
    assert_eq!(station(K, 2, b""), Err(refusal(21, 0, 0)));
}

#[test]
fn where_the_parts_of_a_file_start() {
    let checked = check(K).unwrap();
    assert_eq!(open(K), Ok(Opened { checked, headers: 46, names: 46, first: 140 }));
    let opened = open(CTD).unwrap();
    assert!(CTD[opened.headers..].starts_with(b"NUMBER_HEADERS"));
    assert!(CTD[opened.names..].starts_with(b"CTDPRS,"));
    assert!(CTD[opened.first..].starts_with(b"  2.0"));
    assert_eq!(open(&K[..10]), Err(refusal(2, 1, 11)));
}

#[test]
fn a_column_is_found_by_its_whole_name() {
    assert_eq!(column_named(K, b"SALNTY"), Ok(SALNTY));
    assert_eq!(column_named(K, b"SALNTY_FLAG_W"), Ok(SALNTY_FLAG_W));
    for absent in [&b"SALNT"[..], b"SALNTY ", b"salnty", b"SALNTY\0", b"NUMBER_HEADERS", b""] {
        assert_eq!(column_named(K, absent), Err(refusal(21, 0, 0)));
    }
    assert_eq!(column_named(&K[..10], b"SALNTY"), Err(refusal(2, 1, 11)));
    let names = open(K).unwrap().names;
    assert_eq!(column_in(K, names, b"SALNTY"), Some(SALNTY));
    assert_eq!(column_in(K, names, b"SALNT"), None);
    assert_eq!(column_in(K, K.len() + 1, b"SALNTY"), None);
}

#[test]
fn names_and_units_are_parts_of_the_file() {
    assert_eq!(name(K, SALNTY), Ok(&b"SALNTY"[..]));
    assert_eq!(unit(K, SALNTY), Ok(&b"PSS-78"[..]));
    assert_eq!(unit(K, 1), Ok(&b""[..]));
    for column in [0, 10, u64::MAX] {
        assert_eq!(name(K, column), Err(refusal(21, 0, 0)));
        assert_eq!(unit(K, column), Err(refusal(21, 0, 0)));
    }
    assert_eq!(name(&K[..10], 1), Err(refusal(2, 1, 11)));
    assert_eq!(unit(&K[..10], 1), Err(refusal(2, 1, 11)));
}

#[test]
fn only_a_ctd_file_has_headers() {
    assert_eq!(header(CTD, 1), Ok(Header { name: b"NUMBER_HEADERS", value: b"7" }));
    assert_eq!(header(CTD, 7), Ok(Header { name: b"LONGITUDE", value: b"133.0297" }));
    assert_eq!(header(CTD, 0), Err(refusal(21, 0, 0)));
    assert_eq!(header(CTD, 8), Err(refusal(21, 0, 0)));
    assert_eq!(header(K, 1), Err(refusal(21, 0, 0)));
    assert_eq!(header(&CTD[..5], 1), Err(refusal(2, 1, 6)));
}

#[test]
fn a_column_is_read_whole() {
    let present = |millionths, value| Reading::Present { millionths, value };
    let salinities =
        vec![present(35_123_400, 35.1234), Reading::Missing, present(35_201_000, 35.201)];
    assert_eq!(column_values(K, SALNTY), Ok(salinities));
    assert_eq!(column_values(CTD, 1), Ok(vec![present(2_000_000, 2.0), Reading::Missing]));
    assert_eq!(column_values(K, SALNTY_FLAG_W), Err(refusal(22, 0, 0)));
    assert_eq!(column_values(K, 0), Err(refusal(21, 0, 0)));
    assert_eq!(column_values(&K[..10], SALNTY), Err(refusal(2, 1, 11)));
    assert_eq!(column_flags(K, SALNTY_FLAG_W), Ok(vec![2, 9, 2]));
    assert_eq!(column_flags(K, SALNTY), Err(refusal(22, 0, 0)));
    assert_eq!(column_flags(K, 10), Err(refusal(21, 0, 0)));
    assert_eq!(column_flags(&K[..10], SALNTY_FLAG_W), Err(refusal(2, 1, 11)));
}

#[test]
fn lent_tables_keep_what_lies_past_the_rows() {
    let (mut cases, mut millionths, mut values) = ([77; 4], [77; 3], [77.0; 5]);
    let rows = column_values_into(K, SALNTY, &mut cases, &mut millionths, &mut values);
    assert_eq!(rows, Ok(3));
    assert_eq!(cases, [PRESENT, MISSING, PRESENT, 77]);
    assert_eq!(millionths, [35_123_400, 0, 35_201_000]);
    assert_eq!(values, [35.1234, 0.0, 35.201, 77.0, 77.0]);
    let mut flags = [77; 4];
    assert_eq!(column_flags_into(K, SALNTY_FLAG_W, &mut flags), Ok(3));
    assert_eq!(flags, [2, 9, 2, 77]);
}

#[test]
fn a_table_that_is_too_short_is_left_alone() {
    for short in 0..3 {
        let mut lengths = [3; 3];
        lengths[short] = 2;
        let (mut cases, mut millionths) = (vec![77; lengths[0]], vec![77; lengths[1]]);
        let mut values = vec![77.0; lengths[2]];
        let refused = column_values_into(K, SALNTY, &mut cases, &mut millionths, &mut values);
        assert_eq!(refused, Err(refusal(29, 0, 0)));
        assert!(cases.iter().all(|&case| case == 77));
        assert!(millionths.iter().all(|&number| number == 77));
        assert!(values.iter().all(|&value| value == 77.0));
    }
    let mut flags = [77; 2];
    assert_eq!(column_flags_into(K, SALNTY_FLAG_W, &mut flags), Err(refusal(29, 0, 0)));
    assert_eq!(flags, [77; 2]);
    assert_eq!(column_flags_into(K, SALNTY, &mut []), Err(refusal(22, 0, 0)));
    assert_eq!(refusal(29, 0, 0).to_string(), "a lent table is too short for the rows (29)");
}

#[test]
fn a_walk_hands_out_the_cells_of_the_single_calls() {
    for file in [K, CTD] {
        let Checked { columns, rows, .. } = check(file).unwrap();
        let places = (1..=rows).flat_map(|row| (1..=columns).map(move |column| (row, column)));
        let single = |(row, column)| Cell { row, column, text: cell(file, row, column).unwrap() };
        let cells: Vec<Cell> = walk(file).unwrap().collect();
        assert_eq!(cells, places.map(single).collect::<Vec<Cell>>());
    }
    let texts: Vec<&[u8]> = walk(CTD).unwrap().map(|cell| cell.text).collect();
    assert_eq!(texts, [&b"2.0"[..], b"2", b"-999", b"9"]);
}

#[test]
fn a_walk_counts_its_cells_and_stays_at_its_end() {
    let mut cells = walk(K).unwrap();
    for left in (0..27).rev() {
        assert_eq!(cells.len(), left + 1);
        assert!(cells.next().is_some());
    }
    for _ in 0..3 {
        assert_eq!(cells.len(), 0);
        assert_eq!(cells.next(), None);
    }
}

#[test]
fn a_blank_cell_is_empty_at_its_first_byte() {
    let file = changed(",CTDPRS,", ",REMARK,");
    let file = String::from_utf8(file).unwrap().replace(",  10.0,", ",      ,").into_bytes();
    let blank = walk(&file).unwrap().nth(6).unwrap();
    assert_eq!(blank, Cell { row: 1, column: 7, text: b"" });
    let before = "33XX20240301,7,1,20240303,-12.5000,  45.2500,".len();
    assert_eq!(blank.text.as_ptr(), file[open(&file).unwrap().first + before..].as_ptr());
}

#[test]
fn a_refused_file_has_no_walk() {
    assert_eq!(walk(b"").unwrap_err(), refusal(14, 1, 1));
    assert_eq!(walk(&K[..10]).unwrap_err(), refusal(2, 1, 11));
    assert_eq!(walk(&changed("2\n33XX", "0\n33XX")).unwrap_err(), refusal(18, 5, 62));
}

#[test]
fn a_correction_changes_its_cells_only() {
    let mut file = K.to_vec();
    assert_eq!(correct(&mut file, 2, SALNTY, 35_130_100, 4, 2), Ok(()));
    assert_eq!(file, changed("-999.0000,9", "  35.1301,2"));
    assert_eq!(
        decimal(&file, 2, SALNTY),
        Ok(Reading::Present { millionths: 35_130_100, value: 35.1301 })
    );
}

#[test]
fn a_refused_correction_changes_nothing() {
    for (row, column, millionths, decimals, flag, number) in [
        (4, SALNTY, 0, 0, 2, 21),
        (1, 5, 0, 0, 0, 22),
        (1, SALNTY, i64::MIN, 0, 2, 23),
        (1, SALNTY, 35_123_456, 4, 2, 23),
        (1, SALNTY, 35_000_000, 0, 0, 24),
        (1, SALNTY, -999_000_000, 4, 9, 25),
    ] {
        let mut file = K.to_vec();
        assert_eq!(
            correct(&mut file, row, column, millionths, decimals, flag),
            Err(refusal(number, 0, 0))
        );
        assert_eq!(file, K);
    }
}

#[test]
fn list_lines() {
    let order =
        Correction { row: 2, name: b"SALNTY", millionths: 35_130_100, decimals: 4, flag: 2 };
    assert_eq!(read_list_line(b"2\tSALNTY\t35.1301\t2\n"), Ok(order));
    assert_eq!(read_list_line(b"2\tSALNTY\t35.1301\t2"), Err(refusal(26, 0, 0)));
    assert_eq!(read_list_line(b""), Err(refusal(26, 0, 0)));
}

/// The texts between double quotes of a list that begins after `opening`.
fn quoted<'a>(source: &'a str, opening: &str) -> Vec<&'a str> {
    let list = source.split_once(opening).expect("the list").1;
    let list = list.split_once("\n    };").or(list.split_once("\n]")).expect("the list's end").0;
    list.split('"').skip(1).step_by(2).collect()
}

#[test]
fn the_three_bindings_have_the_same_messages() {
    let own: Vec<&str> = (0..30).map(|number| refusal(number, 0, 0).message()).collect();
    assert_eq!(own, quoted(include_str!("../../c/pochahuic.h"), "messages[] = {"));
    assert_eq!(own, quoted(include_str!("../../python/pochahuic.py"), "MESSAGES = ["));
    assert_eq!(refusal(30, 0, 0).message(), "");
}
