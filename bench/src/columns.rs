//! Whole columns in one call, beside a check of the same file.

use crate::files::Made;
use crate::table::{within, ROUNDS};
use crate::timing::{time, Timed};
use crate::whole_columns::{column_values, Tables};
use crate::{pochahuic, whole_columns};

/// The time of a whole column against that of one check.
const MOST_OF_A_COLUMN: f64 = 1.5;

/// Decimal columns near the start, in the middle and at the end of the bottle file of 40 columns, and a flag column of the middle.
const VALUES: [u64; 3] = [10, 19, 39];
const FLAGS: u64 = 20;

fn tables_for(file: &Made) -> Tables {
    let rows = file.rows as usize;
    Tables { cases: vec![0; rows], millionths: vec![0; rows], values: vec![0.0; rows] }
}

fn read_values(file: &Made, column: u64, tables: &mut Tables) -> usize {
    let Tables { cases, millionths, values } = tables;
    pochahuic::column_values_into(&file.bytes, column, cases, millionths, values)
        .expect("a decimal column")
}

/// Prints the columns of the file; says whether each is within its limit.
pub fn print(file: &Made) -> bool {
    let is_decimal = |column: &u64| pochahuic::decimal(&file.bytes, 1, *column).is_ok();
    let decimals: Vec<u64> = (1..=file.columns).filter(is_decimal).collect();
    hold_to_the_independent_reader(file, &decimals);
    let mut lent = [0, 1, 2, 3].map(|_| tables_for(file));
    let [first, middle, last, every] = &mut lent;
    let mut flags = vec![0; file.rows as usize];
    let mut timed = vec![Timed::new("check", || pochahuic::check(&file.bytes).expect("accepted"))];
    for (column, tables) in VALUES.into_iter().zip([first, middle, last]) {
        let name = format!("column_values, column {column}");
        timed.push(Timed::new(name, move || read_values(file, column, tables)));
    }
    timed.push(Timed::new(format!("column_flags, column {FLAGS}"), || {
        pochahuic::column_flags_into(&file.bytes, FLAGS, &mut flags).expect("a flag column")
    }));
    let name = format!("table: column_values of all {} decimal columns", decimals.len());
    timed.push(Timed::new(name, || {
        decimals.iter().map(|&column| read_values(file, column, every)).sum::<usize>()
    }));
    time(ROUNDS, &mut timed);
    print_ratios(file, &timed)
}

/// The call is timed only where its tables are those of the independent reader.
fn hold_to_the_independent_reader(file: &Made, columns: &[u64]) {
    let (mut ours, mut theirs) = (tables_for(file), tables_for(file));
    for &column in columns {
        let rows = read_values(file, column, &mut ours);
        assert_eq!(Ok(rows), column_values(&file.bytes, column, &mut theirs));
        assert!(ours.cases == theirs.cases && ours.millionths == theirs.millionths);
        assert!(ours.values == theirs.values);
    }
    let (mut ours, mut theirs) = (ours.cases, theirs.cases);
    let rows = pochahuic::column_flags_into(&file.bytes, FLAGS, &mut ours).expect("a flag column");
    assert_eq!(Ok(rows), whole_columns::column_flags(&file.bytes, FLAGS, &mut theirs));
    assert!(ours == theirs);
}

fn print_ratios(file: &Made, timed: &[Timed]) -> bool {
    let Made { kind, rows, columns, .. } = file;
    let [check, single @ .., table] = timed else { unreachable!("they were just made") };
    println!(
        "| whole columns, {}, {rows} rows x {columns} columns | ms | of a check |",
        kind.word()
    );
    println!("|---|---:|---:|");
    let ratio = |one: &Timed| one.seconds() / check.seconds();
    for one in timed {
        println!("| {} | {:.3} | {:.3} |", one.name, one.seconds() * 1e3, ratio(one));
    }
    println!();
    let mut is_within = true;
    for one in single {
        is_within &= within(&format!("{} / check", one.name), ratio(one), MOST_OF_A_COLUMN);
    }
    println!("{} / check: {:.3}\n", table.name, ratio(table));
    is_within
}
