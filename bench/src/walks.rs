//! A walk over all cells of a file, its opening included, beside a check of the same file.

use crate::files::Made;
use crate::pochahuic;
use crate::table::{within, ROUNDS};
use crate::timing::{time, Timed};
use crate::walk::{walk, WalkedCell};

/// The time of a whole walk against that of one check.
const MOST_OF_A_WALK: f64 = 1.8;

/// A walk takes about as long as a machine that others share stays at its full speed, so more rounds are wanted until one of them does.
const ROUNDS_OF_A_WALK: usize = 8 * ROUNDS;

/// The walk with each cell by its place in the file, as the independent reader hands it out.
pub fn walked(file: &[u8]) -> Result<impl Iterator<Item = WalkedCell> + '_, pochahuic::Refusal> {
    let place = |pochahuic::Cell { row, column, text }| {
        let start = text.as_ptr() as usize - file.as_ptr() as usize;
        let part = start..start + text.len();
        WalkedCell { row: row as usize, column: column as usize, part }
    };
    Ok(pochahuic::walk(file)?.map(place))
}

/// Prints the walk over the file; says whether it is within its limit.
pub fn print(file: &Made) -> bool {
    let bytes = &file.bytes;
    hold_to_the_independent_reader(bytes);
    let cells = pochahuic::walk(bytes).expect("accepted").count();
    let mut timed = [
        Timed::new("check", || pochahuic::check(bytes).expect("accepted")),
        Timed::new(format!("walk over all {cells} cells"), || use_all_cells(bytes)),
    ];
    time(ROUNDS_OF_A_WALK, &mut timed);
    let Made { kind, rows, columns, .. } = file;
    println!(
        "| walk, {}, {rows} rows x {columns} columns | ms | of a check | ns for a cell |",
        kind.word()
    );
    println!("|---|---:|---:|---:|");
    let ratio = |one: &Timed| one.seconds() / timed[0].seconds();
    for one in &timed {
        let (milliseconds, for_a_cell) = (one.seconds() * 1e3, one.seconds() * 1e9 / cells as f64);
        println!("| {} | {milliseconds:.3} | {:.3} | {for_a_cell:.2} |", one.name, ratio(one));
    }
    println!();
    let is_within = within("walk / check", ratio(&timed[1]), MOST_OF_A_WALK);
    println!();
    is_within
}

/// The walk is timed only where its cells are those of the independent reader, each at its place.
fn hold_to_the_independent_reader(file: &[u8]) {
    assert!(walked(file).expect("accepted").eq(walk(file).expect("accepted")));
}

fn use_all_cells(file: &[u8]) -> u64 {
    let cells = pochahuic::walk(file).expect("accepted");
    cells.map(|cell| cell.row + cell.column + cell.text.len() as u64).sum()
}
