//! Files to walk cell by cell (document 02, request [13]): one column or row
//! and many, blank cells at every place of a row, spaces at either end of a
//! cell and inside it, lines that look like rows where there are none, and
//! files that are refused only after good rows.

use super::draft::{Draft, Text};
use super::spoil::spoil_part;
use super::spoil_lines::{join, spoil_line};
use super::valid::draft_of;
use super::values::free_text;
use crate::check::FileKind;
use crate::kinds::PRESSURE_NAME;
use crate::lines::{trim, MOST_BYTES_OF_A_LINE};
use crate::random::Random;

pub fn file_to_walk(random: &mut Random) -> Vec<u8> {
    let mut draft = draft_to_walk(random);
    if !random.one_in(4) {
        space_anew(random, &mut draft);
    }
    if random.one_in(2) {
        add_rows_after_the_end(random, &mut draft);
    }
    if random.one_in(6) {
        add_rows_before_the_first(random, &mut draft);
    }
    match random.below(20) {
        0 => {
            shorten_last_row(&mut draft);
            draft.bytes()
        }
        1 | 2 => spoilt_after_the_end(random, &draft),
        3 => {
            stretch_a_row(random, &mut draft);
            draft.bytes()
        }
        _ => draft.bytes(),
    }
}

/// One column, about as many as a file may have, or some with free text among
/// them.
fn draft_to_walk(random: &mut Random) -> Draft {
    let rows = random.pick(&[1, 1, 1, 2, 3, 5, 9, 60]);
    let kind = random.pick(&[FileKind::Bottle, FileKind::Bottle, FileKind::Ctd]);
    let columns = random.below(12);
    let kind = if columns == 0 { FileKind::Ctd } else { kind };
    let mut draft = draft_of(random, kind, rows);
    match columns {
        0 => leave_pressure_alone(&mut draft),
        1 => spoil_part(random, &mut draft, 11),
        _ => add_free_columns(random, &mut draft),
    }
    draft
}

/// Only a CTD file can have one column.
fn leave_pressure_alone(draft: &mut Draft) {
    let others = draft.columns_where(|name| name != PRESSURE_NAME.as_bytes());
    others.iter().rev().for_each(|&column| draft.remove_column(column));
}

/// Up to three columns of free text, often at the start or the end of the
/// rows, and side by side there.
fn add_free_columns(random: &mut Random, draft: &mut Draft) {
    let names = ["NOTE1", "NOTE2", "NOTE3"];
    for name in &names[..random.between(0, 3)] {
        let end = draft.names.len();
        let place = match random.below(3) {
            0 => 0,
            1 => end,
            _ => random.below(end + 1),
        };
        draft.insert_column(place, name.as_bytes().to_vec(), Vec::new());
        for row in &mut draft.rows {
            row[place] = blank_or_text(random);
        }
    }
}

/// As often as not blank; a text may have spaces inside, or begin a row with
/// what means something elsewhere.
fn blank_or_text(random: &mut Random) -> Text {
    let texts = ["x y", "a  b   c", "# 1", "#", "END_DATA", "= x"];
    match random.below(4) {
        0 => free_text(random),
        1 => random.pick(&texts).as_bytes().to_vec(),
        _ => Vec::new(),
    }
}

/// Spaces before the text, after it, on both sides or on none; a blank cell
/// becomes one of any width.
fn space_anew(random: &mut Random, draft: &mut Draft) {
    for cell in draft.rows.iter_mut().flatten() {
        let [before, after] = [0, 1].map(|_| vec![b' '; random.pick(&[0, 0, 0, 1, 2, 9])]);
        *cell = [&before, trim(cell), &after].concat();
    }
}

/// Lines after `END_DATA` that would be rows before it, or nearly so.
fn add_rows_after_the_end(random: &mut Random, draft: &mut Draft) {
    let rows: Vec<Text> = draft.rows.iter().map(|row| row.join(&b',')).collect();
    let row = random.pick(&rows);
    let lines = match random.below(6) {
        0 => rows,
        1 => vec![row, draft.end.clone()],
        2 => vec![vec![b','; draft.names.len() - 1]],
        3 => vec![[&row[..], b",1"].concat()],
        4 => vec![[&row[..], b"\t\x7f"].concat()],
        _ => vec![row],
    };
    draft.further_lines.extend(lines);
}

/// A comment or the units line that looks like a row.
fn add_rows_before_the_first(random: &mut Random, draft: &mut Draft) {
    let row = random.pick(&draft.rows);
    if random.one_in(2) {
        draft.comments.push([b"#", &row.join(&b',')[..]].concat());
    } else {
        draft.units = row;
    }
}

/// A row of 8,191 to 8,193 bytes, nearly all of them the spaces of one cell.
fn stretch_a_row(random: &mut Random, draft: &mut Draft) {
    let row = random.below(draft.rows.len());
    let cells = &mut draft.rows[row];
    let length = MOST_BYTES_OF_A_LINE + random.pick(&[0, 1, 1, 2]) - 1;
    let missing = length.saturating_sub(cells.join(&b',').len());
    let cell = random.below(cells.len());
    let place = random.pick(&[0, cells[cell].len()]);
    cells[cell].splice(place..place, vec![b' '; missing]);
}

/// Refused at the last row, all rows before it good.
fn shorten_last_row(draft: &mut Draft) {
    if let Some(row) = draft.rows.last_mut() {
        row.pop();
    }
}

/// Refused at a line after `END_DATA`, all rows good.
fn spoilt_after_the_end(random: &mut Random, draft: &Draft) -> Vec<u8> {
    let mut lines = draft.lines();
    let mut further = lines.split_off(lines.len() - draft.further_lines.len());
    let rule = random.pick(&[1, 2, 3, 4]);
    if rule != 2 {
        spoil_line(random, &mut further, rule);
    }
    lines.append(&mut further);
    join(random, &lines, rule == 2)
}
