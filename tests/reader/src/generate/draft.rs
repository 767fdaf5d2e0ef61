//! A file as its parts, before they are joined to bytes, so that each part can
//! be spoilt by itself.

use crate::check::FileKind;
use crate::kinds::{kind_of_column, Kind};
use crate::lines::trim;

/// Text of a cell with its spaces, or a whole line.
pub type Text = Vec<u8>;

#[derive(Clone)]
pub struct DraftHeader {
    pub name: Text,
    /// The `=` with its spaces.
    pub equals: Text,
    pub value: Text,
}

#[derive(Clone)]
pub struct Draft {
    pub kind: FileKind,
    pub first_line: Text,
    pub comments: Vec<Text>,
    pub headers: Vec<DraftHeader>,
    pub names: Vec<Text>,
    pub units: Vec<Text>,
    pub rows: Vec<Vec<Text>>,
    pub end: Text,
    pub further_lines: Vec<Text>,
}

impl DraftHeader {
    pub fn new(name: &[u8], value: &[u8]) -> DraftHeader {
        DraftHeader { name: name.to_vec(), equals: b" = ".to_vec(), value: value.to_vec() }
    }

    fn line(&self) -> Text {
        [&self.name[..], &self.equals, &self.value].concat()
    }
}

impl Draft {
    pub fn lines(&self) -> Vec<Text> {
        let mut lines = vec![self.first_line.clone()];
        lines.extend(self.comments.iter().cloned());
        lines.extend(self.headers.iter().map(DraftHeader::line));
        lines.push(self.names.join(&b','));
        lines.push(self.units.join(&b','));
        lines.extend(self.rows.iter().map(|row| row.join(&b',')));
        lines.push(self.end.clone());
        lines.extend(self.further_lines.iter().cloned());
        lines
    }

    pub fn bytes(&self) -> Vec<u8> {
        join_lines(&self.lines())
    }

    pub fn column_kinds(&self) -> Vec<Kind> {
        self.names.iter().map(|name| kind_of_column(trim(name))).collect()
    }

    /// The columns whose name satisfies a condition, counted from 0.
    pub fn columns_where(&self, condition: impl Fn(&[u8]) -> bool) -> Vec<usize> {
        (0..self.names.len()).filter(|&column| condition(trim(&self.names[column]))).collect()
    }

    /// The last column stays.
    pub fn remove_column(&mut self, column: usize) {
        for line in self.lines_of_cells() {
            if column < line.len() && line.len() > 1 {
                line.remove(column);
            }
        }
    }

    /// The units and rows get the same cell.
    pub fn insert_column(&mut self, column: usize, name: Text, cell: Text) {
        for line in self.lines_of_cells() {
            line.insert(column.min(line.len()), cell.clone());
        }
        self.names[column] = name;
    }

    /// Names, units and rows; their numbers of cells may differ once one of
    /// them is spoilt.
    fn lines_of_cells(&mut self) -> impl Iterator<Item = &mut Vec<Text>> {
        [&mut self.names, &mut self.units].into_iter().chain(&mut self.rows)
    }
}

/// Every line with its line feed.
pub fn join_lines(lines: &[Text]) -> Vec<u8> {
    lines.iter().flat_map(|line| line.iter().copied().chain([b'\n'])).collect()
}
