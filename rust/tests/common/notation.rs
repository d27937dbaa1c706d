//! Sheets in the notation of paper 01: numbers parted by spaces, rows parted by a slash.

use std::fmt::Display;
use std::str::FromStr;

/// Above this many cells a sheet is not written out.
const LEGIBLE: usize = 400;

pub fn write<T: Display>(cols: usize, cells: &[T]) -> String {
    if cells.len() > LEGIBLE {
        return format!("({} cells, too many to write out)", cells.len());
    }
    write_whole(cols, cells)
}

/// However many cells there are.
pub fn write_whole<T: Display>(cols: usize, cells: &[T]) -> String {
    let row = |cells: &[T]| {
        let numbers: Vec<String> = cells.iter().map(T::to_string).collect();
        numbers.join(" ")
    };
    // A shape that is refused may have no columns, or more than there are cells.
    let rows: Vec<String> = cells.chunks(cols.max(1)).map(row).collect();
    format!("`{}`", rows.join(" / "))
}

/// The shape and the cells of a sheet in that notation.
pub fn read<T: FromStr>(text: &str) -> (usize, usize, Vec<T>) {
    let rows: Vec<&str> = text.split('/').collect();
    let cells: Vec<T> = rows
        .iter()
        .flat_map(|row| row.split_whitespace())
        .map(|number| {
            number
                .parse()
                .unwrap_or_else(|_| panic!("{number} in {text} is no number of a sheet"))
        })
        .collect();
    let cols = cells.len() / rows.len();
    assert!(
        rows.iter()
            .all(|row| row.split_whitespace().count() == cols),
        "the rows of {text} have different lengths"
    );
    (rows.len(), cols, cells)
}
