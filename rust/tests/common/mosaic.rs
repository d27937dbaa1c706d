//! Independent joining of a mosaic's records, written from paper 01 alone: each exit is followed to the end, or round.

use super::cuts::Cut;
use super::independent::After;
use super::records::{self, Fault, Mosaic};
use super::tile::{self, border_places, record_lengths, Outcome, Way};

/// How many work buffers joining is lent.
pub const WORKS: usize = 5;

/// The lengths of the buffers that joining is lent beside the records: the incoming, and the work buffers.
#[derive(Clone, Copy, PartialEq, Eq, Debug)]
pub struct Lengths {
    pub incoming: usize,
    pub work: [usize; WORKS],
}

impl Lengths {
    /// The stated ones, for a mosaic of so many border cells.
    pub fn of(cells: usize) -> Lengths {
        Lengths {
            incoming: cells,
            work: [cells, cells, cells, cells, 128],
        }
    }
}

/// The border cells of all tiles in record order, by what their records say.
struct Borders {
    /// Row and column on the sheet.
    spots: Vec<(usize, usize)>,
    /// The tile's number, and the border number within it.
    names: Vec<(usize, usize)>,
    counts: Vec<u32>,
    /// The number here of the exit that is the way, if it is one.
    exits: Vec<Option<usize>>,
    /// The code of the way.
    codes: Vec<u8>,
}

fn borders(mosaic: &Mosaic) -> Borders {
    let mut borders = Borders {
        spots: Vec::new(),
        names: Vec::new(),
        counts: Vec::new(),
        exits: Vec::new(),
        codes: Vec::new(),
    };
    for (number, tile) in mosaic.tiles.iter().enumerate() {
        let (tile_row, tile_col) = (number / mosaic.widths.len(), number % mosaic.widths.len());
        let (rows, cols) = (mosaic.heights[tile_row], mosaic.widths[tile_col]);
        let north: usize = mosaic.heights[..tile_row].iter().sum();
        let west: usize = mosaic.widths[..tile_col].iter().sum();
        let first = borders.spots.len();
        for (border, place) in border_places(rows, cols).into_iter().enumerate() {
            borders
                .spots
                .push((north + place / cols, west + place % cols));
            borders.names.push((number, border));
            borders.counts.push(tile.counts[border]);
            let (exit, code) = match tile.ways[border] {
                Way::Over(exit, code) => (Some(first + exit), code),
                Way::Absent | Way::Inside => (None, 0),
            };
            borders.exits.push(exit);
            borders.codes.push(code);
        }
    }
    borders
}

/// Row and column that an arrow steps onto, if they are not north or west of the sheet.
fn stepped((row, col): (usize, usize), code: u8) -> Option<(usize, usize)> {
    let (row, col) = (row + 1, col + 1);
    let (row, col) = match code {
        1 => (row, col + 1),
        2 => (row + 1, col + 1),
        4 => (row + 1, col),
        8 => (row + 1, col - 1),
        16 => (row, col - 1),
        32 => (row - 1, col - 1),
        64 => (row - 1, col),
        128 => (row - 1, col + 1),
        other => panic!("an exit's code is no {other}"),
    };
    Some((row.checked_sub(1)?, col.checked_sub(1)?))
}

/// For each border cell that is an exit, the land border cell that it steps onto, if there is one.
fn steps_onto(mosaic: &Mosaic, borders: &Borders) -> Vec<Option<usize>> {
    let rows: usize = mosaic.heights.iter().sum();
    let cols: usize = mosaic.widths.iter().sum();
    // The border cell at each place of the sheet.
    let mut at = vec![None; rows * cols];
    for (border, &(row, col)) in borders.spots.iter().enumerate() {
        at[row * cols + col] = Some(border);
    }
    (0..borders.spots.len())
        .map(|border| {
            if borders.exits[border] != Some(border) {
                return None;
            }
            let (row, col) = stepped(borders.spots[border], borders.codes[border])?;
            if row >= rows || col >= cols {
                return None;
            }
            let onto = at[row * cols + col].expect("an exit steps onto another tile's border");
            (borders.counts[onto] != 0).then_some(onto)
        })
        .collect()
}

/// What each border cell gives to others: an exit its own count, another nothing.
fn own_counts(borders: &Borders) -> Vec<u64> {
    let own = |border: usize| match borders.exits[border] {
        Some(exit) if exit == border => u64::from(borders.counts[border]),
        _ => 0,
    };
    (0..borders.counts.len()).map(own).collect()
}

/// The total of each exit, 0 at all other border cells: each exit's own count is taken along to all that it feeds, one
/// after the other. If there are loops, of all exits on any loop the first, with the number of exits on its loop.
fn totals(feeds: &[Option<usize>], own: &[u64]) -> Result<Vec<u64>, (usize, usize)> {
    let mut totals = vec![0; feeds.len()];
    // From where each was last come by.
    let mut passed_from = vec![usize::MAX; feeds.len()];
    for start in 0..feeds.len() {
        let mut exit = start;
        let mut steps = 0;
        totals[start] += own[start];
        while let Some(next) = feeds[exit] {
            steps += 1;
            if next == start {
                return Err((start, steps));
            }
            // Round a loop that start does not lie on.
            if passed_from[next] == start {
                break;
            }
            passed_from[next] = start;
            totals[next] += own[start];
            exit = next;
        }
    }
    Ok(totals)
}

/// The outcome of joining, in the order of refusals of paper 01: 9 for the mosaic's own numbers, 8 or 9 of the records
/// in turn, 2, 4.
pub fn join(tile_rows: usize, tile_cols: usize, records: &[u8], lengths: Lengths) -> Outcome<u32> {
    let mosaic = match records::read(tile_rows, tile_cols, records) {
        Ok(mosaic) => mosaic,
        Err(Fault::Record(byte)) => return Outcome::refusal(8, &[byte]),
        Err(Fault::Layout(byte)) => return Outcome::refusal(9, &[byte]),
    };
    let borders = borders(&mosaic);
    let cells = borders.spots.len();
    if lengths != Lengths::of(cells) {
        return Outcome::refusal(2, &[]);
    }
    let onto = steps_onto(&mosaic, &borders);
    let feeds: Vec<Option<usize>> = onto
        .iter()
        .map(|onto| onto.and_then(|onto| borders.exits[onto]))
        .collect();
    let totals = match totals(&feeds, &own_counts(&borders)) {
        Ok(totals) => totals,
        Err((exit, length)) => {
            let (tile, border) = borders.names[exit];
            return Outcome {
                written: After::Holds(vec![0; cells]),
                ..Outcome::refusal(4, &[tile, border, length])
            };
        }
    };
    let mut incoming = vec![0; cells];
    for (exit, onto) in onto.iter().enumerate() {
        if let Some(onto) = onto {
            incoming[*onto] += totals[exit];
        }
    }
    let whole = |&sum: &u64| u32::try_from(sum).expect("what comes in has 32 bits");
    Outcome::done(incoming.iter().map(whole).collect())
}

/// The records of a cut sheet, by the independent way. No tile may have a loop.
pub fn records_of(grid: &[u8], cut: &Cut) -> Vec<Vec<u8>> {
    let sheets = cut.sheets(grid).into_iter().enumerate();
    sheets
        .map(|(number, sheet)| {
            let shape = (sheet.rows, sheet.cols);
            let lengths = record_lengths(sheet.rows, sheet.cols);
            let told = tile::record(shape, cut.position(number), &sheet.grid, lengths);
            match (told.number, told.written) {
                (0, After::Holds(bytes)) => bytes,
                (number, _) => panic!("a tile of the sheet has reply {number}"),
            }
        })
        .collect()
}
