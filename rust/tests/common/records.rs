//! An independent reader of the border records of a mosaic, written from paper 01 alone: it answers what they say, or
//! the first fault.

use super::independent::{meaning, neighbour, Meaning};
use super::tile::{border_places, Way};

/// What a record says of its tile.
pub struct Told {
    pub counts: Vec<u32>,
    pub ways: Vec<Way>,
}

/// What the records of a mosaic say.
pub struct Mosaic {
    /// The rows of each tile row.
    pub heights: Vec<usize>,
    /// The columns of each tile column.
    pub widths: Vec<usize>,
    /// The tiles, tile row by tile row.
    pub tiles: Vec<Told>,
}

#[derive(Clone, Copy, PartialEq, Eq, Debug)]
pub enum Fault {
    /// Reply 8, at this byte.
    Record(usize),
    /// Reply 9, at this byte.
    Layout(usize),
}

/// A number, the highest byte first.
fn number(bytes: &[u8]) -> usize {
    bytes.iter().fold(0, |sum, &byte| 256 * sum + byte as usize)
}

/// The contents of the field that should begin at this byte, if it has this tag, this length, and is there to its end.
fn contents(bytes: &[u8], at: usize, tag: u8, length: usize) -> Result<&[u8], Fault> {
    let field = &bytes[at..];
    let found = field.len() >= 3 + length && field[0] == tag && number(&field[1..3]) == length;
    if found {
        Ok(&field[3..3 + length])
    } else {
        Err(Fault::Record(at))
    }
}

/// The way that these three bytes say, if it can be one of this tile. Whether it agrees with the other ways is not asked
/// here.
fn way(rows: usize, cols: usize, borders: &[usize], bytes: &[u8]) -> Option<Way> {
    let (border, code) = (number(&bytes[..2]), bytes[2]);
    match (border, code) {
        (65535, 255) => Some(Way::Absent),
        (65535, 0) => Some(Way::Inside),
        _ => {
            let &place = borders.get(border)?;
            let Meaning::Arrow(direction) = meaning(code) else {
                return None;
            };
            let outside = neighbour(rows, cols, place, direction).is_none();
            outside.then_some(Way::Over(border, code))
        }
    }
}

/// All ways of a tile, if they agree with its counts and with each other.
fn ways(rows: usize, cols: usize, counts: &[u32], bytes: &[u8]) -> Option<Vec<Way>> {
    let borders = border_places(rows, cols);
    let ways: Option<Vec<Way>> = bytes
        .chunks(3)
        .map(|bytes| way(rows, cols, &borders, bytes))
        .collect();
    let ways = ways?;
    let agrees = ways.iter().zip(counts).all(|(&way, &count)| {
        (way == Way::Absent) == (count == 0)
            && match way {
                Way::Over(border, _) => ways[border] == way,
                Way::Absent | Way::Inside => true,
            }
    });
    agrees.then_some(ways)
}

/// Reads the records of so many tile rows and tile columns.
pub fn read(tile_rows: usize, tile_cols: usize, bytes: &[u8]) -> Result<Mosaic, Fault> {
    let few = |side| (1..=64).contains(&side);
    if !few(tile_rows) || !few(tile_cols) || tile_rows * tile_cols > 64 {
        return Err(Fault::Layout(0));
    }
    let mut mosaic = Mosaic {
        heights: Vec::new(),
        widths: Vec::new(),
        tiles: Vec::new(),
    };
    let mut at = 0;
    for tile_row in 0..tile_rows {
        for tile_col in 0..tile_cols {
            let first = at;
            let sides = contents(bytes, at, 1, 8)?;
            let sides: Vec<usize> = sides.chunks(2).map(number).collect();
            let (rows, cols) = (sides[0], sides[1]);
            if !(1..=256).contains(&rows) || !(1..=256).contains(&cols) {
                return Err(Fault::Record(at));
            }
            // The first tile of a tile row says its rows, and the first of a tile column its columns.
            if tile_col == 0 {
                mosaic.heights.push(rows);
            }
            if tile_row == 0 {
                mosaic.widths.push(cols);
            }
            let fits = (sides[2], sides[3]) == (tile_row, tile_col)
                && (rows, cols) == (mosaic.heights[tile_row], mosaic.widths[tile_col])
                && mosaic.heights.iter().sum::<usize>() <= 4096
                && mosaic.widths.iter().sum::<usize>() <= 4096;
            if !fits {
                return Err(Fault::Layout(first));
            }
            at += 11;

            let cells = border_places(rows, cols).len();
            let counts = contents(bytes, at, 2, 4 * cells)?;
            let counts: Vec<u32> = counts.chunks(4).map(|four| number(four) as u32).collect();
            if counts.iter().any(|&count| count as usize > rows * cols) {
                return Err(Fault::Record(at));
            }
            at += 3 + 4 * cells;

            let told = contents(bytes, at, 3, 3 * cells)?;
            let ways = ways(rows, cols, &counts, told).ok_or(Fault::Record(at))?;
            at += 3 + 3 * cells;
            mosaic.tiles.push(Told { counts, ways });
        }
    }
    if at < bytes.len() {
        return Err(Fault::Record(at));
    }
    Ok(mosaic)
}
