//! Sheets cut into tiles by full rows and columns, and put together again.

use super::draw::Draw;
use super::sheets::Sheet;
use super::tile::border_places;

/// How a sheet is cut: the rows of each tile row and the columns of each tile column.
#[derive(Clone, PartialEq, Eq, Debug)]
pub struct Cut {
    pub heights: Vec<usize>,
    pub widths: Vec<usize>,
}

impl Cut {
    pub fn rows(&self) -> usize {
        self.heights.iter().sum()
    }

    pub fn cols(&self) -> usize {
        self.widths.iter().sum()
    }

    /// The same number of rows in every tile row and of columns in every tile column.
    pub fn even((tile_rows, tile_cols): (usize, usize), (rows, cols): (usize, usize)) -> Cut {
        Cut {
            heights: vec![rows; tile_rows],
            widths: vec![cols; tile_cols],
        }
    }

    pub fn new(heights: &[usize], widths: &[usize]) -> Cut {
        Cut {
            heights: heights.to_vec(),
            widths: widths.to_vec(),
        }
    }

    /// How many tile rows and tile columns there are.
    pub fn tile_counts(&self) -> (usize, usize) {
        (self.heights.len(), self.widths.len())
    }

    /// The tile row and the tile column of the tile with this number.
    pub fn position(&self, tile: usize) -> (usize, usize) {
        (tile / self.widths.len(), tile % self.widths.len())
    }

    /// How many border cells all tiles have together.
    pub fn border_cells(&self) -> usize {
        let sides = |&rows: &usize| self.widths.iter().map(move |&cols| (rows, cols));
        let cells = |(rows, cols)| border_places(rows, cols).len();
        self.heights.iter().flat_map(sides).map(cells).sum()
    }

    /// The places on the sheet of a tile's cells, with the tile's sides, tile row by tile row.
    pub fn tiles(&self) -> Vec<(usize, usize, Vec<usize>)> {
        let mut tiles = Vec::new();
        let mut north = 0;
        for &rows in &self.heights {
            let mut west = 0;
            for &cols in &self.widths {
                let mut places = Vec::with_capacity(rows * cols);
                for row in north..north + rows {
                    places.extend((west..west + cols).map(|col| row * self.cols() + col));
                }
                tiles.push((rows, cols, places));
                west += cols;
            }
            north += rows;
        }
        tiles
    }

    /// The tiles of a sheet.
    pub fn sheets(&self, grid: &[u8]) -> Vec<Sheet> {
        let tile = |(rows, cols, places): (usize, usize, Vec<usize>)| {
            let grid = places.into_iter().map(|place| grid[place]).collect();
            Sheet { rows, cols, grid }
        };
        self.tiles().into_iter().map(tile).collect()
    }

    /// The sheet of these tiles' cells.
    pub fn together<T: Copy + Default>(&self, tiles: &[Vec<T>]) -> Vec<T> {
        let mut whole = vec![T::default(); self.rows() * self.cols()];
        for ((_, _, places), cells) in self.tiles().into_iter().zip(tiles) {
            for (place, &cell) in places.into_iter().zip(cells) {
                whole[place] = cell;
            }
        }
        whole
    }
}

/// All ways to write a number as a sum of positive ones, in order.
pub fn compositions(sum: usize) -> Vec<Vec<usize>> {
    if sum == 0 {
        return vec![Vec::new()];
    }
    let mut all = Vec::new();
    for first in 1..=sum {
        for rest in compositions(sum - first) {
            all.push([vec![first], rest].concat());
        }
    }
    all
}

/// Every cut of a sheet of these sides.
pub fn every_cut(rows: usize, cols: usize) -> Vec<Cut> {
    let mut cuts = Vec::new();
    for heights in compositions(rows) {
        for widths in compositions(cols) {
            cuts.push(Cut {
                heights: heights.clone(),
                widths,
            });
        }
    }
    cuts
}

/// So many positive numbers of at most 256 that have this sum, which must be possible.
fn any_parts(draw: &mut Draw, sum: usize, parts: usize) -> Vec<usize> {
    let mut left = sum;
    (0..parts)
        .map(|part| {
            let after = parts - 1 - part;
            let (least, most) = (
                left.saturating_sub(256 * after).max(1),
                (left - after).min(256),
            );
            let most = if after == 0 { left } else { most };
            // Now and then a thin tile among greater ones.
            let size = if draw.one_in(4) {
                least
            } else {
                let usual = (2 * left / (after + 1)).clamp(least, most);
                draw.within(least, usual)
            };
            left -= size;
            size
        })
        .collect()
}

/// Any cut of a sheet of these sides into at most so many tiles.
pub fn any_cut(draw: &mut Draw, rows: usize, cols: usize, most: usize) -> Cut {
    let needed = |side: usize| side.div_ceil(256);
    let tile_rows = draw.within(needed(rows), rows.min(most / needed(cols)));
    let tile_cols = draw.within(needed(cols), cols.min(most / tile_rows));
    Cut {
        heights: any_parts(draw, rows, tile_rows),
        widths: any_parts(draw, cols, tile_cols),
    }
}
