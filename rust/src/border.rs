//! The border cells of a tile.

use crate::raw;

/// How many border cells a tile of `rows` by `cols` cells has: those in its first or last row or column, each once. 0
/// where a side is not within 1 to 256, as there is no such tile.
#[must_use]
pub fn border_cells(rows: usize, cols: usize) -> usize {
    // SAFETY: nothing is lent.
    unsafe { raw::drainage_border_cells(rows, cols) }
}
