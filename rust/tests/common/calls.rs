//! Counting a sheet, and the three steps by which it is counted in tiles, each called with buffers of the stated
//! lengths that hold rubbish before.

use super::cuts::Cut;
use super::sheets::Sheet;
use drainage::{
    count, finish, finish_work, join, join_work, record, record_len, record_work, CountReply,
    FinishReply, JoinReply, RecordReply,
};

/// What the buffers hold before must not matter.
const RUBBISH: u32 = 0xA5A5_A5A5;

/// Counts a sheet; the reply, and the counts after it.
pub fn count_sheet(sheet: &Sheet) -> (CountReply, Vec<u32>) {
    let mut counts = vec![RUBBISH; sheet.grid.len()];
    let reply = count(sheet.rows, sheet.cols, &sheet.grid, &mut counts);
    (reply, counts)
}

/// Writes the record of the tile at this tile row and tile column; the reply, and the record after it.
pub fn write_record(tile: &Sheet, (tile_row, tile_col): (usize, usize)) -> (RecordReply, Vec<u8>) {
    let (rows, cols) = (tile.rows, tile.cols);
    let mut bytes = vec![RUBBISH as u8; record_len(rows, cols)];
    let [mut work1, mut work2] = record_work(rows, cols).map(|length| vec![RUBBISH; length]);
    let work = [&mut work1[..], &mut work2];
    let reply = record(rows, cols, tile_row, tile_col, &tile.grid, &mut bytes, work);
    (reply, bytes)
}

/// Joins the records of a cut sheet; the reply, and what comes in at all border cells after it.
pub fn join_records(cut: &Cut, records: &[u8]) -> (JoinReply, Vec<u32>) {
    let (tile_rows, tile_cols) = cut.tile_counts();
    let cells = cut.border_cells();
    let mut incoming = vec![RUBBISH; cells];
    let mut work = join_work(cells).map(|length| vec![RUBBISH; length]);
    let work = work.each_mut().map(|work| &mut work[..]);
    let reply = join(tile_rows, tile_cols, records, &mut incoming, work);
    (reply, incoming)
}

/// Finishes a tile; the reply, and its counts after it.
pub fn finish_tile(tile: &Sheet, incoming: &[u32]) -> (FinishReply, Vec<u32>) {
    let (rows, cols) = (tile.rows, tile.cols);
    let mut counts = vec![RUBBISH; tile.grid.len()];
    let mut work = vec![RUBBISH; finish_work(rows, cols)];
    let reply = finish(rows, cols, &tile.grid, incoming, &mut counts, &mut work);
    (reply, counts)
}
