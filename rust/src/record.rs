//! Writing the border record of a tile.

use crate::raw;
use crate::reply::{self, Named};
use std::fmt;

/// What writing a record answers. The refusals are given in the order in which they stand here after `Done`: the first
/// that applies. After every refusal the record is as it was lent; after every refusal but `Loop` the work buffers are
/// too.
#[must_use = "a refusal leaves the record as it was lent"]
#[derive(Debug, Clone, Copy, PartialEq, Eq)]
pub enum RecordReply {
    /// Written: the record is the tile's. The work buffers hold 0 throughout.
    Done,
    /// Rows or columns are not within 1 to 256.
    Shape,
    /// The tile row or the tile column is above 63.
    Layout,
    /// The grid, the record or a work buffer has another length than stated.
    Length,
    /// The grid holds a code that is none of the ten.
    Code {
        /// The first place with such a code.
        place: usize,
    },
    /// The arrows form a loop within the tile. The work buffers hold 0 throughout.
    Loop {
        /// The smallest place that lies on any loop.
        place: usize,
        /// The number of cells of that loop.
        length: usize,
    },
}

impl RecordReply {
    /// The paper's number of this reply: 0 is done, every other is a refusal.
    #[must_use]
    pub fn number(&self) -> u32 {
        match self {
            RecordReply::Done => 0,
            RecordReply::Shape => 1,
            RecordReply::Layout => 9,
            RecordReply::Length => 2,
            RecordReply::Code { .. } => 3,
            RecordReply::Loop { .. } => 4,
        }
    }

    /// Whether this is no refusal.
    #[must_use]
    pub fn is_done(&self) -> bool {
        self.number() == 0
    }
}

impl fmt::Display for RecordReply {
    fn fmt(&self, f: &mut fmt::Formatter) -> fmt::Result {
        match *self {
            RecordReply::Done => f.write_str("done"),
            RecordReply::Shape => reply::shape(f, "256"),
            RecordReply::Layout => {
                f.write_str("refused 9: the tile row or the tile column is above 63")
            }
            RecordReply::Length => reply::length(f),
            RecordReply::Code { place } => reply::code(f, place),
            RecordReply::Loop { place, length } => {
                reply::looped(f, "the arrows of the tile", place, length)
            }
        }
    }
}

impl Named for RecordReply {
    const FUNCTION: &'static str = "drainage_record";
    const OPERATION: &'static str = "writing a record";

    fn named(number: u32, value: [usize; 6]) -> Option<RecordReply> {
        let [first, second, ..] = value;
        match number {
            0 => Some(RecordReply::Done),
            1 => Some(RecordReply::Shape),
            9 => Some(RecordReply::Layout),
            2 => Some(RecordReply::Length),
            3 => Some(RecordReply::Code { place: first }),
            4 => Some(RecordReply::Loop {
                place: first,
                length: second,
            }),
            _ => None,
        }
    }
}

/// The number of bytes of the record of a tile of `rows` by `cols` cells: 17, and 7 for each border cell. 0 where a
/// side is not within 1 to 256.
#[must_use]
pub fn record_len(rows: usize, cols: usize) -> usize {
    // SAFETY: nothing is lent.
    unsafe { raw::drainage_record_length(rows, cols) }
}

/// The lengths of the two work buffers for writing the record of a tile of `rows` by `cols` cells, 0 where a side is
/// not within 1 to 256.
#[must_use]
pub fn record_work(rows: usize, cols: usize) -> [usize; 2] {
    // SAFETY: nothing is lent.
    unsafe {
        [
            raw::drainage_record_work1(rows, cols),
            raw::drainage_record_work2(rows, cols),
        ]
    }
}

/// Counts the tile of `rows` by `cols` cells in `grid` by itself and writes its border record to `record`, as the tile
/// of that tile row and tile column.
///
/// The grid must have exactly `rows * cols` elements, the record [`record_len`], and the work buffers, whatever they
/// hold, [`record_work`]; if not, the call is refused.
///
/// # Panics
/// If the library answers with a number that writing a record does not have, which means that it does not belong to
/// this crate.
pub fn record(
    rows: usize,
    cols: usize,
    tile_row: usize,
    tile_col: usize,
    grid: &[u8],
    record: &mut [u8],
    work: [&mut [u32]; 2],
) -> RecordReply {
    let [work1, work2] = work;
    // SAFETY: all pointers come from slices, with the slices' own lengths, so they are valid and not null, and as all
    // slices but the grid are borrowed mutably no two of them overlap.
    let reply = unsafe {
        raw::drainage_record(
            rows,
            cols,
            tile_row,
            tile_col,
            grid.as_ptr(),
            grid.len(),
            record.as_mut_ptr(),
            record.len(),
            work1.as_mut_ptr(),
            work1.len(),
            work2.as_mut_ptr(),
            work2.len(),
        )
    };
    reply::name(reply)
}

#[cfg(test)]
mod tests {
    use super::*;
    use crate::reply::tests::hold;

    #[test]
    fn every_reply_of_writing_a_record_has_its_number_and_its_words() {
        let looped = RecordReply::Loop {
            place: 7,
            length: 8,
        };
        hold(
            (RecordReply::number, RecordReply::is_done),
            &[
                (0, RecordReply::Done, "done"),
                (
                    1,
                    RecordReply::Shape,
                    "refused 1: rows or columns are outside 1 to 256",
                ),
                (
                    9,
                    RecordReply::Layout,
                    "refused 9: the tile row or the tile column is above 63",
                ),
                (
                    2,
                    RecordReply::Length,
                    "refused 2: a lent buffer has another length than stated",
                ),
                (
                    3,
                    RecordReply::Code { place: 7 },
                    "refused 3: the grid has a bad code; its first place is 7",
                ),
                (
                    4,
                    looped,
                    "refused 4: the arrows of the tile form a loop of 8 cells; \
                     its smallest place is 7",
                ),
            ],
        );
    }
}
