//! Joining the border records of a mosaic.

use crate::raw;
use crate::reply::{self, Named};
use std::fmt;

/// What joining answers. The mosaic's own numbers are looked at first (`Layout`, byte 0), then the records in turn
/// (`Record` or `Layout`, whichever is met first), then the lengths, then loops. After every refusal but `Loop` all
/// buffers are as they were lent.
#[must_use = "a refusal leaves the incoming as it was lent or 0 throughout, as if nothing came in"]
#[derive(Debug, Clone, Copy, PartialEq, Eq)]
pub enum JoinReply {
    /// Joined: the incoming holds, for every border cell in record order, what comes in there from other tiles. The
    /// work buffers hold 0 throughout.
    Done,
    /// There is no tile row or no tile column, or there are more than 64 tiles; or a record is not of the tile whose
    /// turn it is, does not agree with the sides of its tile row and tile column, or makes the mosaic longer than 4,096
    /// rows or columns.
    Layout {
        /// The first byte of that record, 0 if it is the mosaic's own numbers.
        byte: usize,
    },
    /// A record is malformed, or bytes stand after the last one.
    Record {
        /// The first byte of the field at fault, or the first byte after the last record.
        byte: usize,
    },
    /// The incoming or a work buffer has another length than stated.
    Length,
    /// Exits feed each other round. The incoming and the work buffers hold 0 throughout.
    Loop {
        /// The smallest tile number of all exits on any loop.
        tile: usize,
        /// The smallest border number of such exits of that tile.
        border: usize,
        /// The number of exits on the loop of that exit.
        exits: usize,
    },
}

impl JoinReply {
    /// The paper's number of this reply: 0 is done, every other is a refusal.
    #[must_use]
    pub fn number(&self) -> u32 {
        match self {
            JoinReply::Done => 0,
            JoinReply::Layout { .. } => 9,
            JoinReply::Record { .. } => 8,
            JoinReply::Length => 2,
            JoinReply::Loop { .. } => 4,
        }
    }

    /// Whether this is no refusal.
    #[must_use]
    pub fn is_done(&self) -> bool {
        self.number() == 0
    }
}

impl fmt::Display for JoinReply {
    fn fmt(&self, f: &mut fmt::Formatter) -> fmt::Result {
        match *self {
            JoinReply::Done => f.write_str("done"),
            // Byte 0 is the first record's, and stands for the mosaic's own numbers too.
            JoinReply::Layout { byte: 0 } => f.write_str(
                "refused 9: the tile counts or the record at byte 0 do not fit the mosaic",
            ),
            JoinReply::Layout { byte } => write!(
                f,
                "refused 9: the record at byte {byte} does not fit the mosaic"
            ),
            JoinReply::Record { byte } => write!(
                f,
                "refused 8: a border record is malformed, or a byte follows the last; \
                 the fault is at byte {byte}"
            ),
            JoinReply::Length => reply::length(f),
            JoinReply::Loop {
                tile,
                border,
                exits,
            } => write!(
                f,
                "refused 4: {exits} exits feed each other round; \
                 the first has tile number {tile}, border number {border}"
            ),
        }
    }
}

impl Named for JoinReply {
    const FUNCTION: &'static str = "drainage_join";
    const OPERATION: &'static str = "joining";

    fn named(number: u32, value: [usize; 6]) -> Option<JoinReply> {
        let [first, second, third, ..] = value;
        match number {
            0 => Some(JoinReply::Done),
            9 => Some(JoinReply::Layout { byte: first }),
            8 => Some(JoinReply::Record { byte: first }),
            2 => Some(JoinReply::Length),
            4 => Some(JoinReply::Loop {
                tile: first,
                border: second,
                exits: third,
            }),
            _ => None,
        }
    }
}

/// How many work buffers joining is lent.
pub const JOIN_WORKS: usize = 5;

/// The lengths of the work buffers for joining a mosaic whose tiles have so many border cells together.
#[must_use]
pub fn join_work(border_cells: usize) -> [usize; JOIN_WORKS] {
    // SAFETY: nothing is lent.
    unsafe {
        [
            raw::drainage_join_work1(border_cells),
            raw::drainage_join_work2(border_cells),
            raw::drainage_join_work3(border_cells),
            raw::drainage_join_work4(border_cells),
            raw::drainage_join_work5(border_cells),
        ]
    }
}

/// Joins the records of a mosaic of `tile_rows` by `tile_cols` tiles, which stand in `records` one after the other, and
/// writes to `incoming`, whatever this held, what comes in at each border cell from other tiles.
///
/// The incoming must have exactly one element for each border cell of all tiles, and the work buffers, whatever they
/// hold, [`join_work`] of that number; if not, the call is refused.
///
/// # Panics
/// If the library answers with a number that joining does not have, which means that it does not belong to this crate.
pub fn join(
    tile_rows: usize,
    tile_cols: usize,
    records: &[u8],
    incoming: &mut [u32],
    work: [&mut [u32]; JOIN_WORKS],
) -> JoinReply {
    let [work1, work2, work3, work4, work5] = work;
    // SAFETY: all pointers come from slices, with the slices' own lengths, so they are valid and not null, and as all
    // slices but the records are borrowed mutably no two of them overlap.
    let reply = unsafe {
        raw::drainage_join(
            tile_rows,
            tile_cols,
            records.as_ptr(),
            records.len(),
            incoming.as_mut_ptr(),
            incoming.len(),
            work1.as_mut_ptr(),
            work1.len(),
            work2.as_mut_ptr(),
            work2.len(),
            work3.as_mut_ptr(),
            work3.len(),
            work4.as_mut_ptr(),
            work4.len(),
            work5.as_mut_ptr(),
            work5.len(),
        )
    };
    reply::name(reply)
}

#[cfg(test)]
mod tests {
    use super::*;
    use crate::reply::tests::hold;

    #[test]
    fn every_reply_of_joining_has_its_number_and_its_words() {
        let looped = JoinReply::Loop {
            tile: 7,
            border: 8,
            exits: 9,
        };
        hold(
            (JoinReply::number, JoinReply::is_done),
            &[
                (0, JoinReply::Done, "done"),
                (
                    9,
                    JoinReply::Layout { byte: 7 },
                    "refused 9: the record at byte 7 does not fit the mosaic",
                ),
                (
                    8,
                    JoinReply::Record { byte: 7 },
                    "refused 8: a border record is malformed, or a byte follows the last; \
                     the fault is at byte 7",
                ),
                (
                    2,
                    JoinReply::Length,
                    "refused 2: a lent buffer has another length than stated",
                ),
                (
                    4,
                    looped,
                    "refused 4: 9 exits feed each other round; \
                     the first has tile number 7, border number 8",
                ),
            ],
        );
        assert_eq!(
            JoinReply::Layout { byte: 0 }.to_string(),
            "refused 9: the tile counts or the record at byte 0 do not fit the mosaic"
        );
    }
}
