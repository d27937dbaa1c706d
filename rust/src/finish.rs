//! Finishing a tile from what comes in at its border.

use crate::raw;
use crate::reply::{self, Named};
use std::fmt;

/// What finishing answers. The refusals are given in the order in which they stand here after `Done`: the first that
/// applies. After every refusal but `Loop` all buffers are as they were lent.
#[must_use = "a refusal leaves the counts as they were lent or 0 throughout, which looks like dry land"]
#[derive(Debug, Clone, Copy, PartialEq, Eq)]
pub enum FinishReply {
    /// Finished: every land cell's count is that of the tile plus what comes in at border cells at it or upstream of
    /// it, and an absent cell's is 0. The work buffer holds 0 throughout.
    Done,
    /// Rows or columns are not within 1 to 256.
    Shape,
    /// The grid, the incoming, the counts or the work buffer has another length than stated.
    Length,
    /// The grid holds a code that is none of the ten.
    Code {
        /// The first place with such a code.
        place: usize,
    },
    /// A border cell's incoming is above 4,194,304, or not 0 where the cell is absent.
    Incoming {
        /// The first border number of such a cell.
        border: usize,
    },
    /// The arrows form a loop within the tile. The counts and the work buffer hold 0 throughout.
    Loop {
        /// The smallest place that lies on any loop.
        place: usize,
        /// The number of cells of that loop.
        length: usize,
    },
}

impl FinishReply {
    /// The paper's number of this reply: 0 is done, every other is a refusal.
    #[must_use]
    pub fn number(&self) -> u32 {
        match self {
            FinishReply::Done => 0,
            FinishReply::Shape => 1,
            FinishReply::Length => 2,
            FinishReply::Code { .. } => 3,
            FinishReply::Incoming { .. } => 10,
            FinishReply::Loop { .. } => 4,
        }
    }

    /// Whether this is no refusal.
    #[must_use]
    pub fn is_done(&self) -> bool {
        self.number() == 0
    }
}

impl fmt::Display for FinishReply {
    fn fmt(&self, f: &mut fmt::Formatter) -> fmt::Result {
        match *self {
            FinishReply::Done => f.write_str("done"),
            FinishReply::Shape => reply::shape(f, "256"),
            FinishReply::Length => reply::length(f),
            FinishReply::Code { place } => reply::code(f, place),
            FinishReply::Incoming { border } => write!(
                f,
                "refused 10: what comes in is above 4,194,304, or not 0 at an absent border cell; \
                 the first such border number is {border}"
            ),
            FinishReply::Loop { place, length } => {
                reply::looped(f, "the arrows of the tile", place, length)
            }
        }
    }
}

impl Named for FinishReply {
    const FUNCTION: &'static str = "drainage_finish";
    const OPERATION: &'static str = "finishing";

    fn named(number: u32, value: [usize; 6]) -> Option<FinishReply> {
        let [first, second, ..] = value;
        match number {
            0 => Some(FinishReply::Done),
            1 => Some(FinishReply::Shape),
            2 => Some(FinishReply::Length),
            3 => Some(FinishReply::Code { place: first }),
            10 => Some(FinishReply::Incoming { border: first }),
            4 => Some(FinishReply::Loop {
                place: first,
                length: second,
            }),
            _ => None,
        }
    }
}

/// The length of the work buffer for finishing a tile of `rows` by `cols` cells, 0 where a side is not within 1 to 256.
#[must_use]
pub fn finish_work(rows: usize, cols: usize) -> usize {
    // SAFETY: nothing is lent.
    unsafe { raw::drainage_finish_work1(rows, cols) }
}

/// Counts the tile of `rows` by `cols` cells in `grid` with what comes in at its border cells, and writes the counts
/// to `counts`, whatever these held.
///
/// The grid and the counts must have exactly `rows * cols` elements, the incoming
/// [`border_cells`](crate::border_cells()), and the work buffer, whatever it holds, [`finish_work`]; if not, the call
/// is refused.
///
/// # Panics
/// If the library answers with a number that finishing does not have, which means that it does not belong to this
/// crate.
pub fn finish(
    rows: usize,
    cols: usize,
    grid: &[u8],
    incoming: &[u32],
    counts: &mut [u32],
    work: &mut [u32],
) -> FinishReply {
    // SAFETY: all pointers come from slices, with the slices' own lengths, so they are valid and not null, and as what
    // is written is borrowed mutably it overlaps with nothing.
    let reply = unsafe {
        raw::drainage_finish(
            rows,
            cols,
            grid.as_ptr(),
            grid.len(),
            incoming.as_ptr(),
            incoming.len(),
            counts.as_mut_ptr(),
            counts.len(),
            work.as_mut_ptr(),
            work.len(),
        )
    };
    reply::name(reply)
}

#[cfg(test)]
mod tests {
    use super::*;
    use crate::reply::tests::hold;

    #[test]
    fn every_reply_of_finishing_has_its_number_and_its_words() {
        let looped = FinishReply::Loop {
            place: 7,
            length: 8,
        };
        hold(
            (FinishReply::number, FinishReply::is_done),
            &[
                (0, FinishReply::Done, "done"),
                (
                    1,
                    FinishReply::Shape,
                    "refused 1: rows or columns are outside 1 to 256",
                ),
                (
                    2,
                    FinishReply::Length,
                    "refused 2: a lent buffer has another length than stated",
                ),
                (
                    3,
                    FinishReply::Code { place: 7 },
                    "refused 3: the grid has a bad code; its first place is 7",
                ),
                (
                    10,
                    FinishReply::Incoming { border: 7 },
                    "refused 10: what comes in is above 4,194,304, or not 0 at an absent border cell; \
                     the first such border number is 7",
                ),
                (
                    4,
                    looped,
                    "refused 4: the arrows of the tile form a loop of 8 cells; \
                     its smallest place is 7",
                ),
            ],
        );
    }
}
