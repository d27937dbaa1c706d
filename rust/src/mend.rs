//! Changing one cell of a counted sheet.

use crate::raw;
use crate::reply::{self, Named};
use std::fmt;

/// What mending answers. The refusals are given in the order in which they stand here after `Done`: the first that
/// applies. After every refusal the grid and the counts are as they were lent.
#[must_use = "a refusal leaves the grid and the counts as they were lent, without the change"]
#[derive(Debug, Clone, Copy, PartialEq, Eq)]
pub enum MendReply {
    /// Mended: the grid holds the new code and the counts are those of the changed grid.
    Done,
    /// Rows or columns are not within 1 to 4,096.
    Shape,
    /// The grid or the counts have another length than rows times columns.
    Length,
    /// The grid holds a code that is none of the ten.
    Code {
        /// The first place with such a code.
        place: usize,
    },
    /// The counts are not those of the grid: a land cell's is not 1 plus the counts of the land neighbours whose arrows
    /// step onto it, or an absent cell's is not 0.
    Count {
        /// The first place of such a cell.
        place: usize,
    },
    /// The place of the cell to change is not below rows times columns.
    Place,
    /// The new code is none of the ten.
    NewCode,
    /// The arrows of the changed grid would form a loop.
    Loop {
        /// The smallest place that would lie on any loop.
        place: usize,
        /// The number of cells of that loop.
        length: usize,
    },
}

impl MendReply {
    /// The paper's number of this reply: 0 is done, every other is a refusal.
    #[must_use]
    pub fn number(&self) -> u32 {
        match self {
            MendReply::Done => 0,
            MendReply::Shape => 1,
            MendReply::Length => 2,
            MendReply::Code { .. } => 3,
            MendReply::Count { .. } => 5,
            MendReply::Place => 6,
            MendReply::NewCode => 7,
            MendReply::Loop { .. } => 4,
        }
    }

    /// Whether this is no refusal.
    #[must_use]
    pub fn is_done(&self) -> bool {
        self.number() == 0
    }
}

impl fmt::Display for MendReply {
    fn fmt(&self, f: &mut fmt::Formatter) -> fmt::Result {
        match *self {
            MendReply::Done => f.write_str("done"),
            MendReply::Shape => reply::shape(f, "4,096"),
            MendReply::Length => reply::length(f),
            MendReply::Code { place } => reply::code(f, place),
            MendReply::Count { place } => reply::count(f, place),
            MendReply::Place => {
                f.write_str("refused 6: the changed cell's place is not below rows times columns")
            }
            MendReply::NewCode => f.write_str("refused 7: the changed cell's new code is bad"),
            MendReply::Loop { place, length } => {
                reply::looped(f, "the arrows of the changed grid", place, length)
            }
        }
    }
}

impl Named for MendReply {
    const FUNCTION: &'static str = "drainage_mend";
    const OPERATION: &'static str = "mending";

    fn named(number: u32, value: [usize; 6]) -> Option<MendReply> {
        let [first, second, ..] = value;
        match number {
            0 => Some(MendReply::Done),
            1 => Some(MendReply::Shape),
            2 => Some(MendReply::Length),
            3 => Some(MendReply::Code { place: first }),
            5 => Some(MendReply::Count { place: first }),
            6 => Some(MendReply::Place),
            7 => Some(MendReply::NewCode),
            4 => Some(MendReply::Loop {
                place: first,
                length: second,
            }),
            _ => None,
        }
    }
}

/// Changes the cell at `place` to `code` in the sheet of `rows` by `cols` cells in `grid`, and mends `counts`, which
/// must be the counts of the grid as it is lent. With the code that is already there nothing is altered.
///
/// Both slices must have exactly `rows * cols` elements; if not, the call is refused.
///
/// # Panics
/// If the library answers with a number that mending does not have, which means that it does not belong to this crate.
pub fn mend(
    rows: usize,
    cols: usize,
    grid: &mut [u8],
    counts: &mut [u32],
    place: usize,
    code: u8,
) -> MendReply {
    // SAFETY: both pointers come from slices, with the slices' own lengths, so they are valid and not null, and as both
    // slices are borrowed mutably they do not overlap.
    let reply = unsafe {
        raw::drainage_mend(
            rows,
            cols,
            grid.as_mut_ptr(),
            grid.len(),
            counts.as_mut_ptr(),
            counts.len(),
            place,
            code,
        )
    };
    reply::name(reply)
}

#[cfg(test)]
mod tests {
    use super::*;
    use crate::reply::tests::hold;

    #[test]
    fn every_reply_of_mending_has_its_number_and_its_words() {
        let looped = MendReply::Loop {
            place: 7,
            length: 8,
        };
        hold(
            (MendReply::number, MendReply::is_done),
            &[
                (0, MendReply::Done, "done"),
                (
                    1,
                    MendReply::Shape,
                    "refused 1: rows or columns are outside 1 to 4,096",
                ),
                (
                    2,
                    MendReply::Length,
                    "refused 2: a lent buffer has another length than stated",
                ),
                (
                    3,
                    MendReply::Code { place: 7 },
                    "refused 3: the grid has a bad code; its first place is 7",
                ),
                (
                    5,
                    MendReply::Count { place: 7 },
                    "refused 5: a cell breaks the count equation, or an absent cell is not 0; \
                     the first such place is 7",
                ),
                (
                    6,
                    MendReply::Place,
                    "refused 6: the changed cell's place is not below rows times columns",
                ),
                (
                    7,
                    MendReply::NewCode,
                    "refused 7: the changed cell's new code is bad",
                ),
                (
                    4,
                    looped,
                    "refused 4: the arrows of the changed grid form a loop of 8 cells; \
                     its smallest place is 7",
                ),
            ],
        );
    }
}
