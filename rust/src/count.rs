//! Counting a sheet.

use crate::raw;
use crate::reply::{self, Named};
use std::fmt;

/// What counting answers. The refusals are given in the order in which they stand here after `Done`: the first that
/// applies.
#[must_use = "a refusal leaves the counts as they were lent or 0 throughout, which looks like dry land"]
#[derive(Debug, Clone, Copy, PartialEq, Eq)]
pub enum CountReply {
    /// Counted: every place of the counts holds its cell's count, 0 at absent cells.
    Done {
        /// The number of land cells.
        land: usize,
        /// The number of land cells whose arrow leaves the sheet or points at an absent cell.
        outlets: usize,
        /// The greatest of the counts, 0 on a sheet without land.
        greatest: u32,
    },
    /// Rows or columns are not within 1 to 4,096. The counts are as they were lent.
    Shape,
    /// The grid or the counts have another length than rows times columns. The counts are as they were lent.
    Length,
    /// The grid holds a code that is none of the ten. The counts are as they were lent.
    Code {
        /// The first place with such a code.
        place: usize,
    },
    /// The arrows form a loop. The counts hold 0 throughout.
    Loop {
        /// The smallest place that lies on any loop.
        place: usize,
        /// The number of cells of that loop.
        length: usize,
    },
}

impl CountReply {
    /// The paper's number of this reply: 0 is done, every other is a refusal.
    #[must_use]
    pub fn number(&self) -> u32 {
        match self {
            CountReply::Done { .. } => 0,
            CountReply::Shape => 1,
            CountReply::Length => 2,
            CountReply::Code { .. } => 3,
            CountReply::Loop { .. } => 4,
        }
    }

    /// Whether this is no refusal.
    #[must_use]
    pub fn is_done(&self) -> bool {
        self.number() == 0
    }
}

impl fmt::Display for CountReply {
    fn fmt(&self, f: &mut fmt::Formatter) -> fmt::Result {
        match *self {
            CountReply::Done {
                land,
                outlets,
                greatest,
            } => write!(
                f,
                "done: land {land}, outlets {outlets}, greatest count {greatest}"
            ),
            CountReply::Shape => reply::shape(f, "4,096"),
            CountReply::Length => reply::length(f),
            CountReply::Code { place } => reply::code(f, place),
            CountReply::Loop { place, length } => reply::looped(f, "the arrows", place, length),
        }
    }
}

impl Named for CountReply {
    const FUNCTION: &'static str = "drainage_count";
    const OPERATION: &'static str = "counting";

    fn named(number: u32, value: [usize; 6]) -> Option<CountReply> {
        let [first, second, third, ..] = value;
        match number {
            0 => Some(CountReply::Done {
                land: first,
                outlets: second,
                greatest: u32::try_from(third).ok()?,
            }),
            1 => Some(CountReply::Shape),
            2 => Some(CountReply::Length),
            3 => Some(CountReply::Code { place: first }),
            4 => Some(CountReply::Loop {
                place: first,
                length: second,
            }),
            _ => None,
        }
    }
}

/// Counts the sheet of `rows` by `cols` cells in `grid` and writes the counts to `counts`, whatever these held.
///
/// Both slices must have exactly `rows * cols` elements; if not, the call is refused.
///
/// # Panics
/// If the library answers with a number that counting does not have, which means that it does not belong to this
/// crate.
pub fn count(rows: usize, cols: usize, grid: &[u8], counts: &mut [u32]) -> CountReply {
    // SAFETY: both pointers come from slices, with the slices' own lengths, so they are valid and not null, and as one
    // slice is borrowed mutably they do not overlap.
    let reply = unsafe {
        raw::drainage_count(
            rows,
            cols,
            grid.as_ptr(),
            grid.len(),
            counts.as_mut_ptr(),
            counts.len(),
        )
    };
    reply::name(reply)
}

#[cfg(test)]
mod tests {
    use super::*;
    use crate::reply::tests::hold;

    #[test]
    fn every_reply_of_counting_has_its_number_and_its_words() {
        let done = CountReply::Done {
            land: 7,
            outlets: 8,
            greatest: 9,
        };
        let looped = CountReply::Loop {
            place: 7,
            length: 8,
        };
        hold(
            (CountReply::number, CountReply::is_done),
            &[
                (0, done, "done: land 7, outlets 8, greatest count 9"),
                (
                    1,
                    CountReply::Shape,
                    "refused 1: rows or columns are outside 1 to 4,096",
                ),
                (
                    2,
                    CountReply::Length,
                    "refused 2: a lent buffer has another length than stated",
                ),
                (
                    3,
                    CountReply::Code { place: 7 },
                    "refused 3: the grid has a bad code; its first place is 7",
                ),
                (
                    4,
                    looped,
                    "refused 4: the arrows form a loop of 8 cells; its smallest place is 7",
                ),
            ],
        );
        // No count has more than 32 bits.
        let most = u32::MAX as usize;
        assert!(CountReply::named(0, [7, 8, most, 0, 0, 0]).is_some());
        assert!(CountReply::named(0, [7, 8, most + 1, 0, 0, 0]).is_none());
    }
}
