//! Checking a grid of counts.

use crate::raw;
use crate::reply::{self, Named};
use std::fmt;

/// What checking answers. The refusals are given in the order in which they stand here after `Done`: the first that
/// applies.
#[must_use = "nothing but the reply says whether the counts are right"]
#[derive(Debug, Clone, Copy, PartialEq, Eq)]
pub enum CheckReply {
    /// The counts are those of the grid, whose arrows then form no loop.
    Done,
    /// Rows or columns are not within 1 to 4,096.
    Shape,
    /// The grid or the counts have another length than rows times columns.
    Length,
    /// The grid holds a code that is none of the ten.
    Code {
        /// The first place with such a code.
        place: usize,
    },
    /// A land cell's count is not 1 plus the counts of the land neighbours whose arrows step onto it, or an absent
    /// cell's is not 0.
    Count {
        /// The first place of such a cell.
        place: usize,
    },
}

impl CheckReply {
    /// The paper's number of this reply: 0 is done, every other is a refusal.
    #[must_use]
    pub fn number(&self) -> u32 {
        match self {
            CheckReply::Done => 0,
            CheckReply::Shape => 1,
            CheckReply::Length => 2,
            CheckReply::Code { .. } => 3,
            CheckReply::Count { .. } => 5,
        }
    }

    /// Whether this is no refusal.
    #[must_use]
    pub fn is_done(&self) -> bool {
        self.number() == 0
    }
}

impl fmt::Display for CheckReply {
    fn fmt(&self, f: &mut fmt::Formatter) -> fmt::Result {
        match *self {
            CheckReply::Done => f.write_str("done"),
            CheckReply::Shape => reply::shape(f, "4,096"),
            CheckReply::Length => reply::length(f),
            CheckReply::Code { place } => reply::code(f, place),
            CheckReply::Count { place } => reply::count(f, place),
        }
    }
}

impl Named for CheckReply {
    const FUNCTION: &'static str = "drainage_check";
    const OPERATION: &'static str = "checking";

    fn named(number: u32, value: [usize; 6]) -> Option<CheckReply> {
        let [first, ..] = value;
        match number {
            0 => Some(CheckReply::Done),
            1 => Some(CheckReply::Shape),
            2 => Some(CheckReply::Length),
            3 => Some(CheckReply::Code { place: first }),
            5 => Some(CheckReply::Count { place: first }),
            _ => None,
        }
    }
}

/// Checks that `counts` are the counts of the sheet of `rows` by `cols` cells in `grid`. Any numbers may stand there.
///
/// Both slices must have exactly `rows * cols` elements; if not, the call is refused.
///
/// # Panics
/// If the library answers with a number that checking does not have, which means that it does not belong to this
/// crate.
pub fn check(rows: usize, cols: usize, grid: &[u8], counts: &[u32]) -> CheckReply {
    // SAFETY: both pointers come from slices, with the slices' own lengths, so they are valid and not null, and nothing
    // is written.
    let reply = unsafe {
        raw::drainage_check(
            rows,
            cols,
            grid.as_ptr(),
            grid.len(),
            counts.as_ptr(),
            counts.len(),
        )
    };
    reply::name(reply)
}

#[cfg(test)]
mod tests {
    use super::*;
    use crate::reply::tests::hold;

    #[test]
    fn every_reply_of_checking_has_its_number_and_its_words() {
        hold(
            (CheckReply::number, CheckReply::is_done),
            &[
                (0, CheckReply::Done, "done"),
                (
                    1,
                    CheckReply::Shape,
                    "refused 1: rows or columns are outside 1 to 4,096",
                ),
                (
                    2,
                    CheckReply::Length,
                    "refused 2: a lent buffer has another length than stated",
                ),
                (
                    3,
                    CheckReply::Code { place: 7 },
                    "refused 3: the grid has a bad code; its first place is 7",
                ),
                (
                    5,
                    CheckReply::Count { place: 7 },
                    "refused 5: a cell breaks the count equation, or an absent cell is not 0; \
                     the first such place is 7",
                ),
            ],
        );
    }
}
