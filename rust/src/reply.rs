//! What the replies of the operations share: how the library's flat reply gets its name, and the words of the refusals
//! that several of them have.

use crate::raw;
use std::fmt::{self, Formatter};

// Places, lengths and numbers of cells come out as they go in, as `usize`; the library's have 64 bits.
const _: () = assert!(
    usize::BITS == 64,
    "drainage is for targets whose sizes have 64 bits"
);

/// The replies of one operation.
pub(crate) trait Named: Sized {
    /// The library's function.
    const FUNCTION: &'static str;
    /// What it does.
    const OPERATION: &'static str;

    /// The reply of this number with these values, if the operation has one.
    fn named(number: u32, value: [usize; 6]) -> Option<Self>;
}

/// The reply by its name.
///
/// # Panics
/// If the operation has no such reply.
pub(crate) fn name<R: Named>(reply: raw::Reply) -> R {
    let value = reply.value.map(|value| value as usize);
    R::named(reply.number, value).unwrap_or_else(|| {
        panic!(
            "{} answered with reply {}, which {} does not have",
            R::FUNCTION,
            reply.number,
            R::OPERATION
        )
    })
}

pub(crate) fn shape(f: &mut Formatter, most: &str) -> fmt::Result {
    write!(f, "refused 1: rows or columns are outside 1 to {most}")
}

pub(crate) fn length(f: &mut Formatter) -> fmt::Result {
    f.write_str("refused 2: a lent buffer has another length than stated")
}

pub(crate) fn code(f: &mut Formatter, place: usize) -> fmt::Result {
    write!(
        f,
        "refused 3: the grid has a bad code; its first place is {place}"
    )
}

pub(crate) fn looped(f: &mut Formatter, arrows: &str, place: usize, length: usize) -> fmt::Result {
    write!(
        f,
        "refused 4: {arrows} form a loop of {length} cells; its smallest place is {place}"
    )
}

pub(crate) fn count(f: &mut Formatter, place: usize) -> fmt::Result {
    write!(
        f,
        "refused 5: a cell breaks the count equation, or an absent cell is not 0; \
         the first such place is {place}"
    )
}

#[cfg(test)]
pub(crate) mod tests {
    use super::*;
    use std::fmt::{Debug, Display};

    /// Holds an operation to the table of its replies with the values 7, 8, 9: each with its number and its words. No
    /// other number is to have a reply.
    pub(crate) fn hold<R: Named + Copy + PartialEq + Debug + Display>(
        (number, is_done): (impl Fn(&R) -> u32, impl Fn(&R) -> bool),
        table: &[(u32, R, &str)],
    ) {
        for found in (0..300).chain([u32::MAX]) {
            let reply = R::named(found, [7, 8, 9, 0, 0, 0]);
            let line = table.iter().find(|line| line.0 == found);
            assert_eq!(reply, line.map(|line| line.1), "number {found}");
        }
        for &(right, reply, words) in table {
            assert_eq!(number(&reply), right, "{reply:?}");
            assert_eq!(is_done(&reply), right == 0, "{reply:?}");
            assert_eq!(reply.to_string(), words);
            let begins = match right {
                0 => "done".to_string(),
                _ => format!("refused {right}: "),
            };
            assert!(words.starts_with(&begins), "{words}");
        }
    }

    #[derive(Debug)]
    struct Values([usize; 6]);

    impl Named for Values {
        const FUNCTION: &'static str = "drainage_nothing";
        const OPERATION: &'static str = "doing nothing";

        fn named(number: u32, value: [usize; 6]) -> Option<Values> {
            (number == 0).then_some(Values(value))
        }
    }

    #[test]
    fn values_are_handed_on_whole_and_in_order() {
        let value = [1, u64::MAX, 1 << 63, 1 << 32, 5, 6];
        let Values(found) = name(raw::Reply { number: 0, value });
        assert_eq!(found, [1, usize::MAX, 1 << 63, 1 << 32, 5, 6]);
    }

    #[test]
    #[should_panic(
        expected = "drainage_nothing answered with reply 4, which doing nothing does not have"
    )]
    fn a_reply_that_the_operation_does_not_have_panics() {
        let value = [0; 6];
        let Values(_) = name(raw::Reply { number: 4, value });
    }
}
