//! Mosaics worked by hand: paper 01's sheets, cut, and some others.

use super::cuts::Cut;
use super::independent::After;
use super::notation;
use super::tile::Outcome;

/// How joining ends.
pub enum Joined {
    /// What comes in at each border cell, and the counts of the whole sheet.
    Done(&'static str, &'static str),
    /// A loop: the tile, the border number, and the number of exits.
    Loop([usize; 3]),
}

pub struct Hand {
    pub name: &'static str,
    sheet: &'static str,
    heights: &'static [usize],
    widths: &'static [usize],
    pub joined: Joined,
}

impl Hand {
    pub fn grid(&self) -> Vec<u8> {
        notation::read(self.sheet).2
    }

    pub fn cut(&self) -> Cut {
        Cut::new(self.heights, self.widths)
    }

    /// The outcome of joining.
    pub fn outcome(&self) -> Outcome<u32> {
        match &self.joined {
            Joined::Done(incoming, _) => Outcome::done(notation::read(incoming).2),
            Joined::Loop(value) => Outcome {
                written: After::Holds(vec![0; self.cut().border_cells()]),
                ..Outcome::refusal(4, value)
            },
        }
    }
}

const L: &str = "4 1 / 1 64";
const COUNTS_OF_L: &str = "1 4 / 2 3";
const RING: &str = "1 4 / 64 16";

const fn done(
    name: &'static str,
    sheet: &'static str,
    heights: &'static [usize],
    widths: &'static [usize],
    (incoming, counts): (&'static str, &'static str),
) -> Hand {
    Hand {
        name,
        sheet,
        heights,
        widths,
        joined: Joined::Done(incoming, counts),
    }
}

const fn looped(
    name: &'static str,
    sheet: &'static str,
    heights: &'static [usize],
    widths: &'static [usize],
    value: [usize; 3],
) -> Hand {
    Hand {
        name,
        sheet,
        heights,
        widths,
        joined: Joined::Loop(value),
    }
}

pub const MOSAICS: [Hand; 18] = [
    done("A", "1", &[1], &[1], ("0", "1")),
    done("C in three", "1 1 1", &[1], &[1, 1, 1], ("0 1 2", "1 2 3")),
    done(
        "D in three",
        "1 255 16",
        &[1],
        &[1, 1, 1],
        ("0 0 0", "1 0 1"),
    ),
    done(
        "L cut between its rows, down and back",
        L,
        &[1, 1],
        &[2],
        ("0 3 1 0", COUNTS_OF_L),
    ),
    done(
        "L cut between its columns",
        L,
        &[2],
        &[1, 1],
        ("0 0 0 2", COUNTS_OF_L),
    ),
    done("L in four", L, &[1, 1], &[1, 1], ("0 3 1 2", COUNTS_OF_L)),
    done("L in one", L, &[2], &[2], ("0 0 0 0", COUNTS_OF_L)),
    done(
        "N in four, through the corner",
        "2 255 / 255 2",
        &[1, 1],
        &[1, 1],
        ("0 0 0 1", "1 0 / 0 2"),
    ),
    done(
        "H cut below its first row",
        "2 4 8 / 1 4 16 / 128 4 32",
        &[1, 2],
        &[3],
        ("0 0 0 0 3 0 0 0 0", "1 1 1 / 1 8 1 / 1 9 1"),
    ),
    done(
        "K in four, its waters end at one absent cell, within its tile and over the edges",
        "2 4 8 / 1 255 16 / 128 4 32",
        &[2, 1],
        &[1, 2],
        ("0 0 0 0 0 0 0 0 0", "1 1 1 / 1 0 1 / 1 1 1"),
    ),
    looped("M", "1 16", &[1], &[1, 1], [0, 0, 2]),
    looped(
        "F, not its first cell",
        "1 1 1 16",
        &[1],
        &[1, 1, 1, 1],
        [2, 0, 2],
    ),
    looped(
        "F cut through its loop",
        "1 1 1 16",
        &[1],
        &[3, 1],
        [0, 2, 2],
    ),
    looped("a ring in four", RING, &[1, 1], &[1, 1], [0, 0, 4]),
    looped(
        "a ring cut between its rows",
        RING,
        &[1, 1],
        &[2],
        [0, 1, 2],
    ),
    looped(
        "a ring cut between its columns",
        RING,
        &[2],
        &[1, 1],
        [0, 0, 2],
    ),
    looped(
        "above two loops, of two exits and of three",
        "4 1 16 / 1 4 255 / 255 32 1",
        &[1, 1, 1],
        &[1, 1, 1],
        [1, 0, 2],
    ),
    looped(
        "two loops, of three exits and of two",
        "1 4 255 / 255 32 255 / 1 16 64",
        &[1, 1, 1],
        &[1, 1, 1],
        [0, 0, 3],
    ),
];
