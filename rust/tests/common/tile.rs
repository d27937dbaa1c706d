//! Independent border records and finished counts of a tile, written from paper 01 alone: the water of each border cell
//! is followed down cell by cell, and what comes in is added to each cell on its way.

use super::independent::{self, meaning, neighbour, values, waters, After, Meaning, Water};

/// Paper 01, "Replies and what remains".
pub const GREATEST_INCOMING: u32 = 4_194_304;

/// The places of a tile's border cells, in order: the number of a border cell is where it stands here.
pub fn border_places(rows: usize, cols: usize) -> Vec<usize> {
    let on_the_border = |place: &usize| {
        let (row, col) = (place / cols, place % cols);
        row == 0 || row + 1 == rows || col == 0 || col + 1 == cols
    };
    (0..rows * cols).filter(on_the_border).collect()
}

/// How many bytes a record of so many border cells has.
pub fn record_len(border_cells: usize) -> usize {
    17 + 7 * border_cells
}

/// Where the water of a border cell ends within its tile.
#[derive(Clone, Copy, PartialEq, Eq, Debug)]
pub enum Way {
    /// The cell is absent.
    Absent,
    /// At a cell whose arrow points at an absent cell of the tile.
    Inside,
    /// At the border cell of this number, whose arrow of this code crosses the edge.
    Over(usize, u8),
}

impl Way {
    /// As a record holds it.
    pub fn bytes(self) -> [u8; 3] {
        let (number, code) = match self {
            Way::Absent => (65535, 255),
            Way::Inside => (65535, 0),
            Way::Over(border, code) => (border as u16, code),
        };
        let [high, low] = number.to_be_bytes();
        [high, low, code]
    }
}

/// The ways of all border cells of a tile without loops.
fn ways(rows: usize, cols: usize, grid: &[u8], waters: &[Water]) -> Vec<Way> {
    let borders = border_places(rows, cols);
    let way = |&start: &usize| {
        let mut place = start;
        while let Water::To(next) = waters[place] {
            place = next as usize;
        }
        let Meaning::Arrow(direction) = meaning(grid[place]) else {
            return Way::Absent;
        };
        // The last cell's arrow points at an absent cell or crosses the edge.
        match neighbour(rows, cols, place, direction) {
            Some(_) => Way::Inside,
            None => {
                let border = borders.iter().position(|&border| border == place);
                let border = border.expect("an arrow over the edge stands on the border");
                Way::Over(border, grid[place])
            }
        }
    };
    borders.iter().map(way).collect()
}

/// A tag, a length in two bytes, and the contents.
fn field(tag: u8, contents: &[u8]) -> Vec<u8> {
    let length = contents.len() as u16;
    [&[tag], &length.to_be_bytes()[..], contents].concat()
}

/// A record of these sides, this position, and the count and the way of each border cell.
pub fn record_bytes(sides: [usize; 4], counts: &[u32], ways: &[Way]) -> Vec<u8> {
    let sides: Vec<u8> = sides
        .into_iter()
        .flat_map(|side| (side as u16).to_be_bytes())
        .collect();
    let counts: Vec<u8> = counts
        .iter()
        .flat_map(|count| count.to_be_bytes())
        .collect();
    let ways: Vec<u8> = ways.iter().flat_map(|way| way.bytes()).collect();
    [field(1, &sides), field(2, &counts), field(3, &ways)].concat()
}

/// The whole outcome of an operation on tiles: the reply's number in the paper, its values (0 where there is none), and
/// what the buffer that the operation writes holds after. All others that it is lent stay as they are, but for work
/// buffers.
pub struct Outcome<T> {
    pub number: u32,
    pub value: [u64; 6],
    pub written: After<T>,
}

impl<T> Outcome<T> {
    pub fn refusal(number: u32, given: &[usize]) -> Outcome<T> {
        Outcome {
            number,
            value: values(given),
            written: After::AsLent,
        }
    }

    pub fn done(written: Vec<T>) -> Outcome<T> {
        Outcome {
            number: 0,
            value: values(&[]),
            written: After::Holds(written),
        }
    }

    /// What a work buffer holds after the call, given what was lent: after 0 and 4 it holds 0 throughout.
    pub fn work(&self, lent: &[u32]) -> Vec<u32> {
        match self.number {
            0 | 4 => vec![0; lent.len()],
            _ => lent.to_vec(),
        }
    }
}

fn is_tile(rows: usize, cols: usize) -> bool {
    (1..=256).contains(&rows) && (1..=256).contains(&cols)
}

/// The lengths of the buffers that writing a record is lent beside the grid: the record and both work buffers.
pub fn record_lengths(rows: usize, cols: usize) -> [usize; 3] {
    let cells = rows * cols;
    [record_len(border_places(rows, cols).len()), cells, cells]
}

/// The outcome of writing a record, in the order of refusals of paper 01: 1, 9, 2, 3, 4.
pub fn record(
    (rows, cols): (usize, usize),
    (tile_row, tile_col): (usize, usize),
    grid: &[u8],
    lengths: [usize; 3],
) -> Outcome<u8> {
    if !is_tile(rows, cols) {
        return Outcome::refusal(1, &[]);
    }
    if tile_row > 63 || tile_col > 63 {
        return Outcome::refusal(9, &[0]);
    }
    if grid.len() != rows * cols || lengths != record_lengths(rows, cols) {
        return Outcome::refusal(2, &[]);
    }
    let counted = independent::count(rows, cols, grid, grid.len());
    let (0, After::Holds(counts)) = (counted.number, counted.counts) else {
        // 3 or 4, with the same values as in counting.
        return Outcome {
            number: counted.number,
            value: counted.value,
            written: After::AsLent,
        };
    };
    let borders = border_places(rows, cols);
    let border_counts: Vec<u32> = borders.iter().map(|&place| counts[place]).collect();
    let waters = waters(rows, cols, grid).expect("all codes are good");
    let ways = ways(rows, cols, grid, &waters);
    let sides = [rows, cols, tile_row, tile_col];
    Outcome::done(record_bytes(sides, &border_counts, &ways))
}

/// The lengths of the buffers that finishing is lent beside the grid: the incoming, the counts and the work buffer.
pub fn finish_lengths(rows: usize, cols: usize) -> [usize; 3] {
    let cells = rows * cols;
    [border_places(rows, cols).len(), cells, cells]
}

/// Adds what comes in at each border cell to that cell and to all that its water passes. 64 bits hold every sum.
fn add_incoming(borders: &[usize], waters: &[Water], incoming: &[u32], counts: &mut [u64]) {
    for (&start, &amount) in borders.iter().zip(incoming) {
        if amount == 0 {
            continue;
        }
        let mut place = start;
        counts[place] += u64::from(amount);
        while let Water::To(next) = waters[place] {
            place = next as usize;
            counts[place] += u64::from(amount);
        }
    }
}

/// The outcome of finishing, in the order of refusals of paper 01: 1, 2, 3, 10, 4.
pub fn finish(
    (rows, cols): (usize, usize),
    grid: &[u8],
    incoming: &[u32],
    [counts_len, work_len]: [usize; 2],
) -> Outcome<u32> {
    if !is_tile(rows, cols) {
        return Outcome::refusal(1, &[]);
    }
    let lengths = [incoming.len(), counts_len, work_len];
    if grid.len() != rows * cols || lengths != finish_lengths(rows, cols) {
        return Outcome::refusal(2, &[]);
    }
    let counted = independent::count(rows, cols, grid, grid.len());
    if counted.number == 3 {
        return Outcome::refusal(3, &[counted.value[0] as usize]);
    }
    let borders = border_places(rows, cols);
    let unfit = (0..incoming.len()).find(|&border| {
        let absent = matches!(meaning(grid[borders[border]]), Meaning::Absent);
        incoming[border] > GREATEST_INCOMING || (absent && incoming[border] != 0)
    });
    if let Some(border) = unfit {
        return Outcome::refusal(10, &[border]);
    }
    // After 4 the counts hold 0 throughout, as in counting.
    let After::Holds(counts) = counted.counts else {
        panic!("a tile that is not refused before has counts");
    };
    let mut finished: Vec<u64> = counts.iter().copied().map(u64::from).collect();
    if counted.number == 0 {
        let waters = waters(rows, cols, grid).expect("all codes are good");
        add_incoming(&borders, &waters, incoming, &mut finished);
    }
    let whole = |&count: &u64| u32::try_from(count).expect("a finished count has 32 bits");
    Outcome {
        number: counted.number,
        value: if counted.number == 4 {
            counted.value
        } else {
            values(&[])
        },
        written: After::Holds(finished.iter().map(whole).collect()),
    }
}
