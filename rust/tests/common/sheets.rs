//! Sheets and tiles for the tests: drawn ones with loops and without, made ones such as one long river, and sides and
//! lengths at and beyond the bounds.

use super::draw::Draw;

/// The eight codes with their steps by row and column.
const STEPS: [(u8, isize, isize); 8] = [
    (1, 0, 1),
    (2, 1, 1),
    (4, 1, 0),
    (8, 1, -1),
    (16, 0, -1),
    (32, -1, -1),
    (64, -1, 0),
    (128, -1, 1),
];

/// The ten good codes.
pub const GOOD_CODES: [u8; 10] = [1, 2, 4, 8, 16, 32, 64, 128, 0, 255];

pub struct Sheet {
    pub rows: usize,
    pub cols: usize,
    pub grid: Vec<u8>,
}

/// How much of a sheet is absent, in sixteenths.
#[derive(Clone, Copy)]
pub struct Absent(pub usize);

impl Sheet {
    fn all_absent(rows: usize, cols: usize) -> Sheet {
        Sheet {
            rows,
            cols,
            grid: vec![255; rows * cols],
        }
    }

    fn step(&self, place: usize, (_, by_row, by_col): (u8, isize, isize)) -> Option<usize> {
        let row = (place / self.cols).checked_add_signed(by_row)?;
        let col = (place % self.cols).checked_add_signed(by_col)?;
        (row < self.rows && col < self.cols).then_some(row * self.cols + col)
    }

    pub fn is_land(&self, place: usize) -> bool {
        self.grid[place].is_power_of_two()
    }

    /// The cells whose arrows point at this one, be it land or absent.
    pub fn givers(&self, place: usize) -> Vec<usize> {
        let mut givers = Vec::with_capacity(8);
        for (code, by_row, by_col) in STEPS {
            let from = self.step(place, (code, -by_row, -by_col));
            givers.extend(from.filter(|&giver| self.grid[giver] == code));
        }
        givers
    }

    /// The land cell that this cell's arrow points at, if it does at one.
    pub fn next(&self, place: usize) -> Option<usize> {
        let code = self.grid[place];
        let step = STEPS.into_iter().find(|step| step.0 == code)?;
        self.step(place, step).filter(|&next| self.is_land(next))
    }
}

fn absent_code(draw: &mut Draw) -> u8 {
    draw.pick(&[0, 255])
}

/// Any arrows at all, so that loops are frequent.
pub fn arbitrary(
    draw: &mut Draw,
    rows: usize,
    cols: usize,
    absent: Absent,
    arrows: &[u8],
) -> Sheet {
    let mut sheet = Sheet::all_absent(rows, cols);
    for code in &mut sheet.grid {
        *code = if draw.below(16) < absent.0 {
            absent_code(draw)
        } else {
            draw.pick(arrows)
        };
    }
    sheet
}

/// The lie of the land.
#[derive(Clone, Copy)]
pub enum Relief {
    /// Heights without any order: short waters.
    Rough,
    /// A slope to one side with a little roughness: waters that cross the sheet.
    Slope,
}

fn heights(draw: &mut Draw, rows: usize, cols: usize, relief: Relief) -> Vec<i64> {
    // How much a step southwards and a step eastwards rises, and how much the ground varies besides.
    let (by_row, by_col, roughness) = match relief {
        Relief::Rough => (0, 0, 1000),
        Relief::Slope => (
            draw.within(0, 10) as i64 - 5,
            draw.within(0, 10) as i64 - 5,
            12,
        ),
    };
    let mut heights = Vec::with_capacity(rows * cols);
    for row in 0..rows as i64 {
        for col in 0..cols as i64 {
            heights.push(row * by_row + col * by_col + draw.below(roughness) as i64);
        }
    }
    heights
}

/// A sheet whose arrows all go downhill, so that it has no loop.
pub fn downhill(
    draw: &mut Draw,
    rows: usize,
    cols: usize,
    absent: Absent,
    relief: Relief,
) -> Sheet {
    let heights = heights(draw, rows, cols, relief);
    let mut sheet = Sheet::all_absent(rows, cols);
    let mut land = vec![true; rows * cols];
    for cell in &mut land {
        *cell = draw.below(16) >= absent.0;
    }
    for place in 0..land.len() {
        if !land[place] {
            sheet.grid[place] = absent_code(draw);
            continue;
        }
        let mut lower = Vec::with_capacity(8);
        let mut out = Vec::with_capacity(8);
        for step in STEPS {
            match sheet.step(place, step).filter(|&next| land[next]) {
                Some(next) if heights[next] < heights[place] => lower.push((heights[next], step.0)),
                Some(_) => (),
                None => out.push(step.0),
            }
        }
        sheet.grid[place] = if !lower.is_empty() && (out.is_empty() || !draw.one_in(6)) {
            if draw.one_in(3) {
                draw.pick(&lower).1
            } else {
                lower.iter().min().expect("there is a lower neighbour").1
            }
        } else if !out.is_empty() {
            draw.pick(&out)
        } else {
            // A hollow: no arrow can leave it downhill.
            absent_code(draw)
        };
    }
    sheet
}

/// A sheet without loops whose rivers wind through it as long as they can, in all eight directions: from each mouth the
/// river is drawn upwards, to a random neighbour that has no arrow yet, and back where there is none.
pub fn winding(draw: &mut Draw, rows: usize, cols: usize, absent: Absent) -> Sheet {
    let mut sheet = Sheet::all_absent(rows, cols);
    let cells = rows * cols;
    // What is to become land and has no arrow yet.
    let mut open = vec![true; cells];
    for cell in &mut open {
        *cell = draw.below(16) >= absent.0;
    }
    let mut mouths: Vec<u32> = (0..cells as u32).collect();
    for last in (1..cells).rev() {
        mouths.swap(last, draw.below(last + 1));
    }
    let mut river: Vec<u32> = Vec::new();
    for mouth in mouths {
        let place = mouth as usize;
        if !open[place] {
            if !sheet.is_land(place) {
                sheet.grid[place] = absent_code(draw);
            }
            continue;
        }
        open[place] = false;
        // Off the sheet, onto an absent cell, or into a river that is already drawn.
        let out: Vec<u8> = STEPS
            .into_iter()
            .filter(|&step| sheet.step(place, step).is_none_or(|next| !open[next]))
            .map(|step| step.0)
            .collect();
        if out.is_empty() {
            continue;
        }
        sheet.grid[place] = draw.pick(&out);
        river.push(mouth);
        while let Some(&top) = river.last() {
            let top = top as usize;
            let mut sources = [(0, 0); 8];
            let mut number = 0;
            for (code, by_row, by_col) in STEPS {
                // The neighbour from which an arrow of this code comes here.
                match sheet.step(top, (code, -by_row, -by_col)) {
                    Some(source) if open[source] => {
                        sources[number] = (source, code);
                        number += 1;
                    }
                    _ => (),
                }
            }
            if number == 0 {
                river.pop();
                continue;
            }
            let (source, code) = draw.pick(&sources[..number]);
            sheet.grid[source] = code;
            open[source] = false;
            river.push(source as u32);
        }
    }
    sheet
}

/// Turns the arrow of one cell to a neighbour whose water comes to it, which closes a loop; the longest one that this
/// cell can close. False if no cell was found.
pub fn close_a_loop(draw: &mut Draw, sheet: &mut Sheet) -> bool {
    let cells = sheet.grid.len();
    for _ in 0..30 {
        let place = draw.below(cells);
        if !sheet.is_land(place) {
            continue;
        }
        let mut best: Option<(usize, u8)> = None;
        for step in STEPS {
            let Some(source) = sheet.step(place, step).filter(|&next| sheet.is_land(next)) else {
                continue;
            };
            let mut passed = source;
            // A walk of more steps than there are cells goes round a loop that is already there.
            for steps in 1..=cells {
                let Some(next) = sheet.next(passed) else {
                    break;
                };
                passed = next;
                if passed == place {
                    best = best.max(Some((steps, step.0)));
                    break;
                }
            }
        }
        if let Some((_, code)) = best {
            sheet.grid[place] = code;
            return true;
        }
    }
    false
}

/// A rectangle of at least two rows and two columns within a sheet.
#[derive(Clone, Copy)]
pub struct Rectangle {
    pub top: usize,
    pub left: usize,
    pub height: usize,
    pub width: usize,
}

impl Rectangle {
    /// The number of cells on its rim.
    pub fn rim(&self) -> usize {
        2 * (self.height + self.width) - 4
    }
}

/// Turns the arrows on the rim of a rectangle so that its water runs round, clockwise or the other way.
pub fn lay_a_ring(sheet: &mut Sheet, within: Rectangle, clockwise: bool) {
    let (top, left) = (within.top, within.left);
    let (bottom, right) = (top + within.height - 1, left + within.width - 1);
    for row in top..=bottom {
        for col in left..=right {
            let code = match (row == top, row == bottom, col == left, col == right) {
                // Clockwise the arrows go east along the top, south down the right, west and north; each corner takes
                // the arrow of the side that begins there.
                (true, _, _, false) if clockwise => 1,
                (_, false, _, true) if clockwise => 4,
                (_, true, false, _) if clockwise => 16,
                (false, _, true, _) if clockwise => 64,
                (_, false, true, _) if !clockwise => 4,
                (_, true, _, false) if !clockwise => 1,
                (false, _, _, true) if !clockwise => 64,
                (true, _, false, _) if !clockwise => 16,
                _ => continue,
            };
            sheet.grid[row * sheet.cols + col] = code;
        }
    }
}

/// Turns the arrows of the four neighbours that stand after an inner cell to it, makes the four before it absent, and
/// has its own water end there, which closes no loop. The cell's place is the answer.
pub fn lay_a_confluence(sheet: &mut Sheet, row: usize, col: usize) -> usize {
    let place = row * sheet.cols + col;
    for (code, by_row, by_col) in STEPS {
        match sheet.step(place, (code, -by_row, -by_col)) {
            Some(beside) if beside > place => sheet.grid[beside] = code,
            Some(beside) => sheet.grid[beside] = 255,
            None => (),
        }
    }
    sheet.grid[place] = 64;
    place
}

/// Every shape up to 40 by 40, with single rows and columns more often than chance would give them.
pub fn any_shape(draw: &mut Draw) -> (usize, usize) {
    let mut side = || {
        if draw.one_in(10) {
            1
        } else {
            draw.within(1, 40)
        }
    };
    (side(), side())
}

/// A sheet without loops, of any of the kinds above.
pub fn any_loop_free(draw: &mut Draw, rows: usize, cols: usize) -> Sheet {
    let absent = draw.pick(&[Absent(0), Absent(0), Absent(1), Absent(4), Absent(8)]);
    match draw.below(3) {
        0 => downhill(draw, rows, cols, absent, Relief::Rough),
        1 => downhill(draw, rows, cols, absent, Relief::Slope),
        _ => winding(draw, rows, cols, absent),
    }
}

/// One river that passes every cell: along the last row, back along the row before it, and so on to the north, so that
/// the scan by place meets its source last.
pub fn one_river(rows: usize, cols: usize) -> Sheet {
    let mut grid = vec![0; rows * cols];
    for (row, codes) in grid.chunks_mut(cols).enumerate() {
        let eastwards = row % 2 == 1;
        codes.fill(if eastwards { 1 } else { 16 });
        codes[if eastwards { cols - 1 } else { 0 }] = 64;
    }
    Sheet { rows, cols, grid }
}

/// The same river with its mouth led down the first column and back to its source: one loop of all cells. The number of
/// rows must be even.
pub fn one_round(rows: usize, cols: usize) -> Sheet {
    let mut sheet = one_river(rows, cols);
    for (row, codes) in sheet.grid.chunks_mut(cols).enumerate() {
        if row != 0 && row % 2 == 0 {
            codes[1] = 64;
        }
        codes[0] = if row == rows - 1 { 1 } else { 4 };
    }
    sheet
}

/// Calls the work with every grid of so many cells over these codes.
pub fn every_grid(
    codes: &[u8],
    cells: u32,
    mut work: impl FnMut(&[u8], u64) -> Result<(), String>,
) -> Result<(), String> {
    let mut grid = vec![0; cells as usize];
    for number in 0..(codes.len() as u64).pow(cells) {
        let mut rest = number as usize;
        for code in &mut grid {
            *code = codes[rest % codes.len()];
            rest /= codes.len();
        }
        work(&grid, number)?;
    }
    Ok(())
}

/// The codes that are none of the ten.
pub fn every_bad_code() -> Vec<u8> {
    let bad_codes: Vec<u8> = (0..=255)
        .filter(|code| !GOOD_CODES.contains(code))
        .collect();
    assert_eq!(bad_codes.len(), 246, "there are 246 bad codes");
    bad_codes
}

/// Sides at and beyond the bounds, also such as are within them again if cut to 32 bits.
pub const ODD_SIDES: [usize; 20] = [
    0,
    1,
    2,
    5,
    4095,
    4096,
    4097,
    8192,
    65536,
    65537,
    1 << 31,
    (1 << 32) - 1,
    1 << 32,
    (1 << 32) + 1,
    (1 << 32) + 4096,
    1 << 33,
    1 << 63,
    (1 << 63) + 1,
    usize::MAX - 1,
    usize::MAX,
];

/// Shapes for buffers of wrong lengths.
pub const SHAPES: [(usize, usize); 11] = [
    (1, 1),
    (1, 2),
    (2, 1),
    (3, 4),
    (7, 1),
    (1, 7),
    (5, 5),
    (16, 16),
    (40, 33),
    (1, 4096),
    (4096, 1),
];

/// The right length of a buffer for this shape, among wrong ones.
pub fn odd_lengths(rows: usize, cols: usize) -> [usize; 8] {
    let right = rows * cols;
    [
        0,
        1,
        right - 1,
        right,
        right + 1,
        right + cols,
        rows + cols,
        2 * right,
    ]
}

/// The same for tiles.
pub const ODD_TILE_SIDES: [usize; 18] = [
    0,
    1,
    2,
    5,
    255,
    256,
    257,
    512,
    4096,
    65536,
    65537,
    1 << 31,
    (1 << 32) - 1,
    1 << 32,
    (1 << 32) + 1,
    (1 << 32) + 256,
    1 << 63,
    usize::MAX,
];

/// Shapes of tiles for buffers of wrong lengths.
pub const TILE_SHAPES: [(usize, usize); 9] = [
    (1, 1),
    (1, 2),
    (2, 1),
    (2, 2),
    (3, 4),
    (7, 1),
    (1, 256),
    (16, 16),
    (40, 33),
];

/// A tile of any kind: without loops for the greater part, else with any arrows, with a loop, or with a bad code.
pub fn any_tile(draw: &mut Draw, rows: usize, cols: usize) -> Sheet {
    let absent = Absent(draw.below(8));
    match draw.below(8) {
        0 => arbitrary(draw, rows, cols, absent, &GOOD_CODES),
        1 => {
            let mut tile = any_loop_free(draw, rows, cols);
            close_a_loop(draw, &mut tile);
            tile
        }
        2 => {
            let mut tile = any_loop_free(draw, rows, cols);
            for _ in 0..draw.within(1, 2) {
                let place = draw.below(rows * cols);
                tile.grid[place] = draw.pick(&every_bad_code());
            }
            tile
        }
        3 => opened(draw, rows, cols),
        _ => any_loop_free(draw, rows, cols),
    }
}

/// Any arrows at all, with a cell of each loop made absent until there is none: short waters in all directions.
pub fn opened(draw: &mut Draw, rows: usize, cols: usize) -> Sheet {
    let absent = Absent(draw.below(6));
    let mut sheet = arbitrary(draw, rows, cols, absent, &GOOD_CODES);
    for start in 0..sheet.grid.len() {
        // A walk of more steps than there are cells goes round a loop.
        let mut place = start;
        let mut steps = 0;
        while let Some(next) = sheet.next(place) {
            place = next;
            steps += 1;
            if steps > sheet.grid.len() {
                sheet.grid[place] = absent_code(draw);
            }
        }
    }
    sheet
}
