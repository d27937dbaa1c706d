//! Holds writing a tile's border record to the independent one: the reply, all its values, and every buffer after the
//! call.
//!
//! Each record is written twice, through the C interface and through the safe function, each time with other rubbish in
//! the record and in the work buffers, and with other guards beside all buffers.

mod common;

use common::draw::Draw;
use common::group::{many, whole_tally, Group, Tally};
use common::independent;
use common::lent::Lent;
use common::notation;
use common::sheets::{
    self, any_loop_free, any_shape, any_tile, close_a_loop, every_bad_code, every_grid,
    odd_lengths, one_river, one_round, Absent, Sheet, GOOD_CODES, ODD_TILE_SIDES, TILE_SHAPES,
};
use common::tile::{self, border_places, record_lengths, Outcome};
use drainage::{border_cells, raw, record, record_len, record_work, RecordReply};

/// What a call is lent.
#[derive(Clone, Copy)]
struct Call<'a> {
    shape: (usize, usize),
    position: (usize, usize),
    grid: &'a [u8],
    /// Of the record and of the work buffers.
    lengths: [usize; 3],
}

impl<'a> Call<'a> {
    fn of(sheet: &'a Sheet, position: (usize, usize)) -> Call<'a> {
        Call {
            shape: (sheet.rows, sheet.cols),
            position,
            grid: &sheet.grid,
            lengths: record_lengths(sheet.rows, sheet.cols),
        }
    }
}

fn named(expected: &Outcome<u8>) -> RecordReply {
    let [place, length, ..] = independent::sizes(expected.value);
    match expected.number {
        0 => RecordReply::Done,
        1 => RecordReply::Shape,
        9 => RecordReply::Layout,
        2 => RecordReply::Length,
        3 => RecordReply::Code { place },
        4 => RecordReply::Loop { place, length },
        other => panic!("the independent record gives {other}, which is no reply of writing one"),
    }
}

/// What is lent to one call, beside what it was before.
struct Buffers {
    grid: Lent<u8>,
    record: Lent<u8>,
    work: [Lent<u32>; 2],
    record_before: Vec<u8>,
    work_before: [Vec<u32>; 2],
}

impl Buffers {
    fn new(draw: &mut Draw, call: Call) -> Buffers {
        let [record_len, work1_len, work2_len] = call.lengths;
        let record_before: Vec<u8> = (0..record_len).map(|_| draw.word() as u8).collect();
        // Rubbish of all kinds, or the same number throughout, 0 among them.
        let same = draw.pick(&[None, Some(u32::MAX), Some(0), Some(1), None]);
        let work_before = [work1_len, work2_len].map(|length| {
            let mut number = || same.unwrap_or_else(|| draw.word() as u32);
            (0..length).map(|_| number()).collect::<Vec<u32>>()
        });
        // An arrow as a guard is noticed not only when it is overwritten: if it is read as a cell, the counts go wrong.
        Buffers {
            grid: Lent::new(call.grid, draw.pick(&GOOD_CODES[..8])),
            record: Lent::new(&record_before, draw.word() as u8),
            work: work_before
                .each_ref()
                .map(|before| Lent::new(before, draw.word() as u32)),
            record_before,
            work_before,
        }
    }

    /// Whether all of them are as they should be after the call.
    fn hold(&self, call: Call, expected: &Outcome<u8>) -> Result<(), String> {
        self.grid.holds("the grid", call.grid)?;
        let record = expected.written.given(&self.record_before);
        self.record.holds("the record", record)?;
        let works = self.work.iter().zip(&self.work_before);
        for ((work, before), name) in works.zip(["work1", "work2"]) {
            work.holds(name, &expected.work(before))?;
        }
        Ok(())
    }
}

/// Calls the library in both ways and compares with the outcome expected.
fn hold(tally: &mut Tally, call: Call, expected: &Outcome<u8>, seed: u64) -> Result<(), String> {
    let ((rows, cols), (tile_row, tile_col)) = (call.shape, call.position);
    let mut draw = Draw::new(!seed);
    let tell = |way: &str, what: String| {
        format!(
            "{way}: {what}\n  {rows} by {cols} at {tile_row}, {tile_col}, grid of {} cells {}, lengths {:?}, seed {seed:#x}",
            call.grid.len(),
            notation::write(cols, call.grid),
            call.lengths
        )
    };

    let mut lent = Buffers::new(&mut draw, call);
    let [work1, work2] = &mut lent.work;
    // SAFETY: the pointers are those of four buffers, with their lengths.
    let reply = unsafe {
        raw::drainage_record(
            rows,
            cols,
            tile_row,
            tile_col,
            lent.grid.pointer(),
            lent.grid.len(),
            lent.record.pointer(),
            lent.record.len(),
            work1.pointer(),
            work1.len(),
            work2.pointer(),
            work2.len(),
        )
    };
    let in_c = |what| tell("drainage_record", what);
    if (reply.number, reply.value) != (expected.number, expected.value) {
        return Err(in_c(format!(
            "reply {} with {:?}, expected {} with {:?}",
            reply.number, reply.value, expected.number, expected.value
        )));
    }
    lent.hold(call, expected).map_err(in_c)?;

    let mut lent = Buffers::new(&mut draw, call);
    let reply = record(
        rows,
        cols,
        tile_row,
        tile_col,
        lent.grid.slice(),
        lent.record.slice_mut(),
        lent.work.each_mut().map(|work| work.slice_mut()),
    );
    let in_rust = |what| tell("record", what);
    if reply != named(expected) {
        return Err(in_rust(format!(
            "{reply:?}, expected {:?}",
            named(expected)
        )));
    }
    lent.hold(call, expected).map_err(in_rust)?;

    tally.outcomes += 1;
    tally.replies[expected.number as usize] += 1;
    if expected.number == 0 {
        tally.cells += call.grid.len() as u64;
    }
    Ok(())
}

/// Calls the library and compares with the independent record, whose reply number is the answer.
fn compare(tally: &mut Tally, call: Call, seed: u64) -> Result<u32, String> {
    let expected = tile::record(call.shape, call.position, call.grid, call.lengths);
    hold(tally, call, &expected, seed)?;
    Ok(expected.number)
}

/// The same for a call that was made so that this is the reply.
fn compare_made(tally: &mut Tally, call: Call, number: u32, seed: u64) -> Result<(), String> {
    let reply = compare(tally, call, seed)?;
    if reply == number {
        return Ok(());
    }
    Err(format!(
        "a tile made for reply {number} has reply {reply}: {:?} at {:?}, seed {seed:#x}, {}",
        call.shape,
        call.position,
        notation::write(call.shape.1, call.grid)
    ))
}

/// A position that is taken, the first and the last more often than chance would give them.
fn any_position(draw: &mut Draw) -> (usize, usize) {
    let mut side = || {
        if draw.one_in(4) {
            draw.pick(&[0, 63])
        } else {
            draw.below(64)
        }
    };
    (side(), side())
}

/// Tiles of paper 01's sheets and others worked by hand: the tile, its position, its record in hex.
const HAND_TILES: [(&str, &str, (usize, usize), &str); 13] = [
    (
        "O",
        "1 1",
        (0, 0),
        "01 0008 0001 0002 0000 0000, 02 0008 00000001 00000002, 03 0006 0001 01 0001 01",
    ),
    (
        "A, the first tile of M",
        "1",
        (0, 0),
        "01 0008 0001 0001 0000 0000, 02 0004 00000001, 03 0003 0000 01",
    ),
    (
        "the second tile of M",
        "16",
        (0, 1),
        "01 0008 0001 0001 0000 0001, 02 0004 00000001, 03 0003 0000 10",
    ),
    (
        "B at the last position",
        "255",
        (63, 63),
        "01 0008 0001 0001 003F 003F, 02 0004 00000000, 03 0003 FFFF FF",
    ),
    (
        "the other absent code",
        "0",
        (1, 62),
        "01 0008 0001 0001 0001 003E, 02 0004 00000000, 03 0003 FFFF FF",
    ),
    (
        "D, both waters end inside",
        "1 255 16",
        (0, 2),
        "01 0008 0001 0003 0000 0002, 02 000C 00000001 00000000 00000001, 03 0009 FFFF 00 FFFF FF FFFF 00",
    ),
    (
        "the first tile of L",
        "4 1",
        (0, 0),
        "01 0008 0001 0002 0000 0000, 02 0008 00000001 00000001, 03 0006 0000 04 0001 01",
    ),
    (
        "the second tile of L",
        "1 64",
        (1, 0),
        "01 0008 0001 0002 0001 0000, 02 0008 00000001 00000002, 03 0006 0001 40 0001 40",
    ),
    (
        "L in one",
        "4 1 / 1 64",
        (0, 0),
        "01 0008 0002 0002 0000 0000, 02 0010 00000001 00000004 00000002 00000003, \
         03 000C 0001 01 0001 01 0001 01 0001 01",
    ),
    (
        "H, whose waters pass its only inner cell",
        "2 4 8 / 1 4 16 / 128 4 32",
        (5, 6),
        "01 0008 0003 0003 0005 0006, \
         02 0020 00000001 00000001 00000001 00000001 00000001 00000001 00000009 00000001, \
         03 0018 0006 04 0006 04 0006 04 0006 04 0006 04 0006 04 0006 04 0006 04",
    ),
    (
        "K, whose waters end there but for one",
        "2 4 8 / 1 255 16 / 128 4 32",
        (0, 0),
        "01 0008 0003 0003 0000 0000, \
         02 0020 00000001 00000001 00000001 00000001 00000001 00000001 00000001 00000001, \
         03 0018 FFFF 00 FFFF 00 FFFF 00 FFFF 00 FFFF 00 FFFF 00 0006 04 FFFF 00",
    ),
    (
        "one column, its water goes up and out at a corner",
        "128 / 64 / 64",
        (2, 0),
        "01 0008 0003 0001 0002 0000, 02 000C 00000003 00000002 00000001, 03 0009 0000 80 0000 80 0000 80",
    ),
    (
        "waters over all four corners",
        "32 1 128 / 255 255 0 / 8 64 2",
        (0, 0),
        "01 0008 0003 0003 0000 0000, \
         02 0020 00000001 00000001 00000002 00000000 00000000 00000001 00000001 00000001, \
         03 0018 0000 20 0002 80 0002 80 FFFF FF FFFF FF 0005 08 FFFF 00 0007 02",
    ),
];

/// The bytes of a text in hex.
fn hex(text: &str) -> Vec<u8> {
    let digits: Vec<u8> = text
        .chars()
        .filter_map(|digit| digit.to_digit(16))
        .map(|digit| digit as u8)
        .collect();
    digits
        .chunks(2)
        .map(|pair| 16 * pair[0] + pair[1])
        .collect()
}

fn run_hand_tiles(tally: &mut Tally) -> Result<(), String> {
    for (name, grid, position, bytes) in HAND_TILES {
        let (rows, cols, grid) = notation::read(grid);
        let sheet = Sheet { rows, cols, grid };
        let expected = Outcome::done(hex(bytes));
        hold(tally, Call::of(&sheet, position), &expected, 1)
            .map_err(|what| format!("{name}: {what}"))?;
    }
    for (name, grid, number, value) in [
        ("E", "1 16", 4, &[0, 2][..]),
        ("F", "1 1 1 16", 4, &[2, 2]),
        ("G", "1 16 3", 3, &[2]),
        ("J", "2 4 8 / 1 64 16 / 128 4 32", 4, &[1, 2]),
    ] {
        let (rows, cols, grid) = notation::read(grid);
        let sheet = Sheet { rows, cols, grid };
        let expected = Outcome::refusal(number, value);
        hold(tally, Call::of(&sheet, (63, 0)), &expected, 1)
            .map_err(|what| format!("{name}: {what}"))?;
    }
    Ok(())
}

fn every_grid_of(tally: &mut Tally, codes: &[u8], rows: usize, cols: usize) -> Result<(), String> {
    every_grid(codes, (rows * cols) as u32, |grid, number| {
        let call = Call {
            shape: (rows, cols),
            position: any_position(&mut Draw::new(number)),
            grid,
            lengths: record_lengths(rows, cols),
        };
        compare(tally, call, number).map(|_| ())
    })
}

fn run_every_small_tile(tally: &mut Tally) -> Result<(), String> {
    let any_byte: Vec<u8> = (0..=255).collect();
    for rows in 1..=6 {
        for cols in 1..=6 / rows {
            if rows * cols <= 5 {
                every_grid_of(tally, &[1, 4, 16, 64, 128, 255], rows, cols)?;
            } else {
                every_grid_of(tally, &[1, 4, 16, 32, 255], rows, cols)?;
            }
            if rows * cols <= 4 {
                every_grid_of(tally, &GOOD_CODES, rows, cols)?;
            }
            if rows * cols <= 1 {
                every_grid_of(tally, &any_byte, rows, cols)?;
            }
        }
    }
    Ok(())
}

fn run_small_shapes(tally: &mut Tally) -> Result<(), String> {
    for rows in 1..=6 {
        for cols in 1..=6 {
            for number in 0..many(500) {
                let seed = (0x81 << 40) + (((rows * 100 + cols) as u64) << 24) + number;
                let mut draw = Draw::new(seed);
                let sheet = any_tile(&mut draw, rows, cols);
                compare(tally, Call::of(&sheet, any_position(&mut draw)), seed)?;
            }
        }
    }
    Ok(())
}

/// The least number of cells in the tiles without loops.
fn least_cells() -> u64 {
    many(2_000_000)
}

fn run_tiles_without_loops(tally: &mut Tally) -> Result<(), String> {
    let mut seed = 0x82 << 40;
    while tally.cells < least_cells() {
        seed += 1;
        let mut draw = Draw::new(seed);
        let (rows, cols) = any_shape(&mut draw);
        let sheet = any_loop_free(&mut draw, rows, cols);
        let call = Call::of(&sheet, any_position(&mut draw));
        compare_made(tally, call, 0, seed)?;
    }
    Ok(())
}

fn run_closed_rivers(tally: &mut Tally) -> Result<(), String> {
    for number in 0..many(2_000) {
        let seed = (0x83 << 40) + number;
        let mut draw = Draw::new(seed);
        let (rows, cols) = any_shape(&mut draw);
        let mut sheet = any_loop_free(&mut draw, rows, cols);
        let mut closed = false;
        for _ in 0..draw.within(1, 3) {
            closed |= close_a_loop(&mut draw, &mut sheet);
        }
        let call = Call::of(&sheet, any_position(&mut draw));
        // A tile on which no cell was found that could close a loop is still without one.
        compare_made(tally, call, if closed { 4 } else { 0 }, seed)?;
    }
    Ok(())
}

fn run_bad_codes(tally: &mut Tally) -> Result<(), String> {
    let bad_codes = every_bad_code();
    for &bad in &bad_codes {
        for number in 0..many(4) {
            let seed = (0x84 << 40) + ((bad as u64) << 32) + number;
            let mut draw = Draw::new(seed);
            let (rows, cols) = any_shape(&mut draw);
            let mut sheet = if number % 2 == 0 {
                any_loop_free(&mut draw, rows, cols)
            } else {
                sheets::arbitrary(&mut draw, rows, cols, Absent(4), &GOOD_CODES)
            };
            let cells = sheet.grid.len();
            let place = match number {
                0 => 0,
                1 => cells - 1,
                _ => draw.below(cells),
            };
            sheet.grid[place] = bad;
            if draw.one_in(2) {
                let after = draw.within(place, cells - 1);
                sheet.grid[after] = draw.pick(&bad_codes);
            }
            let call = Call::of(&sheet, any_position(&mut draw));
            compare_made(tally, call, 3, seed)?;
        }
    }
    Ok(())
}

/// Tile rows and tile columns at and beyond the bound, also such as are within it again if cut to fewer bits.
const ODD_POSITIONS: [usize; 12] = [
    0,
    1,
    62,
    63,
    64,
    65,
    255,
    256,
    65536,
    1 << 32,
    (1 << 32) + 63,
    usize::MAX,
];

fn run_positions(tally: &mut Tally) -> Result<(), String> {
    for tile_row in ODD_POSITIONS {
        for tile_col in ODD_POSITIONS {
            for (number, grid) in ["1 1", "1 16", "1 3", "255 / 0 / 4", "1 4 / 64 16"]
                .into_iter()
                .enumerate()
            {
                let (rows, cols, grid) = notation::read(grid);
                let sheet = Sheet { rows, cols, grid };
                let call = Call::of(&sheet, (tile_row, tile_col));
                let reply = compare(tally, call, number as u64)?;
                if (reply == 9) != (tile_row > 63 || tile_col > 63) {
                    return Err(format!("{tile_row}, {tile_col} has reply {reply}"));
                }
            }
        }
    }
    Ok(())
}

/// The order of the refusals 1, 9, 2, 3 and 4: all cases of right and wrong for each of them.
fn run_order_of_refusals(tally: &mut Tally) -> Result<(), String> {
    for number in 0..many(100) {
        let seed = (0x85 << 40) + number;
        for faults in 0..16 {
            let mut draw = Draw::new(seed);
            let (rows, cols) = (draw.within(1, 12), draw.within(2, 12));
            let mut sheet = any_loop_free(&mut draw, rows, cols);
            let place = draw.below(rows) * cols + draw.below(cols - 1);
            // A loop in any case, so that it stands behind every other refusal.
            sheet.grid[place] = 1;
            sheet.grid[place + 1] = 16;
            let mut call = Call::of(&sheet, any_position(&mut draw));
            let mut changed = sheet.grid.clone();
            let mut expected = 4;
            if faults & 8 != 0 {
                changed[draw.below(rows * cols)] = draw.pick(&[3, 5, 254, 127]);
                call.grid = &changed;
                expected = 3;
            }
            if faults & 4 != 0 {
                call.lengths[draw.below(3)] += 1;
                expected = 2;
            }
            if faults & 2 != 0 {
                let beyond = draw.pick(&ODD_POSITIONS[4..]);
                match draw.below(2) {
                    0 => call.position.0 = beyond,
                    _ => call.position.1 = beyond,
                }
                expected = 9;
            }
            if faults & 1 != 0 {
                let odd = draw.pick(&[0, 257, 1 << 32]);
                match draw.below(2) {
                    0 => call.shape.0 = odd,
                    _ => call.shape.1 = odd,
                }
                expected = 1;
            }
            compare_made(tally, call, expected, seed + faults)?;
        }
    }
    Ok(())
}

fn run_wrong_lengths(tally: &mut Tally) -> Result<(), String> {
    for (rows, cols) in TILE_SHAPES {
        let right = record_lengths(rows, cols);
        let cells = rows * cols;
        // The length of a record by the formula that does not hold for a single row or column, too.
        let by_formula = 17 + 7 * (2 * rows + 2 * cols - 4);
        for buffer in 0..4 {
            let mut lengths = odd_lengths(rows, cols).to_vec();
            lengths.extend([right[0], right[0] - 1, right[0] + 1, by_formula]);
            for length in lengths {
                for kind in 0..3 {
                    let seed = (0x86 << 40) + ((length << 8) + 4 * buffer + kind) as u64;
                    let mut draw = Draw::new(seed);
                    let mut call = Call {
                        shape: (rows, cols),
                        position: any_position(&mut draw),
                        grid: &[],
                        lengths: right,
                    };
                    let grid_len = if buffer == 3 { length } else { cells };
                    if buffer < 3 {
                        call.lengths[buffer] = length;
                    }
                    let grid: Vec<u8> = (0..grid_len)
                        .map(|_| match kind {
                            0 => draw.pick(&[1, 4, 255]),
                            1 => draw.pick(&GOOD_CODES),
                            _ => draw.word() as u8,
                        })
                        .collect();
                    call.grid = &grid;
                    let number = compare(tally, call, seed)?;
                    if (number == 2) != (grid_len != cells || call.lengths != right) {
                        return Err(format!(
                            "lengths {grid_len}, {:?} of {rows} by {cols} have reply {number}",
                            call.lengths
                        ));
                    }
                }
            }
        }
    }
    Ok(())
}

fn run_sides(tally: &mut Tally) -> Result<(), String> {
    for rows in ODD_TILE_SIDES {
        for cols in ODD_TILE_SIDES {
            let seed = (0x87 << 40) ^ (rows as u64).rotate_left(20) ^ cols as u64;
            let mut draw = Draw::new(seed);
            let fitting = rows.wrapping_mul(cols);
            let cells = if fitting <= 100_000 { fitting } else { 6 };
            let within = |side| (1..=256).contains(&side);
            let is_tile = within(rows) && within(cols);
            let lengths = if is_tile {
                record_lengths(rows, cols)
            } else {
                [24, cells, cells]
            };
            for arrows in [&[1, 4, 255][..], &GOOD_CODES, &[3, 1, 4, 16]] {
                let grid: Vec<u8> = (0..cells).map(|_| draw.pick(arrows)).collect();
                for more in [0, 1] {
                    let call = Call {
                        shape: (rows, cols),
                        position: draw.pick(&[(0, 0), (63, 63), (64, 0)]),
                        grid: &grid,
                        lengths: [lengths[0], lengths[1], lengths[2] + more],
                    };
                    let number = compare(tally, call, seed)?;
                    if (number == 1) == is_tile {
                        return Err(format!("{rows} by {cols} has reply {number}"));
                    }
                }
            }
        }
    }
    Ok(())
}

/// The greatest tiles: one river past all cells, one round of all cells, rivers of all kinds.
fn run_greatest_tiles(tally: &mut Tally) -> Result<(), String> {
    let seed = 0x88 << 40;
    let mut draw = Draw::new(seed);
    for (rows, cols) in [(256, 256), (256, 255), (2, 256), (256, 2)] {
        let river = one_river(rows, cols);
        compare_made(tally, Call::of(&river, (0, 0)), 0, seed)?;
        let round = one_round(rows, cols);
        let expected = Outcome::refusal(4, &[0, rows * cols]);
        hold(tally, Call::of(&round, (7, 7)), &expected, seed)?;
    }
    for (rows, cols) in [(256, 256), (255, 256), (1, 256), (256, 1), (100, 256)] {
        for number in 0..many(2) {
            let sheet = match number % 2 {
                0 => any_loop_free(&mut draw, rows, cols),
                _ => sheets::winding(&mut draw, rows, cols, Absent(8)),
            };
            let call = Call::of(&sheet, any_position(&mut draw));
            compare_made(tally, call, 0, seed)?;
        }
    }
    Ok(())
}

static HAND: Group = Group::new("hand tiles", run_hand_tiles);
static EVERY_SMALL: Group = Group::new("every small tile", run_every_small_tile);
static SMALL_SHAPES: Group = Group::new("small shapes", run_small_shapes);
static WITHOUT_LOOPS: Group = Group::new("tiles without loops", run_tiles_without_loops);
static CLOSED: Group = Group::new("closed rivers", run_closed_rivers);
static BAD_CODES: Group = Group::new("bad codes", run_bad_codes);
static POSITIONS: Group = Group::new("positions", run_positions);
static ORDER: Group = Group::new("order of refusals", run_order_of_refusals);
static WRONG_LENGTHS: Group = Group::new("wrong lengths", run_wrong_lengths);
static SIDES: Group = Group::new("sides", run_sides);
static GREATEST: Group = Group::new("greatest tiles", run_greatest_tiles);

#[test]
fn hand_tiles() {
    HAND.passes();
}

#[test]
fn every_small_tile() {
    EVERY_SMALL.passes();
}

#[test]
fn small_shapes() {
    SMALL_SHAPES.passes();
}

#[test]
fn tiles_without_loops() {
    WITHOUT_LOOPS.passes();
}

#[test]
fn closed_rivers() {
    CLOSED.passes();
}

#[test]
fn bad_codes() {
    BAD_CODES.passes();
}

#[test]
fn positions() {
    POSITIONS.passes();
}

#[test]
fn order_of_refusals() {
    ORDER.passes();
}

#[test]
fn wrong_lengths() {
    WRONG_LENGTHS.passes();
}

#[test]
fn sides() {
    SIDES.passes();
}

#[test]
fn greatest_tiles() {
    GREATEST.passes();
}

#[test]
fn every_reply_is_reached() {
    let whole = whole_tally(&[
        &HAND,
        &EVERY_SMALL,
        &SMALL_SHAPES,
        &WITHOUT_LOOPS,
        &CLOSED,
        &BAD_CODES,
        &POSITIONS,
        &ORDER,
        &WRONG_LENGTHS,
        &SIDES,
        &GREATEST,
    ]);
    println!(
        "writing records: {} tiles compared, {} cells in the tiles whose record was written",
        whole.outcomes, whole.cells
    );
    for (number, name) in [
        (0, "done"),
        (1, "shape"),
        (9, "layout"),
        (2, "length"),
        (3, "code"),
        (4, "loop"),
    ] {
        let times = whole.replies[number];
        println!("writing records: reply {number} {name} {times} times");
        assert!(times > 0, "reply {number} {name} was not reached");
    }
}

/// How many border cells a tile has, and the lengths that hang on it, for every shape up to 260 by 260.
#[test]
fn the_lengths_are_the_stated_ones() {
    for rows in 0..260 {
        for cols in 0..260 {
            let fits = (1..=256).contains(&rows) && (1..=256).contains(&cols);
            // In words: all cells but those of the rows and columns within.
            let inner = |side: usize| side.saturating_sub(2);
            let cells = if fits {
                rows * cols - inner(rows) * inner(cols)
            } else {
                0
            };
            assert_eq!(border_cells(rows, cols), cells, "{rows} by {cols}");
            let bytes = if fits { 17 + 7 * cells } else { 0 };
            assert_eq!(record_len(rows, cols), bytes, "{rows} by {cols}");
            let work = if fits { rows * cols } else { 0 };
            assert_eq!(record_work(rows, cols), [work; 2], "{rows} by {cols}");
            if fits && (rows < 20 || cols < 20) {
                assert_eq!(border_places(rows, cols).len(), cells, "{rows} by {cols}");
            }
        }
    }
    for rows in ODD_TILE_SIDES {
        for cols in ODD_TILE_SIDES {
            if rows > 256 || cols > 256 {
                assert_eq!(border_cells(rows, cols), 0, "{rows} by {cols}");
                assert_eq!(record_work(rows, cols), [0; 2], "{rows} by {cols}");
            }
        }
    }
}

#[test]
fn empty_slices_are_refused() {
    let empty =
        |rows, cols, tile_row| record(rows, cols, tile_row, 0, &[], &mut [], [&mut [], &mut []]);
    assert_eq!(empty(1, 1, 0), RecordReply::Length);
    assert_eq!(empty(1, 1, 64), RecordReply::Layout);
    assert_eq!(empty(0, 0, 64), RecordReply::Shape);
    assert_eq!(empty(1 << 32, 1 << 32, 0), RecordReply::Shape);
}

/// The independent record is itself held to the tiles worked by hand.
#[test]
fn the_independent_record_is_right_by_hand() {
    for (name, grid, position, bytes) in HAND_TILES {
        let (rows, cols, grid) = notation::read::<u8>(grid);
        let found = tile::record((rows, cols), position, &grid, record_lengths(rows, cols));
        assert_eq!(found.number, 0, "{name}");
        assert_eq!(found.written.given(&[]), hex(bytes), "{name}");
    }
}
