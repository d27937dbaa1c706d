//! Holds finishing a tile to the independent way, which adds what comes in to each cell that it passes: the reply, all
//! its values, and every buffer after the call.
//!
//! Each tile is finished twice, through the C interface and through the safe function, each time with other rubbish in
//! the counts and in the work buffer, and with other guards beside all buffers.

mod common;

use common::draw::Draw;
use common::group::{many, whole_tally, Group, Tally};
use common::independent::{self, After};
use common::lent::Lent;
use common::notation;
use common::sheets::{
    self, any_loop_free, any_shape, any_tile, close_a_loop, every_bad_code, every_grid,
    odd_lengths, one_river, one_round, Absent, Sheet, GOOD_CODES, ODD_TILE_SIDES, TILE_SHAPES,
};
use common::tile::{self, border_places, finish_lengths, Outcome, GREATEST_INCOMING};
use drainage::{finish, finish_work, raw, FinishReply};

/// What a call is lent.
#[derive(Clone, Copy)]
struct Call<'a> {
    shape: (usize, usize),
    grid: &'a [u8],
    incoming: &'a [u32],
    /// Of the counts and of the work buffer.
    lengths: [usize; 2],
}

impl<'a> Call<'a> {
    fn of(sheet: &'a Sheet, incoming: &'a [u32]) -> Call<'a> {
        Call {
            shape: (sheet.rows, sheet.cols),
            grid: &sheet.grid,
            incoming,
            lengths: [sheet.grid.len(); 2],
        }
    }
}

fn named(expected: &Outcome<u32>) -> FinishReply {
    let [first, length, ..] = independent::sizes(expected.value);
    match expected.number {
        0 => FinishReply::Done,
        1 => FinishReply::Shape,
        2 => FinishReply::Length,
        3 => FinishReply::Code { place: first },
        10 => FinishReply::Incoming { border: first },
        4 => FinishReply::Loop {
            place: first,
            length,
        },
        other => panic!("the independent way gives {other}, which is no reply of finishing"),
    }
}

/// What is lent to one call, beside what it was before.
struct Buffers {
    grid: Lent<u8>,
    incoming: Lent<u32>,
    counts: Lent<u32>,
    work: Lent<u32>,
    counts_before: Vec<u32>,
    work_before: Vec<u32>,
}

impl Buffers {
    fn new(draw: &mut Draw, call: Call) -> Buffers {
        // Rubbish of all kinds, or the same number throughout, 0 among them.
        let same = draw.pick(&[None, Some(u32::MAX), Some(0), Some(1), None]);
        let [counts_before, work_before] = call.lengths.map(|length| {
            let mut number = || same.unwrap_or_else(|| draw.word() as u32);
            (0..length).map(|_| number()).collect::<Vec<u32>>()
        });
        // An arrow as a guard is noticed not only when it is overwritten: if it is read as a cell, the counts go wrong.
        Buffers {
            grid: Lent::new(call.grid, draw.pick(&GOOD_CODES[..8])),
            incoming: Lent::new(call.incoming, draw.word() as u32),
            counts: Lent::new(&counts_before, draw.word() as u32),
            work: Lent::new(&work_before, draw.word() as u32),
            counts_before,
            work_before,
        }
    }

    /// Whether all of them are as they should be after the call.
    fn hold(&self, call: Call, expected: &Outcome<u32>) -> Result<(), String> {
        self.grid.holds("the grid", call.grid)?;
        self.incoming.holds("the incoming", call.incoming)?;
        let counts = expected.written.given(&self.counts_before);
        self.counts.holds("the counts", counts)?;
        self.work.holds("work1", &expected.work(&self.work_before))
    }
}

/// Calls the library in both ways and compares with the outcome expected.
fn hold(tally: &mut Tally, call: Call, expected: &Outcome<u32>, seed: u64) -> Result<(), String> {
    let (rows, cols) = call.shape;
    let mut draw = Draw::new(!seed);
    let tell = |way: &str, what: String| {
        format!(
            "{way}: {what}\n  {rows} by {cols}, grid of {} cells {}, incoming of {} {}, lengths {:?}, seed {seed:#x}",
            call.grid.len(),
            notation::write(cols, call.grid),
            call.incoming.len(),
            notation::write(cols, call.incoming),
            call.lengths
        )
    };

    let mut lent = Buffers::new(&mut draw, call);
    // SAFETY: the pointers are those of four buffers, with their lengths.
    let reply = unsafe {
        raw::drainage_finish(
            rows,
            cols,
            lent.grid.pointer(),
            lent.grid.len(),
            lent.incoming.pointer(),
            lent.incoming.len(),
            lent.counts.pointer(),
            lent.counts.len(),
            lent.work.pointer(),
            lent.work.len(),
        )
    };
    let in_c = |what| tell("drainage_finish", what);
    if (reply.number, reply.value) != (expected.number, expected.value) {
        return Err(in_c(format!(
            "reply {} with {:?}, expected {} with {:?}",
            reply.number, reply.value, expected.number, expected.value
        )));
    }
    lent.hold(call, expected).map_err(in_c)?;

    let mut lent = Buffers::new(&mut draw, call);
    let reply = finish(
        rows,
        cols,
        lent.grid.slice(),
        lent.incoming.slice(),
        lent.counts.slice_mut(),
        lent.work.slice_mut(),
    );
    let in_rust = |what| tell("finish", what);
    if reply != named(expected) {
        return Err(in_rust(format!(
            "{reply:?}, expected {:?}",
            named(expected)
        )));
    }
    lent.hold(call, expected).map_err(in_rust)?;

    tally.outcomes += 1;
    tally.replies[expected.number as usize] += 1;
    if expected.number == 0 {
        tally.cells += call.grid.len() as u64;
    }
    Ok(())
}

/// Calls the library and compares with the independent way, whose reply number is the answer.
fn compare(tally: &mut Tally, call: Call, seed: u64) -> Result<u32, String> {
    let expected = tile::finish(call.shape, call.grid, call.incoming, call.lengths);
    hold(tally, call, &expected, seed)?;
    Ok(expected.number)
}

/// The same for a call that was made so that this is the reply.
fn compare_made(tally: &mut Tally, call: Call, number: u32, seed: u64) -> Result<(), String> {
    let reply = compare(tally, call, seed)?;
    if reply == number {
        return Ok(());
    }
    Err(format!(
        "a tile made for reply {number} has reply {reply}: {:?}, seed {seed:#x}, {}, incoming {}",
        call.shape,
        notation::write(call.shape.1, call.grid),
        notation::write(call.shape.1, call.incoming)
    ))
}

/// What may come in at the border cells of a tile: nothing at absent ones, elsewhere nothing, little, much, the most.
fn any_incoming(draw: &mut Draw, sheet: &Sheet) -> Vec<u32> {
    let greatest = GREATEST_INCOMING as usize;
    let kind = draw.below(5);
    border_places(sheet.rows, sheet.cols)
        .into_iter()
        .map(|place| match kind {
            _ if !sheet.is_land(place) => 0,
            0 => 0,
            1 => draw.below(3) as u32,
            2 => draw.pick(&[0, 0, 0, 1, GREATEST_INCOMING]),
            3 => GREATEST_INCOMING,
            _ => draw.within(0, greatest) as u32,
        })
        .collect()
}

/// Tiles worked by hand: the tile, what comes in, the counts.
const HAND_TILES: [(&str, &str, &str, &str); 13] = [
    ("A, nothing comes in", "1", "0", "1"),
    ("A, the most comes in", "1", "4194304", "4194305"),
    ("B", "255", "0", "0"),
    ("C, at its middle", "1 1 1", "0 5 0", "1 7 8"),
    ("C, everywhere", "1 1 1", "10 100 1000", "11 112 1113"),
    ("D", "1 255 16", "7 0 9", "8 0 10"),
    ("the first tile of L", "4 1", "0 3", "1 4"),
    ("the second tile of L", "1 64", "1 0", "2 3"),
    ("the last tile of N", "2", "1", "2"),
    (
        "H, at its corners",
        "2 4 8 / 1 4 16 / 128 4 32",
        "10 0 20 0 0 30 0 40",
        "11 1 21 / 1 108 1 / 31 109 41",
    ),
    (
        "K, at the middle of each side",
        "2 4 8 / 1 255 16 / 128 4 32",
        "0 1 0 2 3 0 4 0",
        "1 2 1 / 3 0 4 / 1 5 1",
    ),
    (
        "one column",
        "128 / 64 / 64",
        "4194304 4194304 4194304",
        "12582915 / 8388610 / 4194305",
    ),
    (
        "an inner cell gets its own 1 alone",
        "1 1 1 / 1 1 1 / 1 1 1",
        "1 2 3 10 20 100 200 300",
        "2 5 9 / 11 12 33 / 101 302 603",
    ),
];

fn run_hand_tiles(tally: &mut Tally) -> Result<(), String> {
    for (name, grid, incoming, counts) in HAND_TILES {
        let (rows, cols, grid) = notation::read(grid);
        let (_, _, incoming) = notation::read::<u32>(incoming);
        let (_, _, counts) = notation::read(counts);
        let sheet = Sheet { rows, cols, grid };
        let expected = Outcome::done(counts);
        hold(tally, Call::of(&sheet, &incoming), &expected, 1)
            .map_err(|what| format!("{name}: {what}"))?;
    }
    for (name, grid, incoming, number, value) in [
        ("E", "1 16", "0 9", 4, &[0, 2][..]),
        ("F", "1 1 1 16", "0 0 0 0", 4, &[2, 2]),
        ("G", "1 16 3", "0 0 4194305", 3, &[2]),
        ("A, too much comes in", "1", "4194305", 10, &[0]),
        ("B, something comes in", "255", "1", 10, &[0]),
        ("the other absent code", "1 0 1", "1 1 4194305", 10, &[1]),
        ("E, too much comes in", "1 16", "0 4194305", 10, &[1]),
        (
            "the last border cell",
            "1 1 1 / 1 1 1 / 1 1 255",
            "1 1 1 1 1 1 1 1",
            10,
            &[7],
        ),
        (
            "J",
            "2 4 8 / 1 64 16 / 128 4 32",
            "0 0 0 0 0 0 0 1",
            4,
            &[1, 2],
        ),
    ] {
        let (rows, cols, grid) = notation::read::<u8>(grid);
        let (_, _, incoming) = notation::read::<u32>(incoming);
        let expected = Outcome {
            written: if number == 4 {
                After::Holds(vec![0; grid.len()])
            } else {
                After::AsLent
            },
            ..Outcome::refusal(number, value)
        };
        let sheet = Sheet { rows, cols, grid };
        hold(tally, Call::of(&sheet, &incoming), &expected, 1)
            .map_err(|what| format!("{name}: {what}"))?;
    }
    Ok(())
}

fn run_every_small_tile(tally: &mut Tally) -> Result<(), String> {
    for rows in 1..=6 {
        for cols in 1..=6 / rows {
            let codes: &[u8] = match rows * cols {
                ..=4 => &GOOD_CODES,
                5 => &[1, 4, 16, 64, 128, 255],
                _ => &[1, 4, 16, 32, 255],
            };
            every_grid(codes, (rows * cols) as u32, |grid, number| {
                let mut draw = Draw::new(number);
                let grid = grid.to_vec();
                let sheet = Sheet { rows, cols, grid };
                let incoming = any_incoming(&mut draw, &sheet);
                compare(tally, Call::of(&sheet, &incoming), number).map(|_| ())
            })?;
        }
    }
    Ok(())
}

/// Every tile of at most three cells with every choice of some incoming numbers.
fn run_every_small_incoming(tally: &mut Tally) -> Result<(), String> {
    let numbers = [0, 1, GREATEST_INCOMING, GREATEST_INCOMING + 1, u32::MAX];
    for (rows, cols) in [(1, 1), (1, 2), (2, 1), (1, 3), (3, 1)] {
        let cells = (rows * cols) as u32;
        every_grid(&[1, 4, 16, 64, 0, 255, 3], cells, |grid, number| {
            let choices: Vec<u8> = (0..numbers.len() as u8).collect();
            every_grid(&choices, cells, |chosen, choice| {
                let incoming: Vec<u32> = chosen.iter().map(|&at| numbers[at as usize]).collect();
                let call = Call {
                    shape: (rows, cols),
                    grid,
                    incoming: &incoming,
                    lengths: [grid.len(); 2],
                };
                compare(tally, call, number + choice).map(|_| ())
            })
        })?;
    }
    Ok(())
}

/// What comes in, with something that cannot come in at some border cells now and then.
fn odd_incoming(draw: &mut Draw, sheet: &Sheet) -> Vec<u32> {
    let mut incoming = any_incoming(draw, sheet);
    if draw.one_in(3) {
        for _ in 0..draw.within(1, 2) {
            let border = draw.below(incoming.len());
            incoming[border] = draw.pick(&[1, GREATEST_INCOMING + 1, 1 << 24, u32::MAX]);
        }
    }
    incoming
}

fn run_small_shapes(tally: &mut Tally) -> Result<(), String> {
    for rows in 1..=6 {
        for cols in 1..=6 {
            for number in 0..many(500) {
                let seed = (0x91 << 40) + (((rows * 100 + cols) as u64) << 24) + number;
                let mut draw = Draw::new(seed);
                let sheet = any_tile(&mut draw, rows, cols);
                let incoming = odd_incoming(&mut draw, &sheet);
                compare(tally, Call::of(&sheet, &incoming), seed)?;
            }
        }
    }
    Ok(())
}

/// The least number of cells in the tiles without loops.
fn least_cells() -> u64 {
    many(2_000_000)
}

fn run_tiles_without_loops(tally: &mut Tally) -> Result<(), String> {
    let mut seed = 0x92 << 40;
    while tally.cells < least_cells() {
        seed += 1;
        let mut draw = Draw::new(seed);
        let (rows, cols) = any_shape(&mut draw);
        let sheet = any_loop_free(&mut draw, rows, cols);
        let incoming = any_incoming(&mut draw, &sheet);
        compare_made(tally, Call::of(&sheet, &incoming), 0, seed)?;
        // With nothing that comes in the tile is counted by itself.
        if draw.one_in(20) {
            let counted = independent::count(rows, cols, &sheet.grid, sheet.grid.len());
            let nothing = vec![0; incoming.len()];
            let expected = Outcome::done(counted.counts.given(&[]).to_vec());
            hold(tally, Call::of(&sheet, &nothing), &expected, seed)?;
        }
    }
    Ok(())
}

fn run_closed_rivers(tally: &mut Tally) -> Result<(), String> {
    for number in 0..many(2_000) {
        let seed = (0x93 << 40) + number;
        let mut draw = Draw::new(seed);
        let (rows, cols) = any_shape(&mut draw);
        let mut sheet = any_loop_free(&mut draw, rows, cols);
        let mut closed = false;
        for _ in 0..draw.within(1, 3) {
            closed |= close_a_loop(&mut draw, &mut sheet);
        }
        let incoming = any_incoming(&mut draw, &sheet);
        let call = Call::of(&sheet, &incoming);
        // A tile on which no cell was found that could close a loop is still without one.
        compare_made(tally, call, if closed { 4 } else { 0 }, seed)?;
    }
    Ok(())
}

/// Too much at each border cell in turn, and something at each absent one; alone, and with another after it.
fn run_unfit_incoming(tally: &mut Tally) -> Result<(), String> {
    for (rows, cols) in [
        (1, 1),
        (1, 5),
        (5, 1),
        (2, 2),
        (3, 3),
        (2, 6),
        (4, 5),
        (7, 7),
    ] {
        for number in 0..many(30) {
            let seed = (0x94 << 40) + (((rows * 100 + cols) as u64) << 24) + number;
            let mut draw = Draw::new(seed);
            let absent = Absent(draw.below(12));
            // Loops or not: this refusal stands before theirs.
            let sheet = sheets::arbitrary(&mut draw, rows, cols, absent, &GOOD_CODES[..8]);
            let fit = any_incoming(&mut draw, &sheet);
            for (border, place) in border_places(rows, cols).into_iter().enumerate() {
                let unfit = if sheet.is_land(place) {
                    draw.pick(&[GREATEST_INCOMING + 1, u32::MAX, 1 << 31])
                } else {
                    draw.pick(&[1, GREATEST_INCOMING, GREATEST_INCOMING + 1, u32::MAX])
                };
                let mut incoming = fit.clone();
                incoming[border] = unfit;
                if draw.one_in(2) {
                    let after = draw.within(border, fit.len() - 1);
                    incoming[after] = u32::MAX;
                }
                let expected = Outcome::refusal(10, &[border]);
                hold(tally, Call::of(&sheet, &incoming), &expected, seed)?;
                compare_made(tally, Call::of(&sheet, &incoming), 10, seed)?;
            }
        }
    }
    Ok(())
}

fn run_bad_codes(tally: &mut Tally) -> Result<(), String> {
    let bad_codes = every_bad_code();
    for &bad in &bad_codes {
        for number in 0..many(4) {
            let seed = (0x95 << 40) + ((bad as u64) << 32) + number;
            let mut draw = Draw::new(seed);
            let (rows, cols) = any_shape(&mut draw);
            let mut sheet = sheets::arbitrary(&mut draw, rows, cols, Absent(4), &GOOD_CODES);
            let incoming = odd_incoming(&mut draw, &sheet);
            let cells = sheet.grid.len();
            let place = match number {
                0 => 0,
                1 => cells - 1,
                _ => draw.below(cells),
            };
            sheet.grid[place] = bad;
            if draw.one_in(2) {
                let after = draw.within(place, cells - 1);
                sheet.grid[after] = draw.pick(&bad_codes);
            }
            compare_made(tally, Call::of(&sheet, &incoming), 3, seed)?;
        }
    }
    Ok(())
}

/// The order of the refusals 1, 2, 3, 10 and 4: all cases of right and wrong for each of them.
fn run_order_of_refusals(tally: &mut Tally) -> Result<(), String> {
    for number in 0..many(100) {
        let seed = (0x96 << 40) + number;
        for faults in 0..16 {
            let mut draw = Draw::new(seed);
            let (rows, cols) = (draw.within(1, 12), draw.within(2, 12));
            let mut sheet = any_loop_free(&mut draw, rows, cols);
            let place = draw.below(rows) * cols + draw.below(cols - 1);
            // A loop in any case, so that it stands behind every other refusal.
            sheet.grid[place] = 1;
            sheet.grid[place + 1] = 16;
            let mut incoming = any_incoming(&mut draw, &sheet);
            let mut expected = 4;
            if faults & 8 != 0 {
                let border = draw.below(incoming.len());
                incoming[border] = draw.pick(&[GREATEST_INCOMING + 1, u32::MAX]);
                expected = 10;
            }
            if faults & 4 != 0 {
                sheet.grid[draw.below(rows * cols)] = draw.pick(&[3, 5, 254, 127]);
                expected = 3;
            }
            if faults & 2 != 0 && draw.one_in(2) {
                incoming.push(0);
                expected = 2;
            }
            let mut call = Call::of(&sheet, &incoming);
            if faults & 2 != 0 && expected != 2 {
                call.lengths[draw.below(2)] += 1;
                expected = 2;
            }
            if faults & 1 != 0 {
                let odd = draw.pick(&[0, 257, 1 << 32]);
                match draw.below(2) {
                    0 => call.shape.0 = odd,
                    _ => call.shape.1 = odd,
                }
                expected = 1;
            }
            compare_made(tally, call, expected, seed + faults)?;
        }
    }
    Ok(())
}

fn run_wrong_lengths(tally: &mut Tally) -> Result<(), String> {
    for (rows, cols) in TILE_SHAPES {
        let cells = rows * cols;
        let [incoming_right, ..] = finish_lengths(rows, cols);
        // The number of border cells by the formula that does not hold for a single row or column, too.
        let by_formula = 2 * rows + 2 * cols - 4;
        for buffer in 0..4 {
            let mut lengths = odd_lengths(rows, cols).to_vec();
            lengths.extend([incoming_right - 1, incoming_right, incoming_right + 1]);
            lengths.push(by_formula);
            for length in lengths {
                for kind in 0..3 {
                    let seed = (0x97 << 40) + ((length << 8) + 4 * buffer + kind) as u64;
                    let mut draw = Draw::new(seed);
                    let mut stated = [cells, incoming_right, cells, cells];
                    let right = stated;
                    stated[buffer] = length;
                    let [grid_len, incoming_len, counts_len, work_len] = stated;
                    let grid: Vec<u8> = (0..grid_len)
                        .map(|_| match kind {
                            0 => draw.pick(&[1, 4, 255]),
                            1 => draw.pick(&GOOD_CODES),
                            _ => draw.word() as u8,
                        })
                        .collect();
                    let incoming = vec![draw.pick(&[0, 1, u32::MAX]); incoming_len];
                    let call = Call {
                        shape: (rows, cols),
                        grid: &grid,
                        incoming: &incoming,
                        lengths: [counts_len, work_len],
                    };
                    let number = compare(tally, call, seed)?;
                    if (number == 2) != (stated != right) {
                        return Err(format!(
                            "lengths {stated:?} of {rows} by {cols} have reply {number}"
                        ));
                    }
                }
            }
        }
    }
    Ok(())
}

fn run_sides(tally: &mut Tally) -> Result<(), String> {
    for rows in ODD_TILE_SIDES {
        for cols in ODD_TILE_SIDES {
            let seed = (0x98 << 40) ^ (rows as u64).rotate_left(20) ^ cols as u64;
            let mut draw = Draw::new(seed);
            let fitting = rows.wrapping_mul(cols);
            let cells = if fitting <= 100_000 { fitting } else { 6 };
            let within = |side| (1..=256).contains(&side);
            let is_tile = within(rows) && within(cols);
            let incoming_len = if is_tile {
                border_places(rows, cols).len()
            } else {
                cells
            };
            for arrows in [&[1, 4, 255][..], &GOOD_CODES, &[3, 1, 4, 16]] {
                let grid: Vec<u8> = (0..cells).map(|_| draw.pick(arrows)).collect();
                for more in [0, 1] {
                    let incoming = vec![draw.pick(&[0, 0, 1, u32::MAX]); incoming_len + more];
                    let call = Call {
                        shape: (rows, cols),
                        grid: &grid,
                        incoming: &incoming,
                        lengths: [cells; 2],
                    };
                    let number = compare(tally, call, seed)?;
                    if (number == 1) == is_tile {
                        return Err(format!("{rows} by {cols} has reply {number}"));
                    }
                }
            }
        }
    }
    Ok(())
}

/// The greatest tiles, with the most that can come in: a river past all cells takes it all.
fn run_greatest_tiles(tally: &mut Tally) -> Result<(), String> {
    let seed = 0x99 << 40;
    let mut draw = Draw::new(seed);
    let river = one_river(256, 256);
    let incoming = vec![GREATEST_INCOMING; 1020];
    let expected = tile::finish((256, 256), &river.grid, &incoming, [65536; 2]);
    let counts = expected.written.given(&[]);
    let greatest = counts.iter().max().copied();
    if greatest != Some(4_278_190_080 + 65_536) || counts[0] != 4_278_255_616 {
        return Err(format!("the greatest count is {greatest:?}"));
    }
    hold(tally, Call::of(&river, &incoming), &expected, seed)?;
    // One more at the source of the river, whose water passes all others.
    let mut one_more = incoming.clone();
    let source = border_places(256, 256)
        .iter()
        .position(|&place| river.givers(place).is_empty());
    one_more[source.expect("the river's source is on the border")] += 1;
    compare_made(tally, Call::of(&river, &one_more), 10, seed)?;
    let round = one_round(256, 256);
    let expected = Outcome {
        written: After::Holds(vec![0; 65536]),
        ..Outcome::refusal(4, &[0, 65536])
    };
    hold(tally, Call::of(&round, &incoming), &expected, seed)?;

    for (rows, cols) in [(256, 255), (2, 256), (256, 2), (1, 256), (256, 1)] {
        let river = one_river(rows, cols);
        let incoming = vec![GREATEST_INCOMING; border_places(rows, cols).len()];
        compare_made(tally, Call::of(&river, &incoming), 0, seed)?;
    }
    for (rows, cols) in [(256, 256), (255, 256), (1, 256), (256, 1), (100, 256)] {
        for number in 0..many(2) {
            let sheet = match number % 2 {
                0 => any_loop_free(&mut draw, rows, cols),
                _ => sheets::winding(&mut draw, rows, cols, Absent(8)),
            };
            let incoming = any_incoming(&mut draw, &sheet);
            compare_made(tally, Call::of(&sheet, &incoming), 0, seed)?;
        }
    }
    Ok(())
}

static HAND: Group = Group::new("hand tiles", run_hand_tiles);
static EVERY_SMALL: Group = Group::new("every small tile", run_every_small_tile);
static EVERY_INCOMING: Group = Group::new("every small incoming", run_every_small_incoming);
static SMALL_SHAPES: Group = Group::new("small shapes", run_small_shapes);
static WITHOUT_LOOPS: Group = Group::new("tiles without loops", run_tiles_without_loops);
static CLOSED: Group = Group::new("closed rivers", run_closed_rivers);
static UNFIT: Group = Group::new("unfit incoming", run_unfit_incoming);
static BAD_CODES: Group = Group::new("bad codes", run_bad_codes);
static ORDER: Group = Group::new("order of refusals", run_order_of_refusals);
static WRONG_LENGTHS: Group = Group::new("wrong lengths", run_wrong_lengths);
static SIDES: Group = Group::new("sides", run_sides);
static GREATEST: Group = Group::new("greatest tiles", run_greatest_tiles);

#[test]
fn hand_tiles() {
    HAND.passes();
}

#[test]
fn every_small_tile() {
    EVERY_SMALL.passes();
}

#[test]
fn every_small_incoming() {
    EVERY_INCOMING.passes();
}

#[test]
fn small_shapes() {
    SMALL_SHAPES.passes();
}

#[test]
fn tiles_without_loops() {
    WITHOUT_LOOPS.passes();
}

#[test]
fn closed_rivers() {
    CLOSED.passes();
}

#[test]
fn unfit_incoming() {
    UNFIT.passes();
}

#[test]
fn bad_codes() {
    BAD_CODES.passes();
}

#[test]
fn order_of_refusals() {
    ORDER.passes();
}

#[test]
fn wrong_lengths() {
    WRONG_LENGTHS.passes();
}

#[test]
fn sides() {
    SIDES.passes();
}

#[test]
fn greatest_tiles() {
    GREATEST.passes();
}

#[test]
fn every_reply_is_reached() {
    let whole = whole_tally(&[
        &HAND,
        &EVERY_SMALL,
        &EVERY_INCOMING,
        &SMALL_SHAPES,
        &WITHOUT_LOOPS,
        &CLOSED,
        &UNFIT,
        &BAD_CODES,
        &ORDER,
        &WRONG_LENGTHS,
        &SIDES,
        &GREATEST,
    ]);
    println!(
        "finishing: {} tiles compared, {} cells in the tiles finished",
        whole.outcomes, whole.cells
    );
    for (number, name) in [
        (0, "done"),
        (1, "shape"),
        (2, "length"),
        (3, "code"),
        (10, "incoming"),
        (4, "loop"),
    ] {
        let times = whole.replies[number];
        println!("finishing: reply {number} {name} {times} times");
        assert!(times > 0, "reply {number} {name} was not reached");
    }
}

#[test]
fn the_work_length_is_the_stated_one() {
    for rows in 0..260 {
        for cols in 0..260 {
            let fits = (1..=256).contains(&rows) && (1..=256).contains(&cols);
            let cells = if fits { rows * cols } else { 0 };
            assert_eq!(finish_work(rows, cols), cells, "{rows} by {cols}");
        }
    }
    for side in ODD_TILE_SIDES.into_iter().filter(|&side| side > 256) {
        assert_eq!(finish_work(side, 1), 0, "{side} by 1");
        assert_eq!(finish_work(1, side), 0, "1 by {side}");
    }
}

#[test]
fn empty_slices_are_refused() {
    let empty = |rows, cols| finish(rows, cols, &[], &[], &mut [], &mut []);
    assert_eq!(empty(1, 1), FinishReply::Length);
    assert_eq!(empty(0, 0), FinishReply::Shape);
    assert_eq!(empty(1 << 32, 1 << 32), FinishReply::Shape);
}

/// The independent way is itself held to the tiles worked by hand.
#[test]
fn the_independent_way_is_right_by_hand() {
    for (name, grid, incoming, counts) in HAND_TILES {
        let (rows, cols, grid) = notation::read::<u8>(grid);
        let (_, _, incoming) = notation::read::<u32>(incoming);
        let (_, _, counts) = notation::read::<u32>(counts);
        let found = tile::finish((rows, cols), &grid, &incoming, [grid.len(); 2]);
        assert_eq!(found.number, 0, "{name}");
        assert_eq!(found.written.given(&[]), counts, "{name}");
    }
}
