//! Holds counting to the independent counter: the reply, all its values, and every buffer after the call.
//!
//! Each sheet is counted twice, through the C interface and through the safe function, each time with other rubbish in
//! the counts and with other guards beside both buffers.

mod common;

use common::draw::Draw;
use common::group::{long_run, many, whole_tally, Group, Tally};
use common::independent::{self, After, Outcome, Way};
use common::lent::Lent;
use common::notation;
use common::sheets::{
    self, any_loop_free, any_shape, every_bad_code, every_grid, odd_lengths, one_river, one_round,
    Absent, Rectangle, Relief, Sheet, GOOD_CODES, ODD_SIDES, SHAPES,
};
use drainage::{count, raw, CountReply};

/// What a call is lent.
#[derive(Clone, Copy)]
struct Call<'a> {
    rows: usize,
    cols: usize,
    grid: &'a [u8],
    counts_len: usize,
}

impl<'a> Call<'a> {
    fn of(sheet: &'a Sheet) -> Call<'a> {
        Call {
            rows: sheet.rows,
            cols: sheet.cols,
            grid: &sheet.grid,
            counts_len: sheet.grid.len(),
        }
    }
}

fn named(expected: &Outcome) -> CountReply {
    let [first, second, third, ..] = independent::sizes(expected.value);
    match expected.number {
        0 => CountReply::Done {
            land: first,
            outlets: second,
            greatest: third as u32,
        },
        1 => CountReply::Shape,
        2 => CountReply::Length,
        3 => CountReply::Code { place: first },
        4 => CountReply::Loop {
            place: first,
            length: second,
        },
        other => panic!("the independent counter gives {other}, which is no reply of counting"),
    }
}

/// Calls the library in both ways and compares with the outcome expected.
fn hold(tally: &mut Tally, call: Call, expected: &Outcome, seed: u64) -> Result<(), String> {
    let Call {
        rows,
        cols,
        grid,
        counts_len,
    } = call;
    let mut draw = Draw::new(!seed);
    // An arrow as a guard is noticed not only when it is overwritten: if it is read as a cell, the counts go wrong.
    let guards = |draw: &mut Draw| (draw.pick(&GOOD_CODES[..8]), draw.word() as u32);
    let tell = |way: &str, what: String| {
        format!(
            "{way}: {what}\n  {rows} by {cols}, grid of {} cells {}, counts of {counts_len}, seed {seed:#x}",
            grid.len(),
            notation::write(cols, grid)
        )
    };

    let before: Vec<u32> = (0..counts_len).map(|_| draw.word() as u32).collect();
    let (grid_guard, counts_guard) = guards(&mut draw);
    let mut lent_grid = Lent::new(grid, grid_guard);
    let mut lent_counts = Lent::new(&before, counts_guard);
    // SAFETY: the pointers are those of two buffers, with their lengths.
    let reply = unsafe {
        raw::drainage_count(
            rows,
            cols,
            lent_grid.pointer(),
            lent_grid.len(),
            lent_counts.pointer(),
            lent_counts.len(),
        )
    };
    let in_c = |what| tell("drainage_count", what);
    if (reply.number, reply.value) != (expected.number, expected.value) {
        return Err(in_c(format!(
            "reply {} with {:?}, expected {} with {:?}",
            reply.number, reply.value, expected.number, expected.value
        )));
    }
    lent_grid.holds("the grid", grid).map_err(in_c)?;
    lent_counts
        .holds("the counts", expected.counts.given(&before))
        .map_err(in_c)?;

    let before = vec![draw.pick(&[u32::MAX, 0, 1, 2]); counts_len];
    let (grid_guard, counts_guard) = guards(&mut draw);
    let lent_grid = Lent::new(grid, grid_guard);
    let mut lent_counts = Lent::new(&before, counts_guard);
    let reply = count(rows, cols, lent_grid.slice(), lent_counts.slice_mut());
    let in_rust = |what| tell("count", what);
    if reply != named(expected) {
        return Err(in_rust(format!(
            "{reply:?}, expected {:?}",
            named(expected)
        )));
    }
    lent_grid.holds("the grid", grid).map_err(in_rust)?;
    lent_counts
        .holds("the counts", expected.counts.given(&before))
        .map_err(in_rust)?;

    tally.outcomes += 1;
    tally.replies[expected.number as usize] += 1;
    if expected.number == 0 {
        tally.cells += grid.len() as u64;
    }
    Ok(())
}

/// Calls the library and compares with the independent counter, whose reply number is the answer.
fn compare(tally: &mut Tally, call: Call, seed: u64) -> Result<u32, String> {
    let expected = independent::count(call.rows, call.cols, call.grid, call.counts_len);
    hold(tally, call, &expected, seed)?;
    Ok(expected.number)
}

/// The same for a sheet that was made so that this is the reply.
fn compare_made(tally: &mut Tally, sheet: &Sheet, number: u32, seed: u64) -> Result<(), String> {
    let reply = compare(tally, Call::of(sheet), seed)?;
    if reply == number {
        return Ok(());
    }
    Err(format!(
        "a sheet made for reply {number} has reply {reply}: seed {seed:#x}, {}",
        notation::write(sheet.cols, &sheet.grid)
    ))
}

/// Paper 01, "Sheets small enough to work by hand", those that are counted whole: the sheet, the reply, the counts
/// after (nothing where they are as lent).
const HAND_SHEETS: [(&str, &str, CountReply, &str); 13] = [
    ("A", "1", done(1, 1, 1), "1"),
    ("B", "255", done(0, 0, 0), "0"),
    ("C", "1 1 1", done(3, 1, 3), "1 2 3"),
    ("D", "1 255 16", done(2, 2, 1), "1 0 1"),
    ("E", "1 16", looped(0, 2), "0 0"),
    ("F", "1 1 1 16", looped(2, 2), "0 0 0 0"),
    ("G", "1 16 3", CountReply::Code { place: 2 }, ""),
    (
        "H",
        "2 4 8 / 1 4 16 / 128 4 32",
        done(9, 1, 9),
        "1 1 1 / 1 8 1 / 1 9 1",
    ),
    (
        "I, H changed and counted afresh",
        "1 4 8 / 1 4 16 / 128 4 32",
        done(9, 1, 9),
        "1 2 1 / 1 8 1 / 1 9 1",
    ),
    (
        "J, H changed and counted afresh",
        "2 4 8 / 1 64 16 / 128 4 32",
        looped(1, 2),
        "0 0 0 / 0 0 0 / 0 0 0",
    ),
    (
        "K, H changed and counted afresh",
        "2 4 8 / 1 255 16 / 128 4 32",
        done(8, 8, 1),
        "1 1 1 / 1 0 1 / 1 1 1",
    ),
    ("L whole", "4 1 / 1 64", done(4, 1, 4), "1 4 / 2 3"),
    ("N whole", "2 255 / 255 2", done(2, 1, 2), "1 0 / 0 2"),
];

const fn done(land: usize, outlets: usize, greatest: u32) -> CountReply {
    CountReply::Done {
        land,
        outlets,
        greatest,
    }
}

const fn looped(place: usize, length: usize) -> CountReply {
    CountReply::Loop { place, length }
}

fn hand_outcome(reply: CountReply, counts: &str) -> Outcome {
    let (number, value) = match reply {
        CountReply::Done {
            land,
            outlets,
            greatest,
        } => (0, [land, outlets, greatest as usize]),
        CountReply::Shape => (1, [0; 3]),
        CountReply::Length => (2, [0; 3]),
        CountReply::Code { place } => (3, [place, 0, 0]),
        CountReply::Loop { place, length } => (4, [place, length, 0]),
    };
    Outcome {
        number,
        value: independent::values(&value),
        grid: After::AsLent,
        counts: if counts.is_empty() {
            After::AsLent
        } else {
            After::Holds(notation::read(counts).2)
        },
    }
}

fn run_hand_sheets(tally: &mut Tally) -> Result<(), String> {
    for (name, sheet, reply, counts) in HAND_SHEETS {
        let (rows, cols, grid) = notation::read(sheet);
        let sheet = Sheet { rows, cols, grid };
        let expected = hand_outcome(reply, counts);
        hold(tally, Call::of(&sheet), &expected, 1).map_err(|what| format!("{name}: {what}"))?;
    }
    Ok(())
}

fn every_grid_of(tally: &mut Tally, codes: &[u8], rows: usize, cols: usize) -> Result<(), String> {
    every_grid(codes, (rows * cols) as u32, |grid, number| {
        let call = Call {
            rows,
            cols,
            grid,
            counts_len: grid.len(),
        };
        compare(tally, call, number).map(|_| ())
    })
}

fn run_every_small_sheet(tally: &mut Tally) -> Result<(), String> {
    let any_byte: Vec<u8> = (0..=255).collect();
    for rows in 1..=6 {
        for cols in 1..=6 / rows {
            every_grid_of(tally, &[1, 4, 16, 64, 2, 255], rows, cols)?;
            if rows * cols <= 4 {
                every_grid_of(tally, &GOOD_CODES, rows, cols)?;
            }
            if rows * cols <= 2 {
                every_grid_of(tally, &any_byte, rows, cols)?;
            }
        }
    }
    Ok(())
}

fn run_sampled_small_sheets(tally: &mut Tally) -> Result<(), String> {
    let shapes = [
        (3, 3),
        (1, 8),
        (8, 1),
        (2, 5),
        (5, 2),
        (3, 4),
        (4, 3),
        (2, 8),
        (8, 2),
        (4, 4),
        (5, 5),
        (3, 7),
        (7, 3),
    ];
    for (rows, cols) in shapes {
        for number in 0..many(4000) {
            let seed = (0x51 << 40) + (((rows * 100 + cols) as u64) << 24) + number;
            let mut draw = Draw::new(seed);
            let absent = Absent(draw.below(8));
            let sheet = sheets::arbitrary(&mut draw, rows, cols, absent, &GOOD_CODES);
            compare(tally, Call::of(&sheet), seed)?;
        }
    }
    Ok(())
}

/// The least number of cells that the whole run counts to the end.
fn least_cells() -> u64 {
    many(10_000_000)
}

fn run_sheets_without_loops(tally: &mut Tally) -> Result<(), String> {
    let mut seed = 0x52 << 40;
    while tally.cells < least_cells() {
        seed += 1;
        let mut draw = Draw::new(seed);
        let (rows, cols) = any_shape(&mut draw);
        let sheet = any_loop_free(&mut draw, rows, cols);
        compare_made(tally, &sheet, 0, seed)?;
    }
    Ok(())
}

fn run_arbitrary_sheets(tally: &mut Tally) -> Result<(), String> {
    let arrow_sets: [&[u8]; 7] = [
        &[1, 2, 4, 8, 16, 32, 64, 128],
        &[1, 4, 16, 64],
        &[2, 8, 32, 128],
        &[1, 4],
        &[16, 64],
        &[1, 1, 1, 1, 2, 4, 8, 64, 128, 16],
        &[64, 64, 64, 64, 32, 16, 128, 1, 2],
    ];
    for number in 0..many(10_000) {
        let seed = (0x53 << 40) + number;
        let mut draw = Draw::new(seed);
        let (rows, cols) = any_shape(&mut draw);
        let absent = draw.pick(&[Absent(0), Absent(2), Absent(8), Absent(8), Absent(14)]);
        let arrows = draw.pick(&arrow_sets);
        let sheet = sheets::arbitrary(&mut draw, rows, cols, absent, arrows);
        compare(tally, Call::of(&sheet), seed)?;
    }
    Ok(())
}

fn run_closed_rivers(tally: &mut Tally) -> Result<(), String> {
    for number in 0..many(6_000) {
        let seed = (0x54 << 40) + number;
        let mut draw = Draw::new(seed);
        let (rows, cols) = any_shape(&mut draw);
        let mut sheet = any_loop_free(&mut draw, rows, cols);
        let mut closed = false;
        if rows >= 2 && cols >= 2 && draw.one_in(3) {
            let (height, width) = (draw.within(2, rows), draw.within(2, cols));
            let ring = Rectangle {
                top: draw.within(0, rows - height),
                left: draw.within(0, cols - width),
                height,
                width,
            };
            sheets::lay_a_ring(&mut sheet, ring, draw.one_in(2));
            closed = true;
        }
        for _ in 0..draw.within(1, 3) {
            closed |= sheets::close_a_loop(&mut draw, &mut sheet);
        }
        // A sheet on which no cell was found that could close a loop is still without one.
        compare_made(tally, &sheet, if closed { 4 } else { 0 }, seed)?;
    }
    Ok(())
}

fn run_bad_codes(tally: &mut Tally) -> Result<(), String> {
    let bad_codes = every_bad_code();
    // Every bad code, on sheets with and without loops, alone and with others after it.
    for &bad in &bad_codes {
        for number in 0..many(8) {
            let seed = (0x55 << 40) + ((bad as u64) << 32) + number;
            let mut draw = Draw::new(seed);
            let (rows, cols) = any_shape(&mut draw);
            let mut sheet = if number % 2 == 0 {
                any_loop_free(&mut draw, rows, cols)
            } else {
                sheets::arbitrary(&mut draw, rows, cols, Absent(4), &GOOD_CODES)
            };
            let cells = sheet.grid.len();
            let place = match number {
                0 => 0,
                1 => cells - 1,
                _ => draw.below(cells),
            };
            sheet.grid[place] = bad;
            for _ in 0..draw.below(3) {
                let after = draw.within(place, cells - 1);
                if after != place {
                    sheet.grid[after] = draw.pick(&bad_codes);
                }
            }
            compare_made(tally, &sheet, 3, seed)?;
        }
    }
    // A bad code at every place of some sheets.
    for (rows, cols) in [(1, 9), (9, 1), (4, 5), (6, 6)] {
        for place in 0..rows * cols {
            let seed = (0x56 << 40) + ((rows * 100 + cols) * 100 + place) as u64;
            let mut draw = Draw::new(seed);
            let mut sheet = sheets::arbitrary(&mut draw, rows, cols, Absent(2), &GOOD_CODES);
            sheet.grid[place] = draw.pick(&bad_codes);
            compare_made(tally, &sheet, 3, seed)?;
        }
    }
    Ok(())
}

fn run_wrong_lengths(tally: &mut Tally) -> Result<(), String> {
    for (rows, cols) in SHAPES {
        let right = rows * cols;
        let lengths = odd_lengths(rows, cols);
        for grid_len in lengths {
            for counts_len in lengths {
                let seed = (0x57 << 40) + ((grid_len << 16) + counts_len) as u64;
                let mut draw = Draw::new(seed);
                // Arrows without loops, arrows with loops, and bytes that are bad codes for the greater part: the
                // length comes before both refusals.
                for kind in 0..3 {
                    let grid: Vec<u8> = (0..grid_len)
                        .map(|_| match kind {
                            0 => draw.pick(&[1, 4, 255]),
                            1 => draw.pick(&GOOD_CODES),
                            _ => draw.word() as u8,
                        })
                        .collect();
                    let call = Call {
                        rows,
                        cols,
                        grid: &grid,
                        counts_len,
                    };
                    let number = compare(tally, call, seed + kind)?;
                    if (number == 2) != (grid_len != right || counts_len != right) {
                        return Err(format!(
                            "lengths {grid_len} and {counts_len} of {rows} by {cols} have reply {number}"
                        ));
                    }
                }
            }
        }
    }
    Ok(())
}

fn run_sides(tally: &mut Tally) -> Result<(), String> {
    for rows in ODD_SIDES {
        for cols in ODD_SIDES {
            let seed = (0x58 << 40) ^ (rows as u64).rotate_left(20) ^ cols as u64;
            let mut draw = Draw::new(seed);
            // The length that fits, also where the product is beyond 64 bits and what is left of it fits; a few cells
            // where so large a buffer cannot be had.
            let fitting = rows.wrapping_mul(cols);
            let cells = if fitting <= 400_000 { fitting } else { 6 };
            for arrows in [&[1, 4, 255][..], &GOOD_CODES, &[3, 1, 4, 16]] {
                let grid: Vec<u8> = (0..cells).map(|_| draw.pick(arrows)).collect();
                for counts_len in [cells, cells + 1] {
                    let call = Call {
                        rows,
                        cols,
                        grid: &grid,
                        counts_len,
                    };
                    let number = compare(tally, call, seed)?;
                    let within = |side| (1..=4096).contains(&side);
                    if (number == 1) == (within(rows) && within(cols)) {
                        return Err(format!("{rows} by {cols} has reply {number}"));
                    }
                }
            }
        }
    }
    Ok(())
}

fn one_loop(place: usize, length: usize, cells: usize) -> Outcome {
    Outcome {
        number: 4,
        value: [place as u64, length as u64, 0, 0, 0, 0],
        grid: After::AsLent,
        counts: After::Holds(vec![0; cells]),
    }
}

fn run_large_sheets(tally: &mut Tally) -> Result<(), String> {
    let seed = 0x59 << 40;
    let mut draw = Draw::new(seed);
    let side = 512;

    let rivers = sheets::downhill(&mut draw, side, side, Absent(1), Relief::Slope);
    compare_made(tally, &rivers, 0, seed)?;
    let rivers = sheets::winding(&mut draw, side, side, Absent(8));
    compare_made(tally, &rivers, 0, seed)?;
    let mut rivers = sheets::winding(&mut draw, side, side, Absent(0));
    compare_made(tally, &rivers, 0, seed)?;

    // A loop whatever length it gets, then one of known place and length far from the first cells above it.
    if !sheets::close_a_loop(&mut draw, &mut rivers) {
        return Err("no cell closes a loop".to_string());
    }
    compare_made(tally, &rivers, 4, seed)?;
    for clockwise in [true, false] {
        let ring = Rectangle {
            top: 130,
            left: 100,
            height: 200,
            width: 150,
        };
        let mut sheet = sheets::winding(&mut draw, side, side, Absent(0));
        sheets::lay_a_ring(&mut sheet, ring, clockwise);
        let place = ring.top * side + ring.left;
        let expected = one_loop(place, ring.rim(), side * side);
        hold(tally, Call::of(&sheet), &expected, seed)?;
        compare_made(tally, &sheet, 4, seed)?;
    }

    for (rows, cols) in [(4096, 7), (7, 4096), (1000, 300)] {
        let sheet = sheets::winding(&mut draw, rows, cols, Absent(1));
        compare_made(tally, &sheet, 0, seed)?;
    }

    // The greatest sheet, with the greatest count that there can be, and with the longest loop.
    compare_made(tally, &one_river(4096, 4096), 0, seed)?;
    let sheet = one_round(4096, 4096);
    let cells = sheet.grid.len();
    hold(tally, Call::of(&sheet), &one_loop(0, cells, cells), seed)?;
    let sheet = one_round(300, 400);
    hold(
        tally,
        Call::of(&sheet),
        &one_loop(0, 120_000, 120_000),
        seed,
    )?;
    compare_made(tally, &sheet, 4, seed)?;
    if long_run() {
        let sheet = sheets::winding(&mut draw, 4096, 4096, Absent(0));
        compare_made(tally, &sheet, 0, seed)?;
        let sheet = sheets::downhill(&mut draw, 4096, 4096, Absent(8), Relief::Slope);
        compare_made(tally, &sheet, 0, seed)?;
    }
    Ok(())
}

static HAND: Group = Group::new("hand sheets", run_hand_sheets);
static EVERY_SMALL: Group = Group::new("every small sheet", run_every_small_sheet);
static SAMPLED_SMALL: Group = Group::new("sampled small sheets", run_sampled_small_sheets);
static WITHOUT_LOOPS: Group = Group::new("sheets without loops", run_sheets_without_loops);
static ARBITRARY: Group = Group::new("arbitrary sheets", run_arbitrary_sheets);
static CLOSED_RIVERS: Group = Group::new("closed rivers", run_closed_rivers);
static BAD_CODES: Group = Group::new("bad codes", run_bad_codes);
static WRONG_LENGTHS: Group = Group::new("wrong lengths", run_wrong_lengths);
static SIDES: Group = Group::new("sides", run_sides);
static LARGE: Group = Group::new("large sheets", run_large_sheets);

#[test]
fn hand_sheets() {
    HAND.passes();
}

#[test]
fn every_small_sheet() {
    EVERY_SMALL.passes();
}

#[test]
fn sampled_small_sheets() {
    SAMPLED_SMALL.passes();
}

#[test]
fn sheets_without_loops() {
    WITHOUT_LOOPS.passes();
}

#[test]
fn arbitrary_sheets() {
    ARBITRARY.passes();
}

#[test]
fn closed_rivers() {
    CLOSED_RIVERS.passes();
}

#[test]
fn bad_codes() {
    BAD_CODES.passes();
}

#[test]
fn wrong_lengths() {
    WRONG_LENGTHS.passes();
}

#[test]
fn sides() {
    SIDES.passes();
}

#[test]
fn large_sheets() {
    LARGE.passes();
}

#[test]
fn every_reply_is_reached() {
    let whole = whole_tally(&[
        &HAND,
        &EVERY_SMALL,
        &SAMPLED_SMALL,
        &WITHOUT_LOOPS,
        &ARBITRARY,
        &CLOSED_RIVERS,
        &BAD_CODES,
        &WRONG_LENGTHS,
        &SIDES,
        &LARGE,
    ]);
    println!(
        "counting: {} sheets and {} counted cells compared",
        whole.outcomes, whole.cells
    );
    for (number, name) in ["done", "shape", "length", "code", "loop"]
        .iter()
        .enumerate()
    {
        let times = whole.replies[number];
        println!("counting: reply {number} {name} {times} times");
        assert!(times > 0, "reply {number} {name} was not reached");
    }
    assert!(
        whole.cells >= least_cells(),
        "{} cells were counted, fewer than {}",
        whole.cells,
        least_cells()
    );
}

#[test]
fn empty_slices_are_refused() {
    assert_eq!(count(1, 1, &[], &mut []), CountReply::Length);
    assert_eq!(count(0, 0, &[], &mut []), CountReply::Shape);
    assert_eq!(count(1 << 32, 1 << 32, &[], &mut []), CountReply::Shape);
    let mut counts = [7];
    assert_eq!(count(1, 1, &[], &mut counts), CountReply::Length);
    assert_eq!(counts, [7]);
    assert_eq!(count(1, 1, &[1], &mut []), CountReply::Length);
}

/// The independent counter is itself held to the sheets worked by hand.
#[test]
fn the_independent_counter_knows_the_hand_sheets() {
    for way in [Way::FollowEach, Way::FarthestFirst] {
        for (name, sheet, reply, counts) in HAND_SHEETS {
            let (rows, cols, grid) = notation::read::<u8>(sheet);
            let found = independent::count_by(way, rows, cols, &grid, grid.len());
            let expected = hand_outcome(reply, counts);
            let lent = vec![77; grid.len()];
            assert_eq!(
                (found.number, found.value, found.counts.given(&lent)),
                (
                    expected.number,
                    expected.value,
                    expected.counts.given(&lent)
                ),
                "{name}, {way:?}"
            );
        }
    }
}

/// Large sheets are counted in another way than small ones; on small ones the two are held against each other.
#[test]
fn the_two_independent_ways_agree() {
    for number in 0..many(2_000) {
        let seed = (0x60 << 40) + number;
        let mut draw = Draw::new(seed);
        let (rows, cols) = any_shape(&mut draw);
        let sheet = any_loop_free(&mut draw, rows, cols);
        let by = |way| independent::count_by(way, rows, cols, &sheet.grid, sheet.grid.len());
        let (one, other) = (by(Way::FollowEach), by(Way::FarthestFirst));
        assert_eq!(
            (one.number, one.value, one.counts.given(&[])),
            (other.number, other.value, other.counts.given(&[])),
            "seed {seed:#x}, {}",
            notation::write(cols, &sheet.grid)
        );
    }
}
