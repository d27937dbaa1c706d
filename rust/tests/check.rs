//! Holds checking to the independent counter: the reply, all its values, and both buffers after the call, which only
//! reads them.
//!
//! Each grid of counts is checked twice, through the C interface and through the safe function, each time with other
//! guards beside both buffers.

mod common;

use common::draw::Draw;
use common::group::{long_run, many, whole_tally, Group, Tally};
use common::independent::{self, After, Outcome};
use common::lent::Lent;
use common::notation;
use common::sheets::{
    self, any_loop_free, any_shape, every_bad_code, every_grid, odd_lengths, one_river, one_round,
    Absent, Sheet, GOOD_CODES, ODD_SIDES, SHAPES,
};
use drainage::{check, raw, CheckReply};

/// What a call is lent.
#[derive(Clone, Copy)]
struct Call<'a> {
    rows: usize,
    cols: usize,
    grid: &'a [u8],
    counts: &'a [u32],
}

impl<'a> Call<'a> {
    fn of(sheet: &'a Sheet, counts: &'a [u32]) -> Call<'a> {
        Call {
            rows: sheet.rows,
            cols: sheet.cols,
            grid: &sheet.grid,
            counts,
        }
    }
}

fn named(expected: &Outcome) -> CheckReply {
    let [place, ..] = independent::sizes(expected.value);
    match expected.number {
        0 => CheckReply::Done,
        1 => CheckReply::Shape,
        2 => CheckReply::Length,
        3 => CheckReply::Code { place },
        5 => CheckReply::Count { place },
        other => panic!("the independent counter gives {other}, which is no reply of checking"),
    }
}

/// Calls the library in both ways and compares with the outcome expected.
fn hold(tally: &mut Tally, call: Call, expected: &Outcome, seed: u64) -> Result<(), String> {
    let Call {
        rows,
        cols,
        grid,
        counts,
    } = call;
    let mut draw = Draw::new(!seed);
    // An arrow as a guard is noticed not only when it is overwritten: if it is read as a cell, a sum goes wrong.
    let mut lend = || {
        let (grid_guard, counts_guard) = (draw.pick(&GOOD_CODES[..8]), draw.word() as u32);
        (Lent::new(grid, grid_guard), Lent::new(counts, counts_guard))
    };
    let tell = |way: &str, what: String| {
        format!(
            "{way}: {what}\n  {rows} by {cols}, grid of {} cells {}, counts of {} {}, seed {seed:#x}",
            grid.len(),
            notation::write(cols, grid),
            counts.len(),
            notation::write(cols, counts)
        )
    };

    let (mut lent_grid, mut lent_counts) = lend();
    // SAFETY: the pointers are those of two buffers, with their lengths.
    let reply = unsafe {
        raw::drainage_check(
            rows,
            cols,
            lent_grid.pointer(),
            lent_grid.len(),
            lent_counts.pointer(),
            lent_counts.len(),
        )
    };
    let in_c = |what| tell("drainage_check", what);
    if (reply.number, reply.value) != (expected.number, expected.value) {
        return Err(in_c(format!(
            "reply {} with {:?}, expected {} with {:?}",
            reply.number, reply.value, expected.number, expected.value
        )));
    }
    lent_grid.holds("the grid", grid).map_err(in_c)?;
    lent_counts.holds("the counts", counts).map_err(in_c)?;

    let (lent_grid, lent_counts) = lend();
    let reply = check(rows, cols, lent_grid.slice(), lent_counts.slice());
    let in_rust = |what| tell("check", what);
    if reply != named(expected) {
        return Err(in_rust(format!(
            "{reply:?}, expected {:?}",
            named(expected)
        )));
    }
    lent_grid.holds("the grid", grid).map_err(in_rust)?;
    lent_counts.holds("the counts", counts).map_err(in_rust)?;

    tally.outcomes += 1;
    tally.replies[expected.number as usize] += 1;
    if expected.number == 0 {
        tally.cells += grid.len() as u64;
    }
    Ok(())
}

/// Calls the library and compares with the independent counter, whose outcome is the answer.
fn compare(tally: &mut Tally, call: Call, seed: u64) -> Result<Outcome, String> {
    let expected = independent::check(call.rows, call.cols, call.grid, call.counts);
    hold(tally, call, &expected, seed)?;
    Ok(expected)
}

/// The same for counts that were made so that this is the reply, with that place where one is known.
fn compare_made(
    tally: &mut Tally,
    call: Call,
    number: u32,
    place: Option<usize>,
    seed: u64,
) -> Result<(), String> {
    let outcome = compare(tally, call, seed)?;
    let at = outcome.value[0];
    if outcome.number == number && place.is_none_or(|place| place as u64 == at) {
        return Ok(());
    }
    Err(format!(
        "counts made for reply {number} at {place:?} have reply {} at {at}: seed {seed:#x}, {}, counts {}",
        outcome.number,
        notation::write(call.cols, call.grid),
        notation::write(call.cols, call.counts)
    ))
}

/// The right counts of a sheet, if it has no loop.
fn right_counts(sheet: &Sheet) -> Option<Vec<u32>> {
    let counted = independent::count(sheet.rows, sheet.cols, &sheet.grid, sheet.grid.len());
    match (counted.number, counted.counts) {
        (0, After::Holds(counts)) => Some(counts),
        (4, _) => None,
        (other, _) => panic!("the independent counter gives {other} for a sheet of good codes"),
    }
}

fn right_counts_of_loop_free(sheet: &Sheet) -> Vec<u32> {
    right_counts(sheet).expect("the sheet was made without loops")
}

/// Paper 01, "Sheets small enough to work by hand": the sheet, its counts, or counts that it cannot have, and the
/// reply.
const HAND_SHEETS: [(&str, &str, &str, CheckReply); 23] = [
    ("A", "1", "1", CheckReply::Done),
    ("A", "1", "0", wrong_at(0)),
    ("A", "1", "2", wrong_at(0)),
    ("B", "255", "0", CheckReply::Done),
    ("B", "255", "1", wrong_at(0)),
    ("B", "0", "4294967295", wrong_at(0)),
    ("C", "1 1 1", "1 2 3", CheckReply::Done),
    ("C", "1 1 1", "1 2 2", wrong_at(2)),
    ("C, what follows agrees", "1 1 1", "2 3 4", wrong_at(0)),
    ("C, what follows agrees", "1 1 1", "1 3 4", wrong_at(1)),
    ("D", "1 255 16", "1 0 1", CheckReply::Done),
    (
        "D, poured onto absent ground",
        "1 255 16",
        "1 2 1",
        wrong_at(1),
    ),
    ("E", "1 16", "0 0", wrong_at(0)),
    ("E, right but for one", "1 16", "2 1", wrong_at(1)),
    ("F", "1 1 1 16", "1 2 3 4", wrong_at(2)),
    ("G", "1 16 3", "7 7 7", CheckReply::Code { place: 2 }),
    (
        "H",
        "2 4 8 / 1 4 16 / 128 4 32",
        "1 1 1 / 1 8 1 / 1 9 1",
        CheckReply::Done,
    ),
    (
        "H with the counts of I",
        "2 4 8 / 1 4 16 / 128 4 32",
        "1 2 1 / 1 8 1 / 1 9 1",
        wrong_at(1),
    ),
    (
        "I",
        "1 4 8 / 1 4 16 / 128 4 32",
        "1 2 1 / 1 8 1 / 1 9 1",
        CheckReply::Done,
    ),
    (
        "J, which has a loop, with the counts of H",
        "2 4 8 / 1 64 16 / 128 4 32",
        "1 1 1 / 1 8 1 / 1 9 1",
        wrong_at(1),
    ),
    (
        "K",
        "2 4 8 / 1 255 16 / 128 4 32",
        "1 1 1 / 1 0 1 / 1 1 1",
        CheckReply::Done,
    ),
    ("L whole", "4 1 / 1 64", "1 4 / 2 3", CheckReply::Done),
    ("N whole", "2 255 / 255 2", "1 0 / 0 2", CheckReply::Done),
];

const fn wrong_at(place: usize) -> CheckReply {
    CheckReply::Count { place }
}

fn hand_outcome(reply: CheckReply) -> Outcome {
    let (number, place) = match reply {
        CheckReply::Done => (0, 0),
        CheckReply::Shape => (1, 0),
        CheckReply::Length => (2, 0),
        CheckReply::Code { place } => (3, place),
        CheckReply::Count { place } => (5, place),
    };
    Outcome {
        number,
        value: independent::values(&[place]),
        grid: After::AsLent,
        counts: After::AsLent,
    }
}

fn run_hand_sheets(tally: &mut Tally) -> Result<(), String> {
    for (name, sheet, counts, reply) in HAND_SHEETS {
        let (rows, cols, grid) = notation::read(sheet);
        let (_, _, counts) = notation::read(counts);
        let sheet = Sheet { rows, cols, grid };
        let call = Call::of(&sheet, &counts);
        hold(tally, call, &hand_outcome(reply), 1).map_err(|what| format!("{name}: {what}"))?;
    }
    Ok(())
}

/// Every damage of one count that this group tries: one more, one less, the ends of 32 bits, the counts of the cells
/// beside it.
fn damages(counts: &[u32], cols: usize, place: usize) -> Vec<u32> {
    let right = counts[place];
    let mut damages = vec![
        right.wrapping_add(1),
        right.wrapping_sub(1),
        0,
        u32::MAX,
        1 << 31,
    ];
    for beside in [1, cols] {
        damages.extend(place.checked_sub(beside).map(|before| counts[before]));
        damages.extend(counts.get(place + beside));
    }
    damages.sort_unstable();
    damages.dedup();
    damages.retain(|&damage| damage != right);
    damages
}

/// Fills for a sheet with a loop: a few numbers, any numbers, and such as satisfy the equation at almost every cell.
fn fills(draw: &mut Draw, sheet: &Sheet) -> Vec<Vec<u32>> {
    let cells = sheet.grid.len();
    let mut fills = vec![
        vec![0; cells],
        vec![draw.pick(&[1, 2, cells as u32, u32::MAX]); cells],
        (0..cells).map(|_| draw.below(cells + 2) as u32).collect(),
        (0..cells).map(|_| draw.word() as u32).collect(),
    ];
    // Each cell in turn gets what its givers make it, in 32 bits, which goes round the loops as often as the sheet is
    // passed over; from 0, and from near the greatest number.
    for start in [0, u32::MAX - draw.below(4 * cells + 4) as u32] {
        let mut counts = vec![start; cells];
        for _ in 0..draw.within(1, 3) {
            settle(sheet, &mut counts);
        }
        fills.push(counts);
    }
    fills
}

/// Gives every cell in the order of places, then every cell in the other order, what its givers make it.
fn settle(sheet: &Sheet, counts: &mut [u32]) {
    let forth = 0..counts.len();
    let back = forth.clone().rev();
    for place in forth.chain(back) {
        counts[place] = if sheet.is_land(place) {
            let givers = sheet.givers(place).into_iter();
            givers.fold(1, |sum: u32, giver| sum.wrapping_add(counts[giver]))
        } else {
            0
        };
    }
}

/// Right counts are accepted, each damage of each cell is refused; with a loop all counts are refused.
fn damage_each(tally: &mut Tally, sheet: &Sheet, seed: u64) -> Result<(), String> {
    let Some(right) = right_counts(sheet) else {
        let mut draw = Draw::new(seed);
        for counts in fills(&mut draw, sheet) {
            compare_made(tally, Call::of(sheet, &counts), 5, None, seed)?;
        }
        return Ok(());
    };
    compare_made(tally, Call::of(sheet, &right), 0, None, seed)?;
    let mut counts = right.clone();
    for place in 0..right.len() {
        for damage in damages(&right, sheet.cols, place) {
            counts[place] = damage;
            // Which place shows it is for the independent counter to say; that one does, holds of any other number.
            compare_made(tally, Call::of(sheet, &counts), 5, None, seed)?;
        }
        counts[place] = right[place];
    }
    Ok(())
}

fn every_grid_of(tally: &mut Tally, codes: &[u8], rows: usize, cols: usize) -> Result<(), String> {
    every_grid(codes, (rows * cols) as u32, |grid, number| {
        let grid = grid.to_vec();
        damage_each(tally, &Sheet { rows, cols, grid }, number)
    })
}

fn run_every_damage_of_small_sheets(tally: &mut Tally) -> Result<(), String> {
    for rows in 1..=6 {
        for cols in 1..=6 / rows {
            let codes: &[u8] = if long_run() {
                &[1, 4, 16, 64, 2, 32, 255]
            } else {
                &[1, 4, 16, 64, 255]
            };
            every_grid_of(tally, codes, rows, cols)?;
            if rows * cols <= 4 {
                every_grid_of(tally, &GOOD_CODES, rows, cols)?;
            }
        }
    }
    Ok(())
}

fn run_damaged_sheets(tally: &mut Tally) -> Result<(), String> {
    for number in 0..many(4_000) {
        let seed = (0x61 << 40) + number;
        let mut draw = Draw::new(seed);
        let (rows, cols) = any_shape(&mut draw);
        let sheet = any_loop_free(&mut draw, rows, cols);
        let right = right_counts_of_loop_free(&sheet);
        compare_made(tally, Call::of(&sheet, &right), 0, None, seed)?;
        for _ in 0..4 {
            let mut counts = right.clone();
            for _ in 0..draw.within(1, 3) {
                let place = draw.below(counts.len());
                let choices = damages(&right, cols, place);
                counts[place] = draw.pick(&choices);
            }
            compare_made(tally, Call::of(&sheet, &counts), 5, None, seed)?;
        }
    }
    Ok(())
}

/// Damages that show nowhere but at their own place: the first of them is the one told.
fn run_first_of_several(tally: &mut Tally) -> Result<(), String> {
    for number in 0..many(4_000) {
        let seed = (0x62 << 40) + number;
        let mut draw = Draw::new(seed);
        let (rows, cols) = any_shape(&mut draw);
        let sheet = any_loop_free(&mut draw, rows, cols);
        let right = right_counts_of_loop_free(&sheet);
        let mut counts = right.clone();
        let mut first = None;
        for _ in 0..draw.within(1, 5) {
            // An absent cell and an outlet give to none.
            let place = draw.below(counts.len());
            if sheet.next(place).is_none() {
                let choices = damages(&right, cols, place);
                counts[place] = draw.pick(&choices);
                first = Some(first.map_or(place, |first| place.min(first)));
            }
        }
        let reply = if first.is_some() { 5 } else { 0 };
        compare_made(tally, Call::of(&sheet, &counts), reply, first, seed)?;
    }
    Ok(())
}

/// A sheet without land, and sheets with it, where an absent cell has a count.
fn run_absent_cells(tally: &mut Tally) -> Result<(), String> {
    for number in 0..many(3_000) {
        let seed = (0x63 << 40) + number;
        let mut draw = Draw::new(seed);
        let (rows, cols) = any_shape(&mut draw);
        let sheet = if number % 4 == 0 {
            sheets::arbitrary(&mut draw, rows, cols, Absent(16), &[1])
        } else {
            any_loop_free(&mut draw, rows, cols)
        };
        let right = right_counts_of_loop_free(&sheet);
        let absent: Vec<usize> = (0..right.len())
            .filter(|&place| !sheet.is_land(place))
            .collect();
        if absent.is_empty() {
            continue;
        }
        let place = draw.pick(&absent);
        // Among these is what the arrows that point at the cell would make of it if it were land.
        let givers = sheet.givers(place).into_iter();
        let as_land = givers.map(|giver| right[giver]).sum::<u32>() + 1;
        for damage in [1, as_land, 256, 1 << 16, 1 << 31, u32::MAX] {
            let mut counts = right.clone();
            counts[place] = damage;
            compare_made(tally, Call::of(&sheet, &counts), 5, Some(place), seed)?;
        }
    }
    Ok(())
}

/// Counts so great that their sum passes 32 bits, and the count below them is what is left of it: the cell is refused,
/// at its own place, as the sum is taken whole.
fn run_sums_that_wrap(tally: &mut Tally) -> Result<(), String> {
    let mut tried = 0;
    let mut most_wraps = 0;
    for number in 0..many(6_000) {
        let seed = (0x64 << 40) + number;
        let mut draw = Draw::new(seed);
        let (rows, cols) = any_shape(&mut draw);
        let mut sheet = any_loop_free(&mut draw, rows, cols);
        let mut confluence = None;
        if number % 3 == 0 && rows >= 3 && cols >= 3 {
            let (row, col) = (draw.within(1, rows - 2), draw.within(1, cols - 2));
            confluence = Some(sheets::lay_a_confluence(&mut sheet, row, col));
        }
        let right = right_counts_of_loop_free(&sheet);
        // A cell whose givers all stand after it, and the cell that it gives to as well: what is wrong there is met
        // later.
        let fit: Vec<usize> = (0..right.len())
            .filter(|&place| {
                let givers = sheet.givers(place);
                sheet.is_land(place)
                    && !givers.is_empty()
                    && givers.iter().all(|&giver| giver > place)
                    && sheet.next(place).is_none_or(|next| next > place)
            })
            .collect();
        if fit.is_empty() {
            continue;
        }
        let place = confluence.unwrap_or_else(|| draw.pick(&fit));
        let givers = sheet.givers(place);
        let mut counts = right;
        for &giver in &givers {
            counts[giver] = u32::MAX - draw.pick(&[0, 1, 2, 7, 1000]);
        }
        let sum =
            |counts: &[u32]| -> u64 { givers.iter().map(|&giver| u64::from(counts[giver])).sum() };
        if draw.one_in(2) {
            // What is left of the sum is 0, or a count that a cell can have.
            let left = draw.pick(&[0, 1, 2, givers.len() as u32 + 1]);
            let last = &mut counts[givers[0]];
            *last = 0;
            let others = sum(&counts) as u32;
            counts[givers[0]] = left.wrapping_sub(1).wrapping_sub(others);
        }
        let whole = sum(&counts) + 1;
        counts[place] = whole as u32;
        if whole == u64::from(counts[place]) {
            continue;
        }
        tried += 1;
        most_wraps = most_wraps.max(whole >> 32);
        compare_made(tally, Call::of(&sheet, &counts), 5, Some(place), seed)?;
    }
    if tried < many(1_000) || most_wraps < 3 {
        return Err(format!(
            "{tried} sums that wrap, of at most {most_wraps} times 32 bits, are too few"
        ));
    }
    Ok(())
}

/// One cell with eight givers, with counts at the ends of 32 bits. The cell is absent, or it gives to one of the eight,
/// which closes a loop.
fn run_eight_givers(tally: &mut Tally) -> Result<(), String> {
    let (rows, cols, grid) = notation::read("2 4 8 / 1 255 16 / 128 64 32");
    let mut sheet = Sheet { rows, cols, grid };
    let ends = [0, 1, 1, 2, 1 << 31, u32::MAX - 1, u32::MAX];
    for number in 0..many(20_000) {
        let seed = (0x65 << 40) + number;
        let mut draw = Draw::new(seed);
        sheet.grid[4] = draw.pick(&GOOD_CODES);
        let mut counts: Vec<u32> = (0..9).map(|_| draw.pick(&ends)).collect();
        let givers = sheet.givers(4).into_iter();
        let sum: u64 = givers.map(|giver| u64::from(counts[giver])).sum();
        counts[4] = (sum + draw.pick(&[0, 1, 1, 1, 2])) as u32;
        compare_made(tally, Call::of(&sheet, &counts), 5, None, seed)?;
    }
    Ok(())
}

fn run_sheets_with_loops(tally: &mut Tally) -> Result<(), String> {
    for number in 0..many(2_000) {
        let seed = (0x66 << 40) + number;
        let mut draw = Draw::new(seed);
        let (rows, cols) = any_shape(&mut draw);
        let mut sheet = if number % 2 == 0 {
            any_loop_free(&mut draw, rows, cols)
        } else {
            sheets::arbitrary(&mut draw, rows, cols, Absent(2), &GOOD_CODES)
        };
        let before = right_counts(&sheet);
        sheets::close_a_loop(&mut draw, &mut sheet);
        if right_counts(&sheet).is_some() {
            continue;
        }
        if let Some(before) = before {
            compare_made(tally, Call::of(&sheet, &before), 5, None, seed)?;
        }
        for counts in fills(&mut draw, &sheet) {
            compare_made(tally, Call::of(&sheet, &counts), 5, None, seed)?;
        }
    }
    Ok(())
}

/// A bad code comes before wrong counts, wherever the two stand.
fn run_bad_codes(tally: &mut Tally) -> Result<(), String> {
    let bad_codes = every_bad_code();
    for &bad in &bad_codes {
        for number in 0..many(8) {
            let seed = (0x67 << 40) + ((bad as u64) << 32) + number;
            let mut draw = Draw::new(seed);
            let (rows, cols) = any_shape(&mut draw);
            let mut sheet = any_loop_free(&mut draw, rows, cols);
            let mut counts = right_counts_of_loop_free(&sheet);
            let cells = sheet.grid.len();
            let place = match number {
                0 => 0,
                1 => cells - 1,
                _ => draw.below(cells),
            };
            sheet.grid[place] = bad;
            for _ in 0..draw.below(3) {
                let after = draw.within(place, cells - 1);
                if after != place {
                    sheet.grid[after] = draw.pick(&bad_codes);
                }
            }
            if number % 2 == 0 {
                for _ in 0..draw.within(1, 3) {
                    counts[draw.below(cells)] = draw.word() as u32;
                }
            }
            compare_made(tally, Call::of(&sheet, &counts), 3, Some(place), seed)?;
        }
    }
    for (rows, cols) in [(1, 9), (9, 1), (4, 5), (6, 6)] {
        for place in 0..rows * cols {
            let seed = (0x68 << 40) + ((rows * 100 + cols) * 100 + place) as u64;
            let mut draw = Draw::new(seed);
            let mut sheet = sheets::arbitrary(&mut draw, rows, cols, Absent(2), &GOOD_CODES);
            sheet.grid[place] = draw.pick(&bad_codes);
            let counts = vec![draw.word() as u32; rows * cols];
            compare_made(tally, Call::of(&sheet, &counts), 3, Some(place), seed)?;
        }
    }
    Ok(())
}

fn run_wrong_lengths(tally: &mut Tally) -> Result<(), String> {
    for (rows, cols) in SHAPES {
        let right = rows * cols;
        let lengths = odd_lengths(rows, cols);
        for grid_len in lengths {
            for counts_len in lengths {
                let seed = (0x69 << 40) + ((grid_len << 16) + counts_len) as u64;
                let mut draw = Draw::new(seed);
                // Outlets throughout on one row, right and wrong counts, bytes that are bad codes for the greater part:
                // the length comes before all refusals but that of the shape.
                for kind in 0..3 {
                    let grid: Vec<u8> = (0..grid_len)
                        .map(|_| match kind {
                            0 => 255,
                            1 => draw.pick(&GOOD_CODES),
                            _ => draw.word() as u8,
                        })
                        .collect();
                    let counts = vec![kind as u32; counts_len];
                    let call = Call {
                        rows,
                        cols,
                        grid: &grid,
                        counts: &counts,
                    };
                    let number = compare(tally, call, seed + kind)?.number;
                    if (number == 2) != (grid_len != right || counts_len != right) {
                        return Err(format!(
                            "lengths {grid_len} and {counts_len} of {rows} by {cols} have reply {number}"
                        ));
                    }
                }
            }
        }
    }
    Ok(())
}

fn run_sides(tally: &mut Tally) -> Result<(), String> {
    for rows in ODD_SIDES {
        for cols in ODD_SIDES {
            let seed = (0x6A << 40) ^ (rows as u64).rotate_left(20) ^ cols as u64;
            let mut draw = Draw::new(seed);
            // The length that fits, also where the product is beyond 64 bits and what is left of it fits; a few cells
            // where so large a buffer cannot be had.
            let fitting = rows.wrapping_mul(cols);
            let cells = if fitting <= 400_000 { fitting } else { 6 };
            for codes in [&[255][..], &GOOD_CODES, &[3, 1, 4, 16]] {
                let grid: Vec<u8> = (0..cells).map(|_| draw.pick(codes)).collect();
                for counts_len in [cells, cells + 1] {
                    let counts = vec![0; counts_len];
                    let call = Call {
                        rows,
                        cols,
                        grid: &grid,
                        counts: &counts,
                    };
                    let number = compare(tally, call, seed)?.number;
                    let within = |side| (1..=4096).contains(&side);
                    if (number == 1) == (within(rows) && within(cols)) {
                        return Err(format!("{rows} by {cols} has reply {number}"));
                    }
                }
            }
        }
    }
    Ok(())
}

fn run_large_sheets(tally: &mut Tally) -> Result<(), String> {
    let seed = 0x6B << 40;
    let mut draw = Draw::new(seed);
    for (rows, cols) in [(512, 512), (4096, 7), (7, 4096), (1000, 300)] {
        for absent in [Absent(0), Absent(8)] {
            let sheet = sheets::winding(&mut draw, rows, cols, absent);
            let right = right_counts_of_loop_free(&sheet);
            compare_made(tally, Call::of(&sheet, &right), 0, None, seed)?;
            let last = right.len() - 1;
            let places = [0, 1, cols, last - cols, last, draw.below(last)];
            for place in places {
                let mut counts = right.clone();
                counts[place] = counts[place].wrapping_sub(1);
                compare_made(tally, Call::of(&sheet, &counts), 5, None, seed)?;
            }
        }
    }

    // The greatest sheet with the greatest count that there can be; the count of its source, of its mouth and of a cell
    // between wrong; then the longest loop, with the counts of the river.
    let sheet = one_river(4096, 4096);
    let mut counts = right_counts_of_loop_free(&sheet);
    compare_made(tally, Call::of(&sheet, &counts), 0, None, seed)?;
    let cells = counts.len();
    let mouth = counts.iter().position(|&count| count as usize == cells);
    let mouth = mouth.expect("the river passes every cell");
    counts[mouth] -= 1;
    compare_made(tally, Call::of(&sheet, &counts), 5, Some(mouth), seed)?;
    counts[mouth] += 1;
    let round = one_round(4096, 4096);
    compare_made(tally, Call::of(&round, &counts), 5, None, seed)?;
    counts[cells / 2] = 0;
    compare_made(tally, Call::of(&sheet, &counts), 5, None, seed)
}

static HAND: Group = Group::new("hand sheets", run_hand_sheets);
static EVERY_DAMAGE: Group = Group::new(
    "every damage of small sheets",
    run_every_damage_of_small_sheets,
);
static DAMAGED: Group = Group::new("damaged sheets", run_damaged_sheets);
static FIRST: Group = Group::new("first of several", run_first_of_several);
static ABSENT: Group = Group::new("absent cells", run_absent_cells);
static WRAPPING: Group = Group::new("sums that wrap", run_sums_that_wrap);
static EIGHT: Group = Group::new("eight givers", run_eight_givers);
static WITH_LOOPS: Group = Group::new("sheets with loops", run_sheets_with_loops);
static BAD_CODES: Group = Group::new("bad codes", run_bad_codes);
static WRONG_LENGTHS: Group = Group::new("wrong lengths", run_wrong_lengths);
static SIDES: Group = Group::new("sides", run_sides);
static LARGE: Group = Group::new("large sheets", run_large_sheets);

#[test]
fn hand_sheets() {
    HAND.passes();
}

#[test]
fn every_damage_of_small_sheets() {
    EVERY_DAMAGE.passes();
}

#[test]
fn damaged_sheets() {
    DAMAGED.passes();
}

#[test]
fn first_of_several() {
    FIRST.passes();
}

#[test]
fn absent_cells() {
    ABSENT.passes();
}

#[test]
fn sums_that_wrap() {
    WRAPPING.passes();
}

#[test]
fn eight_givers() {
    EIGHT.passes();
}

#[test]
fn sheets_with_loops() {
    WITH_LOOPS.passes();
}

#[test]
fn bad_codes() {
    BAD_CODES.passes();
}

#[test]
fn wrong_lengths() {
    WRONG_LENGTHS.passes();
}

#[test]
fn sides() {
    SIDES.passes();
}

#[test]
fn large_sheets() {
    LARGE.passes();
}

#[test]
fn every_reply_is_reached() {
    let whole = whole_tally(&[
        &HAND,
        &EVERY_DAMAGE,
        &DAMAGED,
        &FIRST,
        &ABSENT,
        &WRAPPING,
        &EIGHT,
        &WITH_LOOPS,
        &BAD_CODES,
        &WRONG_LENGTHS,
        &SIDES,
        &LARGE,
    ]);
    println!(
        "checking: {} grids of counts compared, {} cells in those accepted",
        whole.outcomes, whole.cells
    );
    for (number, name) in [
        (0, "done"),
        (1, "shape"),
        (2, "length"),
        (3, "code"),
        (5, "count"),
    ] {
        let times = whole.replies[number];
        println!("checking: reply {number} {name} {times} times");
        assert!(times > 0, "reply {number} {name} was not reached");
    }
}

#[test]
fn empty_slices_are_refused() {
    assert_eq!(check(1, 1, &[], &[]), CheckReply::Length);
    assert_eq!(check(0, 0, &[], &[]), CheckReply::Shape);
    assert_eq!(check(1 << 32, 1 << 32, &[], &[]), CheckReply::Shape);
    assert_eq!(check(1, 1, &[], &[7]), CheckReply::Length);
    assert_eq!(check(1, 1, &[1], &[]), CheckReply::Length);
}

/// The independent counter is itself held to the sheets worked by hand.
#[test]
fn the_independent_counter_knows_the_hand_sheets() {
    for (name, sheet, counts, reply) in HAND_SHEETS {
        let (rows, cols, grid) = notation::read::<u8>(sheet);
        let (_, _, counts) = notation::read::<u32>(counts);
        let found = independent::check(rows, cols, &grid, &counts);
        assert_eq!(named(&found), reply, "{name}");
    }
}
