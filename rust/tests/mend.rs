//! Holds mending to the independent counter, which counts the changed grid afresh: the reply, all its values, and both
//! buffers after the call.
//!
//! Each change is made twice, through the C interface and through the safe function, each time with other guards beside
//! both buffers.

mod common;

use common::draw::Draw;
use common::group::{long_run, many, whole_tally, Group, Tally};
use common::independent::{self, After, Outcome};
use common::lent::Lent;
use common::notation;
use common::sheets::{
    self, any_loop_free, any_shape, every_bad_code, every_grid, odd_lengths, one_river, one_round,
    opened, Absent, Relief, Sheet, GOOD_CODES, ODD_SIDES, SHAPES,
};
use drainage::{check, mend, raw, CheckReply, MendReply};

/// What a call is lent.
#[derive(Clone, Copy)]
struct Call<'a> {
    rows: usize,
    cols: usize,
    grid: &'a [u8],
    counts: &'a [u32],
}

impl<'a> Call<'a> {
    fn of(sheet: &'a Sheet, counts: &'a [u32]) -> Call<'a> {
        Call {
            rows: sheet.rows,
            cols: sheet.cols,
            grid: &sheet.grid,
            counts,
        }
    }
}

/// The cell to change and its new code.
type Change = (usize, u8);

fn named(expected: &Outcome) -> MendReply {
    let [place, length, ..] = independent::sizes(expected.value);
    match expected.number {
        0 => MendReply::Done,
        1 => MendReply::Shape,
        2 => MendReply::Length,
        3 => MendReply::Code { place },
        5 => MendReply::Count { place },
        6 => MendReply::Place,
        7 => MendReply::NewCode,
        4 => MendReply::Loop { place, length },
        other => panic!("the independent counter gives {other}, which is no reply of mending"),
    }
}

/// Calls the library in both ways and compares with the outcome expected.
fn hold(
    tally: &mut Tally,
    call: Call,
    (place, code): Change,
    expected: &Outcome,
    seed: u64,
) -> Result<(), String> {
    let Call {
        rows,
        cols,
        grid,
        counts,
    } = call;
    let mut draw = Draw::new(!seed);
    // An arrow as a guard is noticed not only when it is overwritten: if it is read as a cell, the counts go wrong.
    let mut lend = || {
        let (grid_guard, counts_guard) = (draw.pick(&GOOD_CODES[..8]), draw.word() as u32);
        (Lent::new(grid, grid_guard), Lent::new(counts, counts_guard))
    };
    let (grid_after, counts_after) = (expected.grid.given(grid), expected.counts.given(counts));
    let tell = |way: &str, what: String| {
        format!(
            "{way}: {what}\n  place {place} to {code} in {rows} by {cols}, grid of {} cells {}, counts of {} {}, seed {seed:#x}",
            grid.len(),
            notation::write(cols, grid),
            counts.len(),
            notation::write(cols, counts)
        )
    };

    let (mut lent_grid, mut lent_counts) = lend();
    // SAFETY: the pointers are those of two buffers, with their lengths.
    let reply = unsafe {
        raw::drainage_mend(
            rows,
            cols,
            lent_grid.pointer(),
            lent_grid.len(),
            lent_counts.pointer(),
            lent_counts.len(),
            place,
            code,
        )
    };
    let in_c = |what| tell("drainage_mend", what);
    if (reply.number, reply.value) != (expected.number, expected.value) {
        return Err(in_c(format!(
            "reply {} with {:?}, expected {} with {:?}",
            reply.number, reply.value, expected.number, expected.value
        )));
    }
    lent_grid.holds("the grid", grid_after).map_err(in_c)?;
    lent_counts
        .holds("the counts", counts_after)
        .map_err(in_c)?;

    let (mut lent_grid, mut lent_counts) = lend();
    let (grid_slice, counts_slice) = (lent_grid.slice_mut(), lent_counts.slice_mut());
    let reply = mend(rows, cols, grid_slice, counts_slice, place, code);
    let in_rust = |what| tell("mend", what);
    if reply != named(expected) {
        return Err(in_rust(format!(
            "{reply:?}, expected {:?}",
            named(expected)
        )));
    }
    lent_grid.holds("the grid", grid_after).map_err(in_rust)?;
    lent_counts
        .holds("the counts", counts_after)
        .map_err(in_rust)?;

    tally.outcomes += 1;
    tally.replies[expected.number as usize] += 1;
    if expected.number == 0 {
        tally.cells += grid.len() as u64;
    }
    Ok(())
}

/// Calls the library and compares with the independent counter, whose reply number is the answer.
fn compare(tally: &mut Tally, call: Call, change: Change, seed: u64) -> Result<u32, String> {
    let (place, code) = change;
    let expected = independent::mend(call.rows, call.cols, call.grid, call.counts, place, code);
    hold(tally, call, change, &expected, seed)?;
    Ok(expected.number)
}

/// The same for a change that was made so that this is the reply.
fn compare_made(
    tally: &mut Tally,
    call: Call,
    change: Change,
    number: u32,
    seed: u64,
) -> Result<(), String> {
    let reply = compare(tally, call, change, seed)?;
    if reply == number {
        return Ok(());
    }
    Err(format!(
        "a change {change:?} made for reply {number} has reply {reply}: seed {seed:#x}, {}",
        notation::write(call.cols, call.grid)
    ))
}

/// The counts of a sheet, if it has no loop.
fn counts_of(sheet: &Sheet) -> Option<Vec<u32>> {
    let counted = independent::count(sheet.rows, sheet.cols, &sheet.grid, sheet.grid.len());
    match (counted.number, counted.counts) {
        (0, After::Holds(counts)) => Some(counts),
        (4, _) => None,
        (other, _) => panic!("the independent counter gives {other} for a sheet of good codes"),
    }
}

fn counts_of_loop_free(sheet: &Sheet) -> Vec<u32> {
    counts_of(sheet).expect("the sheet was made without loops")
}

fn any_sheet(draw: &mut Draw, rows: usize, cols: usize) -> Sheet {
    if rows * cols <= 200 && draw.one_in(3) {
        opened(draw, rows, cols)
    } else {
        any_loop_free(draw, rows, cols)
    }
}

const H: &str = "2 4 8 / 1 4 16 / 128 4 32";
const COUNTS_OF_H: &str = "1 1 1 / 1 8 1 / 1 9 1";

/// Changes of paper 01's sheets worked by hand: the sheet, its counts, the change, the reply, the counts after (nothing
/// where they are as lent).
const HAND_CHANGES: [(&str, &str, &str, Change, MendReply, &str); 17] = [
    (
        "I, the two ways share their end",
        H,
        COUNTS_OF_H,
        (0, 1),
        MendReply::Done,
        "1 2 1 / 1 8 1 / 1 9 1",
    ),
    ("J", H, COUNTS_OF_H, (4, 64), looped(1, 2), ""),
    (
        "K",
        H,
        COUNTS_OF_H,
        (4, 255),
        MendReply::Done,
        "1 1 1 / 1 0 1 / 1 1 1",
    ),
    (
        "K back to H",
        "2 4 8 / 1 255 16 / 128 4 32",
        "1 1 1 / 1 0 1 / 1 1 1",
        (4, 4),
        MendReply::Done,
        COUNTS_OF_H,
    ),
    (
        "H as it is",
        H,
        COUNTS_OF_H,
        (4, 4),
        MendReply::Done,
        COUNTS_OF_H,
    ),
    (
        "H, no such place",
        H,
        COUNTS_OF_H,
        (9, 4),
        MendReply::Place,
        "",
    ),
    (
        "H, no such code",
        H,
        COUNTS_OF_H,
        (4, 3),
        MendReply::NewCode,
        "",
    ),
    ("H, neither", H, COUNTS_OF_H, (9, 3), MendReply::Place, ""),
    (
        "H with the counts of I, and no such place",
        H,
        "1 2 1 / 1 8 1 / 1 9 1",
        (9, 3),
        MendReply::Count { place: 1 },
        "",
    ),
    ("A to absent", "1", "1", (0, 0), MendReply::Done, "0"),
    ("B to land", "255", "0", (0, 32), MendReply::Done, "1"),
    (
        "B to the other absent code",
        "255",
        "0",
        (0, 0),
        MendReply::Done,
        "0",
    ),
    ("C turned back", "1 1 1", "1 2 3", (2, 16), looped(1, 2), ""),
    ("C cut", "1 1 1", "1 2 3", (1, 4), MendReply::Done, "1 2 1"),
    (
        "D joined",
        "1 255 16",
        "1 0 1",
        (1, 4),
        MendReply::Done,
        "1 3 1",
    ),
    ("D to E", "1 255 16", "1 0 1", (1, 16), looped(0, 2), ""),
    (
        "G",
        "1 16 3",
        "7 7 7",
        (9, 9),
        MendReply::Code { place: 2 },
        "",
    ),
];

const fn looped(place: usize, length: usize) -> MendReply {
    MendReply::Loop { place, length }
}

fn hand_outcome(grid: &[u8], change: Change, reply: MendReply, counts: &str) -> Outcome {
    let (number, place, length) = match reply {
        MendReply::Done => (0, 0, 0),
        MendReply::Shape => (1, 0, 0),
        MendReply::Length => (2, 0, 0),
        MendReply::Code { place } => (3, place, 0),
        MendReply::Count { place } => (5, place, 0),
        MendReply::Place => (6, 0, 0),
        MendReply::NewCode => (7, 0, 0),
        MendReply::Loop { place, length } => (4, place, length),
    };
    let (grid, counts) = if reply == MendReply::Done {
        let (place, code) = change;
        let mut changed = grid.to_vec();
        changed[place] = code;
        let (_, _, counts) = notation::read(counts);
        (After::Holds(changed), After::Holds(counts))
    } else {
        (After::AsLent, After::AsLent)
    };
    Outcome {
        number,
        value: independent::values(&[place, length]),
        grid,
        counts,
    }
}

fn run_hand_changes(tally: &mut Tally) -> Result<(), String> {
    for (name, sheet, counts, change, reply, after) in HAND_CHANGES {
        let (rows, cols, grid) = notation::read(sheet);
        let (_, _, counts) = notation::read(counts);
        let expected = hand_outcome(&grid, change, reply, after);
        let sheet = Sheet { rows, cols, grid };
        let call = Call::of(&sheet, &counts);
        hold(tally, call, change, &expected, 1).map_err(|what| format!("{name}: {what}"))?;
    }
    Ok(())
}

/// Changes the cell at this place to each of the codes in turn.
fn each_code(
    tally: &mut Tally,
    call: Call,
    place: usize,
    codes: impl Iterator<Item = u8>,
    seed: u64,
) -> Result<(), String> {
    for code in codes {
        compare(tally, call, (place, code), seed)?;
    }
    Ok(())
}

/// Every change on every sheet of this shape over these codes: all 256 codes at every place if so asked, else the ten
/// good ones at every place, and the bad ones at one place of every third sheet. On a sheet with a loop no counts are
/// right.
fn every_change_of(
    tally: &mut Tally,
    codes: &[u8],
    (rows, cols): (usize, usize),
    all_codes: bool,
) -> Result<(), String> {
    every_grid(codes, (rows * cols) as u32, |grid, number| {
        let grid = grid.to_vec();
        let cells = grid.len();
        let sheet = Sheet { rows, cols, grid };
        let odd_place = number as usize % (3 * cells);
        let Some(counts) = counts_of(&sheet) else {
            let counts: Vec<u32> = (1..=cells as u32).collect();
            for code in [1, 255, 3] {
                let change = (odd_place % cells, code);
                compare_made(tally, Call::of(&sheet, &counts), change, 5, number)?;
            }
            return Ok(());
        };
        let call = Call::of(&sheet, &counts);
        for place in 0..cells {
            if all_codes || place == odd_place {
                each_code(tally, call, place, 0..=255, number)?;
            } else {
                each_code(tally, call, place, GOOD_CODES.into_iter(), number)?;
            }
        }
        Ok(())
    })
}

fn run_every_change_of_small_sheets(tally: &mut Tally) -> Result<(), String> {
    for rows in 1..=6 {
        for cols in 1..=6 / rows {
            let shape = (rows, cols);
            let cells = rows * cols;
            if cells <= 3 || (long_run() && cells <= 4) {
                every_change_of(tally, &GOOD_CODES, shape, true)?;
            } else if cells <= 4 {
                every_change_of(tally, &[1, 4, 16, 128, 255], shape, true)?;
            } else if long_run() {
                every_change_of(tally, &[1, 4, 16, 64, 255], shape, false)?;
            } else {
                every_change_of(tally, &[1, 4, 16, 255], shape, false)?;
            }
        }
    }
    Ok(())
}

fn run_sampled_small_sheets(tally: &mut Tally) -> Result<(), String> {
    let shapes = [
        (2, 3),
        (3, 2),
        (3, 3),
        (1, 8),
        (8, 1),
        (2, 5),
        (5, 2),
        (3, 4),
        (4, 3),
        (4, 4),
        (5, 5),
        (3, 7),
        (7, 3),
    ];
    for (rows, cols) in shapes {
        for number in 0..many(200) {
            let seed = (0x71 << 40) + (((rows * 100 + cols) as u64) << 24) + number;
            let mut draw = Draw::new(seed);
            let sheet = if draw.one_in(2) {
                opened(&mut draw, rows, cols)
            } else {
                any_loop_free(&mut draw, rows, cols)
            };
            let counts = counts_of_loop_free(&sheet);
            let call = Call::of(&sheet, &counts);
            for place in 0..counts.len() {
                each_code(tally, call, place, GOOD_CODES.into_iter(), seed)?;
            }
            each_code(tally, call, draw.below(counts.len()), 0..=255, seed)?;
        }
    }
    Ok(())
}

fn run_changes_of_larger_sheets(tally: &mut Tally) -> Result<(), String> {
    for number in 0..many(2_000) {
        let seed = (0x72 << 40) + number;
        let mut draw = Draw::new(seed);
        let (rows, cols) = any_shape(&mut draw);
        let sheet = any_sheet(&mut draw, rows, cols);
        let counts = counts_of_loop_free(&sheet);
        for _ in 0..6 {
            let change = (draw.below(counts.len()), draw.pick(&GOOD_CODES));
            compare(tally, Call::of(&sheet, &counts), change, seed)?;
        }
    }
    Ok(())
}

/// What becomes of the cell.
#[derive(Clone, Copy, PartialEq, Debug)]
enum Kind {
    ArrowToArrow,
    ArrowToAbsent,
    /// Some cell pointed at it while it was absent.
    PointedAtToArrow,
    NotPointedAtToArrow,
    AbsentToAbsent,
    SameArrow,
    SameAbsent,
}

const KINDS: [Kind; 7] = [
    Kind::ArrowToArrow,
    Kind::ArrowToAbsent,
    Kind::PointedAtToArrow,
    Kind::NotPointedAtToArrow,
    Kind::AbsentToAbsent,
    Kind::SameArrow,
    Kind::SameAbsent,
];

fn kind_of(sheet: &Sheet, (place, code): Change) -> Kind {
    let becomes_land = code.is_power_of_two();
    let same = sheet.grid[place] == code;
    match (sheet.is_land(place), becomes_land) {
        (true, true) if same => Kind::SameArrow,
        (true, true) => Kind::ArrowToArrow,
        (true, false) => Kind::ArrowToAbsent,
        (false, true) if sheet.givers(place).is_empty() => Kind::NotPointedAtToArrow,
        (false, true) => Kind::PointedAtToArrow,
        (false, false) if same => Kind::SameAbsent,
        (false, false) => Kind::AbsentToAbsent,
    }
}

/// Every kind of change, as often as any other, and every kind that can close a loop with loops and without.
fn run_every_kind_of_change(tally: &mut Tally) -> Result<(), String> {
    let mut done = [0; KINDS.len()];
    let mut loops = [0; KINDS.len()];
    for number in 0..many(7_000) {
        let seed = (0x73 << 40) + number;
        let mut draw = Draw::new(seed);
        let wanted = number as usize % KINDS.len();
        let (rows, cols) = any_shape(&mut draw);
        let sheet = any_sheet(&mut draw, rows, cols);
        // Not every sheet has a cell for this kind.
        let mut found = None;
        for _ in 0..40 {
            let place = draw.below(sheet.grid.len());
            let code = if draw.one_in(3) {
                sheet.grid[place]
            } else {
                draw.pick(&GOOD_CODES)
            };
            if kind_of(&sheet, (place, code)) == KINDS[wanted] {
                found = Some((place, code));
                break;
            }
        }
        let Some(change) = found else {
            continue;
        };
        let counts = counts_of_loop_free(&sheet);
        let call = Call::of(&sheet, &counts);
        match compare(tally, call, change, seed)? {
            0 => done[wanted] += 1,
            _ => loops[wanted] += 1,
        }
        if matches!(KINDS[wanted], Kind::SameArrow | Kind::SameAbsent) {
            // With the code that is there nothing is altered.
            let as_lent = Outcome {
                number: 0,
                value: [0; 6],
                grid: After::AsLent,
                counts: After::AsLent,
            };
            hold(tally, call, change, &as_lent, seed)?;
        }
    }
    for (wanted, kind) in KINDS.into_iter().enumerate() {
        let (done, loops) = (done[wanted], loops[wanted]);
        println!("mending: {kind:?} {done} times done, {loops} times refused for a loop");
        // Only a cell that changes to an arrow and is pointed at can close a loop.
        let can_close = matches!(kind, Kind::ArrowToArrow | Kind::PointedAtToArrow);
        if done == 0 || (loops > 0) != can_close {
            return Err(format!("{kind:?}: {done} done, {loops} loops"));
        }
    }
    Ok(())
}

/// Changes that close a loop, the longest that the cell can close: rivers turned back onto themselves.
fn run_closed_loops(tally: &mut Tally) -> Result<(), String> {
    let mut longest = 0;
    let mut smaller_place = 0;
    for number in 0..many(4_000) {
        let seed = (0x74 << 40) + number;
        let mut draw = Draw::new(seed);
        let (rows, cols) = any_shape(&mut draw);
        let sheet = any_sheet(&mut draw, rows, cols);
        let counts = counts_of_loop_free(&sheet);
        let mut closed = Sheet {
            rows,
            cols,
            grid: sheet.grid.clone(),
        };
        if !sheets::close_a_loop(&mut draw, &mut closed) {
            continue;
        }
        let differs = |&place: &usize| closed.grid[place] != sheet.grid[place];
        let place = (0..counts.len()).find(differs);
        let place = place.expect("closing a loop changes a cell");
        let change = (place, closed.grid[place]);
        compare_made(tally, Call::of(&sheet, &counts), change, 4, seed)?;
        let changed = independent::count(rows, cols, &closed.grid, counts.len());
        longest = longest.max(changed.value[1]);
        smaller_place += u64::from(changed.value[0] < place as u64);
    }
    println!("mending: the longest loop refused has {longest} cells; {smaller_place} loops begin before the changed cell");
    if longest < 100 || smaller_place < 100 {
        return Err("the loops are too short or too much alike".to_string());
    }
    Ok(())
}

/// Places beyond the sheet, also such as are on it again if cut to 32 bits.
fn places_beyond(cells: usize) -> [usize; 8] {
    [
        cells,
        cells + 1,
        2 * cells,
        1 << 24,
        1 << 32,
        (1 << 32) + cells - 1,
        1 << 63,
        usize::MAX,
    ]
}

/// The order of the refusals 5, 6, 7 and 4: all cases of right and wrong for each of them.
fn run_places_and_new_codes(tally: &mut Tally) -> Result<(), String> {
    let bad_codes = every_bad_code();
    for number in 0..many(600) {
        let seed = (0x75 << 40) + number;
        let mut draw = Draw::new(seed);
        let (rows, cols) = any_shape(&mut draw);
        let sheet = any_sheet(&mut draw, rows, cols);
        let right = counts_of_loop_free(&sheet);
        let cells = right.len();
        let mut wrong = right.clone();
        let damaged = draw.below(cells);
        wrong[damaged] = wrong[damaged].wrapping_add(draw.pick(&[1, 2, u32::MAX, 1 << 31]));
        // A code that closes a loop, if one was found.
        let mut closed = Sheet {
            rows,
            cols,
            grid: sheet.grid.clone(),
        };
        let closes = sheets::close_a_loop(&mut draw, &mut closed);
        let place = (0..cells)
            .find(|&place| closed.grid[place] != sheet.grid[place])
            .unwrap_or(draw.below(cells));
        let closing = closed.grid[place];
        let bad = draw.pick(&bad_codes);

        let mut held = |counts: &[u32], change: Change, number: u32| {
            compare_made(tally, Call::of(&sheet, counts), change, number, seed)
        };
        held(&right, (place, closing), if closes { 4 } else { 0 })?;
        held(&right, (place, bad), 7)?;
        held(&wrong, (place, closing), 5)?;
        held(&wrong, (place, sheet.grid[place]), 5)?;
        held(&wrong, (damaged, 255), 5)?;
        held(&wrong, (place, bad), 5)?;
        for beyond in places_beyond(cells) {
            let beyond = beyond.max(cells);
            held(&right, (beyond, closing), 6)?;
            held(&right, (beyond, bad), 6)?;
            held(&wrong, (beyond, closing), 5)?;
            held(&wrong, (beyond, bad), 5)?;
        }
    }
    Ok(())
}

/// Counts that were damaged before the change: refused, wherever the damage and the change are.
fn run_damaged_counts(tally: &mut Tally) -> Result<(), String> {
    for (rows, cols) in [(1, 1), (1, 4), (4, 1), (2, 3), (3, 3), (4, 4)] {
        for number in 0..many(40) {
            let seed = (0x76 << 40) + (((rows * 100 + cols) as u64) << 24) + number;
            let mut draw = Draw::new(seed);
            let sheet = any_sheet(&mut draw, rows, cols);
            let right = counts_of_loop_free(&sheet);
            for damaged in 0..right.len() {
                let mut counts = right.clone();
                counts[damaged] = counts[damaged].wrapping_add(draw.pick(&[1, u32::MAX, 7]));
                for place in 0..=right.len() {
                    for code in [draw.pick(&GOOD_CODES), 255, draw.word() as u8] {
                        let call = Call::of(&sheet, &counts);
                        compare_made(tally, call, (place, code), 5, seed)?;
                    }
                }
            }
        }
    }
    Ok(())
}

/// A bad code in the grid comes before all but shape and length, also at the cell to change.
fn run_bad_codes(tally: &mut Tally) -> Result<(), String> {
    let bad_codes = every_bad_code();
    for &bad in &bad_codes {
        for number in 0..many(8) {
            let seed = (0x77 << 40) + ((bad as u64) << 32) + number;
            let mut draw = Draw::new(seed);
            let (rows, cols) = any_shape(&mut draw);
            let mut sheet = any_sheet(&mut draw, rows, cols);
            let mut counts = counts_of_loop_free(&sheet);
            let cells = counts.len();
            let place = match number {
                0 => 0,
                1 => cells - 1,
                _ => draw.below(cells),
            };
            sheet.grid[place] = bad;
            if draw.one_in(2) {
                sheet.grid[draw.within(place, cells - 1)] = draw.pick(&bad_codes);
            }
            if draw.one_in(2) {
                counts[draw.below(cells)] = draw.word() as u32;
            }
            for change in [
                (place, draw.pick(&GOOD_CODES)),
                (place, bad),
                (draw.below(cells), draw.word() as u8),
                (draw.pick(&places_beyond(cells)), draw.word() as u8),
            ] {
                compare_made(tally, Call::of(&sheet, &counts), change, 3, seed)?;
            }
        }
    }
    Ok(())
}

fn run_wrong_lengths(tally: &mut Tally) -> Result<(), String> {
    for (rows, cols) in SHAPES {
        let right = rows * cols;
        let lengths = odd_lengths(rows, cols);
        for grid_len in lengths {
            for counts_len in lengths {
                let seed = (0x78 << 40) + ((grid_len << 16) + counts_len) as u64;
                let mut draw = Draw::new(seed);
                // No land and right counts, good codes and wrong counts, bytes that are bad codes for the greater part:
                // the length comes before all refusals but that of the shape.
                for kind in 0..3 {
                    let grid: Vec<u8> = (0..grid_len)
                        .map(|_| match kind {
                            0 => 255,
                            1 => draw.pick(&GOOD_CODES),
                            _ => draw.word() as u8,
                        })
                        .collect();
                    let counts = vec![kind as u32; counts_len];
                    let call = Call {
                        rows,
                        cols,
                        grid: &grid,
                        counts: &counts,
                    };
                    let change = (draw.below(2 * right), draw.pick(&[1, 255, 3]));
                    let number = compare(tally, call, change, seed + kind)?;
                    if (number == 2) != (grid_len != right || counts_len != right) {
                        return Err(format!(
                            "lengths {grid_len} and {counts_len} of {rows} by {cols} have reply {number}"
                        ));
                    }
                }
            }
        }
    }
    Ok(())
}

fn run_sides(tally: &mut Tally) -> Result<(), String> {
    for rows in ODD_SIDES {
        for cols in ODD_SIDES {
            let seed = (0x79 << 40) ^ (rows as u64).rotate_left(20) ^ cols as u64;
            let mut draw = Draw::new(seed);
            // The length that fits, also where the product is beyond 64 bits and what is left of it fits; a few cells
            // where so large a buffer cannot be had.
            let fitting = rows.wrapping_mul(cols);
            let cells = if fitting <= 400_000 { fitting } else { 6 };
            for codes in [&[255][..], &GOOD_CODES, &[3, 1, 4, 16]] {
                let grid: Vec<u8> = (0..cells).map(|_| draw.pick(codes)).collect();
                for counts_len in [cells, cells + 1] {
                    let counts = vec![0; counts_len];
                    let call = Call {
                        rows,
                        cols,
                        grid: &grid,
                        counts: &counts,
                    };
                    let change = (draw.below(cells + 2), draw.pick(&[1, 255, 3]));
                    let number = compare(tally, call, change, seed)?;
                    let within = |side| (1..=4096).contains(&side);
                    if (number == 1) == (within(rows) && within(cols)) {
                        return Err(format!("{rows} by {cols} has reply {number}"));
                    }
                }
            }
        }
    }
    Ok(())
}

/// A thousand changes of one sheet, one after the other, each followed by a check. The first of every so many, and the
/// last, are also held to the sheet counted afresh; the loops always are.
fn chain(tally: &mut Tally, sheet: Sheet, seed: u64) -> Result<(), String> {
    const CHANGES: usize = 1_000;
    let mut draw = Draw::new(!seed);
    let Sheet { rows, cols, .. } = sheet;
    let counts = counts_of_loop_free(&sheet);
    let cells = counts.len();
    let mut grid = Lent::new(&sheet.grid, 4);
    let mut counts = Lent::new(&counts, 0xABCD_EF01);
    let (mut done, mut refused) = (0, 0);
    for number in 0..CHANGES {
        // Now and then a cell becomes absent; mostly one gets an arrow, so that the land does not vanish.
        let place = draw.below(cells);
        let code = if draw.one_in(5) {
            draw.pick(&[0, 255])
        } else {
            draw.pick(&GOOD_CODES[..8])
        };
        let (grid_before, counts_before) = (grid.slice().to_vec(), counts.slice().to_vec());
        let reply = mend(
            rows,
            cols,
            grid.slice_mut(),
            counts.slice_mut(),
            place,
            code,
        );
        let tell = |what: String| {
            format!(
                "change {number}, place {place} to {code}: {what}\n  {rows} by {cols}, before it {}, counts {}, seed {seed:#x}",
                notation::write(cols, &grid_before),
                notation::write(cols, &counts_before)
            )
        };
        let mut changed = grid_before.clone();
        changed[place] = code;
        match reply {
            MendReply::Done => {
                done += 1;
                grid.holds("the grid", &changed).map_err(tell)?;
            }
            MendReply::Loop { .. } => {
                refused += 1;
                grid.holds("the grid", &grid_before).map_err(tell)?;
                counts.holds("the counts", &counts_before).map_err(tell)?;
            }
            other => return Err(tell(format!("{other:?}"))),
        }
        let checked = check(rows, cols, grid.slice(), counts.slice());
        if checked != CheckReply::Done {
            return Err(tell(format!(
                "{reply:?}, and then the check says {checked:?}"
            )));
        }
        let whole = number % 50 == 0 || number == CHANGES - 1;
        if whole || matches!(reply, MendReply::Loop { .. }) {
            let expected = independent::mend(rows, cols, &grid_before, &counts_before, place, code);
            if reply != named(&expected) {
                return Err(tell(format!("{reply:?}, expected {:?}", named(&expected))));
            }
            let counts_after = expected.counts.given(&counts_before);
            counts.holds("the counts", counts_after).map_err(tell)?;
            tally.outcomes += 1;
            tally.replies[expected.number as usize] += 1;
            tally.cells += if expected.number == 0 {
                cells as u64
            } else {
                0
            };
        }
    }
    if done < CHANGES / 4 || (cells > 20 && refused == 0) {
        return Err(format!(
            "{done} changes done, {refused} refused: seed {seed:#x}"
        ));
    }
    Ok(())
}

fn run_chains(tally: &mut Tally) -> Result<(), String> {
    let shapes = [
        (1, 1),
        (1, 60),
        (60, 1),
        (2, 2),
        (3, 3),
        (8, 8),
        (12, 12),
        (7, 31),
        (40, 40),
        (64, 64),
    ];
    for (rows, cols) in shapes {
        for number in 0..many(2) {
            let seed = (0x7A << 40) + (((rows * 100 + cols) as u64) << 24) + number;
            let mut draw = Draw::new(seed);
            let sheet = match number % 2 {
                0 => sheets::winding(&mut draw, rows, cols, Absent(1)),
                _ => any_sheet(&mut draw, rows, cols),
            };
            chain(tally, sheet, seed)?;
        }
    }
    Ok(())
}

/// A river of 100,000 cells and more, changed at its source, at its mouth and between: the counts of all cells below
/// change, or all of them lie on the loop that is refused.
fn run_long_rivers(tally: &mut Tally) -> Result<(), String> {
    let seed = 0x7B << 40;
    let mut draw = Draw::new(seed);
    for (rows, cols) in [(320, 320), (25, 4096), (4096, 25)] {
        let sheet = one_river(rows, cols);
        let counts = counts_of_loop_free(&sheet);
        let call = Call::of(&sheet, &counts);
        let cells = counts.len();
        let with_count = |count: usize| {
            let place = counts.iter().position(|&found| found as usize == count);
            place.expect("the river has every count up to its length")
        };
        for count in [1, 2, 3, 100, cells / 2, cells - 1, cells] {
            let place = with_count(count);
            compare_made(tally, call, (place, 255), 0, seed)?;
            each_code(tally, call, place, GOOD_CODES[..8].iter().copied(), seed)?;
        }
    }

    // The round of all cells, open at one cell, which is the source, the mouth, or absent: to close it is refused, with
    // all the cells on the loop.
    let round = one_round(320, 320);
    let cells = round.grid.len();
    for _ in 0..many(3) {
        let place = draw.below(cells);
        let closing = round.grid[place];
        for open in [0, 255] {
            let mut sheet = one_round(320, 320);
            sheet.grid[place] = open;
            let counts = counts_of_loop_free(&sheet);
            let expected = Outcome {
                number: 4,
                value: [0, cells as u64, 0, 0, 0, 0],
                grid: After::AsLent,
                counts: After::AsLent,
            };
            let call = Call::of(&sheet, &counts);
            hold(tally, call, (place, closing), &expected, seed)?;
            compare_made(tally, call, (place, closing), 4, seed)?;
        }
    }

    // Long rivers among others.
    for number in 0..many(10) {
        let relief = if number % 2 == 0 {
            Relief::Slope
        } else {
            Relief::Rough
        };
        let sheet = match number % 3 {
            0 => sheets::downhill(&mut draw, 300, 400, Absent(4), relief),
            _ => sheets::winding(&mut draw, 400, 300, Absent(number as usize % 2)),
        };
        let counts = counts_of_loop_free(&sheet);
        for _ in 0..4 {
            let change = (draw.below(counts.len()), draw.pick(&GOOD_CODES));
            compare(tally, Call::of(&sheet, &counts), change, seed)?;
        }
    }
    Ok(())
}

/// The greatest sheet: its river of all cells shortened at its source, and closed to a loop of all cells.
fn run_greatest_sheet(tally: &mut Tally) -> Result<(), String> {
    let seed = 0x7C << 40;
    let sheet = one_river(4096, 4096);
    let counts = counts_of_loop_free(&sheet);
    let source = counts.iter().position(|&count| count == 1);
    let source = source.expect("the river has a source");
    // From its source, the west end of the last row, straight to the north, where it comes by 8,191 cells later.
    compare_made(tally, Call::of(&sheet, &counts), (source, 64), 0, seed)?;
    if long_run() {
        compare_made(tally, Call::of(&sheet, &counts), (source, 0), 0, seed)?;
    }

    let mut sheet = one_round(4096, 4096);
    let cells = sheet.grid.len();
    let place = cells / 2 + 77;
    let closing = std::mem::replace(&mut sheet.grid[place], 255);
    let counts = counts_of_loop_free(&sheet);
    let expected = Outcome {
        number: 4,
        value: [0, cells as u64, 0, 0, 0, 0],
        grid: After::AsLent,
        counts: After::AsLent,
    };
    let change = (place, closing);
    hold(tally, Call::of(&sheet, &counts), change, &expected, seed)
}

static HAND: Group = Group::new("hand changes", run_hand_changes);
static EVERY_CHANGE: Group = Group::new(
    "every change of small sheets",
    run_every_change_of_small_sheets,
);
static SAMPLED_SMALL: Group = Group::new("sampled small sheets", run_sampled_small_sheets);
static LARGER: Group = Group::new("changes of larger sheets", run_changes_of_larger_sheets);
static KINDS_OF_CHANGE: Group = Group::new("every kind of change", run_every_kind_of_change);
static CLOSED_LOOPS: Group = Group::new("closed loops", run_closed_loops);
static PLACES: Group = Group::new("places and new codes", run_places_and_new_codes);
static DAMAGED: Group = Group::new("damaged counts", run_damaged_counts);
static BAD_CODES: Group = Group::new("bad codes", run_bad_codes);
static WRONG_LENGTHS: Group = Group::new("wrong lengths", run_wrong_lengths);
static SIDES: Group = Group::new("sides", run_sides);
static CHAINS: Group = Group::new("chains", run_chains);
static LONG_RIVERS: Group = Group::new("long rivers", run_long_rivers);
static GREATEST: Group = Group::new("greatest sheet", run_greatest_sheet);

#[test]
fn hand_changes() {
    HAND.passes();
}

#[test]
fn every_change_of_small_sheets() {
    EVERY_CHANGE.passes();
}

#[test]
fn sampled_small_sheets() {
    SAMPLED_SMALL.passes();
}

#[test]
fn changes_of_larger_sheets() {
    LARGER.passes();
}

#[test]
fn every_kind_of_change() {
    KINDS_OF_CHANGE.passes();
}

#[test]
fn closed_loops() {
    CLOSED_LOOPS.passes();
}

#[test]
fn places_and_new_codes() {
    PLACES.passes();
}

#[test]
fn damaged_counts() {
    DAMAGED.passes();
}

#[test]
fn bad_codes() {
    BAD_CODES.passes();
}

#[test]
fn wrong_lengths() {
    WRONG_LENGTHS.passes();
}

#[test]
fn sides() {
    SIDES.passes();
}

#[test]
fn chains() {
    CHAINS.passes();
}

#[test]
fn long_rivers() {
    LONG_RIVERS.passes();
}

#[test]
fn greatest_sheet() {
    GREATEST.passes();
}

#[test]
fn every_reply_is_reached() {
    let whole = whole_tally(&[
        &HAND,
        &EVERY_CHANGE,
        &SAMPLED_SMALL,
        &LARGER,
        &KINDS_OF_CHANGE,
        &CLOSED_LOOPS,
        &PLACES,
        &DAMAGED,
        &BAD_CODES,
        &WRONG_LENGTHS,
        &SIDES,
        &CHAINS,
        &LONG_RIVERS,
        &GREATEST,
    ]);
    println!(
        "mending: {} changes compared, {} cells in the sheets mended",
        whole.outcomes, whole.cells
    );
    for (number, name) in [
        (0, "done"),
        (1, "shape"),
        (2, "length"),
        (3, "code"),
        (5, "count"),
        (6, "place"),
        (7, "new code"),
        (4, "loop"),
    ] {
        let times = whole.replies[number];
        println!("mending: reply {number} {name} {times} times");
        assert!(times > 0, "reply {number} {name} was not reached");
    }
}

#[test]
fn empty_slices_are_refused() {
    assert_eq!(mend(1, 1, &mut [], &mut [], 0, 1), MendReply::Length);
    assert_eq!(mend(0, 0, &mut [], &mut [], 0, 1), MendReply::Shape);
    let side = 1 << 32;
    assert_eq!(mend(side, side, &mut [], &mut [], 0, 1), MendReply::Shape);
    let (mut grid, mut counts) = ([1], [1]);
    assert_eq!(mend(1, 1, &mut [], &mut counts, 0, 4), MendReply::Length);
    assert_eq!(mend(1, 1, &mut grid, &mut [], 0, 4), MendReply::Length);
    assert_eq!((grid, counts), ([1], [1]));
}

/// The independent counter is itself held to the changes worked by hand.
#[test]
fn the_independent_counter_knows_the_hand_changes() {
    for (name, sheet, counts, change, reply, after) in HAND_CHANGES {
        let (rows, cols, grid) = notation::read::<u8>(sheet);
        let (_, _, counts) = notation::read::<u32>(counts);
        let (place, code) = change;
        let found = independent::mend(rows, cols, &grid, &counts, place, code);
        let expected = hand_outcome(&grid, change, reply, after);
        assert_eq!(named(&found), reply, "{name}");
        assert_eq!(found.value, expected.value, "{name}");
        assert_eq!(
            found.grid.given(&grid),
            expected.grid.given(&grid),
            "{name}"
        );
        let counts_after = expected.counts.given(&counts);
        assert_eq!(found.counts.given(&counts), counts_after, "{name}");
    }
}
