//! Takes drawn sheets through all operations, one after the other, and holds these to each other and to the independent
//! counter: counted whole and checked; cut into tiles, recorded, joined and finished; and changed cell by cell, each
//! change mended and counted afresh.
//!
//! It goes on until so many cells have gone through the operations, twenty times as many with DRAINAGE_LONG=1. Seeds are
//! fixed. A difference is told on the smallest part of its sheet that was found to show it.

mod common;

use common::calls::{count_sheet, finish_tile, join_records, write_record};
use common::cuts::{any_cut, Cut};
use common::draw::Draw;
use common::group::long_run;
use common::independent;
use common::kinds::any_good_sheet;
use common::notation;
use common::sheets::{any_shape, Sheet, GOOD_CODES};
use common::tile::border_places;
use drainage::{
    check, mend, CheckReply, CountReply, FinishReply, JoinReply, MendReply, RecordReply,
};
use std::fmt::{self, Display, Formatter};
use std::ops::Range;
use std::time::Instant;

/// What was compared. Of each operation it is the cells that it took, of joining the border cells.
#[derive(Default)]
struct Figures {
    sheets: u64,
    counted: u64,
    checked: u64,
    recorded: u64,
    joined: u64,
    finished: u64,
    mended: u64,
    cuts: u64,
    whole_loops: u64,
    tile_loops: u64,
    mosaic_loops: u64,
    changes_done: u64,
    changes_refused: u64,
}

impl Figures {
    fn cells(&self) -> u64 {
        self.counted + self.checked + self.recorded + self.joined + self.finished + self.mended
    }
}

impl Display for Figures {
    fn fmt(&self, to: &mut Formatter) -> fmt::Result {
        write!(
            to,
            "together: {} sheets, {} of them with a loop; ",
            self.sheets, self.whole_loops
        )?;
        write!(
            to,
            "cells counted {}, checked {}, recorded {}, joined {}, finished {}, mended {}; ",
            self.counted, self.checked, self.recorded, self.joined, self.finished, self.mended
        )?;
        write!(
            to,
            "{} times cut into tiles, {} refused for a loop in a tile and {} for one over tiles; ",
            self.cuts, self.tile_loops, self.mosaic_loops
        )?;
        write!(
            to,
            "{} changes mended, {} refused for a loop; {} cells in all, 0 differences",
            self.changes_done,
            self.changes_refused,
            self.cells()
        )
    }
}

/// What counting a sheet of good codes comes to.
#[derive(PartialEq, Debug)]
enum Counted {
    Counts(Vec<u32>),
    Loop { place: usize, length: usize },
}

fn copy(sheet: &Sheet) -> Sheet {
    let grid = sheet.grid.clone();
    Sheet { grid, ..*sheet }
}

/// What differs, with the sheet as the paper writes sheets, so that it can be read again.
fn tell(sheet: &Sheet, what: String) -> String {
    let Sheet { rows, cols, grid } = sheet;
    let written = notation::write_whole(*cols, grid);
    format!("{what}\n  on {rows} by {cols}: {written}")
}

/// The first place at which the counts differ, with both.
fn first_difference(found: &[u32], right: &[u32]) -> Option<(usize, u32, u32)> {
    let place = found
        .iter()
        .zip(right)
        .position(|(found, right)| found != right)?;
    Some((place, found[place], right[place]))
}

/// The sheet counted whole, held to the independent counter.
fn counted(figures: &mut Figures, sheet: &Sheet) -> Result<Counted, String> {
    let cells = sheet.grid.len();
    figures.counted += cells as u64;
    let (reply, counts) = count_sheet(sheet);
    let expected = independent::count(sheet.rows, sheet.cols, &sheet.grid, cells);
    let [first, second, third, ..] = independent::sizes(expected.value);
    let named = match expected.number {
        0 => CountReply::Done {
            land: first,
            outlets: second,
            greatest: third as u32,
        },
        4 => CountReply::Loop {
            place: first,
            length: second,
        },
        other => panic!("the independent counter gives {other} for a sheet of good codes"),
    };
    // After a loop the counts hold 0 throughout.
    let differs = first_difference(&counts, expected.counts.given(&[]));
    if reply != named || differs.is_some() {
        let what =
            format!("counting: {reply:?}, expected {named:?}; place, found and right {differs:?}");
        return Err(tell(sheet, what));
    }
    Ok(match reply {
        CountReply::Loop { place, length } => Counted::Loop { place, length },
        _ => Counted::Counts(counts),
    })
}

/// Checks the counts, which are right; then with one of them spoilt, which mending must refuse as checking does.
fn hold_check(
    figures: &mut Figures,
    draw: &mut Draw,
    sheet: &mut Sheet,
    counts: &mut [u32],
) -> Result<(), String> {
    let (rows, cols) = (sheet.rows, sheet.cols);
    let reply = check(rows, cols, &sheet.grid, counts);
    if reply != CheckReply::Done {
        return Err(tell(sheet, format!("checking the counts: {reply:?}")));
    }
    let spoilt = draw.below(counts.len());
    let right = counts[spoilt];
    counts[spoilt] = right.wrapping_add(draw.pick(&[1, u32::MAX, 1 << 31, 77]));
    // Two cells show it: the spoilt one, and the one that it gives to.
    let place = sheet.next(spoilt).map_or(spoilt, |next| next.min(spoilt));
    let reply = check(rows, cols, &sheet.grid, counts);
    let to_absent = mend(rows, cols, &mut sheet.grid, counts, spoilt, 255);
    figures.checked += 2 * counts.len() as u64;
    figures.mended += counts.len() as u64;
    if reply != (CheckReply::Count { place }) || to_absent != (MendReply::Count { place }) {
        let what = format!(
            "the count at {spoilt} is {} in place of {right}: checking {reply:?}, mending {to_absent:?}, expected at {place}",
            counts[spoilt]
        );
        return Err(tell(sheet, what));
    }
    counts[spoilt] = right;
    Ok(())
}

/// The counts of 0 that a loop leaves are not to pass for dry land: the first land cell shows it.
fn hold_check_of_none(figures: &mut Figures, sheet: &Sheet) -> Result<(), String> {
    let cells = sheet.grid.len();
    figures.checked += cells as u64;
    let reply = check(sheet.rows, sheet.cols, &sheet.grid, &vec![0; cells]);
    let first = (0..cells).find(|&place| sheet.is_land(place));
    match reply {
        CheckReply::Count { place } if Some(place) == first => Ok(()),
        _ => Err(tell(
            sheet,
            format!("checking counts of 0: {reply:?}, expected at {first:?}"),
        )),
    }
}

/// An allowed cut of the sheet, into few tiles or into many.
fn few_or_many_tiles(draw: &mut Draw, sheet: &Sheet) -> Cut {
    let least = sheet.rows.div_ceil(256) * sheet.cols.div_ceil(256);
    let most = draw.pick(&[4, 9, 20, 64]).max(least);
    any_cut(draw, sheet.rows, sheet.cols, most)
}

/// Follows the water of a cell till it comes round to the cell again, if it does: how many cells it passes, and how
/// often it goes from tile to tile.
fn round(sheet: &Sheet, cut: &Cut, start: Option<&usize>) -> Option<(usize, usize)> {
    let &start = start?;
    let number_of = |sizes: &[usize], at: usize| {
        let mut end = 0;
        sizes.iter().position(|size| {
            end += size;
            at < end
        })
    };
    let tile = |place: usize| {
        (
            number_of(&cut.heights, place / sheet.cols),
            number_of(&cut.widths, place % sheet.cols),
        )
    };
    let (mut place, mut length, mut exits) = (start, 0, 0);
    while length < sheet.grid.len() {
        let next = sheet.next(place)?;
        length += 1;
        exits += usize::from(tile(next) != tile(place));
        if next == start {
            return Some((length, exits));
        }
        place = next;
    }
    None
}

/// Takes the sheet through the three steps in tiles: refused for a loop exactly where the whole is, and else each
/// tile's counts are those of the whole.
fn hold_tiles(
    figures: &mut Figures,
    sheet: &Sheet,
    cut: &Cut,
    whole: &Counted,
) -> Result<(), String> {
    let tell = |what: String| {
        tell(
            sheet,
            format!("{what}\n  cut {:?} by {:?}", cut.heights, cut.widths),
        )
    };
    figures.cuts += 1;
    let places = cut.tiles();
    let tiles = cut.sheets(&sheet.grid);
    let mut records = Vec::new();
    let mut loops = 0;
    for (number, tile) in tiles.iter().enumerate() {
        let (reply, bytes) = write_record(tile, cut.position(number));
        figures.recorded += tile.grid.len() as u64;
        match reply {
            RecordReply::Done => records.extend(bytes),
            RecordReply::Loop { place, length }
                if round(sheet, cut, places[number].2.get(place)) == Some((length, 0)) =>
            {
                loops += 1;
            }
            other => return Err(tell(format!("the record of tile {number}: {other:?}"))),
        }
    }
    if loops > 0 {
        figures.tile_loops += 1;
        return match whole {
            Counted::Loop { .. } => Ok(()),
            Counted::Counts(_) => Err(tell(format!("loops in {loops} tiles, none on the whole"))),
        };
    }

    let (reply, incoming) = join_records(cut, &records);
    figures.joined += incoming.len() as u64;
    let right = match (reply, whole) {
        (JoinReply::Done, Counted::Counts(counts)) => counts,
        (
            JoinReply::Loop {
                tile,
                border,
                exits,
            },
            Counted::Loop { .. },
        ) => {
            // The water of the exit that is named comes round to it over so many exits.
            figures.mosaic_loops += 1;
            let exit = places.get(tile).and_then(|(rows, cols, places)| {
                let &place = border_places(*rows, *cols).get(border)?;
                places.get(place)
            });
            return match round(sheet, cut, exit) {
                Some((_, found)) if found == exits => Ok(()),
                other => Err(tell(format!("joining: {reply:?}, but round it {other:?}"))),
            };
        }
        _ => return Err(tell(format!("joining: {reply:?}, but the whole differs"))),
    };

    let mut rest = &incoming[..];
    for (number, tile) in tiles.iter().enumerate() {
        let (of_this, of_others) = rest.split_at(border_places(tile.rows, tile.cols).len());
        rest = of_others;
        let (reply, counts) = finish_tile(tile, of_this);
        figures.finished += counts.len() as u64;
        let differs = counts
            .iter()
            .zip(&places[number].2)
            .position(|(&count, &place)| count != right[place]);
        if reply != FinishReply::Done || differs.is_some() {
            return Err(tell(format!(
                "finishing tile {number}: {reply:?}, other than the whole at {differs:?}"
            )));
        }
    }
    Ok(())
}

/// A cell and its new code: any cell, or one further down its water, where the rivers are.
fn any_change(draw: &mut Draw, sheet: &Sheet) -> (usize, u8) {
    let mut place = draw.below(sheet.grid.len());
    for _ in 0..draw.pick(&[0, 0, 1, 5, 40]) {
        place = sheet.next(place).unwrap_or(place);
    }
    // Now and then a cell becomes absent; mostly one gets an arrow, so that the land does not vanish.
    let codes = if draw.one_in(5) {
        &GOOD_CODES[8..]
    } else {
        &GOOD_CODES[..8]
    };
    (place, draw.pick(codes))
}

/// Changes one cell by mending, held to the changed sheet counted afresh, whose counts or loop is the answer.
fn hold_change(
    figures: &mut Figures,
    sheet: &mut Sheet,
    counts: &mut [u32],
    (place, code): (usize, u8),
) -> Result<Counted, String> {
    let (rows, cols) = (sheet.rows, sheet.cols);
    let (before, counts_before) = (copy(sheet), counts.to_vec());
    let mut changed = copy(sheet);
    changed.grid[place] = code;
    let afresh = counted(figures, &changed)?;
    let reply = mend(rows, cols, &mut sheet.grid, counts, place, code);
    figures.mended += counts.len() as u64;
    let (named, grid_after, counts_after) = match &afresh {
        Counted::Counts(right) => (MendReply::Done, &changed.grid, right),
        &Counted::Loop { place, length } => (
            MendReply::Loop { place, length },
            &before.grid,
            &counts_before,
        ),
    };
    let differs = first_difference(counts, counts_after);
    if reply != named || sheet.grid != *grid_after || differs.is_some() {
        let what = format!(
            "mending, place {place} to {code}: {reply:?}, expected {named:?}; place, found and right {differs:?}"
        );
        return Err(tell(&before, what));
    }
    match afresh {
        Counted::Counts(_) => figures.changes_done += 1,
        Counted::Loop { .. } => figures.changes_refused += 1,
    }
    Ok(afresh)
}

/// A series of changes, mended one after the other; from time to time the sheet is checked and tiled again.
fn hold_changes(
    figures: &mut Figures,
    draw: &mut Draw,
    sheet: &mut Sheet,
    counts: &mut [u32],
) -> Result<(), String> {
    let changes = (60_000 / counts.len()).clamp(2, 40);
    for number in 1..=changes {
        let change = any_change(draw, sheet);
        hold_change(figures, sheet, counts, change)?;
        if number == changes || draw.one_in(8) {
            hold_check(figures, draw, sheet, counts)?;
            let cut = few_or_many_tiles(draw, sheet);
            hold_tiles(figures, sheet, &cut, &Counted::Counts(counts.to_vec()))?;
        }
    }
    Ok(())
}

/// Opens the loops of a sheet one by one at the places that counting names, and closes the last again, which mending
/// must refuse. The counts of the sheet, unless it has too many loops.
fn open_loops(
    figures: &mut Figures,
    sheet: &mut Sheet,
    first: Counted,
) -> Result<Option<Vec<u32>>, String> {
    const MOST: usize = 20;
    let mut named = first;
    for _ in 0..MOST {
        let Counted::Loop { place, .. } = named else {
            break;
        };
        let closing = std::mem::replace(&mut sheet.grid[place], 255);
        match counted(figures, sheet)? {
            Counted::Counts(mut counts) => {
                let again = hold_change(figures, sheet, &mut counts, (place, closing))?;
                if again != named {
                    return Err(tell(
                        sheet,
                        format!("{named:?} opened and closed again: {again:?}"),
                    ));
                }
                return Ok(Some(counts));
            }
            Counted::Loop {
                place: next,
                length,
            } => {
                if next <= place {
                    return Err(tell(
                        sheet,
                        format!("after the loop at {place} was opened, one at {next}"),
                    ));
                }
                named = Counted::Loop {
                    place: next,
                    length,
                };
            }
        }
    }
    Ok(None)
}

/// Takes a sheet through all operations.
fn hold(figures: &mut Figures, sheet: &Sheet, seed: u64) -> Result<(), String> {
    let mut draw = Draw::new(!seed);
    let mut sheet = copy(sheet);
    figures.sheets += 1;
    let whole = counted(figures, &sheet)?;
    let cut = few_or_many_tiles(&mut draw, &sheet);
    hold_tiles(figures, &sheet, &cut, &whole)?;
    let opened = match whole {
        Counted::Counts(counts) => Some(counts),
        Counted::Loop { .. } => {
            figures.whole_loops += 1;
            hold_check_of_none(figures, &sheet)?;
            open_loops(figures, &mut sheet, whole)?
        }
    };
    if let Some(mut counts) = opened {
        hold_check(figures, &mut draw, &mut sheet, &mut counts)?;
        hold_changes(figures, &mut draw, &mut sheet, &mut counts)?;
    }
    Ok(())
}

/// Of every 200 sheets one has over a thousand cells to a side, some have hundreds, some are one row or one column, and
/// the others are small.
fn any_size(draw: &mut Draw, number: u64) -> (usize, usize) {
    match (number % 200, number % 20) {
        (100, _) => (draw.within(1_001, 1_300), draw.within(1_001, 1_300)),
        (10 | 50 | 90 | 130 | 170, _) => (draw.within(100, 500), draw.within(100, 500)),
        (_, 3) => (1, draw.within(1, 4_096)),
        (_, 13) => (draw.within(1, 4_096), 1),
        _ => any_shape(draw),
    }
}

/// The part of a sheet with these rows and columns.
fn part(sheet: &Sheet, rows: Range<usize>, cols: Range<usize>) -> Sheet {
    let row = |row: usize| &sheet.grid[row * sheet.cols..][cols.clone()];
    Sheet {
        rows: rows.len(),
        cols: cols.len(),
        grid: rows.flat_map(row).copied().collect(),
    }
}

/// What differs on the smallest part of the sheet that was found to differ, by leaving out halves, rows and columns.
fn smallest_difference(mut sheet: Sheet, seed: u64, mut difference: String) -> String {
    'smaller: loop {
        let (rows, cols) = (sheet.rows, sheet.cols);
        for (row, col) in [(rows / 2, cols / 2), (1, 1), (rows - 1, cols - 1)] {
            for (rows, cols) in [
                (0..row, 0..cols),
                (row..rows, 0..cols),
                (0..rows, 0..col),
                (0..rows, col..cols),
            ] {
                let part = part(&sheet, rows, cols);
                if (1..sheet.grid.len()).contains(&part.grid.len()) {
                    if let Err(found) = hold(&mut Figures::default(), &part, seed) {
                        (sheet, difference) = (part, found);
                        continue 'smaller;
                    }
                }
            }
        }
        return difference;
    }
}

#[test]
fn all_operations_agree() {
    let start = Instant::now();
    let goal = if long_run() { 1_000 } else { 50 } * 1_000_000;
    let mut figures = Figures::default();
    while figures.cells() < goal {
        let seed = (0xC1 << 40) + figures.sheets;
        let mut draw = Draw::new(seed);
        let (rows, cols) = any_size(&mut draw, figures.sheets);
        let sheet = any_good_sheet(&mut draw, rows, cols);
        if let Err(difference) = hold(&mut figures, &sheet, seed) {
            let smallest = smallest_difference(sheet, seed, difference);
            panic!("sheet {}, seed {seed:#x}: {smallest}", figures.sheets - 1);
        }
    }
    println!("{figures}, {:.1} s", start.elapsed().as_secs_f64());
    // What was never reached was not tested.
    assert!(figures.tile_loops >= 5 && figures.mosaic_loops >= 5);
    assert!(figures.changes_done >= 1_000 && figures.changes_refused >= 100);
}
