//! Holds sheets counted by tiles, through all three steps, to the sheets counted whole: some step refuses for a loop
//! exactly when the whole sheet has one, and else every count is the same.
//!
//! On the way every record, all that comes in, and every tile's counts are held to the independent ones.

mod common;

use common::calls::{count_sheet, finish_tile, join_records, write_record};
use common::cuts::{any_cut, every_cut, Cut};
use common::draw::Draw;
use common::group::{long_run, many, whole_tally, Group, Tally};
use common::hand::{self, Joined};
use common::independent;
use common::kinds::any_good_sheet;
use common::mosaic::{self, Lengths};
use common::notation;
use common::sheets::{
    self, any_shape, close_a_loop, every_grid, one_river, one_round, Absent, Relief, Sheet,
    GOOD_CODES,
};
use common::tile::{self, border_places, record_lengths};
use drainage::{CountReply, FinishReply, JoinReply, RecordReply};

/// The record of a tile, unless it is refused for a loop.
fn recorded(sheet: &Sheet, position: (usize, usize)) -> Result<Option<Vec<u8>>, String> {
    let (rows, cols) = (sheet.rows, sheet.cols);
    let (reply, bytes) = write_record(sheet, position);
    let lengths = record_lengths(rows, cols);
    let expected = tile::record((rows, cols), position, &sheet.grid, lengths);
    match (reply, expected.number) {
        (RecordReply::Done, 0) if bytes == expected.written.given(&[]) => Ok(Some(bytes)),
        (RecordReply::Loop { .. }, 4) => Ok(None),
        _ => Err(format!(
            "writing the record of tile {position:?}: {reply:?}"
        )),
    }
}

/// What comes in at all border cells, unless joining is refused for a loop.
fn joined(cut: &Cut, records: &[u8]) -> Result<Option<Vec<u32>>, String> {
    let (tile_rows, tile_cols) = cut.tile_counts();
    let (reply, incoming) = join_records(cut, records);
    let lengths = Lengths::of(cut.border_cells());
    let expected = mosaic::join(tile_rows, tile_cols, records, lengths);
    match (reply, expected.number) {
        (JoinReply::Done, 0) if incoming == expected.written.given(&[]) => Ok(Some(incoming)),
        (
            JoinReply::Loop {
                tile,
                border,
                exits,
            },
            4,
        ) if expected.value == independent::values(&[tile, border, exits]) => Ok(None),
        _ => Err(format!("joining: {reply:?}")),
    }
}

/// The finished counts of a tile that has no loop.
fn finished(sheet: &Sheet, incoming: &[u32]) -> Result<Vec<u32>, String> {
    let (rows, cols) = (sheet.rows, sheet.cols);
    let (reply, counts) = finish_tile(sheet, incoming);
    let expected = tile::finish((rows, cols), &sheet.grid, incoming, [counts.len(); 2]);
    if reply == FinishReply::Done && counts == expected.written.given(&[]) {
        Ok(counts)
    } else {
        Err(format!("finishing a tile of {rows} by {cols}: {reply:?}"))
    }
}

/// Where the way of a sheet through the three steps ends.
#[derive(Clone, Copy, PartialEq, Eq, Debug)]
enum End {
    LoopInATile,
    LoopOverTiles,
    Counted,
}

const ENDS: [End; 3] = [End::LoopInATile, End::LoopOverTiles, End::Counted];

/// Takes the tiles of a sheet through the three steps; the counts of the whole sheet, if it comes so far.
fn through_tiles(grid: &[u8], cut: &Cut) -> Result<(End, Vec<u32>), String> {
    let tiles = cut.sheets(grid);
    let mut records = Vec::new();
    for (number, tile) in tiles.iter().enumerate() {
        match recorded(tile, cut.position(number))? {
            Some(bytes) => records.extend(bytes),
            None => return Ok((End::LoopInATile, Vec::new())),
        }
    }
    let Some(incoming) = joined(cut, &records)? else {
        return Ok((End::LoopOverTiles, Vec::new()));
    };
    let mut rest = &incoming[..];
    let mut counts = Vec::new();
    for tile in &tiles {
        let (of_this, of_others) = rest.split_at(border_places(tile.rows, tile.cols).len());
        counts.push(finished(tile, of_this)?);
        rest = of_others;
    }
    Ok((End::Counted, cut.together(&counts)))
}

/// What the whole sheet's counts are, nothing where it has a loop: by the independent counter, and by the library.
fn counted_whole(sheet: &Sheet) -> Result<Option<Vec<u32>>, String> {
    let (rows, cols) = (sheet.rows, sheet.cols);
    let whole = independent::count(rows, cols, &sheet.grid, sheet.grid.len());
    let (reply, counts) = count_sheet(sheet);
    if counts != whole.counts.given(&[]) {
        return Err("the sheet counted whole has other counts".to_string());
    }
    match reply {
        CountReply::Done { .. } => Ok(Some(counts)),
        CountReply::Loop { .. } => Ok(None),
        other => Err(format!("the sheet counted whole has {other:?}")),
    }
}

/// Holds the sheet counted by tiles to its counts, nothing where it has a loop.
fn hold(
    tally: &mut Tally,
    sheet: &Sheet,
    cut: &Cut,
    whole: &Option<Vec<u32>>,
    seed: u64,
) -> Result<End, String> {
    let tell = |what: String| {
        format!(
            "{what}\n  cut {:?} by {:?}, seed {seed:#x}, {}",
            cut.heights,
            cut.widths,
            notation::write(sheet.cols, &sheet.grid)
        )
    };
    let (end, counts) = through_tiles(&sheet.grid, cut).map_err(tell)?;
    match (end, whole) {
        (End::Counted, Some(right)) => {
            if let Some(place) = (0..right.len()).find(|&place| counts[place] != right[place]) {
                return Err(tell(format!(
                    "by tiles {} at place {place}, whole {}",
                    counts[place], right[place]
                )));
            }
            tally.cells += counts.len() as u64;
        }
        (End::LoopInATile | End::LoopOverTiles, None) => (),
        (End::Counted, None) => return Err(tell("the loop was not found".to_string())),
        (_, Some(_)) => return Err(tell(format!("{end:?}, and the sheet has no loop"))),
    }
    tally.outcomes += 1;
    tally.replies[end as usize] += 1;
    Ok(end)
}

/// The same for a sheet in several cuts.
fn hold_cuts(tally: &mut Tally, sheet: &Sheet, cuts: &[Cut], seed: u64) -> Result<(), String> {
    let whole = counted_whole(sheet)?;
    for cut in cuts {
        hold(tally, sheet, cut, &whole, seed)?;
    }
    Ok(())
}

fn run_hand_mosaics(tally: &mut Tally) -> Result<(), String> {
    for hand in hand::MOSAICS {
        let cut = hand.cut();
        let sheet = Sheet {
            rows: cut.rows(),
            cols: cut.cols(),
            grid: hand.grid(),
        };
        let whole = match hand.joined {
            Joined::Done(_, counts) => Some(notation::read(counts).2),
            Joined::Loop(_) => None,
        };
        let end = hold(tally, &sheet, &cut, &whole, 1)
            .map_err(|what| format!("{}: {what}", hand.name))?;
        if end == End::LoopInATile {
            return Err(format!("{}: no tile has a loop by itself", hand.name));
        }
    }
    Ok(())
}

/// Every sheet of a few cells over these codes, cut in every way.
fn run_every_small_sheet(tally: &mut Tally) -> Result<(), String> {
    let few = [1, 4, 16, 64, 255];
    let some = [1, 2, 4, 16, 64, 128, 255];
    let shapes: [(usize, usize, &[u8]); 9] = [
        (1, 1, &GOOD_CODES),
        (1, 2, &GOOD_CODES),
        (2, 1, &GOOD_CODES),
        (1, 3, &some),
        (3, 1, &some),
        (2, 2, if long_run() { &GOOD_CODES } else { &some }),
        (1, 4, &few),
        (2, 3, if long_run() { &few } else { &few[1..] }),
        (3, 2, if long_run() { &few } else { &few[..4] }),
    ];
    for (rows, cols, codes) in shapes {
        let cuts = every_cut(rows, cols);
        every_grid(codes, (rows * cols) as u32, |grid, number| {
            let grid = grid.to_vec();
            hold_cuts(tally, &Sheet { rows, cols, grid }, &cuts, number)
        })?;
    }
    Ok(())
}

/// Sheets of up to four by four cells, and some longer ones, cut in every way.
fn run_every_cut(tally: &mut Tally) -> Result<(), String> {
    let mut shapes: Vec<(usize, usize)> = (1..=4)
        .flat_map(|rows| (1..=4).map(move |cols| (rows, cols)))
        .collect();
    shapes.extend([(1, 7), (7, 1), (2, 6), (5, 3), (5, 5)]);
    for (rows, cols) in shapes {
        let cuts = every_cut(rows, cols);
        for number in 0..many(1 + 10_000 / (cuts.len() * rows * cols) as u64) {
            let seed = (0xB1 << 40) + (((rows * 100 + cols) as u64) << 24) + number;
            let sheet = any_good_sheet(&mut Draw::new(seed), rows, cols);
            hold_cuts(tally, &sheet, &cuts, seed)?;
        }
    }
    Ok(())
}

fn run_larger_sheets(tally: &mut Tally) -> Result<(), String> {
    for number in 0..many(2_000) {
        let seed = (0xB2 << 40) + number;
        let mut draw = Draw::new(seed);
        let (rows, cols) = any_shape(&mut draw);
        let sheet = any_good_sheet(&mut draw, rows, cols);
        let cuts = [4, 20, 64].map(|most| any_cut(&mut draw, rows, cols, most));
        hold_cuts(tally, &sheet, &cuts, seed)?;
    }
    Ok(())
}

/// Sheets of several hundred cells to a side.
fn run_large_sheets(tally: &mut Tally) -> Result<(), String> {
    for number in 0..many(6) {
        let seed = (0xB3 << 40) + number;
        let mut draw = Draw::new(seed);
        let (rows, cols) = (draw.within(200, 700), draw.within(200, 700));
        let mut sheet = match number % 3 {
            0 => sheets::downhill(&mut draw, rows, cols, Absent(1), Relief::Slope),
            1 => sheets::winding(&mut draw, rows, cols, Absent(8)),
            _ => sheets::winding(&mut draw, rows, cols, Absent(1)),
        };
        if number % 4 == 3 {
            close_a_loop(&mut draw, &mut sheet);
        }
        let cut = any_cut(&mut draw, rows, cols, 64);
        hold_cuts(tally, &sheet, &[cut], seed)?;
    }
    Ok(())
}

/// The greatest mosaics: 64 tiles of the greatest sides, the greatest sums of rows and of columns.
fn run_greatest_mosaics(tally: &mut Tally) -> Result<(), String> {
    let seed = 0xB4 << 40;
    let mut draw = Draw::new(seed);
    let square = [Cut::even((8, 8), (256, 256))];
    let winding = sheets::winding(&mut draw, 2048, 2048, Absent(2));
    hold_cuts(tally, &winding, &square, seed)?;
    let high = Cut::even((16, 4), (256, 256));
    let slope = sheets::downhill(&mut draw, 4096, 1024, Absent(1), Relief::Slope);
    hold_cuts(tally, &slope, &[high], seed)?;
    let wide = Cut::even((1, 64), (256, 64));
    hold_cuts(tally, &one_river(256, 4096), &[wide], seed)?;
    if long_run() {
        hold_cuts(tally, &one_river(2048, 2048), &square, seed)?;
        let column = Cut::even((64, 1), (64, 256));
        let winding = sheets::winding(&mut draw, 4096, 256, Absent(0));
        hold_cuts(tally, &winding, &[column], seed)?;
        let broad = Cut::even((4, 16), (256, 256));
        let rough = sheets::downhill(&mut draw, 1024, 4096, Absent(4), Relief::Rough);
        hold_cuts(tally, &rough, &[broad], seed)?;
    }
    // The greatest loop, of all cells: no tile has it.
    let round = one_round(2048, 2048);
    let end = hold(tally, &round, &square[0], &None, seed)?;
    if end != End::LoopOverTiles {
        return Err(format!("the greatest loop: {end:?}"));
    }
    Ok(())
}

static HAND: Group = Group::new("hand mosaics", run_hand_mosaics);
static EVERY_SMALL: Group = Group::new("every small sheet", run_every_small_sheet);
static EVERY_CUT: Group = Group::new("every cut", run_every_cut);
static LARGER: Group = Group::new("larger sheets", run_larger_sheets);
static LARGE: Group = Group::new("large sheets", run_large_sheets);
static GREATEST: Group = Group::new("greatest mosaics", run_greatest_mosaics);

#[test]
fn hand_mosaics() {
    HAND.passes();
}

#[test]
fn every_small_sheet() {
    EVERY_SMALL.passes();
}

#[test]
fn every_cut_of_small_sheets() {
    EVERY_CUT.passes();
}

#[test]
fn larger_sheets() {
    LARGER.passes();
}

#[test]
fn large_sheets() {
    LARGE.passes();
}

#[test]
fn greatest_mosaics() {
    GREATEST.passes();
}

#[test]
fn every_end_is_reached() {
    let whole = whole_tally(&[&HAND, &EVERY_SMALL, &EVERY_CUT, &LARGER, &LARGE, &GREATEST]);
    println!(
        "by tiles: {} cut sheets compared, {} cells counted by tiles and whole",
        whole.outcomes, whole.cells
    );
    for end in ENDS {
        let times = whole.replies[end as usize];
        println!("by tiles: {end:?} {times} times");
        assert!(times >= 1_000, "{end:?} was reached {times} times only");
    }
}
