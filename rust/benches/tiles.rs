//! Times the three steps by which a sheet is counted in tiles: `cargo bench --offline --bench tiles`. A number as
//! argument says how many rounds are run, 7 if none does.
//!
//! Writing the record of a tile of the greatest sides, and finishing it, are each held against counting the same tile;
//! and the records, the join and the finishing of a sheet in 64 such tiles together against counting it whole.

#[path = "../tests/common/mod.rs"]
mod common;

use common::cuts::Cut;
use common::draw::Draw;
use common::sheets::{self, Absent, Relief, Sheet};
use drainage::{
    border_cells, count, finish, finish_work, join, join_work, record, record_len, record_work,
    CountReply, FinishReply, JoinReply, RecordReply, JOIN_WORKS,
};
use std::hint::black_box;
use std::time::Instant;

const SIDE: usize = 256;

/// So many tile rows and tile columns.
const TILES: usize = 8;

/// The seconds of one run. What is lent was written before, so that no run pays for fresh memory.
fn seconds<R>(run: impl FnOnce() -> R) -> (f64, R) {
    let start = Instant::now();
    let reply = black_box(run());
    (start.elapsed().as_secs_f64(), reply)
}

fn median(mut times: Vec<f64>) -> f64 {
    times.sort_by(f64::total_cmp);
    times[times.len() / 2]
}

fn print(what: &str, time: f64, count: f64) {
    println!(
        "  {what:<28}{:>10.3} ms   / counting {:.2}",
        1e3 * time,
        time / count
    );
}

/// One tile, counted, recorded and finished so many times in a run, as one time is short.
fn time_tile(name: &str, draw: &mut Draw, tile: &Sheet, rounds: usize) {
    const TIMES: usize = 20;
    let (rows, cols, grid) = (tile.rows, tile.cols, &tile.grid[..]);
    let mut counts = vec![0; grid.len()];
    let mut bytes = vec![0; record_len(rows, cols)];
    let [mut work1, mut work2] = record_work(rows, cols).map(|length| vec![0; length]);
    let mut work = vec![0; finish_work(rows, cols)];
    let places = common::tile::border_places(rows, cols);
    let incoming: Vec<u32> = places
        .into_iter()
        .map(|place| match tile.is_land(place) {
            true => draw.below(1000) as u32,
            false => 0,
        })
        .collect();
    let (mut counting, mut recording, mut finishing) = (vec![], vec![], vec![]);
    for _ in 0..rounds {
        let (time, reply) = seconds(|| {
            (0..TIMES)
                .map(|_| count(rows, cols, black_box(grid), &mut counts))
                .last()
        });
        assert!(matches!(reply, Some(CountReply::Done { .. })), "{reply:?}");
        counting.push(time / TIMES as f64);
        let (time, reply) = seconds(|| {
            (0..TIMES)
                .map(|_| {
                    let work = [&mut work1[..], &mut work2[..]];
                    record(rows, cols, 0, 0, black_box(grid), &mut bytes, work)
                })
                .last()
        });
        assert_eq!(reply, Some(RecordReply::Done), "{name}");
        recording.push(time / TIMES as f64);
        let (time, reply) = seconds(|| {
            (0..TIMES)
                .map(|_| {
                    finish(
                        rows,
                        cols,
                        black_box(grid),
                        &incoming,
                        &mut counts,
                        &mut work,
                    )
                })
                .last()
        });
        assert_eq!(reply, Some(FinishReply::Done), "{name}");
        finishing.push(time / TIMES as f64);
    }
    let (counting, recording) = (median(counting), median(recording));
    println!("{name}: one tile, {rows} by {cols}");
    print("counting", counting, counting);
    print("writing the record", recording, counting);
    print("finishing", median(finishing), counting);
}

/// All that is lent for a mosaic of so many tiles of the greatest sides.
struct Lent {
    records: Vec<u8>,
    record_work: [Vec<u32>; 2],
    incoming: Vec<u32>,
    join_work: [Vec<u32>; JOIN_WORKS],
    counts: Vec<Vec<u32>>,
    finish_work: Vec<u32>,
}

impl Lent {
    fn new(tiles: usize) -> Lent {
        let cells = tiles * border_cells(SIDE, SIDE);
        Lent {
            records: vec![1; tiles * record_len(SIDE, SIDE)],
            record_work: record_work(SIDE, SIDE).map(|length| vec![1; length]),
            incoming: vec![1; cells],
            join_work: join_work(cells).map(|length| vec![1; length]),
            counts: vec![vec![1; SIDE * SIDE]; tiles],
            finish_work: vec![1; finish_work(SIDE, SIDE)],
        }
    }

    fn record_all(&mut self, tiles: &[Sheet]) {
        let bytes = self.records.chunks_mut(record_len(SIDE, SIDE));
        for (number, (tile, bytes)) in tiles.iter().zip(bytes).enumerate() {
            let work = self.record_work.each_mut().map(|work| &mut work[..]);
            let (tile_row, tile_col) = (number / TILES, number % TILES);
            let reply = record(SIDE, SIDE, tile_row, tile_col, &tile.grid, bytes, work);
            assert_eq!(reply, RecordReply::Done);
        }
    }

    fn join_all(&mut self) {
        let work = self.join_work.each_mut().map(|work| &mut work[..]);
        let reply = join(TILES, TILES, &self.records, &mut self.incoming, work);
        assert_eq!(reply, JoinReply::Done);
    }

    fn finish_all(&mut self, tiles: &[Sheet]) {
        let incoming = self.incoming.chunks(border_cells(SIDE, SIDE));
        for ((tile, incoming), counts) in tiles.iter().zip(incoming).zip(&mut self.counts) {
            let work = &mut self.finish_work;
            let reply = finish(SIDE, SIDE, &tile.grid, incoming, counts, work);
            assert_eq!(reply, FinishReply::Done);
        }
    }
}

fn time_mosaic(name: &str, sheet: &Sheet, rounds: usize) {
    let (rows, cols) = (sheet.rows, sheet.cols);
    let cut = Cut::even((TILES, TILES), (SIDE, SIDE));
    let tiles = cut.sheets(&sheet.grid);
    let mut lent = Lent::new(tiles.len());
    let mut counts = vec![1; sheet.grid.len()];
    let (mut counting, mut recording, mut joining, mut finishing, mut all) =
        (vec![], vec![], vec![], vec![], vec![]);
    for _ in 0..rounds {
        let (time, reply) = seconds(|| count(rows, cols, black_box(&sheet.grid), &mut counts));
        counting.push(time);
        if counting.len() == 1 {
            println!(
                "{name}: {rows} by {cols} in {} tiles, {reply:?}",
                tiles.len()
            );
        }
        let (record_time, ()) = seconds(|| lent.record_all(black_box(&tiles)));
        let (join_time, ()) = seconds(|| lent.join_all());
        let (finish_time, ()) = seconds(|| lent.finish_all(black_box(&tiles)));
        recording.push(record_time);
        joining.push(join_time);
        finishing.push(finish_time);
        all.push(record_time + join_time + finish_time);
        assert!(
            cut.together(&lent.counts) == counts,
            "{name}: the counts differ"
        );
    }
    let counting = median(counting);
    print("counting it whole", counting, counting);
    print("writing all records", median(recording), counting);
    print("joining", median(joining), counting);
    print("finishing all tiles", median(finishing), counting);
    print("the three steps", median(all), counting);
}

fn main() {
    // cargo passes --bench among the arguments.
    let rounds = std::env::args().find_map(|word| word.parse().ok());
    let rounds = rounds.unwrap_or(7).max(1);
    println!("Medians of {rounds} rounds, the operations taking turns; all buffers are in memory.");
    println!("The counts, the record, the incoming and the work buffers hold what the run before left in them.");
    let mut draw = Draw::new(16);
    for (name, absent) in [
        ("Half absent", Absent(8)),
        ("One sixteenth absent", Absent(1)),
    ] {
        let downhill = format!("{name}, arrows downhill on random heights");
        let winding = format!("{name}, long winding rivers");
        let tile = sheets::downhill(&mut draw, SIDE, SIDE, absent, Relief::Rough);
        time_tile(&downhill, &mut draw, &tile, rounds);
        let tile = sheets::winding(&mut draw, SIDE, SIDE, absent);
        time_tile(&winding, &mut draw, &tile, rounds);
        let side = TILES * SIDE;
        let sheet = sheets::downhill(&mut draw, side, side, absent, Relief::Rough);
        time_mosaic(&downhill, &sheet, rounds);
        let sheet = sheets::winding(&mut draw, side, side, absent);
        time_mosaic(&winding, &sheet, rounds);
    }
}
