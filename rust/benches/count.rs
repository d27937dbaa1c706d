//! Times counting of the greatest sheets against a straightforward look-around counter in plain Rust, built at the same
//! optimisation level: `cargo bench --offline --bench count`. A number as argument says how many rounds are run, 7 if none does.

#[path = "../tests/common/mod.rs"]
mod common;

use common::draw::Draw;
use common::sheets::{self, Absent, Relief, Sheet};
use drainage::{count, CountReply};
use std::hint::black_box;
use std::time::Instant;

const SIDE: usize = 4096;

const STEPS: [(u8, isize, isize); 8] = [
    (1, 0, 1),
    (2, 1, 1),
    (4, 1, 0),
    (8, 1, -1),
    (16, 0, -1),
    (32, -1, -1),
    (64, -1, 0),
    (128, -1, 1),
];

fn step_of(code: u8) -> Option<(isize, isize)> {
    match code {
        1 => Some((0, 1)),
        2 => Some((1, 1)),
        4 => Some((1, 0)),
        8 => Some((1, -1)),
        16 => Some((0, -1)),
        32 => Some((-1, -1)),
        64 => Some((-1, 0)),
        128 => Some((-1, 1)),
        _ => None,
    }
}

fn place_at(rows: usize, cols: usize, row: isize, col: isize) -> Option<usize> {
    let on_the_sheet = row >= 0 && col >= 0 && row < rows as isize && col < cols as isize;
    on_the_sheet.then_some(row as usize * cols + col as usize)
}

/// The sum of the counts of all cells that give to this one, if all of them have theirs.
fn look_around(
    (rows, cols): (usize, usize),
    grid: &[u8],
    counts: &[u32],
    (row, col): (isize, isize),
) -> Option<u32> {
    let mut sum = 0;
    for (code, by_row, by_col) in STEPS {
        if let Some(giver) = place_at(rows, cols, row - by_row, col - by_col) {
            if grid[giver] == code {
                if counts[giver] == 0 {
                    return None;
                }
                sum += counts[giver];
            }
        }
    }
    Some(sum)
}

/// Only counts, on counts that are all 0: scans by place; a land cell without givers gets 1, and from there it goes
/// down while all givers have their counts. (A cell with givers that have theirs was counted when the last of them
/// was, so that one look-around serves for both.)
fn plain_count(rows: usize, cols: usize, grid: &[u8], counts: &mut [u32]) {
    for start_row in 0..rows {
        for start_col in 0..cols {
            let (mut row, mut col) = (start_row as isize, start_col as isize);
            while let Some(place) = place_at(rows, cols, row, col) {
                if counts[place] != 0 {
                    break;
                }
                let Some((by_row, by_col)) = step_of(grid[place]) else {
                    break;
                };
                let Some(sum) = look_around((rows, cols), grid, counts, (row, col)) else {
                    break;
                };
                counts[place] = sum + 1;
                row += by_row;
                col += by_col;
            }
        }
    }
}

/// Where the water of a cell goes, if it goes to a land cell.
fn below(rows: usize, cols: usize, grid: &[u8], place: usize) -> Option<usize> {
    let (by_row, by_col) = step_of(grid[place])?;
    let (row, col) = ((place / cols) as isize, (place % cols) as isize);
    place_at(rows, cols, row + by_row, col + by_col).filter(|&below| step_of(grid[below]).is_some())
}

/// All that the library does: tests shape, lengths and codes, clears the counts, counts, looks for loops and adds up.
fn plain_whole(rows: usize, cols: usize, grid: &[u8], counts: &mut [u32]) -> CountReply {
    if !(1..=SIDE).contains(&rows) || !(1..=SIDE).contains(&cols) {
        return CountReply::Shape;
    }
    if grid.len() != rows * cols || counts.len() != rows * cols {
        return CountReply::Length;
    }
    let good = |code: u8| code == 0 || code == 255 || step_of(code).is_some();
    if let Some(place) = grid.iter().position(|&code| !good(code)) {
        return CountReply::Code { place };
    }
    counts.fill(0);
    plain_count(rows, cols, grid, counts);
    let (mut land, mut outlets, mut greatest) = (0, 0, 0);
    for place in 0..grid.len() {
        if step_of(grid[place]).is_none() {
            continue;
        }
        if counts[place] == 0 {
            let mut length = 1;
            let mut round = below(rows, cols, grid, place);
            while round != Some(place) {
                length += 1;
                round = round.and_then(|place| below(rows, cols, grid, place));
            }
            counts.fill(0);
            return CountReply::Loop { place, length };
        }
        land += 1;
        outlets += usize::from(below(rows, cols, grid, place).is_none());
        greatest = greatest.max(counts[place]);
    }
    CountReply::Done {
        land,
        outlets,
        greatest,
    }
}

/// The seconds of one run on counts that are cleared, and were written before, so that no run pays for fresh memory.
fn seconds<R>(counts: &mut [u32], run: impl FnOnce(&mut [u32]) -> R) -> (f64, R) {
    counts.fill(0);
    let counts = black_box(counts);
    let start = Instant::now();
    let reply = run(counts);
    let seconds = start.elapsed().as_secs_f64();
    (seconds, reply)
}

fn median(mut times: Vec<f64>) -> f64 {
    times.sort_by(f64::total_cmp);
    times[times.len() / 2]
}

fn time(name: &str, sheet: &Sheet, rounds: usize) {
    let (rows, cols, grid) = (sheet.rows, sheet.cols, &sheet.grid[..]);
    let mut by_library = vec![0; grid.len()];
    let mut by_plain = vec![0; grid.len()];
    let mut by_whole = vec![0; grid.len()];
    let (mut library, mut plain, mut whole) = (vec![], vec![], vec![]);
    for _ in 0..rounds {
        let (time, reply) = seconds(&mut by_library, |counts| count(rows, cols, grid, counts));
        library.push(time);
        let (time, ()) = seconds(&mut by_plain, |counts| {
            plain_count(rows, cols, grid, counts)
        });
        plain.push(time);
        let (time, plain_reply) = seconds(&mut by_whole, |counts| {
            plain_whole(rows, cols, grid, counts)
        });
        whole.push(time);
        assert_eq!(reply, plain_reply, "{name}: the replies differ");
        assert!(by_library == by_plain, "{name}: the counts differ");
        assert!(by_library == by_whole, "{name}: the counts differ");
        if library.len() == 1 {
            println!("{name}: {rows} by {cols}, {reply:?}");
        }
    }
    let (library, plain, whole) = (median(library), median(plain), median(whole));
    println!("  library                                     {library:.3} s");
    println!(
        "  plain Rust, only counts                     {plain:.3} s   library / plain {:.2}",
        library / plain
    );
    println!(
        "  plain Rust, with tests, totals and loops    {whole:.3} s   library / plain {:.2}",
        library / whole
    );
}

fn main() {
    // cargo passes --bench among the arguments.
    let rounds = std::env::args().find_map(|word| word.parse().ok());
    let rounds = rounds.unwrap_or(7).max(1);
    println!("Medians of {rounds} rounds, the three taking turns.");
    println!("Before every run the counts are cleared to 0, and they are in memory.");
    let mut draw = Draw::new(14);
    let sheet = sheets::downhill(&mut draw, SIDE, SIDE, Absent(8), Relief::Rough);
    time(
        "Half absent, arrows downhill on random heights",
        &sheet,
        rounds,
    );
    let sheet = sheets::winding(&mut draw, SIDE, SIDE, Absent(8));
    time("Half absent, long winding rivers", &sheet, rounds);
}
