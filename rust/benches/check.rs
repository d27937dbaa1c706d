//! Times checking of the greatest sheets against a plain check of the same equation in Rust, built at the same
//! optimisation level, and a mend of one cell against the check alone: `cargo bench --offline --bench check`. A number
//! as argument says how many rounds are run, 7 if none does.

#[path = "../tests/common/mod.rs"]
mod common;

use common::draw::Draw;
use common::sheets::{self, Absent, Relief, Sheet, GOOD_CODES};
use drainage::{check, count, mend, CheckReply, CountReply, MendReply};
use std::hint::black_box;
use std::time::Instant;

const SIDE: usize = 4096;

const STEPS: [(u8, isize, isize); 8] = [
    (1, 0, 1),
    (2, 1, 1),
    (4, 1, 0),
    (8, 1, -1),
    (16, 0, -1),
    (32, -1, -1),
    (64, -1, 0),
    (128, -1, 1),
];

fn place_at(rows: usize, cols: usize, row: isize, col: isize) -> Option<usize> {
    let on_the_sheet = row >= 0 && col >= 0 && row < rows as isize && col < cols as isize;
    on_the_sheet.then_some(row as usize * cols + col as usize)
}

/// 1 plus the counts of the cells that give to this one, in 64 bits.
fn made_by_givers(
    (rows, cols): (usize, usize),
    grid: &[u8],
    counts: &[u32],
    (row, col): (isize, isize),
) -> u64 {
    let mut sum = 1;
    for (code, by_row, by_col) in STEPS {
        if let Some(giver) = place_at(rows, cols, row - by_row, col - by_col) {
            if grid[giver] == code {
                sum += u64::from(counts[giver]);
            }
        }
    }
    sum
}

/// The first place that breaks the equation, on a sheet whose shape, lengths and codes are good.
fn first_wrong(rows: usize, cols: usize, grid: &[u8], counts: &[u32]) -> Option<usize> {
    for row in 0..rows {
        for col in 0..cols {
            let place = row * cols + col;
            let right = if grid[place].is_power_of_two() {
                let cell = (row as isize, col as isize);
                made_by_givers((rows, cols), grid, counts, cell)
            } else {
                0
            };
            if u64::from(counts[place]) != right {
                return Some(place);
            }
        }
    }
    None
}

/// All that the library does: tests shape, lengths and codes, then every cell.
fn plain_check(rows: usize, cols: usize, grid: &[u8], counts: &[u32]) -> CheckReply {
    if !(1..=SIDE).contains(&rows) || !(1..=SIDE).contains(&cols) {
        return CheckReply::Shape;
    }
    if grid.len() != rows * cols || counts.len() != rows * cols {
        return CheckReply::Length;
    }
    let good = |code: u8| code == 0 || code == 255 || code.is_power_of_two();
    if let Some(place) = grid.iter().position(|&code| !good(code)) {
        return CheckReply::Code { place };
    }
    match first_wrong(rows, cols, grid, counts) {
        Some(place) => CheckReply::Count { place },
        None => CheckReply::Done,
    }
}

fn seconds<R>(run: impl FnOnce() -> R) -> (f64, R) {
    let start = Instant::now();
    let reply = black_box(run());
    (start.elapsed().as_secs_f64(), reply)
}

fn median(mut times: Vec<f64>) -> f64 {
    times.sort_by(f64::total_cmp);
    times[times.len() / 2]
}

/// The number of cells that the water of a cell passes, itself included.
fn way(sheet: &Sheet, place: usize) -> usize {
    let mut cells = 1;
    let mut passed = place;
    while let Some(next) = sheet.next(passed) {
        passed = next;
        cells += 1;
    }
    cells
}

/// Of many changes from one arrow to another that close no loop, the one with the longest ways, with their cells.
fn longest_change(
    draw: &mut Draw,
    sheet: &mut Sheet,
    counts: &mut [u32],
) -> (usize, u8, usize, usize) {
    let (rows, cols) = (sheet.rows, sheet.cols);
    let mut longest: Option<(usize, u8, usize, usize)> = None;
    let mut places: Vec<(usize, usize)> = (0..200)
        .map(|_| draw.below(sheet.grid.len()))
        .filter(|&place| sheet.is_land(place))
        .map(|place| (way(sheet, place), place))
        .collect();
    places.sort_unstable();
    for (before, place) in places.into_iter().rev().take(10) {
        let old = sheet.grid[place];
        let code = draw.pick(&GOOD_CODES[..8]);
        if code == old || mend(rows, cols, &mut sheet.grid, counts, place, code) != MendReply::Done
        {
            continue;
        }
        let after = way(sheet, place);
        if longest
            .is_none_or(|(_, _, was_before, was_after)| before + after > was_before + was_after)
        {
            longest = Some((place, code, before, after));
        }
        let back = mend(rows, cols, &mut sheet.grid, counts, place, old);
        assert_eq!(back, MendReply::Done, "the old arrow closes no loop");
    }
    longest.expect("a change closes no loop")
}

fn time(name: &str, sheet: &mut Sheet, draw: &mut Draw, rounds: usize) {
    let (rows, cols) = (sheet.rows, sheet.cols);
    let mut counts = vec![0; sheet.grid.len()];
    let counted = count(rows, cols, &sheet.grid, &mut counts);
    assert!(matches!(counted, CountReply::Done { .. }), "{counted:?}");
    println!("{name}: {rows} by {cols}, {counted:?}");

    let (mut library, mut plain, mut whole) = (vec![], vec![], vec![]);
    for _ in 0..rounds {
        let (grid, counts) = (black_box(&sheet.grid[..]), black_box(&counts[..]));
        let (time, reply) = seconds(|| check(rows, cols, grid, counts));
        library.push(time);
        assert_eq!(reply, CheckReply::Done, "{name}");
        let (time, wrong) = seconds(|| first_wrong(rows, cols, grid, counts));
        plain.push(time);
        assert_eq!(wrong, None, "{name}");
        let (time, reply) = seconds(|| plain_check(rows, cols, grid, counts));
        whole.push(time);
        assert_eq!(reply, CheckReply::Done, "{name}");
    }
    let (library, plain, whole) = (median(library), median(plain), median(whole));
    println!("  check, library                              {library:.4} s");
    println!(
        "  plain Rust, only the equation               {plain:.4} s   library / plain {:.2}",
        library / plain
    );
    println!(
        "  plain Rust, with shape, lengths and codes   {whole:.4} s   library / plain {:.2}",
        library / whole
    );

    let (place, code, before, after) = longest_change(draw, sheet, &mut counts);
    // There and back, each time after a check alone, and after a mend that is refused once the check is done.
    let mut codes = [code, sheet.grid[place]].into_iter().cycle();
    let (mut checks, mut refused, mut mends) = (vec![], vec![], vec![]);
    let mut more = vec![];
    for _ in 0..2 * rounds {
        let (check_time, reply) = seconds(|| check(rows, cols, &sheet.grid, &counts));
        assert_eq!(reply, CheckReply::Done, "{name}");
        let (refused_time, reply) =
            seconds(|| mend(rows, cols, &mut sheet.grid, &mut counts, place, 3));
        assert_eq!(reply, MendReply::NewCode, "{name}");
        let code = codes.next().expect("the codes take turns for ever");
        let (mend_time, reply) =
            seconds(|| mend(rows, cols, &mut sheet.grid, &mut counts, place, code));
        assert_eq!(reply, MendReply::Done, "{name}");
        checks.push(check_time);
        refused.push(refused_time);
        mends.push(mend_time);
        more.push(mend_time - check_time);
    }
    println!("  a mend of the cell at {place}, whose old way has {before} cells and whose new one has {after}");
    let least = |times: &[f64]| times.iter().copied().fold(f64::INFINITY, f64::min);
    let least_more = least(&mends) - least(&checks);
    println!(
        "  check alone                                 {:.4} s",
        median(checks)
    );
    println!(
        "  mend refused after its check                {:.4} s",
        median(refused)
    );
    println!(
        "  mend done                                   {:.4} s   microseconds more than the check: {:.0}, between the least times {:.0}",
        median(mends),
        1e6 * median(more),
        1e6 * least_more
    );
}

fn main() {
    // cargo passes --bench among the arguments.
    let rounds = std::env::args().find_map(|word| word.parse().ok());
    let rounds = rounds.unwrap_or(7).max(1);
    println!(
        "Medians of {rounds} rounds of checks and {} of mends, taking turns.",
        2 * rounds
    );
    println!("Differences are medians of the differences of one round.");
    let mut draw = Draw::new(15);
    let mut sheet = sheets::downhill(&mut draw, SIDE, SIDE, Absent(8), Relief::Rough);
    time(
        "Half absent, arrows downhill on random heights",
        &mut sheet,
        &mut draw,
        rounds,
    );
    let mut sheet = sheets::winding(&mut draw, SIDE, SIDE, Absent(8));
    time(
        "Half absent, long winding rivers",
        &mut sheet,
        &mut draw,
        rounds,
    );
}
