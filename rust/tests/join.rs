//! Holds joining to the independent join: the reply, all its values, and every buffer after the call.
//!
//! Each mosaic is joined twice, through the C interface and through the safe function, each time with other rubbish in
//! the incoming and in the work buffers, and with other guards beside all buffers.

mod common;

use common::cuts::{any_cut, Cut};
use common::draw::Draw;
use common::forged::{self, any_records};
use common::group::{many, whole_tally, Group, Tally};
use common::hand;
use common::independent;
use common::lent::Lent;
use common::mosaic::{self, records_of, Lengths, WORKS};
use common::sheets::{any_loop_free, one_round};
use common::tile::{record_bytes, Outcome, Way};
use drainage::{join, join_work, raw, JoinReply};

/// What a call is lent.
#[derive(Clone, Copy)]
struct Call<'a> {
    tiles: (usize, usize),
    records: &'a [u8],
    lengths: Lengths,
}

fn named(expected: &Outcome<u32>) -> JoinReply {
    let [first, second, third, ..] = independent::sizes(expected.value);
    match expected.number {
        0 => JoinReply::Done,
        8 => JoinReply::Record { byte: first },
        9 => JoinReply::Layout { byte: first },
        2 => JoinReply::Length,
        4 => JoinReply::Loop {
            tile: first,
            border: second,
            exits: third,
        },
        other => panic!("the independent join gives {other}, which is no reply of joining"),
    }
}

/// What is lent to one call, beside what it was before.
struct Buffers {
    records: Lent<u8>,
    incoming: Lent<u32>,
    work: [Lent<u32>; WORKS],
    incoming_before: Vec<u32>,
    work_before: [Vec<u32>; WORKS],
}

impl Buffers {
    fn new(draw: &mut Draw, call: Call) -> Buffers {
        // Rubbish of all kinds, or the same number throughout, 0 among them.
        let same = draw.pick(&[None, Some(u32::MAX), Some(0), Some(1), None]);
        let mut rubbish = |length| {
            let mut number = || same.unwrap_or_else(|| draw.word() as u32);
            (0..length).map(|_| number()).collect::<Vec<u32>>()
        };
        let incoming_before = rubbish(call.lengths.incoming);
        let work_before = call.lengths.work.map(rubbish);
        // The tag of a record as a guard, so that a record could go on there.
        Buffers {
            records: Lent::new(call.records, draw.pick(&[1, 2, 3, 0, 255])),
            incoming: Lent::new(&incoming_before, draw.word() as u32),
            work: work_before
                .each_ref()
                .map(|before| Lent::new(before, draw.word() as u32)),
            incoming_before,
            work_before,
        }
    }

    /// Whether all of them are as they should be after the call.
    fn hold(&self, call: Call, expected: &Outcome<u32>) -> Result<(), String> {
        self.records.holds("the records", call.records)?;
        let incoming = expected.written.given(&self.incoming_before);
        self.incoming.holds("the incoming", incoming)?;
        let works = self.work.iter().zip(&self.work_before);
        for (number, (work, before)) in works.enumerate() {
            work.holds(&format!("work{}", number + 1), &expected.work(before))?;
        }
        Ok(())
    }
}

/// The C function with the work buffers in a list.
fn join_in_c(tiles: (usize, usize), lent: &mut Buffers) -> raw::Reply {
    let [work1, work2, work3, work4, work5] = &mut lent.work;
    // SAFETY: the pointers are those of seven buffers, with their lengths.
    unsafe {
        raw::drainage_join(
            tiles.0,
            tiles.1,
            lent.records.pointer(),
            lent.records.len(),
            lent.incoming.pointer(),
            lent.incoming.len(),
            work1.pointer(),
            work1.len(),
            work2.pointer(),
            work2.len(),
            work3.pointer(),
            work3.len(),
            work4.pointer(),
            work4.len(),
            work5.pointer(),
            work5.len(),
        )
    }
}

/// Above this many bytes records are not written out.
const LEGIBLE: usize = 400;

fn hex(bytes: &[u8]) -> String {
    if bytes.len() > LEGIBLE {
        return format!("({} bytes, too many to write out)", bytes.len());
    }
    bytes.iter().map(|byte| format!("{byte:02X}")).collect()
}

/// Calls the library in both ways and compares with the outcome expected.
fn hold(tally: &mut Tally, call: Call, expected: &Outcome<u32>, seed: u64) -> Result<(), String> {
    let mut draw = Draw::new(!seed);
    let tell = |way: &str, what: String| {
        format!(
            "{way}: {what}\n  {:?} tiles, records {}, {:?}, seed {seed:#x}",
            call.tiles,
            hex(call.records),
            call.lengths
        )
    };

    let mut lent = Buffers::new(&mut draw, call);
    let reply = join_in_c(call.tiles, &mut lent);
    let in_c = |what| tell("drainage_join", what);
    if (reply.number, reply.value) != (expected.number, expected.value) {
        return Err(in_c(format!(
            "reply {} with {:?}, expected {} with {:?}",
            reply.number, reply.value, expected.number, expected.value
        )));
    }
    lent.hold(call, expected).map_err(in_c)?;

    let mut lent = Buffers::new(&mut draw, call);
    let reply = join(
        call.tiles.0,
        call.tiles.1,
        lent.records.slice(),
        lent.incoming.slice_mut(),
        lent.work.each_mut().map(|work| work.slice_mut()),
    );
    let in_rust = |what| tell("join", what);
    if reply != named(expected) {
        return Err(in_rust(format!(
            "{reply:?}, expected {:?}",
            named(expected)
        )));
    }
    lent.hold(call, expected).map_err(in_rust)?;

    tally.outcomes += 1;
    tally.replies[expected.number as usize] += 1;
    if expected.number == 0 {
        tally.cells += call.lengths.incoming as u64;
    }
    Ok(())
}

/// Calls the library and compares with the independent join, whose outcome is the answer.
fn compare(tally: &mut Tally, call: Call, seed: u64) -> Result<Outcome<u32>, String> {
    let (tile_rows, tile_cols) = call.tiles;
    let expected = mosaic::join(tile_rows, tile_cols, call.records, call.lengths);
    hold(tally, call, &expected, seed)?;
    Ok(expected)
}

/// The same for a call that was made so that this is the reply.
fn compare_made(
    tally: &mut Tally,
    call: Call,
    number: u32,
    value: &[usize],
    seed: u64,
) -> Result<(), String> {
    let expected = compare(tally, call, seed)?;
    if (expected.number, expected.value) == (number, independent::values(value)) {
        return Ok(());
    }
    Err(format!(
        "a mosaic made for reply {number} {value:?} has reply {} {:?}: {:?} tiles, seed {seed:#x}, {}",
        expected.number,
        expected.value,
        call.tiles,
        hex(call.records)
    ))
}

/// A mosaic whose records are taken.
struct Good {
    tiles: (usize, usize),
    records: Vec<Vec<u8>>,
    /// How many border cells it has.
    cells: usize,
}

impl Good {
    fn of(cut: &Cut, records: Vec<Vec<u8>>) -> Good {
        Good {
            tiles: cut.tile_counts(),
            records,
            cells: cut.border_cells(),
        }
    }

    /// The records of a sheet without loops.
    fn of_sheet(draw: &mut Draw, cut: &Cut) -> Good {
        let sheet = any_loop_free(draw, cut.rows(), cut.cols());
        Good::of(cut, records_of(&sheet.grid, cut))
    }

    /// Records that no tile need have.
    fn forged(draw: &mut Draw, cut: &Cut) -> Good {
        Good::of(cut, any_records(draw, cut))
    }

    fn bytes(&self) -> Vec<u8> {
        self.records.concat()
    }

    /// The call with these records in place of its own.
    fn call<'a>(&self, records: &'a [u8]) -> Call<'a> {
        Call {
            tiles: self.tiles,
            records,
            lengths: Lengths::of(self.cells),
        }
    }
}

fn run_hand_mosaics(tally: &mut Tally) -> Result<(), String> {
    for hand in hand::MOSAICS {
        let cut = hand.cut();
        let good = Good::of(&cut, records_of(&hand.grid(), &cut));
        hold(tally, good.call(&good.bytes()), &hand.outcome(), 1)
            .map_err(|what| format!("{}: {what}", hand.name))?;
    }
    Ok(())
}

/// Loops that no tile has by itself: rounds of all cells of a sheet.
fn run_loops_over_tiles(tally: &mut Tally) -> Result<(), String> {
    let mut most_exits = 0;
    for number in 0..many(400) {
        let seed = (0xA3 << 40) + number;
        let mut draw = Draw::new(seed);
        let (rows, cols) = (2 * draw.within(1, 8), draw.within(2, 16));
        let sheet = one_round(rows, cols);
        let mut cut = any_cut(&mut draw, rows, cols, 64);
        if cut.tile_counts() == (1, 1) {
            cut.widths = vec![1, cols - 1];
        }
        let good = Good::of(&cut, records_of(&sheet.grid, &cut));
        let joined = compare(tally, good.call(&good.bytes()), seed)?;
        if joined.number != 4 {
            return Err(format!(
                "a round has reply {}: seed {seed:#x}",
                joined.number
            ));
        }
        most_exits = most_exits.max(joined.value[2]);
    }
    println!("joining: the loop with the most exits has {most_exits}");
    if most_exits < 40 {
        return Err("the loops have too few exits".to_string());
    }
    Ok(())
}

/// Small mosaics to be damaged.
fn small_goods(seed: u64) -> Vec<Good> {
    let mut draw = Draw::new(seed);
    let mut goods = Vec::new();
    for (heights, widths) in [
        (&[1][..], &[1][..]),
        (&[1], &[1, 2]),
        (&[2, 1], &[2]),
        (&[2, 3], &[1, 3]),
        (&[3], &[3]),
        (&[1, 1, 1], &[1]),
        (&[4], &[3, 1]),
    ] {
        let cut = Cut::new(heights, widths);
        goods.push(Good::of_sheet(&mut draw, &cut));
        goods.push(Good::forged(&mut draw, &cut));
    }
    goods
}

/// Every byte of small mosaics changed to every other value.
fn run_every_byte_changed(tally: &mut Tally) -> Result<(), String> {
    for number in 0..many(1) {
        let seed = (0xA4 << 40) + number;
        for good in small_goods(seed) {
            let mut records = good.bytes();
            for byte in 0..records.len() {
                let right = records[byte];
                for value in 0..=255 {
                    records[byte] = value;
                    compare(tally, good.call(&records), seed)?;
                }
                records[byte] = right;
            }
        }
    }
    Ok(())
}

/// Small mosaics cut off at every length, with a byte more, with one left out, and with one put in.
fn run_cut_off_and_longer(tally: &mut Tally) -> Result<(), String> {
    for number in 0..many(4) {
        let seed = (0xA5 << 40) + number;
        let mut draw = Draw::new(seed);
        for good in small_goods(seed) {
            let records = good.bytes();
            // The first byte of each field of each record: a field cut short is at fault there.
            let mut firsts = Vec::new();
            let mut at = 0;
            for record in &good.records {
                let cells = (record.len() - 17) / 7;
                firsts.extend([at, at + 11, at + 14 + 4 * cells]);
                at += record.len();
            }
            for length in 0..records.len() {
                let first = firsts.iter().rfind(|&&first| first <= length);
                let first = *first.expect("the first field begins at byte 0");
                let call = good.call(&records[..length]);
                compare_made(tally, call, 8, &[first], seed)?;
            }
            for value in [0, 1, 2, 3, 255] {
                let longer = [&records[..], &[value]].concat();
                compare_made(tally, good.call(&longer), 8, &[records.len()], seed)?;
            }
            let last = good.records.last().expect("there is a record");
            let longer = [&records[..], last].concat();
            compare_made(tally, good.call(&longer), 8, &[records.len()], seed)?;
            for byte in 0..records.len() {
                let mut changed = records.clone();
                changed.remove(byte);
                compare(tally, good.call(&changed), seed)?;
                let mut changed = records.clone();
                changed.insert(byte, draw.pick(&[0, 1, 2, 3, 4, 255, records[byte]]));
                compare(tally, good.call(&changed), seed)?;
            }
        }
    }
    Ok(())
}

/// Larger mosaics with some bytes changed, some whole ways or counts, and records in another order.
fn run_damaged_records(tally: &mut Tally) -> Result<(), String> {
    for number in 0..many(8_000) {
        let seed = (0xA6 << 40) + number;
        let mut draw = Draw::new(seed);
        let (rows, cols) = (draw.within(1, 14), draw.within(1, 14));
        let cut = any_cut(&mut draw, rows, cols, 16);
        let mut good = if draw.one_in(2) {
            Good::of_sheet(&mut draw, &cut)
        } else {
            Good::forged(&mut draw, &cut)
        };
        let count = good.records.len();
        match draw.below(8) {
            0 if count > 1 => {
                let (first, second) = (draw.below(count), draw.below(count));
                good.records.swap(first, second);
            }
            1 if count > 1 => {
                let (from, to) = (draw.below(count), draw.below(count));
                good.records[to] = good.records[from].clone();
            }
            2 => drop(good.records.remove(draw.below(count))),
            3 => {
                let again = good.records[draw.below(count)].clone();
                good.records.insert(draw.below(count + 1), again);
            }
            _ => (),
        }
        let mut records = good.bytes();
        for _ in 0..draw.below(4) {
            if records.is_empty() {
                break;
            }
            let byte = draw.below(records.len());
            let value = draw.pick(&[0, 1, 255, 4, 16, 64, 128, 3]);
            let more = draw.within(1, 5);
            match draw.below(4) {
                0 => records[byte] = value,
                1 => records[byte] = records[byte].wrapping_add(draw.pick(&[1, 255, 16])),
                2 => records[byte] ^= 1 << draw.below(8),
                // Several at once, as the three bytes of a way or the four of a count.
                _ => {
                    let from = draw.below(records.len());
                    for step in 0..more {
                        if byte + step < records.len() && from + step < records.len() {
                            records[byte + step] = records[from + step];
                        }
                    }
                }
            }
        }
        compare(tally, good.call(&records), seed)?;
    }
    Ok(())
}

/// One fault at a time, each with its place: what each sentence of the paper on a record's contents rules out.
fn run_each_fault(tally: &mut Tally) -> Result<(), String> {
    // The second of two records, of 2 by 3 cells and six border cells; its first byte, and those of its fields 2 and 3.
    let first = record_bytes([2, 1, 0, 0], &[2, 1], &[Way::Over(0, 64), Way::Over(0, 64)]);
    let begin = first.len();
    let counts = [1, 2, 6, 0, 3, 4];
    let ways = [
        Way::Over(1, 64),
        Way::Over(1, 64),
        Way::Over(2, 1),
        Way::Absent,
        Way::Inside,
        Way::Over(2, 1),
    ];
    let sides = [2, 3, 0, 1];
    let (second, third) = (begin + 11, begin + 11 + 27);
    let mut made = |number: u32, byte: usize, record: Vec<u8>| {
        let records = [&first[..], &record].concat();
        let call = Call {
            tiles: (1, 2),
            records: &records,
            lengths: Lengths::of(8),
        };
        let value = if number == 0 { &[][..] } else { &[byte] };
        compare_made(tally, call, number, value, byte as u64)
    };
    made(0, 0, record_bytes(sides, &counts, &ways))?;

    // Sides beyond the bounds, then the position and the sides of the tile row; also both at once.
    for (number, sides) in [
        (8, [0, 3, 0, 1]),
        (8, [2, 0, 0, 1]),
        (8, [257, 3, 0, 1]),
        (8, [2, 257, 0, 1]),
        (8, [0, 0, 9, 9]),
        (8, [65535, 65535, 0, 1]),
        (9, [2, 3, 0, 0]),
        (9, [2, 3, 1, 1]),
        (9, [2, 3, 0, 2]),
        (9, [2, 3, 1, 0]),
        (9, [2, 3, 65535, 65535]),
        (9, [1, 3, 0, 1]),
        (9, [3, 3, 0, 1]),
        (9, [256, 256, 0, 1]),
    ] {
        made(number, begin, record_bytes(sides, &counts, &ways))?;
        // What comes after is not looked at.
        made(
            number,
            begin,
            record_bytes(sides, &[9; 6], &[Way::Absent; 6]),
        )?;
    }
    // Other sides that agree: the fields after have another length.
    made(8, second, record_bytes([2, 4, 0, 1], &counts, &ways))?;
    made(8, second, record_bytes([2, 2, 0, 1], &counts, &ways))?;

    // A count above the number of cells, at each border cell.
    for border in 0..6 {
        for count in [7, 256, 65536, u32::MAX] {
            let mut counts = counts;
            counts[border] = count;
            made(8, second, record_bytes(sides, &counts, &ways))?;
        }
        // The absent mark exactly where the count is 0.
        let mut counts = counts;
        counts[border] = if counts[border] == 0 { 1 } else { 0 };
        made(8, third, record_bytes(sides, &counts, &ways))?;
    }
    let mut with = |number: u32, border: usize, way: Way| {
        let mut ways = ways;
        ways[border] = way;
        made(number, third, record_bytes(sides, &counts, &ways))
    };
    // The absent mark elsewhere, none where it should be.
    for border in [0, 1, 2, 4, 5] {
        with(8, border, Way::Absent)?;
    }
    for way in [
        Way::Inside,
        Way::Over(3, 16),
        Way::Over(1, 64),
        Way::Over(2, 1),
    ] {
        with(8, 3, way)?;
    }
    // Other numbers that are no border cell; 65535 with other codes.
    for number in [6, 7, 255, 256, 258, 65534, 65535] {
        for code in [1, 64, 2, 254] {
            with(8, 0, Way::Over(number, code))?;
        }
    }
    // A border cell that has another way for itself: another number, another code, inside, absent.
    with(8, 0, Way::Over(0, 4))?;
    for way in [
        Way::Over(5, 1),
        Way::Over(1, 128),
        Way::Over(1, 32),
        Way::Over(4, 4),
        Way::Over(3, 16),
    ] {
        with(8, 0, way)?;
    }
    // An exit that others lead to is no exit any more, or has another code.
    with(8, 1, Way::Inside)?;
    with(8, 2, Way::Over(1, 64))?;
    with(8, 1, Way::Over(1, 32))?;
    // Codes that are none of the eight, or step inside the tile, at an exit that no other leads to.
    for code in 0..=255 {
        let steps_out = [8, 4, 2].contains(&code);
        with(if steps_out { 0 } else { 8 }, 4, Way::Over(4, code))?;
        let at_corner = [32, 64, 128, 16, 8].contains(&code);
        with(if at_corner { 0 } else { 8 }, 0, Way::Over(0, code))?;
    }
    // To another exit, or to none: this is well.
    with(0, 0, Way::Over(2, 1))?;
    with(0, 0, Way::Inside)?;
    with(0, 5, Way::Over(1, 64))?;
    Ok(())
}

/// Records that no tile need have: arbitrary nets of exits, many with loops.
fn run_forged_records(tally: &mut Tally) -> Result<(), String> {
    let mut ended = [0; 5];
    for number in 0..many(6_000) {
        let seed = (0xA7 << 40) + number;
        let mut draw = Draw::new(seed);
        let side = draw.pick(&[3, 6, 12, 24]);
        let (rows, cols) = (draw.within(1, side), draw.within(1, side));
        let cut = any_cut(&mut draw, rows, cols, 64);
        let good = Good::forged(&mut draw, &cut);
        let joined = compare(tally, good.call(&good.bytes()), seed)?;
        match joined.number {
            done_or_loop @ (0 | 4) => ended[done_or_loop as usize] += 1,
            other => return Err(format!("forged records have reply {other}: seed {seed:#x}")),
        }
    }
    if ended[0] < 1_000 || ended[4] < 1_000 {
        return Err(format!("{} joined, {} loops", ended[0], ended[4]));
    }
    Ok(())
}

fn run_wrong_lengths(tally: &mut Tally) -> Result<(), String> {
    for number in 0..many(20) {
        let seed = (0xA8 << 40) + number;
        let mut draw = Draw::new(seed);
        for good in small_goods(seed) {
            let records = good.bytes();
            let right = Lengths::of(good.cells);
            for buffer in 0..=WORKS {
                for length in [
                    0,
                    1,
                    good.cells,
                    good.cells - 1,
                    good.cells + 1,
                    2 * good.cells,
                    127,
                    128,
                    129,
                ] {
                    let mut lengths = right;
                    if buffer == WORKS {
                        lengths.incoming = length;
                    } else {
                        lengths.work[buffer] = length;
                    }
                    let call = Call {
                        lengths,
                        ..good.call(&records)
                    };
                    let expected = compare(tally, call, seed)?;
                    if (expected.number == 2) != (lengths != right) {
                        return Err(format!("{lengths:?} has reply {}", expected.number));
                    }
                }
            }
            // A fault of the records and wrong tile counts come before the length.
            let mut lengths = right;
            lengths.work[draw.below(WORKS)] += 1;
            let longer = [&records[..], &[0]].concat();
            let call = Call {
                tiles: good.tiles,
                records: &longer,
                lengths,
            };
            compare_made(tally, call, 8, &[records.len()], seed)?;
            let call = Call {
                tiles: (0, good.tiles.1),
                ..call
            };
            compare_made(tally, call, 9, &[0], seed)?;
        }
    }
    Ok(())
}

/// Numbers of tile rows and tile columns at and beyond the bounds, also such as have a small product if cut to 64 bits.
const ODD_TILES: [usize; 21] = [
    0,
    1,
    2,
    3,
    5,
    8,
    9,
    13,
    32,
    63,
    64,
    65,
    128,
    256,
    65536,
    1 << 32,
    (1 << 32) + 1,
    1 << 58,
    1 << 63,
    (1 << 63) + 1,
    usize::MAX,
];

/// Every pair of them, with the records of so many tiles of one cell where there are at most 128, and with none.
fn run_tile_counts(tally: &mut Tally) -> Result<(), String> {
    for tile_rows in ODD_TILES {
        for tile_cols in ODD_TILES {
            let seed = (0xA9 << 40) ^ (tile_rows as u64).rotate_left(20) ^ tile_cols as u64;
            let few = |side| (1..=65).contains(&side);
            let few_tiles = few(tile_rows) && few(tile_cols) && tile_rows * tile_cols <= 128;
            let allowed = few_tiles && tile_rows * tile_cols <= 64;
            let tiles = if few_tiles { tile_rows * tile_cols } else { 0 };
            // The water of each goes to the tile north of it.
            let record = |tile: usize| {
                let sides = [1, 1, tile / tile_cols, tile % tile_cols];
                record_bytes(sides, &[1], &[Way::Over(0, 64)])
            };
            let records: Vec<u8> = (0..tiles).flat_map(record).collect();
            let call = Call {
                tiles: (tile_rows, tile_cols),
                records: &records,
                lengths: Lengths::of(tiles),
            };
            let (number, value) = if allowed { (0, &[][..]) } else { (9, &[0][..]) };
            compare_made(tally, call, number, value, seed)?;
            let call = Call {
                records: &[],
                ..call
            };
            compare_made(tally, call, if allowed { 8 } else { 9 }, &[0], seed)?;
        }
    }
    Ok(())
}

/// The records of a mosaic with another number of tile rows and tile columns than it has.
fn run_other_tile_counts(tally: &mut Tally) -> Result<(), String> {
    for number in 0..many(20) {
        let seed = (0xAA << 40) + number;
        for good in small_goods(seed) {
            let records = good.bytes();
            for tile_rows in 0..7 {
                for tile_cols in 0..7 {
                    let call = Call {
                        tiles: (tile_rows, tile_cols),
                        ..good.call(&records)
                    };
                    let expected = compare(tally, call, seed)?;
                    let right = (tile_rows, tile_cols) == good.tiles;
                    if matches!(expected.number, 0 | 4) != right {
                        return Err(format!(
                            "{:?} tiles read as {tile_rows} by {tile_cols} have reply {}",
                            good.tiles, expected.number
                        ));
                    }
                }
            }
        }
    }
    Ok(())
}

/// Summed rows and columns of 4,096, and more; the sum is looked at when the tile that makes it comes.
fn run_sums(tally: &mut Tally) -> Result<(), String> {
    let seed = 0xAB << 40;
    let mut draw = Draw::new(seed);
    let full = [256; 15];
    let ends: [(&[usize], Option<usize>); 9] = [
        (&[256], None),
        (&[255, 1], None),
        (&[1, 255], None),
        (&[255], None),
        (&[256, 1], Some(16)),
        (&[255, 2], Some(16)),
        (&[2, 255], Some(16)),
        (&[256, 256], Some(16)),
        (&[200, 56, 1, 1], Some(17)),
    ];
    for (end, fault) in ends {
        let long = [&full[..], end].concat();
        for across in [false, true] {
            // A second tile in the other direction, so that the sum is met in the first row of tiles.
            for other in [&[1][..], &[2, 1]] {
                let (cut, per) = if across {
                    (Cut::new(other, &long), 1)
                } else {
                    (Cut::new(&long, other), other.len())
                };
                let good = Good::forged(&mut draw, &cut);
                let bytes = good.bytes();
                let joined = match fault {
                    None => compare(tally, good.call(&bytes), seed)?,
                    Some(tile) => {
                        let before: usize = good.records[..tile * per].iter().map(Vec::len).sum();
                        let call = good.call(&bytes);
                        compare_made(tally, call, 9, &[before], seed)?;
                        // What is at fault with the sides comes first, what comes after does not count.
                        let mut faulty = bytes.clone();
                        faulty[before + 4] = 0;
                        faulty[before + 3] = 2;
                        compare_made(tally, good.call(&faulty), 8, &[before], seed)?;
                        faulty.truncate(before + 11);
                        faulty[before + 3..before + 5]
                            .copy_from_slice(&bytes[before + 3..before + 5]);
                        compare_made(tally, good.call(&faulty), 9, &[before], seed)?;
                        continue;
                    }
                };
                if !matches!(joined.number, 0 | 4) {
                    return Err(format!("a sum within 4,096 has reply {}", joined.number));
                }
            }
        }
    }
    Ok(())
}

/// The greatest totals that records can tell of: they have 32 bits, and need them all.
fn run_greatest_totals(tally: &mut Tally) -> Result<(), String> {
    let records = forged::greatest_totals();
    let call = Call {
        tiles: (8, 8),
        records: &records,
        lengths: Lengths::of(64 * 1020),
    };
    let joined = compare(tally, call, 0xAD << 40)?;
    let greatest = joined.written.given(&[]).iter().max().copied();
    println!("joining: the greatest incoming is {greatest:?}");
    if joined.number != 0 || greatest < Some(3_500_000_000) {
        return Err(format!("reply {}, greatest {greatest:?}", joined.number));
    }
    Ok(())
}

static HAND: Group = Group::new("hand mosaics", run_hand_mosaics);
static LOOPS: Group = Group::new("loops over tiles", run_loops_over_tiles);
static EVERY_BYTE: Group = Group::new("every byte changed", run_every_byte_changed);
static CUT_OFF: Group = Group::new("cut off and longer", run_cut_off_and_longer);
static DAMAGED: Group = Group::new("damaged records", run_damaged_records);
static EACH_FAULT: Group = Group::new("each fault", run_each_fault);
static FORGED: Group = Group::new("forged records", run_forged_records);
static WRONG_LENGTHS: Group = Group::new("wrong lengths", run_wrong_lengths);
static TILE_COUNTS: Group = Group::new("tile counts", run_tile_counts);
static OTHER_TILE_COUNTS: Group = Group::new("other tile counts", run_other_tile_counts);
static SUMS: Group = Group::new("sums of rows and columns", run_sums);
static TOTALS: Group = Group::new("greatest totals", run_greatest_totals);

#[test]
fn hand_mosaics() {
    HAND.passes();
}

#[test]
fn loops_over_tiles() {
    LOOPS.passes();
}

#[test]
fn every_byte_changed() {
    EVERY_BYTE.passes();
}

#[test]
fn cut_off_and_longer() {
    CUT_OFF.passes();
}

#[test]
fn damaged_records() {
    DAMAGED.passes();
}

#[test]
fn each_fault() {
    EACH_FAULT.passes();
}

#[test]
fn forged_records() {
    FORGED.passes();
}

#[test]
fn wrong_lengths() {
    WRONG_LENGTHS.passes();
}

#[test]
fn tile_counts() {
    TILE_COUNTS.passes();
}

#[test]
fn other_tile_counts() {
    OTHER_TILE_COUNTS.passes();
}

#[test]
fn sums_of_rows_and_columns() {
    SUMS.passes();
}

#[test]
fn greatest_totals() {
    TOTALS.passes();
}

#[test]
fn every_reply_is_reached() {
    let whole = whole_tally(&[
        &HAND,
        &LOOPS,
        &EVERY_BYTE,
        &CUT_OFF,
        &DAMAGED,
        &EACH_FAULT,
        &FORGED,
        &WRONG_LENGTHS,
        &TILE_COUNTS,
        &OTHER_TILE_COUNTS,
        &SUMS,
        &TOTALS,
    ]);
    println!(
        "joining: {} mosaics compared, {} border cells in those joined",
        whole.outcomes, whole.cells
    );
    for (number, name) in [
        (0, "done"),
        (8, "record"),
        (9, "layout"),
        (2, "length"),
        (4, "loop"),
    ] {
        let times = whole.replies[number];
        println!("joining: reply {number} {name} {times} times");
        assert!(times > 0, "reply {number} {name} was not reached");
    }
}

#[test]
fn the_work_lengths_are_the_stated_ones() {
    for cells in [1, 2, 9, 1020, 65280] {
        assert_eq!(join_work(cells), Lengths::of(cells).work, "{cells}");
    }
}

#[test]
fn empty_slices_are_refused() {
    let empty = |tile_rows, tile_cols| {
        let work = [(); WORKS].map(|()| &mut [][..]);
        join(tile_rows, tile_cols, &[], &mut [], work)
    };
    assert_eq!(empty(0, 0), JoinReply::Layout { byte: 0 });
    assert_eq!(empty(65, 1), JoinReply::Layout { byte: 0 });
    assert_eq!(empty(1 << 32, 1 << 32), JoinReply::Layout { byte: 0 });
    assert_eq!(empty(1, 1), JoinReply::Record { byte: 0 });
}

/// The independent join is itself held to the mosaics worked by hand.
#[test]
fn the_independent_join_is_right_by_hand() {
    for hand in hand::MOSAICS {
        let (cut, name, expected) = (hand.cut(), hand.name, hand.outcome());
        let records = records_of(&hand.grid(), &cut).concat();
        let (tile_rows, tile_cols) = cut.tile_counts();
        let lengths = Lengths::of(cut.border_cells());
        let found = mosaic::join(tile_rows, tile_cols, &records, lengths);
        assert_eq!(found.number, expected.number, "{name}");
        assert_eq!(found.value, expected.value, "{name}");
        let incoming = expected.written.given(&[]);
        assert_eq!(found.written.given(&[]), incoming, "{name}");
    }
}
