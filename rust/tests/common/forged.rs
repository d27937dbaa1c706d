//! Border records that no tile need have, but that a reader has to take: invented counts and ways.

use super::cuts::Cut;
use super::draw::Draw;
use super::independent::{meaning, neighbour, Meaning};
use super::sheets::GOOD_CODES;
use super::tile::{border_places, record_bytes, Way};

/// The codes whose arrows step outside the tile from this place.
pub fn codes_out(rows: usize, cols: usize, place: usize) -> Vec<u8> {
    let steps_out = |code: &u8| match meaning(*code) {
        Meaning::Arrow(direction) => neighbour(rows, cols, place, direction).is_none(),
        Meaning::Absent | Meaning::Bad => false,
    };
    GOOD_CODES.into_iter().filter(steps_out).collect()
}

/// How much of a record is of each kind, in sixteenths; what is left leads to one of its exits, or ends inside where it
/// has none.
#[derive(Clone, Copy)]
pub struct Shares {
    pub absent: usize,
    pub inside: usize,
    pub exits: usize,
}

impl Shares {
    pub fn any(draw: &mut Draw) -> Shares {
        Shares {
            absent: draw.pick(&[0, 0, 1, 4]),
            inside: draw.pick(&[0, 1, 2]),
            exits: draw.pick(&[2, 5, 10]),
        }
    }
}

/// The counts and ways of a record that a reader takes.
pub fn any_told(draw: &mut Draw, rows: usize, cols: usize, shares: Shares) -> (Vec<u32>, Vec<Way>) {
    let borders = border_places(rows, cols);
    let mut ways: Vec<Option<Way>> = borders
        .iter()
        .enumerate()
        .map(|(border, &place)| {
            let kind = draw.below(16);
            if kind < shares.absent {
                Some(Way::Absent)
            } else if kind < shares.absent + shares.inside {
                Some(Way::Inside)
            } else if kind < shares.absent + shares.inside + shares.exits {
                Some(Way::Over(border, draw.pick(&codes_out(rows, cols, place))))
            } else {
                None
            }
        })
        .collect();
    let exits: Vec<Way> = ways
        .iter()
        .flatten()
        .copied()
        .filter(|way| matches!(way, Way::Over(..)))
        .collect();
    for way in &mut ways {
        if way.is_none() {
            *way = Some(if exits.is_empty() {
                Way::Inside
            } else {
                draw.pick(&exits)
            });
        }
    }
    let ways: Vec<Way> = ways.into_iter().flatten().collect();
    let most = rows * cols;
    let counts = ways
        .iter()
        .map(|way| match way {
            Way::Absent => 0,
            Way::Inside | Way::Over(..) => draw.within(1, most) as u32,
        })
        .collect();
    (counts, ways)
}

/// The records of a mosaic, tile row by tile row; what each tells is drawn.
pub fn any_records(draw: &mut Draw, cut: &Cut) -> Vec<Vec<u8>> {
    let shares = Shares::any(draw);
    let mut records = Vec::new();
    for (tile_row, &rows) in cut.heights.iter().enumerate() {
        for (tile_col, &cols) in cut.widths.iter().enumerate() {
            let (counts, ways) = any_told(draw, rows, cols, shares);
            let sides = [rows, cols, tile_row, tile_col];
            records.push(record_bytes(sides, &counts, &ways));
        }
    }
    records
}

/// The records of the greatest mosaic, 64 tiles of 256 by 256 cells, with every border cell an exit of the greatest
/// count. Along each line between tile columns the water goes to and fro over it down to the last row, and there across
/// the tile to the next line; along each line between tile rows it goes to and fro to a line between tile columns. At
/// the sheet's edge it leaves.
pub fn greatest_totals() -> Vec<u8> {
    const SIDE: usize = 256;
    let mut records = Vec::new();
    for tile_row in 0..8 {
        for tile_col in 0..8 {
            let mut ways: Vec<Way> = Vec::new();
            let borders = border_places(SIDE, SIDE);
            for (border, &place) in borders.iter().enumerate() {
                let (row, col) = (place / SIDE, place % SIDE);
                let east_line = col == SIDE - 1 && tile_col < 7;
                let west_line = col == 0 && tile_col > 0;
                let code = if east_line {
                    1
                } else if west_line {
                    8
                } else if col == 0 {
                    16
                } else if col == SIDE - 1 {
                    1
                } else if row == 0 {
                    // Over a line between tile rows back to the north, one column on to the next line, or off.
                    match (tile_row, tile_col) {
                        (0, _) => 64,
                        (_, 7) => 32,
                        _ => 128,
                    }
                } else {
                    4
                };
                let last_row = tile_row == 7 && row == SIDE - 1;
                ways.push(if west_line && last_row && tile_col < 7 {
                    // Across the tile, to its last border cell, from where the next line takes it.
                    Way::Over(borders.len() - 1, 1)
                } else {
                    Way::Over(border, code)
                });
            }
            let counts = vec![(SIDE * SIDE) as u32; borders.len()];
            let sides = [SIDE, SIDE, tile_row, tile_col];
            records.extend(record_bytes(sides, &counts, &ways));
        }
    }
    records
}
