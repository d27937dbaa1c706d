//! Sheets of every kind whose codes are good, with loops and without.

use super::draw::Draw;
use super::sheets::{
    any_loop_free, arbitrary, close_a_loop, lay_a_ring, opened, Absent, Rectangle, Sheet,
};

/// Above this many cells it takes too long to open every loop of a sheet of any arrows.
const MOST_OPENED: usize = 2_000;

/// A sheet without loops for the greater part, else with any arrows, with a river turned back onto itself, or with a
/// ring.
pub fn any_good_sheet(draw: &mut Draw, rows: usize, cols: usize) -> Sheet {
    let arrow_sets: [&[u8]; 4] = [
        &[1, 2, 4, 8, 16, 32, 64, 128],
        &[1, 4, 16, 64],
        &[2, 8, 32, 128],
        &[1, 1, 1, 1, 2, 4, 8, 64, 128, 16],
    ];
    match draw.below(6) {
        0 => {
            let absent = draw.pick(&[Absent(0), Absent(3), Absent(6)]);
            let arrows = draw.pick(&arrow_sets);
            arbitrary(draw, rows, cols, absent, arrows)
        }
        1 => {
            let mut sheet = any_loop_free(draw, rows, cols);
            close_a_loop(draw, &mut sheet);
            sheet
        }
        2 if rows >= 2 && cols >= 2 => {
            let mut sheet = any_loop_free(draw, rows, cols);
            let (height, width) = (draw.within(2, rows), draw.within(2, cols));
            let ring = Rectangle {
                top: draw.within(0, rows - height),
                left: draw.within(0, cols - width),
                height,
                width,
            };
            lay_a_ring(&mut sheet, ring, draw.one_in(2));
            sheet
        }
        3 if rows * cols <= MOST_OPENED => opened(draw, rows, cols),
        _ => any_loop_free(draw, rows, cols),
    }
}
