//! Drainage counts on map sheets: slices in, an enum out, over the proved library `libdrainage.a`.
//!
//! A sheet has rows and columns; its places are numbered from 0, row by row, from the north-west. Each cell is one
//! byte: 1, 2, 4 .. 128 an arrow (east first, clockwise), 0 or 255 absent. The count of a cell is the number of land
//! cells whose water passes through it, itself included.
//!
//! ```
//! use drainage::{count, CountReply};
//!
//! let grid = [2, 4, 8, 1, 4, 16, 128, 4, 32];
//! let mut counts = [0; 9];
//! let reply = count(3, 3, &grid, &mut counts);
//! assert_eq!(reply, CountReply::Done { land: 9, outlets: 1, greatest: 9 });
//! assert_eq!(counts, [1, 1, 1, 1, 8, 1, 1, 9, 1]);
//! ```
//!
//! A reply must be looked at: after a refusal the counts hold what they held before, or 0 throughout, which looks like
//! dry land. Every reply has its number in the paper and says in words what is wrong; the compiler warns where one is
//! dropped.
//!
//! ```
//! let mut counts = [7; 4];
//! let reply = drainage::count(1, 4, &[1, 1, 1, 16], &mut counts);
//! assert!(!reply.is_done());
//! assert_eq!(reply.number(), 4);
//! assert_eq!(
//!     reply.to_string(),
//!     "refused 4: the arrows form a loop of 2 cells; its smallest place is 2"
//! );
//! assert_eq!(counts, [0; 4]);
//! ```
//!
//! Counts that are kept beside their grid can be checked, and mended when one cell of the grid changes:
//!
//! ```
//! use drainage::{check, mend, CheckReply, MendReply};
//!
//! let mut grid = [2, 4, 8, 1, 4, 16, 128, 4, 32];
//! let mut counts = [1, 1, 1, 1, 8, 1, 1, 9, 1];
//! assert_eq!(check(3, 3, &grid, &counts), CheckReply::Done);
//! assert_eq!(mend(3, 3, &mut grid, &mut counts, 0, 1), MendReply::Done);
//! assert_eq!(grid[0], 1);
//! assert_eq!(counts, [1, 2, 1, 1, 8, 1, 1, 9, 1]);
//! ```
//!
//! A sheet that is cut by full rows and columns into tiles is counted tile by tile: each tile's border record is
//! written, the records are joined, and each tile is finished from what comes in at its border. Here case L of the
//! paper, cut between its rows; the water goes down into the second tile and comes back:
//!
//! ```
//! use drainage::{border_cells, finish, finish_work, join, join_work, record, record_len, record_work};
//! use drainage::{FinishReply, JoinReply, RecordReply};
//!
//! let tiles = [[4, 1], [1, 64]];
//! let mut records = Vec::new();
//! for (tile_row, grid) in tiles.iter().enumerate() {
//!     let mut bytes = vec![0; record_len(1, 2)];
//!     let [mut work1, mut work2] = record_work(1, 2).map(|length| vec![0; length]);
//!     let reply = record(1, 2, tile_row, 0, grid, &mut bytes, [&mut work1, &mut work2]);
//!     assert_eq!(reply, RecordReply::Done);
//!     records.extend(bytes);
//! }
//!
//! let cells = 2 * border_cells(1, 2);
//! let mut incoming = vec![0; cells];
//! let mut work = join_work(cells).map(|length| vec![0; length]);
//! let reply = join(2, 1, &records, &mut incoming, work.each_mut().map(|work| &mut work[..]));
//! assert_eq!(reply, JoinReply::Done);
//! assert_eq!(incoming, [0, 3, 1, 0]);
//!
//! let mut counts = [[0; 2]; 2];
//! for (tile_row, grid) in tiles.iter().enumerate() {
//!     let mut work = vec![0; finish_work(1, 2)];
//!     let incoming = &incoming[2 * tile_row..][..2];
//!     let reply = finish(1, 2, grid, incoming, &mut counts[tile_row], &mut work);
//!     assert_eq!(reply, FinishReply::Done);
//! }
//! assert_eq!(counts, [[1, 4], [2, 3]]);
//! ```
//!
//! One operation stands in one file; the C declarations of all of them are in [`raw`].

#![warn(missing_docs)]

mod border;
mod check;
mod count;
mod finish;
mod join;
mod mend;
pub mod raw;
mod record;
mod reply;
#[cfg(doctest)]
mod unused;
mod version;

pub use border::border_cells;
pub use check::{check, CheckReply};
pub use count::{count, CountReply};
pub use finish::{finish, finish_work, FinishReply};
pub use join::{join, join_work, JoinReply, JOIN_WORKS};
pub use mend::{mend, MendReply};
pub use record::{record, record_len, record_work, RecordReply};
pub use version::{version, VERSION};
