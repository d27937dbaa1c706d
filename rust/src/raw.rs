//! The C interface as it is, `include/drainage.h` written in Rust, for the safe functions beside it and for the tests.

/// What every operation of the library returns: the paper's reply number, and the reply's values in the order of the
/// paper's table, 0 where there is none.
#[must_use = "a refusal leaves the counts as they were lent or 0 throughout, which looks like dry land"]
#[repr(C)]
#[derive(Debug, Clone, Copy, PartialEq, Eq)]
pub struct Reply {
    /// The reply's number, 0 for done.
    pub number: u32,
    /// The reply's values, those that it has first.
    pub value: [u64; 6],
}

// The library returns these 56 bytes by value; another size would be another calling convention.
const _: () = assert!(std::mem::size_of::<Reply>() == 56 && std::mem::align_of::<Reply>() == 8);

extern "C" {
    /// The version of the library's interface; see [`version`](crate::version()).
    pub fn drainage_version() -> u32;

    /// Counts a sheet; see [`count`](crate::count()).
    ///
    /// # Safety
    /// `grid` must be valid for reading `grid_len` bytes and `counts` for reading and writing `counts_len` numbers,
    /// also where the call is refused. Neither may be null, and the two must not overlap.
    pub fn drainage_count(
        rows: usize,
        cols: usize,
        grid: *const u8,
        grid_len: usize,
        counts: *mut u32,
        counts_len: usize,
    ) -> Reply;

    /// Checks a grid of counts; see [`check`](crate::check()).
    ///
    /// # Safety
    /// `grid` must be valid for reading `grid_len` bytes and `counts` for reading `counts_len` numbers, also where the
    /// call is refused. Neither may be null.
    pub fn drainage_check(
        rows: usize,
        cols: usize,
        grid: *const u8,
        grid_len: usize,
        counts: *const u32,
        counts_len: usize,
    ) -> Reply;

    /// Changes one cell and mends the counts; see [`mend`](crate::mend()).
    ///
    /// # Safety
    /// `grid` must be valid for reading and writing `grid_len` bytes and `counts` for reading and writing `counts_len`
    /// numbers, also where the call is refused. Neither may be null, and the two must not overlap.
    pub fn drainage_mend(
        rows: usize,
        cols: usize,
        grid: *mut u8,
        grid_len: usize,
        counts: *mut u32,
        counts_len: usize,
        place: usize,
        code: u8,
    ) -> Reply;

    /// The number of border cells of a tile; see [`border_cells`](crate::border_cells()).
    pub fn drainage_border_cells(rows: usize, cols: usize) -> usize;

    /// The number of bytes of a tile's border record; see [`record_len`](crate::record_len()).
    pub fn drainage_record_length(rows: usize, cols: usize) -> usize;

    /// The length of work1 for writing a record; see [`record_work`](crate::record_work()).
    pub fn drainage_record_work1(rows: usize, cols: usize) -> usize;

    /// The length of work2 for writing a record; see [`record_work`](crate::record_work()).
    pub fn drainage_record_work2(rows: usize, cols: usize) -> usize;

    /// Writes a tile's border record; see [`record`](crate::record()).
    ///
    /// # Safety
    /// `grid` must be valid for reading `grid_len` bytes, `record` for reading and writing `record_len` bytes, and the
    /// work buffers for reading and writing their numbers, also where the call is refused. None may be null, and no two
    /// may overlap.
    pub fn drainage_record(
        rows: usize,
        cols: usize,
        tile_row: usize,
        tile_col: usize,
        grid: *const u8,
        grid_len: usize,
        record: *mut u8,
        record_len: usize,
        work1: *mut u32,
        work1_len: usize,
        work2: *mut u32,
        work2_len: usize,
    ) -> Reply;

    /// The length of the work buffer for finishing; see [`finish_work`](crate::finish_work()).
    pub fn drainage_finish_work1(rows: usize, cols: usize) -> usize;

    /// Finishes a tile; see [`finish`](crate::finish()).
    ///
    /// # Safety
    /// `grid` must be valid for reading `grid_len` bytes, `incoming` for reading `incoming_len` numbers, and `counts`
    /// and `work1` for reading and writing theirs, also where the call is refused. None may be null, and what is written
    /// may not overlap with another.
    pub fn drainage_finish(
        rows: usize,
        cols: usize,
        grid: *const u8,
        grid_len: usize,
        incoming: *const u32,
        incoming_len: usize,
        counts: *mut u32,
        counts_len: usize,
        work1: *mut u32,
        work1_len: usize,
    ) -> Reply;

    /// The length of work1 for joining; see [`join_work`](crate::join_work()).
    pub fn drainage_join_work1(border_cells: usize) -> usize;

    /// The length of work2 for joining; see [`join_work`](crate::join_work()).
    pub fn drainage_join_work2(border_cells: usize) -> usize;

    /// The length of work3 for joining; see [`join_work`](crate::join_work()).
    pub fn drainage_join_work3(border_cells: usize) -> usize;

    /// The length of work4 for joining; see [`join_work`](crate::join_work()).
    pub fn drainage_join_work4(border_cells: usize) -> usize;

    /// The length of work5 for joining; see [`join_work`](crate::join_work()).
    pub fn drainage_join_work5(border_cells: usize) -> usize;

    /// Joins the records of a mosaic; see [`join`](crate::join()).
    ///
    /// # Safety
    /// `records` must be valid for reading `records_len` bytes, and `incoming` and the work buffers for reading and
    /// writing their numbers, also where the call is refused. None may be null, and no two may overlap.
    pub fn drainage_join(
        tile_rows: usize,
        tile_cols: usize,
        records: *const u8,
        records_len: usize,
        incoming: *mut u32,
        incoming_len: usize,
        work1: *mut u32,
        work1_len: usize,
        work2: *mut u32,
        work2_len: usize,
        work3: *mut u32,
        work3_len: usize,
        work4: *mut u32,
        work4_len: usize,
        work5: *mut u32,
        work5_len: usize,
    ) -> Reply;
}
