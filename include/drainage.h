/* The C interface of libdrainage.a: drainage counts on map sheets.
 *
 * A sheet has rows and columns. Its places are numbered from 0, row by row, from the north-west. A grid has one byte
 * for each place: 1 east, 2 south-east, 4 south, 8 south-west, 16 west, 32 north-west, 64 north, 128 north-east are
 * arrows, and their cells are land; 0 and 255 are absent cells; every other byte is a bad code. A land cell whose arrow
 * leaves the sheet or points at an absent cell is an outlet. The count of a land cell is 1 plus the counts of the land
 * neighbours whose arrows step onto it; absent cells have 0.
 *
 * A sheet may be cut by full rows and columns into tiles, of 1 to 256 rows and columns each, and counted tile by tile:
 * drainage_record writes each tile's border record, drainage_join joins the records of the mosaic, and drainage_finish
 * counts each tile with what comes in at its border. The border cells of a tile are those in its first or last row or
 * column, numbered from 0 within the tile in order of place, each once. The number of a tile is its tile row times the
 * number of tile columns plus its tile column, both from 0. Places are those of the tile where a tile is lent.
 *
 * Every pointer must be valid for the length that is passed with it, must not be null, and the buffers of one call must
 * not overlap. All else is taken and answered with a reply. Work buffers are lent with any contents.
 *
 * A reply must be looked at: after a refusal counts hold what they held before, or 0 throughout, which looks like dry
 * land. The compiler warns where a reply is dropped. docs/CALLING.md says what to do with each refusal, and tells of
 * threads, alignment and stack.
 */
#ifndef DRAINAGE_H
#define DRAINAGE_H

#include <stddef.h>
#include <stdint.h>

/* The version of this interface. It is raised by one whenever a function, a reply or a length that stands in this
 * header changes. drainage_version tells that of the archive, so that a caller can see whether the two belong together.
 */
#define DRAINAGE_VERSION 1

/* Marks a function whose answer must not be dropped, where the compiler can be told so. To drop one on purpose, keep it
 * in a variable and cast that to void; gcc's warning is not silenced by casting the call itself:
 *
 *     drainage_reply dropped = drainage_count(rows, cols, grid, grid_len, counts, counts_len);
 *     (void)dropped;
 */
#if defined(__cplusplus) && __cplusplus >= 201703L
#define DRAINAGE_MUST_USE [[nodiscard]]
#elif defined(__STDC_VERSION__) && __STDC_VERSION__ >= 202311L
#define DRAINAGE_MUST_USE [[nodiscard]]
#elif defined(__GNUC__) || defined(__clang__)
#define DRAINAGE_MUST_USE __attribute__((warn_unused_result))
#else
#define DRAINAGE_MUST_USE
#endif

#ifdef __cplusplus
extern "C" {
#endif

/* The numbers of the replies: DRAINAGE_DONE, and every other is a refusal. */
enum {
    DRAINAGE_DONE = 0,     /* none of the refusals below applies */
    DRAINAGE_SHAPE = 1,    /* rows or columns outside the bounds */
    DRAINAGE_LENGTH = 2,   /* a lent buffer has another length than stated */
    DRAINAGE_CODE = 3,     /* a bad code in the grid */
    DRAINAGE_LOOP = 4,     /* a loop */
    DRAINAGE_COUNT = 5,    /* a cell breaks the count equation, or an absent cell is not 0 */
    DRAINAGE_PLACE = 6,    /* the changed cell's place is not on the sheet */
    DRAINAGE_NEW_CODE = 7, /* its new code is bad */
    DRAINAGE_RECORD = 8,   /* a border record is malformed */
    DRAINAGE_LAYOUT = 9,   /* tile counts or records do not fit the mosaic */
    DRAINAGE_INCOMING = 10 /* what comes in is too much, or comes in at an absent cell */
};

/* What every operation returns: the number of the reply, and the values that come with it, in the order in which they
 * are named at each function. A value that the reply does not have is 0.
 */
typedef struct {
    uint32_t number;
    uint64_t value[6];
} drainage_reply;

/* The version of the archive's interface: DRAINAGE_VERSION, if header and archive belong together.
 */
uint32_t drainage_version(void);

/* Counts a sheet.
 *
 * rows, cols  the shape, 1 to 4096 each
 * grid        the codes, read only; grid_len is exactly rows * cols
 * counts      where the counts are written, whatever it holds before; counts_len is exactly rows * cols
 *
 * The reply is the first of these refusals that applies, and done if none does:
 * DRAINAGE_SHAPE   rows or cols is not within 1 to 4096
 * DRAINAGE_LENGTH  grid_len or counts_len is not rows * cols
 * DRAINAGE_CODE    the grid has a bad code; value[0] its first place
 * DRAINAGE_LOOP    the arrows form a loop; value[0] the smallest place on any loop, value[1] the number of cells of
 *                  that loop
 * DRAINAGE_DONE    value[0] the number of land cells, value[1] the number of outlets, value[2] the greatest count (0 if
 *                  there is no land)
 *
 * After every refusal but DRAINAGE_LOOP counts is as it was lent. After DRAINAGE_LOOP it holds 0 throughout. After
 * DRAINAGE_DONE it holds the count of every place. The grid is never changed.
 */
DRAINAGE_MUST_USE
drainage_reply drainage_count(size_t rows, size_t cols, const uint8_t *grid, size_t grid_len, uint32_t *counts,
                              size_t counts_len);

/* Checks a grid of counts against its sheet.
 *
 * rows, cols  the shape, 1 to 4096 each
 * grid        the codes, read only; grid_len is exactly rows * cols
 * counts      the counts to check, any numbers at all, read only; counts_len is exactly rows * cols
 *
 * The reply is the first of these refusals that applies, and done if none does:
 * DRAINAGE_SHAPE   rows or cols is not within 1 to 4096
 * DRAINAGE_LENGTH  grid_len or counts_len is not rows * cols
 * DRAINAGE_CODE    the grid has a bad code; value[0] its first place
 * DRAINAGE_COUNT   a land cell's count is not 1 plus the counts of the land neighbours whose arrows step onto it, or an
 *                  absent cell's is not 0; value[0] the first such place
 * DRAINAGE_DONE    the counts are those of the sheet, and its arrows form no loop; no values
 *
 * Neither buffer is ever changed.
 */
DRAINAGE_MUST_USE
drainage_reply drainage_check(size_t rows, size_t cols, const uint8_t *grid, size_t grid_len, const uint32_t *counts,
                              size_t counts_len);

/* Changes the code of one cell of a counted sheet and mends the counts.
 *
 * rows, cols  the shape, 1 to 4096 each
 * grid        the codes, where the new code is stored; grid_len is exactly rows * cols
 * counts      the counts of the grid as it is lent, and where they are mended; counts_len is exactly rows * cols
 * place       the place of the cell to change, below rows * cols
 * code        its new code, which may be the one that is there
 *
 * The reply is the first of these refusals that applies, and done if none does:
 * DRAINAGE_SHAPE     rows or cols is not within 1 to 4096
 * DRAINAGE_LENGTH    grid_len or counts_len is not rows * cols
 * DRAINAGE_CODE      the grid has a bad code; value[0] its first place
 * DRAINAGE_COUNT     the counts are not those of the grid, as in checking; value[0] the first place that shows it
 * DRAINAGE_PLACE     place is not below rows * cols
 * DRAINAGE_NEW_CODE  code is a bad code
 * DRAINAGE_LOOP      the arrows of the changed grid would form a loop; value[0] the smallest place on any loop,
 *                    value[1] the number of cells of that loop
 * DRAINAGE_DONE      no values
 *
 * After every refusal, DRAINAGE_LOOP too, grid and counts are as they were lent. After DRAINAGE_DONE the grid holds the
 * new code, and counts holds the count of every place of the changed grid; with the code that was there nothing is
 * altered.
 */
DRAINAGE_MUST_USE
drainage_reply drainage_mend(size_t rows, size_t cols, uint8_t *grid, size_t grid_len, uint32_t *counts,
                             size_t counts_len, size_t place, uint8_t code);

/* The number of border cells of a tile of rows by cols cells: rows * cols if it has one row or one column, otherwise
 * 2 * rows + 2 * cols - 4. 0 if rows or cols is not within 1 to 256.
 */
size_t drainage_border_cells(size_t rows, size_t cols);

/* The number of bytes of the border record of a tile of rows by cols cells: 17, and 7 for each border cell. 0 if rows
 * or cols is not within 1 to 256.
 */
size_t drainage_record_length(size_t rows, size_t cols);

/* The lengths of the work buffers of drainage_record: rows * cols each. 0 if rows or cols is not within 1 to 256.
 */
size_t drainage_record_work1(size_t rows, size_t cols);
size_t drainage_record_work2(size_t rows, size_t cols);

/* Counts a tile by itself and writes its border record.
 *
 * rows, cols          the tile's shape, 1 to 256 each
 * tile_row, tile_col  its position in the mosaic, 0 to 63 each
 * grid                the codes, read only; grid_len is exactly rows * cols
 * record              where the record is written; record_len is exactly that told by drainage_record_length
 * work1, work2        work buffers; their lengths are exactly those told by drainage_record_work1 and .._work2
 *
 * The record of a tile with B border cells has three fields. Each is a tag of one byte, a length of two bytes, and
 * contents; numbers have their highest byte first. The way of a border cell is the border number and the code of the
 * cell where its water leaves the tile.
 * tag 1, length 8      rows, cols, tile_row, tile_col, two bytes each
 * tag 2, length 4 * B  the count within the tile of each border cell, four bytes each
 * tag 3, length 3 * B  the way of each border cell, two bytes border number and one byte code; 65535, 255 at an absent
 *                      cell, and 65535, 0 where the water ends at an absent cell of the tile
 *
 * The reply is the first of these refusals that applies, and done if none does:
 * DRAINAGE_SHAPE   rows or cols is not within 1 to 256
 * DRAINAGE_LAYOUT  tile_row or tile_col is above 63; value[0] is 0
 * DRAINAGE_LENGTH  grid_len, record_len, work1_len or work2_len is another than stated
 * DRAINAGE_CODE    the grid has a bad code; value[0] its first place
 * DRAINAGE_LOOP    the arrows form a loop within the tile; value[0] the smallest place on any loop, value[1] the number
 *                  of cells of that loop
 * DRAINAGE_DONE    no values
 *
 * After every refusal record is as it was lent; after every refusal but DRAINAGE_LOOP the work buffers are too. After
 * DRAINAGE_LOOP and DRAINAGE_DONE they hold 0 throughout. The grid is never changed.
 */
DRAINAGE_MUST_USE
drainage_reply drainage_record(size_t rows, size_t cols, size_t tile_row, size_t tile_col, const uint8_t *grid,
                               size_t grid_len, uint8_t *record, size_t record_len, uint32_t *work1, size_t work1_len,
                               uint32_t *work2, size_t work2_len);

/* The lengths of the work buffers of drainage_join for a mosaic whose tiles have border_cells border cells together:
 * border_cells for the first four, and 128 for the fifth.
 */
size_t drainage_join_work1(size_t border_cells);
size_t drainage_join_work2(size_t border_cells);
size_t drainage_join_work3(size_t border_cells);
size_t drainage_join_work4(size_t border_cells);
size_t drainage_join_work5(size_t border_cells);

/* Joins the border records of a mosaic.
 *
 * tile_rows, tile_cols  how the mosaic is cut: at least one of each, and at most 64 tiles
 * records               the record of each tile, one after the other, tile row by tile row, read only
 * incoming              where it is written what comes in at each border cell from other tiles, in the order of the
 *                       records, whatever it holds before; incoming_len is exactly the number of border cells of all
 *                       tiles together
 * work1 .. work5        work buffers; their lengths are exactly those told by drainage_join_work1 .. _work5
 *
 * An exit is a border cell whose way is itself. Its total is its own count plus all that comes in at border cells with
 * that way. What comes in at a border cell is the sum of the totals of the exits of other tiles that step onto it; an
 * exit that steps onto an absent cell or off the mosaic feeds nobody.
 *
 * The reply is the first of these refusals that applies, and done if none does:
 * DRAINAGE_LAYOUT  tile_rows or tile_cols is 0, or there are more than 64 tiles; value[0] is 0
 * then, for each record in turn, whichever is met first:
 * DRAINAGE_RECORD  a field is cut short or has another tag, length or contents than drainage_record writes: sides not
 *                  within 1 to 256, a count above the tile's number of cells, an absent mark without a count of 0 or a
 *                  count of 0 without it, a way other than the two marks that names no border cell with the same way,
 *                  or whose code does not step outside the tile from there; value[0] the first byte of that field.
 *                  Or there are bytes after the last record; value[0] the first of them
 * DRAINAGE_LAYOUT  the record is not that of the tile whose turn it is, or has other rows than its tile row or other
 *                  columns than its tile column, or the tiles so far have more than 4096 rows or columns together;
 *                  value[0] the first byte of the record
 * and then:
 * DRAINAGE_LENGTH  incoming_len or the length of a work buffer is another than stated
 * DRAINAGE_LOOP    exits feed each other round; value[0] the smallest tile number of all exits on any loop, value[1]
 *                  the smallest border number of such exits of that tile, value[2] the number of exits on the loop of
 *                  that exit
 * DRAINAGE_DONE    no values
 *
 * After every refusal but DRAINAGE_LOOP incoming and the work buffers are as they were lent. After DRAINAGE_LOOP all of
 * them hold 0 throughout. After DRAINAGE_DONE incoming holds what comes in at each border cell, and the work buffers 0
 * throughout. The records are never changed.
 */
DRAINAGE_MUST_USE
drainage_reply drainage_join(size_t tile_rows, size_t tile_cols, const uint8_t *records, size_t records_len,
                             uint32_t *incoming, size_t incoming_len, uint32_t *work1, size_t work1_len,
                             uint32_t *work2, size_t work2_len, uint32_t *work3, size_t work3_len, uint32_t *work4,
                             size_t work4_len, uint32_t *work5, size_t work5_len);

/* The length of the work buffer of drainage_finish: rows * cols. 0 if rows or cols is not within 1 to 256.
 */
size_t drainage_finish_work1(size_t rows, size_t cols);

/* Counts a tile with what comes in at its border cells from other tiles.
 *
 * rows, cols  the tile's shape, 1 to 256 each
 * grid        the codes, read only; grid_len is exactly rows * cols
 * incoming    what comes in at each border cell, read only; incoming_len is exactly the number of border cells
 * counts      where the counts are written, whatever it holds before; counts_len is exactly rows * cols
 * work1       a work buffer; its length is exactly that told by drainage_finish_work1
 *
 * The reply is the first of these refusals that applies, and done if none does:
 * DRAINAGE_SHAPE     rows or cols is not within 1 to 256
 * DRAINAGE_LENGTH    grid_len, incoming_len, counts_len or work1_len is another than stated
 * DRAINAGE_CODE      the grid has a bad code; value[0] its first place
 * DRAINAGE_INCOMING  what comes in at a border cell is above 4194304, or not 0 where the cell is absent; value[0] the
 *                    first such border number
 * DRAINAGE_LOOP      the arrows form a loop within the tile; value[0] the smallest place on any loop, value[1] the
 *                    number of cells of that loop
 * DRAINAGE_DONE      no values
 *
 * After every refusal but DRAINAGE_LOOP counts and work1 are as they were lent. After DRAINAGE_LOOP both hold 0
 * throughout. After DRAINAGE_DONE counts holds for every land cell its count within the tile plus what comes in at
 * border cells at it or upstream of it, and 0 at absent cells; work1 holds 0 throughout. The grid and incoming are
 * never changed.
 */
DRAINAGE_MUST_USE
drainage_reply drainage_finish(size_t rows, size_t cols, const uint8_t *grid, size_t grid_len,
                               const uint32_t *incoming, size_t incoming_len, uint32_t *counts, size_t counts_len,
                               uint32_t *work1, size_t work1_len);

#ifdef __cplusplus
}
#endif

#endif
