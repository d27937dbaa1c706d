/* A third client of libdrainage.a: counts case H of paper 01 in two tiles, by way of their border records; then case L,
 * cut between its rows, whose water goes down into the second tile and comes back; then case M, whose loop lies in no
 * tile; and shows what joining says of records that are none. */
#include "drainage.h"
#include <inttypes.h>
#include <stdio.h>
#include <stdlib.h>

#define TILES 2
#define CELLS 6 /* a tile has at most so many here, all of them border cells */

typedef struct {
    size_t rows, cols;
    uint8_t grid[CELLS];
} tile;

/* A buffer of so many elements, and a byte, as none may be null. */
static void *buffer(size_t length, size_t width) {
    void *block = malloc(length * width + 1);
    if (block == NULL)
        abort();
    return block;
}

static uint32_t *work(size_t length) {
    return buffer(length, sizeof(uint32_t));
}

/* Writes a tile's record and prints it; the answer is the number of the reply. */
static uint32_t record_and_print(const tile *t, size_t tile_row, size_t tile_col, uint8_t *record) {
    size_t record_len = drainage_record_length(t->rows, t->cols);
    size_t work1_len = drainage_record_work1(t->rows, t->cols);
    size_t work2_len = drainage_record_work2(t->rows, t->cols);
    uint32_t *work1 = work(work1_len), *work2 = work(work2_len);
    drainage_reply reply = drainage_record(t->rows, t->cols, tile_row, tile_col, t->grid, t->rows * t->cols, record,
                                           record_len, work1, work1_len, work2, work2_len);
    free(work1);
    free(work2);

    printf("tile %zu, %zu: ", tile_row, tile_col);
    if (reply.number != DRAINAGE_DONE) {
        printf("refused %" PRIu32 "\n", reply.number);
        return reply.number;
    }
    printf("record");
    for (size_t byte = 0; byte < record_len; byte++)
        printf(" %02x", record[byte]);
    printf("\n");
    return reply.number;
}

static drainage_reply join(size_t tile_rows, size_t tile_cols, const uint8_t *records, size_t records_len,
                           uint32_t *incoming, size_t cells) {
    size_t lengths[] = {drainage_join_work1(cells), drainage_join_work2(cells), drainage_join_work3(cells),
                        drainage_join_work4(cells), drainage_join_work5(cells)};
    uint32_t *works[5];
    for (int i = 0; i < 5; i++)
        works[i] = work(lengths[i]);
    drainage_reply reply =
        drainage_join(tile_rows, tile_cols, records, records_len, incoming, cells, works[0], lengths[0], works[1],
                      lengths[1], works[2], lengths[2], works[3], lengths[3], works[4], lengths[4]);
    for (int i = 0; i < 5; i++)
        free(works[i]);
    return reply;
}

/* Finishes a tile and prints its counts. */
static void finish_and_print(const tile *t, const uint32_t *incoming) {
    uint32_t counts[CELLS];
    size_t cells = t->rows * t->cols, work1_len = drainage_finish_work1(t->rows, t->cols);
    uint32_t *work1 = work(work1_len);
    drainage_reply reply = drainage_finish(t->rows, t->cols, t->grid, cells, incoming,
                                           drainage_border_cells(t->rows, t->cols), counts, cells, work1, work1_len);
    free(work1);
    if (reply.number != DRAINAGE_DONE) {
        printf("refused %" PRIu32 "\n", reply.number);
        return;
    }
    for (size_t cell = 0; cell < cells; cell++)
        printf("%" PRIu32 "%c", counts[cell], (cell + 1) % t->cols == 0 ? '\n' : ' ');
}

/* Joins the records of two tiles and finishes the tiles. */
static void join_and_finish(size_t tile_rows, size_t tile_cols, const tile tiles[TILES], const uint8_t *records,
                            size_t records_len) {
    uint32_t incoming[TILES * CELLS];
    size_t cells = 0, first = 0;

    for (size_t number = 0; number < TILES; number++)
        cells += drainage_border_cells(tiles[number].rows, tiles[number].cols);
    drainage_reply reply = join(tile_rows, tile_cols, records, records_len, incoming, cells);
    if (reply.number == DRAINAGE_LOOP) {
        printf("refused %" PRIu32 " at tile %" PRIu64 " border %" PRIu64 " exits %" PRIu64 "\n", reply.number,
               reply.value[0], reply.value[1], reply.value[2]);
        return;
    }
    if (reply.number != DRAINAGE_DONE) {
        printf("refused %" PRIu32 "\n", reply.number);
        return;
    }
    printf("incoming");
    for (size_t cell = 0; cell < cells; cell++)
        printf(" %" PRIu32, incoming[cell]);
    printf("\n");

    for (size_t number = 0; number < TILES; number++) {
        finish_and_print(&tiles[number], incoming + first);
        first += drainage_border_cells(tiles[number].rows, tiles[number].cols);
    }
}

/* Takes two tiles, one below or beside the other, through the three steps. */
static void count_by_tiles(size_t tile_rows, size_t tile_cols, const tile tiles[TILES]) {
    size_t lengths[TILES], bytes = 0, at = 0;

    for (size_t number = 0; number < TILES; number++) {
        lengths[number] = drainage_record_length(tiles[number].rows, tiles[number].cols);
        bytes += lengths[number];
    }
    uint8_t *records = buffer(bytes, 1);
    for (size_t number = 0; number < TILES; number++) {
        if (record_and_print(&tiles[number], number / tile_cols, number % tile_cols, records + at) != DRAINAGE_DONE) {
            free(records);
            return;
        }
        at += lengths[number];
    }
    join_and_finish(tile_rows, tile_cols, tiles, records, bytes);
    free(records);
}

int main(void) {
    const tile case_h[TILES] = {{1, 3, {2, 4, 8}}, {2, 3, {1, 4, 16, 128, 4, 32}}};
    const tile case_l[TILES] = {{1, 2, {4, 1}}, {1, 2, {1, 64}}};
    const tile case_m[TILES] = {{1, 1, {1}}, {1, 1, {16}}};
    const uint8_t no_record[] = {1, 0, 8};
    uint32_t nothing[1];

    count_by_tiles(2, 1, case_h);
    count_by_tiles(2, 1, case_l);
    count_by_tiles(1, 2, case_m);

    /* A record that is cut short is at fault at the first byte of its field; 65 tiles are no mosaic. */
    drainage_reply reply = join(1, 1, no_record, sizeof no_record, nothing, 1);
    if (reply.number == DRAINAGE_RECORD)
        printf("refused %" PRIu32 " at %" PRIu64 "\n", reply.number, reply.value[0]);
    reply = join(65, 1, no_record, sizeof no_record, nothing, 1);
    if (reply.number == DRAINAGE_LAYOUT)
        printf("refused %" PRIu32 " at %" PRIu64 "\n", reply.number, reply.value[0]);
    return 0;
}
