/* A plain counter in C, written from paper 01 alone, to which tests/memory.c holds the library: it follows the water of
 * each cell down. It is slow, and meant for small sheets. */
#ifndef PLAIN_H
#define PLAIN_H

#include "drainage.h"
#include <string.h>

#define CELLS 65536 /* no sheet here has more, which is the greatest tile */
#define TILES 64
#define GREATEST_INCOMING 4194304
#define NONE SIZE_MAX

typedef struct {
    size_t rows, cols;
    uint8_t grid[CELLS + 1];
} sheet;

static drainage_reply reply_of(uint32_t number, size_t first, size_t second, size_t third) {
    drainage_reply reply = {number, {first, second, third, 0, 0, 0}};
    return reply;
}

static const struct {
    uint8_t code;
    int row, col;
} steps[8] = {{1, 0, 1}, {2, 1, 1}, {4, 1, 0}, {8, 1, -1}, {16, 0, -1}, {32, -1, -1}, {64, -1, 0}, {128, -1, 1}};

static int is_land(uint8_t code) {
    return code != 0 && (code & (code - 1)) == 0;
}

static int is_bad(uint8_t code) {
    return !is_land(code) && code != 0 && code != 255;
}

static size_t cells_of(const sheet *s) {
    return s->rows * s->cols;
}

/* The place that a land cell's arrow steps onto, NONE if that is off the sheet. */
static size_t target(const sheet *s, size_t place) {
    for (int i = 0; i < 8; i++) {
        if (steps[i].code != s->grid[place])
            continue;
        size_t row = place / s->cols + (size_t)steps[i].row, col = place % s->cols + (size_t)steps[i].col;
        return row < s->rows && col < s->cols ? row * s->cols + col : NONE;
    }
    return NONE;
}

/* The land cell that a cell's water goes to, NONE if there is none. */
static size_t next(const sheet *s, size_t place) {
    size_t onto = target(s, place);
    return onto != NONE && is_land(s->grid[onto]) ? onto : NONE;
}

/* The number of cells of the loop that the cell lies on, 0 if it lies on none. */
static size_t loop_length(const sheet *s, size_t place) {
    size_t at = place;
    for (size_t length = 1; length <= cells_of(s); length++) {
        at = next(s, at);
        if (at == NONE)
            return 0;
        if (at == place)
            return length;
    }
    return 0;
}

/* Adds an amount to a cell and to all that its water passes. */
static void pour(const sheet *s, size_t place, uint32_t amount, uint32_t *counts) {
    for (; place != NONE; place = next(s, place))
        counts[place] += amount;
}

/* The reply of counting, and where that is 0 or 4 what the counts hold then. */
static drainage_reply plain_count(const sheet *s, uint32_t *counts) {
    size_t land = 0, outlets = 0, greatest = 0;
    for (size_t place = 0; place < cells_of(s); place++)
        if (is_bad(s->grid[place]))
            return reply_of(3, place, 0, 0);
    memset(counts, 0, cells_of(s) * sizeof *counts);
    for (size_t place = 0; place < cells_of(s); place++)
        if (loop_length(s, place) != 0)
            return reply_of(4, place, loop_length(s, place), 0);
    for (size_t place = 0; place < cells_of(s); place++) {
        if (!is_land(s->grid[place]))
            continue;
        pour(s, place, 1, counts);
        land++;
        outlets += next(s, place) == NONE;
    }
    for (size_t place = 0; place < cells_of(s); place++)
        greatest = counts[place] > greatest ? counts[place] : greatest;
    return reply_of(0, land, outlets, greatest);
}

static drainage_reply plain_check(const sheet *s, const uint32_t *counts) {
    static uint64_t sums[CELLS];
    for (size_t place = 0; place < cells_of(s); place++) {
        if (is_bad(s->grid[place]))
            return reply_of(3, place, 0, 0);
        sums[place] = is_land(s->grid[place]);
    }
    for (size_t place = 0; place < cells_of(s); place++)
        if (next(s, place) != NONE)
            sums[next(s, place)] += counts[place];
    for (size_t place = 0; place < cells_of(s); place++)
        if (counts[place] != sums[place])
            return reply_of(5, place, 0, 0);
    return reply_of(0, 0, 0, 0);
}

/* The places of a tile's border cells in order; their number is the answer. */
static size_t border_places(const sheet *tile, size_t *places) {
    size_t number = 0;
    for (size_t place = 0; place < cells_of(tile); place++) {
        size_t row = place / tile->cols, col = place % tile->cols;
        if (row == 0 || row + 1 == tile->rows || col == 0 || col + 1 == tile->cols)
            places[number++] = place;
    }
    return number;
}

/* Writes a number, its highest byte first; the answer is where the next one goes. */
static uint8_t *put(uint8_t *to, size_t number, int width) {
    for (int byte = width - 1; byte >= 0; byte--)
        *to++ = (uint8_t)(number >> (8 * byte));
    return to;
}

static uint8_t *put_way(uint8_t *to, const sheet *tile, size_t place, const size_t *places) {
    size_t border = 0;
    if (!is_land(tile->grid[place]))
        return put(put(to, 65535, 2), 255, 1);
    while (next(tile, place) != NONE)
        place = next(tile, place);
    if (target(tile, place) != NONE)
        return put(put(to, 65535, 2), 0, 1);
    while (places[border] != place)
        border++;
    return put(put(to, border, 2), tile->grid[place], 1);
}

/* The reply of writing a record, and where that is 0 the record's bytes. */
static drainage_reply plain_record(const sheet *tile, size_t tile_row, size_t tile_col, uint8_t *to) {
    static uint32_t counts[CELLS];
    static size_t places[CELLS];
    size_t number = border_places(tile, places);
    drainage_reply reply = plain_count(tile, counts);
    if (reply.number != 0)
        return reply;
    to = put(put(put(put(put(put(to, 1, 1), 8, 2), tile->rows, 2), tile->cols, 2), tile_row, 2), tile_col, 2);
    to = put(put(to, 2, 1), 4 * number, 2);
    for (size_t border = 0; border < number; border++)
        to = put(to, counts[places[border]], 4);
    to = put(put(to, 3, 1), 3 * number, 2);
    for (size_t border = 0; border < number; border++)
        to = put_way(to, tile, places[border], places);
    return reply_of(0, 0, 0, 0);
}

/* The reply of finishing, and where that is 0 or 4 what the counts hold then. */
static drainage_reply plain_finish(const sheet *tile, const uint32_t *incoming, uint32_t *counts) {
    static size_t places[CELLS];
    size_t number = border_places(tile, places);
    drainage_reply reply = plain_count(tile, counts);
    if (reply.number == 3)
        return reply;
    for (size_t border = 0; border < number; border++)
        if (incoming[border] > (is_land(tile->grid[places[border]]) ? GREATEST_INCOMING : 0))
            return reply_of(10, border, 0, 0);
    if (reply.number == 4)
        return reply;
    for (size_t border = 0; border < number; border++)
        pour(tile, places[border], incoming[border], counts);
    return reply_of(0, 0, 0, 0);
}

/* A sheet cut by full rows and columns. */
typedef struct {
    size_t tile_rows, tile_cols, heights[TILES], widths[TILES];
} cut;

/* The tile of this number, and the place on the sheet of each of its cells. */
static void take_tile(const sheet *s, const cut *c, size_t number, sheet *tile, size_t *on_sheet) {
    size_t tile_row = number / c->tile_cols, tile_col = number % c->tile_cols, north = 0, west = 0;
    for (size_t i = 0; i < tile_row; i++)
        north += c->heights[i];
    for (size_t i = 0; i < tile_col; i++)
        west += c->widths[i];
    tile->rows = c->heights[tile_row];
    tile->cols = c->widths[tile_col];
    for (size_t place = 0; place < cells_of(tile); place++) {
        on_sheet[place] = (north + place / tile->cols) * s->cols + west + place % tile->cols;
        tile->grid[place] = s->grid[on_sheet[place]];
    }
}

/* The reply of joining the records of a sheet whose tiles have no loop, and where that is 0 what comes in at each
 * border cell: from the cells of other tiles, by the counts of the whole sheet. */
static drainage_reply plain_join(const sheet *s, const cut *c, const uint32_t *counts, uint32_t *incoming) {
    static sheet tile;
    static size_t on_sheet[CELLS], tile_of[CELLS], places[CELLS];
    static uint32_t comes_in[CELLS];
    size_t tiles = c->tile_rows * c->tile_cols;
    for (size_t number = 0; number < tiles; number++) {
        take_tile(s, c, number, &tile, on_sheet);
        for (size_t place = 0; place < cells_of(&tile); place++)
            tile_of[on_sheet[place]] = number;
    }
    memset(comes_in, 0, cells_of(s) * sizeof *comes_in);
    for (size_t place = 0; place < cells_of(s); place++)
        if (next(s, place) != NONE && tile_of[next(s, place)] != tile_of[place])
            comes_in[next(s, place)] += counts[place];
    for (size_t number = 0; number < tiles; number++) {
        take_tile(s, c, number, &tile, on_sheet);
        size_t borders = border_places(&tile, places);
        for (size_t border = 0; border < borders; border++) {
            size_t first = on_sheet[places[border]], exits = 0, place = first;
            *incoming++ = comes_in[first];
            if (loop_length(s, first) == 0 || tile_of[next(s, first)] == number)
                continue;
            do {
                exits += tile_of[next(s, place)] != tile_of[place];
                place = next(s, place);
            } while (place != first);
            return reply_of(4, number, border, exits);
        }
    }
    return reply_of(0, 0, 0, 0);
}

#endif
