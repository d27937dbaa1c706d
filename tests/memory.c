/* Calls every function of include/drainage.h with each lent buffer a heap block of exactly its length, so that a tool
 * that watches the heap sees every byte read or written beyond it; tests/memory runs this under valgrind. All replies
 * and all buffers are compared with what the plain counter says, but for records with a changed byte, of which less is
 * known here (judge_changed). The sheets are drawn from a fixed seed. */
#include "drainage.h"
#include "plain.h"
#include <inttypes.h>
#include <stdio.h>
#include <stdlib.h>
#include <string.h>

#define BORDERS 4096 /* border cells that all tiles of a mosaic here have together at most */
#define RECORDS (17 * TILES + 7 * BORDERS)
#define BUFFERS 7

/* Pseudo-random numbers (splitmix64). */
static uint64_t state = 20261115;

static uint64_t word(void) {
    uint64_t drawn = state += 0x9E3779B97F4A7C15;
    drawn = (drawn ^ (drawn >> 30)) * 0xBF58476D1CE4E5B9;
    drawn = (drawn ^ (drawn >> 27)) * 0x94D049BB133111EB;
    return drawn ^ (drawn >> 31);
}

static size_t below(size_t bound) {
    return (size_t)(word() % bound);
}

static size_t within(size_t first, size_t last) {
    return first + below(last - first + 1);
}

/* Each operation with its buffers in a list. */

typedef struct {
    void *block;
    size_t length; /* in elements */
} lent;

#define LENT(i) b[i].block, b[i].length

static drainage_reply call_count(const size_t *n, const lent *b) {
    return drainage_count(n[0], n[1], LENT(0), LENT(1));
}

static drainage_reply call_check(const size_t *n, const lent *b) {
    return drainage_check(n[0], n[1], LENT(0), LENT(1));
}

static drainage_reply call_mend(const size_t *n, const lent *b) {
    return drainage_mend(n[0], n[1], LENT(0), LENT(1), n[2], (uint8_t)n[3]);
}

static drainage_reply call_record(const size_t *n, const lent *b) {
    return drainage_record(n[0], n[1], n[2], n[3], LENT(0), LENT(1), LENT(2), LENT(3));
}

static drainage_reply call_join(const size_t *n, const lent *b) {
    return drainage_join(n[0], n[1], LENT(0), LENT(1), LENT(2), LENT(3), LENT(4), LENT(5), LENT(6));
}

static drainage_reply call_finish(const size_t *n, const lent *b) {
    return drainage_finish(n[0], n[1], LENT(0), LENT(1), LENT(2), LENT(3));
}

enum { COUNT, CHECK, MEND, RECORD, JOIN, FINISH, OPERATIONS };

static const struct {
    const char *name;
    drainage_reply (*call)(const size_t *numbers, const lent *b);
    size_t buffers;
    size_t widths[BUFFERS]; /* bytes of an element of each buffer */
} operations[OPERATIONS] = {
    {"drainage_count", call_count, 2, {1, 4}},
    {"drainage_check", call_check, 2, {1, 4}},
    {"drainage_mend", call_mend, 2, {1, 4}},
    {"drainage_record", call_record, 4, {1, 1, 4, 4}},
    {"drainage_join", call_join, 7, {1, 4, 4, 4, 4, 4, 4}},
    {"drainage_finish", call_finish, 4, {1, 4, 4, 4}},
};

/* How often each operation gave each reply, as was expected. */
static unsigned long replies[OPERATIONS][11];

/* What a call is lent, and what is to come of it. */
typedef struct {
    int operation;
    size_t numbers[4];            /* the shape or the tile counts, then the position, or the change of mending */
    const void *content[BUFFERS]; /* what each buffer holds before; NULL if it is lent as malloc gives it */
    size_t length[BUFFERS];
    drainage_reply reply;
    const void *after[BUFFERS]; /* what each buffer is to hold after; NULL if what it held before */
} call;

static const uint32_t zeros[CELLS + 1];
static uint32_t rubbish[CELLS + 1];

static void fail(const call *c, const char *what, uint64_t found, uint64_t expected) {
    const uint8_t *first = c->content[0];
    printf("memory: %s %zu %zu %zu %zu: %s %" PRIu64 ", expected %" PRIu64 "\n  its first buffer, of %zu:",
           operations[c->operation].name, c->numbers[0], c->numbers[1], c->numbers[2], c->numbers[3], what, found,
           expected, c->length[0]);
    for (size_t i = 0; i < c->length[0] && i < 4096; i++)
        printf(" %d", first[i]);
    printf("\n");
    exit(1);
}

/* Lends blocks of exactly the lengths, calls, and compares the reply and the buffers. Where more than one reply may be
 * right, judge is asked to expect the one that came or to fail. */
static void hold(call c, void (*judge)(call *, drainage_reply)) {
    lent b[BUFFERS];
    const size_t *widths = operations[c.operation].widths, buffers = operations[c.operation].buffers;
    for (size_t i = 0; i < buffers; i++) {
        b[i].length = c.length[i];
        b[i].block = malloc(c.length[i] * widths[i]);
        if (b[i].block == NULL)
            fail(&c, "no block for buffer", i, c.length[i]);
        if (c.content[i] != NULL)
            memcpy(b[i].block, c.content[i], c.length[i] * widths[i]);
    }
    drainage_reply reply = operations[c.operation].call(c.numbers, b);
    if (judge != NULL)
        judge(&c, reply);
    if (reply.number != c.reply.number)
        fail(&c, "reply", reply.number, c.reply.number);
    for (int i = 0; i < 6; i++)
        if (reply.value[i] != c.reply.value[i])
            fail(&c, "value", reply.value[i], c.reply.value[i]);
    for (size_t i = 0; i < buffers; i++) {
        const uint8_t *right = c.after[i] != NULL ? c.after[i] : c.content[i];
        const uint8_t *found = b[i].block;
        for (size_t byte = 0; right != NULL && byte < c.length[i] * widths[i]; byte++)
            if (found[byte] != right[byte])
                fail(&c, "after the call a buffer has the byte", found[byte], right[byte]);
        free(b[i].block);
    }
    replies[c.operation][reply.number]++;
}

/* Every buffer in turn one too short, one too long, and empty. Records of another length are not reply 2. */
static void hold_lengths(call c) {
    c.reply = reply_of(2, 0, 0, 0);
    memset(c.after, 0, sizeof c.after);
    for (size_t i = c.operation == JOIN ? 1 : 0; i < operations[c.operation].buffers; i++) {
        const size_t right = c.length[i], wrong[3] = {right - 1, right + 1, 0};
        for (int w = 0; w < 3; w++) {
            c.length[i] = wrong[w];
            hold(c, NULL);
        }
        c.length[i] = right;
    }
}

/* Sheets and cuts, drawn. */

enum { ANY, OPENED, SLOPE, RIVER, KINDS };

static const uint8_t good_codes[10] = {1, 2, 4, 8, 16, 32, 64, 128, 0, 255};

/* So many sixteenths of the sheet are absent. */
static void draw_sheet(sheet *s, size_t rows, size_t cols, int kind, size_t absent) {
    s->rows = rows;
    s->cols = cols;
    for (size_t place = 0; place < rows * cols; place++) {
        size_t row = place / cols, col = place % cols;
        if (below(16) < absent)
            s->grid[place] = good_codes[within(8, 9)];
        else if (kind == SLOPE)
            s->grid[place] = good_codes[below(3)];
        else if (kind == RIVER) /* through all cells, from the last row to and fro to the first */
            s->grid[place] = col == (row % 2 ? cols - 1 : 0) ? 64 : row % 2 ? 1 : 16;
        else
            s->grid[place] = good_codes[below(8)];
    }
    for (size_t place = 0; kind == OPENED && place < rows * cols; place++)
        if (loop_length(s, place) != 0)
            s->grid[place] = 255;
}

static void draw_parts(size_t sum, size_t number, size_t *parts) {
    for (size_t part = 0; part < number; part++)
        parts[part] = 1;
    for (size_t left = sum - number; left > 0; left--)
        parts[below(number)]++;
}

static void draw_cut(cut *c, const sheet *s) {
    c->tile_rows = within(1, s->rows < 8 ? s->rows : 8);
    c->tile_cols = within(1, s->cols < 8 ? s->cols : 8);
    draw_parts(s->rows, c->tile_rows, c->heights);
    draw_parts(s->cols, c->tile_cols, c->widths);
}

/* Whole sheets. */

static call sheet_call(int operation, const sheet *s, const uint32_t *counts) {
    call c = {operation, {s->rows, s->cols, 0, 0}, {s->grid, counts}, {cells_of(s), cells_of(s)}, {0, {0}}, {NULL}};
    return c;
}

static void hold_count(const sheet *s) {
    static uint32_t counts[CELLS + 1];
    call c = sheet_call(COUNT, s, rubbish);
    c.reply = plain_count(s, counts);
    if (c.reply.number != 3)
        c.after[1] = counts;
    hold(c, NULL);
    if (c.reply.number != 3) {
        c.content[1] = NULL;
        hold(c, NULL);
    }
}

static void hold_check(const sheet *s, const uint32_t *counts) {
    call c = sheet_call(CHECK, s, counts);
    c.reply = plain_check(s, counts);
    hold(c, NULL);
}

static void hold_mend(const sheet *s, const uint32_t *counts, size_t place, uint8_t code) {
    static sheet changed;
    static uint32_t afresh[CELLS + 1];
    call c = sheet_call(MEND, s, counts);
    c.numbers[2] = place;
    c.numbers[3] = code;
    c.reply = plain_check(s, counts);
    if (c.reply.number == 0 && place >= cells_of(s)) {
        c.reply = reply_of(6, 0, 0, 0);
    } else if (c.reply.number == 0 && is_bad(code)) {
        c.reply = reply_of(7, 0, 0, 0);
    } else if (c.reply.number == 0) {
        changed.rows = s->rows;
        changed.cols = s->cols;
        memcpy(changed.grid, s->grid, cells_of(s));
        changed.grid[place] = code;
        c.reply = plain_count(&changed, afresh);
        if (c.reply.number == 0) {
            c.reply = reply_of(0, 0, 0, 0);
            c.after[0] = changed.grid;
            c.after[1] = afresh;
        }
    }
    hold(c, NULL);
}

/* Counts, checks and mends a sheet, with a spoilt count and a bad code as well. */
static void hold_sheet(sheet *s, size_t changes) {
    static uint32_t counts[CELLS + 1];
    size_t cells = cells_of(s);
    hold_count(s);
    if (plain_count(s, counts).number != 0)
        memcpy(counts, rubbish, cells * sizeof *counts);
    hold_check(s, counts);
    for (size_t change = 0; change < changes; change++)
        hold_mend(s, counts, below(cells), good_codes[below(10)]);
    hold_mend(s, counts, below(cells), (uint8_t)word());
    hold_mend(s, counts, cells, good_codes[below(10)]);
    hold_mend(s, counts, SIZE_MAX - below(2), (uint8_t)word());

    size_t spoilt = below(cells);
    uint32_t right = counts[spoilt];
    counts[spoilt] += (uint32_t)1 << below(32);
    hold_check(s, counts);
    hold_mend(s, counts, below(cells), (uint8_t)word());
    counts[spoilt] = right;

    uint8_t code = s->grid[spoilt];
    s->grid[spoilt] = (uint8_t)within(5, 7);
    hold_count(s);
    hold_check(s, counts);
    hold_mend(s, counts, spoilt, code);
    s->grid[spoilt] = code;
}

/* Every place changed to every byte, spoilt, and made a bad code. */
static void hold_every_change(sheet *s) {
    static uint32_t counts[CELLS + 1];
    if (plain_count(s, counts).number != 0)
        return;
    for (size_t place = 0; place < cells_of(s); place++) {
        for (int code = 0; code < 256; code++)
            hold_mend(s, counts, place, (uint8_t)code);
        uint8_t code = s->grid[place];
        for (int bad = 0; bad < 256; bad++) {
            s->grid[place] = (uint8_t)bad;
            hold_count(s);
            hold_check(s, counts);
        }
        s->grid[place] = code;
    }
}

/* Tiles. */

static call record_call(const sheet *tile, size_t tile_row, size_t tile_col, size_t borders) {
    size_t cells = cells_of(tile);
    call c = {RECORD,
              {tile->rows, tile->cols, tile_row, tile_col},
              {tile->grid, rubbish, rubbish, rubbish},
              {cells, 17 + 7 * borders, cells, cells},
              {0, {0}},
              {NULL}};
    return c;
}

static call finish_call(const sheet *tile, const uint32_t *incoming, size_t borders) {
    size_t cells = cells_of(tile);
    call c = {FINISH,
              {tile->rows, tile->cols, 0, 0},
              {tile->grid, incoming, rubbish, rubbish},
              {cells, borders, cells, cells},
              {0, {0}},
              {NULL}};
    return c;
}

static call join_call(const cut *c, const uint8_t *records, size_t bytes, size_t borders) {
    call j = {JOIN,
              {c->tile_rows, c->tile_cols, 0, 0},
              {records, rubbish, rubbish, rubbish, rubbish, rubbish, rubbish},
              {bytes, borders, borders, borders, borders, borders, 128},
              {0, {0}},
              {NULL}};
    return j;
}

/* The answer is the number of the reply. */
static uint32_t hold_record(const sheet *tile, size_t tile_row, size_t tile_col, uint8_t *record, size_t borders) {
    call c = record_call(tile, tile_row, tile_col, borders);
    c.reply = plain_record(tile, tile_row, tile_col, record);
    if (c.reply.number == 0)
        c.after[1] = record;
    if (c.reply.number != 3)
        c.after[2] = c.after[3] = zeros;
    hold(c, NULL);
    if (c.reply.number == 0) {
        c.content[1] = c.content[2] = c.content[3] = NULL;
        hold(c, NULL);
    }
    return c.reply.number;
}

/* The answer is what the counts are to be where the tile is finished. */
static const uint32_t *hold_finish(const sheet *tile, const uint32_t *incoming, size_t borders) {
    static uint32_t counts[CELLS + 1];
    call c = finish_call(tile, incoming, borders);
    c.reply = plain_finish(tile, incoming, counts);
    if (c.reply.number == 0 || c.reply.number == 4) {
        c.after[2] = counts;
        c.after[3] = zeros;
    }
    hold(c, NULL);
    if (c.reply.number == 0) {
        c.content[2] = c.content[3] = NULL;
        hold(c, NULL);
    }
    return counts;
}

/* Finishing with what no other tile gives: as much as may come in, more than that, and something at any border cell;
 * and a bad code in the tile. */
static void hold_odd_tile(sheet *tile, size_t borders) {
    static uint32_t incoming[BORDERS + 1];
    static const uint32_t odd[4] = {GREATEST_INCOMING, GREATEST_INCOMING + 1, 1, UINT32_MAX};
    for (int i = 0; i < 4; i++) {
        size_t border = below(borders);
        incoming[border] = odd[i];
        hold_finish(tile, incoming, borders);
        incoming[border] = 0;
    }
    size_t place = below(cells_of(tile));
    uint8_t code = tile->grid[place];
    tile->grid[place] = (uint8_t)within(5, 7);
    hold_record(tile, 0, 0, NULL, borders);
    hold_finish(tile, incoming, borders);
    tile->grid[place] = code;
}

/* Takes a sheet of good codes through the three steps in tiles. Where all of them are done, the answer is the call of
 * joining, with records that stay until the next sheet; otherwise its records are NULL. */
static call hold_tiles(const sheet *s, const cut *c) {
    static sheet tile;
    static uint8_t records[RECORDS + 1];
    static uint32_t whole[CELLS + 1], incoming[BORDERS + 1];
    static size_t on_sheet[CELLS], places[CELLS];
    size_t tiles = c->tile_rows * c->tile_cols, bytes = 0, borders = 0, loops = 0;
    call refused = join_call(c, NULL, 0, 0);
    int counted = plain_count(s, whole).number == 0;

    for (size_t number = 0; number < tiles; number++) {
        take_tile(s, c, number, &tile, on_sheet);
        size_t of_tile = border_places(&tile, places);
        uint8_t *record = records + bytes;
        loops += hold_record(&tile, number / c->tile_cols, number % c->tile_cols, record, of_tile) == 4;
        hold_odd_tile(&tile, of_tile);
        bytes += 17 + 7 * of_tile;
        borders += of_tile;
    }
    if (loops > 0)
        return refused;

    call join = join_call(c, records, bytes, borders);
    join.reply = plain_join(s, c, whole, incoming);
    join.after[1] = join.reply.number == 0 ? incoming : zeros;
    for (int i = 2; i < 7; i++)
        join.after[i] = zeros;
    hold(join, NULL);
    if ((join.reply.number == 0) != counted)
        fail(&join, "a loop on the whole sheet, but reply", join.reply.number, 4);
    if (!counted)
        return refused;
    for (int i = 1; i < 7; i++)
        join.content[i] = NULL;
    hold(join, NULL);
    for (int i = 1; i < 7; i++)
        join.content[i] = rubbish;

    borders = 0;
    for (size_t number = 0; number < tiles; number++) {
        take_tile(s, c, number, &tile, on_sheet);
        size_t of_tile = border_places(&tile, places);
        const uint32_t *finished = hold_finish(&tile, incoming + borders, of_tile);
        for (size_t place = 0; place < cells_of(&tile); place++)
            if (finished[place] != whole[on_sheet[place]])
                fail(&join, "a tile's count and that of the whole sheet:", finished[place], whole[on_sheet[place]]);
        borders += of_tile;
    }
    return join;
}

/* Records that are none. */

/* Where each field begins, three to a record, and the byte that was changed. */
static size_t starts[3 * TILES], fields, changed_byte;

/* The field that this byte stands in. */
static size_t field_of(size_t byte) {
    size_t field = 0;
    while (field + 1 < fields && starts[field + 1] <= byte)
        field++;
    return field;
}

/* What a changed byte may lead to: nothing before its own field is at fault, and a refusal for the layout names a
 * record; or the records are well formed all the same, and then say what nobody knows here. */
static void judge_changed(call *c, drainage_reply reply) {
    size_t field = field_of((size_t)reply.value[0]), changed = field_of(changed_byte);
    c->reply = reply;
    if (reply.number == 8 || reply.number == 9) {
        if (reply.value[0] != starts[field] || reply.value[1] != 0)
            fail(c, "at fault is byte", reply.value[0], starts[field]);
        if (reply.number == 8 ? field < changed : field % 3 != 0 || field / 3 < changed / 3)
            fail(c, "at fault is byte", reply.value[0], starts[changed]);
    } else if (reply.number == 0 || reply.number == 4) {
        for (int i = 2; i < 7; i++)
            c->after[i] = zeros;
        c->after[1] = reply.number == 4 ? zeros : NULL;
        c->content[1] = NULL;
    } else {
        fail(c, "reply", reply.number, 8);
    }
}

static void hold_spoilt_records(call join) {
    static uint8_t spoilt[RECORDS + 1];
    static const uint8_t flips[] = {1, 2, 3, 4, 8, 16, 32, 64, 128, 255};
    size_t bytes = join.length[0];
    memcpy(spoilt, join.content[0], bytes);
    join.content[0] = spoilt;
    memset(join.after, 0, sizeof join.after);
    fields = 0;
    for (size_t at = 0; at < bytes;) {
        size_t borders = ((size_t)spoilt[at + 12] << 8 | spoilt[at + 13]) / 4;
        starts[fields++] = at;
        starts[fields++] = at + 11;
        starts[fields++] = at + 14 + 4 * borders;
        at += 17 + 7 * borders;
    }

    for (changed_byte = 0; changed_byte < bytes; changed_byte++)
        for (size_t i = 0; i < sizeof flips; i++) {
            spoilt[changed_byte] ^= flips[i];
            hold(join, judge_changed);
            spoilt[changed_byte] ^= flips[i];
        }
    /* Cut off at each length, and followed by a byte. */
    for (join.length[0] = 0; join.length[0] < bytes; join.length[0]++) {
        join.reply = reply_of(8, starts[field_of(join.length[0])], 0, 0);
        hold(join, NULL);
    }
    spoilt[bytes] = 1;
    join.length[0] = bytes + 1;
    join.reply = reply_of(8, bytes, 0, 0);
    hold(join, NULL);
}

/* What is no shape, no position, no mosaic. */

static const size_t sheet_sides[] = {0, 1, 3, 4096, 4097, 65536, SIZE_MAX / 65536 + 1, SIZE_MAX / 2 + 1, SIZE_MAX};
static const size_t tile_sides[] = {0, 1, 3, 256, 257, 4096, 65536, SIZE_MAX / 2 + 1, SIZE_MAX};

static void hold_shape(int operation, size_t rows, size_t cols) {
    /* The length that fits, also where what is left of a product that is too great fits; else a few cells. */
    size_t cells = rows * cols <= CELLS ? rows * cols : 6;
    call c = {
        operation, {rows, cols, 0, 0}, {rubbish, rubbish, rubbish, rubbish}, {cells, cells, cells, cells}, {1, {0}},
        {NULL}};
    hold(c, NULL);
}

static void hold_shapes(void) {
    for (int i = 0; i < 9; i++)
        for (int j = 0; j < 9; j++) {
            size_t rows = sheet_sides[i], cols = sheet_sides[j];
            if (rows - 1 >= 4096 || cols - 1 >= 4096)
                for (int operation = COUNT; operation <= MEND; operation++)
                    hold_shape(operation, rows, cols);
            rows = tile_sides[i];
            cols = tile_sides[j];
            if (rows - 1 >= 256 || cols - 1 >= 256) {
                hold_shape(RECORD, rows, cols);
                hold_shape(FINISH, rows, cols);
            }
        }
}

static void hold_layouts(const sheet *tile, call join) {
    static const size_t positions[4][2] = {{64, 0}, {0, 64}, {SIZE_MAX, 63}, {65535, SIZE_MAX / 2 + 1}};
    static const size_t mosaics[9][2] = {
        {0, 1}, {1, 0}, {0, 0}, {65, 1}, {1, 65}, {13, 5}, {SIZE_MAX, 1}, {SIZE_MAX / 2 + 1, 2}, {SIZE_MAX, SIZE_MAX}};
    for (int i = 0; i < 4; i++) {
        call record = record_call(tile, positions[i][0], positions[i][1], 0);
        record.reply = reply_of(9, 0, 0, 0);
        hold(record, NULL);
    }
    join.reply = reply_of(9, 0, 0, 0);
    memset(join.after, 0, sizeof join.after);
    for (int i = 0; i < 9; i++) {
        memcpy(join.numbers, mosaics[i], sizeof mosaics[i]);
        hold(join, NULL);
    }
}

static void told(const char *name, size_t found, size_t expected) {
    if (found != expected) {
        printf("memory: %s tells %zu, expected %zu\n", name, found, expected);
        exit(1);
    }
}

/* The functions that are lent nothing: the version, and those that tell lengths. */
static void hold_told(void) {
    told("drainage_version", drainage_version(), DRAINAGE_VERSION);
    for (size_t rows = 0; rows <= 258; rows++)
        for (size_t cols = 0; cols <= 258; cols++) {
            int is_tile = rows - 1 < 256 && cols - 1 < 256, is_line = rows == 1 || cols == 1;
            size_t cells = is_tile ? rows * cols : 0;
            size_t borders = is_tile && !is_line ? 2 * rows + 2 * cols - 4 : cells;
            told("drainage_border_cells", drainage_border_cells(rows, cols), borders);
            told("drainage_record_length", drainage_record_length(rows, cols), is_tile ? 17 + 7 * borders : 0);
            told("drainage_record_work1", drainage_record_work1(rows, cols), cells);
            told("drainage_record_work2", drainage_record_work2(rows, cols), cells);
            told("drainage_finish_work1", drainage_finish_work1(rows, cols), cells);
        }
    for (int i = 4; i < 9; i++) {
        told("drainage_border_cells", drainage_border_cells(tile_sides[i], 1), 0);
        told("drainage_record_length", drainage_record_length(1, tile_sides[i]), 0);
        told("drainage_record_length", drainage_record_length(tile_sides[i], 1), 0);
        told("drainage_record_work1", drainage_record_work1(1, tile_sides[i]), 0);
        told("drainage_record_work2", drainage_record_work2(tile_sides[i], 1), 0);
        told("drainage_finish_work1", drainage_finish_work1(1, tile_sides[i]), 0);
        told("drainage_join_work1", drainage_join_work1(tile_sides[i]), tile_sides[i]);
        told("drainage_join_work2", drainage_join_work2(tile_sides[i]), tile_sides[i]);
        told("drainage_join_work3", drainage_join_work3(tile_sides[i]), tile_sides[i]);
        told("drainage_join_work4", drainage_join_work4(tile_sides[i]), tile_sides[i]);
        told("drainage_join_work5", drainage_join_work5(tile_sides[i]), 128);
    }
}

/* Wrong lengths for every operation, on a sheet that is a tile too, and the records of a mosaic. */
static void hold_wrong_lengths(const sheet *s, call join) {
    size_t borders = drainage_border_cells(s->rows, s->cols);
    for (int operation = COUNT; operation <= MEND; operation++)
        hold_lengths(sheet_call(operation, s, rubbish));
    hold_lengths(record_call(s, 0, 0, borders));
    hold_lengths(finish_call(s, zeros, borders));
    hold_lengths(join);
}

static void hold_drawn_sheets(void) {
    static sheet s;
    cut c;
    for (size_t number = 0; number < 1600; number++) {
        size_t rows = below(6) == 0 ? 1 : within(1, 16), cols = below(6) == 0 ? 1 : within(1, 16);
        draw_sheet(&s, rows, cols, (int)(number % KINDS), 3 * below(3));
        hold_sheet(&s, 12);
        for (int i = 0; i < 2; i++) {
            draw_cut(&c, &s);
            call join = hold_tiles(&s, &c);
            if (join.content[0] == NULL)
                continue;
            hold_wrong_lengths(&s, join);
            hold_layouts(&s, join);
            if (join.length[0] <= 700 && number % 16 < 2)
                hold_spoilt_records(join);
        }
    }
}

static void hold_small_sheets(void) {
    static const size_t shapes[9][2] = {{1, 1}, {1, 2}, {2, 1}, {2, 2}, {1, 5}, {5, 1}, {2, 3}, {3, 3}, {4, 4}};
    static sheet s;
    for (int i = 0; i < 9; i++)
        for (int kind = OPENED; kind < KINDS; kind++) {
            draw_sheet(&s, shapes[i][0], shapes[i][1], kind, 3);
            hold_every_change(&s);
        }
}

/* The greatest sides, the greatest tile, and 64 tiles. */
static void hold_greatest(void) {
    static sheet s;
    cut c = {1, 16, {1}, {256, 256, 256, 256, 256, 256, 256, 256, 256, 256, 256, 256, 256, 256, 256, 256}};
    draw_sheet(&s, 4096, 1, SLOPE, 3);
    hold_sheet(&s, 1);
    draw_sheet(&s, 1, 4096, SLOPE, 3);
    hold_sheet(&s, 1);
    hold_tiles(&s, &c);
    draw_sheet(&s, 256, 256, SLOPE, 6);
    c.tile_cols = 1;
    c.heights[0] = 256;
    hold_count(&s);
    hold_tiles(&s, &c);
    draw_sheet(&s, 24, 24, RIVER, 0);
    c.tile_rows = c.tile_cols = 8;
    draw_parts(24, 8, c.heights);
    draw_parts(24, 8, c.widths);
    hold_tiles(&s, &c);
}

int main(void) {
    for (size_t i = 0; i <= CELLS; i++)
        rubbish[i] = (uint32_t)word();
    hold_told();
    hold_shapes();
    hold_small_sheets();
    hold_drawn_sheets();
    hold_greatest();

    unsigned long calls = 0;
    for (int operation = 0; operation < OPERATIONS; operation++) {
        printf("%s:", operations[operation].name);
        for (int number = 0; number < 11; number++) {
            if (replies[operation][number] != 0)
                printf(" reply %d %lu times,", number, replies[operation][number]);
            calls += replies[operation][number];
        }
        printf(" all as expected\n");
    }
    printf("memory: %lu calls with every buffer a heap block of exactly its length, 0 differences\n", calls);
    return 0;
}
