/* A second client of libdrainage.a: changes one cell of case H of paper 01 and has the counts mended, as in cases I, J
 * and K, then shows what a check of wrong counts says. */
#include "drainage.h"
#include <inttypes.h>
#include <stdio.h>
#include <string.h>

#define ROWS 3
#define COLS 3
#define CELLS (ROWS * COLS)

static const uint8_t case_h[CELLS] = {2, 4, 8, 1, 4, 16, 128, 4, 32};
static const uint32_t counts_of_h[CELLS] = {1, 1, 1, 1, 8, 1, 1, 9, 1};

static void mend_and_print(size_t place, uint8_t code) {
    uint8_t grid[CELLS];
    uint32_t counts[CELLS];
    memcpy(grid, case_h, sizeof grid);
    memcpy(counts, counts_of_h, sizeof counts);

    printf("place %zu to %d: ", place, code);
    drainage_reply reply = drainage_mend(ROWS, COLS, grid, CELLS, counts, CELLS, place, code);
    if (reply.number == DRAINAGE_DONE)
        printf("done\n");
    else if (reply.number == DRAINAGE_LOOP)
        printf("refused %" PRIu32 " at %" PRIu64 " length %" PRIu64 "\n", reply.number, reply.value[0], reply.value[1]);
    else
        printf("refused %" PRIu32 "\n", reply.number);

    /* A refusal leaves both as they were. */
    for (size_t cell = 0; cell < CELLS; cell++)
        printf("%" PRIu32 "%c", counts[cell], (cell + 1) % COLS == 0 ? '\n' : ' ');
    reply = drainage_check(ROWS, COLS, grid, CELLS, counts, CELLS);
    printf("code %d, check %" PRIu32 "\n", place < CELLS ? grid[place] : -1, reply.number);
}

int main(void) {
    uint32_t wrong[CELLS];

    mend_and_print(0, 1);     /* I */
    mend_and_print(4, 64);    /* J */
    mend_and_print(4, 255);   /* K */
    mend_and_print(CELLS, 1); /* no such place */
    mend_and_print(0, 3);     /* no such code */

    memcpy(wrong, counts_of_h, sizeof wrong);
    wrong[4] = 7;
    drainage_reply reply = drainage_check(ROWS, COLS, case_h, CELLS, wrong, CELLS);
    if (reply.number == DRAINAGE_COUNT)
        printf("check refused %" PRIu32 " at %" PRIu64 "\n", reply.number, reply.value[0]);
    return 0;
}
