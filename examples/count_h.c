/* A small client of libdrainage.a: counts case H of paper 01 and prints it as the count program does, then shows what
 * the refusals look like. */
#include "drainage.h"
#include <inttypes.h>
#include <stdio.h>

/* The counts are worth printing only where the reply is done: after a loop they are 0 throughout, like dry land. */
static void count_and_print(size_t rows, size_t cols, const uint8_t *grid, size_t grid_len) {
    uint32_t counts[9] = {0};
    drainage_reply reply = drainage_count(rows, cols, grid, grid_len, counts, grid_len);

    switch (reply.number) {
    case DRAINAGE_DONE:
        printf("rows %zu cols %zu\n", rows, cols);
        for (size_t place = 0; place < grid_len; place++)
            printf("%" PRIu32 "%c", counts[place], (place + 1) % cols == 0 ? '\n' : ' ');
        printf("land %" PRIu64 " outlets %" PRIu64 " greatest %" PRIu64 "\n", reply.value[0], reply.value[1],
               reply.value[2]);
        break;
    case DRAINAGE_CODE:
        printf("refused %" PRIu32 " at %" PRIu64 "\n", reply.number, reply.value[0]);
        break;
    case DRAINAGE_LOOP:
        printf("refused %" PRIu32 " at %" PRIu64 " length %" PRIu64 "\n", reply.number, reply.value[0], reply.value[1]);
        break;
    default: /* DRAINAGE_SHAPE and DRAINAGE_LENGTH have no values */
        printf("refused %" PRIu32 "\n", reply.number);
    }
}

int main(void) {
    const uint8_t case_h[] = {2, 4, 8, 1, 4, 16, 128, 4, 32};
    const uint8_t case_f[] = {1, 1, 1, 16}; /* places 0 and 1 lie above a loop of two cells */
    const uint8_t case_g[] = {1, 16, 3};    /* a bad code is told before a loop */

    if (drainage_version() != DRAINAGE_VERSION) {
        fprintf(stderr, "the header is of version %d, the archive of %" PRIu32 "\n", DRAINAGE_VERSION,
                drainage_version());
        return 1;
    }
    count_and_print(3, 3, case_h, sizeof case_h);
    count_and_print(1, 4, case_f, sizeof case_f);
    count_and_print(1, 3, case_g, sizeof case_g);
    count_and_print(3, 2, case_h, sizeof case_h); /* nine cells are no sheet of 3 by 2 */
    count_and_print(4097, 1, case_h, sizeof case_h);
    return 0;
}
