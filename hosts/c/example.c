/* The whole case of docs/ROWTEXT.md through the C interface: a start, six blocks, a close; each row written is printed. */
#include "flatten.h"

#include <inttypes.h>
#include <stdio.h>
#include <string.h>

enum { ROOM = 256 };

static uint64_t state[FLAT_STATE_WORDS];
static uint64_t store[FLAT_STORE_WORDS];
static uint64_t rows[ROOM * FLAT_ROW_WORDS];

static uint64_t bits(double number) {
    uint64_t word;
    memcpy(&word, &number, sizeof word);
    return word;
}

static double number(uint64_t word) {
    double it;
    memcpy(&it, &word, sizeof it);
    return it;
}

static void set(uint64_t *row, int cell, double value) {
    row[FLAT_PRESENT] |= (uint64_t)1 << cell;
    row[FLAT_CELL + cell] = bits(value);
}

static void print_rows(uint64_t count) {
    for (const uint64_t *row = rows; row < rows + count * FLAT_ROW_WORDS; row += FLAT_ROW_WORDS) {
        printf("line %" PRIu64 " motion %" PRIu64 " plane %" PRIu64 " mark %" PRIu64, row[FLAT_LINE],
               row[FLAT_MOTION], row[FLAT_PLANE], row[FLAT_MARK]);
        for (int k = 0; k < FLAT_CELLS; k++)
            if (row[FLAT_PRESENT] >> k & 1)
                printf(" [%d] %.6f", k, number(row[FLAT_CELL + k]));
        printf("\n");
    }
}

static int refused(struct flat_reply reply) {
    if (reply.code != 0)
        fprintf(stderr, "refused by %" PRIu64 ", %" PRIu64 " rows needed\n", reply.code, reply.count);
    return reply.code != 0;
}

int main(void) {
    const uint64_t axes[] = {FLAT_X, FLAT_Y, FLAT_Z};
    const size_t axis_count = sizeof axes / sizeof axes[0];
    uint64_t blocks[6][FLAT_ROW_WORDS] = {
        {1, FLAT_G1, 17}, {2, FLAT_G3}, {3, FLAT_ASPLINE}, {4, FLAT_NONE}, {5, FLAT_NONE}, {6, FLAT_G1},
    };
    set(blocks[0], FLAT_X, 0.04), set(blocks[0], FLAT_Y, 0), set(blocks[0], FLAT_F, 1000);
    set(blocks[1], FLAT_X, 0), set(blocks[1], FLAT_Y, 0.04), set(blocks[1], FLAT_I, -0.04);
    set(blocks[2], FLAT_X, 10), set(blocks[2], FLAT_Y, 0.04);
    set(blocks[3], FLAT_X, 20);
    set(blocks[4], FLAT_F, 500);
    set(blocks[5], FLAT_X, 0), set(blocks[5], FLAT_Y, 0);

    if (refused(flat_start(state, FLAT_STATE_WORDS, bits(0.1), axes, axis_count)))
        return 1;
    for (int i = 0; i < 6; i++) {
        struct flat_reply reply = flat_push(state, FLAT_STATE_WORDS, store, FLAT_STORE_WORDS, rows,
                                            ROOM * FLAT_ROW_WORDS, blocks[i], FLAT_ROW_WORDS);
        if (refused(reply))
            return 1;
        print_rows(reply.count);
    }
    struct flat_reply reply =
        flat_close(state, FLAT_STATE_WORDS, store, FLAT_STORE_WORDS, rows, ROOM * FLAT_ROW_WORDS);
    if (refused(reply))
        return 1;
    print_rows(reply.count);
    return 0;
}
