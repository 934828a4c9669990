/* The flattener's four calls. docs/INTERFACE.md says what the words are, docs/RULES.md what the numbers mean.
 * No value has to be vetted before a call: a refused one changes no word. What a host owes is memory: each pointer is
 * of as many 64-bit words as the length beside it, aligned as a uint64_t is, and no two of a call's slices overlap
 * (a row inside the row buffer gives wrong rows with reply 0). */
#ifndef FLATTEN_H
#define FLATTEN_H

#include <stddef.h>
#include <stdint.h>

/* The cells of a row by their codes: the axes, what rides on a group's first row, how a block curves. An axis list may
 * name the axes and the riders. All other numbers of the layout follow from these names and FLAT_STORE_BLOCKS. */
enum {
    FLAT_X, FLAT_Y, FLAT_Z, FLAT_A, FLAT_B, FLAT_C, FLAT_U, FLAT_V, FLAT_W, FLAT_E,
    FLAT_A2, FLAT_B2, FLAT_C2, FLAT_U2, FLAT_V2, FLAT_W2, FLAT_AXIS_CODES,
    FLAT_N = FLAT_AXIS_CODES, FLAT_F, FLAT_S, FLAT_D, FLAT_T, FLAT_LIST_CODES,
    FLAT_I = FLAT_LIST_CODES, FLAT_J, FLAT_K, FLAT_CR, FLAT_TURN, FLAT_PW, FLAT_SD, FLAT_PL, FLAT_CELLS
};

/* Blocks that a spline holds at most. */
enum { FLAT_STORE_BLOCKS = 256 };

/* Motions; those above FLAT_CSPLINE are other curve words, up to FLAT_LAST_MOTION. */
enum { FLAT_NONE, FLAT_G0, FLAT_G1, FLAT_G2, FLAT_G3, FLAT_ASPLINE, FLAT_BSPLINE, FLAT_CSPLINE, FLAT_LAST_MOTION = 31 };

/* The words of a row; cell k is word FLAT_CELL + k, and is there where bit k of FLAT_PRESENT is set. */
enum { FLAT_LINE, FLAT_MOTION, FLAT_PLANE, FLAT_MARK, FLAT_CARRY, FLAT_PRESENT, FLAT_CELL };

/* The words of a saved state; a mask is followed by a word for each axis code. */
enum {
    FLAT_S_TOLERANCE,
    FLAT_S_AXIS_COUNT,
    FLAT_S_AXES,
    FLAT_S_MOTION = FLAT_S_AXES + FLAT_LIST_CODES,
    FLAT_S_PLANE,
    FLAT_S_KNOWN,
    FLAT_S_WARNED = FLAT_S_KNOWN + 1 + FLAT_AXIS_CODES,
    FLAT_S_START,
    FLAT_S_DEGREE = FLAT_S_START + 1 + FLAT_AXIS_CODES,
    FLAT_S_HELD,
    FLAT_STATE_WORDS
};

enum { FLAT_ROW_WORDS = FLAT_CELL + FLAT_CELLS, FLAT_STORE_WORDS = FLAT_STORE_BLOCKS * FLAT_ROW_WORDS };

/* code 0 is done; count is the rows written, or with code 7 the rows needed. */
struct flat_reply {
    uint64_t code, count, warning, wanted, held;
};

#ifdef __cplusplus
extern "C" {
#endif

struct flat_reply flat_start(uint64_t *state, size_t words, uint64_t tolerance_bits,
                             const uint64_t *axes, size_t axis_count);
struct flat_reply flat_seed(uint64_t *state, size_t words, uint64_t axis, uint64_t value_bits);
struct flat_reply flat_push(uint64_t *state, size_t words, uint64_t *store, size_t store_words,
                            uint64_t *rows, size_t row_words, const uint64_t *row, size_t this_row_words);
struct flat_reply flat_close(uint64_t *state, size_t words, const uint64_t *store, size_t store_words,
                             uint64_t *rows, size_t row_words);

#ifdef __cplusplus
}
#endif

#endif
