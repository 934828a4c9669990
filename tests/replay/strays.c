/* A library that is none: each call replies the variables CODE and COUNT and writes one word where the variable STRAY says.
 * By it tests/replay/strays holds that hosts/c/replay.c sees such a write. */
#include "tally.h"

#include <stdlib.h>
#include <string.h>

static uint64_t number(const char *name) {
    return strtoull(getenv(name), NULL, 10);
}

static struct flat_reply reply(void) {
    struct flat_reply r = {0, 0, 0, 0, 0};
    r.code = number("CODE");
    r.count = number("COUNT");
    return r;
}

/* Writes another number to a word, where NAME of it is the stray one. */
static void may_write(const char *name, const uint64_t *word) {
    if (strcmp(getenv("STRAY"), name) == 0)
        *(uint64_t *)word ^= 1;
}

static void may_write_any(const char *before, const char *first, const char *last, const char *behind,
                          const uint64_t *words, size_t length) {
    may_write(before, words - 1);
    may_write(first, words);
    may_write(last, words + length - 1);
    may_write(behind, words + length);
}

static void may_write_state(const uint64_t *state, size_t words) {
    may_write_any("before-state", "state", "last-of-state", "behind-state", state, words);
}

static void may_write_rows(const uint64_t *rows, size_t words) {
    may_write_any("before-rows", "rows", "last-of-rows", "behind-rows", rows, words);
}

/* The rows of a note have names of their own, since the call that it tells of was lent the same rows. */
static void may_write_told(const uint64_t *rows, size_t words) {
    may_write_any("before-told", "told", "last-of-told", "behind-told", rows, words);
    may_write("told-mark", rows + FLAT_MARK);
    may_write("second-told-mark", rows + FLAT_ROW_WORDS + FLAT_MARK);
}

static void may_write_tally(const uint64_t *tally, size_t words) {
    may_write_any("before-tally", "tally", "last-of-tally", "behind-tally", tally, words);
}

struct flat_reply flat_start(uint64_t *state, size_t words, uint64_t tolerance_bits, const uint64_t *axes,
                             size_t axis_count) {
    (void)tolerance_bits;
    may_write_state(state, words);
    may_write_any("before-given", "given", "last-given", "behind-given", axes, axis_count);
    return reply();
}

struct flat_reply flat_seed(uint64_t *state, size_t words, uint64_t axis, uint64_t value_bits) {
    (void)axis, (void)value_bits;
    may_write_state(state, words);
    return reply();
}

struct flat_reply flat_push(uint64_t *state, size_t words, uint64_t *store, size_t store_words, uint64_t *rows,
                            size_t row_words, const uint64_t *row, size_t this_row_words) {
    may_write_state(state, words);
    may_write_any("before-store", "store", "last-of-store", "behind-store", store, store_words);
    may_write_rows(rows, row_words);
    may_write_any("before-given", "given", "last-given", "behind-given", row, this_row_words);
    return reply();
}

struct flat_reply flat_close(uint64_t *state, size_t words, const uint64_t *store, size_t store_words, uint64_t *rows,
                             size_t row_words) {
    may_write_state(state, words);
    may_write_any("before-store", "store", "last-of-store", "behind-store", store, store_words);
    may_write_rows(rows, row_words);
    return reply();
}

struct flat_reply tally_start(uint64_t *tally, size_t words) {
    may_write_tally(tally, words);
    return reply();
}

struct flat_reply tally_note(uint64_t *tally, size_t words, uint64_t job, uint64_t kind, uint64_t told, uint64_t count,
                             uint64_t warning, const uint64_t *rows, size_t row_words) {
    (void)job, (void)kind, (void)told, (void)count, (void)warning;
    may_write_tally(tally, words);
    may_write_told(rows, row_words);
    return reply();
}

struct tally_rates tally_rates(const uint64_t *tally, size_t words) {
    struct tally_rates r = {0, 0, 0, 0, 0};
    r.code = number("CODE");
    may_write_tally(tally, words);
    return r;
}
