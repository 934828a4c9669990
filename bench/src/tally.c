/* What a told call costs: nanoseconds of processor time, the best of several rounds, as a table. */
#include "tally.h"

#include <inttypes.h>
#include <stdio.h>
#include <stdlib.h>
#include <time.h>

enum { ROUNDS = 15, ROUND_NS = 20000000, MOST_ROWS = 1000 };

static uint64_t tally[TALLY_WORDS];
static uint64_t rows[MOST_ROWS * FLAT_ROW_WORDS];

/* A call to tell: of which job, of what kind, and how many rows it wrote; told to a tally of so many jobs. */
struct told {
    const char *what;
    uint64_t jobs, kind, count;
};

static const struct told cases[] = {
    {"a close, 1 job", 1, TALLY_CLOSE, 0},
    {"a close, the last of 64 jobs", TALLY_JOBS, TALLY_CLOSE, 0},
    {"a push of 1 row, 1 job", 1, TALLY_PUSH, 1},
    {"a push of 1 row, the last of 64 jobs", TALLY_JOBS, TALLY_PUSH, 1},
    {"a push of 1,000 rows, 1 job", 1, TALLY_PUSH, MOST_ROWS},
    {"a push of 1,000 rows, the last of 64 jobs", TALLY_JOBS, TALLY_PUSH, MOST_ROWS},
};

static void must(struct flat_reply reply) {
    if (reply.code == 0)
        return;
    fprintf(stderr, "bench/tally: refused by %" PRIu64 "\n", reply.code);
    exit(1);
}

static void tell(uint64_t job, uint64_t kind, uint64_t count) {
    must(tally_note(tally, TALLY_WORDS, job, kind, 0, count, 0, rows, MOST_ROWS * FLAT_ROW_WORDS));
}

static void begin(uint64_t jobs) {
    must(tally_start(tally, TALLY_WORDS));
    for (uint64_t job = 0; job < jobs; job++)
        tell(job, TALLY_START, 0);
}

static double seconds_of(const struct told *c, uint64_t times) {
    const clock_t from = clock();
    for (uint64_t i = 0; i < times; i++)
        tell(c->jobs - 1, c->kind, c->count);
    return (double)(clock() - from) / CLOCKS_PER_SEC;
}

/* As many calls as fill a round. */
static uint64_t times_of(const struct told *c) {
    uint64_t times = 1;
    while (seconds_of(c, times) * 1e9 < ROUND_NS)
        times *= 2;
    return times;
}

static double best_of(const struct told *c) {
    begin(c->jobs);
    const uint64_t times = times_of(c);
    double best = seconds_of(c, times);
    for (int i = 1; i < ROUNDS; i++) {
        const double it = seconds_of(c, times);
        best = it < best ? it : best;
    }
    return best * 1e9 / (double)times;
}

int main(void) {
    for (size_t i = 0; i < MOST_ROWS; i += 2)
        rows[i * FLAT_ROW_WORDS + FLAT_MARK] = 1;
    printf("| a told call | ns |\n|---|---|\n");
    for (size_t i = 0; i < sizeof cases / sizeof cases[0]; i++)
        printf("| %s | %.1f |\n", cases[i].what, best_of(&cases[i]));
    return 0;
}
