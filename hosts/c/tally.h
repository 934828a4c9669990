/* The tally's three calls: what was told of each job's calls, and how many jobs passed at first and in the end.
 * docs/RULES.md, section 9, says what is counted; docs/INTERFACE.md what the words are.
 * A tally makes no call itself: a host tells it each call that it made, in the order made, as often as it made it, and
 * looks at the reply: a call whose note is refused is missing from every figure and every try. All calls of a job are told
 * to one tally: in a second one a later try of the job would count as a first.
 * No value has to be vetted before a call: a refused one changes no word. What a host owes is memory, as in flatten.h:
 * each pointer is of as many 64-bit words as the length beside it, aligned as a uint64_t is, and tally and rows do not
 * overlap. */
#ifndef TALLY_H
#define TALLY_H

#include "flatten.h"

/* Jobs of a tally, and the largest numbers of a warning and of a refusal that it tells apart. */
enum { TALLY_JOBS = 64, TALLY_WARNINGS = 15, TALLY_REFUSALS = 31 };

/* Kinds of a told call. */
enum { TALLY_START, TALLY_SEED, TALLY_PUSH, TALLY_CLOSE };

/* The words of a job's slot: its number, blocks accepted, rows written, marked rows; word TALLY_WARNED + w counts the
 * calls with warning w (1 to TALLY_WARNINGS), word TALLY_TURNED + n those refused by n (1 to TALLY_REFUSALS). */
enum {
    TALLY_JOB,
    TALLY_BLOCKS,
    TALLY_ROWS,
    TALLY_MARKED,
    TALLY_WARNED = TALLY_MARKED,
    TALLY_TURNED = TALLY_WARNED + TALLY_WARNINGS,
    TALLY_TRY = TALLY_TURNED + TALLY_REFUSALS + 1,
    TALLY_JOB_WORDS
};

/* The bits of the word TALLY_TRY: a try was closed, the first one passed, the final one passed, the open one failed. */
enum { TALLY_CLOSED = 1, TALLY_FIRST = 2, TALLY_FINAL = 4, TALLY_FAILED = 8 };

/* The words of a tally: how many jobs it has, then a slot each; slot i is from word TALLY_SLOTS + i * TALLY_JOB_WORDS
 * on. Slots are given in the order in which jobs were first told; those past the count are not read. */
enum { TALLY_COUNT, TALLY_SLOTS, TALLY_WORDS = TALLY_SLOTS + TALLY_JOBS * TALLY_JOB_WORDS };

/* code 0 is done; jobs whose first try passed, jobs with a closed try, jobs whose final try passed, and again jobs with
 * a closed try. */
struct tally_rates {
    uint64_t code, first_passed, first_closed, final_passed, final_closed;
};

#ifdef __cplusplus
extern "C" {
#endif

/* An empty tally. Refused by 9 where `words` is not TALLY_WORDS. */
struct flat_reply tally_start(uint64_t *tally, size_t words);

/* Tells a call of a job: its kind, what its reply said, and the rows lent to it as the call left them. Refused, in this
 * order, by 9 (the words are no tally), 4 (a kind above TALLY_CLOSE, a code above TALLY_REFUSALS, a warning above
 * TALLY_WARNINGS, or with code 0 fewer whole rows lent than `count` or a mark above 1 among them), 11 (a job more than
 * TALLY_JOBS, or a figure past 64 bits). Of the rows only the marks of those written are read. */
struct flat_reply tally_note(uint64_t *tally, size_t words, uint64_t job, uint64_t kind, uint64_t code, uint64_t count,
                             uint64_t warning, const uint64_t *rows, size_t row_words);

/* Refused by 9, with four zeros. */
struct tally_rates tally_rates(const uint64_t *tally, size_t words);

#ifdef __cplusplus
}
#endif

#endif
