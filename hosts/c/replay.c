/* Runs the calls of docs/INTERFACE.md's `replay`, a line each, over the archives that a host links, and writes what each
 * answered: the lines and the answers of the proved program, and besides the lines of the tally. hosts/c/replay-build
 * builds it. Status 0, or 1 with a line on standard error where the input or the output failed it. */
#include "flatten.h"
#include "tally.h"

#include <stdbool.h>
#include <stdio.h>
#include <stdlib.h>
#include <string.h>

/* The header's numbers follow from its names, so a name too many would move them unseen; hosts and saved states rely on these
 * (docs/INTERFACE.md). A wrong one makes an array of negative size. */
typedef char a_row_has_29_cells[FLAT_CELLS == 29 ? 1 : -1];
typedef char a_row_has_35_words[FLAT_ROW_WORDS == 35 ? 1 : -1];
typedef char a_state_has_62_words[FLAT_STATE_WORDS == 62 ? 1 : -1];

/* The most that is lent (docs/INTERFACE.md): words of a state, of a row or of an axis list, row places, words of a tally;
 * and the row places that are lent at first. */
enum { MOST_GIVEN = 64, MOST_ROOM = 131072, FIRST_ROOM = 16384, MOST_TALLY = 4096 };

/* Bytes of a line of input, digits of a number in it, bytes of a line of output (a row with all its cells has fewer). */
enum { MOST_LINE = 65536, MOST_DIGITS = 16, MOST_ANSWER = 1024 };

enum { DECIMAL = 10, HEX = 16 };

/* Words before and behind all lent memory. */
enum { GUARD = 64 };

/* ---- Memory that is lent. */

/* `words` are lent up to `length`; there are `most`, between two guards. `old` is what all of it, guards too, held before
 * a call; of the row buffer only its rows before a note, since all else of it rests at a pattern. */
struct memory {
    uint64_t *words, *old;
    size_t length, most;
};

struct session {
    struct memory state, store, rows, given, tally;
    bool telling;
    uint64_t job;
};

/* What word i of a guard, or of the row buffer between calls, holds: no two the same, so that a stray write shows. */
static uint64_t resting(size_t i) {
    return (uint64_t)i * 3 + 1;
}

/* Puts the words from `from` up to `to` of a memory to rest. Its guard begins at place 0, its words at GUARD. */
static void rest(struct memory *m, size_t from, size_t to) {
    for (size_t i = from; i < to; i++)
        (m->words - GUARD)[i] = resting(i);
}

static bool rests(const struct memory *m, size_t from, size_t to) {
    for (size_t i = from; i < to; i++)
        if ((m->words - GUARD)[i] != resting(i))
            return false;
    return true;
}

static size_t all_words(const struct memory *m) {
    return GUARD + m->most + GUARD;
}

static uint64_t *reserve(size_t words) {
    uint64_t *it = malloc(words * sizeof *it);
    if (it == NULL) {
        fprintf(stderr, "replay: no memory\n");
        exit(1);
    }
    return it;
}

static struct memory resting_memory(size_t most, size_t length) {
    struct memory m = {NULL, NULL, length, most};
    m.words = reserve(all_words(&m)) + GUARD;
    m.old = reserve(all_words(&m));
    rest(&m, 0, all_words(&m));
    return m;
}

static struct memory zero_memory(size_t most, size_t length) {
    struct memory m = resting_memory(most, length);
    memset(m.words, 0, most * sizeof *m.words);
    return m;
}

static void save(struct memory *m) {
    memcpy(m->old, m->words - GUARD, all_words(m) * sizeof *m->old);
}

/* Whether the words are those saved, the first `written` of the lent ones apart. */
static bool is_kept(const struct memory *m, size_t written) {
    const size_t behind = GUARD + written;
    return memcmp(m->words - GUARD, m->old, GUARD * sizeof *m->old) == 0 &&
           memcmp(m->words + written, m->old + behind, (all_words(m) - behind) * sizeof *m->old) == 0;
}

/* Whether the row buffer rests but for the words written. Behind an accepted call only the guards are looked at, and as
 * many words behind the rows: a write farther on shows at the next refused call, where all lent words are. */
static bool rows_kept(const struct memory *rows, size_t written, bool refused) {
    const size_t behind = GUARD + written, end = GUARD + rows->length;
    const size_t looked = refused || behind + GUARD > end ? end : behind + GUARD;
    return rests(rows, 0, GUARD) && rests(rows, behind, looked) && rests(rows, end, end + GUARD);
}

static void save_rows(struct memory *rows, size_t held) {
    memcpy(rows->old, rows->words, held * sizeof *rows->old);
}

/* Whether a note left the row buffer alone: its first `held` words are those saved, and all others rest, of those lent and
 * as many as a guard has before and behind them. */
static bool rows_same(const struct memory *rows, size_t held, size_t lent) {
    const size_t behind = held > lent ? held : lent;
    return memcmp(rows->words, rows->old, held * sizeof *rows->old) == 0 && rests(rows, 0, GUARD) &&
           rests(rows, GUARD + held, GUARD + behind + GUARD);
}

/* ---- Lines of output. */

struct answer {
    char text[MOST_ANSWER];
    size_t length;
};

static void put_byte(struct answer *a, char byte) {
    if (a->length < MOST_ANSWER)
        a->text[a->length++] = byte;
}

static void put_text(struct answer *a, const char *text) {
    while (*text != 0)
        put_byte(a, *text++);
}

/* The digits of n, at least `width` of them, behind a blank. */
static void put_digits(struct answer *a, uint64_t n, unsigned base, int width) {
    char digits[20];
    int k = 0;
    do {
        digits[k++] = "0123456789abcdef"[n % base];
        n /= base;
    } while (n != 0 || k < width);
    put_byte(a, ' ');
    while (k > 0)
        put_byte(a, digits[--k]);
}

static void put_number(struct answer *a, uint64_t n) {
    put_digits(a, n, DECIMAL, 1);
}

static void put_hex(struct answer *a, uint64_t n) {
    put_digits(a, n, HEX, 1);
}

static struct answer line_of(const char *word) {
    struct answer a;
    a.length = 0;
    put_text(&a, word);
    return a;
}

static void say(struct answer a) {
    put_byte(&a, '\n');
    fwrite(a.text, 1, a.length, stdout);
}

static void say_word(const char *word) {
    say(line_of(word));
}

static void say_number(const char *word, uint64_t n) {
    struct answer a = line_of(word);
    put_number(&a, n);
    say(a);
}

static void say_numbers(const char *word, uint64_t n, uint64_t m) {
    struct answer a = line_of(word);
    put_number(&a, n);
    put_number(&a, m);
    say(a);
}

static void say_hex(const char *word, uint64_t n) {
    struct answer a = line_of(word);
    put_hex(&a, n);
    say(a);
}

static void say_row(const uint64_t *row) {
    struct answer a = line_of("row");
    put_number(&a, row[FLAT_LINE]);
    put_number(&a, row[FLAT_MOTION]);
    put_number(&a, row[FLAT_PLANE]);
    put_number(&a, row[FLAT_MARK]);
    put_hex(&a, row[FLAT_CARRY]);
    put_hex(&a, row[FLAT_PRESENT]);
    for (int k = 0; k < FLAT_CELLS; k++)
        if (row[FLAT_PRESENT] >> k & 1)
            put_digits(&a, row[FLAT_CELL + k], HEX, 16);
    say(a);
}

static void say_rows(const uint64_t *rows, size_t words) {
    for (size_t i = 0; i < words; i += FLAT_ROW_WORDS)
        say_row(rows + i);
}

/* ---- Fields of a line of input. */

/* What is left of a line: the next field is from `at` on. The line's end counts as a blank, so that a line that was read
 * to its end has `at` at length + 1. `ok` falls at the first field that cannot be read. */
struct reader {
    const char *text;
    size_t length, at;
    bool ok;
};

static unsigned digit(char c) {
    if (c >= '0' && c <= '9')
        return (unsigned)(c - '0');
    if (c >= 'a' && c <= 'f')
        return (unsigned)(c - 'a') + DECIMAL;
    if (c >= 'A' && c <= 'F')
        return (unsigned)(c - 'A') + DECIMAL;
    return HEX;
}

static bool is_at_digit(const struct reader *r, unsigned base) {
    return r->at < r->length && digit(r->text[r->at]) < base;
}

/* 1 to MOST_DIGITS digits, and no more behind them. */
static uint64_t read_digits(struct reader *r, unsigned base) {
    uint64_t value = 0;
    int n = 0;
    for (; n < MOST_DIGITS && is_at_digit(r, base); n++)
        value = value * base + digit(r->text[r->at++]);
    if (n == 0 || is_at_digit(r, base))
        r->ok = false;
    return value;
}

static bool is_at(const struct reader *r, char byte) {
    return r->at < r->length && r->text[r->at] == byte;
}

/* Behind the blank, or the line's end, that a field ends with. */
static void end_field(struct reader *r) {
    if (r->at != r->length && !is_at(r, ' '))
        r->ok = false;
    r->at++;
}

static uint64_t read_number(struct reader *r) {
    const uint64_t value = read_digits(r, DECIMAL);
    end_field(r);
    return value;
}

static uint64_t read_hex(struct reader *r) {
    const uint64_t value = read_digits(r, HEX);
    end_field(r);
    return value;
}

static bool has_more(const struct reader *r) {
    return r->ok && r->at <= r->length;
}

/* Whether the line was read whole. */
static bool is_read(const struct reader *r) {
    return r->ok && r->at > r->length;
}

/* A field that is a lone minus: none. */
static bool read_none(struct reader *r) {
    if (!is_at(r, '-') || (r->at + 1 < r->length && r->text[r->at + 1] != ' '))
        return false;
    r->at += 2;
    return true;
}

static bool begins_with(struct reader *r, const char *word) {
    const size_t n = strlen(word);
    if (r->length < n || memcmp(r->text, word, n) != 0 || (r->length > n && r->text[n] != ' '))
        return false;
    r->at = n + 1;
    return true;
}

/* A number that is the line's last field, and at most `most`. */
static bool read_last(struct reader *r, uint64_t most, uint64_t *n) {
    *n = read_number(r);
    return is_read(r) && *n <= most;
}

/* ---- The tally. */

/* Behind a told call or a start of the tally: what was said, and whether a word moved that may not. */
static void say_told(struct session *s, uint64_t code, bool same_rows, const char *taken) {
    if (code != 0)
        say_number("untold", code);
    else if (taken != NULL)
        say_word(taken);
    if (!same_rows || !is_kept(&s->tally, code == 0 ? s->tally.length : 0))
        say_word("changed");
}

/* Tells a call of a job. The first `held` words of the row buffer are not at rest, and `lent` are lent. */
static void tell(struct session *s, uint64_t job, uint64_t kind, struct flat_reply made, size_t held, size_t lent,
                 const char *taken) {
    save(&s->tally);
    save_rows(&s->rows, held);
    const struct flat_reply reply = tally_note(s->tally.words, s->tally.length, job, kind, made.code, made.count,
                                               made.warning, s->rows.words, lent);
    say_told(s, reply.code, rows_same(&s->rows, held, lent), taken);
}

/* The mark of place i of the row buffer. */
static uint64_t *mark_of(struct session *s, size_t i) {
    return s->rows.words + i * FLAT_ROW_WORDS + FLAT_MARK;
}

/* One digit a row, put into the marks of the row buffer, which has more places than a line has bytes; how many there are.
 * The row behind those lent is marked too: where it is read, it counts. */
static size_t read_marks(struct session *s, struct reader *r) {
    size_t n = 0;
    if (!read_none(r)) {
        for (; is_at_digit(r, DECIMAL); n++)
            *mark_of(s, n) = digit(r->text[r->at++]);
        if (n == 0)
            r->ok = false;
        end_field(r);
    }
    *mark_of(s, n) = 1;
    return n;
}

static void rest_marks(struct session *s, size_t n) {
    for (size_t i = 0; i <= n; i++)
        *mark_of(s, i) = resting(GUARD + i * FLAT_ROW_WORDS + FLAT_MARK);
}

/* note HEX KIND CODE COUNTHEX WARNING MARKS */
static bool do_note(struct session *s, struct reader *r) {
    const uint64_t job = read_hex(r), kind = read_number(r), code = read_number(r), count = read_hex(r);
    const struct flat_reply made = {code, count, read_number(r), 0, 0};
    const size_t n = read_marks(s, r);
    const bool readable = is_read(r);
    if (readable)
        tell(s, job, kind, made, (n + 1) * FLAT_ROW_WORDS, n * FLAT_ROW_WORDS, "told");
    rest_marks(s, n);
    return readable;
}

/* job HEX, job - */
static bool do_job(struct session *s, struct reader *r) {
    const bool none = read_none(r);
    const uint64_t job = none ? 0 : read_hex(r);
    if (!is_read(r))
        return false;
    s->telling = !none;
    s->job = job;
    return true;
}

static bool do_tally(struct session *s, struct reader *r) {
    uint64_t n;
    if (!read_last(r, MOST_TALLY, &n))
        return false;
    s->tally.length = n;
    return true;
}

static bool do_tallystart(struct session *s, struct reader *r) {
    if (!is_read(r))
        return false;
    save(&s->tally);
    const struct flat_reply reply = tally_start(s->tally.words, s->tally.length);
    say_told(s, reply.code, true, "told");
    return true;
}

static struct tally_rates rates_of(struct session *s) {
    save(&s->tally);
    const struct tally_rates rates = tally_rates(s->tally.words, s->tally.length);
    if (rates.code != 0)
        say_number("refused", rates.code);
    return rates;
}

static void say_tally_kept(const struct session *s) {
    if (!is_kept(&s->tally, 0))
        say_word("changed");
}

static bool do_rates(struct session *s, struct reader *r) {
    if (!is_read(r))
        return false;
    const struct tally_rates rates = rates_of(s);
    if (rates.code == 0) {
        struct answer a = line_of("rates");
        put_number(&a, rates.first_passed);
        put_number(&a, rates.first_closed);
        put_number(&a, rates.final_passed);
        put_number(&a, rates.final_closed);
        say(a);
    }
    say_tally_kept(s);
    return true;
}

/* The words of a job in a tally that was not refused; of a job that was never told, zeros. */
static const uint64_t *slot_of(const uint64_t *tally, uint64_t job) {
    static const uint64_t never[TALLY_JOB_WORDS];
    for (uint64_t i = 0; i < tally[TALLY_COUNT]; i++) {
        const uint64_t *slot = tally + TALLY_SLOTS + i * TALLY_JOB_WORDS;
        if (slot[TALLY_JOB] == job)
            return slot;
    }
    return never;
}

/* The figures behind `from` that are not 0, with their numbers from 1 on. */
static void say_figures(const char *word, const uint64_t *from, uint64_t most) {
    for (uint64_t n = 1; n <= most; n++)
        if (from[n] != 0)
            say_numbers(word, n, from[n]);
}

static void say_slot(uint64_t job, const uint64_t *slot) {
    struct answer a = line_of("figures");
    put_hex(&a, job);
    put_number(&a, slot[TALLY_BLOCKS]);
    put_number(&a, slot[TALLY_ROWS]);
    put_number(&a, slot[TALLY_MARKED]);
    say(a);
    say_figures("warned", slot + TALLY_WARNED, TALLY_WARNINGS);
    say_figures("turned", slot + TALLY_TURNED, TALLY_REFUSALS);
    a = line_of("tries");
    put_number(&a, (slot[TALLY_TRY] & TALLY_CLOSED) != 0);
    put_number(&a, (slot[TALLY_TRY] & TALLY_FIRST) != 0);
    put_number(&a, (slot[TALLY_TRY] & TALLY_FINAL) != 0);
    say(a);
}

/* figures HEX. The rates' refusal says whether the words are a tally. */
static bool do_figures(struct session *s, struct reader *r) {
    const uint64_t job = read_hex(r);
    if (!is_read(r))
        return false;
    if (rates_of(s).code == 0)
        say_slot(job, slot_of(s->tally.words, job));
    say_tally_kept(s);
    return true;
}

/* ---- The flattener's calls. */

static void save_all(struct session *s) {
    save(&s->state);
    save(&s->store);
    save(&s->given);
}

/* The words of the rows that a call says it wrote, of no more than are lent. */
static size_t words_written(const struct session *s, struct flat_reply reply) {
    const size_t places = s->rows.length / FLAT_ROW_WORDS;
    if (reply.code != 0)
        return 0;
    return (reply.count < places ? (size_t)reply.count : places) * FLAT_ROW_WORDS;
}

/* Whether a call left all memory alone that it may not write: any, where it refused; and has room for what it says that
 * it wrote. */
static bool all_kept(const struct session *s, struct flat_reply reply, size_t written) {
    const bool refused = reply.code != 0;
    return is_kept(&s->state, refused ? 0 : s->state.length) && is_kept(&s->store, refused ? 0 : s->store.length) &&
           is_kept(&s->given, 0) && rows_kept(&s->rows, written, refused) &&
           (refused || reply.count == written / FLAT_ROW_WORDS);
}

/* The answer to a call; it is told, where a job is set; then the row buffer is put to rest again. */
static void say_reply(struct session *s, uint64_t kind, struct flat_reply reply, size_t row_words) {
    const size_t written = words_written(s, reply);
    const bool kept = all_kept(s, reply, written);
    say_rows(s->rows.words, written);
    if (reply.warning != 0)
        say_numbers("warn", reply.warning, reply.wanted);
    if (reply.held != 0)
        say_hex("held", reply.held);
    if (reply.code != 0)
        say_number("refused", reply.code);
    if (!kept)
        say_word("changed");
    say_number("done", reply.count);
    if (s->telling)
        tell(s, s->job, kind, reply, written, row_words, NULL);
    rest(&s->rows, GUARD, GUARD + written);
}

/* Codes with commas, or - for none; how many there are. */
static size_t read_axes(struct session *s, struct reader *r) {
    size_t n = 0;
    if (read_none(r))
        return 0;
    s->given.words[n++] = read_digits(r, DECIMAL);
    while (r->ok && is_at(r, ',') && n < MOST_GIVEN) {
        r->at++;
        s->given.words[n++] = read_digits(r, DECIMAL);
    }
    end_field(r);
    return n;
}

/* start BITS AXES */
static bool do_start(struct session *s, struct reader *r) {
    const uint64_t tolerance = read_hex(r);
    const size_t n = read_axes(s, r);
    if (!is_read(r))
        return false;
    save_all(s);
    say_reply(s, TALLY_START, flat_start(s->state.words, s->state.length, tolerance, s->given.words, n), 0);
    return true;
}

/* seed CODE BITS */
static bool do_seed(struct session *s, struct reader *r) {
    const uint64_t axis = read_number(r), value = read_hex(r);
    if (!is_read(r))
        return false;
    save_all(s);
    say_reply(s, TALLY_SEED, flat_seed(s->state.words, s->state.length, axis, value), 0);
    return true;
}

/* Pushes the first n given words. */
static void push(struct session *s, size_t n) {
    save_all(s);
    const struct flat_reply reply = flat_push(s->state.words, s->state.length, s->store.words, s->store.length,
                                              s->rows.words, s->rows.length, s->given.words, n);
    say_reply(s, TALLY_PUSH, reply, s->rows.length);
}

/* push LINE MOTION PLANE CARRYHEX PRESENCEHEX BITS.. */
static bool do_push(struct session *s, struct reader *r) {
    uint64_t *row = s->given.words;
    row[FLAT_LINE] = read_number(r);
    row[FLAT_MOTION] = read_number(r);
    row[FLAT_PLANE] = read_number(r);
    row[FLAT_MARK] = 0;
    row[FLAT_CARRY] = read_hex(r);
    row[FLAT_PRESENT] = read_hex(r);
    for (int k = 0; k < FLAT_CELLS; k++)
        row[FLAT_CELL + k] = row[FLAT_PRESENT] >> k & 1 ? read_hex(r) : 0;
    if (!is_read(r))
        return false;
    push(s, FLAT_ROW_WORDS);
    return true;
}

/* words HEX.. */
static bool do_words(struct session *s, struct reader *r) {
    size_t n = 0;
    while (has_more(r) && n < MOST_GIVEN)
        s->given.words[n++] = read_hex(r);
    if (!is_read(r))
        return false;
    push(s, n);
    return true;
}

static bool do_close(struct session *s, struct reader *r) {
    if (!is_read(r))
        return false;
    save_all(s);
    const struct flat_reply reply = flat_close(s->state.words, s->state.length, s->store.words, s->store.length,
                                               s->rows.words, s->rows.length);
    say_reply(s, TALLY_CLOSE, reply, s->rows.length);
    return true;
}

/* ---- What is lent, and what it holds. */

static bool do_room(struct session *s, struct reader *r) {
    uint64_t n;
    if (!read_last(r, MOST_ROOM, &n))
        return false;
    s->rows.length = n * FLAT_ROW_WORDS;
    return true;
}

static bool do_blocks(struct session *s, struct reader *r) {
    uint64_t n;
    if (!read_last(r, FLAT_STORE_BLOCKS, &n))
        return false;
    s->store.length = n * FLAT_ROW_WORDS;
    return true;
}

static bool do_length(struct session *s, struct reader *r) {
    uint64_t n;
    if (!read_last(r, MOST_GIVEN, &n))
        return false;
    s->state.length = n;
    return true;
}

/* I HEX: sets word I. */
static bool poke(struct memory *m, struct reader *r) {
    const uint64_t place = read_number(r), word = read_hex(r);
    if (!is_read(r) || place >= m->most)
        return false;
    m->words[place] = word;
    return true;
}

static bool do_poke(struct session *s, struct reader *r) {
    return poke(&s->state, r);
}

static bool do_pokestore(struct session *s, struct reader *r) {
    return poke(&s->store, r);
}

static bool do_poketally(struct session *s, struct reader *r) {
    return poke(&s->tally, r);
}

/* ---- Lines. */

/* Each does what a line says that begins with its word, or answers false where it cannot be read. */
static const struct verb {
    const char *word;
    bool (*does)(struct session *, struct reader *);
} verbs[] = {
    {"start", do_start},   {"seed", do_seed},           {"push", do_push},           {"words", do_words},
    {"close", do_close},   {"room", do_room},           {"blocks", do_blocks},       {"length", do_length},
    {"poke", do_poke},     {"pokestore", do_pokestore}, {"job", do_job},             {"note", do_note},
    {"tally", do_tally},   {"poketally", do_poketally}, {"tallystart", do_tallystart}, {"rates", do_rates},
    {"figures", do_figures},
};

/* A line of MOST_LINE bytes may be cut, and is bad: a note with fewer marks would be another note. */
static bool do_line(struct session *s, const char *text, size_t length) {
    struct reader r = {text, length, 0, true};
    if (is_at(&r, '#'))
        return true;
    if (length == MOST_LINE)
        return false;
    for (size_t i = 0; i < sizeof verbs / sizeof verbs[0]; i++)
        if (begins_with(&r, verbs[i].word))
            return verbs[i].does(s, &r);
    return false;
}

/* The bytes up to the next LF, which is taken too; where there is none, all up to the end or as many as a line may have. */
static size_t read_line(char text[MOST_LINE], bool *ended) {
    size_t n = 0;
    while (n < MOST_LINE) {
        const int c = getchar();
        if (c == '\n')
            return n;
        if (c == EOF)
            break;
        text[n++] = (char)c;
    }
    *ended = true;
    return n;
}

static struct session begun(void) {
    struct session s;
    s.state = zero_memory(MOST_GIVEN, FLAT_STATE_WORDS);
    s.store = zero_memory(FLAT_STORE_WORDS, FLAT_STORE_WORDS);
    s.rows = resting_memory((size_t)MOST_ROOM * FLAT_ROW_WORDS, (size_t)FIRST_ROOM * FLAT_ROW_WORDS);
    s.given = zero_memory(MOST_GIVEN, MOST_GIVEN);
    s.tally = zero_memory(MOST_TALLY, TALLY_WORDS);
    s.telling = false;
    s.job = 0;
    return s;
}

static int failed(const char *what) {
    fprintf(stderr, "replay: %s\n", what);
    return 1;
}

int main(void) {
    static char text[MOST_LINE];
    static struct session s;
    s = begun();
    size_t length = 0;
    bool ended = false;
    for (uint64_t number = 1; !ended; number++) {
        length = read_line(text, &ended);
        if ((!ended || length > 0) && !do_line(&s, text, length))
            say_number("bad", number);
    }
    if (fflush(stdout) != 0 || ferror(stdout))
        return failed("the answers could not be written");
    if (ferror(stdin))
        return failed("the input could not be read");
    if (length == MOST_LINE)
        return failed("a line is too long; it was the last that was read");
    return 0;
}
