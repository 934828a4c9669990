/* The stack that the four calls take, by painting a thread's.
 *   stack         prints `stack KIND BLOCKS BYTES` for each kind and number of blocks, on X Y Z, then on the first ten axes and
 *                 on all: the bytes below the frame that makes the calls, the most of them all. Then the smallest stack of a
 *                 thread in which every kind on X Y Z went through, in steps of 4 KB, its own start included.
 *   stack bound   runs every kind of 256 blocks on X Y Z in a thread of 128 KB, and fails where fewer than 16 KB of it stay
 *                 untouched; 28 KB on x86-64, where 99,760 bytes were taken before order 3.
 * A thread's stack is the top of a region that is painted before it begins; the pages below it can not be touched. */
#define _GNU_SOURCE
#include "flatten.h"

#include <math.h>
#include <pthread.h>
#include <stdio.h>
#include <stdlib.h>
#include <string.h>
#include <sys/mman.h>
#include <sys/wait.h>
#include <unistd.h>

#ifdef __x86_64__
enum { SPARE = 28 << 10 };
#else
enum { SPARE = 16 << 10 };
#endif
enum { PAGE = 4096, REGION = 1 << 20, SMALL_THREAD = 128 << 10, PAINT = 0xa5 };
/* Axes that are measured: work memory has sizes for few channels, for ten and for all. */
enum { AXES = 3, USUAL_AXES = FLAT_A2 };
enum { ROOM = 1 << 15, ROW_WORDS = ROOM * FLAT_ROW_WORDS };

struct kind {
    const char *name;
    uint64_t motion;
    int degree;
    double tolerance;
};
static const struct kind kinds[] = {
    {"pass-through", FLAT_G1, 0, 1e-3},    {"arc", FLAT_G3, 0, 1e-3},
    {"ASPLINE", FLAT_ASPLINE, 0, 2e-13},   {"CSPLINE", FLAT_CSPLINE, 0, 2e-13},
    {"BSPLINE-1", FLAT_BSPLINE, 1, 1e-6},  {"BSPLINE-2", FLAT_BSPLINE, 2, 1e-6},
    {"BSPLINE-3", FLAT_BSPLINE, 3, 1e-6},  {"BSPLINE-4", FLAT_BSPLINE, 4, 1e-6},
    {"BSPLINE-5", FLAT_BSPLINE, 5, 1e-6},  {"BSPLINE-20", FLAT_BSPLINE, 20, 1e-6},
    {"BSPLINE-256", FLAT_BSPLINE, 256, 2e-4},
};
enum { KINDS = sizeof kinds / sizeof kinds[0] };
static const int blocks[] = {4, 15, 16, 63, 64, 256};
enum { COUNTS = sizeof blocks / sizeof blocks[0] };

struct work {
    const struct kind *kind;
    int blocks, axes;
    unsigned char *bottom; /* the lowest byte that the thread may touch */
    size_t taken, whole;   /* below the calling frame, and from the top of the stack */
    uint64_t wrong;        /* the code of the first call that was refused */
    uint64_t warned;       /* the first warning */
    uint64_t written;      /* rows of the call that ended the blocks, the fewer of the two */
};

static uint64_t state[FLAT_STATE_WORDS], store[FLAT_STORE_WORDS], rows[ROW_WORDS];
static unsigned char *region;

static void set(uint64_t *row, int cell, double value) {
    row[FLAT_PRESENT] |= (uint64_t)1 << cell;
    memcpy(row + FLAT_CELL + cell, &value, sizeof value);
}

/* Block i. A curve is to be halved as often as it may be, at few places: a fit that turns back on itself in a bow of a
 * hundred-thousandth's width, a B-spline that its weights hurry past its first two points. */
static void block(uint64_t *row, const struct work *w, int i) {
    int half = w->blocks / 2, back = i + 1 > half ? i + 1 - half : 0;
    int degree = w->kind->degree < w->blocks ? w->kind->degree : w->blocks;
    double hurry = degree < 32 ? 3e4 : 1e6 / degree;
    uint64_t motion = w->kind->motion;
    memset(row, 0, FLAT_ROW_WORDS * sizeof *row);
    row[FLAT_LINE] = (uint64_t)i + 1;
    row[FLAT_MOTION] = motion;
    if (motion == FLAT_BSPLINE) {
        set(row, FLAT_X, sqrt(i));
        set(row, FLAT_Y, i + 1);
        set(row, FLAT_PW, i == 0 ? hurry : hurry * hurry);
        set(row, FLAT_SD, w->kind->degree);
    } else {
        set(row, FLAT_X, i + 1 - 2 * back);
        set(row, FLAT_Y, 1e-5 * back);
    }
    if (motion == FLAT_G3)
        set(row, FLAT_I, back > 0 ? -0.5 : 0.5);
    for (int axis = FLAT_Z; axis < w->axes; axis++)
        set(row, axis, 0);
}

static struct flat_reply heard(struct work *w, struct flat_reply reply) {
    if (w->wrong == 0)
        w->wrong = reply.code;
    if (w->warned == 0)
        w->warned = reply.warning;
    return reply;
}

static void ended_by(struct work *w, struct flat_reply reply) {
    if (reply.count < w->written)
        w->written = reply.count;
}

/* The calls: the kind's blocks twice from the origin, ended by a close and by another motion. */
static __attribute__((noinline)) unsigned char *calls(struct work *w) {
    static uint64_t axes[FLAT_AXIS_CODES], row[FLAT_ROW_WORDS];
    const double tolerance = w->kind->tolerance;
    uint64_t bits;
    memcpy(&bits, &tolerance, sizeof bits);
    for (int axis = 0; axis < w->axes; axis++)
        axes[axis] = (uint64_t)axis;
    heard(w, flat_start(state, FLAT_STATE_WORDS, bits, axes, (size_t)w->axes));
    for (int ended = 0; ended < 2; ended++) {
        for (int axis = 0; axis < w->axes; axis++)
            heard(w, flat_seed(state, FLAT_STATE_WORDS, (uint64_t)axis, 0));
        for (int i = 0; i < w->blocks; i++) {
            block(row, w, i);
            heard(w, flat_push(state, FLAT_STATE_WORDS, store, FLAT_STORE_WORDS, rows, ROW_WORDS, row, FLAT_ROW_WORDS));
        }
        if (ended == 0) {
            ended_by(w, heard(w, flat_close(state, FLAT_STATE_WORDS, store, FLAT_STORE_WORDS, rows, ROW_WORDS)));
        } else {
            memset(row, 0, sizeof row);
            row[FLAT_MOTION] = FLAT_G1;
            set(row, FLAT_X, 0);
            ended_by(w, heard(w, flat_push(state, FLAT_STATE_WORDS, store, FLAT_STORE_WORDS, rows, ROW_WORDS, row, FLAT_ROW_WORDS)));
        }
    }
    return __builtin_frame_address(0);
}

static void *in_thread(void *arg) {
    struct work *w = arg;
    unsigned char *frame = calls(w), *lowest = w->bottom;
    while (*lowest == PAINT)
        lowest++;
    w->taken = (size_t)(frame - lowest);
    w->whole = (size_t)(region + REGION - lowest);
    return NULL;
}

static void fail(const char *what) {
    fprintf(stderr, "stack: %s\n", what);
    exit(2);
}

/* One kind in a thread with a stack of so many bytes. */
static void run(struct work *w, size_t bytes) {
    pthread_attr_t attributes;
    pthread_t thread;
    w->bottom = region + REGION - bytes;
    w->wrong = w->warned = 0;
    w->written = UINT64_MAX;
    if (mprotect(region, REGION, PROT_READ | PROT_WRITE) != 0 || mprotect(region, REGION - bytes, PROT_NONE) != 0)
        fail("mprotect failed");
    memset(w->bottom, PAINT, bytes);
    if (pthread_attr_init(&attributes) != 0 || pthread_attr_setstack(&attributes, region, REGION) != 0 ||
        pthread_create(&thread, &attributes, in_thread, w) != 0 || pthread_join(thread, NULL) != 0)
        fail("no thread");
    if (w->wrong != 0) {
        fprintf(stderr, "stack: %s of %d blocks was refused by %d\n", w->kind->name, w->blocks, (int)w->wrong);
        exit(2);
    }
    /* a spline that was not drawn takes no stack: each block of one has a row, and where it bends more than one */
    if (w->warned != 0 || (w->kind->motion >= FLAT_ASPLINE && w->written < (uint64_t)w->blocks + (w->kind->degree != 1))) {
        fprintf(stderr, "stack: %s of %d blocks was not drawn\n", w->kind->name, w->blocks);
        exit(2);
    }
}

/* Whether all kinds of the most blocks go through in so many bytes: tried in a process of its own. */
static int goes(size_t bytes) {
    int status;
    pid_t child = fork();
    if (child < 0)
        fail("no process");
    if (child == 0) {
        for (int k = 0; k < KINDS; k++) {
            struct work w = {&kinds[k], blocks[COUNTS - 1], AXES, NULL, 0, 0, 0, 0, 0};
            run(&w, bytes);
        }
        _exit(0);
    }
    if (waitpid(child, &status, 0) != child)
        fail("no status");
    return WIFEXITED(status) && WEXITSTATUS(status) == 0;
}

/* All kinds with so many axes, from the first number of blocks on or with the most; the most bytes that a thread took. */
static size_t all(int axes, size_t bytes, int told) {
    size_t most = 0;
    for (int k = 0; k < KINDS; k++)
        for (int b = told ? 0 : COUNTS - 1; b < COUNTS; b++) {
            struct work w = {&kinds[k], blocks[b], axes, NULL, 0, 0, 0, 0, 0};
            run(&w, bytes);
            most = w.whole > most ? w.whole : most;
            if (told && axes == AXES)
                printf("stack %s %d %zu\n", w.kind->name, w.blocks, w.taken);
            else if (told)
                printf("stack %s %d %zu on %d axes\n", w.kind->name, w.blocks, w.taken, axes);
        }
    return most;
}

int main(int count, char **words) {
    size_t most, bytes;
    region = mmap(NULL, REGION, PROT_READ | PROT_WRITE, MAP_PRIVATE | MAP_ANONYMOUS, -1, 0);
    if (region == MAP_FAILED)
        fail("no memory");
    if (count > 1 && strcmp(words[1], "bound") == 0) {
        most = all(AXES, SMALL_THREAD, 0);
        printf("every kind of %d blocks on %d axes in a thread of %d bytes: %zu taken at most, its start included\n",
               blocks[COUNTS - 1], AXES, SMALL_THREAD, most);
        if (most + SPARE > SMALL_THREAD)
            fail("too few bytes stayed untouched");
        return 0;
    }
    most = all(AXES, REGION - PAGE, 1);
    all(USUAL_AXES, REGION - PAGE, 1);
    all(FLAT_AXIS_CODES, REGION - PAGE, 1);
    for (bytes = (most + PAGE - 1) / PAGE * PAGE; !goes(bytes); bytes += PAGE)
        ;
    while (goes(bytes - PAGE))
        bytes -= PAGE;
    printf("thread %zu: the smallest stack in which every kind goes through; painted, %zu\n", bytes, most);
    return 0;
}
