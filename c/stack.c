/*
 * How much stack a call takes. Each call runs in a thread on a stack of its own that was filled with a pattern; how far down the pattern is gone is
 * the call's mark, its arguments included. The marks have to be the same for 3 and for 65,537 stations, the fewest and the most, and at most COPP3_STACK_BYTES.
 * With 16 objectives the buffers take some 700 MB at the most stations.
 */
#define _POSIX_C_SOURCE 200809L

#include <pthread.h>
#include <stdint.h>
#include <stdio.h>
#include <stdlib.h>
#include <string.h>

#include "copp3_assembly.h"

#define JOINTS 6
#define ROWS 6 /* acceleration rows, and jerk rows, of each station */
#define FEWEST 2 /* least n */
#define MOST 65536 /* greatest n */
#define STACK_SIZE ((size_t)1 << 20)
#define PAGE 4096

static int faults = 0;

static void expect(int holds, const char *call, const char *what) {
    if (!holds) {
        fprintf(stderr, "stack: not so: %s %s\n", call, what);
        faults += 1;
    }
}

static void *reserve(size_t count, size_t size) {
    void *memory = calloc(count + 1, size);
    if (memory == NULL) {
        fputs("no memory\n", stderr);
        exit(2);
    }
    return memory;
}

/* A list of so many numbers that are all the same. */
static double *numbers(size_t count, double x) {
    double *list = reserve(count, sizeof *list);
    for (size_t i = 0; i < count; i++) {
        list[i] = x;
    }
    return list;
}

typedef struct {
    size_t stations, all_rows, torques, roots[2], pool_len; /* lengths of tables */
    copp3_job job;
    copp3_objectives objectives;
    double *grid, *wide, *ones, *pool; /* wide: long enough for tables 3 to 9 and 11 to 13; ones: for amax and thermal */
    uint32_t *counts;
    copp3_answer size, answer;
    copp3_owner owner;
    uint64_t *rows, *columns, *dimensions, *index;
    double *values, *right, *cost;
    uint8_t *kinds;
} work;

/* Objectives of the four kinds in turn, with their lists in the pool: the scales, then alpha, then beta. */
static copp3_objectives four_kinds(size_t stations) {
    copp3_objectives objectives;
    memset(&objectives, 0, sizeof objectives);
    for (size_t i = 0; i < 16; i++) {
        copp3_objective *o = &objectives.items[i];
        o->kind = i % 4;
        o->weight = 1.0 + (double)i;
        o->start = o->kind == COPP3_LINEAR ? JOINTS : 0;
        o->len = o->kind == COPP3_LINEAR ? stations : JOINTS;
        o->start2 = JOINTS + stations;
        o->len2 = stations;
    }
    return objectives;
}

static work set_up(size_t n, size_t n0, size_t n1, size_t count) {
    size_t stations = n + 1;
    work w;
    memset(&w, 0, sizeof w);
    w.stations = stations;
    w.all_rows = ROWS * stations;
    w.torques = JOINTS * stations;
    w.job.start.maximum = w.job.end.maximum = 4.0;
    w.job.d = JOINTS;
    w.job.n0 = n0;
    w.job.n1 = n1;
    w.job.count = count;
    w.objectives = four_kinds(stations);
    w.grid = numbers(stations, 0.0);
    w.counts = reserve(stations, sizeof *w.counts);
    for (size_t k = 0; k < stations; k++) {
        w.grid[k] = (double)k / 8;
        w.counts[k] = ROWS;
    }
    w.wide = numbers((ROWS > JOINTS ? ROWS : JOINTS) * stations, 0.5);
    w.ones = numbers(stations, 1.0);
    w.roots[0] = (n0 > 1 ? n0 : 1) - 1;
    w.roots[1] = (n1 > 1 ? n1 : 1) - 1;
    w.pool_len = JOINTS + 2 * stations;
    w.pool = numbers(w.pool_len, 1.0);
    return w;
}

/* The lent tables, in the order of the parameters. */
#define TABLES(w)                                                                                 \
    w->grid, w->stations, w->counts, w->stations, w->counts, w->stations, w->ones, w->stations,   \
    w->wide, w->all_rows, w->wide, w->all_rows, w->wide, w->all_rows, /* acceleration rows */     \
    w->wide, w->all_rows, w->wide, w->all_rows, w->wide, w->all_rows, w->wide, w->all_rows,       \
    w->ones, w->stations,                                             /* thermal weights */       \
    w->wide, w->torques, w->wide, w->torques, w->wide, w->torques,    /* torque coefficients */   \
    w->ones, w->roots[0], w->ones, w->roots[1], w->pool, w->pool_len

/* The four calls, and none, which tells what the start of a thread takes. */
static void no_call(work *w) { w->answer.number = 0; }

static void call_size(work *w) {
    w->size = copp3_size(w->job, w->objectives, TABLES(w));
}

static void call_assemble(work *w) {
    copp3_answer s = w->size;
    w->answer = copp3_assemble(
        w->job, w->objectives, TABLES(w),
        w->rows, s.entries, w->columns, s.entries, w->values, s.entries, w->right, s.rows,
        w->kinds, s.cones, w->dimensions, s.cones, w->cost, s.columns,
        w->index, COPP3_INDEX_PLACES(w->job.count));
}

static void call_owner_of_row(work *w) {
    w->owner = copp3_owner_of_row(w->index, COPP3_INDEX_PLACES(w->job.count), w->job.count, (size_t)w->size.rows - 1);
}

static void call_owner_of_column(work *w) {
    w->owner = copp3_owner_of_column(w->index, COPP3_INDEX_PLACES(w->job.count), w->job.count, (size_t)w->size.columns - 1);
}

typedef struct {
    void (*call)(work *);
    work *w;
    const unsigned char *frame; /* where the stack stands before the call */
} task;

static void *run(void *given) {
    task *t = given;
    t->frame = __builtin_frame_address(0);
    t->call(t->w);
    return NULL;
}

/* The lowest byte of the stack that no longer holds the pattern, seen from the frame before the call. */
static size_t depth(unsigned char *stack, unsigned char pattern, task *t) {
    pthread_t thread;
    pthread_attr_t attributes;
    memset(stack, pattern, STACK_SIZE);
    if (pthread_attr_init(&attributes) != 0 || pthread_attr_setstack(&attributes, stack, STACK_SIZE) != 0 ||
        pthread_create(&thread, &attributes, run, t) != 0 || pthread_join(thread, NULL) != 0) {
        fputs("no thread\n", stderr);
        exit(2);
    }
    pthread_attr_destroy(&attributes);
    const unsigned char *lowest = stack;
    while (*lowest == pattern) {
        lowest++;
    }
    return lowest < t->frame ? (size_t)(t->frame - lowest) : 0;
}

/* With two patterns, so that a byte which happens to hold one of them is seen by the other. */
static size_t mark(void (*call)(work *), work *w) {
    static unsigned char *stack = NULL;
    if (stack == NULL && (stack = aligned_alloc(PAGE, STACK_SIZE)) == NULL) {
        fputs("no memory\n", stderr);
        exit(2);
    }
    task t = {call, w, NULL};
    size_t first = depth(stack, 0xa5, &t);
    size_t second = depth(stack, 0x5a, &t);
    return first > second ? first : second;
}

#define CALLS 5
static void (*const calls[CALLS])(work *) = {no_call, call_size, call_assemble, call_owner_of_row, call_owner_of_column};
static const char *const names[CALLS] = {"no call", "copp3_size", "copp3_assemble", "copp3_owner_of_row", "copp3_owner_of_column"};

static void reserve_buffers(work *w) {
    copp3_answer s = w->size;
    w->rows = reserve(s.entries, sizeof *w->rows);
    w->columns = reserve(s.entries, sizeof *w->columns);
    w->values = reserve(s.entries, sizeof *w->values);
    w->right = reserve(s.rows, sizeof *w->right);
    w->kinds = reserve(s.cones, sizeof *w->kinds);
    w->dimensions = reserve(s.cones, sizeof *w->dimensions);
    w->cost = reserve(s.columns, sizeof *w->cost);
    w->index = reserve(COPP3_INDEX_PLACES(w->job.count), sizeof *w->index);
}

static void release(work *w) {
    void *all[] = {w->grid, w->wide, w->ones, w->pool, w->counts, w->rows, w->columns, w->dimensions,
                   w->values, w->right, w->cost, w->kinds, w->index};
    for (size_t i = 0; i < sizeof all / sizeof *all; i++) {
        free(all[i]);
    }
}

/* The marks of all calls on an accepted problem. */
static void marks(size_t n, size_t n0, size_t n1, size_t count, size_t out[CALLS]) {
    work w = set_up(n, n0, n1, count);
    call_size(&w);
    reserve_buffers(&w);
    for (size_t i = 0; i < CALLS; i++) {
        out[i] = mark(calls[i], &w);
    }
    expect(w.size.number == 0 && w.answer.number == 0 && w.answer.entries == w.size.entries && w.owner.number == 0, "every call", "is answered with 0");
    release(&w);
}

/* The same at the fewest and at the most stations, and no more than the header says; sizing and the assembly take more than the start of a thread. */
static void compare(size_t n0, size_t n1, size_t count) {
    size_t few[CALLS], many[CALLS];
    marks(FEWEST, n0, n1, count, few);
    marks(MOST, n0, n1, count, many);
    printf("n0=%zu n1=%zu, %zu objectives, bytes of stack at n=%d and n=%d:", n0, n1, count, FEWEST, MOST);
    for (size_t i = 0; i < CALLS; i++) {
        printf("%s %s %zu %zu", i > 0 ? "," : "", names[i], few[i], many[i]);
        expect(few[i] == many[i], names[i], "does not grow with n");
        expect(many[i] <= COPP3_STACK_BYTES, names[i], "is at most COPP3_STACK_BYTES");
    }
    printf("\n");
    expect(many[1] > many[0] && many[2] > many[0], "sizing and the assembly", "are seen");
}

int main(void) {
    for (size_t count = 4; count <= 16; count += 12) {
        compare(0, 0, count);
        compare(1, 0, count);
        compare(0, 1, count);
    }
    return faults == 0 ? 0 : 1;
}
