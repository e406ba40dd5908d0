/* Document 01's case A from C: sizes it, assembles it, checks its numbers and prints it with the owner of each row. */

#include <math.h>
#include <stdio.h>
#include <stdlib.h>
#include <string.h>

#include "copp3_assembly.h"

#define STATIONS 3
#define OBJECTIVES 1

/* Case A: grid 0, 1, 2, everything else 0 or unlimited, one Time of weight 1. It has no feasible point, so do not try a solver on it. */
static const double grid[STATIONS] = {0.0, 1.0, 2.0};
static const uint32_t no_rows[STATIONS] = {0, 0, 0};
static const double amax[STATIONS] = {INFINITY, INFINITY, INFINITY};
/* A table of length 0 still needs a pointer. */
static const double none[1] = {0.0};

static copp3_job case_a_job(void) {
    copp3_job job;
    memset(&job, 0, sizeof job);
    job.start.maximum = INFINITY;
    job.end.maximum = INFINITY;
    job.d = 1;
    job.count = OBJECTIVES;
    return job;
}

static copp3_objectives case_a_objectives(void) {
    copp3_objectives objectives;
    memset(&objectives, 0, sizeof objectives);
    objectives.items[0].kind = COPP3_TIME;
    objectives.items[0].weight = 1.0;
    return objectives;
}

/* The lent tables of case A, in the order of the parameters. */
#define CASE_A_TABLES                                                      \
    grid, STATIONS, no_rows, STATIONS, no_rows, STATIONS, amax, STATIONS,  \
    none, 0, none, 0, none, 0,                 /* acceleration rows */     \
    none, 0, none, 0, none, 0, none, 0,        /* jerk rows */             \
    none, 0,                                   /* thermal weights */       \
    none, 0, none, 0, none, 0,                 /* torque coefficients */   \
    none, 0, none, 0,                          /* roots */                 \
    none, 0                                    /* pool */

typedef struct {
    uint64_t *rows, *columns, *dimensions, *index;
    double *values, *right, *cost;
    uint8_t *kinds;
} buffers;

static void *reserve(uint64_t count, size_t size) {
    void *memory = malloc((size_t)count * size);
    if (memory == NULL) {
        fputs("no memory\n", stderr);
        exit(2);
    }
    return memory;
}

/* Buffers of just the lengths that sizing told, and an index of the places that one objective needs. */
static buffers reserve_buffers(copp3_answer size) {
    buffers out;
    out.rows = reserve(size.entries, sizeof *out.rows);
    out.columns = reserve(size.entries, sizeof *out.columns);
    out.values = reserve(size.entries, sizeof *out.values);
    out.right = reserve(size.rows, sizeof *out.right);
    out.kinds = reserve(size.cones, sizeof *out.kinds);
    out.dimensions = reserve(size.cones, sizeof *out.dimensions);
    out.cost = reserve(size.columns, sizeof *out.cost);
    out.index = reserve(COPP3_INDEX_PLACES(OBJECTIVES), sizeof *out.index);
    return out;
}

static void release(buffers out) {
    free(out.rows);
    free(out.columns);
    free(out.values);
    free(out.right);
    free(out.kinds);
    free(out.dimensions);
    free(out.cost);
    free(out.index);
}

/* Assembles into the buffers; the two lengths let a test lend one place fewer. */
static copp3_answer assemble(copp3_answer size, buffers out, size_t cost_len, size_t index_len) {
    return copp3_assemble(
        case_a_job(), case_a_objectives(), CASE_A_TABLES,
        out.rows, (size_t)size.entries, out.columns, (size_t)size.entries,
        out.values, (size_t)size.entries, out.right, (size_t)size.rows,
        out.kinds, (size_t)size.cones, out.dimensions, (size_t)size.cones,
        out.cost, cost_len, out.index, index_len);
}

static int faults = 0;

static void expect(int holds, const char *what) {
    if (!holds) {
        fprintf(stderr, "case A: %s is wrong\n", what);
        faults += 1;
    }
}

static int counts_are(copp3_answer answer) {
    return answer.number == 0 && answer.place == 0 && answer.entries == 32 &&
           answer.rows == 19 && answer.cones == 6 && answer.columns == 8;
}

static void check_numbers(buffers out) {
    static const uint8_t kinds[6] = {
        COPP3_CONE_ZERO, COPP3_CONE_NONNEGATIVE, COPP3_CONE_NONNEGATIVE,
        COPP3_CONE_SECOND_ORDER, COPP3_CONE_NONNEGATIVE, COPP3_CONE_SECOND_ORDER};
    static const uint64_t dimensions[6] = {6, 5, 1, 3, 1, 3};
    static const double cost[8] = {0, 0, 0, 0, 0, 0, 0, 1};
    /* The two second-order cones: a root cone and a Time cone. */
    static const double root[3] = {0.25, -0.25, 0.0};
    static const double time[3] = {0.0, 0.0, 2.0};
    expect(memcmp(out.kinds, kinds, sizeof kinds) == 0, "the cones' kinds");
    expect(memcmp(out.dimensions, dimensions, sizeof dimensions) == 0, "the cones' dimensions");
    expect(memcmp(out.cost, cost, sizeof cost) == 0, "the cost");
    expect(memcmp(out.right + 12, root, sizeof root) == 0, "the root cone's right side");
    expect(memcmp(out.right + 16, time, sizeof time) == 0, "the Time cone's right side");
}

/* Eight numbers for each of the three owners: four firsts, four lengths. */
static void check_index(buffers out) {
    static const uint64_t index[COPP3_INDEX_PLACES(OBJECTIVES)] = {
        0,  0,  0, 6, 23, 11, 2, 0, /* standard rows */
        23, 11, 2, 6, 4,  4,  2, 1, /* root stage */
        27, 15, 4, 7, 5,  4,  2, 1  /* the Time objective */
    };
    expect(memcmp(out.index, index, sizeof index) == 0, "the index");
}

/* Whether every byte is still the one it was filled with. */
static int untouched(const void *buffer, size_t len) {
    const unsigned char *bytes = buffer;
    return bytes[0] == 0x5a && memcmp(bytes, bytes + 1, len - 1) == 0;
}

/* One place fewer in the cost or in the index: refused with this number and place, and nothing changes. */
static void check_short(copp3_answer size, buffers out, size_t cost_len, size_t index_len,
                        uint64_t number, uint64_t place) {
    size_t values = (size_t)size.entries * sizeof *out.values;
    size_t index = COPP3_INDEX_PLACES(OBJECTIVES) * sizeof *out.index;
    memset(out.values, 0x5a, values);
    memset(out.index, 0x5a, index);
    copp3_answer answer = assemble(size, out, cost_len, index_len);
    expect(answer.number == number && answer.place == place, "the answer to a short buffer");
    expect(answer.entries == 0 && answer.columns == 0, "the counts of a refusal");
    expect(untouched(out.values, values), "the values after a refusal");
    expect(untouched(out.index, index), "the index after a refusal");
}

/* Cost and index each one place short, then both: the cost is tested first. */
static void check_short_buffers(copp3_answer size, buffers out) {
    size_t columns = (size_t)size.columns;
    size_t places = COPP3_INDEX_PLACES(OBJECTIVES);
    check_short(size, out, columns - 1, places, 19, 6);
    check_short(size, out, columns, places - 1, 28, 0);
    check_short(size, out, columns - 1, places - 1, 19, 6);
}

static copp3_owner owner_of_row(buffers out, size_t row) {
    return copp3_owner_of_row(out.index, COPP3_INDEX_PLACES(OBJECTIVES), OBJECTIVES, row);
}

static copp3_owner owner_of_column(buffers out, size_t column) {
    return copp3_owner_of_column(out.index, COPP3_INDEX_PLACES(OBJECTIVES), OBJECTIVES, column);
}

static int owner_is(copp3_owner answer, uint64_t owner) {
    return answer.number == 0 && answer.place == 0 && answer.owner == owner;
}

static int refused(copp3_owner answer, uint64_t number) {
    return answer.number == number && answer.place == 0 && answer.owner == 0;
}

/* Rows 0 to 10, 11 to 14 and 15 to 18, columns 6 and 7, and what lies outside. */
static void check_owners(buffers out) {
    expect(owner_is(owner_of_row(out, 10), COPP3_OWNER_STANDARD_ROWS), "the owner of row 10");
    expect(owner_is(owner_of_row(out, 11), COPP3_OWNER_ROOT_STAGE), "the owner of row 11");
    expect(owner_is(owner_of_row(out, 14), COPP3_OWNER_ROOT_STAGE), "the owner of row 14");
    expect(owner_is(owner_of_row(out, 15), COPP3_OWNER_OBJECTIVE), "the owner of row 15");
    expect(owner_is(owner_of_row(out, 18), COPP3_OWNER_OBJECTIVE), "the owner of row 18");
    expect(owner_is(owner_of_column(out, 6), COPP3_OWNER_ROOT_STAGE), "the owner of column 6");
    expect(owner_is(owner_of_column(out, 7), COPP3_OWNER_OBJECTIVE), "the owner of column 7");
    expect(refused(owner_of_row(out, 19), 29), "the answer for a row past the last");
    expect(refused(owner_of_column(out, 5), 29), "the answer for a column of b");
    expect(refused(owner_of_column(out, 8), 29), "the answer for a column past the last");
    copp3_owner answer = copp3_owner_of_row(out.index, COPP3_INDEX_PLACES(OBJECTIVES), SIZE_MAX, 0);
    expect(refused(answer, 28), "the answer to an index of too few places");
}

static void print(copp3_answer answer, buffers out) {
    static const char *const names[3] = {"zero", "nonnegative", "second-order"};
    printf("A %llu %llu %llu %llu\n", (unsigned long long)answer.entries,
           (unsigned long long)answer.rows, (unsigned long long)answer.cones,
           (unsigned long long)answer.columns);
    for (uint64_t i = 0; i < answer.entries; i++) {
        printf("row %llu column %llu value %g\n", (unsigned long long)out.rows[i],
               (unsigned long long)out.columns[i], out.values[i]);
    }
    for (uint64_t c = 0; c < answer.cones; c++) {
        printf("cone %s %llu\n", out.kinds[c] < 3 ? names[out.kinds[c]] : "unknown",
               (unsigned long long)out.dimensions[c]);
    }
    printf("right side");
    for (uint64_t i = 0; i < answer.rows; i++) {
        printf(" %g", out.right[i]);
    }
    printf("\ncost");
    for (uint64_t i = 0; i < answer.columns; i++) {
        printf(" %g", out.cost[i]);
    }
    printf("\n");
}

static void print_owner(const char *what, uint64_t number, copp3_owner answer) {
    printf("%s %llu ", what, (unsigned long long)number);
    if (answer.number != 0) {
        printf("has no owner: refused %llu\n", (unsigned long long)answer.number);
    } else if (answer.owner == COPP3_OWNER_STANDARD_ROWS) {
        printf("belongs to the standard rows\n");
    } else if (answer.owner == COPP3_OWNER_ROOT_STAGE) {
        printf("belongs to the root stage\n");
    } else {
        printf("belongs to objective %llu\n",
               (unsigned long long)(answer.owner - COPP3_OWNER_OBJECTIVE));
    }
}

static void print_row_owners(copp3_answer answer, buffers out) {
    for (uint64_t row = 0; row < answer.rows; row++) {
        print_owner("row", row, owner_of_row(out, (size_t)row));
    }
}

/* Those behind the columns of a and b. */
static void print_column_owners(copp3_answer answer, buffers out) {
    for (uint64_t column = 2 * STATIONS; column < answer.columns; column++) {
        print_owner("column", column, owner_of_column(out, (size_t)column));
    }
}

int main(void) {
    copp3_answer size = copp3_size(case_a_job(), case_a_objectives(), CASE_A_TABLES);
    if (!counts_are(size)) {
        fprintf(stderr, "case A: sizing answers %llu, place %llu, counts %llu %llu %llu %llu\n",
                (unsigned long long)size.number, (unsigned long long)size.place,
                (unsigned long long)size.entries, (unsigned long long)size.rows,
                (unsigned long long)size.cones, (unsigned long long)size.columns);
        return 1;
    }
    buffers out = reserve_buffers(size);
    check_short_buffers(size, out);
    copp3_answer answer =
        assemble(size, out, (size_t)size.columns, COPP3_INDEX_PLACES(OBJECTIVES));
    expect(counts_are(answer), "the assembly's answer");
    if (counts_are(answer)) {
        check_numbers(out);
        check_index(out);
        check_owners(out);
        print(answer, out);
        print_row_owners(answer, out);
        print_column_owners(answer, out);
    }
    release(out);
    return faults == 0 ? 0 : 1;
}
