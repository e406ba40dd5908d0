/*
 * Cone rows for third-order path timing, as a static library (libcopp3_c.a).
 *
 * A port of the assembly half of copp3_socp from TOPP-THU/copp f9a5f800ee (MIT
 * licence, see NOTICE). Grid, boundary states, coefficient tables and
 * objectives go in; entries, right side, cone list and linear cost come out,
 * and an index that tells whose they are. No memory is reserved, nothing is kept
 * between calls, no call fails to end, and a refusal changes no byte of any
 * buffer.
 *
 * 1. Ask copp3_size how much will be written.
 * 2. Lend copp3_assemble seven buffers of these lengths, and an index buffer of
 *    8*(objectives + 2) places, which sizing does not tell. All may be longer.
 * 3. Ask copp3_owner_of_row and copp3_owner_of_column whose a row or a column
 *    is; they answer from the index.
 *
 * Output
 * ------
 * Clarabel's form: A*z + slack = right side, slack in the product of the cones,
 * rows in cone order. Entry i of A is values[i] at row rows[i], column
 * columns[i]; no position is named twice. Cone c has the next dimensions[c]
 * rows; its kind is 0 zero, 1 nonnegative, 2 second-order. The cost is linear
 * in the columns. Row numbers, column numbers, dimensions and all numbers of the
 * index are 64-bit whole numbers, kinds are bytes.
 *
 * Columns of z, for stations 0 to n:
 *     a of station k      k
 *     b of station k      n + 1 + k
 *     xi number j         2*(n + 1) + j, the root of a at station max(n0,1) + j
 *                         (only with a Time or ThermalEnergy objective)
 *     then each objective's own columns, in the order of the objectives.
 *
 * A number is computed as the published Rust computes it, with one rounding per
 * operation, and equals it bit for bit.
 *
 * Index
 * -----
 * There are two owners more than objectives: 0 the standard rows, 1 the root
 * stage (the xi columns and their rows), 2 + i objective i. Owner k has eight
 * numbers of the index, from place 8*k on:
 *
 *     place          number
 *     8*k      + 0   first entry
 *              + 1   first row
 *              + 2   first cone
 *              + 3   first column
 *              + 4   number of entries
 *              + 5   number of rows
 *              + 6   number of cones
 *              + 7   number of columns
 *
 * Together the owners have every entry, row and cone and every column from
 * 2*(n + 1) on, each once and in the order of the owners. The columns of a and b
 * have no owner, and the standard rows have no columns. An owner stands in the
 * index also where it has nothing (the root stage without Time and
 * ThermalEnergy, Linear always). Where a number of things is 0, the first one is
 * how much there was before, with a and b among the columns.
 *
 * Letters
 * -------
 *     n     number of the last station; the grid has n + 1 numbers
 *     d     number of torques
 *     n0    number of stationary intervals at the start, 0 for none; there a
 *           follows from a at station n0. n1 the same at the end, from
 *           station n - n1 on
 *
 * Tables
 * ------
 * Each is lent as a pointer and a length. The length has to be just this one:
 *
 *     no. name         length           contents
 *      -  grid         n + 1            path position of each station, rising
 *      0  acc_rows     n + 1            acceleration rows of each station, at most 256
 *      1  jerk_rows    n + 1            jerk rows of each station, at most 256
 *      2  amax         n + 1            upper bound of a at each station, INFINITY for none
 *      3  acc_a        sum of table 0   acceleration rows, station by station:
 *      4  acc_b        sum of table 0       acc_a*a + acc_b*b <= acc_max
 *      5  acc_max      sum of table 0
 *      6  jerk_a       sum of table 1   linearized jerk rows, station by station:
 *      7  jerk_b       sum of table 1       jerk_a*a + jerk_b*b + jerk_c*c <= jerk_max
 *      8  jerk_c       sum of table 1       with c = (change of b) / (spacing), once
 *      9  jerk_max     sum of table 1       backward and once forward
 *     10  thermal      n + 1            weight of each station (get_weight_a_copp3)
 *     11  torque_a     d*(n + 1)        station by station, d numbers for each:
 *     12  torque_b     d*(n + 1)            torque = torque_a*a + torque_b*b + torque_g
 *     13  torque_g     d*(n + 1)
 *     14  start_roots  max(n0,1) - 1    cube root of (s[k]-s[0])/(s[n0]-s[0]), k = 1 .. n0-1
 *     15  end_roots    max(n1,1) - 1    cube root of (s[k]-s[n])/(s[n-n1]-s[n]), k = 1 .. n1-1
 *      -  pool         any              the numbers of the objectives' lists
 *
 * Table 10 counts only with a ThermalEnergy objective, 11 to 13 only with that
 * or TotalVariationTorque, 14 and 15 only with Linear. A table that doesn't
 * count may have any length. A number that no row or cost uses is never read
 * and may be anything, NaN too.
 *
 * Table 15 follows the published Rust, which walks stations 1 to n1-1 at the
 * end as well, with distances from s[n].
 *
 * No pointer may be null, not even with length 0. A pointer has to be aligned
 * for its type and point to as many elements as its length says. No buffer may
 * overlap another buffer or a table.
 *
 * Refusals
 * --------
 * Tested in rising number, save that 11 to 13 are tested objective by
 * objective, that 15 for tables 2 to 15 comes after 16, and 28 before 20. Of
 * several places under one number the lowest is given (at 16, within a table,
 * table 0 first). Where nothing is said the place is 0. Minus zero counts as
 * zero.
 *
 *     0   accepted
 *
 *     Path:
 *     1   a boundary number is not finite; place 0 initial a, 1 terminal a,
 *         2 initial b, 3 terminal b
 *     2   a boundary a is below 0; place 0 initial, 1 terminal
 *     3   initial a is 0 with b below 0 (place 0), or terminal a is 0 with b
 *         above 0 (place 1)
 *     4   fewer than 3 stations
 *     5   more than 65537 stations
 *     6   a grid number is not finite; place the first such station
 *     7   a grid number is not above the one before; place the first such
 *         station (the later one of the pair)
 *
 *     Job:
 *     8   d is outside 1 to 32
 *     9   no objective
 *     10  more than 16 objectives
 *     11  a weight is NaN, infinite or negative; place the objective's index
 *     12  a list is not d long (scales) or n + 1 long (alpha, beta), or runs
 *         past the pool; place the objective's index
 *     13  a scale is NaN, infinite or negative; place the objective's index
 *
 *     Tables:
 *     14  n0 + n1 is n or more
 *     15  a table that counts has a wrong length; place the table's number
 *     16  a row count is above 256; place the station
 *     17  a bound that is read is NaN or minus infinity, or a stationary
 *         minimum is plus infinity; place 0 start, 1 end, 2 + k amax of
 *         station k. Read are the bounds of an end whose count is not 0, and
 *         amax of stations n0+1 to n-n1-1.
 *     18  a stationary maximum is below its minimum; place 0 start, 1 end
 *
 *     Buffers (assembly only):
 *     19  a buffer is too short; place of the first: 0 rows, 1 columns,
 *         2 values, 3 right, 4 kinds, 5 dimensions, 6 cost
 *     28  the index has fewer than 8*(objectives + 2) places (also answered by
 *         the two functions on owners). Tested after 19 and before 20.
 *
 *     Numbers (assembly only):
 *     20  a number to be written to values, right or cost is not finite
 *
 *     Owners (copp3_owner_of_row and copp3_owner_of_column only):
 *     29  no owner has the row or column; a column below 2*(n + 1) has none
 *
 *     This interface:
 *     40  the kind of an objective is above 3; place the first such index among
 *         the objectives that count. Tested before all others.
 */
#ifndef COPP3_ASSEMBLY_H
#define COPP3_ASSEMBLY_H

#include <stddef.h>
#include <stdint.h>

#ifdef __cplusplus
extern "C" {
#endif

/* States at both ends of the path. */
typedef struct {
    double a0; /* initial a */
    double a1; /* terminal a */
    double b0; /* initial b */
    double b1; /* terminal b */
} copp3_boundary;

/* Bounds of a behind a stationary end; not read where the end's count is 0. */
typedef struct {
    double maximum; /* INFINITY for none */
    double minimum;
} copp3_bounds;

typedef struct {
    copp3_boundary boundary;
    copp3_bounds start; /* of a at station n0 */
    copp3_bounds end;   /* of a at station n - n1 */
    size_t d;           /* number of torques, 1 to 32 */
    size_t n0;          /* stationary count of the start */
    size_t n1;          /* stationary count of the end */
    size_t count;       /* number of objectives, 1 to 16 */
} copp3_job;

/* Kinds of objectives. */
#define COPP3_TIME 0
#define COPP3_THERMAL_ENERGY 1
#define COPP3_TOTAL_VARIATION_TORQUE 2
#define COPP3_LINEAR 3

/* An objective; lists are parts of the pool, and those that a kind doesn't use
 * are not looked at. */
typedef struct {
    uint64_t kind;
    double weight; /* finite, not negative */
    size_t start;  /* torque kinds: the d scales; Linear: alpha, n + 1 long */
    size_t len;
    size_t start2; /* Linear: beta, n + 1 long */
    size_t len2;
} copp3_objective;

/* The objectives; items from the job's count on are not looked at. */
typedef struct {
    copp3_objective items[16];
} copp3_objectives;

/* Number 0 with the four counts, or a refusal's number and place with counts 0. */
typedef struct {
    uint64_t number;
    uint64_t place;
    uint64_t entries; /* needed length of rows, columns and values */
    uint64_t rows;    /* needed length of right */
    uint64_t cones;   /* needed length of kinds and dimensions */
    uint64_t columns; /* needed length of cost */
} copp3_answer;

/* Cone kinds, as written to the buffer kinds. */
#define COPP3_CONE_ZERO 0
#define COPP3_CONE_NONNEGATIVE 1
#define COPP3_CONE_SECOND_ORDER 2

/* Owners of rows and columns; objective i is COPP3_OWNER_OBJECTIVE + i. */
#define COPP3_OWNER_STANDARD_ROWS 0
#define COPP3_OWNER_ROOT_STAGE 1
#define COPP3_OWNER_OBJECTIVE 2

/* Needed length of the index. */
#define COPP3_INDEX_PLACES(objectives) (8 * ((size_t)(objectives) + 2))

/* Number 0 with the owner, or 28 or 29 with owner 0. The place is always 0. */
typedef struct {
    uint64_t number;
    uint64_t place;
    uint64_t owner;
} copp3_owner;

/* Bytes of stack to reserve for a call of any of these functions, its arguments
 * and the caller's copies of them included; the same for every n. Well above
 * what c/stack.c measures, and not lowered, so that what is reserved stays
 * enough. Signal handlers come on top. */
#define COPP3_STACK_BYTES 10240

/* Tells the four counts, or every refusal tested before 19. */
copp3_answer copp3_size(
    copp3_job job, copp3_objectives objectives,
    const double *grid, size_t grid_len,
    const uint32_t *acc_rows, size_t acc_rows_len,
    const uint32_t *jerk_rows, size_t jerk_rows_len,
    const double *amax, size_t amax_len,
    const double *acc_a, size_t acc_a_len,
    const double *acc_b, size_t acc_b_len,
    const double *acc_max, size_t acc_max_len,
    const double *jerk_a, size_t jerk_a_len,
    const double *jerk_b, size_t jerk_b_len,
    const double *jerk_c, size_t jerk_c_len,
    const double *jerk_max, size_t jerk_max_len,
    const double *thermal, size_t thermal_len,
    const double *torque_a, size_t torque_a_len,
    const double *torque_b, size_t torque_b_len,
    const double *torque_g, size_t torque_g_len,
    const double *start_roots, size_t start_roots_len,
    const double *end_roots, size_t end_roots_len,
    const double *pool, size_t pool_len);

/* Writes an accepted problem from place 0 of each buffer, changes nothing past
 * the counts and past the needed length of the index, and answers what
 * copp3_size would answer. Succeeds exactly when every buffer has its places and
 * every number to be written is finite. */
copp3_answer copp3_assemble(
    copp3_job job, copp3_objectives objectives,
    const double *grid, size_t grid_len,
    const uint32_t *acc_rows, size_t acc_rows_len,
    const uint32_t *jerk_rows, size_t jerk_rows_len,
    const double *amax, size_t amax_len,
    const double *acc_a, size_t acc_a_len,
    const double *acc_b, size_t acc_b_len,
    const double *acc_max, size_t acc_max_len,
    const double *jerk_a, size_t jerk_a_len,
    const double *jerk_b, size_t jerk_b_len,
    const double *jerk_c, size_t jerk_c_len,
    const double *jerk_max, size_t jerk_max_len,
    const double *thermal, size_t thermal_len,
    const double *torque_a, size_t torque_a_len,
    const double *torque_b, size_t torque_b_len,
    const double *torque_g, size_t torque_g_len,
    const double *start_roots, size_t start_roots_len,
    const double *end_roots, size_t end_roots_len,
    const double *pool, size_t pool_len,
    uint64_t *rows, size_t rows_len,
    uint64_t *columns, size_t columns_len,
    double *values, size_t values_len,
    double *right, size_t right_len,
    uint8_t *kinds, size_t kinds_len,
    uint64_t *dimensions, size_t dimensions_len,
    double *cost, size_t cost_len,
    uint64_t *index, size_t index_len);

/* Tells which owner has a row. The index may hold anything, written by the
 * assembly or not, and the number of objectives and the row may be any: 28 if
 * the index has fewer than 8*(objectives + 2) places, else the lowest owner whose
 * rows hold this one, else 29. First row and number of rows are added without
 * wrapping. Places past the needed ones are not looked at. */
copp3_owner copp3_owner_of_row(
    const uint64_t *index, size_t index_len, size_t objectives, size_t row);

/* The same for a column. A column below 2*(n + 1) has no owner: 29. */
copp3_owner copp3_owner_of_column(
    const uint64_t *index, size_t index_len, size_t objectives, size_t column);

#ifdef __cplusplus
}
#endif

#endif
