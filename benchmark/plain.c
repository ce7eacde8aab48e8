/*
 * Plain C of the sixteen calls, written from documents 01 and 02 for the benchmark: the same arguments, checks and results
 * as bindings/puldeho.h. Compiled by gcc with PREFIX set to the name that stands before each call.
 */
#include <stddef.h>
#include <stdint.h>
#include <string.h>

#define JOIN_NAMES(prefix, call) prefix##_##call
#define JOIN(prefix, call) JOIN_NAMES(prefix, call)
#define CALL(call) JOIN(PREFIX, call)

enum { MOST_W = 72, MOST_K = 32, MOST_N = 8, MOST_LAYER = 3170, MOST_FACES = 3240, MOST_AIR = 65535 };
/* The scale of ratio, mismatch and piece, and that of a table's b. */
enum { SCALE = 262144, TABLE_SCALE = 65536 };
/* A tracer's block of the ledger: how many emitters stand, the low and the high half of their units a tick, 16 times id,
 * cell, units; then its limiter's number, and the low and the high half of lo and of hi; then what was loaded, emitted
 * and withdrawn. */
enum { MOST_EMITTERS = 16, EMITTER = 3, SUM = 1, FIRST_EMITTER = 3, LIMITER = FIRST_EMITTER + MOST_EMITTERS * EMITTER };
enum { LO = LIMITER + 1, HI = LO + 2, LOADED = HI + 2, EMITTED, WITHDRAWN, BLOCK };
enum { PRESENT = 1, POSITIVE = 2, FIXED = 3 };
#define MOST_TOTAL 268435455u
/* Twice the largest ratio, that of all of a tracer in a cell with one unit of air. */
#define FAR ((int64_t)2 * SCALE * MOST_TOTAL)

enum lent { NOTHING, ROW_FLUXES, LAYER_FLUXES, TABLE };

/* A tracer's limiter as a mismatch wants it. The present one has the least and the greatest of the three ratios for its
 * bounds, the others have these. A bound above FAR is FAR, since a size is below it anyway; the positive one's are 0 and FAR. */
typedef struct {
    int present;
    int64_t lo, hi;
} limiter;

typedef struct {
    size_t w, r, k, n;
    size_t layer; /* cells of a layer */
    size_t cells; /* cells of all layers */
    uint64_t totals[MOST_N];
    limiter limiters[MOST_N]; /* in calls that test them */
} world;

static uint64_t refused(uint64_t number) { return number << 32; }
static int is_refused(uint64_t answer) { return answer >> 32 != 0; }

static int grid_fits(uint32_t w, uint32_t r, uint32_t k, uint32_t n)
{
    return w >= 4 && w <= 72 && r >= 1 && r <= 44 && k >= 1 && k <= 32 && n >= 1 && n <= 8;
}

static int lent_fits(const world *g, enum lent lent, size_t length)
{
    switch (lent) {
    case ROW_FLUXES: return length == g->w;
    case LAYER_FLUXES: return length == g->w * (g->r + 1);
    case TABLE: return length == 2 * (g->k + 1);
    default: return 1;
    }
}

static int air_fits(const uint32_t *air, size_t cells)
{
    uint32_t bad = 0;
    for (size_t i = 0; i < cells; i++)
        bad |= air[i] == 0 || air[i] > MOST_AIR;
    return !bad;
}

static uint64_t total_of(const uint32_t *gas, size_t cells)
{
    uint64_t total = 0;
    for (size_t i = 0; i < cells; i++)
        total += gas[i];
    return total;
}

/* Places 1 to 4: 0, or the refusal's number. Where 0, the sizes and the totals are filled in. */
static uint32_t common_places(world *g, uint32_t w, uint32_t r, uint32_t k, uint32_t n, const uint32_t *air,
                              size_t air_length, const uint32_t *tracers, size_t tracers_length, size_t ledger_length,
                              enum lent lent, size_t lent_length)
{
    if (!grid_fits(w, r, k, n))
        return 1;
    g->w = w, g->r = r, g->k = k, g->n = n;
    g->layer = 2 + g->r * g->w;
    g->cells = g->k * g->layer;
    if (air_length != g->cells || tracers_length != g->n * g->cells || ledger_length != g->n * BLOCK
        || !lent_fits(g, lent, lent_length))
        return 2;
    if (!air_fits(air, g->cells))
        return 3;
    for (size_t t = 0; t < g->n; t++) {
        g->totals[t] = total_of(tracers + t * g->cells, g->cells);
        if (g->totals[t] > MOST_TOTAL)
            return 4;
    }
    return 0;
}

#define COMMON_PLACES(g, lent, lent_length)                                                                           \
    do {                                                                                                              \
        uint32_t place = common_places(g, w, r, k, n, air, air_length, tracers, tracers_length, ledger_length, lent,  \
                                       lent_length);                                                                  \
        if (place != 0)                                                                                               \
            return refused(place);                                                                                    \
    } while (0)

/* The books. */

/* Place 22 of every call but a load, by the totals of place 4: 0 where it refuses. */
static int books_fit(const world *g, const uint32_t *ledger)
{
    for (size_t t = 0; t < g->n; t++) {
        const uint32_t *block = ledger + t * BLOCK;
        if ((uint64_t)block[LOADED] + block[EMITTED] != block[WITHDRAWN] + g->totals[t])
            return 0;
    }
    return 1;
}

/* Whether a sum of the books takes an amount more. */
static int sum_takes(uint32_t sum, uint64_t amount) { return amount <= UINT32_MAX - sum; }

/* Places 1 to 4, then 22. */
#define TESTED_PLACES(g, lent, lent_length)                                                                           \
    do {                                                                                                              \
        COMMON_PLACES(g, lent, lent_length);                                                                          \
        if (!books_fit(g, ledger))                                                                                    \
            return refused(22);                                                                                       \
    } while (0)

/* Numbers of 64 bits in the ledger: the low half, then the high half. */

static uint64_t kept(const uint32_t *halves) { return (uint64_t)halves[1] << 32 | halves[0]; }

static void keep(uint32_t *halves, uint64_t number)
{
    halves[0] = (uint32_t)number;
    halves[1] = (uint32_t)(number >> 32);
}

/* The limiters. */

static int limiter_fits(uint32_t number, uint64_t lo, uint64_t hi)
{
    return number >= PRESENT && number <= FIXED && lo <= hi;
}

static int64_t near(uint64_t bound) { return bound < (uint64_t)FAR ? (int64_t)bound : FAR; }

/* Place 21 of the calls that move air and of the count before a sweep: 0 where it refuses. Else the limiters are filled in. */
static int limiters_fit(world *g, const uint32_t *ledger)
{
    for (size_t t = 0; t < g->n; t++) {
        const uint32_t *block = ledger + t * BLOCK;
        uint64_t lo = kept(block + LO), hi = kept(block + HI);
        if (!limiter_fits(block[LIMITER], lo, hi))
            return 0;
        int fixed = block[LIMITER] == FIXED;
        g->limiters[t] = (limiter){block[LIMITER] == PRESENT, fixed ? near(lo) : 0, fixed ? near(hi) : FAR};
    }
    return 1;
}

#define MOVING_PLACES(g, lent, lent_length)                                                                           \
    do {                                                                                                              \
        COMMON_PLACES(g, lent, lent_length);                                                                          \
        if (!limiters_fit(g, ledger))                                                                                 \
            return refused(21);                                                                                       \
        if (!books_fit(g, ledger))                                                                                    \
            return refused(22);                                                                                       \
    } while (0)

uint64_t CALL(set_limiter)(uint32_t w, uint32_t r, uint32_t k, uint32_t n, const uint32_t *air, size_t air_length,
                           const uint32_t *tracers, size_t tracers_length, uint32_t *ledger, size_t ledger_length,
                           uint32_t tracer, uint32_t number, uint64_t lo, uint64_t hi)
{
    world g;
    TESTED_PLACES(&g, NOTHING, 0);
    if (tracer >= g.n)
        return refused(5);
    if (!limiter_fits(number, lo, hi))
        return refused(21);
    uint32_t *block = ledger + (size_t)tracer * BLOCK;
    block[LIMITER] = number;
    keep(block + LO, lo);
    keep(block + HI, hi);
    return 0;
}

uint64_t CALL(load)(uint32_t w, uint32_t r, uint32_t k, uint32_t n, const uint32_t *air, size_t air_length,
                    const uint32_t *tracers, size_t tracers_length, uint32_t *ledger, size_t ledger_length)
{
    world g;
    COMMON_PLACES(&g, NOTHING, 0);
    memset(ledger, 0, ledger_length * sizeof *ledger);
    for (size_t t = 0; t < g.n; t++) {
        ledger[t * BLOCK + LIMITER] = PRESENT;
        ledger[t * BLOCK + LOADED] = (uint32_t)g.totals[t];
    }
    return 0;
}

uint64_t CALL(total)(uint32_t w, uint32_t r, uint32_t k, uint32_t n, const uint32_t *air, size_t air_length,
                     const uint32_t *tracers, size_t tracers_length, const uint32_t *ledger, size_t ledger_length,
                     uint32_t tracer)
{
    world g;
    TESTED_PLACES(&g, NOTHING, 0);
    return tracer < g.n ? g.totals[tracer] : refused(5);
}

uint64_t CALL(cell)(uint32_t w, uint32_t r, uint32_t k, uint32_t n, const uint32_t *air, size_t air_length,
                    const uint32_t *tracers, size_t tracers_length, const uint32_t *ledger, size_t ledger_length,
                    uint32_t tracer, uint32_t cell)
{
    world g;
    TESTED_PLACES(&g, NOTHING, 0);
    if (tracer >= g.n || cell >= g.cells)
        return refused(5);
    return tracers[tracer * g.cells + cell];
}

uint64_t CALL(emission)(uint32_t w, uint32_t r, uint32_t k, uint32_t n, const uint32_t *air, size_t air_length,
                        uint32_t *tracers, size_t tracers_length, uint32_t *ledger, size_t ledger_length,
                        uint32_t tracer, uint32_t cell, uint32_t amount)
{
    world g;
    TESTED_PLACES(&g, NOTHING, 0);
    if (tracer >= g.n || cell >= g.cells)
        return refused(5);
    uint32_t *emitted = &ledger[tracer * BLOCK + EMITTED];
    if (g.totals[tracer] + amount > MOST_TOTAL || !sum_takes(*emitted, amount))
        return refused(6);
    tracers[tracer * g.cells + cell] += amount;
    *emitted += amount;
    return 0;
}

uint64_t CALL(withdrawal)(uint32_t w, uint32_t r, uint32_t k, uint32_t n, const uint32_t *air, size_t air_length,
                          uint32_t *tracers, size_t tracers_length, uint32_t *ledger, size_t ledger_length,
                          uint32_t tracer, uint32_t cell, uint32_t amount)
{
    world g;
    TESTED_PLACES(&g, NOTHING, 0);
    if (tracer >= g.n || cell >= g.cells)
        return refused(5);
    uint32_t *place = &tracers[tracer * g.cells + cell], *withdrawn = &ledger[tracer * BLOCK + WITHDRAWN];
    if (amount > *place || !sum_takes(*withdrawn, amount))
        return refused(7);
    *place -= amount;
    *withdrawn += amount;
    return 0;
}

/* The scheme. A mismatch and a piece are signed; a numerator is never negative. */

static int64_t least(int64_t a, int64_t b) { return a < b ? a : b; }
static int64_t greatest(int64_t a, int64_t b) { return a > b ? a : b; }

static int64_t ratio(uint32_t m, uint32_t t) { return (int64_t)((uint64_t)SCALE * t / m); }

/* Outside its bounds a ratio has a distance below 0 to one of them, and the size is 0. */
static int64_t mismatch(limiter by, int64_t qa, int64_t q, int64_t qb)
{
    int64_t lo = by.present ? least(q, least(qa, qb)) : by.lo;
    int64_t hi = by.present ? greatest(q, greatest(qa, qb)) : by.hi;
    int64_t difference = qb - qa;
    int64_t size = (difference < 0 ? -difference : difference) / 2;
    size = greatest(0, least(size, least(2 * (q - lo), 2 * (hi - q))));
    return difference < 0 ? -size : size;
}

static int64_t high_piece(int64_t d, uint32_t have, uint32_t t, int64_t m)
{
    uint64_t numerator = (uint64_t)(2 * SCALE * m * t + d * m * (have - m));
    return (int64_t)(numerator / (2 * (uint64_t)SCALE * have));
}

static int64_t low_piece(int64_t d, uint32_t have, uint32_t t, int64_t m) { return high_piece(-d, have, t, m); }

static int fluxes_fit(const int32_t *fluxes, size_t length, int64_t limit)
{
    for (size_t i = 0; i < length; i++)
        if (fluxes[i] > limit || fluxes[i] < -limit)
            return 0;
    return 1;
}

/* Places 5 and 8 of the calls on a row: 0, or the refusal's number. Where 0, the row's first cell is filled in. */
static uint32_t row_places(size_t *first, const world *g, uint32_t layer, uint32_t row, const int32_t *fluxes)
{
    if (layer >= g->k || row >= g->r)
        return 5;
    if (!fluxes_fit(fluxes, g->w, 1048560))
        return 8;
    *first = layer * g->layer + 1 + row * g->w;
    return 0;
}

/* The zonal sweep, the count before it, and the sweep with a given count. */

static size_t west_of(size_t i, size_t w) { return i == 0 ? w - 1 : i - 1; }
static size_t east_of(size_t i, size_t w) { return i + 1 == w ? 0 : i + 1; }

/* Part s of n of each flux. */
static void parts_of(int32_t *part, const int32_t *fluxes, size_t w, int64_t n, int64_t s)
{
    for (size_t i = 0; i < w; i++) {
        int64_t size = fluxes[i] < 0 ? -(int64_t)fluxes[i] : fluxes[i];
        int32_t p = (int32_t)(s * size / n - (s - 1) * size / n);
        part[i] = fluxes[i] < 0 ? -p : p;
    }
}

/* One substep of a row's air; 0 where it is not allowed. */
static int step_air(uint32_t *air, const int32_t *f, size_t w)
{
    uint32_t next[MOST_W];
    for (size_t i = 0; i < w; i++) {
        size_t west = west_of(i, w);
        int32_t have = (int32_t)air[i];
        int32_t out = (f[i] > 0 ? f[i] : 0) + (f[west] < 0 ? -f[west] : 0);
        int32_t after = have + f[west] - f[i];
        if (out > have || after < 1 || after > MOST_AIR)
            return 0;
        next[i] = (uint32_t)after;
    }
    memcpy(air, next, w * sizeof *air);
    return 1;
}

static int serves(const uint32_t *air, const int32_t *fluxes, size_t w, int64_t n)
{
    uint32_t row[MOST_W];
    int32_t f[MOST_W];
    memcpy(row, air, w * sizeof *air);
    for (int64_t s = 1; s <= n; s++) {
        parts_of(f, fluxes, w, n, s);
        if (!step_air(row, f, w))
            return 0;
    }
    return 1;
}

/* One substep of a tracer's row. */
static void step_gas(uint32_t *gas, const uint32_t *air, const int32_t *f, size_t w, limiter by)
{
    int64_t q[MOST_W], d[MOST_W], piece[MOST_W];
    for (size_t i = 0; i < w; i++)
        q[i] = ratio(air[i], gas[i]);
    for (size_t i = 0; i < w; i++)
        d[i] = mismatch(by, q[west_of(i, w)], q[i], q[east_of(i, w)]);
    for (size_t i = 0; i < w; i++) {
        size_t east = east_of(i, w);
        if (f[i] > 0)
            piece[i] = high_piece(d[i], air[i], gas[i], f[i]);
        else if (f[i] < 0)
            piece[i] = -low_piece(d[east], air[east], gas[east], -f[i]);
        else
            piece[i] = 0;
    }
    for (size_t i = 0; i < w; i++)
        gas[i] = (uint32_t)(gas[i] + piece[west_of(i, w)] - piece[i]);
}

/* Places 5, 8 and 9: what the count before the sweep returns. Where it is accepted, the row's first cell is filled in. */
static uint64_t counted(size_t *first, const world *g, const uint32_t *air, uint32_t layer, uint32_t row,
                        const int32_t *fluxes)
{
    uint32_t place = row_places(first, g, layer, row, fluxes);
    if (place != 0)
        return refused(place);
    for (uint32_t count = 1; count <= 16; count++)
        if (serves(air + *first, fluxes, g->w, count))
            return count;
    return refused(9);
}

/* The row from cell `first` on, swept in so many substeps. */
static void sweep_row(const world *g, uint32_t *air, uint32_t *tracers, size_t first, const int32_t *fluxes,
                      uint32_t count)
{
    int32_t f[MOST_W];
    for (uint32_t s = 1; s <= count; s++) {
        parts_of(f, fluxes, g->w, count, s);
        for (size_t t = 0; t < g->n; t++)
            step_gas(tracers + t * g->cells + first, air + first, f, g->w, g->limiters[t]);
        step_air(air + first, f, g->w);
    }
}

uint64_t CALL(zonal)(uint32_t w, uint32_t r, uint32_t k, uint32_t n, uint32_t *air, size_t air_length,
                     uint32_t *tracers, size_t tracers_length, const uint32_t *ledger, size_t ledger_length,
                     uint32_t layer, uint32_t row, const int32_t *fluxes, size_t fluxes_length)
{
    world g;
    size_t first;
    MOVING_PLACES(&g, ROW_FLUXES, fluxes_length);
    uint64_t count = counted(&first, &g, air, layer, row, fluxes);
    if (!is_refused(count))
        sweep_row(&g, air, tracers, first, fluxes, (uint32_t)count);
    return count;
}

uint64_t CALL(count_zonal)(uint32_t w, uint32_t r, uint32_t k, uint32_t n, const uint32_t *air, size_t air_length,
                           const uint32_t *tracers, size_t tracers_length, const uint32_t *ledger,
                           size_t ledger_length, uint32_t layer, uint32_t row, const int32_t *fluxes,
                           size_t fluxes_length)
{
    world g;
    size_t first;
    MOVING_PLACES(&g, ROW_FLUXES, fluxes_length);
    return counted(&first, &g, air, layer, row, fluxes);
}

uint64_t CALL(zonal_with_count)(uint32_t w, uint32_t r, uint32_t k, uint32_t n, uint32_t *air, size_t air_length,
                                uint32_t *tracers, size_t tracers_length, const uint32_t *ledger, size_t ledger_length,
                                uint32_t layer, uint32_t row, uint32_t given, const int32_t *fluxes,
                                size_t fluxes_length)
{
    world g;
    size_t first;
    MOVING_PLACES(&g, ROW_FLUXES, fluxes_length);
    uint64_t count = counted(&first, &g, air, layer, row, fluxes);
    if (is_refused(count))
        return count;
    if (given != count)
        return refused(20);
    sweep_row(&g, air, tracers, first, fluxes, given);
    return given;
}

/* The long zonal sweep. */

/* Where a face's mark lies: m units of air into a cell, which is met after so many turns from column 0. */
typedef struct {
    int64_t turn;
    size_t cell;
    uint32_t m;
} mark;

/* The marks of each column's west face. They rise, and span one turn, so the line is walked once. */
static void marks_of(mark *at, const uint32_t *air, const int32_t *fluxes, size_t w, int64_t row_air)
{
    int64_t turn = fluxes[w - 1] > 0 ? -1 : 0, before = turn * row_air, x = 0;
    size_t i = 0;
    for (size_t j = 0; j < w; j++) {
        int64_t place = x - fluxes[west_of(j, w)];
        while (before + air[i] <= place) {
            before += air[i];
            i = east_of(i, w);
            turn += i == 0;
        }
        at[j] = (mark){turn, i, (uint32_t)(place - before)};
        x += air[j];
    }
}

/* A tracer's row after the sweep. The last column's east mark is the first west mark and a turn. */
static void sweep_gas(uint32_t *gas, const uint32_t *air, const mark *at, size_t w, limiter by)
{
    int64_t q[MOST_W], d[MOST_W], whole[MOST_W], marked[MOST_W + 1], total = 0;
    for (size_t i = 0; i < w; i++)
        q[i] = ratio(air[i], gas[i]);
    for (size_t i = 0; i < w; i++)
        d[i] = mismatch(by, q[west_of(i, w)], q[i], q[east_of(i, w)]);
    for (size_t i = 0; i < w; i++) {
        whole[i] = total;
        total += gas[i];
    }
    for (size_t j = 0; j < w; j++) {
        size_t i = at[j].cell;
        marked[j] = at[j].turn * total + whole[i] + low_piece(d[i], air[i], gas[i], at[j].m);
    }
    marked[w] = marked[0] + total;
    for (size_t j = 0; j < w; j++)
        gas[j] = (uint32_t)(marked[j + 1] - marked[j]);
}

/* The row's air after the sweep; 0 where it leaves 1 to 65,535. */
static int long_air(uint32_t *next, const uint32_t *air, const int32_t *fluxes, size_t w)
{
    for (size_t i = 0; i < w; i++) {
        int32_t after = (int32_t)air[i] + fluxes[west_of(i, w)] - fluxes[i];
        if (after < 1 || after > MOST_AIR)
            return 0;
        next[i] = (uint32_t)after;
    }
    return 1;
}

uint64_t CALL(long_zonal)(uint32_t w, uint32_t r, uint32_t k, uint32_t n, uint32_t *air, size_t air_length,
                          uint32_t *tracers, size_t tracers_length, const uint32_t *ledger, size_t ledger_length,
                          uint32_t layer, uint32_t row, const int32_t *fluxes, size_t fluxes_length)
{
    world g;
    size_t first;
    uint32_t next[MOST_W];
    mark at[MOST_W];
    MOVING_PLACES(&g, ROW_FLUXES, fluxes_length);
    uint32_t place = row_places(&first, &g, layer, row, fluxes);
    if (place != 0)
        return refused(place);
    int64_t row_air = (int64_t)total_of(air + first, w);
    if (!fluxes_fit(fluxes, w, row_air))
        return refused(16);
    if (!long_air(next, air + first, fluxes, w))
        return refused(17);
    marks_of(at, air + first, fluxes, w, row_air);
    for (size_t t = 0; t < n; t++)
        sweep_gas(tracers + t * g.cells + first, air + first, at, w, g.limiters[t]);
    memcpy(air + first, next, w * sizeof *air);
    return 0;
}

/* The meridional sweep. Face i lies between the cells south_of(i) and north_of(i); `rows` cells lie between the caps. */

static size_t south_of(size_t i, size_t w) { return i < w ? 0 : 1 + i - w; }
static size_t north_of(size_t i, size_t rows) { return i < rows ? 1 + i : 1 + rows; }

/* The layer's air after the substep; 0 where it is not allowed. */
static int layer_after(uint32_t *next, const uint32_t *air, const int32_t *f, size_t w, size_t rows)
{
    int64_t out[MOST_LAYER] = {0}, after[MOST_LAYER];
    for (size_t c = 0; c < rows + 2; c++)
        after[c] = air[c];
    for (size_t i = 0; i < w + rows; i++) {
        size_t south = south_of(i, w), north = north_of(i, rows);
        out[south] += f[i] > 0 ? f[i] : 0;
        out[north] += f[i] < 0 ? -(int64_t)f[i] : 0;
        after[south] -= f[i];
        after[north] += f[i];
    }
    for (size_t c = 0; c < rows + 2; c++) {
        if (out[c] > air[c] || after[c] < 1 || after[c] > MOST_AIR)
            return 0;
        next[c] = (uint32_t)after[c];
    }
    return 1;
}

static void layer_pieces(int64_t *piece, const uint32_t *gas, const uint32_t *air, const int32_t *f, size_t w,
                         size_t rows, limiter by)
{
    int64_t q[MOST_LAYER], d[MOST_LAYER];
    for (size_t c = 0; c < rows + 2; c++)
        q[c] = ratio(air[c], gas[c]);
    d[0] = d[rows + 1] = 0;
    for (size_t j = 0; j < rows; j++)
        d[1 + j] = mismatch(by, q[south_of(j, w)], q[1 + j], q[north_of(w + j, rows)]);
    for (size_t i = 0; i < w + rows; i++) {
        size_t south = south_of(i, w), north = north_of(i, rows);
        if (f[i] > 0)
            piece[i] = high_piece(d[south], air[south], gas[south], f[i]);
        else if (f[i] < 0)
            piece[i] = -low_piece(d[north], air[north], gas[north], -f[i]);
        else
            piece[i] = 0;
    }
}

static void step_layer_gas(uint32_t *gas, const uint32_t *air, const int32_t *f, size_t w, size_t rows, limiter by)
{
    int64_t piece[MOST_FACES], south = 0, north = 0;
    layer_pieces(piece, gas, air, f, w, rows, by);
    for (size_t i = 0; i < w; i++) {
        south += piece[i];
        north += piece[rows + i];
    }
    gas[0] = (uint32_t)(gas[0] - south);
    for (size_t j = 0; j < rows; j++)
        gas[1 + j] = (uint32_t)(gas[1 + j] + piece[j] - piece[w + j]);
    gas[1 + rows] = (uint32_t)(gas[1 + rows] + north);
}

uint64_t CALL(meridional)(uint32_t w, uint32_t r, uint32_t k, uint32_t n, uint32_t *air, size_t air_length,
                          uint32_t *tracers, size_t tracers_length, const uint32_t *ledger, size_t ledger_length,
                          uint32_t layer, const int32_t *fluxes, size_t fluxes_length)
{
    world g;
    uint32_t next[MOST_LAYER];
    MOVING_PLACES(&g, LAYER_FLUXES, fluxes_length);
    if (layer >= k)
        return refused(5);
    if (!fluxes_fit(fluxes, fluxes_length, 65535))
        return refused(8);
    size_t first = layer * g.layer, rows = g.r * g.w;
    if (!layer_after(next, air + first, fluxes, w, rows))
        return refused(10);
    for (size_t t = 0; t < n; t++)
        step_layer_gas(tracers + t * g.cells + first, air + first, fluxes, w, rows, g.limiters[t]);
    memcpy(air + first, next, g.layer * sizeof *air);
    return 1;
}

/* The remap. */

static int table_fits(const uint32_t *table, size_t k)
{
    if (table[0] != 0 || table[1] != 0 || table[2 * k] != 0 || table[2 * k + 1] != TABLE_SCALE)
        return 0;
    for (size_t j = 0; j <= k; j++)
        if (table[2 * j] > 2097120 || table[2 * j + 1] > TABLE_SCALE)
            return 0;
    return 1;
}

/* The edges of the column whose top cell is `air`. */
static void edges_of(int64_t *edge, const uint32_t *air, const uint32_t *table, size_t layer, size_t k)
{
    uint64_t p = 0;
    for (size_t i = 0; i < k; i++)
        p += air[i * layer];
    for (size_t j = 0; j <= k; j++)
        edge[j] = (int64_t)(table[2 * j] + table[2 * j + 1] * p / TABLE_SCALE);
}

/* The pairs of layers that share air in a column; 0 where the edges do not serve. */
static uint32_t pairs_of(const uint32_t *air, const uint32_t *table, size_t layer, size_t k)
{
    int64_t edge[MOST_K + 1], lower = air[0];
    uint32_t count = 0;
    size_t i = 0;
    edges_of(edge, air, table, layer, k);
    for (size_t j = 0; j < k; j++)
        if (edge[j + 1] <= edge[j] || edge[j + 1] - edge[j] > MOST_AIR)
            return 0;
    for (size_t j = 0; j < k; j++) {
        while (lower <= edge[j])
            lower += air[++i * layer];
        count++;
        while (lower < edge[j + 1]) {
            lower += air[++i * layer];
            count++;
        }
    }
    return count;
}

/* Where a new layer's lower edge lies: in an old layer, with so much of its air above the edge. */
typedef struct {
    size_t layer;
    int64_t above;
} place;

/* The places of a column's lower edges, which all tracers share. */
static void places_of(place *at, const uint32_t *air, const int64_t *edge, size_t k)
{
    int64_t upper = 0;
    for (size_t i = 0, j = 0; j < k; j++) {
        while (upper + air[i] < edge[j + 1])
            upper += air[i++];
        at[j] = (place){i, edge[j + 1] - upper};
    }
}

/* A tracer's column, remapped. gcc vectorises the mismatches only where the loop does not test `cap`. */
static void remap_gas(uint32_t *gas, const uint32_t *air, const place *at, int cap, size_t layer, size_t k, limiter by)
{
    uint32_t t[MOST_K];
    int64_t q[MOST_K], d[MOST_K] = {0}, whole[MOST_K], total = 0, last = 0;
    for (size_t i = 0; i < k; i++) {
        t[i] = gas[i * layer];
        q[i] = ratio(air[i], t[i]);
        whole[i] = total;
        total += t[i];
    }
    if (!cap)
        for (size_t i = 1; i + 1 < k; i++)
            d[i] = mismatch(by, q[i - 1], q[i], q[i + 1]);
    for (size_t j = 0; j < k; j++) {
        size_t i = at[j].layer;
        int64_t next = whole[i] + low_piece(d[i], air[i], t[i], at[j].above);
        gas[j * layer] = (uint32_t)(next - last);
        last = next;
    }
}

/* All of a column: `air` and `tracers` are its top cells. */
static void remap_column(const world *g, uint32_t *air, uint32_t *tracers, const uint32_t *table, int cap)
{
    int64_t edge[MOST_K + 1];
    place at[MOST_K];
    uint32_t old[MOST_K];
    edges_of(edge, air, table, g->layer, g->k);
    for (size_t i = 0; i < g->k; i++)
        old[i] = air[i * g->layer];
    places_of(at, old, edge, g->k);
    for (size_t t = 0; t < g->n; t++)
        remap_gas(tracers + t * g->cells, old, at, cap, g->layer, g->k, g->limiters[t]);
    for (size_t j = 0; j < g->k; j++)
        air[j * g->layer] = (uint32_t)(edge[j + 1] - edge[j]);
}

uint64_t CALL(remap)(uint32_t w, uint32_t r, uint32_t k, uint32_t n, uint32_t *air, size_t air_length,
                     uint32_t *tracers, size_t tracers_length, const uint32_t *ledger, size_t ledger_length,
                     const uint32_t *table, size_t table_length)
{
    world g;
    uint64_t count = 0;
    MOVING_PLACES(&g, TABLE, table_length);
    if (!table_fits(table, k))
        return refused(11);
    for (size_t c = 0; c < g.layer; c++) {
        uint32_t pairs = pairs_of(air + c, table, g.layer, k);
        if (pairs == 0)
            return refused(12);
        count += pairs;
    }
    for (size_t c = 0; c < g.layer; c++)
        remap_column(&g, air + c, tracers + c, table, c == 0 || c + 1 == g.layer);
    return count;
}

/* The emitters. Those that stand come first in a block, and what follows them is not read. */

static int record_fits(const uint32_t *block, size_t cells)
{
    uint64_t sum = 0;
    if (block[0] > MOST_EMITTERS)
        return 0;
    for (uint32_t i = 0; i < block[0]; i++) {
        const uint32_t *emitter = block + FIRST_EMITTER + EMITTER * i;
        if (emitter[1] >= cells)
            return 0;
        for (uint32_t j = 0; j < i; j++)
            if (block[FIRST_EMITTER + EMITTER * j] == emitter[0])
                return 0;
        sum += emitter[2];
    }
    return sum == kept(block + SUM);
}

/* Place 5 of the calls on emitters, but for a cell that the call names. */
static int emitters_fit(const world *g, const uint32_t *ledger, uint32_t tracer)
{
    for (size_t t = 0; t < g->n; t++)
        if (!record_fits(ledger + t * BLOCK, g->cells))
            return 0;
    return tracer < g->n;
}

/* How many emitters stand before the one with the id; all of them where none has it. */
static uint32_t standing_before(const uint32_t *block, uint32_t id)
{
    uint32_t i = 0;
    while (i < block[0] && block[FIRST_EMITTER + EMITTER * i] != id)
        i++;
    return i;
}

uint64_t CALL(add_emitter)(uint32_t w, uint32_t r, uint32_t k, uint32_t n, const uint32_t *air, size_t air_length,
                           const uint32_t *tracers, size_t tracers_length, uint32_t *ledger, size_t ledger_length,
                           uint32_t tracer, uint32_t cell, uint32_t id, uint32_t units)
{
    world g;
    TESTED_PLACES(&g, NOTHING, 0);
    if (!emitters_fit(&g, ledger, tracer) || cell >= g.cells)
        return refused(5);
    uint32_t *block = ledger + (size_t)tracer * BLOCK;
    if (block[0] == MOST_EMITTERS || standing_before(block, id) < block[0])
        return refused(18);
    uint32_t *emitter = block + FIRST_EMITTER + EMITTER * block[0];
    emitter[0] = id, emitter[1] = cell, emitter[2] = units;
    keep(block + SUM, kept(block + SUM) + units);
    block[0]++;
    return 0;
}

uint64_t CALL(remove_emitter)(uint32_t w, uint32_t r, uint32_t k, uint32_t n, const uint32_t *air, size_t air_length,
                              const uint32_t *tracers, size_t tracers_length, uint32_t *ledger, size_t ledger_length,
                              uint32_t tracer, uint32_t id)
{
    world g;
    TESTED_PLACES(&g, NOTHING, 0);
    if (!emitters_fit(&g, ledger, tracer))
        return refused(5);
    uint32_t *block = ledger + (size_t)tracer * BLOCK;
    uint32_t i = standing_before(block, id);
    if (i == block[0])
        return refused(19);
    block[0]--;
    uint32_t *emitter = block + FIRST_EMITTER + EMITTER * i, *last = block + FIRST_EMITTER + EMITTER * block[0];
    keep(block + SUM, kept(block + SUM) - emitter[2]);
    memmove(emitter, last, EMITTER * sizeof *last);
    memset(last, 0, EMITTER * sizeof *last);
    return 0;
}

uint64_t CALL(tick)(uint32_t w, uint32_t r, uint32_t k, uint32_t n, const uint32_t *air, size_t air_length,
                    uint32_t *tracers, size_t tracers_length, uint32_t *ledger, size_t ledger_length, uint32_t tracer)
{
    world g;
    TESTED_PLACES(&g, NOTHING, 0);
    if (!emitters_fit(&g, ledger, tracer))
        return refused(5);
    uint32_t *block = ledger + (size_t)tracer * BLOCK;
    uint64_t units = kept(block + SUM);
    if (g.totals[tracer] + units > MOST_TOTAL || !sum_takes(block[EMITTED], units))
        return refused(6);
    uint32_t *gas = tracers + tracer * g.cells;
    for (uint32_t i = 0; i < block[0]; i++) {
        const uint32_t *emitter = block + FIRST_EMITTER + EMITTER * i;
        gas[emitter[1]] += emitter[2];
    }
    block[EMITTED] += (uint32_t)units;
    return 0;
}

/* The reading's answer alone; its number, which has 64 bits, is the next call. */
uint32_t CALL(units_a_tick)(uint32_t w, uint32_t r, uint32_t k, uint32_t n, const uint32_t *air, size_t air_length,
                            const uint32_t *tracers, size_t tracers_length, const uint32_t *ledger,
                            size_t ledger_length, uint32_t tracer)
{
    world g;
    uint32_t place = common_places(&g, w, r, k, n, air, air_length, tracers, tracers_length, ledger_length, NOTHING, 0);
    if (place != 0)
        return place;
    if (!books_fit(&g, ledger))
        return 22;
    return emitters_fit(&g, ledger, tracer) ? 0 : 5;
}

/* The reading's number, 0 where it is refused. */
uint64_t CALL(units_a_tick_number)(uint32_t w, uint32_t r, uint32_t k, uint32_t n, const uint32_t *air,
                                   size_t air_length, const uint32_t *tracers, size_t tracers_length,
                                   const uint32_t *ledger, size_t ledger_length, uint32_t tracer)
{
    world g;
    uint32_t place = common_places(&g, w, r, k, n, air, air_length, tracers, tracers_length, ledger_length, NOTHING, 0);
    if (place != 0 || !books_fit(&g, ledger) || !emitters_fit(&g, ledger, tracer))
        return 0;
    return kept(ledger + (size_t)tracer * BLOCK + SUM);
}
