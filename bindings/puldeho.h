/*
 * Puldeho, the transport core of the tracer console, for C (C99 or later) and C++: version 0.8.0.
 * Made by tools/bindings from the tables of bindings/: not to be edited.
 *
 * To compile and link, on x86-64 Linux: cc program.c $(pkg-config --cflags --libs puldeho)
 * The guide (docs/GUIDE.md, installed as share/doc/puldeho/GUIDE.md) explains grid, units, fluxes, refusals.
 *
 *     uint32_t air[6] = {100, 100, 100, 100, 100, 100}, tracers[6] = {0, 0, 100, 200, 100, 0};
 *     int32_t fluxes[4] = {0, 50, 0, 0};
 *     struct puldeho_grid grid = {.w = 4, .r = 1, .k = 1, .n = 1};
 *     struct puldeho_world world = puldeho_world_over(grid, air, 6, tracers, 6);
 *     enum puldeho_refusal refusal = puldeho_load(&world);
 *     if (refusal == PULDEHO_ACCEPTED)
 *         refusal = puldeho_zonal(&world, 0, 0, fluxes, 4, NULL);
 *     if (refusal != PULDEHO_ACCEPTED)
 *         fprintf(stderr, "refused: %s\n", puldeho_refusal_text(refusal));
 *
 * What a call gives: PULDEHO_ACCEPTED, which is 0, or the first refusal that applies. (So a true value
 * is a refusal: do not keep it in a bool called ok.) A refused call changes nothing: neither air nor
 * tracers nor emitters nor limiters nor books. A count, where a call has one, is written to the last argument, 0 if the call
 * is refused; that pointer may be null.
 *
 * What is assumed of pointers:
 * - each goes with the length after it, in numbers, not bytes: so many can be read there, or written. A
 *   length that is not the grid's is refused with 2, before anything is read there;
 * - it is not null and is aligned to 4 bytes, unless the length is 0;
 * - a list that is written shares no memory with another list of the same call;
 * - nobody else writes a lent list during the call, or reads one that is written.
 * Nothing is assumed of the numbers: any are answered. The library keeps nothing
 * between calls, and each call tests the whole world before it does anything (of the ledger the books in
 * every call but a load, the emitters only in the four calls on emitters, the limiters only in the calls
 * that move air and in puldeho_count_zonal). Several threads may call it at once, each with a world of its
 * own; a list that is only read may be shared. Between calls you may read the lists. If you write into
 * them, load again: what is promised of a run counts from there, no emitter stands then, every tracer has
 * limiter 1, and its book begins anew. Until then calls are refused with 22 if the cells of some tracer do
 * not sum to what its book says. Changes that cancel each other, and changed air, are not noticed so.
 * Names that begin with puldeho or PULDEHO are the library's. Take sizes and limits by their names: they may grow.
 *
 * Which version has which scale: ratios, mismatches and pieces have the scale 262,144 (PULDEHO_SCALE) from
 * version 0.6 on, and had 65,536 before; the same calls may leave other amounts of gas. To tell builds of the
 * two apart, load air {100, 928, 314, 81, 658, 100} and tracers {0, 221, 496, 522, 317, 0} on the grid 4, 1, 1, 1 and
 * sweep row 0 with fluxes {421, 462, 475, 229}: the row's tracer is then 321, 110, 27, 1098, and was 322, 110,
 * 27, 1097. The b of a remap's table keeps 65,536 (PULDEHO_TABLE_SCALE).
 *
 * What is assumed of the stack: that it has room for the call, PULDEHO_STACK bytes or, of the proved
 * function under each call (return address and libc's functions included, arguments not):
 *   puldeho_raw_load                      496
 *   puldeho_raw_emission                  656
 *   puldeho_raw_withdrawal                528
 *   puldeho_raw_zonal                  27,760
 *   puldeho_raw_count_zonal            17,616
 *   puldeho_raw_zonal_with_count       27,760
 *   puldeho_raw_long_zonal             19,184
 *   puldeho_raw_meridional             94,000
 *   puldeho_raw_remap                  18,144
 *   puldeho_raw_total                     624
 *   puldeho_raw_cell                      512
 *   puldeho_raw_add_emitter               832
 *   puldeho_raw_remove_emitter            832
 *   puldeho_raw_tick                      832
 *   puldeho_raw_units_a_tick              800
 *   puldeho_raw_units_a_tick_number       800
 *   puldeho_raw_set_limiter               496
 * A function puldeho_why_NAME wants at most PULDEHO_WHY_STACK bytes.
 */
#ifndef PULDEHO_H
#define PULDEHO_H

#include <stddef.h>
#include <stdint.h>
#include <string.h>

#define PULDEHO_VERSION "0.8.0"
#define PULDEHO_VERSION_MAJOR 0
#define PULDEHO_VERSION_MINOR 8
#define PULDEHO_VERSION_PATCH 0
#define PULDEHO_ABI puldeho_abi_0_8

/* the scale of ratios, mismatches and pieces, in which set_limiter takes its bounds: 262144
 * from version 0.6 on, and 65536 before. Builds whose scales differ may give other amounts */
#define PULDEHO_SCALE 262144
/* the most air of a cell; the least is 1 */
#define PULDEHO_AIR_LIMIT 65535
/* the most units of a tracer in all cells together */
#define PULDEHO_TOTAL_LIMIT 268435455
/* the most units of a tracer that its book has as emitted, or as withdrawn, since the
 * load */
#define PULDEHO_SUM_LIMIT 4294967295
/* the largest size of a flux of a zonal or a long zonal sweep */
#define PULDEHO_ZONAL_LIMIT 1048560
/* the largest size of a flux of a meridional sweep */
#define PULDEHO_MERIDIONAL_LIMIT 65535
/* the most substeps of a zonal sweep */
#define PULDEHO_MOST_SUBSTEPS 16
/* the largest a of a remap's table */
#define PULDEHO_TABLE_LIMIT 2097120
/* the b of a remap's table that stands for all the air of a column */
#define PULDEHO_TABLE_SCALE 65536
/* the largest W; the least is 4 */
#define PULDEHO_MOST_COLUMNS 72
/* the largest R */
#define PULDEHO_MOST_ROWS 44
/* the largest K */
#define PULDEHO_MOST_LAYERS 32
/* the largest N */
#define PULDEHO_MOST_TRACERS 8
/* the most emitters of a tracer that stand at once */
#define PULDEHO_MOST_EMITTERS 16
/* how many numbers of the ledger each tracer has; tracer t's block starts at t times this
 * number. Later versions have more */
#define PULDEHO_LEDGER_BLOCK 59

/* The deepest stack of all calls, in bytes, and room enough for each function that says why one was refused. */
#define PULDEHO_STACK 94000
#define PULDEHO_WHY_STACK 131072

/* What a compiler that knows them warns of: a result that nobody looks at, a null pointer, and a list that is shorter
 * than the length given with it. */
#if defined(__GNUC__)
#define PULDEHO_MUST_USE __attribute__((warn_unused_result))
#define PULDEHO_NOT_NULL(place) __attribute__((nonnull(place)))
#else
#define PULDEHO_MUST_USE
#define PULDEHO_NOT_NULL(place)
#endif
#if defined(__GNUC__) && !defined(__clang__) && __GNUC__ >= 10
#define PULDEHO_LIST(use, pointer, length) __attribute__((access(use, pointer, length)))
#else
#define PULDEHO_LIST(use, pointer, length)
#endif

#ifdef __cplusplus
extern "C" {
#endif

/* What a call gives. Later versions have further refusals, not all numbers between: a switch needs a default. */
enum puldeho_refusal {
    /* the call was made */
    PULDEHO_ACCEPTED = 0,
    /* W, R, K or N is outside its range */
    PULDEHO_REFUSAL_GRID_RANGE = 1,
    /* a lent length is not the grid's */
    PULDEHO_REFUSAL_LENGTHS = 2,
    /* a cell's air is 0 or above 65,535 */
    PULDEHO_REFUSAL_AIR_RANGE = 3,
    /* a tracer's total is above 268,435,455 */
    PULDEHO_REFUSAL_TOTALS = 4,
    /* the tracer, cell, layer or row is absent; in add_emitter, remove_emitter, tick and
     * units_a_tick also: in the ledger some tracer has more than 16 emitters, an emitter in an
     * absent cell, an id twice or a false sum */
    PULDEHO_REFUSAL_INDEX = 5,
    /* the total would pass 268,435,455, or the tracer's emitted sum 4,294,967,295 */
    PULDEHO_REFUSAL_EMISSION = 6,
    /* the cell has less than the amount, or the tracer's withdrawn sum would pass
     * 4,294,967,295 */
    PULDEHO_REFUSAL_WITHDRAWAL = 7,
    /* a flux's size is above 1,048,560 (zonal) or 65,535 (meridional) */
    PULDEHO_REFUSAL_FLUXES = 8,
    /* no count from 1 to 16 serves */
    PULDEHO_REFUSAL_ZONAL = 9,
    /* the substep is not allowed */
    PULDEHO_REFUSAL_MERIDIONAL = 10,
    /* the first pair is not (0, 0), the last is not (0, 65,536), an a is above 2,097,120, or
     * a b is above 65,536 */
    PULDEHO_REFUSAL_TABLE = 11,
    /* in some column the edges do not rise strictly, or a new layer exceeds 65,535 */
    PULDEHO_REFUSAL_REMAP = 12,
    /* a flux's size exceeds the row's air */
    PULDEHO_REFUSAL_LONG_FLUX = 16,
    /* air afterwards leaves 1 to 65,535 */
    PULDEHO_REFUSAL_LONG_AIR = 17,
    /* the tracer has 16 emitters or already has that id */
    PULDEHO_REFUSAL_EMITTER_ADDED = 18,
    /* the tracer has no emitter of that id */
    PULDEHO_REFUSAL_EMITTER_ABSENT = 19,
    /* the given count differs from the smallest that serves */
    PULDEHO_REFUSAL_GIVEN_COUNT = 20,
    /* a tracer's limiter is none of 1, 2 and 3, or its lo exceeds its hi */
    PULDEHO_REFUSAL_LIMITERS = 21,
    /* a tracer's loaded + emitted - withdrawn is not the sum of its cells */
    PULDEHO_REFUSAL_BOOKS = 22
};

/* The limiters, as puldeho_set_limiter takes them; section 12 of the guide says when to use which. Later versions may
 * have further ones. */
enum puldeho_limiter_number {
    /* van Leer's monotone limiter, which a load gives every tracer: no new highs and lows
     * beyond rounding */
    PULDEHO_LIMITER_PRESENT = 1,
    /* keeps steeper slopes: amounts never fall below 0, but may rise above all that was
     * near */
    PULDEHO_LIMITER_POSITIVE = 2,
    /* slopes as steep as keeps the ratio inside a cell between lo and hi; no slope in a cell
     * whose ratio is outside. A promise for one substep, not for a run */
    PULDEHO_LIMITER_FIXED = 3
};

/* Why a call was refused: the condition of a refusal, in words. */
static inline const char *puldeho_refusal_text(enum puldeho_refusal refusal)
{
    switch (refusal) {
    case PULDEHO_ACCEPTED:
        return "accepted";
    case PULDEHO_REFUSAL_GRID_RANGE:
        return "W, R, K or N is outside its range";
    case PULDEHO_REFUSAL_LENGTHS:
        return "a lent length is not the grid's";
    case PULDEHO_REFUSAL_AIR_RANGE:
        return "a cell's air is 0 or above 65,535";
    case PULDEHO_REFUSAL_TOTALS:
        return "a tracer's total is above 268,435,455";
    case PULDEHO_REFUSAL_INDEX:
        return "the tracer, cell, layer or row is absent; in add_emitter, remove_emitter, tick and units_a_tick also: in the ledger some tracer has more than 16 emitters, an emitter in an absent cell, an id twice or a false sum";
    case PULDEHO_REFUSAL_EMISSION:
        return "the total would pass 268,435,455, or the tracer's emitted sum 4,294,967,295";
    case PULDEHO_REFUSAL_WITHDRAWAL:
        return "the cell has less than the amount, or the tracer's withdrawn sum would pass 4,294,967,295";
    case PULDEHO_REFUSAL_FLUXES:
        return "a flux's size is above 1,048,560 (zonal) or 65,535 (meridional)";
    case PULDEHO_REFUSAL_ZONAL:
        return "no count from 1 to 16 serves";
    case PULDEHO_REFUSAL_MERIDIONAL:
        return "the substep is not allowed";
    case PULDEHO_REFUSAL_TABLE:
        return "the first pair is not (0, 0), the last is not (0, 65,536), an a is above 2,097,120, or a b is above 65,536";
    case PULDEHO_REFUSAL_REMAP:
        return "in some column the edges do not rise strictly, or a new layer exceeds 65,535";
    case PULDEHO_REFUSAL_LONG_FLUX:
        return "a flux's size exceeds the row's air";
    case PULDEHO_REFUSAL_LONG_AIR:
        return "air afterwards leaves 1 to 65,535";
    case PULDEHO_REFUSAL_EMITTER_ADDED:
        return "the tracer has 16 emitters or already has that id";
    case PULDEHO_REFUSAL_EMITTER_ABSENT:
        return "the tracer has no emitter of that id";
    case PULDEHO_REFUSAL_GIVEN_COUNT:
        return "the given count differs from the smallest that serves";
    case PULDEHO_REFUSAL_LIMITERS:
        return "a tracer's limiter is none of 1, 2 and 3, or its lo exceeds its hi";
    case PULDEHO_REFUSAL_BOOKS:
        return "a tracer's loaded + emitted - withdrawn is not the sum of its cells";
    }
    return "no refusal of this version";
}

/* What to do about a refusal, in words. puldeho_why_NAME, below, says more of the world at hand. */
static inline const char *puldeho_refusal_remedy(enum puldeho_refusal refusal)
{
    switch (refusal) {
    case PULDEHO_ACCEPTED:
        return "nothing: the call was made";
    case PULDEHO_REFUSAL_GRID_RANGE:
        return "give W from 4 to 72, R from 1 to 44, K from 1 to 32 and N from 1 to 8, in this order";
    case PULDEHO_REFUSAL_LENGTHS:
        return "take every length from the grid's length functions, and give lengths in numbers";
    case PULDEHO_REFUSAL_AIR_RANGE:
        return "choose the unit of air so that every cell has 1 to 65,535, with room for the changes within a step";
    case PULDEHO_REFUSAL_TOTALS:
        return "choose a larger unit for that gas, so that its total with all later emissions stays below the limit";
    case PULDEHO_REFUSAL_INDEX:
        return "count from 0, and take cell numbers from the grid's functions for cells and caps; if the ledger is at fault, load the world again, which leaves no emitter standing, and add the emitters anew";
    case PULDEHO_REFUSAL_EMISSION:
        return "correct an amount that is wrong, and remove an emitter whose units are wrong; else load the gas in a larger unit, with room for all emissions and ticks of the run, and add its emitters anew, with their units in the larger unit; if the emitted sum is full, read the book and load again, which begins the sums anew, then add the emitters and set the limiters anew";
    case PULDEHO_REFUSAL_WITHDRAWAL:
        return "read the cell first, and withdraw at most what it has; if the withdrawn sum is full, read the book and load again, which begins the sums anew, then add the emitters and set the limiters anew";
    case PULDEHO_REFUSAL_FLUXES:
        return "give fluxes in units of air for this step, and divide the step if they are still too large";
    case PULDEHO_REFUSAL_ZONAL:
        return "make the sweep as two or more, each with a part of the fluxes, or as a long zonal sweep (in the library only), which gives other amounts of tracer; if a cell would end with no air or too much, make the whole step (zonal, meridional, remap) in parts, or make the meridional sweep or a remap first";
    case PULDEHO_REFUSAL_MERIDIONAL:
        return "make the sweep as two or more, each with a part of the fluxes; if a cell would end with no air or too much, make the whole step (zonal, meridional, remap) in parts, or make the zonal sweeps or a remap first";
    case PULDEHO_REFUSAL_TABLE:
        return "give K + 1 pairs a, b from the top down, with b in parts of 65,536, the first 0, 0 and the last 0, 65,536";
    case PULDEHO_REFUSAL_REMAP:
        return "use a = 0, and choose the b so that every layer gets 1 to 65,535 units in the column with the least air and in the one with the most";
    case PULDEHO_REFUSAL_LONG_FLUX:
        return "take whole turns, each the sum of the row's air, off every flux (add them if the fluxes are negative): a whole turn brings every cell back, so nothing else changes; or divide the step";
    case PULDEHO_REFUSAL_LONG_AIR:
        return "give fluxes that leave every cell 1 to 65,535; if the other sweeps of the step would bring the air back, make the whole step (zonal, meridional, remap) in parts, or make the meridional sweep or a remap first";
    case PULDEHO_REFUSAL_EMITTER_ADDED:
        return "remove a stack before you add it again with another cell or other units; add stacks of one cell as one emitter, with the sum of their units (to close one of them, remove the emitter and add it again with the rest); what does not fit 16 emitters give by emission";
    case PULDEHO_REFUSAL_EMITTER_ABSENT:
        return "remove each stack once, from the tracer that it was added to, and add the emitters anew after a load";
    case PULDEHO_REFUSAL_GIVEN_COUNT:
        return "see that layer, row and fluxes are those that were counted; then count again with count_zonal, look at the new count, and give that";
    case PULDEHO_REFUSAL_LIMITERS:
        return "load the world before other calls, and again if the ledger was written by anything but calls, then add the emitters and set the limiters anew; give set_limiter 1, 2 or 3, and lo and hi as mixing ratios times 262,144, lo at most hi (with 1 and 2 both 0)";
    case PULDEHO_REFUSAL_BOOKS:
        return "load the world before other calls, and again after anything but calls wrote into tracers or ledger: what the cells have then is the loaded amount, and emitters and limiters must be set anew; to go back to a kept state, bring back tracers and ledger together";
    }
    return "compile the program anew, with the header of the library that it is linked with";
}

/* The grid: W columns round the globe (4 to 72), R rows from south to north (1 to 44), K layers from
 * the top down (1 to 32), N tracers (1 to 8). Columns, rows, layers, tracers and cells are counted from 0. */
struct puldeho_grid {
    uint32_t w, r, k, n;
};

/* C, the cells of a layer: its R*W cells and the two caps. */
static inline size_t puldeho_cells_in_layer(struct puldeho_grid grid)
{
    return 2 + (size_t)grid.r * grid.w;
}

/* The length of air: K*C. In it: the air of every cell; layer k starts at k*C. */
static inline size_t puldeho_air_length(struct puldeho_grid grid)
{
    return (size_t)grid.k * puldeho_cells_in_layer(grid);
}

/* The length of tracers: N*K*C. In it: the amounts of every tracer; tracer t starts at
 * t*K*C. */
static inline size_t puldeho_tracers_length(struct puldeho_grid grid)
{
    return (size_t)grid.n * (size_t)grid.k * puldeho_cells_in_layer(grid);
}

/* The length of ledger: N*59. In it: the emitters, the limiter and the book, a block for
 * each tracer: at its place 0 how many emitters stand, at 1 and 2 the sum of their units, low
 * and high 32 bits, from 3 on id, cell and units of each, at 51 the limiter, at 52 and 53 its
 * lo and at 54 and 55 its hi, low and high 32 bits, at 56 what was loaded, at 57 what was
 * emitted and at 58 what was withdrawn. */
static inline size_t puldeho_ledger_length(struct puldeho_grid grid)
{
    return (size_t)grid.n * 59;
}

/* The length of fluxes of a zonal call: W. In it: flux i crosses the face from column i to
 * column i + 1, the last to column 0; positive eastward. */
static inline size_t puldeho_zonal_fluxes_length(struct puldeho_grid grid)
{
    return (size_t)grid.w;
}

/* The length of fluxes of a count_zonal call: W. In it: flux i crosses the face from column
 * i to column i + 1, the last to column 0; positive eastward. */
static inline size_t puldeho_count_zonal_fluxes_length(struct puldeho_grid grid)
{
    return (size_t)grid.w;
}

/* The length of fluxes of a zonal_with_count call: W. In it: flux i crosses the face from
 * column i to column i + 1, the last to column 0; positive eastward. */
static inline size_t puldeho_zonal_with_count_fluxes_length(struct puldeho_grid grid)
{
    return (size_t)grid.w;
}

/* The length of fluxes of a long_zonal call: W. In it: flux i crosses the face from column i
 * to column i + 1, the last to column 0; positive eastward. */
static inline size_t puldeho_long_zonal_fluxes_length(struct puldeho_grid grid)
{
    return (size_t)grid.w;
}

/* The length of fluxes of a meridional call: (R + 1)*W. In it: flux g*W + i crosses between
 * rows g - 1 and g in column i; row -1 is the south cap, row R the north cap; positive
 * northward. */
static inline size_t puldeho_meridional_fluxes_length(struct puldeho_grid grid)
{
    return ((size_t)grid.r + 1) * (size_t)grid.w;
}

/* The length of table of a remap call: (K + 1)*2. In it: pair j is a at 2*j and b at 2*j +
 * 1; edge j = a + floor(b*P/65536), P the air of the column. */
static inline size_t puldeho_remap_table_length(struct puldeho_grid grid)
{
    return ((size_t)grid.k + 1) * 2;
}

/* The most steps of a remap call: N*C*2*K, which is 1,623,040 on the largest grid, 72 x 44 x
 * 32 x 8. The remap goes down each column once for each tracer; a step passes one edge or one
 * old layer and adds at most one layer's amount or piece, and 2*K steps always reach the last
 * edge. Proved for every accepted remap, whatever table, air and amounts. Not counted is what
 * is done beside these steps, such as tests, edges and slopes; the count comes with the
 * steps. */
static inline size_t puldeho_most_remap_steps(struct puldeho_grid grid)
{
    return (size_t)grid.n * puldeho_cells_in_layer(grid) * 2 * (size_t)grid.k;
}

/* What the functions below give for a place that the grid has not. Every call refuses it, with 5; test for it
 * before you use the number as an index. */
#define PULDEHO_NO_CELL UINT32_MAX

/* The number of a cell over all layers: layer*C + 1 + row*W + column. */
static inline uint32_t puldeho_cell_number(struct puldeho_grid grid, uint32_t layer, uint32_t row, uint32_t column)
{
    if (layer >= grid.k || row >= grid.r || column >= grid.w)
        return PULDEHO_NO_CELL;
    return (uint32_t)(layer * puldeho_cells_in_layer(grid) + 1 + (size_t)row * grid.w + column);
}

/* The number of a layer's south cap: layer*C. */
static inline uint32_t puldeho_south_cap(struct puldeho_grid grid, uint32_t layer)
{
    if (layer >= grid.k)
        return PULDEHO_NO_CELL;
    return (uint32_t)(layer * puldeho_cells_in_layer(grid));
}

/* The number of a layer's north cap: layer*C + C - 1. */
static inline uint32_t puldeho_north_cap(struct puldeho_grid grid, uint32_t layer)
{
    if (layer >= grid.k)
        return PULDEHO_NO_CELL;
    return (uint32_t)((layer + (size_t)1) * puldeho_cells_in_layer(grid) - 1);
}

/* The world: the grid, and the lists that the caller keeps and lends to each call, with their lengths
 * in numbers. Make it with puldeho_world_over; in C, naming its fields, as in {.grid = grid, ..}, serves too.
 * Later versions have further fields, which a load fills, and refuse what this one still answers. So:
 * - load each world, once it is made, before any other call;
 * - load again when you have written into its lists or set its fields, before the next call;
 * - make all calls on the one struct, by its address: a copy of the struct is neither the same world nor
 *   a second one; what is emitted through one of them is not in the other's book (22). It may be moved, as
 *   by a function that returns it. puldeho_copy copies a state.
 *
 * The ledger holds the emitters that stand, the limiters and the books. A program need not know of it: where `ledger` is null,
 * the world has one of its own, in the struct. To keep it elsewhere, set `ledger` to puldeho_ledger_length(grid) numbers
 * and `ledger_length` to that length before the load; the load writes all of it. Tracer t's block of numbers starts at
 * t*PULDEHO_LEDGER_BLOCK. In it stand at
 *   0                          how many emitters stand, 0 to PULDEHO_MOST_EMITTERS
 *   1 and 2                    the sum of their units a tick, its low and its high 32 bits
 *   3 + 3*i, 4 + 3*i, 5 + 3*i  id, cell and units a tick of emitter i, counted from 0
 *   51                         the limiter's number, one of enum puldeho_limiter_number
 *   52 and 53, 54 and 55       its bounds lo and hi, of each the low and the high 32 bits
 *   56, 57, 58                 the book: units loaded, and emitted and withdrawn since the load
 * A new emitter comes after the last. In place of a removed one comes the last one, whose place becomes 0, 0, 0. A load
 * leaves in each block limiter 1 and the tracer's total as loaded, and 0 everywhere else; before the first load a world's
 * own ledger is all zeros.
 * So two programs that make the same calls have the same ledger, number for number.
 * Read it with puldeho_lent_ledger, a limiter with puldeho_limiter_of, a book with puldeho_book_of. Only calls may write
 * it. Every call but a load refuses with 22 a ledger in which some tracer's loaded + emitted - withdrawn is not the sum of
 * its cells. The four calls on emitters refuse with 5 one in which some tracer has more emitters than that, one in an
 * absent cell, an id twice or a false sum; the calls that move air and puldeho_count_zonal refuse with 21 one in which
 * some tracer's limiter is unknown or its lo above its hi. To keep emitters and limiters in a file, keep what stands in
 * each block; to bring them back, load, add the emitters again in the same order, and set the limiters: the ledger is then
 * the same, but for the books, which begin anew.
 * Later versions have further numbers at the end of each block and after all blocks: take lengths and starts of
 * blocks from the functions and names above, and do not count on those of this version. */
struct puldeho_world {
    struct puldeho_grid grid;
    /* the air of every cell; layer k starts at k*C: K*C numbers */
    uint32_t *air;
    size_t air_length;
    /* the amounts of every tracer; tracer t starts at t*K*C: N*K*C numbers */
    uint32_t *tracers;
    size_t tracers_length;
    /* the emitters, the limiter and the book, a block for each tracer: at its place 0 how
     * many emitters stand, at 1 and 2 the sum of their units, low and high 32 bits, from 3 on
     * id, cell and units of each, at 51 the limiter, at 52 and 53 its lo and at 54 and 55 its
     * hi, low and high 32 bits, at 56 what was loaded, at 57 what was emitted and at 58 what
     * was withdrawn: N*59 numbers; null and 0: the world's own, below */
    uint32_t *ledger;
    size_t ledger_length;
    uint32_t own_ledger[472];
};

/* The world of a grid and lent lists; each length is how many numbers the list has. It reads none of them, so they may
 * be filled afterwards. */
PULDEHO_LIST(write_only, 2, 3) PULDEHO_LIST(write_only, 4, 5)
static inline struct puldeho_world puldeho_world_over(
    struct puldeho_grid grid,
    uint32_t *air, size_t air_length,
    uint32_t *tracers, size_t tracers_length)
{
    struct puldeho_world world;
    memset(&world, 0, sizeof world);
    world.grid = grid;
    world.air = air;
    world.air_length = air_length;
    world.tracers = tracers;
    world.tracers_length = tracers_length;
    return world;
}

/* How many numbers of its own ledger a world of the grid lends. */
static inline size_t puldeho_own_ledger_length(struct puldeho_grid grid)
{
    size_t wanted = puldeho_ledger_length(grid);
    return wanted < 472 ? wanted : 472;
}

/* How many numbers of ledger are lent: those of the list that was set, or of the world's own. */
static inline size_t puldeho_lent_ledger_length(const struct puldeho_world *world)
{
    return world->ledger != NULL ? world->ledger_length : puldeho_own_ledger_length(world->grid);
}

/* The world's ledger, to be read: the list that was set, or the world's own. */
static inline const uint32_t *puldeho_lent_ledger(const struct puldeho_world *world)
{
    return world->ledger != NULL ? world->ledger : world->own_ledger;
}

/* A tracer's limiter: its number, one of enum puldeho_limiter_number, and its bounds, as the call that sets it takes them. */
struct puldeho_limiter {
    uint32_t number;
    uint64_t lo, hi;
};

/* The limiter that a tracer has now; all 0 where the world was never loaded, or has no such tracer. */
PULDEHO_NOT_NULL(1)
static inline struct puldeho_limiter puldeho_limiter_of(const struct puldeho_world *world, uint32_t tracer)
{
    struct puldeho_limiter limiter = {0, 0, 0};
    size_t place = (size_t)tracer * PULDEHO_LEDGER_BLOCK + 51;
    if (tracer < world->grid.n && place + 5 <= puldeho_lent_ledger_length(world)) {
        const uint32_t *numbers = puldeho_lent_ledger(world) + place;
        limiter.number = numbers[0];
        limiter.lo = (uint64_t)numbers[2] << 32 | numbers[1];
        limiter.hi = (uint64_t)numbers[4] << 32 | numbers[3];
    }
    return limiter;
}

/* A tracer's book, in units: what the load found in all its cells, and what was emitted (ticks included) and withdrawn since
 * then. In the ledger the sums have 32 bits; here they have 64 with a sign, so that they can be added and subtracted. */
struct puldeho_book {
    int64_t loaded, emitted, withdrawn;
};

/* The book of a tracer as it stands in the ledger; all three are -1 if the world has no such tracer, and 0 before the first
 * load. Reading does not test it. Make a call of puldeho_total for any tracer before or after it: if that is accepted, every
 * tracer's total is loaded + emitted - withdrawn; if not, it is refused with 22. */
PULDEHO_NOT_NULL(1)
static inline struct puldeho_book puldeho_book_of(const struct puldeho_world *world, uint32_t tracer)
{
    struct puldeho_book book = {-1, -1, -1};
    size_t place = (size_t)tracer * PULDEHO_LEDGER_BLOCK + 56;
    if (tracer < world->grid.n && place + 3 <= puldeho_lent_ledger_length(world)) {
        const uint32_t *numbers = puldeho_lent_ledger(world) + place;
        book.loaded = numbers[0];
        book.emitted = numbers[1];
        book.withdrawn = numbers[2];
    }
    return book;
}

/* Copies a world's state, all its lists, the ledger and whatever a later version adds, into another world over lists of
 * the same lengths: to keep the state before a step, and to go back to it. Gives refusal 2 and copies nothing if a
 * length differs. */
PULDEHO_MUST_USE PULDEHO_NOT_NULL(1) PULDEHO_NOT_NULL(2)
static inline enum puldeho_refusal puldeho_copy(struct puldeho_world *to, const struct puldeho_world *from)
{
    if (to->air_length != from->air_length
        || to->tracers_length != from->tracers_length
        || (to->ledger != NULL ? to->ledger_length : puldeho_own_ledger_length(from->grid)) != puldeho_lent_ledger_length(from))
        return PULDEHO_REFUSAL_LENGTHS;
    to->grid = from->grid;
    if (to->air_length > 0)
        memcpy(to->air, from->air, to->air_length * sizeof *to->air);
    if (to->tracers_length > 0)
        memcpy(to->tracers, from->tracers, to->tracers_length * sizeof *to->tracers);
    if (puldeho_lent_ledger_length(from) > 0)
        memcpy(to->ledger != NULL ? to->ledger : to->own_ledger, puldeho_lent_ledger(from),
               puldeho_lent_ledger_length(from) * sizeof *to->ledger);
    return PULDEHO_ACCEPTED;
}

/* The count of a remap, overlaps, so that two builds can be compared by hand. It is exactly the number of pairs of an
 * old and a new layer that share some air, summed over columns: all C = 2 + R*W columns of air (a column is one place
 * of the grid through all K layers), the two of the caps included. Layers that only touch share no air, and the
 * tracers, however many, have no part in it. A column of air 100, 100, 100 from the top down with the new edges
 * 0, 150, 200, 300 has four pairs, layers counted from 0:
 *   old 0 and new 0    the air from   0 to 100
 *   old 1 and new 0    the air from 100 to 150
 *   old 1 and new 1    the air from 150 to 200
 *   old 2 and new 2    the air from 200 to 300
 * With K = 3 that is 2*K - 1 = 5 less 1, for the one inner edge (neither the top nor the bottom) that old and new
 * layers have in common, at 200. So it is in each column: 2*K - 1 less its common inner edges, K at least. In a world
 * with W = 4, R = 1, K = 3 and air 100 in every cell, the table 0, 0, 150, 0, 200, 0, 0, 65536 has the count
 * 6*4 = 24. */

/* The calls. A refused one changes nothing; puldeho_why_NAME, below, says more about why. */

/*
 * Tests the grid and the lists air and tracers, which are the world from then on, and changes
 * no number in them. Leaves no emitter standing, gives every tracer limiter 1 with both bounds
 * 0, and begins its book: its total as loaded, 0 as emitted and as withdrawn. It writes the
 * whole ledger and does not look at what stood there. Writes ledger. Refusals, in order: 1 2 3
 * 4.
 */
PULDEHO_MUST_USE PULDEHO_NOT_NULL(1)
static inline enum puldeho_refusal puldeho_load(
    struct puldeho_world *world);

/*
 * Adds amount to one cell of one tracer, and to what its book has as emitted. Cells are
 * numbered over all layers. Writes tracers and ledger. Refusals, in order: 1 2 3 4 22 5 6.
 */
PULDEHO_MUST_USE PULDEHO_NOT_NULL(1)
static inline enum puldeho_refusal puldeho_emission(
    struct puldeho_world *world,
    uint32_t tracer,
    uint32_t cell,
    uint32_t amount);

/*
 * Takes amount from one cell of one tracer, and adds it to what its book has as withdrawn.
 * Cells are numbered over all layers. Writes tracers and ledger. Refusals, in order: 1 2 3 4 22
 * 5 7.
 */
PULDEHO_MUST_USE PULDEHO_NOT_NULL(1)
static inline enum puldeho_refusal puldeho_withdrawal(
    struct puldeho_world *world,
    uint32_t tracer,
    uint32_t cell,
    uint32_t amount);

/*
 * Sweeps one row of one layer by W fluxes, positive eastward. Writes air and tracers. Refusals,
 * in order: 1 2 3 4 21 22 5 8 9. substeps: the number of substeps, 1 to 16. fluxes has
 * puldeho_zonal_fluxes_length(grid) numbers.
 */
PULDEHO_MUST_USE PULDEHO_NOT_NULL(1) PULDEHO_LIST(read_only, 4, 5)
static inline enum puldeho_refusal puldeho_zonal(
    struct puldeho_world *world,
    uint32_t layer,
    uint32_t row,
    const int32_t *fluxes, size_t fluxes_length,
    uint32_t *substeps);

/*
 * Counts the substeps of a zonal sweep of one row of one layer by W fluxes, positive eastward,
 * before it is made, to be seen and then given to zonal_with_count. Writes nothing. Refusals,
 * in order: 1 2 3 4 21 22 5 8 9. substeps: the number of substeps that the sweep takes, 1 to
 * 16. fluxes has puldeho_count_zonal_fluxes_length(grid) numbers.
 */
PULDEHO_MUST_USE PULDEHO_NOT_NULL(1) PULDEHO_LIST(read_only, 4, 5)
static inline enum puldeho_refusal puldeho_count_zonal(
    const struct puldeho_world *world,
    uint32_t layer,
    uint32_t row,
    const int32_t *fluxes, size_t fluxes_length,
    uint32_t *substeps);

/*
 * Makes the sweep of zonal, if the given count is the one that count_zonal gives for the same
 * layer, row and fluxes now; with any other count it is refused with 20. Writes air and
 * tracers. Refusals, in order: 1 2 3 4 21 22 5 8 9 20. substeps: the given count. fluxes has
 * puldeho_zonal_with_count_fluxes_length(grid) numbers.
 */
PULDEHO_MUST_USE PULDEHO_NOT_NULL(1) PULDEHO_LIST(read_only, 5, 6)
static inline enum puldeho_refusal puldeho_zonal_with_count(
    struct puldeho_world *world,
    uint32_t layer,
    uint32_t row,
    uint32_t given,
    const int32_t *fluxes, size_t fluxes_length,
    uint32_t *substeps);

/*
 * Sweeps one row of one layer by W fluxes, positive eastward, without substeps: a face takes
 * whole cells and then a part of the next. Its amounts are not those of zonal. Writes air and
 * tracers. Refusals, in order: 1 2 3 4 21 22 5 8 16 17. fluxes has
 * puldeho_long_zonal_fluxes_length(grid) numbers.
 */
PULDEHO_MUST_USE PULDEHO_NOT_NULL(1) PULDEHO_LIST(read_only, 4, 5)
static inline enum puldeho_refusal puldeho_long_zonal(
    struct puldeho_world *world,
    uint32_t layer,
    uint32_t row,
    const int32_t *fluxes, size_t fluxes_length);

/*
 * Sweeps one layer by W*(R + 1) fluxes, positive northward. Writes air and tracers. Refusals,
 * in order: 1 2 3 4 21 22 5 8 10. substeps: the number of substeps, 1. fluxes has
 * puldeho_meridional_fluxes_length(grid) numbers.
 */
PULDEHO_MUST_USE PULDEHO_NOT_NULL(1) PULDEHO_LIST(read_only, 3, 4)
static inline enum puldeho_refusal puldeho_meridional(
    struct puldeho_world *world,
    uint32_t layer,
    const int32_t *fluxes, size_t fluxes_length,
    uint32_t *substeps);

/*
 * Remaps all columns to the edges of a table of K + 1 pairs a, b, lent as 2*(K + 1) numbers.
 * Makes at most 2*K steps for each column and tracer, in all at most the grid's
 * most_remap_steps. Section 6 of the guide writes a count out by hand. Writes air and tracers.
 * Refusals, in order: 1 2 3 4 21 22 11 12. overlaps: exactly the number of pairs of an old and
 * a new layer that share some air, summed over columns. table has
 * puldeho_remap_table_length(grid) numbers.
 */
PULDEHO_MUST_USE PULDEHO_NOT_NULL(1) PULDEHO_LIST(read_only, 2, 3)
static inline enum puldeho_refusal puldeho_remap(
    struct puldeho_world *world,
    const uint32_t *table, size_t table_length,
    uint32_t *overlaps);

/*
 * Reads the total of one tracer. As every call but a load it tests the books of all tracers: if
 * it is accepted, the total of each is what its book has as loaded + emitted - withdrawn.
 * Writes nothing. Refusals, in order: 1 2 3 4 22 5. units: the total of the tracer.
 */
PULDEHO_MUST_USE PULDEHO_NOT_NULL(1)
static inline enum puldeho_refusal puldeho_total(
    const struct puldeho_world *world,
    uint32_t tracer,
    uint32_t *units);

/*
 * Reads one cell of one tracer. Cells are numbered over all layers. Writes nothing. Refusals,
 * in order: 1 2 3 4 22 5. units: the amount in the cell.
 */
PULDEHO_MUST_USE PULDEHO_NOT_NULL(1)
static inline enum puldeho_refusal puldeho_cell(
    const struct puldeho_world *world,
    uint32_t tracer,
    uint32_t cell,
    uint32_t *units);

/*
 * Lets an emitter stand for one tracer: in each tick it gives so many units to the cell. Any
 * number is an id, and each tracer has its own. Cells are numbered over all layers. Writes
 * ledger. Refusals, in order: 1 2 3 4 22 5 18.
 */
PULDEHO_MUST_USE PULDEHO_NOT_NULL(1)
static inline enum puldeho_refusal puldeho_add_emitter(
    struct puldeho_world *world,
    uint32_t tracer,
    uint32_t cell,
    uint32_t id,
    uint32_t units);

/*
 * Removes the emitter that one tracer has under the id. The tracer's last emitter takes its
 * place in the ledger. Writes ledger. Refusals, in order: 1 2 3 4 22 5 19.
 */
PULDEHO_MUST_USE PULDEHO_NOT_NULL(1)
static inline enum puldeho_refusal puldeho_remove_emitter(
    struct puldeho_world *world,
    uint32_t tracer,
    uint32_t id);

/*
 * Adds the units of every emitter of one tracer to its cell, and to what its book has as
 * emitted, or, if it is refused, of none. Writes tracers and ledger. Refusals, in order: 1 2 3
 * 4 22 5 6.
 */
PULDEHO_MUST_USE PULDEHO_NOT_NULL(1)
static inline enum puldeho_refusal puldeho_tick(
    struct puldeho_world *world,
    uint32_t tracer);

/*
 * Reads how much a tick of one tracer emits. Writes nothing. Refusals, in order: 1 2 3 4 22 5.
 * units: the units that the tracer's emitters give in a tick.
 */
PULDEHO_MUST_USE PULDEHO_NOT_NULL(1)
static inline enum puldeho_refusal puldeho_units_a_tick(
    const struct puldeho_world *world,
    uint32_t tracer,
    uint64_t *units);

/*
 * Chooses the limiter of one tracer: 1 the present one, 2 the positive one, 3 the fixed one
 * between lo and hi, which are mixing ratios (units of gas for one of air) times the scale,
 * 262144. The bounds are stored with every limiter, and only 3 reads them; give 0 and 0 with 1
 * and 2. Holds until the next set_limiter of this tracer or the next load. Writes ledger.
 * Refusals, in order: 1 2 3 4 22 5 21.
 */
PULDEHO_MUST_USE PULDEHO_NOT_NULL(1)
static inline enum puldeho_refusal puldeho_set_limiter(
    struct puldeho_world *world,
    uint32_t tracer,
    uint32_t limiter,
    uint64_t lo,
    uint64_t hi);

/*
 * Why a call is refused: for each call a function that takes the same arguments, writes into `text`
 * which cell, row, column, emitter or limiter is in the way, how much air it has and how much would leave, and
 * whether a smaller time step can help, and returns the refusal, 0 if the call would be accepted. Ask after the
 * refusal, before the world changes. `text` gets at most `size` bytes with the final 0;
 * PULDEHO_WHY_SIZE are enough for any. These functions are plain C and not proved; they only read.
 */
#define PULDEHO_WHY_SIZE 1024

PULDEHO_NOT_NULL(1) PULDEHO_LIST(write_only, 2, 3)
enum puldeho_refusal puldeho_why_load(
    const struct puldeho_world *world,
    char *text, size_t size);

PULDEHO_NOT_NULL(1) PULDEHO_LIST(write_only, 5, 6)
enum puldeho_refusal puldeho_why_emission(
    const struct puldeho_world *world,
    uint32_t tracer,
    uint32_t cell,
    uint32_t amount,
    char *text, size_t size);

PULDEHO_NOT_NULL(1) PULDEHO_LIST(write_only, 5, 6)
enum puldeho_refusal puldeho_why_withdrawal(
    const struct puldeho_world *world,
    uint32_t tracer,
    uint32_t cell,
    uint32_t amount,
    char *text, size_t size);

PULDEHO_NOT_NULL(1) PULDEHO_LIST(read_only, 4, 5) PULDEHO_LIST(write_only, 6, 7)
enum puldeho_refusal puldeho_why_zonal(
    const struct puldeho_world *world,
    uint32_t layer,
    uint32_t row,
    const int32_t *fluxes, size_t fluxes_length,
    char *text, size_t size);

PULDEHO_NOT_NULL(1) PULDEHO_LIST(read_only, 4, 5) PULDEHO_LIST(write_only, 6, 7)
enum puldeho_refusal puldeho_why_count_zonal(
    const struct puldeho_world *world,
    uint32_t layer,
    uint32_t row,
    const int32_t *fluxes, size_t fluxes_length,
    char *text, size_t size);

PULDEHO_NOT_NULL(1) PULDEHO_LIST(read_only, 5, 6) PULDEHO_LIST(write_only, 7, 8)
enum puldeho_refusal puldeho_why_zonal_with_count(
    const struct puldeho_world *world,
    uint32_t layer,
    uint32_t row,
    uint32_t given,
    const int32_t *fluxes, size_t fluxes_length,
    char *text, size_t size);

PULDEHO_NOT_NULL(1) PULDEHO_LIST(read_only, 4, 5) PULDEHO_LIST(write_only, 6, 7)
enum puldeho_refusal puldeho_why_long_zonal(
    const struct puldeho_world *world,
    uint32_t layer,
    uint32_t row,
    const int32_t *fluxes, size_t fluxes_length,
    char *text, size_t size);

PULDEHO_NOT_NULL(1) PULDEHO_LIST(read_only, 3, 4) PULDEHO_LIST(write_only, 5, 6)
enum puldeho_refusal puldeho_why_meridional(
    const struct puldeho_world *world,
    uint32_t layer,
    const int32_t *fluxes, size_t fluxes_length,
    char *text, size_t size);

PULDEHO_NOT_NULL(1) PULDEHO_LIST(read_only, 2, 3) PULDEHO_LIST(write_only, 4, 5)
enum puldeho_refusal puldeho_why_remap(
    const struct puldeho_world *world,
    const uint32_t *table, size_t table_length,
    char *text, size_t size);

PULDEHO_NOT_NULL(1) PULDEHO_LIST(write_only, 3, 4)
enum puldeho_refusal puldeho_why_total(
    const struct puldeho_world *world,
    uint32_t tracer,
    char *text, size_t size);

PULDEHO_NOT_NULL(1) PULDEHO_LIST(write_only, 4, 5)
enum puldeho_refusal puldeho_why_cell(
    const struct puldeho_world *world,
    uint32_t tracer,
    uint32_t cell,
    char *text, size_t size);

PULDEHO_NOT_NULL(1) PULDEHO_LIST(write_only, 6, 7)
enum puldeho_refusal puldeho_why_add_emitter(
    const struct puldeho_world *world,
    uint32_t tracer,
    uint32_t cell,
    uint32_t id,
    uint32_t units,
    char *text, size_t size);

PULDEHO_NOT_NULL(1) PULDEHO_LIST(write_only, 4, 5)
enum puldeho_refusal puldeho_why_remove_emitter(
    const struct puldeho_world *world,
    uint32_t tracer,
    uint32_t id,
    char *text, size_t size);

PULDEHO_NOT_NULL(1) PULDEHO_LIST(write_only, 3, 4)
enum puldeho_refusal puldeho_why_tick(
    const struct puldeho_world *world,
    uint32_t tracer,
    char *text, size_t size);

PULDEHO_NOT_NULL(1) PULDEHO_LIST(write_only, 3, 4)
enum puldeho_refusal puldeho_why_units_a_tick(
    const struct puldeho_world *world,
    uint32_t tracer,
    char *text, size_t size);

PULDEHO_NOT_NULL(1) PULDEHO_LIST(write_only, 6, 7)
enum puldeho_refusal puldeho_why_set_limiter(
    const struct puldeho_world *world,
    uint32_t tracer,
    uint32_t limiter,
    uint64_t lo,
    uint64_t hi,
    char *text, size_t size);

/*
 * From here on: how the calls are made. The proved functions return one number, refusal * 2^32 + count,
 * which kept in an int is 0 for many a refused call; the calls above take it apart. Where the count has
 * 64 bits, puldeho_raw_NAME returns the refusal alone, and puldeho_raw_NAME_number the count.
 */
PULDEHO_MUST_USE PULDEHO_LIST(read_only, 5, 6) PULDEHO_LIST(read_only, 7, 8) PULDEHO_LIST(read_write, 9, 10)
uint64_t puldeho_raw_load(
    uint32_t w, uint32_t r, uint32_t k, uint32_t n,
    const uint32_t *air, size_t air_length,
    const uint32_t *tracers, size_t tracers_length,
    uint32_t *ledger, size_t ledger_length);

PULDEHO_MUST_USE PULDEHO_LIST(read_only, 5, 6) PULDEHO_LIST(read_write, 7, 8) PULDEHO_LIST(read_write, 9, 10)
uint64_t puldeho_raw_emission(
    uint32_t w, uint32_t r, uint32_t k, uint32_t n,
    const uint32_t *air, size_t air_length,
    uint32_t *tracers, size_t tracers_length,
    uint32_t *ledger, size_t ledger_length,
    uint32_t tracer,
    uint32_t cell,
    uint32_t amount);

PULDEHO_MUST_USE PULDEHO_LIST(read_only, 5, 6) PULDEHO_LIST(read_write, 7, 8) PULDEHO_LIST(read_write, 9, 10)
uint64_t puldeho_raw_withdrawal(
    uint32_t w, uint32_t r, uint32_t k, uint32_t n,
    const uint32_t *air, size_t air_length,
    uint32_t *tracers, size_t tracers_length,
    uint32_t *ledger, size_t ledger_length,
    uint32_t tracer,
    uint32_t cell,
    uint32_t amount);

PULDEHO_MUST_USE PULDEHO_LIST(read_write, 5, 6) PULDEHO_LIST(read_write, 7, 8) PULDEHO_LIST(read_only, 9, 10) PULDEHO_LIST(read_only, 13, 14)
uint64_t puldeho_raw_zonal(
    uint32_t w, uint32_t r, uint32_t k, uint32_t n,
    uint32_t *air, size_t air_length,
    uint32_t *tracers, size_t tracers_length,
    const uint32_t *ledger, size_t ledger_length,
    uint32_t layer,
    uint32_t row,
    const int32_t *fluxes, size_t fluxes_length);

PULDEHO_MUST_USE PULDEHO_LIST(read_only, 5, 6) PULDEHO_LIST(read_only, 7, 8) PULDEHO_LIST(read_only, 9, 10) PULDEHO_LIST(read_only, 13, 14)
uint64_t puldeho_raw_count_zonal(
    uint32_t w, uint32_t r, uint32_t k, uint32_t n,
    const uint32_t *air, size_t air_length,
    const uint32_t *tracers, size_t tracers_length,
    const uint32_t *ledger, size_t ledger_length,
    uint32_t layer,
    uint32_t row,
    const int32_t *fluxes, size_t fluxes_length);

PULDEHO_MUST_USE PULDEHO_LIST(read_write, 5, 6) PULDEHO_LIST(read_write, 7, 8) PULDEHO_LIST(read_only, 9, 10) PULDEHO_LIST(read_only, 14, 15)
uint64_t puldeho_raw_zonal_with_count(
    uint32_t w, uint32_t r, uint32_t k, uint32_t n,
    uint32_t *air, size_t air_length,
    uint32_t *tracers, size_t tracers_length,
    const uint32_t *ledger, size_t ledger_length,
    uint32_t layer,
    uint32_t row,
    uint32_t given,
    const int32_t *fluxes, size_t fluxes_length);

PULDEHO_MUST_USE PULDEHO_LIST(read_write, 5, 6) PULDEHO_LIST(read_write, 7, 8) PULDEHO_LIST(read_only, 9, 10) PULDEHO_LIST(read_only, 13, 14)
uint64_t puldeho_raw_long_zonal(
    uint32_t w, uint32_t r, uint32_t k, uint32_t n,
    uint32_t *air, size_t air_length,
    uint32_t *tracers, size_t tracers_length,
    const uint32_t *ledger, size_t ledger_length,
    uint32_t layer,
    uint32_t row,
    const int32_t *fluxes, size_t fluxes_length);

PULDEHO_MUST_USE PULDEHO_LIST(read_write, 5, 6) PULDEHO_LIST(read_write, 7, 8) PULDEHO_LIST(read_only, 9, 10) PULDEHO_LIST(read_only, 12, 13)
uint64_t puldeho_raw_meridional(
    uint32_t w, uint32_t r, uint32_t k, uint32_t n,
    uint32_t *air, size_t air_length,
    uint32_t *tracers, size_t tracers_length,
    const uint32_t *ledger, size_t ledger_length,
    uint32_t layer,
    const int32_t *fluxes, size_t fluxes_length);

PULDEHO_MUST_USE PULDEHO_LIST(read_write, 5, 6) PULDEHO_LIST(read_write, 7, 8) PULDEHO_LIST(read_only, 9, 10) PULDEHO_LIST(read_only, 11, 12)
uint64_t puldeho_raw_remap(
    uint32_t w, uint32_t r, uint32_t k, uint32_t n,
    uint32_t *air, size_t air_length,
    uint32_t *tracers, size_t tracers_length,
    const uint32_t *ledger, size_t ledger_length,
    const uint32_t *table, size_t table_length);

PULDEHO_MUST_USE PULDEHO_LIST(read_only, 5, 6) PULDEHO_LIST(read_only, 7, 8) PULDEHO_LIST(read_only, 9, 10)
uint64_t puldeho_raw_total(
    uint32_t w, uint32_t r, uint32_t k, uint32_t n,
    const uint32_t *air, size_t air_length,
    const uint32_t *tracers, size_t tracers_length,
    const uint32_t *ledger, size_t ledger_length,
    uint32_t tracer);

PULDEHO_MUST_USE PULDEHO_LIST(read_only, 5, 6) PULDEHO_LIST(read_only, 7, 8) PULDEHO_LIST(read_only, 9, 10)
uint64_t puldeho_raw_cell(
    uint32_t w, uint32_t r, uint32_t k, uint32_t n,
    const uint32_t *air, size_t air_length,
    const uint32_t *tracers, size_t tracers_length,
    const uint32_t *ledger, size_t ledger_length,
    uint32_t tracer,
    uint32_t cell);

PULDEHO_MUST_USE PULDEHO_LIST(read_only, 5, 6) PULDEHO_LIST(read_only, 7, 8) PULDEHO_LIST(read_write, 9, 10)
uint64_t puldeho_raw_add_emitter(
    uint32_t w, uint32_t r, uint32_t k, uint32_t n,
    const uint32_t *air, size_t air_length,
    const uint32_t *tracers, size_t tracers_length,
    uint32_t *ledger, size_t ledger_length,
    uint32_t tracer,
    uint32_t cell,
    uint32_t id,
    uint32_t units);

PULDEHO_MUST_USE PULDEHO_LIST(read_only, 5, 6) PULDEHO_LIST(read_only, 7, 8) PULDEHO_LIST(read_write, 9, 10)
uint64_t puldeho_raw_remove_emitter(
    uint32_t w, uint32_t r, uint32_t k, uint32_t n,
    const uint32_t *air, size_t air_length,
    const uint32_t *tracers, size_t tracers_length,
    uint32_t *ledger, size_t ledger_length,
    uint32_t tracer,
    uint32_t id);

PULDEHO_MUST_USE PULDEHO_LIST(read_only, 5, 6) PULDEHO_LIST(read_write, 7, 8) PULDEHO_LIST(read_write, 9, 10)
uint64_t puldeho_raw_tick(
    uint32_t w, uint32_t r, uint32_t k, uint32_t n,
    const uint32_t *air, size_t air_length,
    uint32_t *tracers, size_t tracers_length,
    uint32_t *ledger, size_t ledger_length,
    uint32_t tracer);

PULDEHO_MUST_USE PULDEHO_LIST(read_only, 5, 6) PULDEHO_LIST(read_only, 7, 8) PULDEHO_LIST(read_only, 9, 10)
uint32_t puldeho_raw_units_a_tick(
    uint32_t w, uint32_t r, uint32_t k, uint32_t n,
    const uint32_t *air, size_t air_length,
    const uint32_t *tracers, size_t tracers_length,
    const uint32_t *ledger, size_t ledger_length,
    uint32_t tracer);

PULDEHO_MUST_USE PULDEHO_LIST(read_only, 5, 6) PULDEHO_LIST(read_only, 7, 8) PULDEHO_LIST(read_only, 9, 10)
uint64_t puldeho_raw_units_a_tick_number(
    uint32_t w, uint32_t r, uint32_t k, uint32_t n,
    const uint32_t *air, size_t air_length,
    const uint32_t *tracers, size_t tracers_length,
    const uint32_t *ledger, size_t ledger_length,
    uint32_t tracer);

PULDEHO_MUST_USE PULDEHO_LIST(read_only, 5, 6) PULDEHO_LIST(read_only, 7, 8) PULDEHO_LIST(read_write, 9, 10)
uint64_t puldeho_raw_set_limiter(
    uint32_t w, uint32_t r, uint32_t k, uint32_t n,
    const uint32_t *air, size_t air_length,
    const uint32_t *tracers, size_t tracers_length,
    uint32_t *ledger, size_t ledger_length,
    uint32_t tracer,
    uint32_t limiter,
    uint64_t lo,
    uint64_t hi);

/* Does nothing. Its name has the version: the proved functions may take other arguments in another, and a program that is
 * linked with the library of another version wants a name that is not there. */
void PULDEHO_ABI(void);

/* Takes apart what a proved function returned. */
static inline enum puldeho_refusal puldeho_refusal_and_count(uint64_t returned, uint32_t *count)
{
    PULDEHO_ABI();
    if (count != NULL)
        *count = (uint32_t)returned;
    return (enum puldeho_refusal)(returned >> 32);
}

static inline enum puldeho_refusal puldeho_load(
    struct puldeho_world *world)
{
    return puldeho_refusal_and_count(puldeho_raw_load(
        world->grid.w, world->grid.r, world->grid.k, world->grid.n,
        world->air, world->air_length,
        world->tracers, world->tracers_length,
        world->ledger != NULL ? world->ledger : world->own_ledger, puldeho_lent_ledger_length(world)), NULL);
}

static inline enum puldeho_refusal puldeho_emission(
    struct puldeho_world *world,
    uint32_t tracer,
    uint32_t cell,
    uint32_t amount)
{
    return puldeho_refusal_and_count(puldeho_raw_emission(
        world->grid.w, world->grid.r, world->grid.k, world->grid.n,
        world->air, world->air_length,
        world->tracers, world->tracers_length,
        world->ledger != NULL ? world->ledger : world->own_ledger, puldeho_lent_ledger_length(world),
        tracer,
        cell,
        amount), NULL);
}

static inline enum puldeho_refusal puldeho_withdrawal(
    struct puldeho_world *world,
    uint32_t tracer,
    uint32_t cell,
    uint32_t amount)
{
    return puldeho_refusal_and_count(puldeho_raw_withdrawal(
        world->grid.w, world->grid.r, world->grid.k, world->grid.n,
        world->air, world->air_length,
        world->tracers, world->tracers_length,
        world->ledger != NULL ? world->ledger : world->own_ledger, puldeho_lent_ledger_length(world),
        tracer,
        cell,
        amount), NULL);
}

static inline enum puldeho_refusal puldeho_zonal(
    struct puldeho_world *world,
    uint32_t layer,
    uint32_t row,
    const int32_t *fluxes, size_t fluxes_length,
    uint32_t *substeps)
{
    return puldeho_refusal_and_count(puldeho_raw_zonal(
        world->grid.w, world->grid.r, world->grid.k, world->grid.n,
        world->air, world->air_length,
        world->tracers, world->tracers_length,
        world->ledger != NULL ? world->ledger : world->own_ledger, puldeho_lent_ledger_length(world),
        layer,
        row,
        fluxes, fluxes_length), substeps);
}

static inline enum puldeho_refusal puldeho_count_zonal(
    const struct puldeho_world *world,
    uint32_t layer,
    uint32_t row,
    const int32_t *fluxes, size_t fluxes_length,
    uint32_t *substeps)
{
    return puldeho_refusal_and_count(puldeho_raw_count_zonal(
        world->grid.w, world->grid.r, world->grid.k, world->grid.n,
        world->air, world->air_length,
        world->tracers, world->tracers_length,
        world->ledger != NULL ? world->ledger : world->own_ledger, puldeho_lent_ledger_length(world),
        layer,
        row,
        fluxes, fluxes_length), substeps);
}

static inline enum puldeho_refusal puldeho_zonal_with_count(
    struct puldeho_world *world,
    uint32_t layer,
    uint32_t row,
    uint32_t given,
    const int32_t *fluxes, size_t fluxes_length,
    uint32_t *substeps)
{
    return puldeho_refusal_and_count(puldeho_raw_zonal_with_count(
        world->grid.w, world->grid.r, world->grid.k, world->grid.n,
        world->air, world->air_length,
        world->tracers, world->tracers_length,
        world->ledger != NULL ? world->ledger : world->own_ledger, puldeho_lent_ledger_length(world),
        layer,
        row,
        given,
        fluxes, fluxes_length), substeps);
}

static inline enum puldeho_refusal puldeho_long_zonal(
    struct puldeho_world *world,
    uint32_t layer,
    uint32_t row,
    const int32_t *fluxes, size_t fluxes_length)
{
    return puldeho_refusal_and_count(puldeho_raw_long_zonal(
        world->grid.w, world->grid.r, world->grid.k, world->grid.n,
        world->air, world->air_length,
        world->tracers, world->tracers_length,
        world->ledger != NULL ? world->ledger : world->own_ledger, puldeho_lent_ledger_length(world),
        layer,
        row,
        fluxes, fluxes_length), NULL);
}

static inline enum puldeho_refusal puldeho_meridional(
    struct puldeho_world *world,
    uint32_t layer,
    const int32_t *fluxes, size_t fluxes_length,
    uint32_t *substeps)
{
    return puldeho_refusal_and_count(puldeho_raw_meridional(
        world->grid.w, world->grid.r, world->grid.k, world->grid.n,
        world->air, world->air_length,
        world->tracers, world->tracers_length,
        world->ledger != NULL ? world->ledger : world->own_ledger, puldeho_lent_ledger_length(world),
        layer,
        fluxes, fluxes_length), substeps);
}

static inline enum puldeho_refusal puldeho_remap(
    struct puldeho_world *world,
    const uint32_t *table, size_t table_length,
    uint32_t *overlaps)
{
    return puldeho_refusal_and_count(puldeho_raw_remap(
        world->grid.w, world->grid.r, world->grid.k, world->grid.n,
        world->air, world->air_length,
        world->tracers, world->tracers_length,
        world->ledger != NULL ? world->ledger : world->own_ledger, puldeho_lent_ledger_length(world),
        table, table_length), overlaps);
}

static inline enum puldeho_refusal puldeho_total(
    const struct puldeho_world *world,
    uint32_t tracer,
    uint32_t *units)
{
    return puldeho_refusal_and_count(puldeho_raw_total(
        world->grid.w, world->grid.r, world->grid.k, world->grid.n,
        world->air, world->air_length,
        world->tracers, world->tracers_length,
        world->ledger != NULL ? world->ledger : world->own_ledger, puldeho_lent_ledger_length(world),
        tracer), units);
}

static inline enum puldeho_refusal puldeho_cell(
    const struct puldeho_world *world,
    uint32_t tracer,
    uint32_t cell,
    uint32_t *units)
{
    return puldeho_refusal_and_count(puldeho_raw_cell(
        world->grid.w, world->grid.r, world->grid.k, world->grid.n,
        world->air, world->air_length,
        world->tracers, world->tracers_length,
        world->ledger != NULL ? world->ledger : world->own_ledger, puldeho_lent_ledger_length(world),
        tracer,
        cell), units);
}

static inline enum puldeho_refusal puldeho_add_emitter(
    struct puldeho_world *world,
    uint32_t tracer,
    uint32_t cell,
    uint32_t id,
    uint32_t units)
{
    return puldeho_refusal_and_count(puldeho_raw_add_emitter(
        world->grid.w, world->grid.r, world->grid.k, world->grid.n,
        world->air, world->air_length,
        world->tracers, world->tracers_length,
        world->ledger != NULL ? world->ledger : world->own_ledger, puldeho_lent_ledger_length(world),
        tracer,
        cell,
        id,
        units), NULL);
}

static inline enum puldeho_refusal puldeho_remove_emitter(
    struct puldeho_world *world,
    uint32_t tracer,
    uint32_t id)
{
    return puldeho_refusal_and_count(puldeho_raw_remove_emitter(
        world->grid.w, world->grid.r, world->grid.k, world->grid.n,
        world->air, world->air_length,
        world->tracers, world->tracers_length,
        world->ledger != NULL ? world->ledger : world->own_ledger, puldeho_lent_ledger_length(world),
        tracer,
        id), NULL);
}

static inline enum puldeho_refusal puldeho_tick(
    struct puldeho_world *world,
    uint32_t tracer)
{
    return puldeho_refusal_and_count(puldeho_raw_tick(
        world->grid.w, world->grid.r, world->grid.k, world->grid.n,
        world->air, world->air_length,
        world->tracers, world->tracers_length,
        world->ledger != NULL ? world->ledger : world->own_ledger, puldeho_lent_ledger_length(world),
        tracer), NULL);
}

static inline enum puldeho_refusal puldeho_units_a_tick(
    const struct puldeho_world *world,
    uint32_t tracer,
    uint64_t *units)
{
    uint32_t refusal = puldeho_raw_units_a_tick(
        world->grid.w, world->grid.r, world->grid.k, world->grid.n,
        world->air, world->air_length,
        world->tracers, world->tracers_length,
        world->ledger != NULL ? world->ledger : world->own_ledger, puldeho_lent_ledger_length(world),
        tracer);
    PULDEHO_ABI();
    if (units != NULL)
        *units = puldeho_raw_units_a_tick_number(
        world->grid.w, world->grid.r, world->grid.k, world->grid.n,
        world->air, world->air_length,
        world->tracers, world->tracers_length,
        world->ledger != NULL ? world->ledger : world->own_ledger, puldeho_lent_ledger_length(world),
        tracer);
    return (enum puldeho_refusal)refusal;
}

static inline enum puldeho_refusal puldeho_set_limiter(
    struct puldeho_world *world,
    uint32_t tracer,
    uint32_t limiter,
    uint64_t lo,
    uint64_t hi)
{
    return puldeho_refusal_and_count(puldeho_raw_set_limiter(
        world->grid.w, world->grid.r, world->grid.k, world->grid.n,
        world->air, world->air_length,
        world->tracers, world->tracers_length,
        world->ledger != NULL ? world->ledger : world->own_ledger, puldeho_lent_ledger_length(world),
        tracer,
        limiter,
        lo,
        hi), NULL);
}

#ifdef __cplusplus
}
#endif

#endif
