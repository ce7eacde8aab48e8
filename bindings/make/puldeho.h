/*
 * Puldeho, the transport core of the tracer console, for C (C99 or later) and C++: version @VERSION@.
 * @MADE@
 *
 * To compile and link, on x86-64 Linux: cc program.c $(pkg-config --cflags --libs puldeho)
 * The guide (docs/GUIDE.md, installed as share/doc/puldeho/GUIDE.md) explains grid, units, fluxes, refusals.
 *
 *     uint32_t air[6] = {100, 100, 100, 100, 100, 100}, tracers[6] = {0, 0, 100, 200, 100, 0};
 *     int32_t fluxes[4] = {0, 50, 0, 0};
 *     struct puldeho_grid grid = {.w = 4, .r = 1, .k = 1, .n = 1};
 *     struct puldeho_world world = puldeho_world_over(grid, air, 6, tracers, 6);
 *     enum puldeho_refusal refusal = puldeho_load(&world);
 *     if (refusal == PULDEHO_ACCEPTED)
 *         refusal = puldeho_zonal(&world, 0, 0, fluxes, 4, NULL);
 *     if (refusal != PULDEHO_ACCEPTED)
 *         fprintf(stderr, "refused: %s\n", puldeho_refusal_text(refusal));
 *
 * What a call gives: PULDEHO_ACCEPTED, which is 0, or the first refusal that applies. (So a true value
 * is a refusal: do not keep it in a bool called ok.) A refused call changes nothing: neither air nor
 * tracers nor emitters nor limiters nor books. A count, where a call has one, is written to the last argument, 0 if the call
 * is refused; that pointer may be null.
 *
 * What is assumed of pointers:
 * - each goes with the length after it, in numbers, not bytes: so many can be read there, or written. A
 *   length that is not the grid's is refused with 2, before anything is read there;
 * - it is not null and is aligned to 4 bytes, unless the length is 0;
 * - a list that is written shares no memory with another list of the same call;
 * - nobody else writes a lent list during the call, or reads one that is written.
 * Nothing is assumed of the numbers: any are answered. The library keeps nothing
 * between calls, and each call tests the whole world before it does anything (of the ledger the books in
 * every call but a load, the emitters only in the four calls on emitters, the limiters only in the calls
 * that move air and in puldeho_count_zonal). Several threads may call it at once, each with a world of its
 * own; a list that is only read may be shared. Between calls you may read the lists. If you write into
 * them, load again: what is promised of a run counts from there, no emitter stands then, every tracer has
 * limiter 1, and its book begins anew. Until then calls are refused with 22 if the cells of some tracer do
 * not sum to what its book says. Changes that cancel each other, and changed air, are not noticed so.
 * Names that begin with puldeho or PULDEHO are the library's. Take sizes and limits by their names: they may grow.
 *
 * Which version has which scale: ratios, mismatches and pieces have the scale 262,144 (PULDEHO_SCALE) from
 * version 0.6 on, and had 65,536 before; the same calls may leave other amounts of gas. To tell builds of the
 * two apart, load air {100, 928, 314, 81, 658, 100} and tracers {0, 221, 496, 522, 317, 0} on the grid 4, 1, 1, 1 and
 * sweep row 0 with fluxes {421, 462, 475, 229}: the row's tracer is then 321, 110, 27, 1098, and was 322, 110,
 * 27, 1097. The b of a remap's table keeps 65,536 (PULDEHO_TABLE_SCALE).
 *
 * What is assumed of the stack: that it has room for the call, PULDEHO_STACK bytes or, of the proved
 * function under each call (return address and libc's functions included, arguments not):
@STACK@
 * A function puldeho_why_NAME wants at most PULDEHO_WHY_STACK bytes.
 */
#ifndef PULDEHO_H
#define PULDEHO_H

#include <stddef.h>
#include <stdint.h>
#include <string.h>

#define PULDEHO_VERSION "@VERSION@"
#define PULDEHO_VERSION_MAJOR @MAJOR@
#define PULDEHO_VERSION_MINOR @MINOR@
#define PULDEHO_VERSION_PATCH @PATCH@
#define PULDEHO_ABI puldeho_abi_@MAJOR@_@MINOR@

@LIMITS@

/* The deepest stack of all calls, in bytes, and room enough for each function that says why one was refused. */
#define PULDEHO_STACK @DEEPEST@
#define PULDEHO_WHY_STACK 131072

/* What a compiler that knows them warns of: a result that nobody looks at, a null pointer, and a list that is shorter
 * than the length given with it. */
#if defined(__GNUC__)
#define PULDEHO_MUST_USE __attribute__((warn_unused_result))
#define PULDEHO_NOT_NULL(place) __attribute__((nonnull(place)))
#else
#define PULDEHO_MUST_USE
#define PULDEHO_NOT_NULL(place)
#endif
#if defined(__GNUC__) && !defined(__clang__) && __GNUC__ >= 10
#define PULDEHO_LIST(use, pointer, length) __attribute__((access(use, pointer, length)))
#else
#define PULDEHO_LIST(use, pointer, length)
#endif

#ifdef __cplusplus
extern "C" {
#endif

/* What a call gives. Later versions have further refusals, not all numbers between: a switch needs a default. */
enum puldeho_refusal {
    /* the call was made */
    PULDEHO_ACCEPTED = 0,
@REFUSALS@
};

/* The limiters, as puldeho_set_limiter takes them; section 12 of the guide says when to use which. Later versions may
 * have further ones. */
enum puldeho_limiter_number {
@LIMITERS@
};

/* Why a call was refused: the condition of a refusal, in words. */
static inline const char *puldeho_refusal_text(enum puldeho_refusal refusal)
{
    switch (refusal) {
    case PULDEHO_ACCEPTED:
        return "accepted";
@CONDITIONS@
    }
    return "no refusal of this version";
}

/* What to do about a refusal, in words. puldeho_why_NAME, below, says more of the world at hand. */
static inline const char *puldeho_refusal_remedy(enum puldeho_refusal refusal)
{
    switch (refusal) {
    case PULDEHO_ACCEPTED:
        return "nothing: the call was made";
@REMEDIES@
    }
    return "compile the program anew, with the header of the library that it is linked with";
}

/* The grid: W columns round the globe (4 to 72), R rows from south to north (1 to 44), K layers from
 * the top down (1 to 32), N tracers (1 to 8). Columns, rows, layers, tracers and cells are counted from 0. */
struct puldeho_grid {
    uint32_t w, r, k, n;
};

/* C, the cells of a layer: its R*W cells and the two caps. */
static inline size_t puldeho_cells_in_layer(struct puldeho_grid grid)
{
    return 2 + (size_t)grid.r * grid.w;
}
@LENGTHS@@BOUNDS@
/* What the functions below give for a place that the grid has not. Every call refuses it, with 5; test for it
 * before you use the number as an index. */
#define PULDEHO_NO_CELL UINT32_MAX

/* The number of a cell over all layers: layer*C + 1 + row*W + column. */
static inline uint32_t puldeho_cell_number(struct puldeho_grid grid, uint32_t layer, uint32_t row, uint32_t column)
{
    if (layer >= grid.k || row >= grid.r || column >= grid.w)
        return PULDEHO_NO_CELL;
    return (uint32_t)(layer * puldeho_cells_in_layer(grid) + 1 + (size_t)row * grid.w + column);
}

/* The number of a layer's south cap: layer*C. */
static inline uint32_t puldeho_south_cap(struct puldeho_grid grid, uint32_t layer)
{
    if (layer >= grid.k)
        return PULDEHO_NO_CELL;
    return (uint32_t)(layer * puldeho_cells_in_layer(grid));
}

/* The number of a layer's north cap: layer*C + C - 1. */
static inline uint32_t puldeho_north_cap(struct puldeho_grid grid, uint32_t layer)
{
    if (layer >= grid.k)
        return PULDEHO_NO_CELL;
    return (uint32_t)((layer + (size_t)1) * puldeho_cells_in_layer(grid) - 1);
}

/* The world: the grid, and the lists that the caller keeps and lends to each call, with their lengths
 * in numbers. Make it with puldeho_world_over; in C, naming its fields, as in {.grid = grid, ..}, serves too.
 * Later versions have further fields, which a load fills, and refuse what this one still answers. So:
 * - load each world, once it is made, before any other call;
 * - load again when you have written into its lists or set its fields, before the next call;
 * - make all calls on the one struct, by its address: a copy of the struct is neither the same world nor
 *   a second one; what is emitted through one of them is not in the other's book (22). It may be moved, as
 *   by a function that returns it. puldeho_copy copies a state.
 *
 * The ledger holds the emitters that stand, the limiters and the books. A program need not know of it: where `ledger` is null,
 * the world has one of its own, in the struct. To keep it elsewhere, set `ledger` to puldeho_ledger_length(grid) numbers
 * and `ledger_length` to that length before the load; the load writes all of it. Tracer t's block of numbers starts at
 * t*PULDEHO_LEDGER_BLOCK. In it stand at
 *   0                          how many emitters stand, 0 to PULDEHO_MOST_EMITTERS
 *   1 and 2                    the sum of their units a tick, its low and its high 32 bits
 *   3 + 3*i, 4 + 3*i, 5 + 3*i  id, cell and units a tick of emitter i, counted from 0
 *   51                         the limiter's number, one of enum puldeho_limiter_number
 *   52 and 53, 54 and 55       its bounds lo and hi, of each the low and the high 32 bits
 *   56, 57, 58                 the book: units loaded, and emitted and withdrawn since the load
 * A new emitter comes after the last. In place of a removed one comes the last one, whose place becomes 0, 0, 0. A load
 * leaves in each block limiter 1 and the tracer's total as loaded, and 0 everywhere else; before the first load a world's
 * own ledger is all zeros.
 * So two programs that make the same calls have the same ledger, number for number.
 * Read it with puldeho_lent_ledger, a limiter with puldeho_limiter_of, a book with puldeho_book_of. Only calls may write
 * it. Every call but a load refuses with 22 a ledger in which some tracer's loaded + emitted - withdrawn is not the sum of
 * its cells. The four calls on emitters refuse with 5 one in which some tracer has more emitters than that, one in an
 * absent cell, an id twice or a false sum; the calls that move air and puldeho_count_zonal refuse with 21 one in which
 * some tracer's limiter is unknown or its lo above its hi. To keep emitters and limiters in a file, keep what stands in
 * each block; to bring them back, load, add the emitters again in the same order, and set the limiters: the ledger is then
 * the same, but for the books, which begin anew.
 * Later versions have further numbers at the end of each block and after all blocks: take lengths and starts of
 * blocks from the functions and names above, and do not count on those of this version. */
struct puldeho_world {
    struct puldeho_grid grid;
@FIELDS@
};

/* The world of a grid and lent lists; each length is how many numbers the list has. It reads none of them, so they may
 * be filled afterwards. */
@WORLDLISTS@
static inline struct puldeho_world puldeho_world_over(
    struct puldeho_grid grid,
    @LISTS@)
{
    struct puldeho_world world;
    memset(&world, 0, sizeof world);
    world.grid = grid;
@SETS@
    return world;
}
@OWNLISTS@
/* A tracer's limiter: its number, one of enum puldeho_limiter_number, and its bounds, as the call that sets it takes them. */
struct puldeho_limiter {
    uint32_t number;
    uint64_t lo, hi;
};

/* The limiter that a tracer has now; all 0 where the world was never loaded, or has no such tracer. */
PULDEHO_NOT_NULL(1)
static inline struct puldeho_limiter puldeho_limiter_of(const struct puldeho_world *world, uint32_t tracer)
{
    struct puldeho_limiter limiter = {0, 0, 0};
    size_t place = (size_t)tracer * PULDEHO_LEDGER_BLOCK + @LIMITERPLACE@;
    if (tracer < world->grid.n && place + 5 <= puldeho_lent_ledger_length(world)) {
        const uint32_t *numbers = puldeho_lent_ledger(world) + place;
        limiter.number = numbers[0];
        limiter.lo = (uint64_t)numbers[2] << 32 | numbers[1];
        limiter.hi = (uint64_t)numbers[4] << 32 | numbers[3];
    }
    return limiter;
}

/* A tracer's book, in units: what the load found in all its cells, and what was emitted (ticks included) and withdrawn since
 * then. In the ledger the sums have 32 bits; here they have 64 with a sign, so that they can be added and subtracted. */
struct puldeho_book {
    int64_t loaded, emitted, withdrawn;
};

/* The book of a tracer as it stands in the ledger; all three are -1 if the world has no such tracer, and 0 before the first
 * load. Reading does not test it. Make a call of puldeho_total for any tracer before or after it: if that is accepted, every
 * tracer's total is loaded + emitted - withdrawn; if not, it is refused with 22. */
PULDEHO_NOT_NULL(1)
static inline struct puldeho_book puldeho_book_of(const struct puldeho_world *world, uint32_t tracer)
{
    struct puldeho_book book = {-1, -1, -1};
    size_t place = (size_t)tracer * PULDEHO_LEDGER_BLOCK + @BOOKPLACE@;
    if (tracer < world->grid.n && place + 3 <= puldeho_lent_ledger_length(world)) {
        const uint32_t *numbers = puldeho_lent_ledger(world) + place;
        book.loaded = numbers[0];
        book.emitted = numbers[1];
        book.withdrawn = numbers[2];
    }
    return book;
}

/* Copies a world's state, all its lists, the ledger and whatever a later version adds, into another world over lists of
 * the same lengths: to keep the state before a step, and to go back to it. Gives refusal 2 and copies nothing if a
 * length differs. */
PULDEHO_MUST_USE PULDEHO_NOT_NULL(1) PULDEHO_NOT_NULL(2)
static inline enum puldeho_refusal puldeho_copy(struct puldeho_world *to, const struct puldeho_world *from)
{
    if (@SAMELENGTHS@)
        return PULDEHO_REFUSAL_LENGTHS;
    to->grid = from->grid;
@COPIES@    return PULDEHO_ACCEPTED;
}

/* The count of a remap, overlaps, so that two builds can be compared by hand. It is exactly the number of pairs of an
 * old and a new layer that share some air, summed over columns: all C = 2 + R*W columns of air (a column is one place
 * of the grid through all K layers), the two of the caps included. Layers that only touch share no air, and the
 * tracers, however many, have no part in it. A column of air 100, 100, 100 from the top down with the new edges
 * 0, 150, 200, 300 has four pairs, layers counted from 0:
 *   old 0 and new 0    the air from   0 to 100
 *   old 1 and new 0    the air from 100 to 150
 *   old 1 and new 1    the air from 150 to 200
 *   old 2 and new 2    the air from 200 to 300
 * With K = 3 that is 2*K - 1 = 5 less 1, for the one inner edge (neither the top nor the bottom) that old and new
 * layers have in common, at 200. So it is in each column: 2*K - 1 less its common inner edges, K at least. In a world
 * with W = 4, R = 1, K = 3 and air 100 in every cell, the table 0, 0, 150, 0, 200, 0, 0, 65536 has the count
 * 6*4 = 24. */

/* The calls. A refused one changes nothing; puldeho_why_NAME, below, says more about why. */
@CALLS@
/*
 * Why a call is refused: for each call a function that takes the same arguments, writes into `text`
 * which cell, row, column, emitter or limiter is in the way, how much air it has and how much would leave, and
 * whether a smaller time step can help, and returns the refusal, 0 if the call would be accepted. Ask after the
 * refusal, before the world changes. `text` gets at most `size` bytes with the final 0;
 * PULDEHO_WHY_SIZE are enough for any. These functions are plain C and not proved; they only read.
 */
#define PULDEHO_WHY_SIZE @WHYSIZE@

@WHYS@
/*
 * From here on: how the calls are made. The proved functions return one number, refusal * 2^32 + count,
 * which kept in an int is 0 for many a refused call; the calls above take it apart. Where the count has
 * 64 bits, puldeho_raw_NAME returns the refusal alone, and puldeho_raw_NAME_number the count.
 */
@RAWS@
/* Does nothing. Its name has the version: the proved functions may take other arguments in another, and a program that is
 * linked with the library of another version wants a name that is not there. */
void PULDEHO_ABI(void);

/* Takes apart what a proved function returned. */
static inline enum puldeho_refusal puldeho_refusal_and_count(uint64_t returned, uint32_t *count)
{
    PULDEHO_ABI();
    if (count != NULL)
        *count = (uint32_t)returned;
    return (enum puldeho_refusal)(returned >> 32);
}
@BODIES@
#ifdef __cplusplus
}
#endif

#endif
