/* Case P of document 01 and each refusal that C can get, through the header. It says what it does and gives;
 * the exit status is 1 if anything differs. */
#include <stdio.h>
#include <string.h>

#include "puldeho.h"

#define CELLS 6

static const uint32_t first_air[CELLS] = {100, 100, 100, 100, 100, 100};
static const uint32_t first_tracers[CELLS] = {0, 0, 100, 200, 100, 0};
static uint32_t air[CELLS], tracers[CELLS];
static int differences = 0;

/* The world of case P before its first call. */
static struct puldeho_world first_world(void)
{
    struct puldeho_grid grid = {4, 1, 1, 1};
    memcpy(air, first_air, sizeof air);
    memcpy(tracers, first_tracers, sizeof tracers);
    return puldeho_world_over(grid, air, CELLS, tracers, CELLS);
}

/* Says what a call gave and whether that is what document 01 defines. */
static void expect(const char *what, enum puldeho_refusal got, enum puldeho_refusal wanted)
{
    printf("%s: %s", what, puldeho_refusal_text(got));
    if (got != wanted)
        printf(", but it should be: %s", puldeho_refusal_text(wanted));
    printf("\n");
    differences += got != wanted;
}

static void expect_number(const char *what, uint32_t got, uint32_t wanted)
{
    printf("%s: %u", what, (unsigned)got);
    if (got != wanted)
        printf(", but it should be %u", (unsigned)wanted);
    printf("\n");
    differences += got != wanted;
}

/* Says whether a list has the numbers that it should have. */
static void expect_list(const char *what, const uint32_t *list, const uint32_t *wanted)
{
    int same = memcmp(list, wanted, CELLS * sizeof *list) == 0;
    printf("%s: %s\n", what, same ? "as it should be" : "DIFFERENT");
    differences += !same;
}

static void case_p(void)
{
    static const uint32_t air_after[CELLS] = {100, 100, 50, 150, 100, 100};
    static const uint32_t tracers_after[CELLS] = {0, 0, 38, 262, 100, 0};
    static const int32_t fluxes[4] = {0, 50, 0, 0};
    struct puldeho_world world = first_world();
    uint32_t substeps = 99, total = 99, cell = 99;
    expect("case P, load", puldeho_load(&world), PULDEHO_ACCEPTED);
    expect("case P, zonal sweep", puldeho_zonal(&world, 0, 0, fluxes, 4, &substeps), PULDEHO_ACCEPTED);
    expect_number("case P, substeps", substeps, 1);
    expect("case P, total", puldeho_total(&world, 0, &total), PULDEHO_ACCEPTED);
    expect_number("case P, units in all cells", total, 400);
    expect("case P, cell 3", puldeho_cell(&world, 0, puldeho_cell_number(world.grid, 0, 0, 2), &cell), PULDEHO_ACCEPTED);
    expect_number("case P, units in cell 3", cell, 262);
    expect_list("case P, air after", air, air_after);
    expect_list("case P, tracers after", tracers, tracers_after);
}

/* The same fluxes as a long sweep, which takes a low-end piece; then a whole turn, which changes nothing. */
static void long_sweep(void)
{
    static const uint32_t tracers_after[CELLS] = {0, 0, 37, 263, 100, 0};
    static const int32_t fluxes[4] = {0, 50, 0, 0}, turn[4] = {400, 400, 400, 400};
    struct puldeho_world world = first_world();
    expect("load", puldeho_load(&world), PULDEHO_ACCEPTED);
    expect("long sweep", puldeho_long_zonal(&world, 0, 0, fluxes, 4), PULDEHO_ACCEPTED);
    expect_list("long sweep, tracers after", tracers, tracers_after);
    expect("a whole turn", puldeho_long_zonal(&world, 0, 0, turn, 4), PULDEHO_ACCEPTED);
    expect_list("a whole turn, tracers after", tracers, tracers_after);
}

static void expect_wide(const char *what, uint64_t got, uint64_t wanted)
{
    printf("%s: %llu", what, (unsigned long long)got);
    if (got != wanted)
        printf(", but it should be %llu", (unsigned long long)wanted);
    printf("\n");
    differences += got != wanted;
}

/* A stack that starts, stands with another in its cell, and stops; the reading has more than 32 bits. */
static void emitters(void)
{
    static const uint32_t after[CELLS] = {0, 0, 100, 300, 130, 0};
    struct puldeho_world world = first_world();
    uint64_t units = 99;
    expect("load", puldeho_load(&world), PULDEHO_ACCEPTED);
    expect("a tick without emitters", puldeho_tick(&world, 0), PULDEHO_ACCEPTED);
    expect("id 7 starts", puldeho_add_emitter(&world, 0, 3, 7, 40), PULDEHO_ACCEPTED);
    expect("id 8 starts in its cell", puldeho_add_emitter(&world, 0, 3, 8, 60), PULDEHO_ACCEPTED);
    expect("id 0 starts", puldeho_add_emitter(&world, 0, 4, 0, 30), PULDEHO_ACCEPTED);
    expect("units a tick", puldeho_units_a_tick(&world, 0, &units), PULDEHO_ACCEPTED);
    expect_wide("units", units, 130);
    expect("a tick", puldeho_tick(&world, 0), PULDEHO_ACCEPTED);
    expect_list("tracers after a tick", tracers, after);
    expect("id 7 stops", puldeho_remove_emitter(&world, 0, 7), PULDEHO_ACCEPTED);
    expect_number("how many stand", puldeho_lent_ledger(&world)[0], 2);
    expect_number("the last one is in its place", puldeho_lent_ledger(&world)[3], 0);
    expect("the largest units", puldeho_add_emitter(&world, 0, 0, UINT32_MAX, UINT32_MAX), PULDEHO_ACCEPTED);
    expect("units a tick", puldeho_units_a_tick(&world, 0, &units), PULDEHO_ACCEPTED);
    expect_wide("units", units, 4294967385u);
    expect("a tick above the limit", puldeho_tick(&world, 0), PULDEHO_REFUSAL_EMISSION);
    expect_list("tracers after it", tracers, after);
    expect("an id again", puldeho_add_emitter(&world, 0, 1, 8, 1), PULDEHO_REFUSAL_EMITTER_ADDED);
    expect("an absent id", puldeho_remove_emitter(&world, 0, 7), PULDEHO_REFUSAL_EMITTER_ABSENT);
    expect("an absent tracer", puldeho_units_a_tick(&world, 1, &units), PULDEHO_REFUSAL_INDEX);
    expect_wide("its count", units, 0);
    expect("a load", puldeho_load(&world), PULDEHO_ACCEPTED);
    expect_number("how many stand after a load", puldeho_lent_ledger(&world)[0], 0);
}

static void expect_book(
    const char *what, const struct puldeho_world *world, uint32_t tracer, int64_t loaded, int64_t emitted, int64_t withdrawn)
{
    struct puldeho_book book = puldeho_book_of(world, tracer);
    int same = book.loaded == loaded && book.emitted == emitted && book.withdrawn == withdrawn;
    printf("%s: %lld loaded, %lld emitted, %lld withdrawn%s\n", what, (long long)book.loaded, (long long)book.emitted,
           (long long)book.withdrawn, same ? "" : ", which is DIFFERENT");
    differences += !same;
}

/* The book of a gas: written by load, emission, tick and withdrawal, and by no other call. */
static void books(void)
{
    static const int32_t fluxes[4] = {0, 50, 0, 0};
    struct puldeho_world world = first_world();
    expect_book("the book before the load", &world, 0, 0, 0, 0);
    expect("a total before the load", puldeho_total(&world, 0, NULL), PULDEHO_REFUSAL_BOOKS);
    expect("load", puldeho_load(&world), PULDEHO_ACCEPTED);
    expect_book("the book after it", &world, 0, 400, 0, 0);
    expect("emission", puldeho_emission(&world, 0, 3, 50), PULDEHO_ACCEPTED);
    expect("an emitter", puldeho_add_emitter(&world, 0, 2, 7, 11), PULDEHO_ACCEPTED);
    expect("tick", puldeho_tick(&world, 0), PULDEHO_ACCEPTED);
    expect("withdrawal", puldeho_withdrawal(&world, 0, 3, 20), PULDEHO_ACCEPTED);
    expect("a sweep", puldeho_zonal(&world, 0, 0, fluxes, 4, NULL), PULDEHO_ACCEPTED);
    expect("a refused withdrawal", puldeho_withdrawal(&world, 0, 3, 1000), PULDEHO_REFUSAL_WITHDRAWAL);
    expect_book("the book now", &world, 0, 400, 61, 20);
    expect_book("of an absent gas", &world, 1, -1, -1, -1);
    expect("load", puldeho_load(&world), PULDEHO_ACCEPTED);
    expect_book("the book after it", &world, 0, 441, 0, 0);
}

/* Amounts that are written between calls, and a copy of the struct, which parts the books; a load mends both. */
static void books_that_differ(void)
{
    struct puldeho_world world = first_world(), copy;
    uint32_t total = 99;
    expect("load", puldeho_load(&world), PULDEHO_ACCEPTED);
    tracers[3]++;
    expect("an amount in place", puldeho_total(&world, 0, &total), PULDEHO_REFUSAL_BOOKS);
    expect_number("its count", total, 0);
    expect_book("the book of then", &world, 0, 400, 0, 0);
    expect("a load", puldeho_load(&world), PULDEHO_ACCEPTED);
    copy = world;
    expect("an emission through a copy", puldeho_emission(&copy, 0, 3, 7), PULDEHO_ACCEPTED);
    expect("which is not in this book", puldeho_emission(&world, 0, 3, 7), PULDEHO_REFUSAL_BOOKS);
    expect("a load", puldeho_load(&world), PULDEHO_ACCEPTED);
    expect_book("the book now", &world, 0, 408, 0, 0);
}

/* A gas that is emitted and withdrawn whole, until its sums are full. */
static void full_sums(void)
{
    struct puldeho_world world = first_world();
    enum puldeho_refusal refusal;
    memset(tracers, 0, sizeof tracers);
    refusal = puldeho_load(&world);
    for (int times = 0; times < 16; times++) {
        if (!refusal) refusal = puldeho_emission(&world, 0, 2, PULDEHO_TOTAL_LIMIT);
        if (!refusal) refusal = puldeho_withdrawal(&world, 0, 2, PULDEHO_TOTAL_LIMIT);
    }
    expect("16 times in and out", refusal, PULDEHO_ACCEPTED);
    expect("the 17th emission", puldeho_emission(&world, 0, 2, PULDEHO_TOTAL_LIMIT), PULDEHO_REFUSAL_EMISSION);
    expect("15 units", puldeho_emission(&world, 0, 2, 15), PULDEHO_ACCEPTED);
    expect("a unit more", puldeho_emission(&world, 0, 2, 1), PULDEHO_REFUSAL_EMISSION);
    expect("no unit more", puldeho_emission(&world, 0, 2, 0), PULDEHO_ACCEPTED);
    expect_book("the book", &world, 0, 0, PULDEHO_SUM_LIMIT, PULDEHO_SUM_LIMIT - 15);
    expect("a load", puldeho_load(&world), PULDEHO_ACCEPTED);
    expect("a unit more", puldeho_emission(&world, 0, 2, 1), PULDEHO_ACCEPTED);
    expect_book("the book", &world, 0, 15, 1, 0);
}

/* The load after a program wrote into a list leaves no emitter and limiter 1; added and set again as the guide does it, they give
 * the ledger as it was. */
static void added_again(void)
{
    uint32_t kept[PULDEHO_MOST_TRACERS * PULDEHO_LEDGER_BLOCK];
    struct puldeho_limiter limiters[PULDEHO_MOST_TRACERS];
    struct puldeho_world world = first_world();
    struct puldeho_grid grid = world.grid;
    enum puldeho_refusal refusal = puldeho_load(&world);
    if (!refusal) refusal = puldeho_set_limiter(&world, 0, PULDEHO_LIMITER_FIXED, 7, (uint64_t)1 << 40);
    for (uint32_t id = 0; !refusal && id < 5; id++)
        refusal = puldeho_add_emitter(&world, 0, id, 100 + id, 10 * id);
    expect("five emitters", refusal, PULDEHO_ACCEPTED);
    expect("one stops", puldeho_remove_emitter(&world, 0, 101), PULDEHO_ACCEPTED);
    memcpy(kept, puldeho_lent_ledger(&world), grid.n * PULDEHO_LEDGER_BLOCK * sizeof *kept);
    for (uint32_t t = 0; t < grid.n; t++) limiters[t] = puldeho_limiter_of(&world, t);
    refusal = puldeho_load(&world);
    for (uint32_t t = 0; t < grid.n; t++) {
        const uint32_t *block = kept + t * PULDEHO_LEDGER_BLOCK;
        for (uint32_t i = 0; !refusal && i < block[0]; i++)
            refusal = puldeho_add_emitter(&world, t, block[4 + 3 * i], block[3 + 3 * i], block[5 + 3 * i]);
        if (!refusal) refusal = puldeho_set_limiter(&world, t, limiters[t].number, limiters[t].lo, limiters[t].hi);
    }
    expect("loaded and added again", refusal, PULDEHO_ACCEPTED);
    expect_number("the ledger as it was", memcmp(kept, puldeho_lent_ledger(&world), puldeho_lent_ledger_length(&world) * sizeof *kept), 0);
}

/* A ledger that the program keeps: of the wrong length; with the gas in its book, and an emitter that is not as it must be; cleared
 * by a load. */
static void own_ledger(void)
{
    uint32_t ledger[PULDEHO_LEDGER_BLOCK] = {1, 5, 0, 7, CELLS, 5, [56] = 400};
    struct puldeho_world world = first_world();
    world.ledger = ledger;
    world.ledger_length = PULDEHO_LEDGER_BLOCK - 1;
    expect("a ledger too short", puldeho_load(&world), PULDEHO_REFUSAL_LENGTHS);
    world.ledger_length = puldeho_ledger_length(world.grid);
    expect("an emitter in an absent cell", puldeho_tick(&world, 0), PULDEHO_REFUSAL_INDEX);
    expect("which an emission does not see", puldeho_emission(&world, 0, 3, 1), PULDEHO_ACCEPTED);
    expect("nor a load", puldeho_load(&world), PULDEHO_ACCEPTED);
    expect_number("which clears it", ledger[0] + ledger[3], 0);
    expect("an emitter", puldeho_add_emitter(&world, 0, 3, 7, 40), PULDEHO_ACCEPTED);
    expect_number("stands in the program's list", ledger[3], 7);
    expect_number("and not in the world's own", world.own_ledger[0], 0);
}

static void expect_limiter(const char *what, struct puldeho_limiter got, uint32_t number, uint64_t lo, uint64_t hi)
{
    expect_number(what, got.number, number);
    expect_wide("its lo", got.lo, lo);
    expect_wide("its hi", got.hi, hi);
}

/* One sweep by a limiter: 50 units of air leave a peak. */
static void limited_sweep(enum puldeho_limiter_number limiter, uint64_t hi, uint32_t left)
{
    static const uint32_t gas[CELLS] = {0, 100, 300, 200, 0, 0};
    static const int32_t fluxes[4] = {0, 50, 0, 0};
    struct puldeho_world world = first_world();
    memcpy(tracers, gas, sizeof gas);
    expect("load", puldeho_load(&world), PULDEHO_ACCEPTED);
    expect("a limiter", puldeho_set_limiter(&world, 0, limiter, 0, hi), PULDEHO_ACCEPTED);
    expect("its sweep", puldeho_zonal(&world, 0, 0, fluxes, 4, NULL), PULDEHO_ACCEPTED);
    expect_number("what is left of the peak", tracers[2], left);
}

/* The limiter of a gas: none before a load, 1 after it, another by the call, kept with the state, and 1 again after a load. */
static void limiters(void)
{
    static const int32_t fluxes[4] = {0, 50, 0, 0};
    uint32_t kept_air[CELLS], kept_tracers[CELLS];
    struct puldeho_world world = first_world(), kept = puldeho_world_over(world.grid, kept_air, CELLS, kept_tracers, CELLS);
    expect("a sweep before the load", puldeho_zonal(&world, 0, 0, fluxes, 4, NULL), PULDEHO_REFUSAL_LIMITERS);
    expect_limiter("the limiter before the load", puldeho_limiter_of(&world, 0), 0, 0, 0);
    expect("the load", puldeho_load(&world), PULDEHO_ACCEPTED);
    expect_limiter("the limiter after it", puldeho_limiter_of(&world, 0), PULDEHO_LIMITER_PRESENT, 0, 0);
    expect("a fixed one", puldeho_set_limiter(&world, 0, PULDEHO_LIMITER_FIXED, 5, UINT64_MAX), PULDEHO_ACCEPTED);
    expect("lo above hi", puldeho_set_limiter(&world, 0, PULDEHO_LIMITER_PRESENT, 1, 0), PULDEHO_REFUSAL_LIMITERS);
    expect("limiter 4", puldeho_set_limiter(&world, 0, 4, 0, 0), PULDEHO_REFUSAL_LIMITERS);
    expect("an absent gas", puldeho_set_limiter(&world, 1, 4, 0, 0), PULDEHO_REFUSAL_INDEX);
    expect_limiter("the limiter now", puldeho_limiter_of(&world, 0), PULDEHO_LIMITER_FIXED, 5, UINT64_MAX);
    expect_limiter("of an absent gas", puldeho_limiter_of(&world, 1), 0, 0, 0);
    expect("a state is kept", puldeho_copy(&kept, &world), PULDEHO_ACCEPTED);
    expect("another load", puldeho_load(&world), PULDEHO_ACCEPTED);
    expect_limiter("the limiter after it", puldeho_limiter_of(&world, 0), PULDEHO_LIMITER_PRESENT, 0, 0);
    expect("the state comes back", puldeho_copy(&world, &kept), PULDEHO_ACCEPTED);
    expect_limiter("with its limiter", puldeho_limiter_of(&world, 0), PULDEHO_LIMITER_FIXED, 5, UINT64_MAX);
    limited_sweep(PULDEHO_LIMITER_PRESENT, 0, 150);
    limited_sweep(PULDEHO_LIMITER_POSITIVE, 0, 144);
    limited_sweep(PULDEHO_LIMITER_FIXED, (uint64_t)31 * PULDEHO_SCALE / 10, 148);
}

/* Lists of a wrong length, and of none. */
static void lengths(void)
{
    static const int32_t fluxes[4] = {0, 50, 0, 0};
    static const uint32_t table[4] = {0, 0, 0, 65536};
    struct puldeho_world world = first_world();
    struct puldeho_world narrow = world, empty = world, shorter = world;
    narrow.grid.w = 3;
    empty = puldeho_world_over(world.grid, NULL, 0, NULL, 0);
    shorter.air_length = CELLS - 1;
    expect("3 columns", puldeho_load(&narrow), PULDEHO_REFUSAL_GRID_RANGE);
    expect("no lists", puldeho_load(&empty), PULDEHO_REFUSAL_LENGTHS);
    expect("air too short", puldeho_emission(&shorter, 0, 0, 1), PULDEHO_REFUSAL_LENGTHS);
    expect("3 fluxes", puldeho_zonal(&world, 0, 0, fluxes, 3, NULL), PULDEHO_REFUSAL_LENGTHS);
    expect("half a table", puldeho_remap(&world, table, 2, NULL), PULDEHO_REFUSAL_LENGTHS);
}

/* Refusals of the call's own arguments. A refused call gives 0 for its count and changes nothing. */
static void refusals(void)
{
    static const int32_t emptying[4] = {0, 100, 0, 0}, beyond[4] = {0, 401, 0, 0};
    static const int32_t northward[8] = {100, 0, 0, 0, 0, 0, 0, 0};
    struct puldeho_world world = first_world();
    uint32_t substeps = 99;
    expect("load", puldeho_load(&world), PULDEHO_ACCEPTED);
    expect("cell 6", puldeho_emission(&world, 0, 6, 1), PULDEHO_REFUSAL_INDEX);
    expect("no such cell", puldeho_emission(&world, 0, puldeho_cell_number(world.grid, 0, 1, 0), 1), PULDEHO_REFUSAL_INDEX);
    expect("more than is there", puldeho_withdrawal(&world, 0, 3, 201), PULDEHO_REFUSAL_WITHDRAWAL);
    expect("a cell would empty", puldeho_zonal(&world, 0, 0, emptying, 4, &substeps), PULDEHO_REFUSAL_ZONAL);
    expect_number("its count", substeps, 0);
    expect("a flux above the row's air", puldeho_long_zonal(&world, 0, 0, beyond, 4), PULDEHO_REFUSAL_LONG_FLUX);
    expect("a cell would empty, long", puldeho_long_zonal(&world, 0, 0, emptying, 4), PULDEHO_REFUSAL_LONG_AIR);
    expect("the cap would empty", puldeho_meridional(&world, 0, northward, 8, &substeps), PULDEHO_REFUSAL_MERIDIONAL);
    expect_list("refusals, air after", air, first_air);
    expect_list("refusals, tracers after", tracers, first_tracers);
}

/* The remap's count: the column that the header writes out, six times. */
static void readout(void)
{
    uint32_t air[18], tracers[18] = {0}, overlaps = 0;
    const uint32_t table[8] = {0, 0, 150, 0, 200, 0, 0, 65536};
    struct puldeho_grid grid = {.w = 4, .r = 1, .k = 3, .n = 1};
    for (size_t i = 0; i < 18; i++)
        air[i] = 100;
    struct puldeho_world world = puldeho_world_over(grid, air, 18, tracers, 18);
    expect("load of three layers", puldeho_load(&world), PULDEHO_ACCEPTED);
    expect("remap", puldeho_remap(&world, table, 8, &overlaps), PULDEHO_ACCEPTED);
    expect_number("its count", overlaps, 24);
}

/* Lengths and cell numbers of a larger grid, and places that it has not; the most steps of a remap on two others. */
static void numbers(void)
{
    struct puldeho_grid grid = {6, 3, 2, 5}, largest = {72, 44, 32, 8}, small = {4, 1, 3, 1};
    expect_number("length of air", (uint32_t)puldeho_air_length(grid), 40);
    expect_number("length of tracers", (uint32_t)puldeho_tracers_length(grid), 200);
    expect_number("length of the ledger", (uint32_t)puldeho_ledger_length(grid), 5 * PULDEHO_LEDGER_BLOCK);
    expect_number("length of zonal fluxes", (uint32_t)puldeho_zonal_fluxes_length(grid), 6);
    expect_number("length of long zonal fluxes", (uint32_t)puldeho_long_zonal_fluxes_length(grid), 6);
    expect_number("length of meridional fluxes", (uint32_t)puldeho_meridional_fluxes_length(grid), 24);
    expect_number("length of a table", (uint32_t)puldeho_remap_table_length(grid), 6);
    expect_number("the most steps of a remap on the largest grid", (uint32_t)puldeho_most_remap_steps(largest), 1623040);
    expect_number("the most steps of a remap on a small grid", (uint32_t)puldeho_most_remap_steps(small), 36);
    expect_number("the last cell of the last row", puldeho_cell_number(grid, 1, 2, 5), 38);
    expect_number("a south cap", puldeho_south_cap(grid, 1), 20);
    expect_number("a north cap", puldeho_north_cap(grid, 1), 39);
    expect_number("an absent layer", puldeho_cell_number(grid, 2, 0, 0), PULDEHO_NO_CELL);
    expect_number("an absent row", puldeho_cell_number(grid, 0, 3, 0), PULDEHO_NO_CELL);
    expect_number("an absent column", puldeho_cell_number(grid, 0, 0, 6), PULDEHO_NO_CELL);
    expect_number("an absent south cap", puldeho_south_cap(grid, 2), PULDEHO_NO_CELL);
    expect_number("an absent north cap", puldeho_north_cap(grid, 2), PULDEHO_NO_CELL);
}

/* A state that is kept and brought back, emitters and all, between a ledger of the world's own and one of the program's, and
 * by a world made over no grid; lists of another length. */
static void copies(void)
{
    uint32_t kept_air[CELLS], kept_tracers[CELLS], ledger[PULDEHO_LEDGER_BLOCK] = {0};
    const struct puldeho_grid none = {0, 0, 0, 0};
    struct puldeho_world world = first_world();
    struct puldeho_world kept = puldeho_world_over(none, kept_air, CELLS, kept_tracers, CELLS);
    kept.ledger = ledger;
    kept.ledger_length = PULDEHO_LEDGER_BLOCK;
    expect("load", puldeho_load(&world), PULDEHO_ACCEPTED);
    expect("an emitter", puldeho_add_emitter(&world, 0, 3, 7, 40), PULDEHO_ACCEPTED);
    expect("a state is kept", puldeho_copy(&kept, &world), PULDEHO_ACCEPTED);
    expect("a withdrawal", puldeho_withdrawal(&world, 0, 3, 200), PULDEHO_ACCEPTED);
    expect_book("what was withdrawn", &world, 0, 400, 0, 200);
    expect("the emitter stops", puldeho_remove_emitter(&world, 0, 7), PULDEHO_ACCEPTED);
    expect("the state is brought back", puldeho_copy(&world, &kept), PULDEHO_ACCEPTED);
    expect_list("tracers after", tracers, first_tracers);
    expect_book("its book", &world, 0, 400, 0, 0);
    expect("the emitter stands again", puldeho_remove_emitter(&world, 0, 7), PULDEHO_ACCEPTED);
    kept = puldeho_world_over(none, kept_air, CELLS, kept_tracers, CELLS);
    expect("a state is kept again", puldeho_copy(&kept, &world), PULDEHO_ACCEPTED);
    expect("and is a world", puldeho_tick(&kept, 0), PULDEHO_ACCEPTED);
    kept.ledger = ledger;
    kept.ledger_length = PULDEHO_LEDGER_BLOCK - 1;
    expect("a ledger of another length", puldeho_copy(&kept, &world), PULDEHO_REFUSAL_LENGTHS);
    kept.ledger = NULL;
    kept.tracers_length = CELLS - 1;
    expect("lists of other lengths", puldeho_copy(&kept, &world), PULDEHO_REFUSAL_LENGTHS);
}

int main(void)
{
    numbers();
    copies();
    case_p();
    long_sweep();
    emitters();
    books();
    books_that_differ();
    full_sums();
    added_again();
    own_ledger();
    limiters();
    lengths();
    readout();
    refusals();
    return differences == 0 ? 0 : 1;
}
