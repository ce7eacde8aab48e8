/*
 * Why the library refuses a call in a world, in words: the calls puldeho_why_NAME of puldeho.h.
 * Plain C, not proved. It only reads; what it needs beside the lent lists is on the stack.
 *
 * One function stands here for each place of document 01's table of refusals and of document 02's. Each call lists its places in that
 * order, and the walk stops at the first that refuses. A place relies on the places before it in the list: lists are
 * read only where their lengths have passed, fluxes are passed on only where their sizes have.
 * A later refusal is one more place, a later call one more list of places.
 */
#include <stdarg.h>
#include <stdbool.h>
#include <stdint.h>
#include <stdio.h>
#include <string.h>

#include "puldeho.h"

/* A number that a macro stands for, as text. */
#define TEXT_OF(number) #number
#define NUMBER_TEXT(macro) TEXT_OF(macro)

enum {
    MOST_CELLS = 2 + PULDEHO_MOST_ROWS * PULDEHO_MOST_COLUMNS, /* of a layer */
    MOST_SWEEPS = 64 /* the most parts of a time step that are tried here */
};

/* The words so far. With size 0 nothing is written; else length is below size and a 0 stands after the words. */
struct text {
    char *start;
    size_t size, length;
};

/* A call with its own arguments; what it does not have is 0. */
struct call {
    const struct puldeho_world *world;
    uint32_t tracer, cell, amount, layer, row, id, units, given;
    struct puldeho_limiter limiter;
    const int32_t *fluxes;
    const uint32_t *table;
    size_t length; /* of fluxes or table */
};

/* A place gives its refusal and says why, or gives PULDEHO_ACCEPTED and says nothing. */
typedef enum puldeho_refusal place(const struct call *call, struct text *text);

/* Words. */

#ifdef __GNUC__
__attribute__((format(printf, 2, 3)))
#endif
static void say(struct text *text, const char *format, ...)
{
    if (text->size == 0)
        return;
    va_list values;
    va_start(values, format);
    int words = vsnprintf(text->start + text->length, text->size - text->length, format, values);
    va_end(values);
    if (words < 0)
        return;
    text->length += (size_t)words;
    if (text->length > text->size - 1)
        text->length = text->size - 1;
}

/* A cell numbered over all layers. */
static void say_cell(struct text *text, struct puldeho_grid grid, size_t cell)
{
    size_t layer = cell / puldeho_cells_in_layer(grid), place = cell % puldeho_cells_in_layer(grid);
    if (place == 0)
        say(text, "cell %zu (south cap of layer %zu)", cell, layer);
    else if (place == puldeho_cells_in_layer(grid) - 1)
        say(text, "cell %zu (north cap of layer %zu)", cell, layer);
    else
        say(text, "cell %zu (layer %zu, row %zu, column %zu)", cell, layer, (place - 1) / grid.w, (place - 1) % grid.w);
}

/* A number by value. A program with signed numbers may have meant a negative one. */
static void say_number(struct text *text, uint32_t number)
{
    say(text, "%lld", (long long)number);
    if (number > INT32_MAX)
        say(text, " (%lld, if the number was signed)", (long long)number - UINT32_MAX - 1);
}

/* A number of things, named by a noun that takes an s: "1 emitter", "2 emitters". */
static void say_counted(struct text *text, long long count, const char *noun)
{
    say(text, "%lld %s%s", count, noun, count == 1 ? "" : "s");
}

/* How far an amount of air is outside 1 to 65535; 0 if it is inside. */
static long long beyond(long long air)
{
    return air < 1 ? 1 - air : air > PULDEHO_AIR_LIMIT ? air - PULDEHO_AIR_LIMIT : 0;
}

/* 1: the grid. */

static enum puldeho_refusal grid_place(const struct call *call, struct text *text)
{
    const struct puldeho_grid grid = call->world->grid;
    const struct {
        const char *name;
        uint32_t value, least, most;
    } numbers[] = {
        {"W (columns)", grid.w, 4, PULDEHO_MOST_COLUMNS},
        {"R (rows)", grid.r, 1, PULDEHO_MOST_ROWS},
        {"K (layers)", grid.k, 1, PULDEHO_MOST_LAYERS},
        {"N (tracers)", grid.n, 1, PULDEHO_MOST_TRACERS},
    };
    size_t wrong = 0;
    for (size_t i = 0; i < 4; i++)
        if (numbers[i].value < numbers[i].least || numbers[i].value > numbers[i].most)
            say(text, "%s%s is %lld, it must be %lld to %lld", wrong++ == 0 ? "" : "; ", numbers[i].name,
                (long long)numbers[i].value, (long long)numbers[i].least, (long long)numbers[i].most);
    return wrong == 0 ? PULDEHO_ACCEPTED : PULDEHO_REFUSAL_GRID_RANGE;
}

/* 2: the lengths. */

/* `other` is the length that the other sweep's fluxes have; a list that is no sweep's has its own length there. */
static enum puldeho_refusal length(
    const struct call *call, struct text *text, const char *list, size_t has, size_t wants, size_t other, const char *formula)
{
    const struct puldeho_grid grid = call->world->grid;
    if (has == wants)
        return PULDEHO_ACCEPTED;
    say(text, "%s has length %zu, the grid wants %zu (%s; here W = %d, R = %d, K = %d, N = %d)", list, has, wants, formula,
        (int)grid.w, (int)grid.r, (int)grid.k, (int)grid.n);
    if (has == 0)
        say(text, "; was it set?");
    if (has == 4 * wants)
        say(text, "; a length counts numbers, not bytes");
    if (has == other)
        say(text, "; fluxes of the other sweep have that length");
    return PULDEHO_REFUSAL_LENGTHS;
}

static enum puldeho_refusal air_length_place(const struct call *call, struct text *text)
{
    const struct puldeho_world *world = call->world;
    return length(call, text, "air", world->air_length, puldeho_air_length(world->grid),
                  puldeho_air_length(world->grid), "K*C, where C = 2 + R*W");
}

static enum puldeho_refusal tracers_length_place(const struct call *call, struct text *text)
{
    const struct puldeho_world *world = call->world;
    size_t wants = puldeho_tracers_length(world->grid);
    return length(call, text, "tracers", world->tracers_length, wants, wants, "N*K*C, where C = 2 + R*W");
}

static enum puldeho_refusal ledger_length_place(const struct call *call, struct text *text)
{
    const struct puldeho_world *world = call->world;
    size_t wants = puldeho_ledger_length(world->grid);
    return length(call, text, "ledger", puldeho_lent_ledger_length(world), wants, wants,
                  "N*" NUMBER_TEXT(PULDEHO_LEDGER_BLOCK));
}

static enum puldeho_refusal zonal_length_place(const struct call *call, struct text *text)
{
    const struct puldeho_grid grid = call->world->grid;
    size_t wants = puldeho_zonal_fluxes_length(grid), other = puldeho_meridional_fluxes_length(grid);
    return length(call, text, "fluxes", call->length, wants, other, "W");
}

static enum puldeho_refusal meridional_length_place(const struct call *call, struct text *text)
{
    const struct puldeho_grid grid = call->world->grid;
    size_t wants = puldeho_meridional_fluxes_length(grid), other = puldeho_zonal_fluxes_length(grid);
    return length(call, text, "fluxes", call->length, wants, other, "W*(R + 1)");
}

static enum puldeho_refusal table_length_place(const struct call *call, struct text *text)
{
    size_t wants = puldeho_remap_table_length(call->world->grid);
    return length(call, text, "table", call->length, wants, wants, "2*(K + 1), an a and a b for each edge");
}

/* 3: air. */

static enum puldeho_refusal air_place(const struct call *call, struct text *text)
{
    const struct puldeho_world *world = call->world;
    size_t wrong = 0, first = 0;
    for (size_t cell = 0; cell < world->air_length; cell++)
        if (beyond(world->air[cell]) > 0 && wrong++ == 0)
            first = cell;
    if (wrong == 0)
        return PULDEHO_ACCEPTED;
    say_cell(text, world->grid, first);
    say(text, " has air %lld, it must be 1 to 65535; cells outside: %zu of %zu", (long long)world->air[first],
        wrong, world->air_length);
    return PULDEHO_REFUSAL_AIR_RANGE;
}

/* 4: the totals. */

/* At most 101,440 amounts of 32 bits. */
static long long total_of(const struct puldeho_world *world, size_t tracer)
{
    size_t cells = world->air_length;
    long long total = 0;
    for (size_t cell = 0; cell < cells; cell++)
        total += world->tracers[tracer * cells + cell];
    return total;
}

static enum puldeho_refusal totals_place(const struct call *call, struct text *text)
{
    for (size_t tracer = 0; tracer < call->world->grid.n; tracer++) {
        long long total = total_of(call->world, tracer);
        if (total > PULDEHO_TOTAL_LIMIT) {
            say(text, "tracer %zu has the total %lld, the limit is %d", tracer, total, PULDEHO_TOTAL_LIMIT);
            return PULDEHO_REFUSAL_TOTALS;
        }
    }
    return PULDEHO_ACCEPTED;
}

/* 5: the indices. */

static enum puldeho_refusal index_of(
    struct text *text, const char *name, uint32_t value, size_t count, const char *order)
{
    if (value < count)
        return PULDEHO_ACCEPTED;
    say(text, "there is no %s ", name);
    say_number(text, value);
    say(text, ", it may ");
    if (count == 1)
        say(text, "only be 0");
    else
        say(text, "be 0 to %zu%s", count - 1, order);
    return PULDEHO_REFUSAL_INDEX;
}

static enum puldeho_refusal tracer_place(const struct call *call, struct text *text)
{
    return index_of(text, "tracer", call->tracer, call->world->grid.n, "");
}

static enum puldeho_refusal cell_place(const struct call *call, struct text *text)
{
    enum puldeho_refusal refusal = index_of(text, "cell", call->cell, call->world->air_length, " over all layers");
    if (refusal != PULDEHO_ACCEPTED && call->cell == PULDEHO_NO_CELL)
        say(text, "; this number stands for an absent layer, row or column (PULDEHO_NO_CELL)");
    return refusal;
}

/* The cell of an emitter to be added. Four numbers stand in a row there, and an id may be any. */
static enum puldeho_refusal emitter_cell_place(const struct call *call, struct text *text)
{
    enum puldeho_refusal refusal = cell_place(call, text);
    if (refusal != PULDEHO_ACCEPTED && call->cell != PULDEHO_NO_CELL && call->id < call->world->air_length)
        say(text, "; the order is tracer, cell, id, units, and %lld was given as the id", (long long)call->id);
    return refusal;
}

static enum puldeho_refusal layer_place(const struct call *call, struct text *text)
{
    return index_of(text, "layer", call->layer, call->world->grid.k, " from the top down");
}

static enum puldeho_refusal row_place(const struct call *call, struct text *text)
{
    return index_of(text, "row", call->row, call->world->grid.r, " from south to north");
}

/* 6 and 7: emission and withdrawal. */

/* A sum of a tracer's book that has a limit: what was emitted, or withdrawn, since the load. */
struct sum {
    const char *done;
    long long units, room;
    size_t place; /* in the ledger */
};

/* Where a tracer's book stands in the ledger: after its emitters and the five numbers of its limiter. */
static size_t book_place(size_t tracer)
{
    return tracer * PULDEHO_LEDGER_BLOCK + 3 + 3 * PULDEHO_MOST_EMITTERS + 5;
}

static struct sum emitted_of(const struct call *call)
{
    long long units = puldeho_book_of(call->world, call->tracer).emitted;
    return (struct sum){"emitted", units, PULDEHO_SUM_LIMIT - units, book_place(call->tracer) + 1};
}

static struct sum withdrawn_of(const struct call *call)
{
    long long units = puldeho_book_of(call->world, call->tracer).withdrawn;
    return (struct sum){"withdrawn", units, PULDEHO_SUM_LIMIT - units, book_place(call->tracer) + 2};
}

static void say_sum(struct text *text, const struct call *call, struct sum sum)
{
    say(text, "since the load %lld units of tracer %lld were %s (number %zu of the ledger)", sum.units, (long long)call->tracer,
        sum.done, sum.place);
}

static void say_sum_room(struct text *text, struct sum sum)
{
    say(text, "; the sum may not pass %lld, so at most %lld can be %s until the next load", (long long)PULDEHO_SUM_LIMIT,
        sum.room, sum.done);
}

static void say_sums_anew(struct text *text)
{
    say(text, "; to go on, read the book and load again, then add the emitters and set the limiters anew");
}

/* What can be emitted: the total and the emitted sum each have room, and the one with less is named. */
struct room {
    long long total, units;
    struct sum emitted;
    bool by_sum;
};

static struct room room_of(const struct call *call)
{
    struct room room = {.total = total_of(call->world, call->tracer), .emitted = emitted_of(call)};
    room.units = PULDEHO_TOTAL_LIMIT - room.total;
    room.by_sum = room.emitted.room < room.units;
    if (room.by_sum)
        room.units = room.emitted.room;
    return room;
}

static void say_emitted(struct text *text, const struct call *call, struct room room)
{
    if (room.by_sum)
        say_sum(text, call, room.emitted);
    else
        say(text, "tracer %lld has the total %lld", (long long)call->tracer, room.total);
}

static void say_room(struct text *text, struct room room)
{
    if (room.by_sum)
        say_sum_room(text, room.emitted);
    else
        say(text, "; the limit is %d, so at most %lld can be emitted", PULDEHO_TOTAL_LIMIT, room.units);
}

static enum puldeho_refusal emission_place(const struct call *call, struct text *text)
{
    struct room room = room_of(call);
    if (call->amount <= room.units)
        return PULDEHO_ACCEPTED;
    say_emitted(text, call, room);
    say(text, " and the amount is ");
    say_number(text, call->amount);
    say_room(text, room);
    if (room.by_sum)
        say_sums_anew(text);
    return PULDEHO_REFUSAL_EMISSION;
}

/* The cell's amount or the withdrawn sum, whichever leaves less. */
static enum puldeho_refusal withdrawal_place(const struct call *call, struct text *text)
{
    const struct puldeho_world *world = call->world;
    long long has = world->tracers[call->tracer * world->air_length + call->cell];
    struct sum withdrawn = withdrawn_of(call);
    bool by_sum = withdrawn.room < has;
    if (call->amount <= (by_sum ? withdrawn.room : has))
        return PULDEHO_ACCEPTED;
    if (by_sum) {
        say_sum(text, call, withdrawn);
        say(text, " and the amount is ");
    } else {
        say_cell(text, world->grid, call->cell);
        say(text, " has %lld of tracer %lld, the amount is ", has, (long long)call->tracer);
    }
    say_number(text, call->amount);
    if (by_sum) {
        say_sum_room(text, withdrawn);
        say_sums_anew(text);
    }
    return PULDEHO_REFUSAL_WITHDRAWAL;
}

/* Emitters: 5 for a ledger that is not as it must be, 18, 19, and 6 for a tick. */

/* A tracer's part of the ledger. */
static const uint32_t *block_of(const struct puldeho_world *world, size_t tracer)
{
    return puldeho_lent_ledger(world) + tracer * PULDEHO_LEDGER_BLOCK;
}

/* Where the id of emitter i stands in a block; its cell and its units stand after it. */
static size_t entry(size_t i)
{
    return 3 + 3 * i;
}

static unsigned long long kept_sum(const uint32_t *block)
{
    return (unsigned long long)block[2] << 32 | block[1];
}

static unsigned long long sum_of_units(const uint32_t *block)
{
    unsigned long long sum = 0;
    for (size_t i = 0; i < block[0]; i++)
        sum += block[entry(i) + 2];
    return sum;
}

/* The first emitter from `from` on with the id; as many as stand if there is none. */
static size_t emitter_of(const uint32_t *block, uint32_t id, size_t from)
{
    while (from < block[0] && block[entry(from)] != id)
        from++;
    return from;
}

/* An emitter in an absent cell, or two of one id: says so and gives true. At most 16 stand. */
static bool say_wrong_emitter(struct text *text, const struct puldeho_world *world, size_t tracer)
{
    const uint32_t *block = block_of(world, tracer);
    size_t start = tracer * PULDEHO_LEDGER_BLOCK;
    for (size_t i = 0; i < block[0]; i++) {
        long long id = block[entry(i)], cell = block[entry(i) + 1];
        size_t twin = emitter_of(block, block[entry(i)], i + 1);
        if ((size_t)cell >= world->air_length)
            say(text, "emitter %zu of tracer %zu, id %lld, is in the absent cell %lld (number %zu of the ledger), "
                "cells are 0 to %zu", i, tracer, id, cell, start + entry(i) + 1, world->air_length - 1);
        else if (twin < block[0])
            say(text, "emitters %zu and %zu of tracer %zu both have the id %lld (numbers %zu and %zu of the ledger)",
                i, twin, tracer, id, start + entry(i), start + entry(twin));
        else
            continue;
        return true;
    }
    return false;
}

/* What is wrong with a tracer's part of the ledger: says so and gives true. */
static bool say_wrong_block(struct text *text, const struct puldeho_world *world, size_t tracer)
{
    const uint32_t *block = block_of(world, tracer);
    size_t start = tracer * PULDEHO_LEDGER_BLOCK;
    if (block[0] > PULDEHO_MOST_EMITTERS) {
        say(text, "tracer %zu has %lld emitters (number %zu of the ledger), at most %d may stand", tracer,
            (long long)block[0], start, PULDEHO_MOST_EMITTERS);
        return true;
    }
    if (say_wrong_emitter(text, world, tracer))
        return true;
    if (kept_sum(block) == sum_of_units(block))
        return false;
    say(text, "tracer %zu has the sum %llu (numbers %zu and %zu of the ledger), and the units of its ", tracer,
        kept_sum(block), start + 1, start + 2);
    say_counted(text, block[0], "emitter");
    say(text, " sum to %llu", sum_of_units(block));
    return true;
}

static enum puldeho_refusal ledger_place(const struct call *call, struct text *text)
{
    for (size_t tracer = 0; tracer < call->world->grid.n; tracer++)
        if (say_wrong_block(text, call->world, tracer)) {
            say(text, "; load again, which leaves no emitter standing, and add the emitters anew");
            return PULDEHO_REFUSAL_INDEX;
        }
    return PULDEHO_ACCEPTED;
}

/* A seventeenth emitter: where one stands in its cell the two could be one, and its units can be given by emission if they may. */
static void say_instead(struct text *text, const struct call *call)
{
    const uint32_t *block = block_of(call->world, call->tracer);
    for (size_t i = 0; i < block[0]; i++) {
        unsigned long long both = (unsigned long long)block[entry(i) + 2] + call->units;
        if (block[entry(i) + 1] == call->cell && both <= UINT32_MAX) {
            say(text, ", or remove id %lld, which is in cell %lld too, and add it again with the sum of the units, %llu",
                (long long)block[entry(i)], (long long)call->cell, both);
            return;
        }
    }
    if (call->units <= PULDEHO_TOTAL_LIMIT)
        say(text, ", or give the units of the new one by emission");
}

static enum puldeho_refusal added_place(const struct call *call, struct text *text)
{
    const uint32_t *block = block_of(call->world, call->tracer);
    size_t i = emitter_of(block, call->id, 0);
    if (i < block[0]) {
        say(text, "tracer %lld already has the id ", (long long)call->tracer);
        say_number(text, call->id);
        say(text, ": emitter %zu, in ", i);
        say_cell(text, call->world->grid, block[entry(i) + 1]);
        say(text, ", of ");
        say_counted(text, block[entry(i) + 2], "unit");
        say(text, " a tick; to change it, remove it and add it again");
        return PULDEHO_REFUSAL_EMITTER_ADDED;
    }
    if (block[0] < PULDEHO_MOST_EMITTERS)
        return PULDEHO_ACCEPTED;
    say(text, "tracer %lld has %d emitters, no more may stand; remove one that has closed", (long long)call->tracer,
        PULDEHO_MOST_EMITTERS);
    say_instead(text, call);
    return PULDEHO_REFUSAL_EMITTER_ADDED;
}

/* The ids that stand for the tracer, and the other tracers for which this one does. */
static void say_ids(struct text *text, const struct call *call)
{
    const uint32_t *block = block_of(call->world, call->tracer);
    if (block[0] == 0)
        say(text, "; it has no emitters, as after a load");
    for (size_t i = 0; i < block[0]; i++)
        say(text, "%s%lld", i == 0 ? "; it has the ids " : ", ", (long long)block[entry(i)]);
    for (size_t tracer = 0; tracer < call->world->grid.n; tracer++) {
        const uint32_t *other = block_of(call->world, tracer);
        if (emitter_of(other, call->id, 0) < other[0])
            say(text, "; tracer %zu has that id", tracer);
    }
}

static enum puldeho_refusal absent_place(const struct call *call, struct text *text)
{
    const uint32_t *block = block_of(call->world, call->tracer);
    if (emitter_of(block, call->id, 0) < block[0])
        return PULDEHO_ACCEPTED;
    say(text, "tracer %lld has no emitter of the id ", (long long)call->tracer);
    say_number(text, call->id);
    say_ids(text, call);
    return PULDEHO_REFUSAL_EMITTER_ABSENT;
}

/* The emitter of the most units; at least one stands. */
static void say_largest(struct text *text, const uint32_t *block)
{
    size_t largest = 0;
    for (size_t i = 1; i < block[0]; i++)
        if (block[entry(i) + 2] > block[entry(largest) + 2])
            largest = i;
    say(text, "; the largest is id %lld, of ", (long long)block[entry(largest)]);
    say_number(text, block[entry(largest) + 2]);
    say(text, block[entry(largest) + 2] == 1 ? " unit a tick" : " units a tick");
}

static enum puldeho_refusal tick_place(const struct call *call, struct text *text)
{
    const uint32_t *block = block_of(call->world, call->tracer);
    long long units = (long long)kept_sum(block);
    struct room room = room_of(call);
    if (units <= room.units)
        return PULDEHO_ACCEPTED;
    say_emitted(text, call, room);
    say(text, " and a tick gives %lld, the units of ", units);
    say_counted(text, block[0], "emitter");
    say_room(text, room);
    say(text, ", and nothing was");
    if (room.by_sum)
        say_sums_anew(text);
    else
        say_largest(text, block);
    return PULDEHO_REFUSAL_EMISSION;
}

/* 21: the limiters, those that stand, and the one to be set. */

static bool is_limiter(uint32_t number)
{
    return PULDEHO_LIMITER_PRESENT <= number && number <= PULDEHO_LIMITER_FIXED;
}

static bool fits(struct puldeho_limiter limiter)
{
    return is_limiter(limiter.number) && limiter.lo <= limiter.hi;
}

/* A bound. A program with signed numbers may have meant a negative one. */
static void say_bound(struct text *text, uint64_t bound)
{
    say(text, "%llu", (unsigned long long)bound);
    if (bound > INT64_MAX)
        say(text, " (-%llu, if the number was signed)", (unsigned long long)(UINT64_MAX - bound) + 1);
}

/* Whether the ledger is what a world has before its first load. */
static bool never_loaded(const struct puldeho_world *world)
{
    for (size_t i = 0; i < puldeho_ledger_length(world->grid); i++)
        if (puldeho_lent_ledger(world)[i] != 0)
            return false;
    return true;
}

/* A limiter in the ledger that does not fit, and what mends it. */
static void say_standing(struct text *text, const struct puldeho_world *world, size_t tracer)
{
    struct puldeho_limiter limiter = puldeho_limiter_of(world, (uint32_t)tracer);
    size_t place = tracer * PULDEHO_LEDGER_BLOCK + entry(PULDEHO_MOST_EMITTERS);
    if (never_loaded(world)) {
        say(text, "no tracer has a limiter, as the ledger is all zeros: no load was made; load the world first");
        return;
    }
    if (limiter.number == 0) {
        say(text, "tracer %zu has no limiter (number %zu of the ledger is 0): no load was made, or the ledger was overwritten; "
            "load the world, then add the emitters and set the limiters", tracer, place);
        return;
    }
    say(text, "tracer %zu has the limiter %lld", tracer, (long long)limiter.number);
    if (!is_limiter(limiter.number))
        say(text, " (number %zu of the ledger), which is none of 1, 2 and 3", place);
    else
        say(text, " with lo %llu above hi %llu (numbers %zu to %zu of the ledger)", (unsigned long long)limiter.lo,
            (unsigned long long)limiter.hi, place + 1, place + 4);
    say(text, "; the ledger was written by something else than calls: load again, then add the emitters and set the limiters anew");
}

static enum puldeho_refusal limiters_place(const struct call *call, struct text *text)
{
    for (size_t tracer = 0; tracer < call->world->grid.n; tracer++)
        if (!fits(puldeho_limiter_of(call->world, (uint32_t)tracer))) {
            say_standing(text, call->world, tracer);
            return PULDEHO_REFUSAL_LIMITERS;
        }
    return PULDEHO_ACCEPTED;
}

/* The two numbers before the bounds are easily exchanged: says so if the other way round they are a limiter and a tracer. */
static void say_limiter_order(struct text *text, const struct call *call)
{
    if (is_limiter(call->tracer) && call->limiter.number < call->world->grid.n)
        say(text, "; the order is tracer, limiter, lo, hi, and %lld was given as the tracer, %lld as the limiter",
            (long long)call->tracer, (long long)call->limiter.number);
}

/* The tracer whose limiter is to be set. */
static enum puldeho_refusal limiter_tracer_place(const struct call *call, struct text *text)
{
    enum puldeho_refusal refusal = tracer_place(call, text);
    if (refusal != PULDEHO_ACCEPTED)
        say_limiter_order(text, call);
    return refusal;
}

static enum puldeho_refusal limiter_place(const struct call *call, struct text *text)
{
    struct puldeho_limiter limiter = call->limiter;
    if (fits(limiter))
        return PULDEHO_ACCEPTED;
    if (!is_limiter(limiter.number)) {
        say(text, "there is no limiter ");
        say_number(text, limiter.number);
        say(text, ", it may be 1 (present), 2 (positive) or 3 (fixed)");
        say_limiter_order(text, call);
        return PULDEHO_REFUSAL_LIMITERS;
    }
    say(text, "lo is ");
    say_bound(text, limiter.lo);
    say(text, " and above hi, which is ");
    say_bound(text, limiter.hi);
    if (limiter.number == PULDEHO_LIMITER_FIXED)
        say(text, "; lo must be at most hi, and both are mixing ratios times %d", PULDEHO_SCALE);
    else
        say(text, "; limiter %lld does not read them: give 0 and 0", (long long)limiter.number);
    return PULDEHO_REFUSAL_LIMITERS;
}

/* 22: the books. */

/* A book that is not what its tracer's cells sum to, and what mends it. */
static void say_book(struct text *text, const struct puldeho_world *world, size_t tracer, long long booked, long long total)
{
    struct puldeho_book book = puldeho_book_of(world, (uint32_t)tracer);
    if (never_loaded(world)) {
        say(text, "tracer %zu has the total %lld and no book, as the ledger is all zeros: no load was made; load the world first",
            tracer, total);
        return;
    }
    say(text, "the book of tracer %zu has %lld loaded, %lld emitted and %lld withdrawn (numbers %zu to %zu of the ledger), which "
        "makes %lld, and its cells sum to %lld, %lld %s", tracer, (long long)book.loaded, (long long)book.emitted,
        (long long)book.withdrawn, book_place(tracer), book_place(tracer) + 2, booked, total,
        total > booked ? total - booked : booked - total, total > booked ? "more" : "less");
    say(text, "; tracers or ledger were written by something else than calls: load again, then add the emitters and set the limiters "
        "anew, or bring back tracers and ledger together");
}

static enum puldeho_refusal books_place(const struct call *call, struct text *text)
{
    for (size_t tracer = 0; tracer < call->world->grid.n; tracer++) {
        struct puldeho_book book = puldeho_book_of(call->world, (uint32_t)tracer);
        long long booked = book.loaded + book.emitted - book.withdrawn, total = total_of(call->world, tracer);
        if (booked != total) {
            say_book(text, call->world, tracer, booked, total);
            return PULDEHO_REFUSAL_BOOKS;
        }
    }
    return PULDEHO_ACCEPTED;
}

/* The cells and faces of a sweep: a row closed round the globe (zonal, long), or a layer with its caps (meridional). */
struct mesh {
    const struct puldeho_world *world;
    const int32_t *fluxes;
    bool caps;
    const char *name;
    size_t columns, faces, cells;
    size_t first; /* its first cell, numbered over all layers */
    long long most_flux;
    int most_substeps; /* 0 for a long sweep, which has none */
};

static struct mesh row_of(const struct call *call)
{
    struct puldeho_grid grid = call->world->grid;
    size_t first = call->layer * puldeho_cells_in_layer(grid) + 1 + (size_t)call->row * grid.w;
    struct mesh row = {call->world, call->fluxes, false, "row", grid.w, grid.w, grid.w, first,
                       PULDEHO_ZONAL_LIMIT, PULDEHO_MOST_SUBSTEPS};
    return row;
}

static struct mesh long_row_of(const struct call *call)
{
    struct mesh row = row_of(call);
    row.most_substeps = 0;
    return row;
}

static struct mesh layer_of(const struct call *call)
{
    struct puldeho_grid grid = call->world->grid;
    size_t first = call->layer * puldeho_cells_in_layer(grid);
    struct mesh layer = {call->world, call->fluxes, true, "layer", grid.w, puldeho_meridional_fluxes_length(grid),
                         puldeho_cells_in_layer(grid), first, PULDEHO_MERIDIONAL_LIMIT, 1};
    return layer;
}

/* The cell west or south of a face. */
static size_t low_side(const struct mesh *mesh, size_t face)
{
    if (!mesh->caps)
        return face;
    return face < mesh->columns ? 0 : 1 + face - mesh->columns;
}

/* The cell east or north of a face. */
static size_t high_side(const struct mesh *mesh, size_t face)
{
    if (!mesh->caps)
        return face + 1 == mesh->columns ? 0 : face + 1;
    return 1 + face < mesh->cells ? 1 + face : mesh->cells - 1;
}

static bool is_cap(const struct mesh *mesh, size_t cell)
{
    return mesh->caps && (cell == 0 || cell == mesh->cells - 1);
}

/* 8: the fluxes. */

static void say_face(struct text *text, const struct mesh *mesh, size_t face)
{
    size_t g = face / mesh->columns, column = face % mesh->columns;
    if (!mesh->caps)
        say(text, "flux %zu (between columns %zu and %zu)", face, face, high_side(mesh, face));
    else if (g == 0)
        say(text, "flux %zu (column %zu, between the south cap and row 0)", face, column);
    else if (g == mesh->world->grid.r)
        say(text, "flux %zu (column %zu, between row %zu and the north cap)", face, column, g - 1);
    else
        say(text, "flux %zu (column %zu, between rows %zu and %zu)", face, column, g - 1, g);
}

/* -2^31 has the size 2^31. */
static long long size_of(int32_t flux)
{
    return flux < 0 ? -(long long)flux : flux;
}

/* How many fluxes have a size above the most, and the first of them. */
static size_t fluxes_above(const struct mesh *mesh, long long most, size_t *first)
{
    size_t above = 0;
    for (size_t face = 0; face < mesh->faces; face++)
        if (size_of(mesh->fluxes[face]) > most && above++ == 0)
            *first = face;
    return above;
}

static enum puldeho_refusal fluxes_of(const struct mesh *mesh, struct text *text)
{
    size_t first = 0, wrong = fluxes_above(mesh, mesh->most_flux, &first);
    if (wrong == 0)
        return PULDEHO_ACCEPTED;
    say_face(text, mesh, first);
    say(text, " is %lld, its size must be at most %lld; fluxes above: %zu of %zu", (long long)mesh->fluxes[first],
        mesh->most_flux, wrong, mesh->faces);
    return PULDEHO_REFUSAL_FLUXES;
}

static enum puldeho_refusal zonal_fluxes_place(const struct call *call, struct text *text)
{
    struct mesh row = row_of(call);
    return fluxes_of(&row, text);
}

static enum puldeho_refusal meridional_fluxes_place(const struct call *call, struct text *text)
{
    struct mesh layer = layer_of(call);
    return fluxes_of(&layer, text);
}

/* 9 and 10: substeps and sweeps, in air alone. Air and outflow are below 5,000,000 in size: 72 faces of 65,535. */

/* One substep: each cell's air before it, its outflow, its air afterwards. */
struct substep {
    int32_t air[MOST_CELLS], outflow[MOST_CELLS], after[MOST_CELLS];
};

/* Part s of count of a flux. */
static int32_t part_of(int32_t flux, int s, int count)
{
    int32_t size = flux < 0 ? -flux : flux;
    int32_t part = s * size / count - (s - 1) * size / count;
    return flux < 0 ? -part : part;
}

static void world_air(const struct mesh *mesh, int32_t *air)
{
    for (size_t cell = 0; cell < mesh->cells; cell++)
        air[cell] = (int32_t)mesh->world->air[mesh->first + cell];
}

/* Outflow and air afterwards, by part s of count of the fluxes. */
static void make_substep(const struct mesh *mesh, int s, int count, struct substep *step)
{
    memset(step->outflow, 0, mesh->cells * sizeof step->outflow[0]);
    memcpy(step->after, step->air, mesh->cells * sizeof step->air[0]);
    for (size_t face = 0; face < mesh->faces; face++) {
        size_t low = low_side(mesh, face), high = high_side(mesh, face);
        int32_t flux = part_of(mesh->fluxes[face], s, count);
        step->after[low] -= flux;
        step->after[high] += flux;
        if (flux > 0)
            step->outflow[low] += flux;
        else
            step->outflow[high] -= flux;
    }
}

static bool refuses(const struct substep *step, size_t cell)
{
    return step->outflow[cell] > step->air[cell] || beyond(step->after[cell]) > 0;
}

static bool allowed(const struct mesh *mesh, const struct substep *step)
{
    for (size_t cell = 0; cell < mesh->cells; cell++)
        if (refuses(step, cell))
            return false;
    return true;
}

/* Makes substeps from step->air: the number of the first that is not allowed, or 0 if the count serves. */
static int refused_substep(const struct mesh *mesh, int count, struct substep *step)
{
    for (int s = 1; s <= count; s++) {
        make_substep(mesh, s, count, step);
        if (!allowed(mesh, step))
            return s;
        memcpy(step->air, step->after, mesh->cells * sizeof step->air[0]);
    }
    return 0;
}

/* One sweep of `air` with the smallest count that serves, which it gives; 0 if none does. `step` is room for its substeps. */
static int sweep(const struct mesh *mesh, int32_t *air, struct substep *step)
{
    for (int count = 1; count <= mesh->most_substeps; count++) {
        memcpy(step->air, air, mesh->cells * sizeof air[0]);
        if (refused_substep(mesh, count, step) == 0) {
            memcpy(air, step->air, mesh->cells * sizeof air[0]);
            return count;
        }
    }
    return 0;
}

static void cut_fluxes(const struct mesh *mesh, int s, int sweeps, int32_t *parts)
{
    for (size_t face = 0; face < mesh->faces; face++)
        parts[face] = part_of(mesh->fluxes[face], s, sweeps);
}

/* Whether the fluxes are accepted as so many sweeps of their parts, one after another. One sweep is the call. */
static bool accepted_as(const struct mesh *mesh, int sweeps, struct substep *step)
{
    int32_t air[MOST_CELLS], parts[PULDEHO_MOST_COLUMNS * (PULDEHO_MOST_ROWS + 1)];
    struct mesh cut = *mesh;
    cut.fluxes = parts;
    world_air(mesh, air);
    for (int s = 1; s <= sweeps; s++) {
        cut_fluxes(mesh, s, sweeps, parts);
        if (sweep(&cut, air, step) == 0)
            return false;
    }
    return true;
}

/* The smallest number of sweeps from 2 on that serves, or 0 if none up to 64 does. */
static int smallest_cut(const struct mesh *mesh, struct substep *step)
{
    for (int sweeps = 2; sweeps <= MOST_SWEEPS; sweeps++)
        if (accepted_as(mesh, sweeps, step))
            return sweeps;
    return 0;
}

/* All of the fluxes at once. */
static void whole_sweep(const struct mesh *mesh, struct substep *whole)
{
    world_air(mesh, whole->air);
    make_substep(mesh, 1, 1, whole);
}

/* What a substep or the whole sweep does in the cells. */
struct tally {
    size_t refusing, low, high; /* cells that refuse; that end with 0 or less; that end above 65535 */
    size_t worst_end;           /* the cell that ends farthest outside 1 to 65535 */
    size_t worst_outflow;       /* the cell with the greatest outflow for its air */
};

/* Farther outside 1 to 65535; but a cap that ends outside comes first, as the fewest ways help it. */
static bool is_worse_end(const struct mesh *mesh, const struct substep *step, size_t cell, size_t than)
{
    long long one = beyond(step->after[cell]), other = beyond(step->after[than]);
    bool cap = is_cap(mesh, cell) && one > 0, other_cap = is_cap(mesh, than) && other > 0;
    return cap != other_cap ? cap : one > other;
}

static struct tally tally_of(const struct mesh *mesh, const struct substep *step)
{
    struct tally tally = {0, 0, 0, 0, 0};
    for (size_t cell = 0; cell < mesh->cells; cell++) {
        size_t out = tally.worst_outflow;
        tally.refusing += refuses(step, cell);
        tally.low += step->after[cell] < 1;
        tally.high += step->after[cell] > PULDEHO_AIR_LIMIT;
        if (is_worse_end(mesh, step, cell, tally.worst_end))
            tally.worst_end = cell;
        if ((long long)step->outflow[cell] * step->air[out] > (long long)step->outflow[out] * step->air[cell])
            tally.worst_outflow = cell;
    }
    return tally;
}

/* A cell in the whole sweep, with its Courant number in hundredths, rounded up: what exceeds the air is above 1.00. */
static void say_courant(struct text *text, const struct mesh *mesh, const struct substep *whole, size_t cell)
{
    long long air = whole->air[cell], outflow = whole->outflow[cell], hundredths = (100 * outflow + air - 1) / air;
    say_cell(text, mesh->world->grid, mesh->first + cell);
    say(text, " has air %lld, its outflow %lld", air, outflow);
    if (is_cap(mesh, cell))
        say(text, ", the sum through its %zu faces,", mesh->columns);
    say(text, " is %lld.%02lld times its air, and it would end with air %lld", hundredths / 100, hundredths % 100,
        (long long)whole->after[cell]);
}

/* A cell in a long sweep, whose outflow may be many times its air. */
static void say_balance(struct text *text, const struct mesh *mesh, const struct substep *whole, size_t cell)
{
    long long air = whole->air[cell], outflow = whole->outflow[cell], after = whole->after[cell];
    say_cell(text, mesh->world->grid, mesh->first + cell);
    say(text, " has air %lld, %lld come in and %lld go out, and it would end with air %lld", air, after - air + outflow,
        outflow, after);
}

/*
 * Some cell would end outside 1 to 65535. Parts of the fluxes sum to the fluxes, so that they end there too, unless a
 * remap or the sweeps in the other direction, which do not reach a cap, bring the air back.
 */
static void say_end(struct text *text, const struct mesh *mesh, const struct substep *whole, struct tally tally)
{
    size_t cell = tally.worst_end;
    bool cap = is_cap(mesh, cell), layers = mesh->world->grid.k > 1;
    if (mesh->most_substeps == 0)
        say_balance(text, mesh, whole, cell);
    else
        say_courant(text, mesh, whole, cell);
    say(text, "; of the %s's %zu cells", mesh->name, mesh->cells);
    if (mesh->most_substeps == 1)
        say(text, " %zu would be refused,", tally.refusing);
    say(text, " %zu would end with 0 or less and %zu above 65535; %sparts of this sweep alone end at the same air: ",
        tally.low, tally.high, mesh->most_substeps > 1 ? "no count helps, and " : "");
    if (!cap || layers)
        say(text, "if %s%s%s can bring the air back, make %s first, or the whole step in smaller ones; if not, ",
            cap ? "" : mesh->caps ? "the zonal sweeps" : "the meridional sweep", !cap && layers ? " or " : "",
            layers ? "a remap" : "", !cap && mesh->caps ? "those" : "that");
    say(text, "the fluxes themselves must %s less at this %s", whole->after[cell] < 1 ? "diverge" : "converge",
        cap ? "cap" : "cell");
}

static long long row_air(const struct mesh *row)
{
    long long sum = 0;
    for (size_t cell = 0; cell < row->cells; cell++)
        sum += row->world->air[row->first + cell];
    return sum;
}

/* Whether a smaller time step helps, or the long sweep. Only asked if every cell ends in 1 to 65535. */
static void say_cut(struct text *text, const struct mesh *mesh, struct substep *step)
{
    int m = smallest_cut(mesh, step);
    say(text, "; every cell of the %s would end within 1 to 65535, ", mesh->name);
    if (m == 0)
        say(text, "but cut into any number of sweeps from 2 to %d the fluxes are refused too; more sweeps were not tried",
            MOST_SWEEPS);
    else
        say(text, "so a smaller time step helps: cut into %d sweeps, all are accepted "
            "(part s of %d of a flux F is floor(s*|F|/%d) - floor((s - 1)*|F|/%d), with the sign of F)", m, m, m, m);
    size_t first;
    if (!mesh->caps && fluxes_above(mesh, row_air(mesh), &first) == 0)
        say(text, "; the library's long zonal sweep takes the fluxes whole, and gives other amounts of tracer");
}

/*
 * Every cell would end inside. Then in each refused substep it is an outflow that exceeds the air: a cell of two faces,
 * whose parts are rounded alike, has air between start and end after every substep, and a layer has one substep.
 */
static void say_outflow(struct text *text, const struct mesh *mesh, struct substep *step)
{
    world_air(mesh, step->air);
    int s = refused_substep(mesh, mesh->most_substeps, step);
    struct tally tally = tally_of(mesh, step);
    size_t cell = tally.worst_outflow;
    long long outflow = step->outflow[cell], air = step->air[cell];
    whole_sweep(mesh, step);
    say_courant(text, mesh, step, cell);
    if (mesh->most_substeps == 1)
        say(text, "; of the layer's %zu cells %zu would be refused, with more outflow than air", mesh->cells,
            tally.refusing);
    else
        say(text, "; with %d substeps it refuses first in substep %d, where its outflow is %lld and its air %lld",
            mesh->most_substeps, s, outflow, air);
}

/* The place of a sweep. */
static enum puldeho_refusal sweep_of(const struct mesh *mesh, enum puldeho_refusal refusal, struct text *text)
{
    struct substep step;
    if (accepted_as(mesh, 1, &step))
        return PULDEHO_ACCEPTED;
    whole_sweep(mesh, &step);
    struct tally tally = tally_of(mesh, &step);
    if (tally.low + tally.high > 0) {
        say_end(text, mesh, &step, tally);
    } else {
        say_outflow(text, mesh, &step);
        say_cut(text, mesh, &step);
    }
    return refusal;
}

static enum puldeho_refusal zonal_place(const struct call *call, struct text *text)
{
    struct mesh row = row_of(call);
    return sweep_of(&row, PULDEHO_REFUSAL_ZONAL, text);
}

static enum puldeho_refusal meridional_place(const struct call *call, struct text *text)
{
    struct mesh layer = layer_of(call);
    return sweep_of(&layer, PULDEHO_REFUSAL_MERIDIONAL, text);
}

/* 20: the given count. */

/* What is to be said of a count that is not the smallest. */
static const char *given_words(const struct mesh *row, uint32_t given, struct substep *step)
{
    if (given == 0)
        return ", as a refused call gives";
    if (given > (uint32_t)row->most_substeps)
        return ", more than any sweep takes";
    world_air(row, step->air);
    return refused_substep(row, (int)given, step) == 0 ? ", which serves too and is not the smallest" : ", which does not serve";
}

static enum puldeho_refusal given_place(const struct call *call, struct text *text)
{
    struct substep step;
    int32_t air[PULDEHO_MOST_COLUMNS];
    struct mesh row = row_of(call);
    world_air(&row, air);
    int smallest = sweep(&row, air, &step);
    if (call->given == (uint32_t)smallest)
        return PULDEHO_ACCEPTED;
    say(text, "the sweep of layer %lld, row %lld takes ", (long long)call->layer, (long long)call->row);
    say_counted(text, smallest, "substep");
    say(text, " now, and the given count is ");
    say_number(text, call->given);
    say(text, "%s; see that layer, row and fluxes are those that were counted, then count again with count_zonal and look at the "
        "new count", given_words(&row, call->given, &step));
    return PULDEHO_REFUSAL_GIVEN_COUNT;
}

/* 16 and 17: the long sweep. */

/*
 * The row's air through every face is a whole turn, which brings every cell back. If all cells end with 1 or more, two
 * fluxes differ by less than the row's air, so that some number of whole turns leaves every flux within it.
 */
static void say_turn(struct text *text, const struct mesh *row, long long turn)
{
    long long least = 0, most = 0;
    for (size_t face = 0; face < row->faces; face++) {
        long long flux = row->fluxes[face];
        least = face == 0 || flux < least ? flux : least;
        most = face == 0 || flux > most ? flux : most;
    }
    long long turns = most > turn ? (most - 1) / turn : -((-least - 1) / turn);
    say(text, "; a whole turn brings every cell back: with %lld %s every flux the sweep is accepted and ends the same",
        turns < 0 ? -turns * turn : turns * turn, turns < 0 ? "added to" : "taken off");
}

static enum puldeho_refusal long_flux_place(const struct call *call, struct text *text)
{
    struct mesh row = long_row_of(call);
    long long turn = row_air(&row);
    size_t first = 0, wrong = fluxes_above(&row, turn, &first);
    struct substep step;
    if (wrong == 0)
        return PULDEHO_ACCEPTED;
    say_face(text, &row, first);
    say(text, " is %lld, its size must be at most the row's air, %lld; fluxes above: %zu of %zu",
        (long long)row.fluxes[first], turn, wrong, row.faces);
    whole_sweep(&row, &step);
    struct tally tally = tally_of(&row, &step);
    if (tally.low + tally.high == 0) {
        say_turn(text, &row, turn);
        return PULDEHO_REFUSAL_LONG_FLUX;
    }
    say(text, "; and ");
    say_end(text, &row, &step, tally);
    return PULDEHO_REFUSAL_LONG_FLUX;
}

static enum puldeho_refusal long_air_place(const struct call *call, struct text *text)
{
    struct mesh row = long_row_of(call);
    struct substep step;
    whole_sweep(&row, &step);
    struct tally tally = tally_of(&row, &step);
    if (tally.low + tally.high == 0)
        return PULDEHO_ACCEPTED;
    say_end(text, &row, &step, tally);
    return PULDEHO_REFUSAL_LONG_AIR;
}

/* 11: the table. */

/* What is wrong with pair j of K + 1, or null. */
static const char *wrong_pair(const uint32_t *pair, size_t j, size_t k)
{
    if (j == 0 && (pair[0] != 0 || pair[1] != 0))
        return "the first pair must be (0, 0)";
    if (j == k && (pair[0] != 0 || pair[1] != PULDEHO_TABLE_SCALE))
        return "the last pair must be (0, 65536)";
    if (pair[0] > PULDEHO_TABLE_LIMIT)
        return "an a may be 0 to 2097120";
    if (pair[1] > PULDEHO_TABLE_SCALE)
        return "a b may be 0 to 65536";
    return NULL;
}

static enum puldeho_refusal table_place(const struct call *call, struct text *text)
{
    size_t k = call->world->grid.k;
    for (size_t j = 0; j <= k; j++) {
        const uint32_t *pair = call->table + 2 * j;
        const char *wrong = wrong_pair(pair, j, k);
        if (wrong != NULL) {
            say(text, "pair %zu of 0 to %zu is (%lld, %lld), %s", j, k, (long long)pair[0], (long long)pair[1], wrong);
            return PULDEHO_REFUSAL_TABLE;
        }
    }
    return PULDEHO_ACCEPTED;
}

/* 12: the remap. */

/* New layer j of the column over a cell of a layer: the air between edge j and edge j + 1. */
struct new_layer {
    size_t column, j;
    long long p, upper, lower;
};

static long long new_air(struct new_layer layer)
{
    return layer.lower - layer.upper;
}

static long long column_air(const struct puldeho_world *world, size_t column)
{
    long long p = 0;
    for (size_t layer = 0; layer < world->grid.k; layer++)
        p += world->air[layer * puldeho_cells_in_layer(world->grid) + column];
    return p;
}

static long long edge_of(const uint32_t *table, size_t j, long long p)
{
    return table[2 * j] + table[2 * j + 1] * p / PULDEHO_TABLE_SCALE;
}

/* The new layer of a column that is farthest outside 1 to 65535, or any if none is. */
static struct new_layer worst_layer(const struct call *call, size_t column)
{
    long long p = column_air(call->world, column);
    struct new_layer worst = {column, 0, p, edge_of(call->table, 0, p), edge_of(call->table, 1, p)};
    for (size_t j = 1; j < call->world->grid.k; j++) {
        struct new_layer layer = {column, j, p, edge_of(call->table, j, p), edge_of(call->table, j + 1, p)};
        if (beyond(new_air(layer)) > beyond(new_air(worst)))
            worst = layer;
    }
    return worst;
}

/* Farther outside, or as far in a column of less air. */
static bool is_worse(struct new_layer layer, struct new_layer than)
{
    long long one = beyond(new_air(layer)), other = beyond(new_air(than));
    return one > other || (one == other && layer.p < than.p);
}

static void say_column(struct text *text, struct puldeho_grid grid, size_t column)
{
    if (column == 0)
        say(text, "in the column of the south cap");
    else if (column == puldeho_cells_in_layer(grid) - 1)
        say(text, "in the column of the north cap");
    else
        say(text, "in the column at row %zu, column %zu", (column - 1) / grid.w, (column - 1) % grid.w);
}

/* Changes of b from one pair to the next. */
struct changes {
    long long least, most;
};

/*
 * The changes of b that are sure to give a layer 1 to 65535 in every column, where a changes by so much: a change d gives
 * floor(d*P/65536) or one unit more, so that d*P/65536 must be 1 - a or more, and less than 65535 - a; 0 gives nothing.
 */
static struct changes sure_changes(const struct call *call, long long a)
{
    struct changes sure = {0, PULDEHO_TABLE_SCALE};
    for (size_t column = 0; column < puldeho_cells_in_layer(call->world->grid); column++) {
        long long p = column_air(call->world, column);
        long long least = ((1 - a) * PULDEHO_TABLE_SCALE + p - 1) / p;
        long long most = a > PULDEHO_AIR_LIMIT ? -1 : ((PULDEHO_AIR_LIMIT - a) * PULDEHO_TABLE_SCALE - 1) / p;
        sure.least = least > sure.least ? least : sure.least;
        sure.most = most < sure.most ? most : sure.most;
    }
    return sure;
}

static void say_remedy(struct text *text, const struct call *call, size_t j)
{
    const uint32_t *pair = call->table + 2 * j;
    long long a = (long long)pair[2] - pair[0], b = (long long)pair[3] - pair[1];
    struct changes sure = sure_changes(call, a);
    say(text, "; from pair %zu to pair %zu a changes by %lld and b by %lld: ", j, j + 1, a, b);
    if (sure.least <= sure.most)
        say(text, "with a change of b from %lld to %lld every column would have 1 to 65535 there "
            "(move the b of either pair; the pairs beyond must still rise)", sure.least, sure.most);
    else if (a != 0)
        say(text, "no change of b serves every column with this change of a, which is an amount of air and the same in "
            "every column");
    else
        say(text, "no change of b serves every column, as their air is too uneven for so thin a layer");
}

static enum puldeho_refusal remap_place(const struct call *call, struct text *text)
{
    struct puldeho_grid grid = call->world->grid;
    struct new_layer worst = worst_layer(call, 0);
    size_t wrong = 0;
    for (size_t column = 0; column < puldeho_cells_in_layer(grid); column++) {
        struct new_layer layer = worst_layer(call, column);
        wrong += beyond(new_air(layer)) > 0;
        if (is_worse(layer, worst))
            worst = layer;
    }
    if (wrong == 0)
        return PULDEHO_ACCEPTED;
    say_column(text, grid, worst.column);
    say(text, " (air sum P = %lld) edge %zu is %lld and edge %zu is %lld, so new layer %zu would have air %lld, "
        "it must be 1 to 65535; columns refused: %zu of %zu", worst.p, worst.j, worst.upper, worst.j + 1,
        worst.lower, worst.j, new_air(worst), wrong, puldeho_cells_in_layer(grid));
    say_remedy(text, call, worst.j);
    return PULDEHO_REFUSAL_REMAP;
}

/* The places of each call, in order. */

static place *const load_places[] = {
    grid_place, air_length_place, tracers_length_place, ledger_length_place, air_place, totals_place, NULL};
static place *const emission_places[] = {
    grid_place, air_length_place, tracers_length_place, ledger_length_place, air_place, totals_place, books_place,
    tracer_place, cell_place, emission_place, NULL};
static place *const withdrawal_places[] = {
    grid_place, air_length_place, tracers_length_place, ledger_length_place, air_place, totals_place, books_place,
    tracer_place, cell_place, withdrawal_place, NULL};
static place *const zonal_places[] = {
    grid_place, air_length_place, tracers_length_place, ledger_length_place, zonal_length_place, air_place, totals_place,
    limiters_place, books_place, layer_place, row_place, zonal_fluxes_place, zonal_place, NULL};
static place *const zonal_with_count_places[] = {
    grid_place, air_length_place, tracers_length_place, ledger_length_place, zonal_length_place, air_place, totals_place,
    limiters_place, books_place, layer_place, row_place, zonal_fluxes_place, zonal_place, given_place, NULL};
static place *const long_zonal_places[] = {
    grid_place, air_length_place, tracers_length_place, ledger_length_place, zonal_length_place, air_place, totals_place,
    limiters_place, books_place, layer_place, row_place, zonal_fluxes_place, long_flux_place, long_air_place, NULL};
static place *const meridional_places[] = {
    grid_place, air_length_place, tracers_length_place, ledger_length_place, meridional_length_place, air_place, totals_place,
    limiters_place, books_place, layer_place, meridional_fluxes_place, meridional_place, NULL};
static place *const remap_places[] = {
    grid_place, air_length_place, tracers_length_place, ledger_length_place, table_length_place, air_place, totals_place,
    limiters_place, books_place, table_place, remap_place, NULL};
static place *const total_places[] = {
    grid_place, air_length_place, tracers_length_place, ledger_length_place, air_place, totals_place, books_place,
    tracer_place, NULL};
static place *const cell_places[] = {
    grid_place, air_length_place, tracers_length_place, ledger_length_place, air_place, totals_place, books_place,
    tracer_place, cell_place, NULL};
static place *const add_emitter_places[] = {
    grid_place, air_length_place, tracers_length_place, ledger_length_place, air_place, totals_place, books_place,
    tracer_place, emitter_cell_place, ledger_place, added_place, NULL};
static place *const remove_emitter_places[] = {
    grid_place, air_length_place, tracers_length_place, ledger_length_place, air_place, totals_place, books_place,
    tracer_place, ledger_place, absent_place, NULL};
static place *const tick_places[] = {
    grid_place, air_length_place, tracers_length_place, ledger_length_place, air_place, totals_place, books_place,
    tracer_place, ledger_place, tick_place, NULL};
static place *const units_a_tick_places[] = {
    grid_place, air_length_place, tracers_length_place, ledger_length_place, air_place, totals_place, books_place,
    tracer_place, ledger_place, NULL};
static place *const set_limiter_places[] = {
    grid_place, air_length_place, tracers_length_place, ledger_length_place, air_place, totals_place, books_place,
    limiter_tracer_place, limiter_place, NULL};

/* Every text fits in PULDEHO_WHY_SIZE, so that no more is asked of vsnprintf. */
static enum puldeho_refusal first_refusal(const struct call *call, place *const *places, char *start, size_t size)
{
    struct text text = {start, start == NULL ? 0 : size < PULDEHO_WHY_SIZE ? size : PULDEHO_WHY_SIZE, 0};
    for (; *places != NULL; places++) {
        enum puldeho_refusal refusal = (*places)(call, &text);
        if (refusal != PULDEHO_ACCEPTED)
            return refusal;
    }
    say(&text, "the call would be accepted");
    return PULDEHO_ACCEPTED;
}

/* The name by which a program of another version finds that this is not its library. */
void PULDEHO_ABI(void)
{
}

/* The calls. */

enum puldeho_refusal puldeho_why_load(const struct puldeho_world *world, char *text, size_t size)
{
    struct call call = {.world = world};
    return first_refusal(&call, load_places, text, size);
}

enum puldeho_refusal puldeho_why_emission(
    const struct puldeho_world *world, uint32_t tracer, uint32_t cell, uint32_t amount, char *text, size_t size)
{
    struct call call = {.world = world, .tracer = tracer, .cell = cell, .amount = amount};
    return first_refusal(&call, emission_places, text, size);
}

enum puldeho_refusal puldeho_why_withdrawal(
    const struct puldeho_world *world, uint32_t tracer, uint32_t cell, uint32_t amount, char *text, size_t size)
{
    struct call call = {.world = world, .tracer = tracer, .cell = cell, .amount = amount};
    return first_refusal(&call, withdrawal_places, text, size);
}

enum puldeho_refusal puldeho_why_zonal(
    const struct puldeho_world *world, uint32_t layer, uint32_t row, const int32_t *fluxes, size_t fluxes_length,
    char *text, size_t size)
{
    struct call call = {.world = world, .layer = layer, .row = row, .fluxes = fluxes, .length = fluxes_length};
    return first_refusal(&call, zonal_places, text, size);
}

enum puldeho_refusal puldeho_why_count_zonal(
    const struct puldeho_world *world, uint32_t layer, uint32_t row, const int32_t *fluxes, size_t fluxes_length,
    char *text, size_t size)
{
    return puldeho_why_zonal(world, layer, row, fluxes, fluxes_length, text, size);
}

enum puldeho_refusal puldeho_why_zonal_with_count(
    const struct puldeho_world *world, uint32_t layer, uint32_t row, uint32_t given, const int32_t *fluxes,
    size_t fluxes_length, char *text, size_t size)
{
    struct call call = {
        .world = world, .layer = layer, .row = row, .given = given, .fluxes = fluxes, .length = fluxes_length};
    return first_refusal(&call, zonal_with_count_places, text, size);
}

enum puldeho_refusal puldeho_why_long_zonal(
    const struct puldeho_world *world, uint32_t layer, uint32_t row, const int32_t *fluxes, size_t fluxes_length,
    char *text, size_t size)
{
    struct call call = {.world = world, .layer = layer, .row = row, .fluxes = fluxes, .length = fluxes_length};
    return first_refusal(&call, long_zonal_places, text, size);
}

enum puldeho_refusal puldeho_why_meridional(
    const struct puldeho_world *world, uint32_t layer, const int32_t *fluxes, size_t fluxes_length,
    char *text, size_t size)
{
    struct call call = {.world = world, .layer = layer, .fluxes = fluxes, .length = fluxes_length};
    return first_refusal(&call, meridional_places, text, size);
}

enum puldeho_refusal puldeho_why_remap(
    const struct puldeho_world *world, const uint32_t *table, size_t table_length, char *text, size_t size)
{
    struct call call = {.world = world, .table = table, .length = table_length};
    return first_refusal(&call, remap_places, text, size);
}

enum puldeho_refusal puldeho_why_total(const struct puldeho_world *world, uint32_t tracer, char *text, size_t size)
{
    struct call call = {.world = world, .tracer = tracer};
    return first_refusal(&call, total_places, text, size);
}

enum puldeho_refusal puldeho_why_cell(
    const struct puldeho_world *world, uint32_t tracer, uint32_t cell, char *text, size_t size)
{
    struct call call = {.world = world, .tracer = tracer, .cell = cell};
    return first_refusal(&call, cell_places, text, size);
}

enum puldeho_refusal puldeho_why_add_emitter(
    const struct puldeho_world *world, uint32_t tracer, uint32_t cell, uint32_t id, uint32_t units, char *text, size_t size)
{
    struct call call = {.world = world, .tracer = tracer, .cell = cell, .id = id, .units = units};
    return first_refusal(&call, add_emitter_places, text, size);
}

enum puldeho_refusal puldeho_why_remove_emitter(
    const struct puldeho_world *world, uint32_t tracer, uint32_t id, char *text, size_t size)
{
    struct call call = {.world = world, .tracer = tracer, .id = id};
    return first_refusal(&call, remove_emitter_places, text, size);
}

enum puldeho_refusal puldeho_why_tick(const struct puldeho_world *world, uint32_t tracer, char *text, size_t size)
{
    struct call call = {.world = world, .tracer = tracer};
    return first_refusal(&call, tick_places, text, size);
}

enum puldeho_refusal puldeho_why_units_a_tick(const struct puldeho_world *world, uint32_t tracer, char *text, size_t size)
{
    struct call call = {.world = world, .tracer = tracer};
    return first_refusal(&call, units_a_tick_places, text, size);
}

enum puldeho_refusal puldeho_why_set_limiter(
    const struct puldeho_world *world, uint32_t tracer, uint32_t limiter, uint64_t lo, uint64_t hi, char *text, size_t size)
{
    struct call call = {.world = world, .tracer = tracer, .limiter = {limiter, lo, hi}};
    return first_refusal(&call, set_limiter_places, text, size);
}
