/*
 * Tests why.c beside the library: exact texts for every refusal, then seeded calls in small worlds.
 * Prints one line; the exit status is 1 if anything differs.
 */
#include <pthread.h>
#include <stdbool.h>
#include <stdio.h>
#include <stdlib.h>
#include <string.h>

#include "puldeho.h"

enum {
    CALLS = 16000,
    MOST_LIST = 256,
    MOST_LEDGER = 3 * PULDEHO_LEDGER_BLOCK + 1,
    LIMITER = 3 + 3 * PULDEHO_MOST_EMITTERS, /* where a block has its limiter */
    BOOK = LIMITER + 5,                      /* and its book: loaded, emitted, withdrawn */
    MOST_REFUSAL = PULDEHO_REFUSAL_BOOKS
};

enum name {
    LOAD, EMISSION, WITHDRAWAL, ZONAL, COUNT_ZONAL, ZONAL_WITH_COUNT, LONG_ZONAL, MERIDIONAL, REMAP, TOTAL, CELL,
    ADD_EMITTER, REMOVE_EMITTER, TICK, UNITS_A_TICK, SET_LIMITER, NAMES
};

/* A call with its own arguments. */
struct request {
    enum name name;
    uint32_t tracer, cell, amount, layer, row, id, units, given, limiter;
    uint64_t lo, hi;
    int32_t fluxes[MOST_LIST];
    uint32_t table[MOST_LIST];
    size_t length;
};

static int differences = 0;
static unsigned long reached[MOST_REFUSAL + 1];
static unsigned long ends[2], cuts[2], uncut[2]; /* texts of zonal and of meridional sweeps */
static unsigned long changes; /* texts of remaps that name changes of b */
static unsigned long long_ends, turns[2]; /* texts of long sweeps: a cell ends outside; turns taken off, turns added */
static unsigned long long_instead[2]; /* texts of zonal sweeps that do not name the long one, and that do */
static unsigned long faults[4]; /* texts of ledgers with too many emitters, an absent cell, an id twice, a false sum */
static unsigned long full[2], twice; /* texts of 16 emitters, with none in the same cell and with one; of an id again */
static unsigned long absent[2]; /* texts of an absent id that no other tracer has, and that one has */
static unsigned long limiters[3]; /* texts of limiters that are unknown, that have lo above hi, and of no load */
static unsigned long to_set[3]; /* texts of limiters to be set that are unknown, that have lo above hi, exchanged with the tracer */
static unsigned long books[3]; /* texts of books to which the cells are more, or less, and of no load */
static unsigned long rooms[2][3]; /* texts of the room for an emission, a tick, a withdrawal: by total or cell, and by the sum */
static unsigned long given[4]; /* texts of given counts of 0, above 16, that serve and are not the smallest, that do not serve */

static void differs(const char *what, const char *text)
{
    if (differences++ < 20)
        printf("%s: \"%s\"\n", what, text);
}

/* Calls of why.c and of the library. A list is lent in memory of its own length, so that a read beyond it is seen. */

static void *lend(const void *list, size_t bytes)
{
    void *lent = bytes == 0 ? NULL : malloc(bytes);
    if (bytes != 0 && lent == NULL)
        abort();
    if (bytes != 0)
        memcpy(lent, list, bytes);
    return lent;
}

static enum puldeho_refusal why(const struct puldeho_world *world, const struct request *r, char *text, size_t size)
{
    int32_t *fluxes = lend(r->fluxes, r->length * sizeof *fluxes);
    uint32_t *table = lend(r->table, r->length * sizeof *table);
    enum puldeho_refusal refusal = PULDEHO_ACCEPTED;
    switch (r->name) {
    case LOAD: refusal = puldeho_why_load(world, text, size); break;
    case EMISSION: refusal = puldeho_why_emission(world, r->tracer, r->cell, r->amount, text, size); break;
    case WITHDRAWAL: refusal = puldeho_why_withdrawal(world, r->tracer, r->cell, r->amount, text, size); break;
    case ZONAL: refusal = puldeho_why_zonal(world, r->layer, r->row, fluxes, r->length, text, size); break;
    case COUNT_ZONAL: refusal = puldeho_why_count_zonal(world, r->layer, r->row, fluxes, r->length, text, size); break;
    case ZONAL_WITH_COUNT:
        refusal = puldeho_why_zonal_with_count(world, r->layer, r->row, r->given, fluxes, r->length, text, size);
        break;
    case LONG_ZONAL: refusal = puldeho_why_long_zonal(world, r->layer, r->row, fluxes, r->length, text, size); break;
    case MERIDIONAL: refusal = puldeho_why_meridional(world, r->layer, fluxes, r->length, text, size); break;
    case REMAP: refusal = puldeho_why_remap(world, table, r->length, text, size); break;
    case TOTAL: refusal = puldeho_why_total(world, r->tracer, text, size); break;
    case CELL: refusal = puldeho_why_cell(world, r->tracer, r->cell, text, size); break;
    case ADD_EMITTER: refusal = puldeho_why_add_emitter(world, r->tracer, r->cell, r->id, r->units, text, size); break;
    case REMOVE_EMITTER: refusal = puldeho_why_remove_emitter(world, r->tracer, r->id, text, size); break;
    case TICK: refusal = puldeho_why_tick(world, r->tracer, text, size); break;
    case SET_LIMITER: refusal = puldeho_why_set_limiter(world, r->tracer, r->limiter, r->lo, r->hi, text, size); break;
    default: refusal = puldeho_why_units_a_tick(world, r->tracer, text, size); break;
    }
    free(fluxes);
    free(table);
    return refusal;
}

static enum puldeho_refusal library(struct puldeho_world *world, const struct request *r)
{
    switch (r->name) {
    case LOAD: return puldeho_load(world);
    case EMISSION: return puldeho_emission(world, r->tracer, r->cell, r->amount);
    case WITHDRAWAL: return puldeho_withdrawal(world, r->tracer, r->cell, r->amount);
    case ZONAL: return puldeho_zonal(world, r->layer, r->row, r->fluxes, r->length, NULL);
    case COUNT_ZONAL: return puldeho_count_zonal(world, r->layer, r->row, r->fluxes, r->length, NULL);
    case ZONAL_WITH_COUNT:
        return puldeho_zonal_with_count(world, r->layer, r->row, r->given, r->fluxes, r->length, NULL);
    case LONG_ZONAL: return puldeho_long_zonal(world, r->layer, r->row, r->fluxes, r->length);
    case MERIDIONAL: return puldeho_meridional(world, r->layer, r->fluxes, r->length, NULL);
    case REMAP: return puldeho_remap(world, r->table, r->length, NULL);
    case TOTAL: return puldeho_total(world, r->tracer, NULL);
    case CELL: return puldeho_cell(world, r->tracer, r->cell, NULL);
    case ADD_EMITTER: return puldeho_add_emitter(world, r->tracer, r->cell, r->id, r->units);
    case REMOVE_EMITTER: return puldeho_remove_emitter(world, r->tracer, r->id);
    case TICK: return puldeho_tick(world, r->tracer);
    case SET_LIMITER: return puldeho_set_limiter(world, r->tracer, r->limiter, r->lo, r->hi);
    default: return puldeho_units_a_tick(world, r->tracer, NULL);
    }
}

static struct puldeho_world copy_of(const struct puldeho_world *world)
{
    struct puldeho_world copy = *world;
    copy.air = lend(world->air, world->air_length * sizeof *world->air);
    copy.tracers = lend(world->tracers, world->tracers_length * sizeof *world->tracers);
    /* One that was set is not null, also without a number; else the world's own was copied with the struct. */
    if (world->ledger != NULL)
        copy.ledger = lend(world->ledger, world->ledger_length == 0 ? 1 : world->ledger_length * sizeof *world->ledger);
    return copy;
}

static void drop(struct puldeho_world *world)
{
    free(world->air);
    free(world->tracers);
    free(world->ledger);
}

static bool same(const struct puldeho_world *one, const struct puldeho_world *other)
{
    size_t ledger = puldeho_lent_ledger_length(one);
    return (one->air_length == 0 || memcmp(one->air, other->air, one->air_length * sizeof *one->air) == 0)
        && (one->tracers_length == 0
            || memcmp(one->tracers, other->tracers, one->tracers_length * sizeof *one->tracers) == 0)
        && (ledger == 0
            || memcmp(puldeho_lent_ledger(one), puldeho_lent_ledger(other), ledger * sizeof *one->ledger) == 0);
}

/* What the text of a refused sweep says, held to the library. */

/* Whether the library accepts the fluxes as m sweeps of their parts, one after another. */
static bool accepted_as(const struct puldeho_world *world, const struct request *whole, long long m)
{
    struct puldeho_world copy = copy_of(world);
    struct request part = *whole;
    bool accepted = true;
    for (long long s = 1; s <= m && accepted; s++) {
        for (size_t i = 0; i < whole->length; i++) {
            long long flux = whole->fluxes[i], size = flux < 0 ? -flux : flux;
            long long cut = s * size / m - (s - 1) * size / m;
            part.fluxes[i] = (int32_t)(flux < 0 ? -cut : cut);
        }
        accepted = library(&copy, &part) == PULDEHO_ACCEPTED;
    }
    drop(&copy);
    return accepted;
}

/* Whether the sweep is one of a row. */
static bool of_row(const struct request *r)
{
    return r->name == ZONAL || r->name == COUNT_ZONAL || r->name == ZONAL_WITH_COUNT || r->name == LONG_ZONAL;
}

/* The single sweep of a zonal request; any other request as it is. */
static struct request single_of(const struct request *r)
{
    struct request single = *r;
    if (of_row(r) && r->name != LONG_ZONAL)
        single.name = ZONAL;
    return single;
}

/* The air with which a cell of the world ends, written cell by cell and not face by face. */
static long long end_of(const struct puldeho_world *world, const struct request *r, size_t cell)
{
    size_t w = world->grid.w, c = 2 + world->grid.r * w, place = cell % c;
    long long air = world->air[cell];
    if (of_row(r)) {
        size_t i = (place - 1) % w;
        return air + r->fluxes[(i + w - 1) % w] - r->fluxes[i];
    }
    if (place != 0 && place != c - 1)
        return air + r->fluxes[place - 1] - r->fluxes[place - 1 + w];
    for (size_t i = 0; i < w; i++)
        air += place == 0 ? -(long long)r->fluxes[i] : r->fluxes[world->grid.r * w + i];
    return air;
}

/* How many cells of the sweep end with 0 or less, and above 65535. */
static void count_ends(const struct puldeho_world *world, const struct request *r, size_t *low, size_t *high)
{
    size_t w = world->grid.w, c = 2 + world->grid.r * w;
    size_t first = r->layer * c + (of_row(r) ? 1 + r->row * w : 0);
    size_t cells = of_row(r) ? w : c;
    *low = *high = 0;
    for (size_t cell = first; cell < first + cells; cell++) {
        *low += end_of(world, r, cell) < 1;
        *high += end_of(world, r, cell) > 65535;
    }
}

/* The number after some words of the text, or -1. */
static long long number_after(const char *text, const char *words)
{
    const char *found = strstr(text, words);
    return found == NULL ? -1 : strtoll(found + strlen(words), NULL, 10);
}

static void check_end(const struct puldeho_world *world, const struct request *r, const char *text)
{
    size_t low, high;
    char counts[100];
    count_ends(world, r, &low, &high);
    snprintf(counts, sizeof counts, " %zu would end with 0 or less and %zu above 65535;", low, high);
    if (low + high == 0 || strstr(text, counts) == NULL)
        differs("cells that end outside", text);
    for (long long m = 1; m <= 64; m += m < 8 ? 1 : 7)
        if (accepted_as(world, r, m))
            differs("accepted although a cell ends outside", text);
}

static void check_cut(const struct puldeho_world *world, const struct request *r, const char *text)
{
    size_t low, high;
    long long m = number_after(text, "helps: cut into ");
    count_ends(world, r, &low, &high);
    if (low + high > 0 || strstr(text, "; every cell of the ") == NULL)
        differs("a cell ends outside", text);
    if (r->name == ZONAL && number_after(text, "where its outflow is ") <= number_after(text, " and its air "))
        differs("the substep's outflow", text);
    if (m >= 0) {
        if (m < 2 || m > 64 || !accepted_as(world, r, m) || accepted_as(world, r, m - 1))
            differs("number of sweeps", text);
        cuts[r->name == MERIDIONAL]++;
        return;
    }
    for (m = 2; m <= 64; m++)
        if (accepted_as(world, r, m))
            differs("some number of sweeps serves", text);
    uncut[r->name == MERIDIONAL]++;
}

/* A refused zonal sweep names the long one exactly if that would be accepted. */
static void check_long_instead(const struct puldeho_world *world, const struct request *r, const char *text)
{
    struct request instead = *r;
    instead.name = LONG_ZONAL;
    bool named = strstr(text, "; the library's long zonal sweep takes the fluxes whole") != NULL;
    if (named != accepted_as(world, &instead, 1))
        differs("the long sweep in place of the zonal one", text);
    long_instead[named]++;
}

static void check_sweep(const struct puldeho_world *world, const struct request *r, const char *text)
{
    size_t cell = (size_t)number_after(text, "cell ");
    if (number_after(text, " has air ") != world->air[cell]
        || number_after(text, "would end with air ") != end_of(world, r, cell))
        differs("the cell of a sweep", text);
    if (strstr(text, "end at the same air: ") == NULL) {
        check_cut(world, r, text);
    } else {
        check_end(world, r, text);
        ends[r->name == MERIDIONAL]++;
    }
    if (r->name == ZONAL)
        check_long_instead(world, r, text);
}

/* The turns that the text takes off the fluxes, or adds to them: the sweep is then accepted. */
static void check_turn(const struct puldeho_world *world, const struct request *r, const char *text)
{
    long long turn = number_after(text, "cell back: with ");
    bool added = strstr(text, " added to every flux") != NULL;
    struct request other = *r;
    for (size_t i = 0; i < r->length; i++)
        other.fluxes[i] = (int32_t)(r->fluxes[i] + (added ? turn : -turn));
    if (turn < 1 || turn % number_after(text, "at most the row's air, ") != 0 || !accepted_as(world, &other, 1))
        differs("turns", text);
    turns[added]++;
}

static void check_long(const struct puldeho_world *world, const struct request *r, const char *text)
{
    if (strstr(text, "cell back: with ") != NULL) {
        check_turn(world, r, text);
        return;
    }
    size_t cell = (size_t)number_after(text, "cell ");
    long long air = number_after(text, " has air "), in = number_after(strstr(text, " has air "), ", ");
    long long out = number_after(text, " come in and "), end = number_after(text, "would end with air ");
    if (air != world->air[cell] || end != end_of(world, r, cell) || air + in - out != end || in < 0 || out < 0)
        differs("the cell of a long sweep", text);
    check_end(world, r, text);
    long_ends++;
}

/* The air of a new layer in a column, if b changes by so much from the pair above it. */
static long long layer_air(const struct puldeho_world *world, const uint32_t *pair, long long column, long long change)
{
    long long c = 2 + (long long)world->grid.r * world->grid.w, p = 0;
    for (long long k = 0; k < world->grid.k; k++)
        p += world->air[k * c + column];
    return pair[2] + (pair[1] + change) * p / 65536 - pair[0] - pair[1] * p / 65536;
}

/* With each of the two changes of b that the text names the new layer is in range in every column; the given b is none. */
static void check_changes(const struct puldeho_world *world, const struct request *r, const char *text)
{
    const uint32_t *pair = r->table + 2 * number_after(text, "from pair ");
    long long least = number_after(text, "a change of b from "), most = number_after(strstr(text, "a change of b from "), " to ");
    long long given = (long long)pair[3] - pair[1];
    if (least <= given && given <= most)
        differs("the given change of b is called sure", text);
    for (long long column = 0; column < 2 + (long long)world->grid.r * world->grid.w; column++) {
        long long one = layer_air(world, pair, column, least), other = layer_air(world, pair, column, most);
        if (one < 1 || one > 65535 || other < 1 || other > 65535)
            differs("a sure change of b", text);
    }
    changes++;
}

static void check_remap(const struct puldeho_world *world, const struct request *r, const char *text)
{
    long long c = 2 + (long long)world->grid.r * world->grid.w, columns = 0;
    if (strstr(text, "a change of b from ") != NULL)
        check_changes(world, r, text);
    for (long long column = 0; column < c; column++) {
        long long sum = 0, wrong = 0;
        for (long long k = 0; k < world->grid.k; k++)
            sum += world->air[k * c + column];
        for (long long k = 0; k < world->grid.k; k++) {
            long long air = r->table[2 * k + 2] + r->table[2 * k + 3] * sum / 65536;
            air -= r->table[2 * k] + r->table[2 * k + 1] * sum / 65536;
            wrong += air < 1 || air > 65535;
        }
        columns += wrong > 0;
    }
    char counts[100];
    snprintf(counts, sizeof counts, "columns refused: %lld of %lld;", columns, c);
    if (strstr(text, counts) == NULL)
        differs("columns that are refused", text);
}

/* What the text of a refused call on emitters says, held to the library and to the ledger, which is read here by sums over
 * all pairs of emitters. */

static const uint32_t *block_of(const struct puldeho_world *world, size_t tracer)
{
    return puldeho_lent_ledger(world) + tracer * PULDEHO_LEDGER_BLOCK;
}

/* Which fault a tracer's block has, in the order of `faults`; 4 if none. */
static size_t fault_of(const struct puldeho_world *world, size_t tracer)
{
    const uint32_t *block = block_of(world, tracer);
    uint64_t sum = 0;
    bool absent_cell = false, same_id = false;
    if (block[0] > 16)
        return 0;
    for (size_t i = 3; i < 3 + 3 * block[0]; i += 3) {
        sum += block[i + 2];
        absent_cell = absent_cell || block[i + 1] >= world->air_length;
        for (size_t j = 3; j < i; j += 3)
            same_id = same_id || block[i] == block[j];
    }
    return absent_cell ? 1 : same_id ? 2 : sum != block[1] + ((uint64_t)block[2] << 32) ? 3 : 4;
}

/* 5: the first tracer whose block has a fault; after a load no such refusal is left. */
static void check_ledger(const struct puldeho_world *world, const struct request *r, const char *text)
{
    static const char *const words[] = {" emitters (number ", "is in the absent cell ", " both have the id ", " has the sum "};
    struct puldeho_world copy = copy_of(world);
    size_t tracer = 0;
    while (tracer < world->grid.n && fault_of(world, tracer) == 4)
        tracer++;
    size_t fault = tracer < world->grid.n ? fault_of(world, tracer) : 4;
    if (number_after(text, "tracer ") != (long long)tracer)
        differs("the tracer of a ledger's fault", text);
    /* A block may have an absent cell and an id twice: the text names the one of the first emitter. */
    if (fault == 1 && strstr(text, words[1]) == NULL)
        fault = 2;
    if (fault == 4 || strstr(text, words[fault]) == NULL)
        differs("the ledger's fault", text);
    else
        faults[fault]++;
    if (puldeho_load(&copy) != PULDEHO_ACCEPTED || library(&copy, r) == PULDEHO_REFUSAL_INDEX)
        differs("a load does not mend the ledger", text);
    drop(&copy);
}

/* 18: what the text says to remove is removed, and what it says to add instead is then accepted. */
static void check_added(const struct puldeho_world *world, const struct request *r, const char *text)
{
    struct puldeho_world copy = copy_of(world);
    long long joined = number_after(text, ", or remove id "), emitter = number_after(text, ": emitter ");
    const uint32_t *block = block_of(world, r->tracer);
    struct request again = *r;
    if (strstr(text, " already has the id ") != NULL) {
        if (emitter < 0 || emitter >= 16 || block[3 + 3 * emitter] != r->id)
            differs("the emitter that has the id", text);
        if (puldeho_remove_emitter(&copy, r->tracer, r->id) != PULDEHO_ACCEPTED)
            differs("the id cannot be removed", text);
        twice++;
    } else {
        again.id = joined >= 0 ? (uint32_t)joined : r->id;
        again.units = joined >= 0 ? (uint32_t)number_after(text, "sum of the units, ") : r->units;
        if (puldeho_remove_emitter(&copy, r->tracer, joined >= 0 ? again.id : block[3]) != PULDEHO_ACCEPTED)
            differs("the emitter cannot be removed", text);
        if ((joined < 0 && r->units <= PULDEHO_TOTAL_LIMIT) != (strstr(text, "by emission") != NULL))
            differs("whether an emission would do", text);
        full[joined >= 0]++;
    }
    if (library(&copy, &again) != PULDEHO_ACCEPTED || (joined >= 0 && block_of(&copy, r->tracer)[0] != 16))
        differs("not accepted after the removal", text);
    drop(&copy);
}

/* 19: the ids that stand, and the tracers that have this one. */
static void check_absent(const struct puldeho_world *world, const struct request *r, const char *text)
{
    char wanted[PULDEHO_WHY_SIZE] = "; it has no emitters, as after a load";
    const uint32_t *block = block_of(world, r->tracer);
    size_t length = 0, others = 0;
    for (size_t i = 0; i < block[0]; i++)
        length += (size_t)sprintf(wanted + length, "%s%u", i == 0 ? "; it has the ids " : ", ", (unsigned)block[3 + 3 * i]);
    length = strlen(wanted);
    for (uint32_t tracer = 0; tracer < world->grid.n; tracer++) {
        struct puldeho_world copy = copy_of(world);
        if (puldeho_remove_emitter(&copy, tracer, r->id) == PULDEHO_ACCEPTED) {
            length += (size_t)sprintf(wanted + length, "; tracer %u has that id", (unsigned)tracer);
            others++;
        }
        drop(&copy);
    }
    const char *found = strstr(text, "; it has ");
    if (found == NULL || strcmp(found, wanted) != 0)
        differs("the ids that stand", text);
    absent[others > 0]++;
}

/* 6: as much can be emitted as the text says, and no more. If a sum is full, a load makes room. */
static void check_emission(const struct puldeho_world *world, const struct request *r, const char *text)
{
    struct puldeho_world copy = copy_of(world), loaded = copy_of(world);
    uint32_t room = (uint32_t)number_after(text, "so at most ");
    bool by_sum = strstr(text, " until the next load") != NULL;
    uint64_t units = 0;
    if (r->name == TICK && (puldeho_units_a_tick(&copy, r->tracer, &units) != PULDEHO_ACCEPTED
                            || number_after(text, " and a tick gives ") != (long long)units || units <= room))
        differs("the units of a tick", text);
    if (puldeho_emission(&copy, r->tracer, 0, room) != PULDEHO_ACCEPTED
        || puldeho_emission(&copy, r->tracer, 0, 1) != PULDEHO_REFUSAL_EMISSION)
        differs("the room for an emission", text);
    if (by_sum && (puldeho_load(&loaded) != PULDEHO_ACCEPTED || puldeho_emission(&loaded, r->tracer, 0, room + 1) != PULDEHO_ACCEPTED))
        differs("a load makes no room", text);
    rooms[by_sum][r->name == TICK]++;
    drop(&copy);
    drop(&loaded);
}

/* 7: by a full sum as much can be withdrawn as the text says, and no more, and a load makes room; else the cell's amount. */
static void check_withdrawal(const struct puldeho_world *world, const struct request *r, const char *text)
{
    struct puldeho_world copy = copy_of(world), loaded = copy_of(world);
    bool by_sum = strstr(text, " until the next load") != NULL;
    uint32_t room = (uint32_t)number_after(text, by_sum ? "so at most " : " has ");
    if (puldeho_withdrawal(&copy, r->tracer, r->cell, room) != PULDEHO_ACCEPTED
        || puldeho_withdrawal(&copy, r->tracer, r->cell, 1) != PULDEHO_REFUSAL_WITHDRAWAL)
        differs("the room for a withdrawal", text);
    if (by_sum && (puldeho_load(&loaded) != PULDEHO_ACCEPTED
                   || puldeho_withdrawal(&loaded, r->tracer, r->cell, room + 1) != PULDEHO_ACCEPTED))
        differs("a load makes no room", text);
    rooms[by_sum][2]++;
    drop(&copy);
    drop(&loaded);
}

/* What the tracer's cells sum to, as far as they are lent. */
static uint64_t total_of(const struct puldeho_world *world, size_t tracer)
{
    uint64_t total = 0;
    for (size_t i = tracer * world->air_length; i < (tracer + 1) * world->air_length && i < world->tracers_length; i++)
        total += world->tracers[i];
    return total;
}

/* Whether the tracer's book is what its cells sum to; the book is read from the ledger itself. */
static bool balances(const struct puldeho_world *world, size_t tracer)
{
    const uint32_t *book = block_of(world, tracer) + BOOK;
    return (uint64_t)book[0] + book[1] == book[2] + total_of(world, tracer);
}

/* The first tracer whose book is not what its cells sum to; as many as there are if there is none. */
static size_t unbalanced(const struct puldeho_world *world)
{
    size_t tracer = 0;
    while (tracer < world->grid.n && balances(world, tracer))
        tracer++;
    return tracer;
}

/* The words with which the text of a tracer's book must begin. */
static void book_words(const struct puldeho_world *world, size_t tracer, bool none, char *wanted, size_t size)
{
    const uint32_t *book = block_of(world, tracer) + BOOK;
    size_t place = tracer * PULDEHO_LEDGER_BLOCK + BOOK;
    long long total = (long long)total_of(world, tracer), booked = (long long)book[0] + book[1] - book[2];
    if (none) {
        snprintf(wanted, size, "tracer %zu has the total %lld and no book, ", tracer, total);
        return;
    }
    snprintf(wanted, size, "the book of tracer %zu has %lld loaded, %lld emitted and %lld withdrawn (numbers %zu to %zu of the "
             "ledger), which makes %lld, and its cells sum to %lld, %lld %s; ", tracer, (long long)book[0], (long long)book[1],
             (long long)book[2], place, place + 2, booked, total, llabs(total - booked), total > booked ? "more" : "less");
    books[total < booked]++;
}

/* 22: the first book at fault, with its numbers and the difference. A load mends it. */
static void check_books(const struct puldeho_world *world, const struct request *r, const char *text)
{
    struct puldeho_world loaded = copy_of(world);
    size_t tracer = unbalanced(world);
    bool none = strstr(text, " and no book, ") != NULL;
    char wanted[400] = "no book is at fault";
    if (tracer < world->grid.n)
        book_words(world, tracer, none, wanted, sizeof wanted);
    books[2] += none;
    if (strncmp(text, wanted, strlen(wanted)) != 0)
        differs("the book that is at fault", text);
    if (puldeho_load(&loaded) != PULDEHO_ACCEPTED || library(&loaded, r) == PULDEHO_REFUSAL_BOOKS)
        differs("a load does not mend the books", text);
    drop(&loaded);
}

static void check_emitters(const struct puldeho_world *world, const struct request *r, enum puldeho_refusal refusal, const char *text)
{
    if (refusal == PULDEHO_REFUSAL_INDEX && strstr(text, "there is no ") == NULL)
        check_ledger(world, r, text);
    if (refusal == PULDEHO_REFUSAL_EMITTER_ADDED)
        check_added(world, r, text);
    if (refusal == PULDEHO_REFUSAL_EMITTER_ABSENT)
        check_absent(world, r, text);
    if (refusal == PULDEHO_REFUSAL_EMISSION)
        check_emission(world, r, text);
}

/* 21 for a limiter that stands: the first tracer at fault is named with what it has. With the limiters mended one by one from that
 * tracer on, by the call that sets them, the refusal goes; so it does by a load. */
static void check_limiters(const struct puldeho_world *world, const struct request *r, const char *text)
{
    struct puldeho_world mended = copy_of(world), loaded = copy_of(world);
    bool none = strstr(text, "no tracer has a limiter") != NULL, zero = strstr(text, " has no limiter (") != NULL;
    bool unknown = zero || strstr(text, "none of 1, 2 and 3") != NULL;
    long long tracer = none ? 0 : number_after(text, "tracer ");
    struct puldeho_limiter had = puldeho_limiter_of(world, (uint32_t)tracer);
    for (size_t i = 0; none && i < puldeho_lent_ledger_length(world); i++)
        if (puldeho_lent_ledger(world)[i] != 0)
            differs("a ledger that is not all zeros", text);
    if (!none && ((zero ? 0 : number_after(text, " has the limiter ")) != had.number
                  || unknown != (had.number < 1 || had.number > 3)))
        differs("the limiter that stands", text);
    if (!none && !unknown && had.lo <= had.hi)
        differs("the bounds of the limiter that stands", text);
    bool booked = unbalanced(world) == world->grid.n; /* else the call that sets one is refused with 22 */
    for (uint32_t t = (uint32_t)tracer; t < world->grid.n; t++)
        if (puldeho_set_limiter(&mended, t, PULDEHO_LIMITER_POSITIVE, 0, 0) != (booked ? PULDEHO_ACCEPTED : PULDEHO_REFUSAL_BOOKS))
            differs("a limiter cannot be set", text);
    if ((booked && library(&mended, r) == PULDEHO_REFUSAL_LIMITERS) || puldeho_load(&loaded) != PULDEHO_ACCEPTED
        || library(&loaded, r) == PULDEHO_REFUSAL_LIMITERS)
        differs("neither a load nor other limiters mend it", text);
    limiters[none ? 2 : unknown ? 0 : 1]++;
    drop(&mended);
    drop(&loaded);
}

/* 21 for a limiter to be set: as the text would have it, the call is accepted. */
static void check_set_limiter(const struct puldeho_world *world, const struct request *r, const char *text)
{
    struct puldeho_world copy = copy_of(world);
    bool unknown = strstr(text, "there is no limiter ") != NULL, exchanged = strstr(text, "; the order is tracer, limiter, lo, hi") != NULL;
    struct request other = *r;
    if (exchanged) {
        other.tracer = r->limiter;
        other.limiter = r->tracer;
    } else if (unknown) {
        other.limiter = PULDEHO_LIMITER_FIXED;
    }
    if (r->lo > r->hi) {
        other.lo = strstr(text, "give 0 and 0") != NULL ? 0 : r->hi;
        other.hi = strstr(text, "give 0 and 0") != NULL ? 0 : r->lo;
    }
    if (unknown != (r->limiter < 1 || r->limiter > 3) || library(&copy, &other) != PULDEHO_ACCEPTED)
        differs("the limiter to be set", text);
    to_set[exchanged ? 2 : unknown ? 0 : 1]++;
    drop(&copy);
}

/* The text names the count that the library gives now: with it the sweep is accepted, with the given one it is not. */
static void check_given(const struct puldeho_world *world, const struct request *r, const char *text)
{
    uint32_t count = 0;
    struct request right = *r;
    enum puldeho_refusal refusal = puldeho_count_zonal(world, r->layer, r->row, r->fluxes, r->length, &count);
    right.given = count;
    if (refusal != PULDEHO_ACCEPTED || number_after(text, " takes ") != count || !accepted_as(world, &right, 1)
        || number_after(text, "the given count is ") != r->given || r->given == count)
        differs("the count that would be accepted", text);
    given[0] += strstr(text, ", as a refused call gives; ") != NULL && r->given == 0;
    given[1] += strstr(text, ", more than any sweep takes; ") != NULL && r->given > PULDEHO_MOST_SUBSTEPS;
    bool counted = r->given >= 1 && r->given <= PULDEHO_MOST_SUBSTEPS;
    given[2] += strstr(text, ", which serves too and is not the smallest; ") != NULL && counted && r->given > count;
    given[3] += strstr(text, ", which does not serve; ") != NULL && counted;
    if (given[0] + given[1] + given[2] + given[3] != reached[PULDEHO_REFUSAL_GIVEN_COUNT])
        differs("the kind of a given count", text);
}

/* One call: why.c beside the library, and the text in a small size. */

static void check_size(const struct puldeho_world *world, const struct request *r, const char *text, size_t size)
{
    char small[PULDEHO_WHY_SIZE + 8];
    size_t length = strlen(text), cut = size == 0 ? 0 : size - 1 < length ? size - 1 : length;
    memset(small, '#', sizeof small);
    why(world, r, small, size);
    if (memcmp(small, text, cut) != 0 || (size != 0 && small[cut] != 0))
        differs("text in a small size", text);
    for (size_t i = size; i < sizeof small; i++)
        if (small[i] != '#')
            differs("written beyond the size", text);
    if (length >= PULDEHO_WHY_SIZE - 1)
        differs("too long a text", text);
}

static void check_call(const struct puldeho_world *world, const struct request *r, size_t size)
{
    char text[PULDEHO_WHY_SIZE];
    struct puldeho_world before = copy_of(world), copy = copy_of(world);
    enum puldeho_refusal refusal = why(world, r, text, sizeof text);
    reached[refusal]++;
    if (refusal != library(&copy, r))
        differs("another refusal", text);
    if (refusal != PULDEHO_ACCEPTED && !same(&copy, &before))
        differs("a refused call changed the world", text);
    if (refusal != why(world, r, NULL, size))
        differs("another refusal without a text", text);
    if ((refusal == PULDEHO_ACCEPTED) != (strcmp(text, "the call would be accepted") == 0))
        differs("accepted or not", text);
    struct request single = single_of(r);
    if (refusal == PULDEHO_REFUSAL_ZONAL || refusal == PULDEHO_REFUSAL_MERIDIONAL)
        check_sweep(world, &single, text);
    if (refusal == PULDEHO_REFUSAL_GIVEN_COUNT)
        check_given(world, r, text);
    if (refusal == PULDEHO_REFUSAL_WITHDRAWAL)
        check_withdrawal(world, r, text);
    if (refusal == PULDEHO_REFUSAL_BOOKS)
        check_books(world, r, text);
    if (refusal == PULDEHO_REFUSAL_LIMITERS && r->name != SET_LIMITER)
        check_limiters(world, r, text);
    if (refusal == PULDEHO_REFUSAL_LIMITERS && r->name == SET_LIMITER)
        check_set_limiter(world, r, text);
    if (refusal == PULDEHO_REFUSAL_LONG_FLUX || refusal == PULDEHO_REFUSAL_LONG_AIR)
        check_long(world, r, text);
    if (refusal == PULDEHO_REFUSAL_REMAP)
        check_remap(world, r, text);
    check_emitters(world, r, refusal, text);
    check_size(world, r, text, size);
    if (!same(world, &before))
        differs("the world was changed", text);
    drop(&before);
    drop(&copy);
}

/* Seeded numbers. */

static uint64_t seed = 20240611;

static uint32_t any(void)
{
    seed ^= seed << 13;
    seed ^= seed >> 7;
    seed ^= seed << 17;
    return (uint32_t)(seed >> 32);
}

static uint32_t from_to(uint32_t least, uint32_t most)
{
    return least + any() % (most - least + 1);
}

static bool one_in(uint32_t times)
{
    return any() % times == 0;
}

static int32_t about(uint32_t size)
{
    return (int32_t)from_to(0, 2 * size) - (int32_t)size;
}

static uint32_t wild(void)
{
    static const uint32_t numbers[] = {0, 1, 65535, 65536, 268435455, 268435456, 2147483648u, 4294967295u};
    return one_in(2) ? any() : numbers[any() % 8];
}

static struct puldeho_grid any_grid(void)
{
    static const uint32_t outside[] = {0, 3, 73, 45, 33, 9, 65536, 4294967295u};
    struct puldeho_grid grid;
    uint32_t *const numbers[] = {&grid.w, &grid.r, &grid.k, &grid.n};
    grid.w = from_to(4, 7);
    grid.r = from_to(1, 3);
    grid.k = from_to(1, 4);
    grid.n = from_to(1, 3);
    if (one_in(25))
        *numbers[any() % 4] = outside[any() % 8];
    return grid;
}

/* The length that the grid wants, now and then another; never more than fits here. */
static size_t any_length(size_t wanted, size_t most)
{
    size_t length = wanted;
    if (one_in(40))
        length = one_in(2) ? 0 : one_in(2) ? wanted + 1 : wanted - 1;
    return length < most ? length : most;
}

static void fill_air(struct puldeho_world *world, uint32_t *scale)
{
    static const uint32_t scales[] = {3, 20, 100, 3000, 65535};
    uint32_t most = scales[any() % 5], least = one_in(2) ? 1 : 1 + most / 2;
    for (size_t i = 0; i < world->air_length; i++)
        world->air[i] = from_to(least, most);
    if (world->air_length > 0 && one_in(25))
        world->air[any() % world->air_length] = wild();
    *scale = most;
}

static void fill_tracers(struct puldeho_world *world)
{
    size_t cells = world->air_length + 1;
    for (size_t i = 0; i < world->tracers_length; i++)
        world->tracers[i] = from_to(0, (uint32_t)(268435455 / cells));
    if (world->tracers_length > 0 && one_in(12))
        world->tracers[any() % world->tracers_length] = wild();
}

static uint64_t wild_bound(void)
{
    return one_in(2) ? (uint64_t)wild() << 32 | wild() : one_in(2) ? wild() : from_to(0, 2);
}

/* A limiter as a call could have left it. */
static void fill_limiter(uint32_t *numbers)
{
    uint64_t one = wild_bound(), other = wild_bound(), lo = one < other ? one : other, hi = one < other ? other : one;
    numbers[0] = from_to(1, 3);
    numbers[1] = (uint32_t)lo;
    numbers[2] = (uint32_t)(lo >> 32);
    numbers[3] = (uint32_t)hi;
    numbers[4] = (uint32_t)(hi >> 32);
}

/* A number of it that is another; not always a fault. */
static void break_limiter(uint32_t *numbers)
{
    if (one_in(2))
        numbers[0] = one_in(2) ? from_to(0, 4) : wild();
    else
        numbers[any() % 4 + 1] += one_in(2) ? 1 : wild();
}

/* A book of so many units, as calls could have left it; emitted, withdrawn or both are now and then near the limit. */
static void fill_book(uint32_t *numbers, uint64_t total)
{
    uint32_t near = UINT32_MAX - from_to(0, one_in(2) ? 40 : 300000000);
    uint64_t withdrawn = one_in(2) ? 0 : one_in(2) ? near : any();
    uint64_t sum = withdrawn + total, least = sum > UINT32_MAX ? sum - UINT32_MAX : 0;
    uint64_t most = sum < PULDEHO_TOTAL_LIMIT ? sum : PULDEHO_TOTAL_LIMIT;
    uint64_t loaded = least > most || one_in(3) ? least : from_to((uint32_t)least, (uint32_t)most);
    numbers[0] = (uint32_t)loaded;
    numbers[1] = (uint32_t)(sum - loaded);
    numbers[2] = (uint32_t)withdrawn;
}

/* One number of it, or an amount of a tracer, that is another; or two that cancel each other. */
static void break_book(struct puldeho_world *world, uint32_t *numbers)
{
    uint32_t change = one_in(2) ? 1 : one_in(2) ? UINT32_MAX : wild();
    if (world->tracers_length > 1 && one_in(2)) {
        world->tracers[any() % world->tracers_length] += change;
        if (one_in(3))
            world->tracers[any() % world->tracers_length] -= change;
        return;
    }
    numbers[any() % 3] += change;
    if (one_in(3)) {
        numbers[1] += change;
        numbers[2] += change;
    }
}

/* A tracer's emitters, as calls could have left them, and anything past them; then its limiter. */
static void fill_block(const struct puldeho_world *world, uint32_t *block)
{
    uint32_t most = one_in(3) ? 4000000000u : one_in(2) ? 1000 : 30000000;
    uint64_t sum = 0;
    for (size_t i = 0; i < PULDEHO_LEDGER_BLOCK; i++)
        block[i] = one_in(2) ? 0 : wild();
    block[0] = one_in(2) ? from_to(0, 3) : one_in(2) ? 16 : from_to(0, 16);
    for (uint32_t i = 0; i < block[0]; i++) {
        block[3 + 3 * i] = i * 2 + from_to(0, 1) + (one_in(20) ? 4294967200u : 0);
        block[4 + 3 * i] = any() % (uint32_t)(world->air_length + (world->air_length == 0));
        block[5 + 3 * i] = from_to(0, most);
        sum += block[5 + 3 * i];
    }
    block[1] = (uint32_t)sum;
    block[2] = (uint32_t)(sum >> 32);
    fill_limiter(block + LIMITER);
}

/* One of the four faults, unless by chance it is none. */
static void break_block(uint32_t *block)
{
    uint32_t one = any() % 16, other = any() % 16, kind = any() % 4;
    if (kind == 0)
        block[0] = one_in(2) ? 17 : wild();
    if (kind == 1)
        block[4 + 3 * one] = wild();
    if (kind == 2)
        block[3 + 3 * one] = block[3 + 3 * other];
    if (kind == 3)
        block[1 + any() % 2] += one_in(2) ? 1 : wild();
}

/* Emitters, a limiter and a book for every tracer, now and then with a fault, or zeros; a ledger of another length gets any numbers. */
static void fill_ledger(struct puldeho_world *world, uint32_t *ledger)
{
    size_t length = puldeho_lent_ledger_length(world), blocks = length / PULDEHO_LEDGER_BLOCK;
    for (size_t i = blocks * PULDEHO_LEDGER_BLOCK; i < length; i++)
        ledger[i] = wild();
    for (size_t tracer = 0; tracer < blocks; tracer++)
        fill_block(world, ledger + tracer * PULDEHO_LEDGER_BLOCK);
    if (blocks > 0 && one_in(5))
        break_block(ledger + any() % blocks * PULDEHO_LEDGER_BLOCK);
    for (size_t tracer = 0; tracer < blocks; tracer++)
        fill_book(ledger + tracer * PULDEHO_LEDGER_BLOCK + BOOK, total_of(world, tracer));
    if (blocks > 0 && one_in(15))
        break_limiter(ledger + any() % blocks * PULDEHO_LEDGER_BLOCK + LIMITER);
    if (blocks > 0 && one_in(15))
        break_book(world, ledger + any() % blocks * PULDEHO_LEDGER_BLOCK + BOOK);
    if (one_in(50))
        memset(ledger, 0, length * sizeof *ledger);
}

/* An id that stands for some tracer, or another. */
static uint32_t any_id(const struct puldeho_world *world)
{
    size_t blocks = puldeho_lent_ledger_length(world) / PULDEHO_LEDGER_BLOCK;
    if (blocks == 0 || one_in(3))
        return one_in(3) ? wild() : from_to(0, 40);
    return puldeho_lent_ledger(world)[any() % blocks * PULDEHO_LEDGER_BLOCK + 3 + 3 * (any() % 16)];
}

/* An index below the count, now and then another. */
static uint32_t any_index(uint32_t count)
{
    if (one_in(25))
        return one_in(2) ? count : wild();
    return count == 0 ? 0 : any() % count;
}

/* What is on the edge of a refusal, or anything. */
static uint32_t any_amount(const struct puldeho_world *world, const struct request *r)
{
    size_t cells = world->air_length, cell = r->tracer * cells + r->cell;
    if (one_in(4) || r->tracer >= 8 || r->cell >= cells || cell >= world->tracers_length)
        return wild();
    struct puldeho_book book = puldeho_book_of(world, r->tracer);
    uint32_t left = UINT32_MAX - (uint32_t)(r->name == EMISSION ? book.emitted : book.withdrawn);
    uint32_t room = (uint32_t)(r->name == EMISSION ? 268435455 - total_of(world, r->tracer) : world->tracers[cell]);
    return (left < room ? left : room) + from_to(0, 2) - 1;
}

/* A flow through the whole row or column of about so many times the air, and small differences. */
static void fill_fluxes(struct request *r, uint32_t w, uint32_t scale)
{
    uint32_t times = one_in(2) ? from_to(1, 60) : one_in(2) ? from_to(1, 2000) : 1;
    uint32_t most = of_row(r) ? 1048560 : 65535;
    uint32_t flow = scale * times / (of_row(r) ? 1 : 20) % (most + 1), small = one_in(3) ? 0 : scale / 3;
    bool round = one_in(3), west = r->name == LONG_ZONAL && one_in(2);
    if (r->name == LONG_ZONAL && one_in(2))
        flow = scale * from_to(0, w % 16) % (most + 1);
    for (size_t i = 0; i < r->length; i++) {
        int32_t along = (int32_t)((i % w % 2 == 0 || of_row(r)) && !west ? flow : -(int64_t)flow);
        r->fluxes[i] = along + about(round ? 0 : small);
        if (one_in(600))
            r->fluxes[i] = one_in(2) ? (int32_t)(any() - 2147483647 - 1) : -(int32_t)most - about(1);
    }
}

static void fill_table(struct request *r, uint32_t k, uint32_t scale)
{
    bool hybrid = one_in(3), wide = one_in(3);
    for (size_t j = 0; j < r->length / 2; j++) {
        int64_t b = 65536 * (int64_t)j / (k == 0 ? 1 : k) + (one_in(2) ? 0 : about(wide ? 60000 : 9000));
        bool end = j == 0 || j == k;
        r->table[2 * j] = end || !hybrid ? 0 : from_to(0, 2 * scale);
        r->table[2 * j + 1] = (uint32_t)(j == 0 ? 0 : j >= k || b > 65536 ? 65536 : b < 0 ? 0 : b);
    }
    if (r->length > 0 && one_in(12))
        r->table[any() % r->length] = one_in(2) ? 2097121 : wild();
}

/* The count of the row's sweep, one beside it, or any other; 0 where the sweep is refused. */
static uint32_t any_count(const struct puldeho_world *world, const struct request *r)
{
    uint32_t count = 0;
    (void)!puldeho_count_zonal(world, r->layer, r->row, r->fluxes, r->length, &count);
    switch (any() % 8) {
    case 0: return from_to(0, 18);
    case 1: return wild();
    case 2: return count - 1;
    case 3: return count + from_to(1, 3);
    case 4: return 0;
    default: return count;
    }
}

static void any_request(const struct puldeho_world *world, uint32_t scale, struct request *r)
{
    struct puldeho_grid grid = world->grid;
    size_t wanted = 0;
    r->name = (enum name)(any() % NAMES);
    if (one_in(2))
        r->name = one_in(2) ? one_in(3) ? ZONAL_WITH_COUNT : one_in(2) ? ZONAL : LONG_ZONAL : one_in(2) ? MERIDIONAL : REMAP;
    if (of_row(r))
        wanted = puldeho_zonal_fluxes_length(grid);
    if (r->name == MERIDIONAL)
        wanted = puldeho_meridional_fluxes_length(grid);
    if (r->name == REMAP)
        wanted = puldeho_remap_table_length(grid);
    r->length = any_length(wanted, MOST_LIST);
    r->tracer = any_index(grid.n);
    r->cell = any_index((uint32_t)world->air_length);
    r->layer = any_index(grid.k);
    r->row = any_index(grid.r);
    r->amount = any_amount(world, r);
    r->id = any_id(world);
    r->units = one_in(2) ? from_to(0, 1000) : wild();
    r->limiter = one_in(4) ? one_in(2) ? from_to(0, 4) : wild() : from_to(1, 3);
    r->lo = one_in(3) ? 0 : wild_bound();
    r->hi = one_in(3) ? r->lo + from_to(0, 2) : wild_bound();
    if (r->name == REMAP)
        fill_table(r, grid.k, scale);
    else
        fill_fluxes(r, grid.w == 0 ? 1 : grid.w, scale);
    r->given = r->name == ZONAL_WITH_COUNT ? any_count(world, r) : 0;
}

static void seeded_call(void)
{
    uint32_t air[MOST_LIST], tracers[3 * MOST_LIST], ledger[MOST_LEDGER], scale;
    struct puldeho_grid grid = any_grid();
    size_t air_length = any_length(puldeho_air_length(grid), MOST_LIST);
    size_t tracers_length = any_length(puldeho_tracers_length(grid), 3 * MOST_LIST);
    struct puldeho_world world = puldeho_world_over(grid, air, air_length, tracers, tracers_length);
    static struct request r;
    if (one_in(2)) {
        world.ledger = ledger;
        world.ledger_length = any_length(puldeho_ledger_length(grid), MOST_LEDGER);
    }
    fill_air(&world, &scale);
    fill_tracers(&world);
    fill_ledger(&world, world.ledger != NULL ? world.ledger : world.own_ledger);
    any_request(&world, scale, &r);
    struct puldeho_world lent = copy_of(&world);
    check_call(&lent, &r, one_in(2) ? from_to(0, 60) : from_to(0, PULDEHO_WHY_SIZE));
    drop(&lent);
}

/* Exact texts. The lists have the grid's lengths unless a case gives others. */

struct fixed {
    struct puldeho_grid grid;
    uint32_t air[16], tracers[16], ledger[2 * PULDEHO_LEDGER_BLOCK];
    size_t air_length, tracers_length, ledger_length;
    bool as_given; /* else a limiter of 0 in the ledger stands for 1, and a book of zeros for the tracer's total as loaded */
    struct request r;
    enum puldeho_refusal refusal;
    const char *text;
};

#define SMALL .grid = {4, 1, 1, 1}
#define TWO_LAYERS .grid = {4, 1, 2, 1}
#define TWO_ROWS .grid = {4, 2, 1, 1}
#define AIR_9 .air = {9, 9, 9, 9, 9, 9, 9, 9, 9, 9, 9, 9}
#define AIR_100 .air = {100, 100, 100, 100, 100, 100}
#define CASE_P SMALL, AIR_100, .tracers = {0, 0, 100, 200, 100, 0}
#define LISTED(...) {__VA_ARGS__}
#define SWEEP_ROW(...) .r = {.name = ZONAL, .length = 4, .fluxes = LISTED(__VA_ARGS__)}
#define COUNT_ROW(...) .r = {.name = COUNT_ZONAL, .length = 4, .fluxes = LISTED(__VA_ARGS__)}
#define GIVEN_ROW(COUNT, ...) .r = {.name = ZONAL_WITH_COUNT, .length = 4, .given = COUNT, .fluxes = LISTED(__VA_ARGS__)}
#define COUNTS_AGAIN "; see that layer, row and fluxes are those that were counted, then count again with count_zonal and look at " \
    "the new count"
#define LONG_ROW(...) .r = {.name = LONG_ZONAL, .length = 4, .fluxes = LISTED(__VA_ARGS__)}
#define SWEEP_LAYER(...) .r = {.name = MERIDIONAL, .length = 8, .fluxes = LISTED(__VA_ARGS__)}
#define TWO_GASES .grid = {4, 1, 1, 2}, AIR_100
#define OTHER PULDEHO_LEDGER_BLOCK /* where tracer 1's block starts */
#define ADD(TRACER, CELL, ID, UNITS) .r = {.name = ADD_EMITTER, .tracer = TRACER, .cell = CELL, .id = ID, .units = UNITS}
#define REMOVE(TRACER, ID) .r = {.name = REMOVE_EMITTER, .tracer = TRACER, .id = ID}
#define TICK_OF(TRACER) .r = {.name = TICK, .tracer = TRACER}
/* Emitters of ids 1 to 16 in cell 2, of 10 units each. */
#define SIXTEEN .ledger = {16, 160, 0, 1, 2, 10, 2, 2, 10, 3, 2, 10, 4, 2, 10, 5, 2, 10, 6, 2, 10, 7, 2, 10, 8, 2, 10, \
    9, 2, 10, 10, 2, 10, 11, 2, 10, 12, 2, 10, 13, 2, 10, 14, 2, 10, 15, 2, 10, 16, 2, 10}
#define ANEW "; load again, which leaves no emitter standing, and add the emitters anew"
#define SET(TRACER, NUMBER, LO, HI) .r = {.name = SET_LIMITER, .tracer = TRACER, .limiter = NUMBER, .lo = LO, .hi = HI}
#define WRITTEN "; the ledger was written by something else than calls: load again, then add the emitters and set the limiters anew"
#define BOOKED(...) .ledger = {[BOOK] = __VA_ARGS__}
#define FALSE_BOOK CASE_P, BOOKED(401)
#define ONE_LESS .refusal = PULDEHO_REFUSAL_BOOKS, \
    .text = "the book of tracer 0 has 401 loaded, 0 emitted and 0 withdrawn (numbers 56 to 58 of the ledger), which makes 401, and " \
            "its cells sum to 400, 1 less" BOOKS_ANEW
#define EMIT(AMOUNT) .r = {.name = EMISSION, .cell = 2, .amount = AMOUNT}
#define WITHDRAW(AMOUNT) .r = {.name = WITHDRAWAL, .cell = 3, .amount = AMOUNT}
#define TOTAL_OF(TRACER) .r = {.name = TOTAL, .tracer = TRACER}
#define SUMS_ANEW "; to go on, read the book and load again, then add the emitters and set the limiters anew"
#define BOOKS_ANEW "; tracers or ledger were written by something else than calls: load again, then add the emitters and set the " \
    "limiters anew, or bring back tracers and ledger together"
#define REMAP_TWO(...) .r = {.name = REMAP, .length = 6, .table = LISTED(__VA_ARGS__)}

static const struct fixed fixed[] = {
    {CASE_P, SWEEP_ROW(0, 50, 0, 0), .refusal = PULDEHO_ACCEPTED, .text = "the call would be accepted"},
    {.grid = {3, 1, 1, 9}, .r = {.name = LOAD}, .refusal = PULDEHO_REFUSAL_GRID_RANGE,
     .text = "W (columns) is 3, it must be 4 to 72; N (tracers) is 9, it must be 1 to 8"},
    {CASE_P, .air_length = 7, .r = {.name = LOAD}, .refusal = PULDEHO_REFUSAL_LENGTHS,
     .text = "air has length 7, the grid wants 6 (K*C, where C = 2 + R*W; here W = 4, R = 1, K = 1, N = 1)"},
    {CASE_P, .tracers_length = 5, .r = {.name = LOAD}, .refusal = PULDEHO_REFUSAL_LENGTHS,
     .text = "tracers has length 5, the grid wants 6 (N*K*C, where C = 2 + R*W; here W = 4, R = 1, K = 1, N = 1)"},
    {CASE_P, .r = {.name = ZONAL, .length = 16}, .refusal = PULDEHO_REFUSAL_LENGTHS,
     .text = "fluxes has length 16, the grid wants 4 (W; here W = 4, R = 1, K = 1, N = 1); a length counts numbers, "
             "not bytes"},
    {CASE_P, .r = {.name = ZONAL, .length = 0}, .refusal = PULDEHO_REFUSAL_LENGTHS,
     .text = "fluxes has length 0, the grid wants 4 (W; here W = 4, R = 1, K = 1, N = 1); was it set?"},
    {CASE_P, .r = {.name = MERIDIONAL, .length = 4}, .refusal = PULDEHO_REFUSAL_LENGTHS,
     .text = "fluxes has length 4, the grid wants 8 (W*(R + 1); here W = 4, R = 1, K = 1, N = 1); fluxes of the other "
             "sweep have that length"},
    {CASE_P, .r = {.name = REMAP, .length = 2}, .refusal = PULDEHO_REFUSAL_LENGTHS,
     .text = "table has length 2, the grid wants 4 (2*(K + 1), an a and a b for each edge; here W = 4, R = 1, K = 1, N"
             " = 1)"},
    {SMALL, .air = {100, 100, 0, 100, 100, 70000}, .r = {.name = TOTAL}, .refusal = PULDEHO_REFUSAL_AIR_RANGE,
     .text = "cell 2 (layer 0, row 0, column 1) has air 0, it must be 1 to 65535; cells outside: 2 of 6"},
    {SMALL, .air = {100, 100, 100, 100, 100, 65536}, .r = {.name = LOAD}, .refusal = PULDEHO_REFUSAL_AIR_RANGE,
     .text = "cell 5 (north cap of layer 0) has air 65536, it must be 1 to 65535; cells outside: 1 of 6"},
    {SMALL, AIR_100, .tracers = {268435455, 1}, .r = {.name = LOAD}, .refusal = PULDEHO_REFUSAL_TOTALS,
     .text = "tracer 0 has the total 268435456, the limit is 268435455"},
    {CASE_P, .r = {.name = TOTAL, .tracer = 1}, .refusal = PULDEHO_REFUSAL_INDEX,
     .text = "there is no tracer 1, it may only be 0"},
    {CASE_P, .r = {.name = CELL, .cell = 6}, .refusal = PULDEHO_REFUSAL_INDEX,
     .text = "there is no cell 6, it may be 0 to 5 over all layers"},
    {CASE_P, .r = {.name = EMISSION, .cell = PULDEHO_NO_CELL}, .refusal = PULDEHO_REFUSAL_INDEX,
     .text = "there is no cell 4294967295 (-1, if the number was signed), it may be 0 to 5 over all layers; this "
             "number stands for an absent layer, row or column (PULDEHO_NO_CELL)"},
    {TWO_ROWS, AIR_9, .r = {.name = ZONAL, .row = 2, .length = 4},
     .refusal = PULDEHO_REFUSAL_INDEX, .text = "there is no row 2, it may be 0 to 1 from south to north"},
    {TWO_LAYERS, AIR_9, .r = {.name = MERIDIONAL, .layer = 2, .length = 8},
     .refusal = PULDEHO_REFUSAL_INDEX, .text = "there is no layer 2, it may be 0 to 1 from the top down"},
    {SMALL, AIR_100, .tracers = {268435455}, .r = {.name = EMISSION, .amount = 1}, .refusal = PULDEHO_REFUSAL_EMISSION,
     .text = "tracer 0 has the total 268435455 and the amount is 1; the limit is 268435455, so at most 0 can be "
             "emitted"},
    {CASE_P, .r = {.name = EMISSION, .cell = 2, .amount = 4294967295u}, .refusal = PULDEHO_REFUSAL_EMISSION,
     .text = "tracer 0 has the total 400 and the amount is 4294967295 (-1, if the number was signed); the limit is "
             "268435455, so at most 268435055 can be emitted"},
    {CASE_P, .r = {.name = WITHDRAWAL, .cell = 3, .amount = 201}, .refusal = PULDEHO_REFUSAL_WITHDRAWAL,
     .text = "cell 3 (layer 0, row 0, column 2) has 200 of tracer 0, the amount is 201"},
    {CASE_P, .ledger_length = 56, .r = {.name = LOAD}, .refusal = PULDEHO_REFUSAL_LENGTHS,
     .text = "ledger has length 56, the grid wants 59 (N*59; here W = 4, R = 1, K = 1, N = 1)"},
    {CASE_P, .ledger_length = 60, .r = {.name = EMISSION}, .refusal = PULDEHO_REFUSAL_LENGTHS,
     .text = "ledger has length 60, the grid wants 59 (N*59; here W = 4, R = 1, K = 1, N = 1)"},
    {CASE_P, .ledger = {17}, .r = {.name = LOAD}, .refusal = PULDEHO_ACCEPTED, .text = "the call would be accepted"},
    {CASE_P, .ledger = {17}, .r = {.name = EMISSION, .amount = 1}, .refusal = PULDEHO_ACCEPTED,
     .text = "the call would be accepted"},
    {TWO_GASES, .ledger = {[OTHER] = 17}, ADD(0, 3, 7, 50), .refusal = PULDEHO_REFUSAL_INDEX,
     .text = "tracer 1 has 17 emitters (number 59 of the ledger), at most 16 may stand" ANEW},
    {TWO_GASES, .ledger = {1, 5, 0, 8, 0, 5, [OTHER] = 2, 80, 0, 7, 3, 50, 9, 6, 30}, REMOVE(0, 8), .refusal = PULDEHO_REFUSAL_INDEX,
     .text = "emitter 1 of tracer 1, id 9, is in the absent cell 6 (number 66 of the ledger), cells are 0 to 5" ANEW},
    {CASE_P, .ledger = {3, 90, 0, 7, 3, 50, 9, 4, 30, 7, 5, 10}, TICK_OF(0), .refusal = PULDEHO_REFUSAL_INDEX,
     .text = "emitters 0 and 2 of tracer 0 both have the id 7 (numbers 3 and 9 of the ledger)" ANEW},
    {CASE_P, .ledger = {2, 80, 1, 7, 3, 50, 9, 4, 30}, .r = {.name = UNITS_A_TICK}, .refusal = PULDEHO_REFUSAL_INDEX,
     .text = "tracer 0 has the sum 4294967376 (numbers 1 and 2 of the ledger), and the units of its 2 emitters sum to 80" ANEW},
    {CASE_P, .ledger = {1, 41, 0, 7, 3, 40}, TICK_OF(0), .refusal = PULDEHO_REFUSAL_INDEX,
     .text = "tracer 0 has the sum 41 (numbers 1 and 2 of the ledger), and the units of its 1 emitter sum to 40" ANEW},
    {CASE_P, .ledger = {2, 4294967294u, 1, 7, 3, 4294967295u, 9, 3, 4294967295u, 9, 9, 9}, .r = {.name = UNITS_A_TICK},
     .refusal = PULDEHO_ACCEPTED, .text = "the call would be accepted"},
    {CASE_P, .ledger = {17}, ADD(1, 6, 7, 50), .refusal = PULDEHO_REFUSAL_INDEX,
     .text = "there is no tracer 1, it may only be 0"},
    {CASE_P, .ledger = {1, 50, 0, 7, 3, 50}, ADD(0, PULDEHO_NO_CELL, 7, 50), .refusal = PULDEHO_REFUSAL_INDEX,
     .text = "there is no cell 4294967295 (-1, if the number was signed), it may be 0 to 5 over all layers; this "
             "number stands for an absent layer, row or column (PULDEHO_NO_CELL)"},
    {CASE_P, ADD(0, 101, 3, 50), .refusal = PULDEHO_REFUSAL_INDEX,
     .text = "there is no cell 101, it may be 0 to 5 over all layers; the order is tracer, cell, id, units, and 3 was given "
             "as the id"},
    {CASE_P, ADD(0, 6, 101, 50), .refusal = PULDEHO_REFUSAL_INDEX,
     .text = "there is no cell 6, it may be 0 to 5 over all layers"},
    {TWO_GASES, .ledger = {1, 50, 0, 7, 3, 50}, ADD(1, 3, 7, 4294967295u), .refusal = PULDEHO_ACCEPTED,
     .text = "the call would be accepted"},
    {CASE_P, .ledger = {2, 80, 0, 9, 4, 30, 7, 3, 50}, ADD(0, 1, 7, 0), .refusal = PULDEHO_REFUSAL_EMITTER_ADDED,
     .text = "tracer 0 already has the id 7: emitter 1, in cell 3 (layer 0, row 0, column 2), of 50 units a tick; to change "
             "it, remove it and add it again"},
    {CASE_P, .ledger = {1, 1, 0, 7, 3, 1}, ADD(0, 1, 7, 0), .refusal = PULDEHO_REFUSAL_EMITTER_ADDED,
     .text = "tracer 0 already has the id 7: emitter 0, in cell 3 (layer 0, row 0, column 2), of 1 unit a tick; to change "
             "it, remove it and add it again"},
    {CASE_P, SIXTEEN, ADD(0, 1, 17, 268435455), .refusal = PULDEHO_REFUSAL_EMITTER_ADDED,
     .text = "tracer 0 has 16 emitters, no more may stand; remove one that has closed, or give the units of the new one by "
             "emission"},
    {CASE_P, SIXTEEN, ADD(0, 1, 17, 268435456), .refusal = PULDEHO_REFUSAL_EMITTER_ADDED,
     .text = "tracer 0 has 16 emitters, no more may stand; remove one that has closed"},
    {CASE_P, SIXTEEN, ADD(0, 2, 17, 5), .refusal = PULDEHO_REFUSAL_EMITTER_ADDED,
     .text = "tracer 0 has 16 emitters, no more may stand; remove one that has closed, or remove id 1, which is in cell 2 "
             "too, and add it again with the sum of the units, 15"},
    {CASE_P, SIXTEEN, ADD(0, 2, 17, 4294967295u), .refusal = PULDEHO_REFUSAL_EMITTER_ADDED,
     .text = "tracer 0 has 16 emitters, no more may stand; remove one that has closed"},
    {CASE_P, REMOVE(0, 7), .refusal = PULDEHO_REFUSAL_EMITTER_ABSENT,
     .text = "tracer 0 has no emitter of the id 7; it has no emitters, as after a load"},
    {TWO_GASES, .ledger = {2, 80, 0, 9, 4, 30, 8, 3, 50, [OTHER] = 1, 0, 0, 4294967295u, 5, 0}, REMOVE(0, 4294967295u),
     .refusal = PULDEHO_REFUSAL_EMITTER_ABSENT,
     .text = "tracer 0 has no emitter of the id 4294967295 (-1, if the number was signed); it has the ids 9, 8; tracer 1 has "
             "that id"},
    {CASE_P, .ledger = {2, 268435056, 0, 9, 4, 56, 8, 3, 268435000}, TICK_OF(0), .refusal = PULDEHO_REFUSAL_EMISSION,
     .text = "tracer 0 has the total 400 and a tick gives 268435056, the units of 2 emitters; the limit is 268435455, so at "
             "most 268435055 can be emitted, and nothing was; the largest is id 8, of 268435000 units a tick"},
    {CASE_P, .ledger = {1, 4294967295u, 0, 9, 4, 4294967295u}, TICK_OF(0), .refusal = PULDEHO_REFUSAL_EMISSION,
     .text = "tracer 0 has the total 400 and a tick gives 4294967295, the units of 1 emitter; the limit is 268435455, so at "
             "most 268435055 can be emitted, and nothing was; the largest is id 9, of 4294967295 (-1, if the number was "
             "signed) units a tick"},
    {SMALL, AIR_100, .tracers = {268435455}, .ledger = {1, 1, 0, 9, 4, 1}, TICK_OF(0), .refusal = PULDEHO_REFUSAL_EMISSION,
     .text = "tracer 0 has the total 268435455 and a tick gives 1, the units of 1 emitter; the limit is 268435455, so at "
             "most 0 can be emitted, and nothing was; the largest is id 9, of 1 unit a tick"},
    {CASE_P, .ledger = {2, 268435055, 0, 9, 4, 55, 8, 3, 268435000}, TICK_OF(0), .refusal = PULDEHO_ACCEPTED,
     .text = "the call would be accepted"},
    {SMALL, AIR_100, .tracers = {268435455}, .ledger = {1, 0, 0, 9}, TICK_OF(0), .refusal = PULDEHO_ACCEPTED,
     .text = "the call would be accepted"},
    {CASE_P, .as_given = true, SWEEP_ROW(0, 50, 0, 0), .refusal = PULDEHO_REFUSAL_LIMITERS,
     .text = "no tracer has a limiter, as the ledger is all zeros: no load was made; load the world first"},
    {TWO_GASES, .as_given = true, COUNT_ROW(0, 50, 0, 0), .refusal = PULDEHO_REFUSAL_LIMITERS,
     .text = "no tracer has a limiter, as the ledger is all zeros: no load was made; load the world first"},
    {TWO_GASES, .as_given = true, .ledger = {[LIMITER] = 1}, .r = {.name = LONG_ZONAL, .layer = 1, .length = 4},
     .refusal = PULDEHO_REFUSAL_LIMITERS,
     .text = "tracer 1 has no limiter (number 110 of the ledger is 0): no load was made, or the ledger was overwritten; "
             "load the world, then add the emitters and set the limiters"},
    {CASE_P, .ledger = {[LIMITER] = 4294967295u}, GIVEN_ROW(7, 0, 1048561, 0, 0), .refusal = PULDEHO_REFUSAL_LIMITERS,
     .text = "tracer 0 has the limiter 4294967295 (number 51 of the ledger), which is none of 1, 2 and 3" WRITTEN},
    {TWO_GASES, .ledger = {[OTHER + LIMITER] = 2, 10, 3, 11, 2}, SWEEP_LAYER(0, 0, 0, 0, 0, 0, 0, 0), .refusal = PULDEHO_REFUSAL_LIMITERS,
     .text = "tracer 1 has the limiter 2 with lo 12884901898 above hi 8589934603 (numbers 111 to 114 of the ledger)" WRITTEN},
    {CASE_P, .ledger = {[LIMITER] = 3, 1, 0, 0, 0}, .r = {.name = REMAP, .length = 4}, .refusal = PULDEHO_REFUSAL_LIMITERS,
     .text = "tracer 0 has the limiter 3 with lo 1 above hi 0 (numbers 52 to 55 of the ledger)" WRITTEN},
    {CASE_P, .ledger = {[LIMITER] = 3, 4294967295u, 4294967295u, 4294967295u, 4294967295u}, SWEEP_ROW(0, 50, 0, 0),
     .refusal = PULDEHO_ACCEPTED, .text = "the call would be accepted"},
    {CASE_P, .as_given = true, .ledger = {17, [BOOK] = 400}, SET(0, 3, 0, 0), .refusal = PULDEHO_ACCEPTED,
     .text = "the call would be accepted"},
    {CASE_P, SET(0, 4, 0, 0), .refusal = PULDEHO_REFUSAL_LIMITERS,
     .text = "there is no limiter 4, it may be 1 (present), 2 (positive) or 3 (fixed)"},
    {TWO_GASES, SET(1, 0, 9, 8), .refusal = PULDEHO_REFUSAL_LIMITERS,
     .text = "there is no limiter 0, it may be 1 (present), 2 (positive) or 3 (fixed); the order is tracer, limiter, lo, hi, and 1 "
             "was given as the tracer, 0 as the limiter"},
    {TWO_GASES, SET(3, 1, 9, 8), .refusal = PULDEHO_REFUSAL_INDEX,
     .text = "there is no tracer 3, it may be 0 to 1; the order is tracer, limiter, lo, hi, and 3 was given as the tracer, 1 as the "
             "limiter"},
    {TWO_GASES, SET(2, 3, 0, 0), .refusal = PULDEHO_REFUSAL_INDEX, .text = "there is no tracer 2, it may be 0 to 1"},
    {CASE_P, SET(0, 3, 262145, 262144), .refusal = PULDEHO_REFUSAL_LIMITERS,
     .text = "lo is 262145 and above hi, which is 262144; lo must be at most hi, and both are mixing ratios times 262144"},
    {CASE_P, SET(0, 3, UINT64_MAX, 262144), .refusal = PULDEHO_REFUSAL_LIMITERS,
     .text = "lo is 18446744073709551615 (-1, if the number was signed) and above hi, which is 262144; lo must be at most hi, and "
             "both are mixing ratios times 262144"},
    {CASE_P, SET(0, 2, 1, 0), .refusal = PULDEHO_REFUSAL_LIMITERS,
     .text = "lo is 1 and above hi, which is 0; limiter 2 does not read them: give 0 and 0"},
    {CASE_P, .as_given = true, TOTAL_OF(0), .refusal = PULDEHO_REFUSAL_BOOKS,
     .text = "tracer 0 has the total 400 and no book, as the ledger is all zeros: no load was made; load the world first"},
    {TWO_GASES, .as_given = true, TOTAL_OF(1), .refusal = PULDEHO_ACCEPTED, .text = "the call would be accepted"},
    {CASE_P, BOOKED(400, 61, 20), TOTAL_OF(1), .refusal = PULDEHO_REFUSAL_BOOKS,
     .text = "the book of tracer 0 has 400 loaded, 61 emitted and 20 withdrawn (numbers 56 to 58 of the ledger), which makes 441, "
             "and its cells sum to 400, 41 less" BOOKS_ANEW},
    {TWO_GASES, .tracers = {[8] = 100, 200, 100, 42}, .ledger = {[OTHER + BOOK] = 400, 61, 20}, EMIT(268435456),
     .refusal = PULDEHO_REFUSAL_BOOKS,
     .text = "the book of tracer 1 has 400 loaded, 61 emitted and 20 withdrawn (numbers 115 to 117 of the ledger), which makes 441, "
             "and its cells sum to 442, 1 more" BOOKS_ANEW},
    {CASE_P, BOOKED(0, 0, 4294966896u), WITHDRAW(201), .refusal = PULDEHO_REFUSAL_BOOKS,
     .text = "the book of tracer 0 has 0 loaded, 0 emitted and 4294966896 withdrawn (numbers 56 to 58 of the ledger), which makes "
             "-4294966896, and its cells sum to 400, 4294967296 more" BOOKS_ANEW},
    {CASE_P, BOOKED(4294967295u, 401, 0), ADD(0, 1, 7, 50), .refusal = PULDEHO_REFUSAL_BOOKS,
     .text = "the book of tracer 0 has 4294967295 loaded, 401 emitted and 0 withdrawn (numbers 56 to 58 of the ledger), which makes "
             "4294967696, and its cells sum to 400, 4294967296 less" BOOKS_ANEW},
    {CASE_P, BOOKED(4294967295u, 4294967295u, 4294967295u), REMOVE(0, 7), .refusal = PULDEHO_REFUSAL_BOOKS,
     .text = "the book of tracer 0 has 4294967295 loaded, 4294967295 emitted and 4294967295 withdrawn (numbers 56 to 58 of the "
             "ledger), which makes 4294967295, and its cells sum to 400, 4294966895 less" BOOKS_ANEW},
    {FALSE_BOOK, .r = {.name = EMISSION, .tracer = 9}, ONE_LESS},
    {FALSE_BOOK, .r = {.name = WITHDRAWAL, .tracer = 9}, ONE_LESS},
    {FALSE_BOOK, .r = {.name = ZONAL, .layer = 9, .length = 4}, ONE_LESS},
    {FALSE_BOOK, .r = {.name = COUNT_ZONAL, .layer = 9, .length = 4}, ONE_LESS},
    {FALSE_BOOK, .r = {.name = ZONAL_WITH_COUNT, .layer = 9, .length = 4}, ONE_LESS},
    {FALSE_BOOK, .r = {.name = LONG_ZONAL, .layer = 9, .length = 4}, ONE_LESS},
    {FALSE_BOOK, .r = {.name = MERIDIONAL, .layer = 9, .length = 8}, ONE_LESS},
    {FALSE_BOOK, .r = {.name = REMAP, .length = 4}, ONE_LESS},
    {FALSE_BOOK, .r = {.name = CELL, .tracer = 9}, ONE_LESS},
    {FALSE_BOOK, ADD(9, 9, 9, 9), ONE_LESS},
    {FALSE_BOOK, REMOVE(9, 9), ONE_LESS},
    {FALSE_BOOK, TICK_OF(9), ONE_LESS},
    {FALSE_BOOK, .r = {.name = UNITS_A_TICK, .tracer = 9}, ONE_LESS},
    {FALSE_BOOK, SET(9, 4, 1, 0), ONE_LESS},
    {CASE_P, .ledger = {[LIMITER] = 4, [BOOK] = 1}, SWEEP_ROW(0, 50, 0, 0), .refusal = PULDEHO_REFUSAL_LIMITERS,
     .text = "tracer 0 has the limiter 4 (number 51 of the ledger), which is none of 1, 2 and 3" WRITTEN},
    {CASE_P, BOOKED(1, 2, 3), .r = {.name = LOAD}, .refusal = PULDEHO_ACCEPTED, .text = "the call would be accepted"},
    {CASE_P, BOOKED(300, 4294967295u, 4294967195u), .r = {.name = UNITS_A_TICK}, .refusal = PULDEHO_ACCEPTED,
     .text = "the call would be accepted"},
    {SMALL, AIR_100, BOOKED(0, 4294967280u, 4294967280u), EMIT(15), .refusal = PULDEHO_ACCEPTED, .text = "the call would be accepted"},
    {SMALL, AIR_100, BOOKED(0, 4294967280u, 4294967280u), EMIT(16), .refusal = PULDEHO_REFUSAL_EMISSION,
     .text = "since the load 4294967280 units of tracer 0 were emitted (number 57 of the ledger) and the amount is 16; the sum may not "
             "pass 4294967295, so at most 15 can be emitted until the next load" SUMS_ANEW},
    {SMALL, AIR_100, BOOKED(0, 4294967295u, 4294967295u), EMIT(0), .refusal = PULDEHO_ACCEPTED, .text = "the call would be accepted"},
    {SMALL, AIR_100, BOOKED(0, 4294967295u, 4294967295u), EMIT(4294967295u), .refusal = PULDEHO_REFUSAL_EMISSION,
     .text = "since the load 4294967295 units of tracer 0 were emitted (number 57 of the ledger) and the amount is 4294967295 (-1, if "
             "the number was signed); the sum may not pass 4294967295, so at most 0 can be emitted until the next load" SUMS_ANEW},
    {SMALL, AIR_100, .tracers = {268435440}, BOOKED(0, 4294967280u, 4026531840u), EMIT(16), .refusal = PULDEHO_REFUSAL_EMISSION,
     .text = "tracer 0 has the total 268435440 and the amount is 16; the limit is 268435455, so at most 15 can be emitted"},
    {TWO_GASES, .ledger = {[OTHER] = 2, 16, 0, 7, 3, 10, 8, 4, 6, [OTHER + BOOK] = 7, 4294967280u, 4294967287u}, TICK_OF(1),
     .refusal = PULDEHO_REFUSAL_EMISSION,
     .text = "since the load 4294967280 units of tracer 1 were emitted (number 116 of the ledger) and a tick gives 16, the units of 2 "
             "emitters; the sum may not pass 4294967295, so at most 15 can be emitted until the next load, and nothing was" SUMS_ANEW},
    {CASE_P, BOOKED(395, 4294967295u, 4294967290u), WITHDRAW(5), .refusal = PULDEHO_ACCEPTED, .text = "the call would be accepted"},
    {CASE_P, BOOKED(395, 4294967295u, 4294967290u), WITHDRAW(6), .refusal = PULDEHO_REFUSAL_WITHDRAWAL,
     .text = "since the load 4294967290 units of tracer 0 were withdrawn (number 58 of the ledger) and the amount is 6; the sum may "
             "not pass 4294967295, so at most 5 can be withdrawn until the next load" SUMS_ANEW},
    {CASE_P, BOOKED(200, 4294967295u, 4294967095u), WITHDRAW(201), .refusal = PULDEHO_REFUSAL_WITHDRAWAL,
     .text = "cell 3 (layer 0, row 0, column 2) has 200 of tracer 0, the amount is 201"},
    {CASE_P, SWEEP_ROW(0, 0, 1048561, -2147483647 - 1), .refusal = PULDEHO_REFUSAL_FLUXES,
     .text = "flux 2 (between columns 2 and 3) is 1048561, its size must be at most 1048560; fluxes above: 2 of 4"},
    {CASE_P, SWEEP_ROW(0, 0, 0, -2147483647 - 1), .refusal = PULDEHO_REFUSAL_FLUXES,
     .text = "flux 3 (between columns 3 and 0) is -2147483648, its size must be at most 1048560; fluxes above: 1 of 4"},
    {CASE_P, SWEEP_LAYER(0, 65536, 0, 0, 0, 0, 0, 0), .refusal = PULDEHO_REFUSAL_FLUXES,
     .text = "flux 1 (column 1, between the south cap and row 0) is 65536, its size must be at most 65535; fluxes "
             "above: 1 of 8"},
    {CASE_P, SWEEP_LAYER(0, 0, 0, 0, 0, 0, -65536, 0), .refusal = PULDEHO_REFUSAL_FLUXES,
     .text = "flux 6 (column 2, between row 0 and the north cap) is -65536, its size must be at most 65535; fluxes "
             "above: 1 of 8"},
    {TWO_ROWS, AIR_9, .r = {.name = MERIDIONAL, .length = 12, .fluxes = {0, 0, 0, 0, 0, 65536, 0, 65536}},
     .refusal = PULDEHO_REFUSAL_FLUXES,
     .text = "flux 5 (column 1, between rows 0 and 1) is 65536, its size must be at most 65535; fluxes above: 2 of "
             "12"},
    {CASE_P, SWEEP_ROW(0, 100, 0, 0), .refusal = PULDEHO_REFUSAL_ZONAL,
     .text = "cell 2 (layer 0, row 0, column 1) has air 100, its outflow 100 is 1.00 times its air, and it would end "
             "with air 0; of the row's 4 cells 1 would end with 0 or less and 0 above 65535; no count helps, and parts"
             " of this sweep alone end at the same air: if the meridional sweep can bring the air back, make that "
             "first, or the whole step in smaller ones; if not, the fluxes themselves must diverge less at this cell"},
    {SMALL, .air = {100, 100, 100, 65000, 100, 100}, SWEEP_ROW(0, 1500, 0, 0), .refusal = PULDEHO_REFUSAL_ZONAL,
     .text = "cell 2 (layer 0, row 0, column 1) has air 100, its outflow 1500 is 15.00 times its air, and it would end"
             " with air -1400; of the row's 4 cells 1 would end with 0 or less and 1 above 65535; no count helps, and "
             "parts of this sweep alone end at the same air: if the meridional sweep can bring the air back, make that"
             " first, or the whole step in smaller ones; if not, the fluxes themselves must diverge less at this cell"},
    {SMALL, .air = {100, 100, 2000, 65000, 100, 100}, SWEEP_ROW(0, 1500, 0, 0), .refusal = PULDEHO_REFUSAL_ZONAL,
     .text = "cell 3 (layer 0, row 0, column 2) has air 65000, its outflow 0 is 0.00 times its air, and it would end "
             "with air 66500; of the row's 4 cells 0 would end with 0 or less and 1 above 65535; no count helps, and "
             "parts of this sweep alone end at the same air: if the meridional sweep can bring the air back, make that"
             " first, or the whole step in smaller ones; if not, the fluxes themselves must converge less at this cell"},
    {CASE_P, SWEEP_ROW(1601, 1601, 1601, 1601), .refusal = PULDEHO_REFUSAL_ZONAL,
     .text = "cell 1 (layer 0, row 0, column 0) has air 100, its outflow 1601 is 16.01 times its air, and it would "
             "end with air 100; with 16 substeps it refuses first in substep 16, where its outflow is 101 and its "
             "air 100; every cell of the row would end within 1 to 65535, so a smaller time step helps: cut into 2 "
             "sweeps, all are accepted (part s of 2 of a flux F is floor(s*|F|/2) - floor((s - 1)*|F|/2), with the "
             "sign of F)"},
    {SMALL, .air = {1, 500, 500, 40, 500, 1}, SWEEP_ROW(2000, 2000, 2010, 2000), .refusal = PULDEHO_REFUSAL_ZONAL,
     .text = "cell 3 (layer 0, row 0, column 2) has air 40, its outflow 2010 is 50.25 times its air, and it would "
             "end with air 30; with 16 substeps it refuses first in substep 1, where its outflow is 125 and its air "
             "40; every cell of the row would end within 1 to 65535, so a smaller time step helps: cut into 5 "
             "sweeps, all are accepted (part s of 5 of a flux F is floor(s*|F|/5) - floor((s - 1)*|F|/5), with the "
             "sign of F)"},
    {SMALL, .air = {1, 1, 1, 1, 1, 1}, SWEEP_ROW(1025, 1025, 1025, 1025), .refusal = PULDEHO_REFUSAL_ZONAL,
     .text = "cell 1 (layer 0, row 0, column 0) has air 1, its outflow 1025 is 1025.00 times its air, and it would end"
             " with air 1; with 16 substeps it refuses first in substep 1, where its outflow is 64 and its air 1; "
             "every cell of the row would end within 1 to 65535, but cut into any number of sweeps from 2 to 64 the "
             "fluxes are refused too; more sweeps were not tried"},
    {SMALL, .air = {1, 9, 9, 500, 9, 1}, SWEEP_ROW(150, 150, 150, 150), .refusal = PULDEHO_REFUSAL_ZONAL,
     .text = "cell 1 (layer 0, row 0, column 0) has air 9, its outflow 150 is 16.67 times its air, and it would end with "
             "air 9; with 16 substeps it refuses first in substep 3, where its outflow is 10 and its air 9; every cell of "
             "the row would end within 1 to 65535, so a smaller time step helps: cut into 2 sweeps, all are accepted (part "
             "s of 2 of a flux F is floor(s*|F|/2) - floor((s - 1)*|F|/2), with the sign of F); the library's "
             "long zonal sweep takes the fluxes whole, and gives other amounts of tracer"},
    {CASE_P, LONG_ROW(400, 400, 400, 400), .refusal = PULDEHO_ACCEPTED, .text = "the call would be accepted"},
    {CASE_P, COUNT_ROW(0, 50, 0, 0), .refusal = PULDEHO_ACCEPTED, .text = "the call would be accepted"},
    {CASE_P, GIVEN_ROW(1, 0, 50, 0, 0), .refusal = PULDEHO_ACCEPTED, .text = "the call would be accepted"},
    {CASE_P, GIVEN_ROW(0, 0, 50, 0, 0), .refusal = PULDEHO_REFUSAL_GIVEN_COUNT,
     .text = "the sweep of layer 0, row 0 takes 1 substep now, and the given count is 0, as a refused call gives" COUNTS_AGAIN},
    {CASE_P, GIVEN_ROW(2, 0, 50, 0, 0), .refusal = PULDEHO_REFUSAL_GIVEN_COUNT,
     .text = "the sweep of layer 0, row 0 takes 1 substep now, and the given count is 2, which serves too and is not the smallest" COUNTS_AGAIN},
    {CASE_P, GIVEN_ROW(1, 150, 150, 150, 150), .refusal = PULDEHO_REFUSAL_GIVEN_COUNT,
     .text = "the sweep of layer 0, row 0 takes 2 substeps now, and the given count is 1, which does not serve" COUNTS_AGAIN},
    {SMALL, .air = {100, 1, 1000, 1000, 1000, 100}, GIVEN_ROW(6, 9, 0, 0, 10), .refusal = PULDEHO_REFUSAL_GIVEN_COUNT,
     .text = "the sweep of layer 0, row 0 takes 5 substeps now, and the given count is 6, which does not serve" COUNTS_AGAIN},
    {SMALL, .air = {100, 1, 1000, 1000, 1000, 100}, GIVEN_ROW(7, 9, 0, 0, 10), .refusal = PULDEHO_REFUSAL_GIVEN_COUNT,
     .text = "the sweep of layer 0, row 0 takes 5 substeps now, and the given count is 7, which serves too and is not the "
             "smallest" COUNTS_AGAIN},
    {CASE_P, GIVEN_ROW(17, 1600, 1600, 1600, 1600), .refusal = PULDEHO_REFUSAL_GIVEN_COUNT,
     .text = "the sweep of layer 0, row 0 takes 16 substeps now, and the given count is 17, more than any sweep takes" COUNTS_AGAIN},
    {CASE_P, GIVEN_ROW(4294967295u, 0, 50, 0, 0), .refusal = PULDEHO_REFUSAL_GIVEN_COUNT,
     .text = "the sweep of layer 0, row 0 takes 1 substep now, and the given count is 4294967295 (-1, if the number was signed), more than any "
             "sweep takes" COUNTS_AGAIN},
    {CASE_P, .r = {.name = ZONAL_WITH_COUNT, .length = 8, .given = 17}, .refusal = PULDEHO_REFUSAL_LENGTHS,
     .text = "fluxes has length 8, the grid wants 4 (W; here W = 4, R = 1, K = 1, N = 1); fluxes of the other sweep have "
             "that length"},
    {CASE_P, GIVEN_ROW(17, 0, 0, 1048561, 0), .refusal = PULDEHO_REFUSAL_FLUXES,
     .text = "flux 2 (between columns 2 and 3) is 1048561, its size must be at most 1048560; fluxes above: 1 of 4"},
    {CASE_P, .r = {.name = LONG_ZONAL, .length = 8}, .refusal = PULDEHO_REFUSAL_LENGTHS,
     .text = "fluxes has length 8, the grid wants 4 (W; here W = 4, R = 1, K = 1, N = 1); fluxes of the other sweep have "
             "that length"},
    {CASE_P, LONG_ROW(0, 0, 0, -1048561), .refusal = PULDEHO_REFUSAL_FLUXES,
     .text = "flux 3 (between columns 3 and 0) is -1048561, its size must be at most 1048560; fluxes above: 1 of 4"},
    {CASE_P, LONG_ROW(400, 401, 400, 400), .refusal = PULDEHO_REFUSAL_LONG_FLUX,
     .text = "flux 1 (between columns 1 and 2) is 401, its size must be at most the row's air, 400; fluxes above: 1 of 4; a "
             "whole turn brings every cell back: with 400 taken off every flux the sweep is accepted and ends the same"},
    {CASE_P, LONG_ROW(-1201, -1200, -1200, -1200), .refusal = PULDEHO_REFUSAL_LONG_FLUX,
     .text = "flux 0 (between columns 0 and 1) is -1201, its size must be at most the row's air, 400; fluxes above: 4 of 4; "
             "a whole turn brings every cell back: with 1200 added to every flux the sweep is accepted and ends the same"},
    {CASE_P, LONG_ROW(401, 0, 0, 0), .refusal = PULDEHO_REFUSAL_LONG_FLUX,
     .text = "flux 0 (between columns 0 and 1) is 401, its size must be at most the row's air, 400; fluxes above: 1 of 4; "
             "and cell 1 (layer 0, row 0, column 0) has air 100, 0 come in and 401 go out, and it would end with air -301; "
             "of the row's 4 cells 1 would end with 0 or less and 0 above 65535; parts of this sweep alone end at the same "
             "air: if the meridional sweep can bring the air back, make that first, or the whole step in smaller ones; if "
             "not, the fluxes themselves must diverge less at this cell"},
    {CASE_P, LONG_ROW(100, 0, 0, 0), .refusal = PULDEHO_REFUSAL_LONG_AIR,
     .text = "cell 1 (layer 0, row 0, column 0) has air 100, 0 come in and 100 go out, and it would end with air 0; of the "
             "row's 4 cells 1 would end with 0 or less and 0 above 65535; parts of this sweep alone end at the same air: if "
             "the meridional sweep can bring the air back, make that first, or the whole step in smaller ones; if not, the "
             "fluxes themselves must diverge less at this cell"},
    {TWO_LAYERS, .air = {9, 65000, 2000, 9, 9, 9, 9, 9, 9, 9, 9, 9}, LONG_ROW(-1500, 0, 0, 0),
     .refusal = PULDEHO_REFUSAL_LONG_AIR,
     .text = "cell 1 (layer 0, row 0, column 0) has air 65000, 1500 come in and 0 go out, and it would end with air 66500; "
             "of the row's 4 cells 0 would end with 0 or less and 1 above 65535; parts of this sweep alone end at the same "
             "air: if the meridional sweep or a remap can bring the air back, make that first, or the whole step in smaller "
             "ones; if not, the fluxes themselves must converge less at this cell"},
    {CASE_P, SWEEP_LAYER(0, 0, 0, 0, -30, -30, -30, -40), .refusal = PULDEHO_REFUSAL_MERIDIONAL,
     .text = "cell 5 (north cap of layer 0) has air 100, its outflow 130, the sum through its 4 faces, is 1.30 times "
             "its air, and it would end with air -30; of the layer's 6 cells 1 would be refused, 1 would end with 0 or"
             " less and 0 above 65535; parts of this sweep alone end at the same air: the fluxes themselves must "
             "diverge less at this cap"},
    {CASE_P, SWEEP_LAYER(-40, -40, -40, -40, 0, 0, 120, 0), .refusal = PULDEHO_REFUSAL_MERIDIONAL,
     .text = "cell 3 (layer 0, row 0, column 2) has air 100, its outflow 160 is 1.60 times its air, and it would end "
             "with air -60; of the layer's 6 cells 1 would be refused, 1 would end with 0 or less and 0 above 65535; "
             "parts of this sweep alone end at the same air: if the zonal sweeps can bring the air back, make those "
             "first, or the whole step in smaller ones; if not, the fluxes themselves must diverge less at this cell"},
    {CASE_P, SWEEP_LAYER(25, 25, 25, 25, 0, 200, 0, 0), .refusal = PULDEHO_REFUSAL_MERIDIONAL,
     .text = "cell 0 (south cap of layer 0) has air 100, its outflow 100, the sum through its 4 faces, is 1.00 times "
             "its air, and it would end with air 0; of the layer's 6 cells 2 would be refused, 2 would end with 0 or "
             "less and 0 above 65535; parts of this sweep alone end at the same air: the fluxes themselves must "
             "diverge less at this cap"},
    {TWO_LAYERS, AIR_9, SWEEP_ROW(0, 9, 0, 0), .refusal = PULDEHO_REFUSAL_ZONAL,
     .text = "cell 2 (layer 0, row 0, column 1) has air 9, its outflow 9 is 1.00 times its air, and it would end with "
             "air 0; of the row's 4 cells 1 would end with 0 or less and 0 above 65535; no count helps, and parts of "
             "this sweep alone end at the same air: if the meridional sweep or a remap can bring the air back, make "
             "that first, or the whole step in smaller ones; if not, the fluxes themselves must diverge less at this "
             "cell"},
    {TWO_LAYERS, AIR_9, SWEEP_LAYER(3, 3, 3, 0, 0, 0, 0, 0), .refusal = PULDEHO_REFUSAL_MERIDIONAL,
     .text = "cell 0 (south cap of layer 0) has air 9, its outflow 9, the sum through its 4 faces, is 1.00 times its "
             "air, and it would end with air 0; of the layer's 6 cells 1 would be refused, 1 would end with 0 or less "
             "and 0 above 65535; parts of this sweep alone end at the same air: if a remap can bring the air back, "
             "make that first, or the whole step in smaller ones; if not, the fluxes themselves must diverge less at "
             "this cap"},
    {SMALL, .air = {600, 900, 900, 900, 900, 900}, SWEEP_LAYER(201, 201, 201, -200, 0, 0, 0, 0), .refusal = PULDEHO_REFUSAL_MERIDIONAL,
     .text = "cell 0 (south cap of layer 0) has air 600, its outflow 603, the sum through its 4 faces, is 1.01 times "
             "its air, and it would end with air 197; of the layer's 6 cells 1 would be refused, with more outflow "
             "than air; every cell of the layer would end within 1 to 65535, so a smaller time step helps: cut into 2 "
             "sweeps, all are accepted (part s of 2 of a flux F is floor(s*|F|/2) - floor((s - 1)*|F|/2), with the "
             "sign of F)"},
    {CASE_P, SWEEP_LAYER(60, 60, -60, -60, 60, 60, -60, -60), .refusal = PULDEHO_REFUSAL_MERIDIONAL,
     .text = "cell 0 (south cap of layer 0) has air 100, its outflow 120, the sum through its 4 faces, is 1.20 "
             "times its air, and it would end with air 100; of the layer's 6 cells 2 would be refused, with more "
             "outflow than air; every cell of the layer would end within 1 to 65535, so a smaller time step helps: "
             "cut into 2 sweeps, all are accepted (part s of 2 of a flux F is floor(s*|F|/2) - floor((s - "
             "1)*|F|/2), with the sign of F)"},
    {CASE_P, SWEEP_LAYER(0, 300, 0, -300, 0, 300, 0, -300), .refusal = PULDEHO_REFUSAL_MERIDIONAL,
     .text = "cell 0 (south cap of layer 0) has air 100, its outflow 300, the sum through its 4 faces, is 3.00 "
             "times its air, and it would end with air 100; of the layer's 6 cells 4 would be refused, with more "
             "outflow than air; every cell of the layer would end within 1 to 65535, so a smaller time step helps: "
             "cut into 3 sweeps, all are accepted (part s of 3 of a flux F is floor(s*|F|/3) - floor((s - "
             "1)*|F|/3), with the sign of F)"},
    {SMALL, .air = {1, 9, 9, 9, 9, 9}, SWEEP_LAYER(1, 1, -1, -1, 0, 0, 0, 0), .refusal = PULDEHO_REFUSAL_MERIDIONAL,
     .text = "cell 0 (south cap of layer 0) has air 1, its outflow 2, the sum through its 4 faces, is 2.00 times its "
             "air, and it would end with air 1; of the layer's 6 cells 1 would be refused, with more outflow than air;"
             " every cell of the layer would end within 1 to 65535, but cut into any number of sweeps from 2 to 64 the"
             " fluxes are refused too; more sweeps were not tried"},
    {TWO_LAYERS, AIR_9, REMAP_TWO(0, 0, 2097121, 5, 0, 65536), .refusal = PULDEHO_REFUSAL_TABLE,
     .text = "pair 1 of 0 to 2 is (2097121, 5), an a may be 0 to 2097120"},
    {TWO_LAYERS, AIR_9, REMAP_TWO(0, 0, 0, 32768, 0, 65535), .refusal = PULDEHO_REFUSAL_TABLE,
     .text = "pair 2 of 0 to 2 is (0, 65535), the last pair must be (0, 65536)"},
    {CASE_P, .r = {.name = REMAP, .length = 4, .table = {1, 0, 0, 65536}}, .refusal = PULDEHO_REFUSAL_TABLE,
     .text = "pair 0 of 0 to 1 is (1, 0), the first pair must be (0, 0)"},
    {TWO_LAYERS, AIR_9, REMAP_TWO(0, 0, 0, 65537, 0, 65536), .refusal = PULDEHO_REFUSAL_TABLE,
     .text = "pair 1 of 0 to 2 is (0, 65537), a b may be 0 to 65536"},
    {TWO_LAYERS, .air = {9, 2, 1, 9, 9, 9, 9, 1, 1, 9, 9, 9}, REMAP_TWO(0, 0, 0, 16384, 0, 65536),
     .refusal = PULDEHO_REFUSAL_REMAP,
     .text = "in the column at row 0, column 1 (air sum P = 2) edge 0 is 0 and edge 1 is 0, so new layer 0 would have "
             "air 0, it must be 1 to 65535; columns refused: 2 of 6; from pair 0 to pair 1 a changes by 0 and b by "
             "16384: with a change of b from 32768 to 65536 every column would have 1 to 65535 there (move the b of "
             "either pair; the pairs beyond must still rise)"},
    {TWO_LAYERS, .air = {65535, 9, 9, 9, 9, 9, 65535, 9, 9, 9, 9, 9}, REMAP_TWO(0, 0, 0, 40000, 0, 65536),
     .refusal = PULDEHO_REFUSAL_REMAP,
     .text = "in the column of the south cap (air sum P = 131070) edge 0 is 0 and edge 1 is 79998, so new layer 0 "
             "would have air 79998, it must be 1 to 65535; columns refused: 1 of 6; from pair 0 to pair 1 a changes by"
             " 0 and b by 40000: with a change of b from 3641 to 32767 every column would have 1 to 65535 there (move "
             "the b of either pair; the pairs beyond must still rise)"},
    {TWO_LAYERS, .air = {90, 90, 90, 90, 90, 40, 90, 90, 90, 90, 90, 40}, REMAP_TWO(0, 0, 100, 0, 0, 65536),
     .refusal = PULDEHO_REFUSAL_REMAP,
     .text = "in the column of the north cap (air sum P = 80) edge 1 is 100 and edge 2 is 80, so new layer 1 would "
             "have air -20, it must be 1 to 65535; columns refused: 1 of 6; from pair 1 to pair 2 a changes by -100 "
             "and b by 65536: no change of b serves every column with this change of a, which is an amount of air and "
             "the same in every column"},
    {TWO_LAYERS, .air = {65000, 65000, 65000, 65000, 65000, 65000, 65000, 65000, 65000, 65000, 65000, 65000},
     REMAP_TWO(0, 0, 65536, 16384, 0, 65536), .refusal = PULDEHO_REFUSAL_REMAP,
     .text = "in the column of the south cap (air sum P = 130000) edge 0 is 0 and edge 1 is 98036, so new layer 0 would have "
             "air 98036, it must be 1 to 65535; columns refused: 6 of 6; from pair 0 to pair 1 a changes by 65536 and b by "
             "16384: no change of b serves every column with this change of a, which is an amount of air and the same in "
             "every column"},
};

static void check_fixed(const struct fixed *f)
{
    char text[PULDEHO_WHY_SIZE];
    struct fixed own = *f;
    bool in_range = f->refusal != PULDEHO_REFUSAL_GRID_RANGE;
    size_t air = in_range ? puldeho_air_length(f->grid) : 0, tracers = in_range ? puldeho_tracers_length(f->grid) : 0;
    struct puldeho_world world = puldeho_world_over(
        f->grid, own.air, f->air_length == 0 ? air : f->air_length,
        own.tracers, f->tracers_length == 0 ? tracers : f->tracers_length);
    for (size_t tracer = 0; tracer < 2 && !f->as_given; tracer++) {
        uint32_t *block = own.ledger + tracer * PULDEHO_LEDGER_BLOCK;
        if (block[LIMITER] == 0)
            block[LIMITER] = PULDEHO_LIMITER_PRESENT;
        if (block[BOOK] == 0 && block[BOOK + 1] == 0 && block[BOOK + 2] == 0)
            block[BOOK] = (uint32_t)total_of(&world, tracer);
    }
    world.ledger = own.ledger;
    world.ledger_length = f->ledger_length != 0 ? f->ledger_length : in_range ? puldeho_ledger_length(f->grid) : 0;
    struct puldeho_world lent = copy_of(&world);
    if (why(&lent, &f->r, text, sizeof text) != f->refusal || strcmp(text, f->text) != 0)
        differs("another text than in the table", text);
    check_call(&lent, &f->r, strlen(f->text));
    drop(&lent);
}

/* The widest layer, and the longest numbers: the text still fits, and so does the stack. */
static void *check_large(void *nothing)
{
    static uint32_t air[32 * 3170], tracers[8 * 32 * 3170];
    static int32_t fluxes[72 * 45];
    char text[PULDEHO_WHY_SIZE];
    struct puldeho_grid grid = {72, 44, 32, 8};
    struct puldeho_world world = puldeho_world_over(grid, air, 32 * 3170, tracers, 8 * 32 * 3170);
    for (size_t i = 0; i < 32 * 3170; i++)
        air[i] = 65535;
    for (size_t i = 0; i < 72 * 45; i++)
        fluxes[i] = i % 2 == 0 ? 65535 : -65535;
    if (puldeho_load(&world) != PULDEHO_ACCEPTED)
        differs("the largest world is not loaded", "");
    if (puldeho_why_meridional(&world, 31, fluxes, 72 * 45, text, sizeof text) != PULDEHO_REFUSAL_MERIDIONAL
        || puldeho_meridional(&world, 31, fluxes, 72 * 45, NULL) != PULDEHO_REFUSAL_MERIDIONAL
        || strlen(text) >= PULDEHO_WHY_SIZE - 1)
        differs("the widest layer", text);
    return nothing;
}

/* In a thread whose whole stack is what the header says. */
static void check_stack(void)
{
    pthread_attr_t attributes;
    pthread_t thread;
    if (pthread_attr_init(&attributes) != 0 || pthread_attr_setstacksize(&attributes, PULDEHO_WHY_STACK) != 0
        || pthread_create(&thread, &attributes, check_large, NULL) != 0 || pthread_join(thread, NULL) != 0)
        differs("no thread", "");
}

/* Whether a number between those of the calls is a refusal of the runner program. */
static bool is_program(size_t number)
{
    return number > PULDEHO_REFUSAL_REMAP && number < PULDEHO_REFUSAL_LONG_FLUX;
}

/* Every refusal and every kind of text was met. */
static bool all_reached(void)
{
    bool all = changes > 0 && ends[0] && cuts[0] && uncut[0] && ends[1] && cuts[1] && uncut[1];
    all = all && long_ends && turns[0] && turns[1] && long_instead[0] && long_instead[1];
    all = all && faults[0] && faults[1] && faults[2] && faults[3] && full[0] && full[1] && twice;
    all = all && limiters[0] && limiters[1] && limiters[2] && to_set[0] && to_set[1] && to_set[2];
    all = all && absent[0] && absent[1] && given[0] && given[1] && given[2] && given[3] && books[0] && books[1] && books[2];
    all = all && rooms[0][0] && rooms[0][1] && rooms[0][2] && rooms[1][0] && rooms[1][1] && rooms[1][2];
    for (size_t i = 0; i <= MOST_REFUSAL; i++)
        all = all && (reached[i] > 0 || is_program(i));
    return all;
}

int main(void)
{
    size_t texts = sizeof fixed / sizeof fixed[0];
    for (size_t i = 0; i < texts; i++)
        check_fixed(&fixed[i]);
    check_stack();
    for (int i = 0; i < CALLS; i++)
        seeded_call();
    if (!all_reached())
        differs("some refusal or kind of text was not reached", "");
    printf("why: %zu texts and %d seeded calls, %lu refused; sweeps of which a cell ends outside %lu, that serve as "
           "parts %lu, that do not %lu; long sweeps of which a cell ends outside %lu, of more than a turn %lu; ledgers with a "
           "fault %lu, emitters added twice or above 16 %lu, absent %lu; other counts given %lu; limiters %lu, to be set %lu; books %lu, "
           "amounts above a total or a cell %lu, above a sum %lu; %d differences\n", texts,
           CALLS, CALLS + texts - reached[0], ends[0] + ends[1], cuts[0] + cuts[1], uncut[0] + uncut[1], long_ends,
           turns[0] + turns[1], faults[0] + faults[1] + faults[2] + faults[3], full[0] + full[1] + twice,
           absent[0] + absent[1], given[0] + given[1] + given[2] + given[3], limiters[0] + limiters[1] + limiters[2],
           to_set[0] + to_set[1] + to_set[2], books[0] + books[1] + books[2], rooms[0][0] + rooms[0][1] + rooms[0][2],
           rooms[1][0] + rooms[1][1] + rooms[1][2], differences);
    return differences == 0 ? 0 : 1;
}
