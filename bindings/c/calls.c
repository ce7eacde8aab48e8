/* Made by tools/bindings from the tables of bindings/: not to be edited. */
#include <stdlib.h>

#include "script.h"

static bool make_load(struct puldeho_world *world, char *rest, struct outcome *outcome)
{
    if (!at_end(rest))
        return false;
    outcome->why = puldeho_why_load(world, outcome->text, sizeof outcome->text);
    outcome->refusal = puldeho_load(world);
    return true;
}

static bool make_emission(struct puldeho_world *world, char *rest, struct outcome *outcome)
{
    uint32_t tracer;
    uint32_t cell;
    uint32_t amount;
    if (!take_u32(&rest, &tracer)
        || !take_u32(&rest, &cell)
        || !take_u32(&rest, &amount)
        || !at_end(rest))
        return false;
    outcome->why = puldeho_why_emission(world, tracer, cell, amount, outcome->text, sizeof outcome->text);
    outcome->refusal = puldeho_emission(world, tracer, cell, amount);
    return true;
}

static bool make_withdrawal(struct puldeho_world *world, char *rest, struct outcome *outcome)
{
    uint32_t tracer;
    uint32_t cell;
    uint32_t amount;
    if (!take_u32(&rest, &tracer)
        || !take_u32(&rest, &cell)
        || !take_u32(&rest, &amount)
        || !at_end(rest))
        return false;
    outcome->why = puldeho_why_withdrawal(world, tracer, cell, amount, outcome->text, sizeof outcome->text);
    outcome->refusal = puldeho_withdrawal(world, tracer, cell, amount);
    return true;
}

static bool make_zonal(struct puldeho_world *world, char *rest, struct outcome *outcome)
{
    uint32_t layer;
    uint32_t row;
    struct list fluxes;
    uint32_t substeps;
    if (!take_u32(&rest, &layer)
        || !take_u32(&rest, &row)
        || !take_i32s(&rest, &fluxes)
        || !at_end(rest))
        return false;
    outcome->why = puldeho_why_zonal(world, layer, row, (const int32_t *)fluxes.numbers, fluxes.length, outcome->text, sizeof outcome->text);
    outcome->refusal = puldeho_zonal(world, layer, row, (const int32_t *)fluxes.numbers, fluxes.length, &substeps);
    outcome->count = substeps;
    free(fluxes.numbers);
    return true;
}

static bool make_count_zonal(struct puldeho_world *world, char *rest, struct outcome *outcome)
{
    uint32_t layer;
    uint32_t row;
    struct list fluxes;
    uint32_t substeps;
    if (!take_u32(&rest, &layer)
        || !take_u32(&rest, &row)
        || !take_i32s(&rest, &fluxes)
        || !at_end(rest))
        return false;
    outcome->why = puldeho_why_count_zonal(world, layer, row, (const int32_t *)fluxes.numbers, fluxes.length, outcome->text, sizeof outcome->text);
    outcome->refusal = puldeho_count_zonal(world, layer, row, (const int32_t *)fluxes.numbers, fluxes.length, &substeps);
    outcome->count = substeps;
    free(fluxes.numbers);
    return true;
}

static bool make_zonal_with_count(struct puldeho_world *world, char *rest, struct outcome *outcome)
{
    uint32_t layer;
    uint32_t row;
    uint32_t given;
    struct list fluxes;
    uint32_t substeps;
    if (!take_u32(&rest, &layer)
        || !take_u32(&rest, &row)
        || !take_u32(&rest, &given)
        || !take_i32s(&rest, &fluxes)
        || !at_end(rest))
        return false;
    outcome->why = puldeho_why_zonal_with_count(world, layer, row, given, (const int32_t *)fluxes.numbers, fluxes.length, outcome->text, sizeof outcome->text);
    outcome->refusal = puldeho_zonal_with_count(world, layer, row, given, (const int32_t *)fluxes.numbers, fluxes.length, &substeps);
    outcome->count = substeps;
    free(fluxes.numbers);
    return true;
}

static bool make_long_zonal(struct puldeho_world *world, char *rest, struct outcome *outcome)
{
    uint32_t layer;
    uint32_t row;
    struct list fluxes;
    if (!take_u32(&rest, &layer)
        || !take_u32(&rest, &row)
        || !take_i32s(&rest, &fluxes)
        || !at_end(rest))
        return false;
    outcome->why = puldeho_why_long_zonal(world, layer, row, (const int32_t *)fluxes.numbers, fluxes.length, outcome->text, sizeof outcome->text);
    outcome->refusal = puldeho_long_zonal(world, layer, row, (const int32_t *)fluxes.numbers, fluxes.length);
    free(fluxes.numbers);
    return true;
}

static bool make_meridional(struct puldeho_world *world, char *rest, struct outcome *outcome)
{
    uint32_t layer;
    struct list fluxes;
    uint32_t substeps;
    if (!take_u32(&rest, &layer)
        || !take_i32s(&rest, &fluxes)
        || !at_end(rest))
        return false;
    outcome->why = puldeho_why_meridional(world, layer, (const int32_t *)fluxes.numbers, fluxes.length, outcome->text, sizeof outcome->text);
    outcome->refusal = puldeho_meridional(world, layer, (const int32_t *)fluxes.numbers, fluxes.length, &substeps);
    outcome->count = substeps;
    free(fluxes.numbers);
    return true;
}

static bool make_remap(struct puldeho_world *world, char *rest, struct outcome *outcome)
{
    struct list table;
    uint32_t overlaps;
    if (!take_u32s(&rest, &table)
        || !at_end(rest))
        return false;
    outcome->why = puldeho_why_remap(world, (const uint32_t *)table.numbers, table.length, outcome->text, sizeof outcome->text);
    outcome->refusal = puldeho_remap(world, (const uint32_t *)table.numbers, table.length, &overlaps);
    outcome->count = overlaps;
    free(table.numbers);
    return true;
}

static bool make_total(struct puldeho_world *world, char *rest, struct outcome *outcome)
{
    uint32_t tracer;
    uint32_t units;
    if (!take_u32(&rest, &tracer)
        || !at_end(rest))
        return false;
    outcome->why = puldeho_why_total(world, tracer, outcome->text, sizeof outcome->text);
    outcome->refusal = puldeho_total(world, tracer, &units);
    outcome->count = units;
    return true;
}

static bool make_cell(struct puldeho_world *world, char *rest, struct outcome *outcome)
{
    uint32_t tracer;
    uint32_t cell;
    uint32_t units;
    if (!take_u32(&rest, &tracer)
        || !take_u32(&rest, &cell)
        || !at_end(rest))
        return false;
    outcome->why = puldeho_why_cell(world, tracer, cell, outcome->text, sizeof outcome->text);
    outcome->refusal = puldeho_cell(world, tracer, cell, &units);
    outcome->count = units;
    return true;
}

static bool make_add_emitter(struct puldeho_world *world, char *rest, struct outcome *outcome)
{
    uint32_t tracer;
    uint32_t cell;
    uint32_t id;
    uint32_t units;
    if (!take_u32(&rest, &tracer)
        || !take_u32(&rest, &cell)
        || !take_u32(&rest, &id)
        || !take_u32(&rest, &units)
        || !at_end(rest))
        return false;
    outcome->why = puldeho_why_add_emitter(world, tracer, cell, id, units, outcome->text, sizeof outcome->text);
    outcome->refusal = puldeho_add_emitter(world, tracer, cell, id, units);
    return true;
}

static bool make_remove_emitter(struct puldeho_world *world, char *rest, struct outcome *outcome)
{
    uint32_t tracer;
    uint32_t id;
    if (!take_u32(&rest, &tracer)
        || !take_u32(&rest, &id)
        || !at_end(rest))
        return false;
    outcome->why = puldeho_why_remove_emitter(world, tracer, id, outcome->text, sizeof outcome->text);
    outcome->refusal = puldeho_remove_emitter(world, tracer, id);
    return true;
}

static bool make_tick(struct puldeho_world *world, char *rest, struct outcome *outcome)
{
    uint32_t tracer;
    if (!take_u32(&rest, &tracer)
        || !at_end(rest))
        return false;
    outcome->why = puldeho_why_tick(world, tracer, outcome->text, sizeof outcome->text);
    outcome->refusal = puldeho_tick(world, tracer);
    return true;
}

static bool make_units_a_tick(struct puldeho_world *world, char *rest, struct outcome *outcome)
{
    uint32_t tracer;
    uint64_t units;
    if (!take_u32(&rest, &tracer)
        || !at_end(rest))
        return false;
    outcome->why = puldeho_why_units_a_tick(world, tracer, outcome->text, sizeof outcome->text);
    outcome->refusal = puldeho_units_a_tick(world, tracer, &units);
    outcome->count = units;
    return true;
}

static bool make_set_limiter(struct puldeho_world *world, char *rest, struct outcome *outcome)
{
    uint32_t tracer;
    uint32_t limiter;
    uint64_t lo;
    uint64_t hi;
    if (!take_u32(&rest, &tracer)
        || !take_u32(&rest, &limiter)
        || !take_u64(&rest, &lo)
        || !take_u64(&rest, &hi)
        || !at_end(rest))
        return false;
    outcome->why = puldeho_why_set_limiter(world, tracer, limiter, lo, hi, outcome->text, sizeof outcome->text);
    outcome->refusal = puldeho_set_limiter(world, tracer, limiter, lo, hi);
    return true;
}

const struct call calls[] = {
    {"load", make_load},
    {"emission", make_emission},
    {"withdrawal", make_withdrawal},
    {"zonal", make_zonal},
    {"count_zonal", make_count_zonal},
    {"zonal_with_count", make_zonal_with_count},
    {"long_zonal", make_long_zonal},
    {"meridional", make_meridional},
    {"remap", make_remap},
    {"total", make_total},
    {"cell", make_cell},
    {"add_emitter", make_add_emitter},
    {"remove_emitter", make_remove_emitter},
    {"tick", make_tick},
    {"units_a_tick", make_units_a_tick},
    {"set_limiter", make_set_limiter},
    {NULL, NULL},
};
