/* A program over the world type, kept unchanged from the first version on: every call, a refusal of each kind of argument.
 * The same program stands beside it in Rust, Python and Fortran, and all four print output.txt. */
#include <stdio.h>
#include <stdlib.h>

#include <puldeho.h>

/* Ends the program at a refusal that was not expected. */
static void accepted(const char *call, enum puldeho_refusal refusal)
{
    if (refusal != PULDEHO_ACCEPTED) {
        fprintf(stderr, "%s: %s; %s\n", call, puldeho_refusal_text(refusal), puldeho_refusal_remedy(refusal));
        exit(1);
    }
    printf("%s: accepted\n", call);
}

static void print_list(const char *name, const uint32_t *list, size_t length)
{
    printf("%s:", name);
    for (size_t i = 0; i < length; i++)
        printf(" %u", (unsigned)list[i]);
    printf("\n");
}

/* Every call once, accepted. */
static void make_calls(struct puldeho_world *world)
{
    static const int32_t eastward[4] = {150, 160, 140, 155};
    static const int32_t northward[12] = {5, -4, 3, 2, 10, 9, -8, 7, -6, 5, 4, -3};
    static const uint32_t table[6] = {0, 0, 0, 32768, 0, 65536};
    struct puldeho_grid grid = world->grid;
    uint32_t count;
    accepted("load", puldeho_load(world));
    accepted("emission", puldeho_emission(world, 1, puldeho_cell_number(grid, 1, 1, 3), 1000));
    accepted("withdrawal", puldeho_withdrawal(world, 1, puldeho_south_cap(grid, 1), 20));
    accepted("zonal", puldeho_zonal(world, 0, 1, eastward, puldeho_zonal_fluxes_length(grid), &count));
    printf("substeps: %u\n", (unsigned)count);
    accepted("meridional", puldeho_meridional(world, 1, northward, puldeho_meridional_fluxes_length(grid), &count));
    printf("substeps: %u\n", (unsigned)count);
    accepted("remap", puldeho_remap(world, table, puldeho_remap_table_length(grid), &count));
    printf("pairs: %u\n", (unsigned)count);
    accepted("total", puldeho_total(world, 1, &count));
    printf("units: %u\n", (unsigned)count);
    accepted("cell", puldeho_cell(world, 0, puldeho_north_cap(grid, 1), &count));
    printf("units: %u\n", (unsigned)count);
}

/* Calls that are refused. */
static void make_refused_calls(struct puldeho_world *world)
{
    static const int32_t emptying[4] = {0, 1000, 0, 0};
    static const int32_t far[4] = {0, 1048561, 0, 0};
    uint32_t substeps;
    struct puldeho_grid grid = world->grid;
    printf("an absent cell: %d\n", (int)puldeho_emission(world, 0, puldeho_cell_number(grid, 2, 0, 0), 1));
    printf("more than a cell has: %d\n", (int)puldeho_withdrawal(world, 0, 0, 4000000));
    printf("three fluxes: %d\n", (int)puldeho_zonal(world, 0, 0, emptying, 3, NULL));
    printf("a flux too large: %d\n", (int)puldeho_zonal(world, 0, 0, far, 4, NULL));
    printf("a cell would empty: %d", (int)puldeho_zonal(world, 0, 0, emptying, 4, &substeps));
    printf(", substeps %u\n", (unsigned)substeps);
}

int main(void)
{
    struct puldeho_grid grid = {.w = 4, .r = 2, .k = 2, .n = 2};
    size_t cells = puldeho_air_length(grid), amounts = puldeho_tracers_length(grid);
    uint32_t *air = malloc(cells * sizeof *air), *tracers = malloc(amounts * sizeof *tracers);
    if (air == NULL || tracers == NULL)
        return 1;
    for (size_t i = 0; i < cells; i++) {
        air[i] = (uint32_t)(100 + i % 7);
        tracers[i] = 3 * air[i];
        tracers[cells + i] = (uint32_t)(i * 37 % 500);
    }
    struct puldeho_world world = puldeho_world_over(grid, air, cells, tracers, amounts);
    printf("cells: %u, amounts: %u\n", (unsigned)cells, (unsigned)amounts);
    make_calls(&world);
    make_refused_calls(&world);
    print_list("air", air, cells);
    print_list("gas 0, three units to each of air", tracers, cells);
    free(air);
    free(tracers);
    return 0;
}
