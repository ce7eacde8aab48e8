/* A second program over the world type, kept unchanged from the first version on: a world that a function gives back, a state
 * that is kept and brought back, lists that are written and loaded again. The same program stands beside it in Rust, Python and
 * Fortran, and all four print again.txt. */
#include <stdio.h>
#include <stdlib.h>

#include <puldeho.h>

enum { CELLS = 6 };

static void accepted(enum puldeho_refusal refusal)
{
    switch (refusal) {
    case PULDEHO_ACCEPTED:
        return;
    default:
        fprintf(stderr, "%s\n", puldeho_refusal_text(refusal));
        exit(1);
    }
}

/* A loaded world over six cells. */
static struct puldeho_world made(uint32_t *air, uint32_t *tracers)
{
    struct puldeho_world world = {
        .grid = {.w = 4, .r = 1, .k = 1, .n = 1}, .air = air, .air_length = CELLS, .tracers = tracers, .tracers_length = CELLS};
    for (uint32_t i = 0; i < CELLS; i++) {
        air[i] = 100;
        tracers[i] = 10 * i;
    }
    accepted(puldeho_load(&world));
    return world;
}

/* Emits, sweeps and withdraws. */
static void step(struct puldeho_world *world, const char *when)
{
    static const int32_t fluxes[4] = {0, 20, 0, -10};
    uint32_t total;
    accepted(puldeho_emission(world, 0, 5, 1000));
    accepted(puldeho_zonal(world, 0, 0, fluxes, 4, NULL));
    accepted(puldeho_withdrawal(world, 0, 5, 7));
    accepted(puldeho_total(world, 0, &total));
    printf("%s: total %u, air", when, (unsigned)total);
    for (size_t i = 0; i < world->air_length; i++)
        printf(" %u", (unsigned)world->air[i]);
    printf("\n");
}

int main(void)
{
    uint32_t air[CELLS], tracers[CELLS], saved_air[CELLS], saved_tracers[CELLS], units;
    struct puldeho_world world = made(air, tracers);
    struct puldeho_world saved = puldeho_world_over(world.grid, saved_air, CELLS, saved_tracers, CELLS);
    char why[PULDEHO_WHY_SIZE];
    accepted(puldeho_copy(&saved, &world));
    step(&world, "a step");
    step(&world, "a second");
    accepted(puldeho_copy(&world, &saved));
    step(&world, "from the kept state");
    tracers[1] += 300;
    accepted(puldeho_load(&world));
    step(&world, "loaded again");
    accepted(puldeho_cell(&saved, 0, 5, &units));
    printf("kept: %u\n", (unsigned)units);
    if (puldeho_why_withdrawal(&world, 0, 5, 1000000, why, sizeof why) == PULDEHO_ACCEPTED || why[0] == '\0')
        return 1;
    return 0;
}
