#include <stdio.h>
#include <puldeho.h>

int main(void)
{
    uint32_t air[6] = {100, 100, 100, 100, 100, 100}; /* south cap, four cells of a row, north cap */
    uint32_t gas[6] = {0, 0, 100, 200, 100, 0}, substeps;
    int32_t fluxes[4] = {0, 50, 0, 0};                /* 50 units of air from column 1 to column 2 */
    struct puldeho_grid grid = {.w = 4, .r = 1, .k = 1, .n = 1};
    struct puldeho_world world = puldeho_world_over(grid, air, 6, gas, 6);
    enum puldeho_refusal refusal = puldeho_load(&world);
    if (!refusal)
        refusal = puldeho_zonal(&world, 0, 0, fluxes, 4, &substeps);
    if (refusal)
        return fprintf(stderr, "refused with %d: %s\n", (int)refusal, puldeho_refusal_text(refusal)), 1;
    printf("%u substep, %u units of gas in column 2\n", substeps, gas[puldeho_cell_number(grid, 0, 0, 2)]);
    return 0;
}
