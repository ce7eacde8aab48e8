/* A budget of two gases over three days, read from their books. examples/budget.py is the same program in Python. */
#include <assert.h>
#include <stdio.h>
#include <puldeho.h>

enum { CARBON_DIOXIDE, SULPHUR_DIOXIDE, GASES };
enum { CITY = 1, STACK, FOREST, SEA, CELLS = 6 };   /* the cells of a row, and with the caps all cells */
static const char *const names[GASES] = {"carbon dioxide", "sulphur dioxide"};

struct budget {
    int64_t total;
    struct puldeho_book book;
};

/* Emissions, the stacks, the wind, uptake by the forest, deposition on the sea. */
static enum puldeho_refusal make_day(struct puldeho_world *world)
{
    static const int32_t fluxes[4] = {50, 50, 50, 50};
    uint32_t above_sea = 0;
    enum puldeho_refusal refusal = puldeho_emission(world, CARBON_DIOXIDE, CITY, 90);
    if (!refusal) refusal = puldeho_tick(world, SULPHUR_DIOXIDE);
    if (!refusal) refusal = puldeho_zonal(world, 0, 0, fluxes, 4, NULL);
    if (!refusal) refusal = puldeho_withdrawal(world, CARBON_DIOXIDE, FOREST, 12);
    if (!refusal) refusal = puldeho_cell(world, SULPHUR_DIOXIDE, SEA, &above_sea);
    if (!refusal) refusal = puldeho_withdrawal(world, SULPHUR_DIOXIDE, SEA, above_sea / 2);
    return refusal;
}

/* Prints and gives the total and the book of each gas. The call of total is refused, with 22, if some book is false. */
static enum puldeho_refusal print_budget(const struct puldeho_world *world, int day, struct budget *found)
{
    for (uint32_t gas = 0; gas < GASES; gas++) {
        uint32_t total;
        enum puldeho_refusal refusal = puldeho_total(world, gas, &total);
        struct puldeho_book book = puldeho_book_of(world, gas);
        if (refusal) return refusal;
        printf("day %d, %s: loaded %lld + emitted %lld = withdrawn %lld + total %lld\n", day, names[gas],
               (long long)book.loaded, (long long)book.emitted, (long long)book.withdrawn, (long long)total);
        assert(book.loaded + book.emitted == book.withdrawn + total);
        found[gas] = (struct budget){total, book};
    }
    return PULDEHO_ACCEPTED;
}

int main(void)
{
    uint32_t air[CELLS] = {100, 100, 100, 100, 100, 100};
    uint32_t gas[GASES * CELLS] = {400, 400, 400, 400, 400, 400};
    struct puldeho_grid grid = {.w = 4, .r = 1, .k = 1, .n = GASES};
    struct puldeho_world world = puldeho_world_over(grid, air, CELLS, gas, GASES * CELLS);
    struct budget first[GASES], last[GASES];
    enum puldeho_refusal refusal = puldeho_load(&world);
    if (!refusal) refusal = puldeho_add_emitter(&world, SULPHUR_DIOXIDE, STACK, 101, 64);
    if (!refusal) refusal = make_day(&world);
    if (!refusal) refusal = print_budget(&world, 1, first);
    if (!refusal) refusal = make_day(&world);
    if (!refusal) refusal = make_day(&world);
    if (!refusal) refusal = print_budget(&world, 3, last);
    if (refusal) return fprintf(stderr, "refused with %d: %s\n", (int)refusal, puldeho_refusal_text(refusal)), 1;
    for (int i = 0; i < GASES; i++)
        printf("from day 1 to day 3, %s: emitted %lld - withdrawn %lld = total %+lld\n", names[i],
               (long long)(last[i].book.emitted - first[i].book.emitted),
               (long long)(last[i].book.withdrawn - first[i].book.withdrawn), (long long)(last[i].total - first[i].total));
    return 0;
}
