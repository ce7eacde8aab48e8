/*
 * Reads a script of calls from standard input, makes them in the library through the header, and prints what the second
 * implementation's program `script` prints (reference/README.md has the form of a line). A bad line ends it with status 1,
 * and so does a call for which puldeho_why_NAME names another refusal than the library gives.
 */
#include <errno.h>
#include <inttypes.h>
#include <stdio.h>
#include <stdlib.h>
#include <string.h>

#include "script.h"

static const char space[] = " \t\r";

/* In a tracer's block of the ledger the limiter comes after the emitters, and the book, three sums, after its five numbers. */
enum { LIMITER = 3 + 3 * PULDEHO_MOST_EMITTERS, BOOK = LIMITER + 5, SUMS = 3 };

static void *reserve(void *memory, size_t size)
{
    memory = realloc(memory, size);
    if (memory == NULL) {
        fprintf(stderr, "no memory\n");
        exit(1);
    }
    return memory;
}

bool at_end(const char *rest)
{
    return rest[strspn(rest, space)] == '\0';
}

/* The next word, ended by 0; an empty one at the end. */
static char *take_word(char **rest)
{
    char *word = *rest + strspn(*rest, space);
    char *end = word + strcspn(word, space);
    *rest = *end == '\0' ? end : end + 1;
    *end = '\0';
    return word;
}

/* The next word as a number from low to high. */
static bool take_number(char **rest, long long low, long long high, uint32_t *number)
{
    char *word = take_word(rest);
    char *end;
    long long value = strtoll(word, &end, 10);
    *number = (uint32_t)value;
    return *word != '\0' && *end == '\0' && low <= value && value <= high;
}

/* All words that are left. A word takes two characters, with the space before it. */
static bool take_numbers(char **rest, long long low, long long high, struct list *list)
{
    list->numbers = reserve(NULL, (strlen(*rest) / 2 + 1) * sizeof *list->numbers);
    list->length = 0;
    while (!at_end(*rest)) {
        if (!take_number(rest, low, high, &list->numbers[list->length]))
            return false;
        list->length++;
    }
    return true;
}

bool take_u32(char **rest, uint32_t *number)
{
    return take_number(rest, 0, UINT32_MAX, number);
}

bool take_u64(char **rest, uint64_t *number)
{
    char *word = take_word(rest), *end;
    errno = 0;
    *number = strtoull(word, &end, 10);
    return '0' <= *word && *word <= '9' && *end == '\0' && errno == 0;
}

bool take_u32s(char **rest, struct list *list)
{
    return take_numbers(rest, 0, UINT32_MAX, list);
}

bool take_i32s(char **rest, struct list *list)
{
    return take_numbers(rest, INT32_MIN, INT32_MAX, list);
}

static bool set_list(char *rest, uint32_t **numbers, size_t *length)
{
    struct list list;
    bool good = take_u32s(&rest, &list);
    free(*numbers);
    *numbers = list.numbers;
    *length = list.length;
    return good;
}

/* The grid, and a ledger as an accepted load of a world without gas leaves it, limiter 1 and zeros: the world's own, or an empty
 * list for more tracers than a world may have. */
static bool set_grid(char *rest, struct puldeho_world *world)
{
    struct puldeho_grid *grid = &world->grid;
    bool good = take_u32(&rest, &grid->w) && take_u32(&rest, &grid->r) && take_u32(&rest, &grid->k)
        && take_u32(&rest, &grid->n) && at_end(rest);
    free(world->ledger);
    world->ledger = grid->n <= PULDEHO_MOST_TRACERS ? NULL : reserve(NULL, sizeof *world->ledger);
    world->ledger_length = 0;
    memset(world->own_ledger, 0, sizeof world->own_ledger);
    for (size_t tracer = 0; tracer < PULDEHO_MOST_TRACERS; tracer++)
        world->own_ledger[tracer * PULDEHO_LEDGER_BLOCK + LIMITER] = PULDEHO_LIMITER_PRESENT;
    return good;
}

/* Puts loaded, emitted and withdrawn in a tracer's block; false where the ledger has none. */
static bool put_book(struct puldeho_world *world, size_t tracer, const uint32_t *book)
{
    uint32_t *ledger = world->ledger != NULL ? world->ledger : world->own_ledger;
    if (tracer >= puldeho_lent_ledger_length(world) / PULDEHO_LEDGER_BLOCK)
        return false;
    memcpy(ledger + tracer * PULDEHO_LEDGER_BLOCK + BOOK, book, SUMS * sizeof *book);
    return true;
}

/* The cells of all layers, or `most` where there are more. */
static size_t cells_within(struct puldeho_grid grid, size_t most)
{
    uint64_t layer = 2 + (uint64_t)grid.r * grid.w;
    if (grid.k == 0)
        return 0;
    return layer > most / grid.k ? most : (size_t)layer * grid.k;
}

/* The amounts, and in each block that the ledger has the book that a load of them leaves: what they come to was loaded, or 0 if it
 * passes 32 bits. */
static bool set_tracers(char *rest, struct puldeho_world *world)
{
    bool good = set_list(rest, &world->tracers, &world->tracers_length);
    size_t cells = cells_within(world->grid, world->tracers_length), place = 0;
    bool has_block = true;
    for (size_t tracer = 0; has_block && tracer < world->grid.n; tracer++) {
        uint64_t total = 0;
        for (size_t i = 0; i < cells && place < world->tracers_length; i++)
            total += world->tracers[place++];
        uint32_t book[SUMS] = {total <= UINT32_MAX ? (uint32_t)total : 0, 0, 0};
        has_block = put_book(world, tracer, book);
    }
    return good;
}

/* A tracer's loaded, emitted and withdrawn, whatever they are. */
static bool set_book(char *rest, struct puldeho_world *world)
{
    uint32_t tracer, book[SUMS];
    return take_u32(&rest, &tracer) && take_u32(&rest, &book[0]) && take_u32(&rest, &book[1]) && take_u32(&rest, &book[2])
        && at_end(rest) && put_book(world, tracer, book);
}

static void show_list(const char *name, const uint32_t *numbers, size_t length)
{
    printf("%s", name);
    for (size_t i = 0; i < length; i++)
        printf(" %" PRIu32, numbers[i]);
    printf("\n");
}

static bool show(const char *rest, const struct puldeho_world *world)
{
    if (!at_end(rest))
        return false;
    show_list("air", world->air, world->air_length);
    show_list("tracers", world->tracers, world->tracers_length);
    return true;
}

static bool show_ledger(const char *rest, const struct puldeho_world *world)
{
    if (!at_end(rest))
        return false;
    show_list("ledger", puldeho_lent_ledger(world), puldeho_lent_ledger_length(world));
    return true;
}

static bool make_call(const char *name, char *rest, struct puldeho_world *world)
{
    for (const struct call *call = calls; call->name != NULL; call++) {
        if (strcmp(name, call->name) == 0) {
            struct outcome outcome = {PULDEHO_ACCEPTED, 0, PULDEHO_ACCEPTED, ""};
            if (!call->make(world, rest, &outcome))
                return false;
            printf("%s %d %" PRIu64 "\n", name, (int)outcome.refusal, outcome.count);
            if (outcome.why != outcome.refusal)
                fprintf(stderr, "%s gives %d, but why says %d: %s\n", name, (int)outcome.refusal, (int)outcome.why, outcome.text);
            return outcome.why == outcome.refusal;
        }
    }
    return false;
}

static bool run_line(char *rest, struct puldeho_world *world)
{
    const char *name = take_word(&rest);
    if (*name == '\0' || *name == '#')
        return true;
    if (strcmp(name, "grid") == 0)
        return set_grid(rest, world);
    if (strcmp(name, "air") == 0)
        return set_list(rest, &world->air, &world->air_length);
    if (strcmp(name, "tracers") == 0)
        return set_tracers(rest, world);
    if (strcmp(name, "ledger") == 0)
        return set_list(rest, &world->ledger, &world->ledger_length);
    if (strcmp(name, "books") == 0)
        return set_book(rest, world);
    if (strcmp(name, "show") == 0)
        return show(rest, world);
    if (strcmp(name, "show_ledger") == 0)
        return show_ledger(rest, world);
    return make_call(name, rest, world);
}

/* Reads a line into *line, which grows as needed; false at the end of the input. */
static bool read_line(char **line, size_t *size)
{
    size_t length = 0;
    for (;;) {
        int c = getchar();
        if (c == EOF && length == 0)
            return false;
        if (length == *size) {
            *size = 2 * *size + 64;
            *line = reserve(*line, *size);
        }
        if (c == EOF || c == '\n') {
            (*line)[length] = '\0';
            return true;
        }
        (*line)[length++] = (char)c;
    }
}

int main(void)
{
    struct puldeho_grid none = {0, 0, 0, 0};
    struct puldeho_world world = puldeho_world_over(none, NULL, 0, NULL, 0);
    char *line = NULL;
    size_t size = 0;
    for (unsigned long number = 1; read_line(&line, &size); number++) {
        if (!run_line(line, &world)) {
            fprintf(stderr, "line %lu: bad\n", number);
            return 1;
        }
    }
    return 0;
}
