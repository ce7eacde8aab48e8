/* What the reader of scripts (script.c) and the calls in it (calls.c, made by tools/bindings) share. */
#ifndef SCRIPT_H
#define SCRIPT_H

#include <stdbool.h>
#include <stddef.h>
#include <stdint.h>

#include "puldeho.h"

struct list {
    uint32_t *numbers;
    size_t length;
};

/* What a call gave, and why beforehand. A call without a count leaves it. */
struct outcome {
    enum puldeho_refusal refusal;
    uint64_t count;
    enum puldeho_refusal why;
    char text[PULDEHO_WHY_SIZE];
};

/* A call by its name in a script. `make` is false if the rest of the line is not its arguments. */
struct call {
    const char *name;
    bool (*make)(struct puldeho_world *world, char *rest, struct outcome *outcome);
};

/* Every call; the last has no name. */
extern const struct call calls[];

/* These take numbers from the rest of a line and are false at a bad one; a list takes all that follow. Fluxes are stored as
 * unsigned numbers and read as signed ones. */
bool take_u32(char **rest, uint32_t *number);
bool take_u64(char **rest, uint64_t *number);
bool take_u32s(char **rest, struct list *list);
bool take_i32s(char **rest, struct list *list);

/* Whether nothing but space is left. */
bool at_end(const char *rest);

#endif
