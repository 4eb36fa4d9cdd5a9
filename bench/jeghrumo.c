/* The proved table, through its functions for C. */
#include <stdlib.h>

#include "jeghrumo.h"
#include "peer.h"

struct table {
    uint32_t *row;
    size_t length;
};

static void *make(size_t room)
{
    struct table *t = malloc(sizeof *t);
    t->length = jeghrumo_row_length((uint32_t)room);
    t->row = malloc(t->length * sizeof *t->row);
    jeghrumo_make_empty(t->row, t->length, (uint32_t)room);
    return t;
}

static void drop(void *table)
{
    struct table *t = table;
    free(t->row);
    free(t);
}

static bool put(void *table, uint32_t bits, unsigned len, uint32_t hop)
{
    struct table *t = table;
    return jeghrumo_put(t->row, t->length, bits, len, hop) == JEGHRUMO_READY;
}

static bool away(void *table, uint32_t bits, unsigned len)
{
    struct table *t = table;
    return jeghrumo_take_away(t->row, t->length, bits, len) == JEGHRUMO_READY;
}

static inline uint32_t look(struct table *t, uint32_t address)
{
    return jeghrumo_look(t->row, t->length, address);
}

LOOPS(struct table, look)

/* What is in use: the list, and the nodes. */
static size_t bytes(void *table)
{
    struct table *t = table;
    return 4 * (4 + 3 * (size_t)t->row[0] + 33 * (size_t)jeghrumo_nodes(t->row, t->length));
}

static bool anew(void *table)
{
    struct table *t = table;
    return jeghrumo_make_anew(t->row, t->length);
}

const struct peer jeghrumo_peer = {"jeghrumo", make, drop, put, away, look_all, look_chained, bytes, anew};
