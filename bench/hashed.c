/* A hash map for each length, with open addressing, asked from the longest down. */
#include <stdlib.h>

#include "peer.h"

struct slot {
    uint32_t bits, answer; /* 0: free */
};

struct map {
    struct slot *slots;
    uint32_t mask, used;
};

struct table {
    struct map maps[33];
};

static void *make(size_t room)
{
    (void)room;
    return calloc(1, sizeof(struct table));
}

static void drop(void *table)
{
    struct table *t = table;
    for (int len = 0; len < 33; len++)
        free(t->maps[len].slots);
    free(t);
}

static inline uint32_t place(uint32_t bits)
{
    uint64_t x = bits * 0x9e3779b97f4a7c15u;
    return (uint32_t)(x >> 32);
}

/* The slot that has the bits, or the free one where they would stand. */
static inline struct slot *find(const struct map *m, uint32_t bits)
{
    uint32_t k = place(bits) & m->mask;
    while (m->slots[k].answer != 0 && m->slots[k].bits != bits)
        k = (k + 1) & m->mask;
    return m->slots + k;
}

static void grow(struct map *m)
{
    struct map old = *m;
    uint32_t size = old.slots == NULL ? 16 : 2 * (old.mask + 1);
    m->slots = calloc(size, sizeof *m->slots);
    m->mask = size - 1;
    for (uint32_t k = 0; old.slots != NULL && k <= old.mask; k++)
        if (old.slots[k].answer != 0)
            *find(m, old.slots[k].bits) = old.slots[k];
    free(old.slots);
}

static bool put(void *table, uint32_t bits, unsigned len, uint32_t hop)
{
    struct map *m = &((struct table *)table)->maps[len];
    if (m->slots == NULL || 2 * m->used > m->mask)
        grow(m);
    struct slot *s = find(m, bits);
    m->used += s->answer == 0;
    s->bits = bits;
    s->answer = hop + 1;
    return true;
}

static bool away(void *table, uint32_t bits, unsigned len)
{
    struct map *m = &((struct table *)table)->maps[len];
    if (m->slots == NULL)
        return false;
    struct slot *s = find(m, bits);
    if (s->answer == 0)
        return false;
    m->used--;
    uint32_t hole = (uint32_t)(s - m->slots), k = hole;
    for (;;) {
        m->slots[hole].answer = 0;
        for (;;) {
            k = (k + 1) & m->mask;
            if (m->slots[k].answer == 0)
                return true;
            uint32_t home = place(m->slots[k].bits) & m->mask;
            if (((k - home) & m->mask) >= ((k - hole) & m->mask))
                break;
        }
        m->slots[hole] = m->slots[k];
        hole = k;
    }
}

static inline uint32_t look(const struct table *t, uint32_t address)
{
    for (unsigned len = 33; len-- > 0;) {
        const struct map *m = &t->maps[len];
        if (m->used == 0)
            continue;
        const struct slot *s = find(m, address & (uint32_t)(0xffffffff00000000u >> len));
        if (s->answer != 0)
            return s->answer;
    }
    return 0;
}

LOOPS(struct table, look)

static size_t bytes(void *table)
{
    struct table *t = table;
    size_t all = sizeof *t;
    for (int len = 0; len < 33; len++)
        all += t->maps[len].slots == NULL ? 0 : (t->maps[len].mask + 1) * sizeof(struct slot);
    return all;
}

const struct peer hashed_peer = {"hash map a length", make, drop, put, away, look_all, look_chained, bytes, NULL};
