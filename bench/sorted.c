/* A sorted array for each length, searched from the longest down. */
#include <stdlib.h>
#include <string.h>

#include "peer.h"

struct entry {
    uint32_t bits, hop;
};

struct table {
    struct entry *entries[33];
    size_t counts[33];
};

static void *make(size_t room)
{
    struct table *t = calloc(1, sizeof *t);
    for (int len = 0; len < 33; len++)
        t->entries[len] = malloc(room * sizeof **t->entries);
    return t;
}

static void drop(void *table)
{
    struct table *t = table;
    for (int len = 0; len < 33; len++)
        free(t->entries[len]);
    free(t);
}

static inline size_t lower_bound(const struct table *t, unsigned len, uint32_t bits)
{
    const struct entry *entries = t->entries[len];
    size_t low = 0, high = t->counts[len];
    while (low < high) {
        size_t middle = low + (high - low) / 2;
        if (entries[middle].bits < bits)
            low = middle + 1;
        else
            high = middle;
    }
    return low;
}

static bool put(void *table, uint32_t bits, unsigned len, uint32_t hop)
{
    struct table *t = table;
    size_t k = lower_bound(t, len, bits), n = t->counts[len];
    struct entry *e = t->entries[len] + k;
    if (k == n || e->bits != bits) {
        memmove(e + 1, e, (n - k) * sizeof *e);
        t->counts[len]++;
        e->bits = bits;
    }
    e->hop = hop;
    return true;
}

static bool away(void *table, uint32_t bits, unsigned len)
{
    struct table *t = table;
    size_t k = lower_bound(t, len, bits), n = t->counts[len];
    struct entry *e = t->entries[len] + k;
    if (k == n || e->bits != bits)
        return false;
    memmove(e, e + 1, (n - k - 1) * sizeof *e);
    t->counts[len]--;
    return true;
}

static inline uint32_t look(const struct table *t, uint32_t address)
{
    for (unsigned len = 33; len-- > 0;) {
        if (t->counts[len] == 0)
            continue;
        uint32_t bits = address & (uint32_t)(0xffffffff00000000u >> len);
        size_t k = lower_bound(t, len, bits);
        if (k < t->counts[len] && t->entries[len][k].bits == bits)
            return t->entries[len][k].hop + 1;
    }
    return 0;
}

LOOPS(struct table, look)

static size_t bytes(void *table)
{
    struct table *t = table;
    size_t all = sizeof *t;
    for (int len = 0; len < 33; len++)
        all += t->counts[len] * sizeof **t->entries;
    return all;
}

const struct peer sorted_peer = {"sorted array a length", make, drop, put, away, look_all, look_chained, bytes, NULL};
