/* The same layout in plain C, with no test that a right table does not need: the limit of what the proved one can reach. */
#include <stdlib.h>
#include <string.h>

#include "peer.h"

struct table {
    uint32_t *row;
    size_t room, at; /* `at`: where the default stands; then the count of nodes, and the nodes */
    uint32_t *nodes; /* of 16 cells, each a word and a node's number */
    uint32_t *hints; /* for each node the place of the cell that names it */
};

static void *make(size_t room)
{
    struct table *t = malloc(sizeof *t);
    t->room = room;
    t->at = 2 + 3 * room;
    t->row = malloc((t->at + 2 + 32 * (8 * room + 1)) * sizeof *t->row);
    t->nodes = t->row + t->at + 2;
    t->hints = t->nodes + 32 * (7 * room + 1);
    t->row[0] = 0;
    t->row[1] = (uint32_t)room;
    t->row[t->at] = 0;
    t->row[t->at + 1] = 1;
    memset(t->nodes, 0, 32 * sizeof *t->nodes);
    return t;
}

static void drop(void *table)
{
    struct table *t = table;
    free(t->row);
    free(t);
}

static inline bool before(const uint32_t *route, uint32_t bits, unsigned len)
{
    return route[0] < bits || (route[0] == bits && route[1] < len);
}

/* The first route that does not come before the prefix. */
static inline size_t lower_bound(const struct table *t, uint32_t bits, unsigned len)
{
    const uint32_t *list = t->row + 2;
    size_t low = 0, high = t->row[0];
    while (low < high) {
        size_t middle = low + (high - low) / 2;
        if (before(list + 3 * middle, bits, len))
            low = middle + 1;
        else
            high = middle;
    }
    return low;
}

static inline bool stands(const struct table *t, size_t k, uint32_t bits, unsigned len)
{
    const uint32_t *route = t->row + 2 + 3 * k;
    return k < t->row[0] && route[0] == bits && route[1] == len;
}

/* One more than the hop of the longest of the four prefixes that end in a cell, or 0. */
static uint32_t word(const struct table *t, uint32_t bits, unsigned len)
{
    for (unsigned more = 4; more > 0; more--, len--) {
        uint32_t first = bits & (uint32_t)(0xffffffff00000000u >> len);
        size_t k = lower_bound(t, first, len);
        if (stands(t, k, first, len))
            return t->row[2 + 3 * k + 2] + 1;
    }
    return 0;
}

/* Writes the words of the cells that a prefix covers in its last node. */
static void renew(struct table *t, uint32_t node, uint32_t bits, unsigned len)
{
    unsigned depth = (len - 1) / 4, shift = 28 - 4 * depth;
    unsigned from = bits >> shift & 15, many = 1u << (4 * depth + 4 - len);
    uint32_t above = depth == 0 ? 0 : bits & (uint32_t)(0xffffffff00000000u >> (4 * depth));
    for (unsigned k = from; k < from + many; k++)
        t->nodes[32 * (size_t)node + 2 * k] = word(t, above | (uint32_t)k << shift, 4 * depth + 4);
}

static uint32_t make_way(struct table *t, uint32_t bits, unsigned len)
{
    uint32_t node = 0, *count = &t->row[t->at + 1];
    for (; len > 4; len -= 4, bits <<= 4) {
        size_t place = 32 * (size_t)node + 2 * (bits >> 28) + 1;
        if (t->nodes[place] == 0) {
            memset(t->nodes + 32 * (size_t)*count, 0, 32 * sizeof *t->nodes);
            t->hints[*count] = (uint32_t)place;
            t->nodes[place] = (*count)++;
        }
        node = t->nodes[place];
    }
    return node;
}

static bool put(void *table, uint32_t bits, unsigned len, uint32_t hop)
{
    struct table *t = table;
    size_t k = lower_bound(t, bits, len);
    uint32_t *route = t->row + 2 + 3 * k;
    if (!stands(t, k, bits, len)) {
        if (t->row[0] == t->room)
            return false;
        memmove(route + 3, route, 3 * (t->row[0] - k) * sizeof *route);
        t->row[0]++;
        route[0] = bits;
        route[1] = len;
    }
    route[2] = hop;
    if (len == 0)
        t->row[t->at] = hop + 1;
    else
        renew(t, make_way(t, bits, len), bits, len);
    return true;
}

static bool empty(const uint32_t *node)
{
    uint32_t all = 0;
    for (int y = 0; y < 32; y++)
        all |= node[y];
    return all == 0;
}

/* Moves the last node to a free number. */
static void fill_hole(struct table *t, uint32_t hole)
{
    uint32_t last = --t->row[t->at + 1];
    if (last == hole)
        return;
    uint32_t place = t->hints[last];
    memcpy(t->nodes + 32 * (size_t)hole, t->nodes + 32 * (size_t)last, 32 * sizeof *t->nodes);
    t->nodes[place] = hole;
    t->hints[hole] = place;
    for (int k = 0; k < 16; k++) {
        uint32_t child = t->nodes[32 * (size_t)hole + 2 * k + 1];
        if (child != 0)
            t->hints[child] = (uint32_t)(32 * hole + 2 * k + 1);
    }
}

static bool away(void *table, uint32_t bits, unsigned len)
{
    struct table *t = table;
    size_t k = lower_bound(t, bits, len);
    if (!stands(t, k, bits, len))
        return false;
    uint32_t *route = t->row + 2 + 3 * k;
    memmove(route, route + 3, 3 * (t->row[0] - k - 1) * sizeof *route);
    t->row[0]--;
    if (len == 0) {
        t->row[t->at] = 0;
        return true;
    }
    size_t places[8];
    int depth = 0;
    uint32_t node = 0, rest = bits;
    for (unsigned left = len; left > 4; left -= 4, rest <<= 4) {
        places[depth] = 32 * (size_t)node + 2 * (rest >> 28) + 1;
        node = t->nodes[places[depth++]];
    }
    renew(t, node, bits, len);
    while (depth > 0 && empty(t->nodes + 32 * (size_t)node)) {
        /* its parent may be moved into the hole, and its cell with it */
        size_t place = places[--depth];
        uint32_t parent = (uint32_t)(place / 32), hole = node, last = t->row[t->at + 1] - 1;
        t->nodes[place] = 0;
        fill_hole(t, hole);
        for (int d = 0; d < depth; d++)
            if (places[d] / 32 == last)
                places[d] = 32 * (size_t)hole + places[d] % 32;
        node = parent == last ? hole : parent;
    }
    return true;
}

/* A call of its own, as the proved one is. */
__attribute__((noinline)) static uint32_t look(const struct table *t, uint32_t address)
{
    uint32_t node = 0, found = 0;
    for (int step = 0; step < 8; step++, address <<= 4) {
        const uint32_t *cell = t->nodes + 32 * (size_t)node + 2 * (address >> 28);
        found = cell[0] != 0 ? cell[0] : found;
        node = cell[1];
        if (node == 0)
            break;
    }
    return found != 0 ? found : t->row[t->at];
}

LOOPS(struct table, look)

static size_t bytes(void *table)
{
    struct table *t = table;
    return 4 * (4 + 3 * (size_t)t->row[0] + 33 * (size_t)t->row[t->at + 1]);
}

/* Goes through the list in order, so that where two routes share cells the shorter comes first and the longer overwrites it; the way to the last route is kept, and only what is new of the next one is made. */
static bool anew(void *table)
{
    struct table *t = table;
    uint32_t way[9] = {0}, last = 0, count = 1;
    unsigned have = 0;
    memset(t->nodes, 0, 32 * sizeof *t->nodes);
    t->row[t->at] = 0;
    for (size_t k = 0; k < t->row[0]; k++) {
        const uint32_t *route = t->row + 2 + 3 * k;
        uint32_t bits = route[0], value = route[2] + 1;
        unsigned len = route[1];
        if (len == 0) {
            t->row[t->at] = value;
            continue;
        }
        unsigned depth = (len - 1) / 4;
        unsigned shared = bits == last ? 8 : (unsigned)__builtin_clz(bits ^ last) / 4;
        if (shared < have)
            have = shared;
        last = bits;
        while (have < depth) {
            size_t place = 32 * (size_t)way[have] + 2 * (bits >> (28 - 4 * have) & 15) + 1;
            memset(t->nodes + 32 * (size_t)count, 0, 32 * sizeof *t->nodes);
            t->hints[count] = (uint32_t)place;
            t->nodes[place] = count;
            way[++have] = count++;
        }
        unsigned from = bits >> (28 - 4 * depth) & 15, many = 1u << (4 * depth + 4 - len);
        for (unsigned c = from; c < from + many; c++)
            t->nodes[32 * (size_t)way[depth] + 2 * c] = value;
    }
    t->row[t->at + 1] = count;
    return true;
}

const struct peer plain_peer = {"plain C", make, drop, put, away, look_all, look_chained, bytes, anew};
