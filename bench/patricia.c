/* A patricia trie: one bit at a time, with nodes of one child left out, each node allocated by itself. */
#include <stdlib.h>

#include "peer.h"

struct node {
    uint32_t bits, answer; /* 0: no route, only a fork */
    unsigned len;
    struct node *child[2];
};

struct table {
    struct node *root;
    size_t nodes;
};

static void *make(size_t room)
{
    (void)room;
    return calloc(1, sizeof(struct table));
}

static void drop_node(struct node *n)
{
    if (n == NULL)
        return;
    drop_node(n->child[0]);
    drop_node(n->child[1]);
    free(n);
}

static void drop(void *table)
{
    drop_node(((struct table *)table)->root);
    free(table);
}

static inline uint32_t mask(unsigned len)
{
    return (uint32_t)(0xffffffff00000000u >> len);
}

static inline unsigned bit(uint32_t bits, unsigned place)
{
    return bits >> (31 - place) & 1;
}

static struct node *new_node(struct table *t, uint32_t bits, unsigned len, uint32_t answer)
{
    struct node *n = calloc(1, sizeof *n);
    n->bits = bits;
    n->len = len;
    n->answer = answer;
    t->nodes++;
    return n;
}

static unsigned shared(uint32_t a, uint32_t b, unsigned most)
{
    unsigned same = a == b ? 32 : (unsigned)__builtin_clz(a ^ b);
    return same < most ? same : most;
}

static bool put(void *table, uint32_t bits, unsigned len, uint32_t hop)
{
    struct table *t = table;
    struct node **at = &t->root;
    for (struct node *n = *at; n != NULL; n = *at) {
        unsigned same = shared(bits, n->bits, len < n->len ? len : n->len);
        if (same < n->len) {
            struct node *fork = new_node(t, bits & mask(same), same, same == len ? hop + 1 : 0);
            fork->child[bit(n->bits, same)] = n;
            if (same < len)
                fork->child[bit(bits, same)] = new_node(t, bits, len, hop + 1);
            *at = fork;
            return true;
        }
        if (len == n->len) {
            n->answer = hop + 1;
            return true;
        }
        at = &n->child[bit(bits, n->len)];
    }
    *at = new_node(t, bits, len, hop + 1);
    return true;
}

/* A node without a route and with one child, or none, is left out. */
static void close_up(struct table *t, struct node **at)
{
    struct node *n = *at;
    if (n->answer != 0 || (n->child[0] != NULL && n->child[1] != NULL))
        return;
    *at = n->child[0] != NULL ? n->child[0] : n->child[1];
    free(n);
    t->nodes--;
}

static bool away(void *table, uint32_t bits, unsigned len)
{
    struct table *t = table;
    struct node **above = NULL, **at = &t->root;
    for (struct node *n = *at; n != NULL && n->len < len; n = *at) {
        above = at;
        at = &n->child[bit(bits, n->len)];
    }
    struct node *n = *at;
    if (n == NULL || n->len != len || n->bits != bits || n->answer == 0)
        return false;
    n->answer = 0;
    close_up(t, at);
    if (above != NULL)
        close_up(t, above);
    return true;
}

static inline uint32_t look(const struct table *t, uint32_t address)
{
    uint32_t found = 0;
    for (const struct node *n = t->root; n != NULL && ((address ^ n->bits) & mask(n->len)) == 0;) {
        found = n->answer != 0 ? n->answer : found;
        if (n->len == 32)
            break;
        n = n->child[bit(address, n->len)];
    }
    return found;
}

LOOPS(struct table, look)

static size_t bytes(void *table)
{
    return ((struct table *)table)->nodes * sizeof(struct node);
}

const struct peer patricia_peer = {"patricia trie", make, drop, put, away, look_all, look_chained, bytes, NULL};
