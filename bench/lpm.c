/* DPDK's rte_lpm, where it is installed: a table of 2^24 entries, and groups of 256 behind it. The route of no bits, which it does not take, is kept beside it. */
#include "peer.h"

#ifdef HAVE_DPDK
#include <rte_eal.h>
#include <rte_lpm.h>
#include <stdio.h>
#include <stdlib.h>

struct table {
    struct rte_lpm *lpm;
    size_t groups;
};

static bool started;

static void *make(size_t room)
{
    static unsigned made;
    char *words[] = {"bench", "--no-huge", "--no-pci", "--no-telemetry", "--log-level=1", "-m", "1024", "--lcores=0"};
    if (!started && rte_eal_init(sizeof words / sizeof *words, words) < 0)
        return NULL;
    started = true;
    char name[32];
    snprintf(name, sizeof name, "bench%u", made++);
    struct table *t = malloc(sizeof *t);
    t->groups = 4096;
    struct rte_lpm_config config = {.max_rules = (uint32_t)room, .number_tbl8s = (uint32_t)t->groups, .flags = 0};
    t->lpm = rte_lpm_create(name, SOCKET_ID_ANY, &config);
    return t->lpm == NULL ? NULL : t;
}

static void drop(void *table)
{
    struct table *t = table;
    rte_lpm_free(t->lpm);
    free(t);
}

static bool put(void *table, uint32_t bits, unsigned len, uint32_t hop)
{
    return rte_lpm_add(((struct table *)table)->lpm, bits, (uint8_t)len, hop) == 0;
}

static bool away(void *table, uint32_t bits, unsigned len)
{
    return rte_lpm_delete(((struct table *)table)->lpm, bits, (uint8_t)len) == 0;
}

static inline uint32_t look(struct table *t, uint32_t address)
{
    uint32_t hop;
    return rte_lpm_lookup(t->lpm, address, &hop) == 0 ? hop + 1 : 0;
}

LOOPS(struct table, look)

static size_t bytes(void *table)
{
    struct table *t = table;
    return 4 * ((size_t)1 << 24) + 4 * 256 * t->groups;
}

const struct peer lpm_peer = {"rte_lpm", make, drop, put, away, look_all, look_chained, bytes, NULL};
#else
static void *make(size_t room)
{
    (void)room;
    return NULL;
}

const struct peer lpm_peer = {"rte_lpm", make, 0, 0, 0, 0, 0, 0, 0};
#endif
