/* Measures forwarding tables beside each other, in one run: every peer gets the same routes, addresses and changes, and every answer is compared; a difference ends the run. Each number is the median of several rounds.
 *
 *     bench ROUTES... */
#include <stdio.h>
#include <stdlib.h>
#include <string.h>
#include <time.h>

#include "peer.h"

enum { ROUNDS = 9, LOOKS = 1 << 16, CHANGES = 1000, SINGLES = 256, REPEATS = 7, COLD_REPEATS = 3 };

volatile uint32_t nothing = 0;

static const struct peer *const all_peers[] = {&jeghrumo_peer, &plain_peer, &sorted_peer, &hashed_peer, &patricia_peer, &lpm_peer};

enum { PEERS = sizeof all_peers / sizeof *all_peers };

struct route {
    uint32_t bits, hop;
    unsigned len;
};

/* By chance, the same in every run. */
static uint64_t state = 20261118;

static uint32_t chance(void)
{
    state ^= state << 13;
    state ^= state >> 7;
    state ^= state << 17;
    return (uint32_t)(state >> 32);
}

static uint32_t mask(unsigned len)
{
    return (uint32_t)(0xffffffff00000000u >> len);
}

/* Lengths as the global routing table has them: 60 in 100 of 24 bits, 37 of 16 to 23, two of 8 to 15, one above 24. */
static unsigned any_length(void)
{
    unsigned k = chance() % 100;
    return k < 60 ? 24 : k < 97 ? 16 + chance() % 8 : k < 99 ? 8 + chance() % 8 : 25 + chance() % 8;
}

static int by_prefix(const void *a, const void *b)
{
    const struct route *r = a, *s = b;
    if (r->bits != s->bits)
        return r->bits < s->bits ? -1 : 1;
    return r->len < s->len ? -1 : r->len > s->len;
}

static void shuffle(struct route *routes, size_t n)
{
    for (size_t i = n; i > 1; i--) {
        size_t k = chance() % i;
        struct route r = routes[i - 1];
        routes[i - 1] = routes[k];
        routes[k] = r;
    }
}

/* So many routes of different prefixes, from 1.0.0.0 to 223.255.255.255, in no order. */
static struct route *any_routes(size_t n)
{
    size_t have = 0, drawn = 2 * n + 64;
    struct route *routes = malloc(drawn * sizeof *routes);
    for (size_t i = 0; i < drawn; i++) {
        unsigned len = any_length();
        uint32_t bits = ((1 + chance() % 223) << 24 | chance() >> 8) & mask(len);
        routes[i] = (struct route){bits, chance() % 65536, len};
    }
    qsort(routes, drawn, sizeof *routes, by_prefix);
    for (size_t i = 0; i < drawn; i++)
        if (have == 0 || by_prefix(&routes[have - 1], &routes[i]) != 0)
            routes[have++] = routes[i];
    if (have < n)
        exit(EXIT_FAILURE);
    shuffle(routes, have);
    return routes;
}

static double now(void)
{
    struct timespec t;
    clock_gettime(CLOCK_MONOTONIC, &t);
    return 1e9 * (double)t.tv_sec + (double)t.tv_nsec;
}

static int by_size(const void *a, const void *b)
{
    double x = *(const double *)a, y = *(const double *)b;
    return x < y ? -1 : x > y;
}

static double median(double *times, size_t n)
{
    qsort(times, n, sizeof *times, by_size);
    return times[n / 2];
}

/* One line of the table: a time for each peer, and how many times ours it is. */
static void line(const char *what, const char *unit, const double *times)
{
    printf("%-30s %-3s", what, unit);
    for (size_t p = 0; p < PEERS; p++)
        if (times[p] < 0)
            printf("  %17s", "-");
        else
            printf("  %9.1f %6.2fx", times[p], times[p] / times[0]);
    printf("\n");
    fflush(stdout);
}

static void *tables[PEERS];

static void must(bool good, const char *who, const char *what)
{
    if (good)
        return;
    fprintf(stderr, "%s: %s\n", who, what);
    exit(EXIT_FAILURE);
}

/* All answers of all peers are the same. */
static void compare(const uint32_t *addresses)
{
    static uint32_t ours[LOOKS], theirs[LOOKS];
    all_peers[0]->look_all(tables[0], addresses, ours, LOOKS);
    for (size_t p = 1; p < PEERS; p++)
        if (tables[p] != NULL) {
            all_peers[p]->look_all(tables[p], addresses, theirs, LOOKS);
            must(memcmp(ours, theirs, sizeof ours) == 0, all_peers[p]->name, "another answer");
        }
}

static void measure_looks(const char *name, const uint32_t *addresses)
{
    static uint32_t answers[LOOKS];
    double apart[PEERS][ROUNDS], chained[PEERS][ROUNDS], a[PEERS], c[PEERS];
    uint32_t sum = 0;
    compare(addresses);
    for (int round = 0; round < ROUNDS; round++)
        for (size_t p = 0; p < PEERS; p++) {
            if (tables[p] == NULL)
                continue;
            /* the first time only brings the table near */
            all_peers[p]->look_all(tables[p], addresses, answers, LOOKS);
            double start = now();
            all_peers[p]->look_all(tables[p], addresses, answers, LOOKS);
            apart[p][round] = (now() - start) / LOOKS;
            start = now();
            uint32_t s = all_peers[p]->look_chained(tables[p], addresses, LOOKS);
            chained[p][round] = (now() - start) / LOOKS;
            must(p == 0 || s == sum, all_peers[p]->name, "another sum");
            sum = s;
        }
    for (size_t p = 0; p < PEERS; p++) {
        a[p] = tables[p] == NULL ? -1 : median(apart[p], ROUNDS);
        c[p] = tables[p] == NULL ? -1 : median(chained[p], ROUNDS);
    }
    char what[64];
    snprintf(what, sizeof what, "look, %s", name);
    line(what, "ns", a);
    snprintf(what, sizeof what, "look, %s, chained", name);
    line(what, "ns", c);
}

enum change { PUT, AWAY };

static void carry_out(size_t p, enum change change, const struct route *r, uint32_t hop)
{
    bool done = change == PUT ? all_peers[p]->put(tables[p], r->bits, r->len, hop) : all_peers[p]->away(tables[p], r->bits, r->len);
    must(done, all_peers[p]->name, "a change was refused");
}

enum { PUTS, REPLACES, AWAYS, KINDS };

static double time_changes(size_t p, int kind, const struct route *routes, size_t n)
{
    double start = now();
    for (size_t i = 0; i < n; i++)
        carry_out(p, kind == AWAYS ? AWAY : PUT, &routes[i], (routes[i].hop + (uint32_t)kind) & 65535);
    return (now() - start) / (double)n;
}

static void print_changes(const char *name, double times[KINDS][PEERS][ROUNDS])
{
    static const char *const kinds[] = {"put", "replace", "take away"};
    double t[KINDS][PEERS], all[PEERS];
    char what[64];
    for (int k = 0; k < KINDS; k++) {
        for (size_t p = 0; p < PEERS; p++)
            t[k][p] = tables[p] == NULL ? -1 : median(times[k][p], ROUNDS);
        snprintf(what, sizeof what, "%s%s", kinds[k], name);
        line(what, "ns", t[k]);
    }
    for (size_t p = 0; p < PEERS; p++)
        all[p] = tables[p] == NULL ? -1 : (t[PUTS][p] + t[AWAYS][p]) / 2;
    snprintf(what, sizeof what, "put and take away%s, mean", name);
    line(what, "ns", all);
}

/* Puts, replaces and takes away routes that are not there, so that in the end the tables are as before. */
static void measure_changes(struct route *routes, size_t n, const uint32_t *addresses)
{
    double times[KINDS][PEERS][ROUNDS];
    for (int round = 0; round < ROUNDS; round++)
        for (int kind = PUTS; kind < KINDS; kind++) {
            for (size_t p = 0; p < PEERS; p++)
                if (tables[p] != NULL)
                    times[kind][p][round] = time_changes(p, kind, routes, n);
            compare(addresses);
            shuffle(routes, n);
        }
    print_changes("", times);
}

/* The same for one route, again and again. */
static void measure_one(const char *name, const struct route *route, const uint32_t *addresses)
{
    double times[KINDS][PEERS][ROUNDS];
    for (size_t p = 0; p < PEERS; p++)
        for (int round = 0; tables[p] != NULL && round < ROUNDS; round++)
            for (int kind = PUTS; kind < KINDS; kind++)
                times[kind][p][round] = time_changes(p, kind, route, 1);
    compare(addresses);
    print_changes(name, times);
}

/* Drives all that was read out of the caches. */
static void go_cold(void)
{
    static unsigned char *much;
    enum { MUCH = 96 << 20 };
    if (much == NULL)
        much = malloc(MUCH);
    for (size_t i = 0; i < MUCH; i += 64)
        much[i]++;
}

/* The longest of single changes: each is timed several times, and the shortest counts, so that what else the machine does does not. */
static double worst(size_t p, const struct route *routes, size_t n, bool cold)
{
    double most = 0;
    int repeats = cold ? COLD_REPEATS : REPEATS;
    for (size_t i = 0; i < n; i++) {
        double put = 1e18, away = 1e18;
        for (int k = 0; k < repeats; k++) {
            if (cold)
                go_cold();
            double start = now();
            carry_out(p, PUT, &routes[i], routes[i].hop);
            double middle = now();
            if (cold)
                go_cold();
            double again = now();
            carry_out(p, AWAY, &routes[i], 0);
            double end = now();
            put = middle - start < put ? middle - start : put;
            away = end - again < away ? end - again : away;
        }
        most = put > most ? put : most;
        most = away > most ? away : most;
    }
    return most;
}

static void measure_worst(struct route *singles, size_t n)
{
    double warm[PEERS], cold[PEERS];
    for (size_t p = 0; p < PEERS; p++) {
        warm[p] = tables[p] == NULL ? -1 : worst(p, singles, n, false);
        /* of those whose changes take long anyway a few are enough */
        cold[p] = tables[p] == NULL || p > 1 ? -1 : worst(p, singles, n, true);
    }
    line("the worst change", "ns", warm);
    line("the worst change, cold", "ns", cold);
}

static void measure_anew(const uint32_t *addresses)
{
    double times[ROUNDS], t[PEERS];
    for (size_t p = 0; p < PEERS; p++) {
        t[p] = -1;
        if (tables[p] == NULL || all_peers[p]->anew == NULL)
            continue;
        for (int round = 0; round < ROUNDS; round++) {
            double start = now();
            must(all_peers[p]->anew(tables[p]), all_peers[p]->name, "not made anew");
            times[round] = (now() - start) / 1000;
        }
        t[p] = median(times, ROUNDS);
    }
    compare(addresses);
    line("make anew", "us", t);
}

static bool stands(const struct route *routes, size_t n, const struct route *r)
{
    for (size_t i = 0; i < n; i++)
        if (by_prefix(&routes[i], r) == 0)
            return true;
    return false;
}

/* Single changes to time: any, and at the list's beginning one of each length, so that all of it is moved. */
static size_t pick_singles(struct route *singles, const struct route *routes, size_t n)
{
    size_t have = 0;
    for (unsigned len = 1; len <= 32; len++) {
        struct route first = {0, chance() % 65536, len}, high = {chance() & mask(len), chance() % 65536, len};
        if (!stands(routes, n, &first))
            singles[have++] = first;
        if (len > 1 && high.bits != 0 && !stands(routes, n, &high))
            singles[have++] = high;
    }
    for (size_t i = n; have < SINGLES; i++)
        singles[have++] = routes[i];
    return have;
}

static void measure(size_t n)
{
    static uint32_t random[LOOKS], inside[LOOKS];
    static struct route singles[SINGLES];
    struct route *routes = any_routes(n + CHANGES);
    double bytes[PEERS];
    printf("\n%zu routes\n%-34s", n, "");
    for (size_t p = 0; p < PEERS; p++) {
        printf("  %17.17s", all_peers[p]->name);
        tables[p] = all_peers[p]->make(n + CHANGES + SINGLES);
    }
    printf("\n");
    for (size_t p = 0; p < PEERS; p++)
        for (size_t i = 0; i < n && tables[p] != NULL; i++)
            carry_out(p, PUT, &routes[i], routes[i].hop);
    for (size_t i = 0; i < LOOKS; i++) {
        const struct route *r = &routes[chance() % n];
        random[i] = chance();
        inside[i] = r->bits | (chance() & ~mask(r->len));
    }
    measure_looks("random", random);
    measure_looks("inside", inside);
    measure_changes(routes + n, CHANGES, inside);
    struct route eight = {0x0a000000, 77, 8}, one = {0x80000000, 78, 1};
    while (stands(routes, n + CHANGES, &eight))
        eight.bits += 0x01000000;
    measure_one(" of 8 bits", &eight, random);
    measure_one(" of 1 bit", &one, random);
    measure_worst(singles, pick_singles(singles, routes, n));
    compare(inside);
    measure_anew(inside);
    for (size_t p = 0; p < PEERS; p++)
        bytes[p] = tables[p] == NULL ? -1 : (double)all_peers[p]->bytes(tables[p]) / (double)n;
    line("bytes a route", "", bytes);
    for (size_t p = 0; p < PEERS; p++)
        if (tables[p] != NULL)
            all_peers[p]->drop(tables[p]);
    free(routes);
}

int main(int argc, char **argv)
{
    for (int i = 1; i < argc; i++)
        measure((size_t)strtoul(argv[i], NULL, 10));
    return EXIT_SUCCESS;
}
