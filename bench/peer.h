/* What the benchmark asks of each table that it measures. */
#ifndef PEER_H
#define PEER_H

#include <stdbool.h>
#include <stddef.h>
#include <stdint.h>

struct peer {
    const char *name;
    void *(*make)(size_t room); /* NULL where it cannot be had */
    void (*drop)(void *table);
    bool (*put)(void *table, uint32_t bits, unsigned len, uint32_t hop);
    bool (*away)(void *table, uint32_t bits, unsigned len);
    /* Looks up each address by itself. An answer is 0, or one more than the hop. */
    void (*look_all)(void *table, const uint32_t *addresses, uint32_t *answers, size_t n);
    /* Looks up each address after the answer to the one before it is known; answers what all answers come to. */
    uint32_t (*look_chained)(void *table, const uint32_t *addresses, size_t n);
    size_t (*bytes)(void *table);
    bool (*anew)(void *table); /* NULL where there is no such thing */
};

extern const struct peer jeghrumo_peer, plain_peer, sorted_peer, hashed_peer, patricia_peer, lpm_peer;

/* Always 0, but the compiler does not know. */
extern volatile uint32_t nothing;

/* The two loops over a peer's own `look`, in its own file, so that the compiler sees both. */
#define LOOPS(table_type, look)                                                                    \
    static void look_all(void *table, const uint32_t *addresses, uint32_t *answers, size_t n)      \
    {                                                                                              \
        table_type *t = table;                                                                     \
        for (size_t i = 0; i < n; i++)                                                             \
            answers[i] = look(t, addresses[i]);                                                    \
    }                                                                                              \
    static uint32_t look_chained(void *table, const uint32_t *addresses, size_t n)                 \
    {                                                                                              \
        table_type *t = table;                                                                     \
        uint32_t none = nothing, answer = 0, sum = 0;                                              \
        for (size_t i = 0; i < n; i++) {                                                           \
            answer = look(t, addresses[i] ^ (answer & none));                                      \
            sum = sum * 31 + answer;                                                               \
        }                                                                                          \
        return sum;                                                                                \
    }

#endif
