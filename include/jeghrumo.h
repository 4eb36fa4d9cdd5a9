/* A forwarding table in one row of numbers that the caller lends: routes by longest-prefix match, looked up in a trie.
 *
 * The row is the caller's. A table for n routes takes jeghrumo_row_length(n) numbers, and nothing else is allocated, kept or freed. docs/TABLE.md has its format.
 *
 * Every function is safe on every row, whatever it holds: it reads and writes only the row, and it ends. That a table made by jeghrumo_make_empty and changed by these functions answers each address as its list of routes does is proved. Functions that take a const row may run beside each other; a change needs the row for itself.
 *
 * Link target/staticlib/libcapi.a, and the toolchain's librattle_c.a. */
#ifndef JEGHRUMO_H
#define JEGHRUMO_H

#include <stdbool.h>
#include <stddef.h>
#include <stdint.h>

#ifdef __cplusplus
extern "C" {
#endif

/* What a change answers. A refusal is its number; what is refused, full or without leaves the row as it was. */
enum {
    JEGHRUMO_READY = 0,
    JEGHRUMO_NO_PREFIX = 1,  /* the length is above 32, or bits behind it are not 0 */
    JEGHRUMO_NO_HOP = 2,     /* the hop is above 65,535 */
    JEGHRUMO_FULL = 1000,    /* there is no room for one more route */
    JEGHRUMO_WITHOUT = 1001, /* there is no such route */
};

/* Routes that stand together in a row: the place of the first one's first number, and how many they are. Each takes three numbers: bits, length, hop. */
struct jeghrumo_part {
    size_t place;
    size_t count;
};

/* How many numbers the row of a table with room for so many routes has; 0 where the room is more than there can be. */
size_t jeghrumo_row_length(uint32_t room);

/* Makes a row of just that length an empty table. False, and the row stays as it is, where its length is another. */
bool jeghrumo_make_empty(uint32_t *row, size_t length, uint32_t room);

/* 0 where no route matches the address, or one more than the hop of the longest that does. */
uint32_t jeghrumo_look(const uint32_t *row, size_t length, uint32_t address);

/* Puts a route, in the place of the one with the same prefix or as a new one: READY, NO_PREFIX, NO_HOP or FULL. */
uint32_t jeghrumo_put(uint32_t *row, size_t length, uint32_t bits, uint64_t len, uint64_t hop);

/* Takes a route away: READY or WITHOUT. */
uint32_t jeghrumo_take_away(uint32_t *row, size_t length, uint32_t bits, uint64_t len);

/* The routes beneath a prefix, itself among them, in order. They stand in the row until its next change. Bits behind the length are not looked at; beneath a length above 32 there is nothing. */
struct jeghrumo_part jeghrumo_beneath(const uint32_t *row, size_t length, uint32_t bits, uint64_t len);

/* Makes the trie anew from the list of routes, whatever it holds, as after damage. False where the row has not the parts of a table. */
bool jeghrumo_make_anew(uint32_t *row, size_t length);

/* How many nodes the trie has. */
uint32_t jeghrumo_nodes(const uint32_t *row, size_t length);

#ifdef __cplusplus
}
#endif

#endif
