/* The table from C: four routes, where they send five addresses, and what lies beneath 10.1.0.0/16.
 *
 *     bash examples/table.sh */
#include <stdio.h>
#include <stdlib.h>

#include "jeghrumo.h"

static uint32_t address(unsigned a, unsigned b, unsigned c, unsigned d)
{
    return (uint32_t)a << 24 | (uint32_t)b << 16 | (uint32_t)c << 8 | (uint32_t)d;
}

static void look(const uint32_t *row, size_t length, uint32_t to)
{
    uint32_t answer = jeghrumo_look(row, length, to);
    if (answer == 0)
        puts("nowhere");
    else
        printf("%u\n", (unsigned)(answer - 1));
}

static int fill(uint32_t *row, size_t length)
{
    return jeghrumo_put(row, length, address(10, 0, 0, 0), 8, 1) == JEGHRUMO_READY
        && jeghrumo_put(row, length, address(10, 1, 0, 0), 16, 2) == JEGHRUMO_READY
        && jeghrumo_put(row, length, address(10, 1, 2, 0), 23, 3) == JEGHRUMO_READY
        && jeghrumo_put(row, length, 0, 0, 9) == JEGHRUMO_READY
        && jeghrumo_put(row, length, address(10, 1, 2, 0), 33, 3) == JEGHRUMO_NO_PREFIX
        && jeghrumo_put(row, length, address(10, 1, 2, 0), 23, 65536) == JEGHRUMO_NO_HOP
        && jeghrumo_put(row, length, address(11, 0, 0, 0), 8, 1) == JEGHRUMO_FULL;
}

int main(void)
{
    size_t length = jeghrumo_row_length(4);
    uint32_t *row = malloc(length * sizeof *row);
    if (row == NULL || !jeghrumo_make_empty(row, length, 4) || !fill(row, length))
        return EXIT_FAILURE;

    look(row, length, address(10, 2, 3, 4));
    look(row, length, address(10, 1, 9, 9));
    look(row, length, address(10, 1, 3, 7));
    look(row, length, address(10, 1, 4, 0));
    look(row, length, address(11, 0, 0, 0));
    printf("%u nodes\n", (unsigned)jeghrumo_nodes(row, length));

    struct jeghrumo_part part = jeghrumo_beneath(row, length, address(10, 1, 0, 0), 16);
    for (size_t k = 0; k < part.count; k++) {
        const uint32_t *route = row + part.place + 3 * k;
        printf("%08x %u to %u\n", (unsigned)route[0], (unsigned)route[1], (unsigned)route[2]);
    }

    if (jeghrumo_take_away(row, length, address(10, 1, 2, 0), 23) != JEGHRUMO_READY
        || jeghrumo_take_away(row, length, address(10, 1, 2, 0), 23) != JEGHRUMO_WITHOUT
        || !jeghrumo_make_anew(row, length))
        return EXIT_FAILURE;
    look(row, length, address(10, 1, 3, 7));
    printf("%u nodes\n", (unsigned)jeghrumo_nodes(row, length));
    free(row);
    return EXIT_SUCCESS;
}
