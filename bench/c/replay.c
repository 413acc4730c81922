/* The plain replay of a lent index, as one writes it in C: the baseline for the library's replay.
   A cursor for each column and the rows walked once, each number compared by a branch that ends it
   at the first wrong one. The matrix is an accepted one, so its columns' weights are not looked at;
   only those of unlike columns are counted, as the starting places are their sums. */
#include <stddef.h>
#include <stdint.h>
#include <string.h>

/* Where each of unlike columns begins, and the end after the last one. */
static void starts_of_unlike(uint16_t n, size_t ones, const uint16_t *list, uint16_t *starts)
{
    memset(starts, 0, ((size_t)n + 1) * sizeof *starts);
    for (size_t k = 0; k < ones; k++)
        starts[list[k] + 1]++;
    for (size_t j = 1; j <= n; j++)
        starts[j] += starts[j - 1];
}

/* 1 where the index is the matrix's own, else 0. */
int plain_replay(uint16_t n, uint16_t m, uint16_t rho, uint16_t gamma, const uint16_t *list,
                 const uint16_t *index, size_t index_len)
{
    uint16_t cursors[1024];
    size_t places = (size_t)n + 1;
    if (index_len != places + (size_t)m * rho)
        return 0;
    if ((size_t)m * rho == (size_t)n * gamma) {
        for (size_t j = 0; j < places; j++) {
            uint16_t start = (uint16_t)(j * gamma);
            if (index[j] != start)
                return 0;
            cursors[j] = start;
        }
    } else {
        starts_of_unlike(n, (size_t)m * rho, list, cursors);
        if (memcmp(index, cursors, places * sizeof *cursors) != 0)
            return 0;
    }
    const uint16_t *rows = index + places;
    for (size_t i = 0; i < m; i++) {
        for (size_t k = 0; k < rho; k++) {
            uint16_t c = *list++;
            if (rows[cursors[c]] != i)
                return 0;
            cursors[c]++;
        }
    }
    return 1;
}
