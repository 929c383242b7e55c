/* census: prints the census of some maps, the number of cycles of each length that occurs, by rising length; then the height. */
#include <stdio.h>

#include "lethmuok.h"

static void print_census(const char *name, const uint8_t *table, size_t n)
{
    uint8_t lengths[LETHMUOK_MAX_ENTRIES], counts[LETHMUOK_MAX_ENTRIES];
    int64_t rows = lethmuok_census(table, n, lengths, sizeof lengths, counts, sizeof counts);
    printf("%s:", name);
    for (int64_t i = 0; i < rows; i++)
        printf(" %d of %d,", counts[i], lengths[i]);
    printf(" height %d\n", (int)lethmuok_height(table, n));
}

/* A cycle of 29 points, and then cycles of 18, 17 and so on to 1: 200 points. */
static void falling(uint8_t *table)
{
    int start = 0;
    for (int length = 29; length >= 1; length = length == 29 ? 18 : length - 1) {
        for (int i = 0; i < length; i++)
            table[start + i] = (uint8_t)(start + (i + 1) % length);
        start += length;
    }
}

int main(void)
{
    const uint8_t example[] = {1, 0, 2, 2}, shuffled[] = {1, 2, 0, 4, 3, 5};
    uint8_t many[LETHMUOK_MAX_POINTS];
    falling(many);
    print_census("1 0 2 2", example, sizeof example);
    print_census("1 2 0 4 3 5", shuffled, sizeof shuffled);
    print_census("no points", many, 0);
    print_census("200 points, 19 lengths", many, sizeof many);
    return 0;
}
