/* periods: prints the period of some maps, the number of steps that bring each point back once every point is on a cycle. */
#include <inttypes.h>
#include <stdio.h>

#include "lethmuok.h"

static void print_period(const char *name, const uint8_t *table, size_t n)
{
    int64_t reply = lethmuok_period(table, n);
    if (reply < 0)
        printf("%s: refused %d\n", name, (int)-reply);
    else
        printf("%s: %" PRId64 "\n", name, reply);
}

/* Cycles of these lengths, one after another. */
static void with_cycles(const int *lengths, size_t cycles, uint8_t *table)
{
    int start = 0;
    for (size_t i = 0; i < cycles; i++) {
        for (int x = 0; x < lengths[i]; x++)
            table[start + x] = (uint8_t)(start + (x + 1) % lengths[i]);
        start += lengths[i];
    }
}

int main(void)
{
    const uint8_t two_and_three[] = {1, 0, 3, 4, 2}, with_a_leaf[] = {1, 0, 3, 4, 2, 2}, four_and_two[] = {1, 2, 3, 0, 5, 4}, example[] = {1, 0, 2, 2};
    const uint8_t no_point[] = {1, 0, 3};
    const int lengths[] = {5, 7, 9, 11, 13, 16, 17, 19, 23};
    uint8_t many[LETHMUOK_MAX_PERIOD_POINTS], star[LETHMUOK_MAX_POINTS + 1] = {0};
    with_cycles(lengths, sizeof lengths / sizeof lengths[0], many);
    print_period("1 0 3 4 2", two_and_three, sizeof two_and_three);
    print_period("1 0 3 4 2 2", with_a_leaf, sizeof with_a_leaf);
    print_period("1 2 3 0 5 4", four_and_two, sizeof four_and_two);
    print_period("1 0 2 2", example, sizeof example);
    print_period("no points", many, 0);
    /* the greatest period of all, which takes more than 32 bits */
    print_period("120 points, cycles of 5, 7, 9, 11, 13, 16, 17, 19 and 23", many, LETHMUOK_MAX_PERIOD_POINTS);
    print_period("120 points that go to one", star, LETHMUOK_MAX_PERIOD_POINTS);
    print_period("121 points that go to one", star, LETHMUOK_MAX_PERIOD_POINTS + 1);
    /* a byte that is no point is told last */
    star[0] = 255;
    print_period("120 points, a byte that is none of them", star, LETHMUOK_MAX_PERIOD_POINTS);
    print_period("121 points, a byte that is none of them", star, LETHMUOK_MAX_PERIOD_POINTS + 1);
    print_period("201 points, a byte that is none of them", star, LETHMUOK_MAX_POINTS + 1);
    print_period("1 0 3", no_point, sizeof no_point);
    return 0;
}
