/* turns: prints some codes with their components, and of each how many of its rotations equal it; of long components only that number. */
#include <stdio.h>

#include "lethmuok.h"

struct code {
    uint8_t at[LETHMUOK_MAX_CODE];
    size_t len;
};

static void print_words(const uint8_t *bytes, size_t len)
{
    for (size_t i = 0; i < len; i++)
        printf(i ? " %d" : "%d", bytes[i]);
}

static void print_number(int64_t reply)
{
    if (reply < 0)
        printf("refused %d\n", (int)-reply);
    else
        printf("%d\n", (int)reply);
}

/* Each component, up to the position after the last. */
static void print_components(struct code code)
{
    int64_t start;
    print_words(code.at, code.len);
    printf("\n");
    for (size_t i = 0; (start = lethmuok_component_start(code.at, code.len, i)) >= 0; i++) {
        int64_t end = lethmuok_component_end(code.at, code.len, i);
        printf("  ");
        print_words(code.at + start, (size_t)(end - start));
        printf(": ");
        print_number(lethmuok_component_turns(code.at, code.len, i));
    }
}

static void print_turns(struct code code, size_t position)
{
    print_words(code.at, code.len);
    printf(" at %zu: ", position);
    print_number(lethmuok_component_turns(code.at, code.len, position));
}

/* So many points on a cycle and so many leaves, each so far along from the one before, around as often as it takes. */
static void print_leaves(size_t cycle, size_t leaves, size_t apart)
{
    uint8_t table[LETHMUOK_MAX_POINTS];
    struct code code;
    for (size_t x = 0; x < cycle; x++)
        table[x] = (uint8_t)((x + 1) % cycle);
    for (size_t x = 0; x < leaves; x++)
        table[cycle + x] = (uint8_t)(x * apart % cycle);
    code.len = (size_t)lethmuok_code_of_map(table, cycle + leaves, code.at, sizeof code.at);
    printf("%zu points on a cycle, %zu leaves %zu apart: ", cycle, leaves, apart);
    print_number(lethmuok_component_turns(code.at, code.len, 0));
}

int main(void)
{
    const struct code three = {{3, 1, 3, 1, 1, 1}, 6}, leaf = {{3, 1, 2, 1, 2, 1}, 6}, two = {{6, 1, 4, 1, 2, 1, 1, 2, 1}, 9};
    const struct code changed = {{7, 1, 4, 1, 2, 1, 1, 3, 1, 1}, 10}, turned = {{6, 1, 4, 2, 1, 1, 2, 1, 1}, 9}, none = {{0, 0}, 2};
    const struct code several = {{11, 4, 1, 1, 3, 1, 1, 1, 2, 1, 2, 1, 2, 2, 1, 2, 1}, 17};
    print_components(three);
    print_components(leaf);
    print_components(two);
    print_components(changed);
    print_components(several);
    print_components(none);
    print_turns(three, 1);
    print_turns(turned, 0);
    print_leaves(200, 0, 1);
    print_leaves(100, 100, 1);
    print_leaves(100, 99, 1);
    print_leaves(150, 50, 3);
    print_leaves(150, 49, 3);
    print_leaves(100, 60, 5);
    return 0;
}
