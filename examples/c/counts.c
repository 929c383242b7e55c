/* counts: prints the codes of 3 points, each with the number of tables that have it; of each count of points up to 8 how many codes there are and how many tables
 * these have together; and the number of tables of some longer codes. */
#include <inttypes.h>
#include <stdbool.h>
#include <stdio.h>

#include "lethmuok.h"

struct code {
    uint8_t at[LETHMUOK_MAX_CODE];
    size_t len;
};

static struct code first_of(size_t n)
{
    struct code code;
    code.len = (size_t)lethmuok_first(n, code.at, sizeof code.at);
    return code;
}

/* Whether a code follows, which then takes the place of this one. */
static bool follows(struct code *code)
{
    struct code next;
    int64_t reply = lethmuok_successor(code->at, code->len, next.at, sizeof next.at);
    if (reply < 0)
        return false;
    next.len = (size_t)reply;
    *code = next;
    return true;
}

static void print_count(struct code code)
{
    int64_t reply = lethmuok_table_count(code.at, code.len);
    for (size_t i = 0; i < code.len; i++)
        printf(i ? " %d" : "%d", code.at[i]);
    if (reply < 0)
        printf(": refused %d\n", (int)-reply);
    else
        printf(": %" PRId64 "\n", reply);
}

static void print_list(size_t n)
{
    struct code code = first_of(n);
    do
        print_count(code);
    while (follows(&code));
}

/* Over the whole list the numbers make n to the power n. */
static void print_total(size_t n)
{
    struct code code = first_of(n);
    int64_t codes = 0, tables = 0;
    do {
        codes++;
        tables += lethmuok_table_count(code.at, code.len);
    } while (follows(&code));
    printf("%zu points: %" PRId64 " codes, %" PRId64 " tables\n", n, codes, tables);
}

/* Every point goes to the one before it, and the first to itself. */
static void print_path(size_t n)
{
    uint8_t table[LETHMUOK_MAX_POINTS] = {0};
    struct code code;
    for (size_t x = 1; x < n; x++)
        table[x] = (uint8_t)(x - 1);
    code.len = (size_t)lethmuok_code_of_map(table, n, code.at, sizeof code.at);
    print_count(code);
}

int main(void)
{
    const struct code cycle = {{15, 1, 15, 1, 1, 1, 1, 1, 1, 1, 1, 1, 1, 1, 1, 1, 1, 1}, 18};
    const struct code star = {{15, 1, 1, 15, 1, 1, 1, 1, 1, 1, 1, 1, 1, 1, 1, 1, 1, 1}, 18};
    const struct code equal = {{15, 3, 1, 5, 2, 1, 2, 1, 1, 5, 2, 1, 2, 1, 1, 5, 2, 1, 2, 1}, 20};
    const struct code in_order = {{16, 1, 2, 2, 1, 14, 13, 12, 11, 10, 9, 8, 7, 6, 5, 4, 3, 2, 1}, 19};
    const struct code out_of_order = {{16, 1, 2, 14, 13, 12, 11, 10, 9, 8, 7, 6, 5, 4, 3, 2, 1, 2, 1}, 19};
    print_list(3);
    for (size_t n = 0; n <= 8; n++)
        print_total(n);
    /* a path looks like itself in one way only, so each of the 15! ways to name its points gives another table */
    print_path(15);
    print_count(cycle);
    print_count(star);
    print_count(equal);
    print_count(first_of(15));
    print_count(first_of(16));
    print_path(16);
    print_count(in_order);
    print_count(out_of_order);
    return 0;
}
