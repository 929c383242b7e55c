/* back: prints some codes, those that follow, and the way back; of long codes only whether the way back ends where it began. */
#include <stdio.h>
#include <string.h>

#include "lethmuok.h"

struct code {
    uint8_t at[LETHMUOK_MAX_CODE];
    size_t len;
};

typedef int64_t step(const uint8_t *code, size_t code_len, uint8_t *out, size_t out_len);

/* Steps to a neighbour in the list where there is one; answers the reply. */
static int64_t go(step *to, struct code *code)
{
    struct code other;
    int64_t reply = to(code->at, code->len, other.at, sizeof other.at);
    if (reply >= 0) {
        other.len = (size_t)reply;
        *code = other;
    }
    return reply;
}

static void print_code(const struct code *code)
{
    for (size_t i = 0; i < code->len; i++)
        printf(" %d", code->at[i]);
    printf("\n");
}

static void print_reply(int64_t reply, const struct code *code)
{
    if (reply >= 0)
        print_code(code);
    else if (reply == LETHMUOK_LAST || reply == LETHMUOK_FIRST)
        printf(reply == LETHMUOK_LAST ? " last\n" : " first\n");
    else
        printf(" refused %d\n", (int)-reply);
}

static void print_before(struct code code)
{
    printf("before");
    for (size_t i = 0; i < code.len; i++)
        printf(" %d", code.at[i]);
    printf(":");
    int64_t reply = go(lethmuok_predecessor, &code);
    print_reply(reply, &code);
}

static int64_t print_step(const char *name, step *to, struct code *code)
{
    int64_t reply = go(to, code);
    printf("  %s:", name);
    print_reply(reply, code);
    return reply;
}

/* At most so many steps forward, up to "last", and as many back. */
static void print_steps(struct code code, int steps)
{
    int made = 0;
    printf("from");
    print_code(&code);
    while (made < steps && print_step("forward", lethmuok_successor, &code) >= 0)
        made++;
    for (; made > 0; made--)
        print_step("back", lethmuok_predecessor, &code);
}

static void print_cycle(const char *name, size_t n, int steps)
{
    uint8_t table[LETHMUOK_MAX_POINTS];
    struct code start, code;
    for (size_t x = 0; x < n; x++)
        table[x] = (uint8_t)((x + 1) % n);
    start.len = (size_t)lethmuok_code_of_map(table, n, start.at, sizeof start.at);
    code = start;
    for (int i = 0; i < steps; i++)
        go(lethmuok_successor, &code);
    for (int i = 0; i < steps; i++)
        go(lethmuok_predecessor, &code);
    int same = code.len == start.len && memcmp(code.at, start.at, start.len) == 0;
    printf("%s, %d steps forward and back: %s\n", name, steps, same ? "the same code" : "ANOTHER code");
}

int main(void)
{
    const struct code code = {{8, 3, 2, 1, 1, 1, 3, 2, 1, 2, 1, 2, 1}, 13}, three = {{3, 1, 1, 3, 2, 1}, 6}, sizes = {{3, 1, 3, 1, 1, 1}, 6};
    const struct code first = {{3, 3, 1, 1, 1, 1, 1, 1}, 8}, none = {{0, 0}, 2}, bad = {{3, 1, 2, 2, 1, 1}, 6};
    print_steps(code, 3);
    print_steps(three, 5);
    print_before(sizes);
    print_before(first);
    print_before(none);
    print_before(bad);
    print_cycle("200 points on a cycle", 200, 1000);
    return 0;
}
