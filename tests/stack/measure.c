/* Measures how much stack each entry takes: it is called on a stack of its own that is painted before, on maps of 200 points and fewer, their codes and their lines,
 * and the deepest byte that has lost its paint is looked for. Prints the most for each entry, and fails where that is not less than the header says. */
#include <stdio.h>
#include <string.h>
#include <ucontext.h>

#include "lethmuok.h"

enum { STACK = 1 << 20, SAID = 64 * 1024, PAINT = 0xA5, RANDOM_MAPS = 300 };

static uint8_t stack[STACK], table[200], other[200], code[1000], line[LETHMUOK_MAX_LINE], out[1000], counts[1000];
static uint8_t codes[LETHMUOK_MAX_WANTED * LETHMUOK_MAX_CODE];
static size_t table_len, code_len, line_len;
static ucontext_t here, there;
static uint8_t *top;

static void accept(void) { lethmuok_accept(code, code_len); }
static void first(void) { lethmuok_first(table_len, out, sizeof out); }
static void successor(void) { lethmuok_successor(code, code_len, out, sizeof out); }
static void predecessor(void) { lethmuok_predecessor(code, code_len, out, sizeof out); }
static void code_of_map(void) { lethmuok_code_of_map(table, table_len, out, sizeof out); }
static void map_of_code(void) { lethmuok_map_of_code(code, code_len, out, sizeof out); }
static void digraph6_of_code(void) { lethmuok_digraph6_of_code(code, code_len, line, sizeof line); }
static void code_of_digraph6(void) { lethmuok_code_of_digraph6(line, line_len, out, sizeof out); }
static void isomorphism(void) { lethmuok_isomorphism(table, table_len, other, table_len, out, sizeof out); }
static void census(void) { lethmuok_census(table, table_len, out, sizeof out, counts, sizeof counts); }
static void height(void) { lethmuok_height(table, table_len); }
static void period(void) { lethmuok_period(table, table_len); }
static void greatest_period(void) { lethmuok_greatest_period(table_len, out, sizeof out); }
static void component_start(void) { lethmuok_component_start(code, code_len, 0); }
static void component_end(void) { lethmuok_component_end(code, code_len, 0); }
static void component_turns(void) { lethmuok_component_turns(code, code_len, 0); }
static void table_count(void) { lethmuok_table_count(code, code_len); }

/* The code with a neutral one on either side, so that the result has as many points, and with itself. */
static void with_both_sides(int64_t of(const uint8_t *, size_t, const uint8_t *, size_t, uint8_t *, size_t), const uint8_t *neutral, size_t neutral_len)
{
    of(code, code_len, neutral, neutral_len, out, sizeof out);
    of(neutral, neutral_len, code, code_len, out, sizeof out);
    of(code, code_len, code, code_len, out, sizeof out);
}

static void sum(void) { with_both_sides(lethmuok_sum, (const uint8_t[]){0, 0}, 2); }
static void product(void) { with_both_sides(lethmuok_product, (const uint8_t[]){1, 1, 1, 1}, 4); }

/* A page that fits, and one that does not. */
static void page(void)
{
    lethmuok_page(code, code_len, LETHMUOK_MAX_WANTED, codes, sizeof codes);
    lethmuok_page(code, code_len, LETHMUOK_MAX_WANTED, codes, 0);
}

static struct entry {
    const char *name;
    void (*call)(void);
    size_t most;
} entries[] = {
    {"accept", accept, 0}, {"first", first, 0}, {"successor", successor, 0}, {"predecessor", predecessor, 0}, {"page", page, 0}, {"code_of_map", code_of_map, 0},
    {"map_of_code", map_of_code, 0}, {"digraph6_of_code", digraph6_of_code, 0}, {"code_of_digraph6", code_of_digraph6, 0}, {"sum", sum, 0}, {"product", product, 0},
    {"isomorphism", isomorphism, 0}, {"census", census, 0}, {"height", height, 0}, {"period", period, 0}, {"greatest_period", greatest_period, 0},
    {"component_start", component_start, 0}, {"component_end", component_end, 0}, {"component_turns", component_turns, 0}, {"table_count", table_count, 0},
};
enum { ENTRIES = sizeof entries / sizeof entries[0] };

static struct entry *called;

static void on_the_stack(void)
{
    uint8_t mark;
    top = &mark;
    called->call();
}

static void measure(struct entry *e)
{
    memset(stack, PAINT, sizeof stack);
    called = e;
    getcontext(&there);
    there.uc_stack.ss_sp = stack;
    there.uc_stack.ss_size = sizeof stack;
    there.uc_link = &here;
    makecontext(&there, on_the_stack, 0);
    swapcontext(&here, &there);
    size_t low = 0;
    while (stack[low] == PAINT)
        low++;
    size_t used = (size_t)(top - (stack + low));
    if (used > e->most)
        e->most = used;
}

/* Calls every entry on the map that stands in `table`, on a copy of it with the points counted backwards, and on its code and line. */
static void all_entries(size_t n)
{
    table_len = n;
    for (size_t x = 0; x < n; x++)
        other[n - 1 - x] = (uint8_t)(n - 1 - table[x]);
    code_len = (size_t)lethmuok_code_of_map(table, n, code, sizeof code);
    line_len = (size_t)lethmuok_digraph6_of_code(code, code_len, line, sizeof line);
    for (size_t i = 0; i < ENTRIES; i++)
        measure(&entries[i]);
}

static unsigned below(unsigned n)
{
    static uint32_t state = 1;
    state = state * 1103515245u + 12345u;
    return (state >> 8) % n;
}

/* Cycles of 1, 2, 3 and so on points; the last one has as many as are left. */
static unsigned along_rising_cycles(unsigned x, unsigned n)
{
    unsigned start = 0, length = 1;
    while (start + length <= x)
        start += length++;
    return x + 1 < start + length && x + 1 < n ? x + 1 : start;
}

static void shapes(unsigned n)
{
    for (int shape = 0; shape < 12; shape++) {
        for (unsigned x = 0; x < n; x++) {
            unsigned before = x ? x - 1 : 0;
            unsigned comb = x < n / 2 ? before : x - n / 2, pairs = x % 2 ? x - 1 : (x + 1) % n, two_paths = x == n / 2 ? x : before;
            unsigned fork = x == n - 1 ? n - 3 : before, doubled = x < 2 ? 0 : x - 2, periodic = x < n / 2 ? (x + 1) % (n / 2) : x - n / 2;
            unsigned images[] = {before, (x + 1) % n, 0, x, before / 2, comb, pairs, two_paths, fork, doubled, periodic, along_rising_cycles(x, n)};
            table[x] = (uint8_t)images[shape];
        }
        all_entries(n);
    }
}

int main(void)
{
    shapes(200);
    shapes(128);
    /* the most points of a map whose period is told, and of which tables are counted */
    shapes(LETHMUOK_MAX_PERIOD_POINTS);
    shapes(LETHMUOK_MAX_COUNTED);
    for (int i = 0; i < RANDOM_MAPS; i++) {
        unsigned n = 1 + below(200), kind = below(3);
        for (unsigned x = 0; x < n; x++)
            table[x] = (uint8_t)(kind == 0 ? below(n) : kind == 1 ? below(x + 1) : x ? x - 1 - below(x < 3 ? x : 3) : 0);
        all_entries(n);
    }
    size_t most = 0;
    for (size_t i = 0; i < ENTRIES; i++) {
        printf("%-16s %6zu bytes of stack\n", entries[i].name, entries[i].most);
        most = entries[i].most > most ? entries[i].most : most;
    }
    printf("%-16s %6zu bytes of stack\n", "at most", most);
    return most >= SAID;
}
