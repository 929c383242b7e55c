/* page: prints some pages of codes, each code on a line of its own; of a long page only how many codes and bytes it has. */
#include <stdio.h>

#include "lethmuok.h"

enum { LONG = 10 };

/* The length of the code that begins here: its number of points n, its number of components m, and n + m numbers more, each of one byte, or from 128 on of two. */
static size_t code_length(const uint8_t *code)
{
    size_t length = 0, numbers = 2;
    for (size_t i = 0; i < numbers; i++) {
        size_t number = code[length++];
        if (number >= 128)
            number += 128 * (size_t)code[length++] - 128;
        if (i < 2)
            numbers += number;
    }
    return length;
}

static void print_codes(const uint8_t *page, int64_t codes)
{
    for (; codes > 0; codes--) {
        const uint8_t *end = page + code_length(page);
        for (printf(" "); page < end; page++)
            printf(" %d", *page);
        printf("\n");
    }
}

static void print_page(const char *name, const uint8_t *code, size_t code_len, size_t wanted)
{
    static uint8_t page[LETHMUOK_MAX_WANTED * LETHMUOK_MAX_CODE];
    lethmuok_page_reply reply = lethmuok_page(code, code_len, wanted, page, sizeof page);
    printf("%s, %zu wanted: ", name, wanted);
    if (reply.codes < 0) {
        printf("refused %d\n", (int)-reply.codes);
        return;
    }
    printf("%d codes, %d bytes\n", (int)reply.codes, (int)reply.bytes);
    if (reply.codes < LONG)
        print_codes(page, reply.codes);
}

static void print_cycle(const char *name, size_t n, size_t wanted)
{
    uint8_t table[LETHMUOK_MAX_POINTS], code[LETHMUOK_MAX_CODE];
    for (size_t x = 0; x < n; x++)
        table[x] = (uint8_t)((x + 1) % n);
    print_page(name, code, (size_t)lethmuok_code_of_map(table, n, code, sizeof code), wanted);
}

int main(void)
{
    const uint8_t code[] = {3, 2, 1, 1, 1, 2, 1}, last[] = {3, 1, 2, 1, 2, 1}, bad[] = {3, 1, 2, 2, 1, 1};
    print_page("3 2 1 1 1 2 1", code, sizeof code, 2);
    print_page("3 2 1 1 1 2 1", code, sizeof code, 1000);
    print_page("3 1 2 1 2 1", last, sizeof last, 1000);
    print_page("3 1 2 2 1 1", bad, sizeof bad, 1000);
    print_page("3 1 2 2 1 1", bad, sizeof bad, 1001);
    print_cycle("128 points on a cycle", 128, 2);
    print_cycle("200 points on a cycle", 200, 1000);
    return 0;
}
