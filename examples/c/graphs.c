/* graphs: prints the digraph6 lines of some codes and the codes of some lines; of long lines only how they begin, and whether the code comes back. */
#include <stdio.h>
#include <string.h>

#include "lethmuok.h"

static void print_words(const uint8_t *code, size_t len)
{
    for (size_t i = 0; i < len; i++)
        printf(i ? " %d" : "%d", code[i]);
}

static void print_text(const uint8_t *line, size_t len)
{
    for (size_t i = 0; i < len; i++)
        if (line[i] == '\n')
            printf("\\n");
        else
            putchar(line[i]);
}

typedef void print(const uint8_t *result, size_t len);

/* What was written, or the refusal. */
static void print_reply(int64_t reply, const uint8_t *result, print *shown)
{
    printf(": ");
    if (reply < 0)
        printf("refused %d", (int)-reply);
    else
        shown(result, (size_t)reply);
    printf("\n");
}

static void print_line(const uint8_t *code, size_t len)
{
    uint8_t line[LETHMUOK_MAX_LINE];
    int64_t reply = lethmuok_digraph6_of_code(code, len, line, sizeof line);
    printf("code ");
    print_words(code, len);
    print_reply(reply, line, print_text);
}

static void print_code(const char *text)
{
    uint8_t code[LETHMUOK_MAX_CODE];
    const uint8_t *line = (const uint8_t *)text;
    int64_t reply = lethmuok_code_of_digraph6(line, strlen(text), code, sizeof code);
    printf("line ");
    print_text(line, strlen(text));
    print_reply(reply, code, print_words);
}

static void print_cycle(size_t n)
{
    uint8_t table[LETHMUOK_MAX_POINTS], code[LETHMUOK_MAX_CODE], line[LETHMUOK_MAX_LINE], back[LETHMUOK_MAX_CODE];
    for (size_t x = 0; x < n; x++)
        table[x] = (uint8_t)((x + 1) % n);
    size_t code_len = (size_t)lethmuok_code_of_map(table, n, code, sizeof code);
    size_t line_len = (size_t)lethmuok_digraph6_of_code(code, code_len, line, sizeof line);
    int64_t reply = lethmuok_code_of_digraph6(line, line_len, back, sizeof back);
    int same = reply >= 0 && (size_t)reply == code_len && memcmp(back, code, code_len) == 0;
    printf("cycle of %zu points: %zu bytes, ", n, line_len);
    print_text(line, 5);
    printf(" and on, read in: %s\n", same ? "the same code" : "ANOTHER code");
}

int main(void)
{
    const struct {
        uint8_t at[13];
        size_t len;
    } codes[] = {
        {{0, 0}, 2}, {{1, 1, 1, 1}, 4}, {{2, 1, 2, 1, 1}, 5}, {{2, 1, 1, 2, 1}, 5}, {{3, 1, 3, 1, 1, 1}, 6}, {{3, 1, 1, 3, 2, 1}, 6},
        {{8, 3, 2, 1, 1, 1, 3, 2, 1, 2, 1, 2, 1}, 13}, {{3, 1, 2, 2, 1, 1}, 6},
    };
    for (size_t i = 0; i < sizeof codes / sizeof codes[0]; i++)
        print_line(codes[i].at, codes[i].len);
    /* a cycle of 3 points, and with other names; a graph of 8 points */
    print_code("&BP_");
    print_code("&BKO");
    print_code("&GOG?_G@?A@?G");
    /* no sign in front, or a header; no size, 201 points, and a longer form than needed */
    print_code("");
    print_code("BP_");
    print_code(">>digraph6<<&BP_");
    print_code("&");
    print_code("&~?BH");
    print_code("&~??BP_");
    /* a byte too few, a newline, a padding bit; a row without a mark, and one with two */
    print_code("&BP");
    print_code("&BP_\n");
    print_code("&BP`");
    print_code("&B?_");
    print_code("&Bp_");
    print_cycle(62);
    print_cycle(63);
    print_cycle(LETHMUOK_MAX_POINTS);
    return 0;
}
