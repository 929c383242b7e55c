/* sums: prints some sums and products of codes, and both sides of a law; of long results only their points. */
#include <stdio.h>

#include "lethmuok.h"

struct code {
    uint8_t at[LETHMUOK_MAX_CODE];
    size_t len;
};

/* A code, or the reply of a refusal. */
struct result {
    int64_t reply;
    struct code code;
};

typedef int64_t operation(const uint8_t *first, size_t first_len, const uint8_t *second, size_t second_len, uint8_t *out, size_t out_len);

static struct result make(operation *of, const struct code *a, const struct code *b)
{
    struct result result;
    result.reply = of(a->at, a->len, b->at, b->len, result.code.at, sizeof result.code.at);
    result.code.len = result.reply < 0 ? 0 : (size_t)result.reply;
    return result;
}

static void print_words(const struct code *code)
{
    for (size_t i = 0; i < code->len; i++)
        printf(i ? " %d" : "%d", code->at[i]);
}

static void print_result(const struct result *result)
{
    printf(": ");
    if (result->reply < 0)
        printf("refused %d", (int)-result->reply);
    else
        print_words(&result->code);
    printf("\n");
}

static void print_two(operation *of, const char *sign, struct code a, struct code b)
{
    struct result result = make(of, &a, &b);
    print_words(&a);
    printf(" %s ", sign);
    print_words(&b);
    print_result(&result);
}

static void print_sum(struct code a, struct code b)
{
    print_two(lethmuok_sum, "+", a, b);
}

static void print_product(struct code a, struct code b)
{
    print_two(lethmuok_product, "*", a, b);
}

/* The product with a sum, and the sum of the products, whose results go on as inputs. */
static void print_law(struct code a, struct code b, struct code c)
{
    struct result both = make(lethmuok_sum, &a, &b), left = make(lethmuok_product, &a, &c), right = make(lethmuok_product, &b, &c);
    struct result whole = make(lethmuok_product, &both.code, &c), parts = make(lethmuok_sum, &left.code, &right.code);
    printf("(");
    print_words(&a);
    printf(" + ");
    print_words(&b);
    printf(") * ");
    print_words(&c);
    print_result(&whole);
    print_words(&a);
    printf(" * ");
    print_words(&c);
    printf(" + ");
    print_words(&b);
    printf(" * ");
    print_words(&c);
    print_result(&parts);
}

static struct code cycle(size_t n)
{
    uint8_t table[LETHMUOK_MAX_POINTS];
    struct code code;
    for (size_t x = 0; x < n; x++)
        table[x] = (uint8_t)((x + 1) % n);
    code.len = (size_t)lethmuok_code_of_map(table, n, code.at, sizeof code.at);
    return code;
}

static void print_points(const char *name, operation *of, struct code a, struct code b)
{
    struct result result = make(of, &a, &b);
    if (result.reply < 0)
        printf("%s refused %d", name, (int)-result.reply);
    else
        printf("%s %d points", name, (int)lethmuok_accept(result.code.at, result.code.len));
}

static void print_cycles(size_t n, size_t m)
{
    printf("cycles of %zu and %zu points: ", n, m);
    print_points("sum", lethmuok_sum, cycle(n), cycle(m));
    print_points(", product", lethmuok_product, cycle(n), cycle(m));
    printf("\n");
}

int main(void)
{
    const struct code empty = {{0, 0}, 2}, point = {{1, 1, 1, 1}, 4}, two = {{2, 1, 2, 1, 1}, 5}, three = {{3, 1, 3, 1, 1, 1}, 6};
    const struct code leaf = {{2, 1, 1, 2, 1}, 5}, path = {{3, 1, 1, 3, 2, 1}, 6};
    const struct code turned = {{3, 1, 2, 2, 1, 1}, 6}, wrong = {{129, 0}, 2}, longer = {{2, 1, 2, 1, 1, 9}, 6};
    print_sum(two, path);
    print_sum(path, two);
    print_sum(path, empty);
    print_sum(empty, empty);
    print_product(two, three);
    print_product(two, two);
    print_product(leaf, leaf);
    print_product(path, two);
    print_product(path, point);
    print_product(path, empty);
    print_law(two, path, leaf);
    print_sum(turned, wrong);
    print_product(two, longer);
    print_cycles(14, 14);
    print_cycles(100, 100);
    print_cycles(200, 1);
    print_cycles(199, 2);
    return 0;
}
