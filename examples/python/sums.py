"""sums: prints some sums and products of codes, and both sides of a law; of long results only their points."""

import lethmuok

EMPTY, POINT, TWO, THREE = [0, 0], [1, 1, 1, 1], [2, 1, 2, 1, 1], [3, 1, 3, 1, 1, 1]
LEAF, PATH = [2, 1, 1, 2, 1], [3, 1, 1, 3, 2, 1]


def words(code):
    return " ".join(map(str, code))


def answer(call, a, b, shown):
    """What is shown of a result, or the refusal."""
    try:
        return shown(call(a, b))
    except lethmuok.Refused as refusal:
        return "refused %d" % refusal.cause


def print_sum(a, b):
    print("%s + %s: %s" % (words(a), words(b), answer(lethmuok.sum_of_codes, a, b, words)))


def print_product(a, b):
    print("%s * %s: %s" % (words(a), words(b), answer(lethmuok.product_of_codes, a, b, words)))


def print_law(a, b, c):
    """The product with a sum, and the sum of the products, whose results go on as inputs."""
    product = lethmuok.product_of_codes(lethmuok.sum_of_codes(a, b), c)
    both = lethmuok.sum_of_codes(lethmuok.product_of_codes(a, c), lethmuok.product_of_codes(b, c))
    print("(%s + %s) * %s: %s" % (words(a), words(b), words(c), words(product)))
    print("%s * %s + %s * %s: %s" % (words(a), words(c), words(b), words(c), words(both)))


def print_cycles(n, m):
    def points(code):
        return "%d points" % lethmuok.accept(code)

    a, b = (lethmuok.code_of_map([(x + 1) % k for x in range(k)]) for k in (n, m))
    total, product = (answer(call, a, b, points) for call in (lethmuok.sum_of_codes, lethmuok.product_of_codes))
    print("cycles of %d and %d points: sum %s, product %s" % (n, m, total, product))


print_sum(TWO, PATH)
print_sum(PATH, TWO)
print_sum(PATH, EMPTY)
print_sum(EMPTY, EMPTY)
print_product(TWO, THREE)
print_product(TWO, TWO)
print_product(LEAF, LEAF)
print_product(PATH, TWO)
print_product(PATH, POINT)
print_product(PATH, EMPTY)
print_law(TWO, PATH, LEAF)
print_sum([3, 1, 2, 2, 1, 1], [129, 0])
print_product(TWO, [2, 1, 2, 1, 1, 9])
print_cycles(14, 14)
print_cycles(100, 100)
print_cycles(200, 1)
print_cycles(199, 2)
