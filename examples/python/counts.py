"""counts: prints the codes of 3 points, each with the number of tables that have it; of each count of points up to 8 how many codes there are and how many tables
these have together; and the number of tables of some longer codes."""

import lethmuok


def every_code(n):
    """All codes of n points."""
    code = lethmuok.first(n)
    while code is not None:
        yield code
        code = lethmuok.successor(code)


def print_count(code):
    try:
        answer = str(lethmuok.table_count(code))
    except lethmuok.Refused as refusal:
        answer = "refused %d" % refusal.cause
    print("%s: %s" % (" ".join(map(str, code)), answer))


def print_total(n):
    """Over the whole list the numbers make n to the power n."""
    counts = [lethmuok.table_count(code) for code in every_code(n)]
    print("%d points: %d codes, %d tables" % (n, len(counts), sum(counts)))


def print_path(n):
    """Every point goes to the one before it, and the first to itself."""
    print_count(lethmuok.code_of_map([max(x - 1, 0) for x in range(n)]))


for code in every_code(3):
    print_count(code)
for n in range(9):
    print_total(n)
# a path looks like itself in one way only, so each of the 15! ways to name its points gives another table
print_path(15)
print_count([15, 1, 15] + [1] * 15)
print_count([15, 1, 1, 15] + [1] * 14)
print_count([15, 3] + [1, 5, 2, 1, 2, 1] * 3)
print_count(lethmuok.first(15))
print_count(lethmuok.first(16))
print_path(16)
print_count([16, 1, 2, 2, 1, 14, 13, 12, 11, 10, 9, 8, 7, 6, 5, 4, 3, 2, 1])
print_count([16, 1, 2, 14, 13, 12, 11, 10, 9, 8, 7, 6, 5, 4, 3, 2, 1, 2, 1])
