"""periods: prints the period of some maps, the number of steps that bring each point back once every point is on a cycle."""

import lethmuok


def print_period(name, table):
    try:
        answer = str(lethmuok.period(table))
    except lethmuok.Refused as refusal:
        answer = "refused %d" % refusal.cause
    print("%s: %s" % (name, answer))


def with_cycles(lengths):
    """Cycles of these lengths, one after another."""
    table = []
    for length in lengths:
        start = len(table)
        table += [start + (x + 1) % length for x in range(length)]
    return table


for table in ([1, 0, 3, 4, 2], [1, 0, 3, 4, 2, 2], [1, 2, 3, 0, 5, 4], [1, 0, 2, 2]):
    print_period(" ".join(map(str, table)), table)
print_period("no points", [])
# the greatest period of all, which takes more than 32 bits
print_period("120 points, cycles of 5, 7, 9, 11, 13, 16, 17, 19 and 23", with_cycles([5, 7, 9, 11, 13, 16, 17, 19, 23]))
print_period("120 points that go to one", [0] * 120)
print_period("121 points that go to one", [0] * 121)
# a byte that is no point is told last
for n in (120, 121, 201):
    print_period("%d points, a byte that is none of them" % n, [255] + [0] * (n - 1))
print_period("1 0 3", [1, 0, 3])
