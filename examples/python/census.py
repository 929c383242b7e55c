"""census: prints the census of some maps, the number of cycles of each length that occurs, by rising length; then the height."""

import lethmuok


def print_census(name, table):
    rows, height = lethmuok.census(table)
    print("%s:%s height %d" % (name, "".join(" %d of %d," % (count, length) for length, count in rows), height))


def falling():
    """A cycle of 29 points, and then cycles of 18, 17 and so on to 1: 200 points."""
    table = []
    for length in (29, *range(18, 0, -1)):
        start = len(table)
        table += [start + (i + 1) % length for i in range(length)]
    return table


print_census("1 0 2 2", [1, 0, 2, 2])
print_census("1 2 0 4 3 5", [1, 2, 0, 4, 3, 5])
print_census("no points", [])
print_census("200 points, 19 lengths", falling())
