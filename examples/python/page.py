"""page: prints some pages of codes, each code on a line of its own; of a long page only how many codes and bytes it has."""

import lethmuok

LONG = 10


def code_length(page):
    """The length of the code that begins here: its number of points n, its number of components m, and n + m numbers more, each of one byte, or from 128 on of two."""
    length, i, numbers = 0, 0, 2
    while i < numbers:
        number, length = page[length], length + 1
        if number >= 128:
            number, length = number - 128 + 128 * page[length], length + 1
        if i < 2:
            numbers += number
        i += 1
    return length


def print_codes(page):
    while page:
        end = code_length(page)
        print("  " + " ".join(map(str, page[:end])))
        page = page[end:]


def print_page(name, code, wanted):
    try:
        codes, page = lethmuok.page(code, wanted)
    except lethmuok.Refused as refusal:
        print("%s, %d wanted: refused %d" % (name, wanted, refusal.cause))
        return
    print("%s, %d wanted: %d codes, %d bytes" % (name, wanted, codes, len(page)))
    if codes < LONG:
        print_codes(page)


def print_cycle(name, n, wanted):
    print_page(name, lethmuok.code_of_map([(x + 1) % n for x in range(n)]), wanted)


print_page("3 2 1 1 1 2 1", [3, 2, 1, 1, 1, 2, 1], 2)
print_page("3 2 1 1 1 2 1", [3, 2, 1, 1, 1, 2, 1], 1000)
print_page("3 1 2 1 2 1", [3, 1, 2, 1, 2, 1], 1000)
print_page("3 1 2 2 1 1", [3, 1, 2, 2, 1, 1], 1000)
print_page("3 1 2 2 1 1", [3, 1, 2, 2, 1, 1], 1001)
print_cycle("128 points on a cycle", 128, 2)
print_cycle("200 points on a cycle", 200, 1000)
