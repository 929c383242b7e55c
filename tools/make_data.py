#!/usr/bin/env python3
"""make_data.py [--write]: makes the files of crates/checks/data and crates/line_checks/data anew, from tools/plain_listing.py and tools/plain_model.py. They go to target/checks-data and are
compared with those in these; with --write they go there. tools/README.md says what each file holds."""
import filecmp
import itertools
import math
import os
import sys

import plain_listing
import plain_model as model

TOP = os.path.join(os.path.dirname(os.path.realpath(__file__)), "..")
KEPT = os.path.join(TOP, "crates", "checks", "data")
LINES = os.path.join(TOP, "crates", "line_checks", "data")
WRITE = sys.argv[1:] == ["--write"]
MADE = os.path.join(TOP, "target", "checks-data")
ACCEPT, FIRST, SUCCESSOR, CODE_OF_MAP, MAP_OF_CODE, ISOMORPHISM, CENSUS, PREDECESSOR, SUM, PRODUCT, TABLE_COUNT, PERIOD = range(1, 13)
KINDS = {"length": 0, "last": 1, "none": 2, "refused": 3, "first": 4, "census": 0, "part": 0, "page": 0, "number": 0}
WIDE = 1000
WIDEST = 10000


class Numbers:
    """A small linear congruential generator, so that the data is the same everywhere."""

    def __init__(self, seed):
        self.state = seed

    def below(self, n):
        self.state = (self.state * 1103515245 + 12345) % 2**31
        return (self.state >> 8) % n

    def shuffled(self, n):
        points = list(range(n))
        for i in reversed(range(1, n)):
            j = self.below(i + 1)
            points[i], points[j] = points[j], points[i]
        return points


def renamed(table, r):
    """The table g with g[r[x]] = r[f[x]]."""
    g = [0] * len(table)
    for x, y in enumerate(table):
        g[r[x]] = r[y]
    return g


# ---- lines of a file of cases


def stretch(numbers, length=None):
    """A list as its length, the length of a pattern, and the pattern, which repeats until the length is reached."""
    return [len(numbers) if length is None else length, len(numbers)] + list(numbers)


def case(entry, room, a, b, answer):
    kind, result = answer
    if kind == "census":
        rows, height = result
        value, output = len(rows), [height] + [x for row in rows for x in row]
    elif kind == "length":
        value, output = len(result), [] if entry == ACCEPT else result
    else:
        value, output = result or 0, []
    return [entry, room] + a + b + [KINDS[kind], value] + stretch(output)


def repeated(code, length):
    return code if length is None else [code[i % len(code)] for i in range(length)]


def accept(code, length=None):
    return case(ACCEPT, 0, stretch(code, length), [0, 0], model.accept(repeated(code, length)))


def first(n, room):
    return case(FIRST, room, [n, 0], [0, 0], model.first(n, room))


def successor(code, room=WIDE):
    return case(SUCCESSOR, room, stretch(code), [0, 0], model.successor(code, room))


def predecessor(code, room=WIDE, length=None):
    return case(PREDECESSOR, room, stretch(code, length), [0, 0], model.predecessor(repeated(code, length), room))


def code_of_map(table, room=WIDE):
    return case(CODE_OF_MAP, room, stretch(table), [0, 0], model.code_of_map(table, room))


def map_of_code(code, room=WIDE):
    return case(MAP_OF_CODE, room, stretch(code), [0, 0], model.map_of_code(code, room))


def isomorphism(f, g, room, answer):
    return case(ISOMORPHISM, room, stretch(f), stretch(g), answer)


def sum_of_codes(a, b, room=WIDE, lengths=(None, None)):
    inputs = [*map(repeated, (a, b), lengths)]
    return case(SUM, room, *map(stretch, (a, b), lengths), model.sum_of_codes(*inputs, room))


def product_of_codes(a, b, room=WIDE, lengths=(None, None)):
    inputs = [*map(repeated, (a, b), lengths)]
    return case(PRODUCT, room, *map(stretch, (a, b), lengths), model.product_of_codes(*inputs, room))


def table_count(code, length=None):
    return case(TABLE_COUNT, 0, stretch(code, length), [0, 0], model.table_count(repeated(code, length)))


def period(table, length=None):
    return case(PERIOD, 0, stretch(table, length), [0, 0], model.period(repeated(table, length)))


def greatest_period(n, room=WIDE):
    kind, value = model.greatest_period(n, room)
    return [n, room, KINDS[kind], value]


def runs(numbers):
    """A list as the number of its runs, and the byte and the length of each."""
    found = [(byte, len([*same])) for byte, same in itertools.groupby(numbers)]
    return [len(found)] + [x for run in found for x in run]


def digraph6_of_code(code, room=WIDEST, length=None):
    kind, result = model.digraph6_of_code(repeated(code, length), room)
    return stretch(code, length) + [room, KINDS[kind]] + ([len(result)] + runs(result) if kind == "length" else [result] + runs([]))


def code_of_digraph6(line, room=WIDE):
    kind, result = model.code_of_digraph6(line, room)
    return runs(line) + [room, KINDS[kind]] + ([len(result)] + stretch(result) if kind == "length" else [result] + stretch([]))


def census(table, room=19):
    return case(CENSUS, room, stretch(table), [0, 0], model.census(table, room))


def component(code, position):
    kind, result = model.component(code, position)
    value, turns, part = result if kind == "part" else (result, 0, [])
    return stretch(code) + [position, KINDS[kind], value, turns] + stretch(part)


def page(code, wanted, room=WIDEST):
    kind, result = model.page(code, wanted, room)
    value, output = result if kind == "page" else (result, [])
    return stretch(code) + [wanted, room, KINDS[kind], value, len(output)] + stretch(output)


def distinct(lines):
    return [list(line) for line in dict.fromkeys(map(tuple, lines))]


def save(name, lines):
    """Writes a file, a line of numbers each, and says whether it is the one that is kept."""
    folder = LINES if name.startswith("digraph6_") else KEPT
    made, kept = os.path.join(folder if WRITE else MADE, name), os.path.join(folder, name)
    with open(made, "w") as out:
        for line in lines:
            out.write(" ".join(map(str, line)) + "\n")
    size = os.path.getsize(made)
    assert size < 2**16, name
    same = os.path.exists(kept) and filecmp.cmp(made, kept, shallow=False)
    print(f"{name}: {len(lines)} lines, {size} bytes" + ("" if same else ", not as in " + os.path.relpath(folder, TOP)))
    return same


# ---- the sheet of examples, its answers as document 01 gives them


def examples():
    def given(line, kind, value, output=()):
        """A case with the paper's answer, which has to be the model's."""
        assert line[-len(stretch(output)) - 2 :] == [KINDS[kind], value] + stretch(output), line
        return line

    def coded(table, code):
        return given(code_of_map(table), "length", len(code), code)

    def followed(code, following):
        return given(successor(code), "length", len(following), following)

    def preceded(code, before):
        return given(predecessor(code), "length", len(before), before)

    def refused(code, cause):
        return given(accept(code), "refused", cause)

    def found(line, code):
        return given(line, "length", len(code), code)

    zero = given(successor([0, 0]), "last", 0)
    lines = [coded([], [0, 0]), zero]
    lines += [coded([1, 2, 0], [3, 1, 3, 1, 1, 1]), coded([0, 0, 0], [3, 1, 1, 3, 1, 1]), coded([0, 0, 1], [3, 1, 1, 3, 2, 1])]
    lines.append(followed([8, 3, 2, 1, 1, 1, 3, 2, 1, 2, 1, 2, 1], [8, 3, 2, 1, 1, 1, 3, 1, 1, 1, 3, 1, 1]))
    lines.append(isomorphism([0, 0], [1, 1], WIDE, ("length", [1, 0])))
    lines.append(isomorphism([0, 1], [1, 0], WIDE, ("none", None)))
    lines += [refused(code, 6) for code in ([3, 1, 2, 2, 1, 1], [4, 1, 1, 4, 2, 1, 1], [3, 2, 2, 1, 1, 1, 1])]
    lines += [refused([], 3), refused([128], 3), refused([129, 0], 4), refused([128, 128], 4)]
    lines += [refused([0, 1], 5), refused([1, 0], 5), refused([1, 1, 1, 1, 9], 7)]
    lines += [refused([200, 1], 3), refused([201, 1], 1)]
    lines.append(given(census([1, 0, 2, 2]), "census", 2, [1, 1, 1, 2, 1]))
    # paper 1 of document 02: rows by rising length, in whatever order the cycles are met; no points; 200 points on cycles of 19 lengths
    lines.append(given(census([1, 2, 0, 4, 3, 5]), "census", 3, [0, 1, 1, 2, 1, 3, 1]))
    lines.append(given(census([]), "census", 0, [0]))
    lengths = [29, *range(18, 0, -1)]
    lines.append(given(census(joined(*map(cycle_map, lengths))), "census", 19, [0] + [x for k in sorted(lengths) for x in (k, 1)]))
    # the list of 3 points, and what would break under the plausible and false readings
    three = [[3, 3, 1, 1, 1, 1, 1, 1], [3, 2, 1, 1, 2, 1, 1], [3, 2, 1, 1, 1, 2, 1], [3, 1, 3, 1, 1, 1], [3, 1, 1, 3, 2, 1], [3, 1, 1, 3, 1, 1], [3, 1, 2, 1, 2, 1]]
    lines.append(given(first(3, WIDE), "length", 8, three[0]))
    lines += [followed(a, b) for a, b in zip(three, three[1:])] + [given(successor(three[-1]), "last", 0)]
    lines += [refused([5, 1, 4, 1, 2, 1, 1, 1], 6), refused([6, 2, 2, 1, 2, 1, 1, 3, 1, 1], 6)]
    # paper 3 of document 02: the same steps back, "first" for the first code of its count, and the code's own checks before it
    lines += [given(predecessor(code), "first", 0) for code in ([0, 0], [1, 1, 1, 1], [2, 2, 1, 1, 1, 1], three[0])]
    lines += [preceded(b, a) for a, b in zip(three, three[1:])]
    lines.append(preceded([8, 3, 2, 1, 1, 1, 3, 1, 1, 1, 3, 1, 1], [8, 3, 2, 1, 1, 1, 3, 2, 1, 2, 1, 2, 1]))
    lines += [given(predecessor(three[0] + [9], 0), "refused", 7), given(predecessor(three[0], 0), "first", 0), given(predecessor(three[1], 7), "refused", 8)]
    # paper 5 of document 02: sums and products with the answers that its words give, the neutral systems, 11, and the order of the checks
    two, leaf, path, empty, one = [2, 1, 2, 1, 1], [2, 1, 1, 2, 1], [3, 1, 1, 3, 2, 1], [0, 0], [1, 1, 1, 1]
    lines += [found(sum_of_codes(a, b), [5, 2, 2, 1, 1, 1, 3, 2, 1]) for a, b in ((two, path), (path, two))]
    lines += [found(product_of_codes(a, b), [6, 1, 2, 3, 2, 1, 3, 2, 1]) for a, b in ((two, path), (path, two))]
    lines += [found(product_of_codes(two, three[3]), [6, 1, 6, 1, 1, 1, 1, 1, 1]), found(product_of_codes(two, two), [4, 2, 2, 1, 1, 2, 1, 1])]
    lines.append(found(product_of_codes(leaf, leaf), [4, 1, 1, 4, 1, 1, 1]))
    lines += [found(sum_of_codes(a, b), path) for a, b in ((path, empty), (empty, path))] + [found(sum_of_codes(empty, empty), empty)]
    lines += [found(product_of_codes(a, b), path) for a, b in ((path, one), (one, path))]
    most = model.first(200, WIDE)[1]
    lines += [found(product_of_codes(a, b), empty) for a, b in ((most, empty), (empty, most))] + [found(product_of_codes(most, one, 404), most)]
    lines += [given(sum_of_codes(most, one), "refused", 11), given(product_of_codes(two, most, 0), "refused", 11), given(product_of_codes(most, one, 403), "refused", 8)]
    lines += [given(sum_of_codes([3, 1, 2, 2, 1, 1], []), "refused", 6), given(product_of_codes([], [3, 1, 2, 2, 1, 1]), "refused", 3)]
    lines += [given(sum_of_codes(most, one + [9], 0), "refused", 7), given(product_of_codes(most, [201, 1], 0), "refused", 1)]
    # paper 7 of document 02: the list of 3 points, no points, and 12 after the code's own checks
    lines += [given(table_count(code), "number", tables) for code, tables in zip(three, (1, 3, 6, 2, 6, 3, 6))] + [given(table_count(empty), "number", 1)]
    sixteen = model.first(16, WIDE)[1]
    lines += [given(table_count(code), "refused", cause) for code, cause in ((sixteen, 12), (most, 12), (sixteen + [1], 7), (sixteen[:-1], 3))]
    # paper 8 of document 02: cycles of 2 and 3, no points, and the map of the sheet, whose round length was told with the census; 13 after 1 and before 2
    lines += [given(period(table), "number", steps) for table, steps in (([1, 0, 3, 4, 2], 6), ([], 1), ([1, 0, 2, 2], 2))]
    lines += [given(period([0], 120), "number", 1)] + [given(period([0], n), "refused", cause) for n, cause in ((121, 13), (200, 13), (201, 1))]
    lines += [given(period([255], n), "refused", cause) for n, cause in ((120, 2), (121, 13), (200, 13), (201, 1))]
    # the order of checks
    lines += [refused([1, 1, 1, 1, 128], 3), refused([1, 1, 1, 1, 129, 0], 4), refused([201, 1, 128], 3)]
    lines += [refused([3, 1, 2, 3, 1, 1], 3), refused([3, 1, 2, 3, 1, 1, 1], 5), refused([2, 1, 1, 1, 9], 5)]
    return lines


# ---- damaged codes


def damaged():
    given = {}

    def add(code):
        given.setdefault(tuple(code), None)

    def damage(code, values):
        for end in range(len(code)):
            add(code[:end])
        add(code + [0])
        add(code + [1])
        add(code + [128])
        add(code + [129, 0])
        for i, x in enumerate(code):
            for v in values(x):
                add(code[:i] + [v] + code[i + 1 :])
            add(code[:i] + code[i + 1 :])
            add(code[:i] + [x, x] + code[i + 1 :])
            add(code[:i] + [x + 128, 0] + code[i + 1 :])
            if i + 1 < len(code):
                add(code[:i] + [code[i + 1], x] + code[i + 2 :])

    for n in range(4):
        for system in plain_listing.systems(n):
            damage(plain_listing.numbers(n, system), lambda x: [0, 1, 2, 3, 4, 128, 200, 255])
    # two components of 4 points in the order of their place, the other order, other rotations and other branch orders
    swaps = [
        [8, 2, 1, 4, 1, 2, 1, 1, 4, 3, 1, 1],
        [8, 2, 1, 4, 3, 1, 1, 1, 4, 1, 2, 1],
        [8, 2, 1, 4, 2, 1, 1, 1, 4, 3, 1, 1],
        [8, 2, 2, 1, 3, 2, 1, 2, 1, 3, 1, 1],
        [8, 2, 2, 1, 3, 1, 1, 2, 1, 3, 2, 1],
        [8, 2, 2, 3, 2, 1, 1, 2, 1, 3, 1, 1],
        [7, 1, 3, 1, 3, 2, 1, 3, 1, 1],
        [7, 1, 3, 1, 3, 1, 1, 3, 2, 1],
        [7, 1, 3, 3, 1, 1, 3, 2, 1, 1],
        [7, 1, 1, 7, 1, 2, 1, 3, 1, 1],
        [7, 1, 1, 7, 2, 1, 1, 3, 1, 1],
        [7, 1, 1, 7, 3, 1, 1, 1, 2, 1],
        [6, 2, 1, 2, 1, 1, 4, 3, 2, 1],
        [6, 2, 1, 4, 3, 2, 1, 1, 2, 1],
    ]
    for code in swaps:
        add(code)
        for i, x in enumerate(code):
            add(code[:i] + [x + 1] + code[i + 1 :])
            add(code[:i] + [x - 1] + code[i + 1 :])
    # every tenth of these codes to the step back too, with room and without
    back = [predecessor(list(code), WIDE if i % 20 else 0) for i, code in enumerate(given) if i % 10 == 0]
    assert {line[-3] for line in back if line[-4] == KINDS["refused"]} >= {1, 3, 4, 5, 6, 7}
    return [accept(list(code)) for code in given] + back


def damaged_long():
    """Codes of 128 and 200 points, whose numbers are of one and two bytes."""
    lines = []
    numbers = Numbers(7)
    codes = [model.code_of_map(shape, WIDE)[1] for shape in (path_map(128), star(200), cycle_map(200), random_map(numbers, 200), path_map(200))]
    for code in codes:
        lines.append(accept(code))
        for end in (1, 2, 3, 4, 5, 6, len(code) // 2, len(code) - 2, len(code) - 1):
            lines.append(accept(code[:end]))
        for place in list(range(7)) + [len(code) // 2, len(code) - 2, len(code) - 1]:
            for v in (0, 1, 2, 127, 128, 200, 255):
                lines.append(accept(code[:place] + [v] + code[place + 1 :]))
        lines.append(accept(code + [1]))
        lines.append(accept(code + [200]))
        lines.append(accept(code + [200, 1]))
    short = [line for line in lines if len(line) < 40]
    return short + [line for line in lines if len(line) >= 40][::7]


def reordered():
    """Codes of 3 to 6 points with the components, the trees along a cycle or the branches of a tree in another order: all refused with 6."""
    def reverse(tree):
        branches = [reverse(b) for b in reversed(plain_listing.parts(tree))]
        return tree[:1] + tuple(x for b in branches for x in b)

    found = []
    for n in range(3, 7):
        for system in plain_listing.systems(n):
            ways = [system[::-1], [c[1:] + c[:1] for c in system], [c[::-1] for c in system], [tuple(map(reverse, c)) for c in system]]
            ways += [system[:i] + [system[i][1:] + system[i][:1]] + system[i + 1 :] for i in range(len(system))]
            found += [way for way in ways if way != system and way not in found]
    return [accept(model.written(way)) for way in found]


def hostile():
    lines = [accept([])]
    for byte in (0, 1, 2, 100, 127, 128, 129, 200, 255):
        lines += [accept([byte], length) for length in (1, 2, 3, 4, 403, 404, 405, 999, 1000, 1001, 9999, 10000)]
    for pattern in ([200, 1], [200, 1, 1], [255, 127], [128, 1], [129, 0], [200, 1, 200, 1, 1, 1], [200, 1, 1, 200, 1], [3, 1, 1], [1, 200]):
        lines += [accept(pattern, length) for length in (len(pattern), 404, 1000, 9999, 10000)]
    for pattern in ([0], [1], [128], [255], [200, 1], [200, 1, 200, 1, 1, 1], [129, 0], [3, 1, 1]):
        lines += [predecessor(pattern, room, length) for room, length in ((0, 404), (WIDE, 10000))]
    # beside a code, and beside each other
    for combined in (sum_of_codes, product_of_codes):
        for pattern in ([0], [1], [128], [255], [200, 1], [200, 1, 200, 1, 1, 1], [129, 0], [3, 1, 1]):
            lines += [combined(pattern, [1, 1, 1, 1], WIDE, (10000, None)), combined([1, 1, 1, 1], pattern, WIDE, (None, 10000))]
            lines.append(combined(pattern, [128], 0, (404, 10000)))
    return lines


# ---- codes at each keystroke


def typed(code, ends, others=(0, 127, 128, 255)):
    """The code up to each of these ends, as it is while it is typed, and with another byte after it. The next two bytes stand in the text too, behind the end, where
    one who reads too far finds them."""
    lines = []
    for end in ends:
        lines.append(accept(code[: end + 2], end))
        lines += [accept(code[:end] + [byte] + code[end + 1 : end + 3], end + 1) for byte in others]
    return lines


def typed_small():
    codes = [[0, 0], [1, 1, 1, 1], [3, 1, 1, 3, 2, 1], [3, 3, 1, 1, 1, 1, 1, 1], [7, 2, 1, 3, 2, 1, 3, 1, 1, 2, 1], [8, 3, 2, 1, 1, 1, 3, 2, 1, 2, 1, 2, 1]]
    return [line for code in codes for line in typed(code, range(len(code) + 1))]


def chain(top, bottom):
    """A path of trees of falling sizes, and at its end a star."""
    return tuple(range(top, bottom - 1, -1)) + (1,) * (bottom - 1)


def two_bytes(code):
    """The places at which numbers of two bytes begin in a code."""
    return [i for i, x in enumerate(code) if x > 127]


def typed_long():
    """Codes with numbers of two bytes, at even and odd places, near the start and further on: ends before, inside and behind each of these, and some others."""
    one = model.cycle(1)
    systems = [[(chain(131, 128),)], [one + (chain(199, 195),)], [one, (chain(199, 196),)], [one] * 200, [model.cycle(200)]]
    systems += [[one] * 4 + [model.cycle(196)], [one * 20 + (chain(180, 177),)]]
    lines = []
    for i, system in enumerate(systems):
        code = model.written(system)
        assert accept(code)[-4:-2] == [0, sum(map(model.points, system))], code
        lines += typed(code, sorted({0, 1} | {start + past for start in two_bytes(code) for past in range(3)}))
        lines += typed(code, (len(code) - 1,), ()) + typed(code, (len(code),), ((0, 127, 128, 255)[i % 4],))
    path = model.code_of_map(path_map(200), WIDE)[1]
    return lines + [line for start in two_bytes(path)[2::18] for line in typed(path, range(start, start + 3), ())]


def number_sequences():
    """Numbers of two bytes at the bounds, alone and behind the start of a code, with a good end, an open one and a wrong one; long sequences cut at any place."""
    bounds = [[128, 1], [255, 127], [128, 127], [255, 1]]
    ends = [[], [1], [128], [255], [128, 0], [255, 0], [128, 128], [255, 255]]
    runs = bounds + [a + b for a in bounds for b in bounds]
    lines = [accept(front + run + end) for front in ([], [200, 1, 1]) for run in runs for end in (ends if len(run) == 2 else ends[::2])]
    pattern = [1, 200, 1, 255, 127, 3, 128, 1]
    return lines + [accept(pattern, length) for start in (8, 400, 9992) for length in range(start, start + 9)]


def first_faults():
    """A fault behind good numbers, and another one behind it: the first decides, and before all that the numbers say."""
    fronts = [[], [3], [200, 1], [3, 1, 3, 1, 1, 1], [201, 1], [0, 1]]
    faults = [[129, 0], [128, 128], [255, 255]]
    starts = [front + fault + between for front in fronts for fault in faults for between in ([], [1], [128, 1])]
    return [accept(start + other) for start in starts for other in faults[:2] + [[128], [255]]]


def other_groups():
    """Codes with a number in whose place stand two bytes from which the number could come: one of the groups lost or both exchanged, or 256 too much."""
    lines = []
    for code in ([0, 0], [1, 1, 1, 1], [3, 1, 1, 3, 2, 1], [3, 1, 3, 1, 1, 1], [8, 3, 2, 1, 1, 1, 3, 2, 1, 2, 1, 2, 1]):
        for i, x in enumerate(code):
            lines += [accept(code[:i] + other + code[i + 1 :]) for other in ([128 + x, 1], [128, x], [128 + x, 2])]
    for shape in (star(128), cycle_map(128)):
        code = model.code_of_map(shape, WIDE)[1]
        lines += [accept(code[:i] + other + code[i + 2 :]) for i in two_bytes(code) for other in ([129, 1], [255, 1], [128, 2], [128, 127])]
    assert all(line[-4] == KINDS["refused"] for line in lines)
    return lines


def keystrokes():
    lines = typed_small() + typed_long() + number_sequences() + first_faults() + other_groups()
    assert {line[-3] for line in lines if line[-4] == KINDS["refused"]} == {1, 3, 4, 5, 7}
    return distinct(lines)


# ---- rooms and refusals


def rooms_back():
    """The step back with every cause of refusal, where "first" or 8 would be told next, and with rooms around the length of what comes before."""
    faults = [[201, 1], [], [128], [3, 3, 1, 1, 1, 1, 1], [129, 0], [128, 128], [0, 1], [1, 0], [3, 2, 2, 1, 1, 1, 1], [0, 0, 0], [0, 0, 128], [3, 1, 3, 1, 1, 1, 1]]
    lines = [predecessor(fault, room) for fault in faults for room in (0, WIDE)]
    # what comes before has more bytes than the code, as many, or fewer
    for code in ([2, 1, 1, 2, 1], [3, 1, 3, 1, 1, 1], [4, 2, 2, 1, 1, 2, 1, 1], model.written([model.cycle(200)]), model.written([model.cycle(1)] * 72 + [model.cycle(128)])):
        length = len(model.predecessor(code, None)[1])
        lines += [predecessor(code, room) for room in (0, length - 1, length, length + 1)]
    lines += [predecessor(model.first(200, None)[1], room) for room in (0, 404, WIDE)]
    return lines


def rooms():
    lines = []
    code = [8, 3, 2, 1, 1, 1, 3, 2, 1, 2, 1, 2, 1]
    following = [8, 3, 2, 1, 1, 1, 3, 1, 1, 1, 3, 1, 1]
    table = [1, 2, 0, 0, 4, 4, 5]
    for room in (0, 1, 12, 13, 14, 200, 1000, 2000):
        lines.append(successor(code, room))
        lines.append(successor([0, 0], room))
        lines.append(successor([3, 1, 2, 2, 1, 1], room))
        lines.append(predecessor(following, room))
        lines += [predecessor(code, room) for code in ([0, 0], [3, 3, 1, 1, 1, 1, 1, 1], [3, 1, 2, 2, 1, 1], [2, 2, 1, 1, 1, 1, 9])]
        lines.append(code_of_map(table, room))
        lines.append(code_of_map([7] * 7, room))
        lines.append(first(6, room))
        lines.append(first(201, room))
    for room in (0, 7, 8, 9, 1000):
        lines.append(map_of_code(code, room))
        lines.append(map_of_code(code[:-1], room))
        lines.append(map_of_code([0, 0], room))
    for n in (0, 1, 2, 127, 128, 199, 200, 201, 255, 1000, 65536):
        lines.append(first(n, WIDE))
    lines.append(first(200, 404))
    lines.append(first(200, 403))
    lines += rooms_back()
    for length in (127, 128, 200, 201, 202, 255, 1000, 10000):
        lines.append(case(CODE_OF_MAP, WIDE, stretch([0], length), [0, 0], model.code_of_map([0] * length, WIDE)))
        lines.append(case(CODE_OF_MAP, WIDE, stretch([255], length), [0, 0], model.code_of_map([255] * length, WIDE)))
        lines.append(case(CENSUS, 19, stretch([0], length), [0, 0], model.census([0] * length, 19)))
    lines += [code_of_map(bad, room) for bad in ([1], [0, 2], [0, 1, 3], [255, 0]) for room in (0, WIDE)]
    good, none = ("length", [1, 0]), ("none", None)
    lines += [isomorphism([0, 0], [1, 1], room, good) for room in (2, 3, 1000)]
    lines += [isomorphism([0, 0], [1, 1], room, ("refused", 8)) for room in (0, 1)]
    lines += [isomorphism([0, 1], [1, 0], room, none) for room in (0, 1, 2, 1000)]
    lines += [isomorphism([], [], room, ("length", [])) for room in (0, 5)]
    lines += [isomorphism([0], [], 0, none), isomorphism([], [0], 0, none), isomorphism([0], [0, 0], 9, none)]
    lines += [isomorphism([1], [], 0, ("refused", 2)), isomorphism([0], [1], 0, ("refused", 2)), isomorphism([0] * 201, [1], 0, ("refused", 1))]
    lines += [isomorphism([1], [0] * 201, 0, ("refused", 2)), isomorphism([0], [0] * 201, 0, ("refused", 1)), isomorphism([0], [7, 7], 9, ("refused", 2))]
    lines += [census(t, room) for t in ([], [0], [1, 0], [1, 0, 2, 2]) for room in (0, 1, 2, 19)]
    lines += [census(t, room) for t in ([1], [0, 2], [0] * 201) for room in (0, 19)]
    return lines


# ---- maps of 200 points


def cycle_map(n):
    return [(x + 1) % n for x in range(n)]


def path_map(n):
    return [max(x - 1, 0) for x in range(n)]


def star(n):
    return [0] * n


def random_map(numbers, n):
    return [numbers.below(n) for _ in range(n)]


def joined(*tables):
    """The maps beside each other."""
    whole = []
    for table in tables:
        shift = len(whole)
        whole += [shift + x for x in table]
    return whole


def of_trees(*trees):
    """The map of a component, given its trees as codes of any order."""
    return model.map_of_system([tuple(map(tuple, trees))])


def hung(numbers, n, k):
    """A connected map: a cycle of k points, and every further point hung at an earlier one."""
    return cycle_map(k) + [numbers.below(x) for x in range(k, n)]


def shapes():
    numbers = Numbers(1)
    tree, other = [5, 1, 1, 2, 1], [5, 1, 1, 1, 1]
    caterpillar = [0] + [x - 1 if x < 100 else x - 100 for x in range(1, 200)]
    near = hung(Numbers(3), 100, 7)
    lacking = near[:-1] + [near[-1] - 1 if near[-1] else 1]
    found = [
        ("200 fixed points", list(range(200))),
        ("a cycle of 200", cycle_map(200)),
        ("100 cycles of 2", joined(*[[1, 0]] * 100)),
        ("a path into a fixed point", path_map(200)),
        ("a star", star(200)),
        ("a full binary tree", [max(x - 1, 0) // 2 for x in range(200)]),
        ("a caterpillar", caterpillar),
        ("a path of 100 and a star of 100", joined(path_map(100), star(100))),
        ("two components of 100 that differ at a leaf", joined(near, lacking)),
        ("two random components of 100", joined(hung(numbers, 100, 10), hung(numbers, 100, 10))),
        ("two equal components of 100", joined(near, near)),
        ("four random components of 50", joined(*[hung(numbers, 50, k) for k in (1, 2, 3, 4)])),
        ("a cycle of 100 points with a leaf each", of_trees(*[[2, 1]] * 100)),
        ("a periodic cycle", of_trees(*[[1], [1], [2, 1]] * 50)),
        ("a periodic cycle, broken once", of_trees(*[[1], [1], [2, 1]] * 49, [1], [2, 1], [1])),
        ("cycles of 1 to 19 and 10 leaves", joined(*[cycle_map(k) for k in range(1, 20)]) + list(range(180, 190))),
        ("40 components of 5", joined(*[of_trees(tree), of_trees(other)] * 20)),
        ("stars on a path", [max(x - 1, 0) if x < 20 else x % 20 for x in range(200)]),
        ("a cycle of 99 and a path of 101 into it", cycle_map(99) + list(range(98, 199))),
    ]
    found += [(f"a random map, {seed}", random_map(Numbers(seed), 200)) for seed in (11, 12, 13, 14)]
    found += [(f"a random connected map, {seed}", hung(Numbers(seed), 200, 1 + seed % 9)) for seed in (21, 22)]
    for name, table in found:
        assert len(table) == 200 and all(0 <= x < 200 for x in table), name
    return found


def last_code(n):
    return model.written([model.cycle(n - 2) + ((2, 1),)])


def steps():
    numbers = Numbers(5)
    codes = [model.code_of_map(table, WIDE)[1] for _, table in shapes()]
    codes += [last_code(n) for n in (3, 8, 50, 128, 200)]
    for n in (9, 10, 12, 14, 16, 20, 25, 30, 40, 60):
        codes += [model.code_of_map(random_map(numbers, n), WIDE)[1], model.code_of_map(hung(numbers, n, 1 + numbers.below(5)), WIDE)[1]]
    return [successor(code) for code in codes]


def small_steps_back():
    """Every code of up to 5 points; of 6 to 8 points those at which the list of sizes steps, and some more. All have to be what the plain listing has before them."""
    lines = []
    for n in range(9):
        listing = list(plain_listing.systems(n))
        for i, system in enumerate(listing):
            line = predecessor(plain_listing.numbers(n, system))
            before = plain_listing.numbers(n, listing[i - 1]) if i else []
            assert line[-len(stretch(before)) - 2 :] == [KINDS["length" if i else "first"], len(before)] + stretch(before), line
            if n < 6 or i % 23 == 0 or [*map(model.points, system)] != [*map(model.points, listing[i - 1])]:
                lines.append(line)
    return lines


def first_of_sizes():
    """Codes of 200 points, the first of their lists of sizes, so that what comes before has other sizes: the last size is halved, evenly or not, or an earlier one falls."""
    sizes = [[200], [1, 199], [3, 197], [1, 2, 197], [99, 101], [100, 100], [66, 67, 67], [50] * 4, [49, 50, 50, 51], [1, 1] + [2] * 99, [2] * 100, [1] * 198 + [2]]
    return [model.written([model.cycle(s) for s in one]) for one in sizes]


def steps_inside():
    """Codes of 200 points in which another component than the last one steps: those to its right are equal to it, or the first of a greater size."""
    c, d = [model.system_of_map(hung(Numbers(29), n, 4))[0] for n in (50, 66)]
    return [model.written(system) for system in ([c] * 4, [model.cycle(50), c, c, c], [c, c, model.cycle(100)], [d, model.cycle(67), model.cycle(67)], [c, model.cycle(150)])]


def steps_back():
    """The step back from any code: small ones, the maps of 200 points, and codes at which the sizes or an inner component step, or at an end of the list."""
    numbers = Numbers(23)
    shaped = [model.code_of_map(table, WIDE)[1] for _, table in shapes()]
    codes = shaped + first_of_sizes() + steps_inside() + [last_code(n) for n in (3, 8, 50, 128, 200)] + [model.first(n, WIDE)[1] for n in (8, 50, 127, 128, 199)]
    for n in (9, 10, 12, 14, 16, 20, 25, 30, 40, 60):
        codes += [model.code_of_map(random_map(numbers, n), WIDE)[1], model.code_of_map(hung(numbers, n, 1 + numbers.below(5)), WIDE)[1]]
    return small_steps_back() + [predecessor(code) for code in codes]


def censuses():
    """The census of each map, and of a shuffled copy, in which the cycles are met in another order."""
    numbers = Numbers(7)
    return [census(table) for _, table in shapes()] + [census(renamed(table, numbers.shuffled(200))) for _, table in shapes()]


def codes_of_maps():
    lines = []
    numbers = Numbers(9)
    for _, table in shapes():
        lines.append(code_of_map(renamed(table, numbers.shuffled(200))))
    for n in (1, 2, 5, 10, 50, 127, 128, 129, 199):
        table = random_map(numbers, n)
        lines.append(code_of_map(table))
        lines.append(map_of_code(model.code_of_map(table, WIDE)[1]))
    return lines


# ---- the component reader


def every_component(code):
    """Each component of a code, and the position after the last. The turns of each have to be the greatest number of equal pieces of its list of trees."""
    system = model.accepted(code)
    for c in system:
        pieces = [d for d in range(1, len(c) + 1) if c[: len(c) // d] * d == c]
        assert model.turns(c) == max(pieces), c
    return [component(code, i) for i in range(len(system) + 1)]


def reader_examples():
    """Document 01 on a code of three components, with the answers that its words give, and paper 6 of document 02 with its own."""
    def given(line, kind, value, turns, part=()):
        assert line[-len(stretch(part)) - 3 :] == [KINDS[kind], value, turns] + stretch(part), line
        return line

    code = [8, 3, 2, 1, 1, 1, 3, 2, 1, 2, 1, 2, 1]
    parts = [(2, 2, [2, 1, 1]), (5, 1, [1, 3, 2, 1]), (9, 1, [2, 1, 2, 1])]
    lines = [given(component(code, i), "part", *part) for i, part in enumerate(parts)]
    lines += [given(component(code, 3), "refused", 9, 0), given(component([0, 0], 0), "refused", 9, 0)]
    lines += [given(component([3, 1, 3, 1, 1, 1], 0), "part", 2, 3, [3, 1, 1, 1]), given(component([3, 1, 2, 1, 2, 1], 0), "part", 2, 1, [2, 1, 2, 1])]
    return lines


def code_of_lists(*lists):
    """The code of the components with these trees along their cycles, from any tree on and in any order."""
    return model.code_of_map(joined(*[of_trees(*trees) for trees in lists]), WIDE)[1]


def small_turns():
    """Components of 5 to 8 points with more than one turn; periods that are cut off, that have one tree changed, and that are made of periods; trees of equal sizes or in
    equal numbers without a period; such components beside each other, so that each has a number of its own."""
    one, two, three, path = [1], [2, 1], [3, 1, 1], [3, 2, 1]
    lists = [list(c) for n in range(5, 9) for c in plain_listing.generation(n) if model.turns(c) > 1]
    lists += [[one, two] * 3, [one, one, two] * 2, [three, path] * 2, [one, one, one, two] * 3]
    # a b a, and other powers of which the end is missing
    lists += [[one, two, one], [one, two] * 2 + [one], [one, one, two] * 2 + [one, two], [one, one, two] * 3 + [one], [two, three] * 2 + [two]]
    lists += [[one, two] * 3 + [one, three], [one, two] * 2 + [one, path, one, two], [two] * 4 + [path], [one] * 5 + [two], [one, one, two] * 2 + [one, one, three]]
    lists += [([one, two] * 2 + [three]) * 2, ([one] * 3 + [two] + [one] * 3 + [path]) * 2, ([one, two] * 2 + [one, three]) * 2]
    lists += [[three, path], [three, three, path], [path, path, three, path], [one, one, two, two], [one, one, two, two] * 2, [one, two, two, one, three, three]]
    systems = [[trees] for trees in lists]
    systems += [[[one], [one] * 3, [one, two], [two] * 2], [[one] * 6, [two] * 3, [one, two] * 2, [three] * 2, [one] * 4 + [two]], [[two] * 2, [one, three], [one] * 4]]
    systems += [[[one, two] * 2] * 3, [[one] * k for k in range(1, 8)], [[one] * 7, [one] * 7, [one, one, two, one, three], [two] * 4]]
    return [line for system in systems for line in every_component(code_of_lists(*system))]


def long_turns():
    """Components of up to 200 points: cycles, periods of one tree and of more, a tree changed, the end missing; four different ones of 50 points beside each other."""
    one, two, three, path = [1], [2, 1], [3, 1, 1], [3, 2, 1]
    systems = [[[one] * 200], [[one] * 128], [[two] * 100], [[one, two] * 66], [[one, one, two] * 50], [([one] * 98 + [two]) * 2], [[one] * 98 + [two]] * 2]
    systems += [[[one] * 198 + [two]], [[two] * 98 + [path]], [[one, one, two] * 49 + [one, three]], [[one, two] * 66 + [one]]]
    systems += [[([one] * 24 + [two]) * 7 + [one] * 18], [[one] * 60 + [two] * 60]]
    systems += [[[one] * 50, [two] * 25, [five] * 10, [one] * 48 + [two]] for five in ([5, 1, 1, 1, 1], [5, 4, 3, 2, 1])]
    systems += [[([one] * 8 + [two]) * 5, [one, [4, 1, 2, 1]] * 10, [one, two, path] * 8, [one, two] * 16]]
    return [line for system in systems for line in every_component(code_of_lists(*system))]


def components():
    """Each component of codes of up to 4 points and of 200 points, the positions after the last, codes with a fault of their own, and turns of periodic cycles."""
    code = [8, 3, 2, 1, 1, 1, 3, 2, 1, 2, 1, 2, 1]
    lines = reader_examples()
    for n in range(5):
        for system in plain_listing.systems(n):
            lines += every_component(plain_listing.numbers(n, system))
    faults = [[], [128], [129, 0], [128, 128], [201, 1], [0, 1], [1, 0], [200, 1], [1, 1, 1, 1, 9], [3, 1, 2, 2, 1, 1], code[:-1], code + [1], code + [128]]
    lines += [component(fault, i) for fault in faults for i in (0, 1, 99999)]
    kept = ("200 fixed points", "a cycle of 200", "a path into a fixed point", "two components of 100 that differ at a leaf", "four random components of 50", "cycles of 1 to 19 and 10 leaves")
    for name, table in shapes():
        if name in kept:
            written = model.code_of_map(table, WIDE)[1]
            m = len(model.accepted(written))
            lines += [component(written, i) for i in sorted({0, 1, 2, m // 2, m - 1, m, m + 1, 200, 99999})]
    # the rotations that do not equal a component are refused
    lines += [component(model.written([c]), 0) for c in (((1,), (2, 1), (1,)), ((2, 1), (1,)) * 2, ((2, 1), (1,), (1,)) * 2, ((1,),) * 197 + ((2, 1), (1,)))]
    lines += small_turns() + long_turns()
    return distinct(lines)


# ---- sums and products

BOTH = sum_of_codes, product_of_codes
EMPTY, ONE = [0, 0], [1, 1, 1, 1]


def answered(line):
    """The code that stands in a case as its result."""
    inputs = line[2:]
    for _ in range(2):
        inputs = inputs[2 + inputs[1] :]
    assert inputs[0] == KINDS["length"] and inputs[1] == inputs[2] == inputs[3] == len(inputs[4:]), line
    return inputs[4:]


def is_known(a, b):
    """What holds of the sum and the product of two codes, whatever the maps: the components of a sum are those of both; a cycle of k points and one of l make as many
    cycles as their greatest common divisor says, and a pair is as far from its cycle as the half that is further off."""
    systems = [*map(model.accepted, (a, b))]
    (rows, height), (others, other_height) = [model.census_of_map(model.map_of_system(system)) for system in systems]
    counts = {}
    for k, count in rows:
        for l, other in others:
            length = k * l // math.gcd(k, l)
            counts[length] = counts.get(length, 0) + math.gcd(k, l) * count * other
    kind, total = model.sum_of_codes(a, b, None)
    assert kind == "refused" or sorted(model.accepted(total)) == sorted(systems[0] + systems[1]), (a, b)
    kind, product = model.product_of_codes(a, b, None)
    if kind == "length":
        found, greatest = model.census_of_map(model.map_of_system(model.accepted(product)))
        assert found == sorted(counts.items()) and greatest == (max(height, other_height) if rows and others else 0), (a, b)


def both_of(a, b):
    is_known(a, b)
    return [combined(a, b) for combined in BOTH]


def codes_of(n):
    return [plain_listing.numbers(n, system) for system in plain_listing.systems(n)]


def some_code(numbers, n):
    """The code of a map of n points: any map, or a connected one."""
    table = random_map(numbers, n) if n == 0 or numbers.below(2) else hung(numbers, n, 1 + numbers.below(min(n, 5)))
    return model.code_of_map(table, WIDE)[1]


def small_sums():
    """Every two codes of up to 3 points, and some of 4 to 8, the two often of one count; some of these with themselves and with the neutral systems."""
    numbers = Numbers(31)
    small = [code for n in range(4) for code in codes_of(n)]
    lines = [line for a in small for b in small for line in both_of(a, b)]
    larger = [codes_of(n) for n in range(4, 9)]
    for i in range(30):
        a, b = [codes[numbers.below(len(codes))] for codes in (larger[i % 5], larger[(i + i // 5 % 3) % 5])]
        lines += both_of(a, b)
        if i % 5 == 0:
            lines += [line for c, d in ((a, a), (a, ONE), (ONE, a), (a, EMPTY), (EMPTY, a)) for line in both_of(c, d)]
    return lines


def laws(a, b, c):
    """The calls of both sides of each law, in which each result goes on as an input; both sides have to end with the same result."""
    def equal(left, right):
        assert answered(left[-1]) == answered(right[-1]), (a, b, c)
        return left + right

    def then(line, call):
        return [line, call(answered(line))]

    lines = []
    for combined in BOTH:
        lines += equal([combined(a, b)], [combined(b, a)])
        lines += equal(then(combined(a, b), lambda x: combined(x, c)), then(combined(b, c), lambda x: combined(a, x)))
    for times in (product_of_codes, lambda x, y: product_of_codes(y, x)):
        parts = [times(a, c), times(b, c)]
        lines += equal(then(sum_of_codes(a, b), lambda x: times(x, c)), parts + [sum_of_codes(*map(answered, parts))])
    return lines


def sum_laws():
    numbers = Numbers(37)
    lines = []
    for counts in ((1, 1, 1), (2, 2, 2), (2, 3, 2), (3, 3, 3), (3, 2, 4), (0, 3, 2), (3, 0, 2), (2, 3, 0), (4, 4, 2), (5, 3, 2), (2, 2, 6), (5, 6, 4)):
        lines += laws(*[some_code(numbers, n) for n in counts])
    return distinct(lines)


def star_code(n):
    return model.code_of_map(star(n), WIDE)[1]


def refused_sums():
    """Every cause in the first code, in the second and in both, also where 11 or 8 would be told next; 11, also where 8 would be told next."""
    faults = [[201, 1], [], [129, 0], [0, 1], [3, 1, 2, 2, 1, 1], [1, 1, 1, 1, 9]]
    others = [[200, 1], [128], [128, 128], [1, 0], [3, 2, 2, 1, 1, 1, 1], [0, 0, 0], [0, 0, 128]]
    good, larges = [3, 1, 1, 3, 2, 1], (star_code(101), star_code(15))
    lines = []
    for combined, large in zip(BOTH, larges):
        lines += [combined(a, b, 0) for a in faults for b in faults]
        lines += [combined(*pair, room) for fault in faults + others for pair in ((fault, good), (good, fault)) for room in (0, WIDE)]
        lines += [combined(*pair) for fault in faults + others for pair in ((fault, EMPTY), (EMPTY, fault))]
        lines += [combined(*pair, 0) for fault in faults for pair in ((fault, large), (large, fault))]
        lines += [combined(large, large, room) for room in (0, WIDE)]
    assert {line[-3] for line in lines if line[-4] == KINDS["refused"]} == {1, 3, 4, 5, 6, 7, 11}
    return lines


def sums_in_rooms():
    """Rooms around the length of a result, which is longer or shorter than the codes that it is made of."""
    lines = []
    for combined in BOTH:
        pairs = [([2, 1, 2, 1, 1],) * 2, ([3, 1, 2, 1, 2, 1],) * 2, ([8, 3, 2, 1, 1, 1, 3, 2, 1, 2, 1, 2, 1], ONE), (EMPTY, [3, 1, 1, 3, 2, 1]), (EMPTY, EMPTY)]
        for a, b in pairs:
            length = len(answered(combined(a, b)))
            lines += [combined(a, b, room) for room in sorted({0, 1, length - 1, length, length + 1, 2000})]
    return lines


def sums():
    lines = small_sums() + sum_laws() + refused_sums() + sums_in_rooms()
    return distinct(lines)


def at_200(combined, given, refused):
    """Codes of so many points, of maps of several sorts: where the result has up to 200 points, at times with no byte to spare and one too few, and where it has more."""
    numbers = Numbers(41)
    kinds = [path_map, cycle_map, lambda n: random_map(numbers, n), star]
    kinds += [lambda n: [max(x - 1, 0) // 2 for x in range(n)], lambda n: joined(*[[1, 0]] * (n // 2), [0] * (n % 2))]
    lines = []
    for i, (n, m) in enumerate(given):
        tables = kinds[i % len(kinds)](n), kinds[(2 * i + 1) % len(kinds)](m)
        a, b = [model.code_of_map(table, WIDE)[1] for table in tables]
        is_known(a, b)
        length = len(answered(combined(a, b)))
        lines += [combined(a, b, room) for room in ((length, length - 1) if i % 3 == 0 else (WIDE,))]
    lines += [combined(star_code(n), star_code(m), (0, WIDE)[i % 2]) for i, (n, m) in enumerate(refused)]
    assert all(line[-4:-2] == [KINDS["refused"], 11] for line in lines[-len(refused) :])
    return lines


def by_chance(combined, most, beside):
    """Random codes, the first of at most so many points, the second of at most as many as may stand beside it."""
    numbers = Numbers(43)
    lines = []
    for _ in range(12):
        n = numbers.below(most + 1)
        a, b = some_code(numbers, n), some_code(numbers, numbers.below(beside(n) + 1))
        is_known(a, b)
        lines.append(combined(a, b))
        assert answered(lines[-1])
    return lines


def neutral(combined, code):
    """Each map of 200 points with a neutral system, which stands before it and behind it in turn."""
    shaped = [model.code_of_map(table, WIDE)[1] for _, table in shapes()]
    lines = [combined(code, a) if i % 2 else combined(a, code) for i, a in enumerate(shaped)]
    assert [*map(answered, lines)] == shaped
    return lines


def sums_long():
    """Sums of 200 points and fewer, and of 201 and more. What is above 255 is small where it is cut to a byte."""
    given = [(100, 100), (199, 1), (1, 199), (128, 72), (72, 128), (200, 0), (0, 200), (100, 99), (64, 64), (63, 64), (150, 50), (50, 150)]
    refused = [(100, 101), (101, 100), (200, 1), (1, 200), (199, 2), (128, 128), (200, 56), (56, 200), (200, 200)]
    return at_200(sum_of_codes, given, refused) + by_chance(sum_of_codes, 200, lambda n: 200 - n) + neutral(sum_of_codes, EMPTY)


def products_long():
    """The same for products."""
    given = [(14, 14), (200, 1), (1, 200), (100, 2), (2, 100), (20, 10), (10, 20), (50, 4), (5, 40), (25, 8), (13, 15), (66, 3)]
    given += [(200, 0), (0, 200), (3, 43), (127, 1)]
    refused = [(67, 3), (3, 67), (14, 15), (15, 14), (101, 2), (200, 2), (2, 200), (29, 7)]
    refused += [(16, 16), (128, 2), (2, 128), (32, 8), (17, 16), (40, 40), (199, 199), (200, 200)]
    return at_200(product_of_codes, given, refused) + by_chance(product_of_codes, 40, lambda n: 200 // max(n, 1)) + neutral(product_of_codes, ONE)


# ---- numbers of tables


def small_counts():
    """Every code of up to 5 points, the tables of each counted one by one; some of 6 to 8. Over each list the numbers have to make n to the power n."""
    lines = []
    for n in range(9):
        codes = codes_of(n)
        counts = [model.table_count(code)[1] for code in codes]
        assert sum(counts) == n**n
        if n < 6:
            tables = [model.code_of_map(table, None)[1] for table in itertools.product(range(n), repeat=n)]
            assert counts == [tables.count(code) for code in codes]
        lines += [table_count(code) for code in codes[:: (1 if n < 6 else 6 if n == 6 else 30)]]
    return lines


def counts_of_15():
    """Codes of 15 points with what they look like from: each of the 15! orders of the points gives a table, and as many give the same as this says."""
    def given(table, symmetries):
        line = table_count(model.code_of_map(table, WIDE)[1])
        assert line[-4:-2] == [KINDS["number"], math.factorial(15) // symmetries], line
        return line

    one, two, three = [1], [2, 1], [3, 1, 1]
    binary, seven = [max(x - 1, 0) // 2 for x in range(15)], [max(x - 1, 0) // 2 for x in range(7)]
    lines = [given(path_map(15), 1), given(cycle_map(15), 15), given(star(15), math.factorial(14)), given(list(range(15)), math.factorial(15)), given(binary, 128)]
    lines += [given(of_trees(*[three] * 5), 160), given(of_trees(*[one, two] * 5), 5), given(of_trees(*[one, one, two] * 3, three), 2)]
    lines += [given(joined(*[cycle_map(3)] * 5), 120 * 243), given(joined(*[cycle_map(5)] * 3), 750), given(joined(*[cycle_map(k) for k in range(1, 6)]), 120)]
    lines += [given(joined(*[[1, 0]] * 7, [0]), math.factorial(7) * 128), given(joined(seven, seven, [0]), 2 * 64), given(joined(*[path_map(5)] * 3), 6)]
    lines += [given(joined(*[of_trees(two, two)] * 3, star(3)), 6 * 8 * 2), given(cycle_map(14) + [0], 1), given(joined(path_map(7), path_map(8)), 1)]
    return lines


def counts_by_chance():
    """Random maps of 9 to 15 points: any, connected ones, and some of which the components are often equal."""
    numbers = Numbers(47)
    codes = [some_code(numbers, n) for n in range(9, 16) for _ in range(8)]
    for n in range(9, 16):
        few = [random_map(numbers, 1 + numbers.below(4)) for _ in range(2)]
        parts = [few[numbers.below(2)] for _ in range(n // 4)]
        codes.append(model.code_of_map(joined(*parts, star(n - sum(map(len, parts)))), WIDE)[1])
    return [table_count(code) for code in codes]


def refused_counts():
    """Codes of 16 points and more; every cause of a code's own, of few points and of more, where 12 would be told next."""
    numbers = Numbers(53)
    kinds = [path_map, cycle_map, star, lambda n: list(range(n)), lambda n: random_map(numbers, n)]
    codes = [model.code_of_map(kind(n), WIDE)[1] for n in (16, 17, 31) for kind in kinds]
    codes += [model.code_of_map(table, WIDE)[1] for table in (path_map(128), star(200), random_map(numbers, 200))] + [model.first(200, WIDE)[1]]
    lines = [table_count(code) for code in codes]
    assert all(line[-4:-2] == [KINDS["refused"], 12] for line in lines)
    faults = [[201, 1], [], [128], [16], [15, 1], [129, 0], [128, 128], [16, 129, 0], [0, 1], [1, 0], [15, 0], [16, 0], [16, 17], [3, 1, 2, 2, 1, 1]]
    faults += [[16, 1, 2, 15, *[1] * 14, 1], [16, 2, 1, 15, *[1] * 14, 1, 1], [15, 2, 1, 14, *[1] * 13, 1, 1], [16, 2, 1, 1, 1, 14, *[1] * 13], [16, 1, 1, 15, *[1] * 14]]
    for code in (model.code_of_map(path_map(15), WIDE)[1], model.first(15, WIDE)[1], *codes[:4], codes[-1]):
        faults += [code[:-1], code[: len(code) // 2], code + [1], code + [128], code + [129, 0]]
    lines += [table_count(fault) for fault in faults]
    assert {line[-3] for line in lines if line[-4] == KINDS["refused"]} == {1, 3, 4, 5, 6, 7, 12}
    return lines + [table_count(pattern, 10000) for pattern in ([0], [1], [128], [16, 1], [200, 1], [129, 0], [15, 1, 1])]


def table_counts():
    lines = small_counts() + counts_of_15() + counts_by_chance() + refused_counts()
    return distinct(lines)


# ---- periods


def small_periods():
    """Every map of up to 4 points. Up to 5 points the model has to give the number of steps after which each point is back."""
    tables = [list(table) for n in range(6) for table in itertools.product(range(n), repeat=n)]
    assert all(model.period_of_map(table) == model.period_by_steps(table) for table in tables)
    return [period(table) for table in tables if len(table) < 5]


def with_cycles(lengths, n=0):
    """A map with cycles of these lengths. Where it is to have more points, the others hang in a row at the last one."""
    table = joined(*map(cycle_map, lengths))
    return table + list(range(len(table) - 1, n - 1))


def chosen_periods():
    """Cycles of chosen lengths with the period that follows from these: bare ones, with a way to them, and a shuffled copy. The greatest of all takes more than 32 bits,
    and those of 112 to 119 points take all of them."""
    numbers = Numbers(59)
    small = [(6, [2, 3]), (6, [3, 2]), (12, [3, 4]), (12, [4, 6]), (12, [6, 4, 1]), (4, [4, 4]), (8, [2, 4, 8]), (8, [8, 2, 4]), (6, [1, 2, 3, 6]), (36, [4, 9])]
    small += [(30, [6, 10, 15]), (60, [3, 4, 5]), (60, [12, 15, 20]), (210, [2, 3, 5, 7]), (72, [8, 9]), (1, [1] * 7), (2, [2] * 5 + [1]), (143, [11, 13])]
    large = [(1, [1] * 120), (120, [120]), (119, [119]), (113, [113]), (791, [113, 7]), (3540, [59, 60]), (2, [2] * 60), (3, [3] * 40), (64, [64, 32, 16, 8])]
    large += [(81, [3, 9, 27, 81]), (360360, list(range(1, 16))), (360360, list(range(15, 0, -1))), (223092870, [2, 3, 5, 7, 11, 13, 17, 19, 23])]
    large += [(2677114440, [5, 7, 8, 9, 11, 13, 17, 19, 23]), (3375492120, [29, 19, 17, 13, 11, 9, 8, 7, 5]), (5354228880, [5, 7, 9, 11, 13, 16, 17, 19, 23])]
    large.append((5354228880, [23, 19, 17, 16, 13, 11, 9, 7, 5]))
    lines = []
    for most, lists in ((20, small), (120, large)):
        for expected, lengths in lists:
            tables = [with_cycles(lengths), with_cycles(lengths, most)]
            tables.append(renamed(tables[1], numbers.shuffled(len(tables[1]))))
            lines += [period(table) for table in tables]
            assert all(line[-4:-2] == [KINDS["number"], expected] for line in lines[-3:]), lengths
            assert expected > 5000 or all(model.period_by_steps(table) == expected for table in tables), lengths
    return lines


def periods_by_chance():
    """Random maps of 5 to 120 points: any, connected ones, permutations, and cycles of a few points with trees at them."""
    numbers = Numbers(61)
    tables = [path_map(120), star(120)]
    for i in range(14):
        n, few = 5 + numbers.below(116 if i % 2 else 20), [1 + numbers.below(12) for _ in range(1 + numbers.below(6))]
        tables += [random_map(numbers, n), hung(numbers, n, 1 + numbers.below(n)), numbers.shuffled(n)]
        cycles = with_cycles(few)
        tables.append(cycles + [numbers.below(x) for x in range(len(cycles), len(cycles) + numbers.below(121 - len(cycles)))])
    assert all(len(table) <= 120 and (model.period_of_map(table) > 5000 or model.period_of_map(table) == model.period_by_steps(table)) for table in tables)
    return [period(table) for table in tables]


def refused_periods():
    """Counts at which 1, 13 and 2 change, and some that are small where they are cut to a byte: a map, and tables with a byte that is no point at the first place, the
    last one, another one or all."""
    def given(cause, *tables):
        lines = [period(*table) for table in tables]
        assert all(line[-4:-2] == [KINDS["refused"], cause] for line in lines), lines
        return lines

    lines = [line for n in (1, 2, 5, 60, 119, 120) for line in given(2, ([n], n), ([255], n), ([n] + [0] * (n - 1),), ([0] * (n - 1) + [n],))]
    lines += given(2, ([0] * 77 + [120] + [1] * 42,), ([*range(119), 120],), ([200], 120), ([128], 120), ([121], 120))
    for n in (121, 122, 127, 128, 129, 199, 200):
        lines += given(13, ([0], n), ([1, 0], n), ([n], n), ([255], n), ([n] + [0] * (n - 1),), ([0] * (n - 1) + [255],))
    lines += given(13, (cycle_map(121),), (cycle_map(200),), (list(range(121)),))
    return lines + [line for n in (201, 202, 255, 256, 257, 261, 320, 376, 512, 1000, 9999, 10000) for line in given(1, ([0], n), ([255], n), ([1, 0], n))]


def periods():
    lines = small_periods() + chosen_periods() + periods_by_chance() + refused_periods()
    return distinct(lines)


# ---- greatest periods


def length_lists(points, least=1):
    """Every nondecreasing list of cycle lengths of so many points together, none below the least."""
    if points == 0:
        yield []
    for length in range(least, points + 1):
        for rest in length_lists(points - length, length):
            yield [length] + rest


def greatest_examples():
    """Paper 9 of document 02: the periods that it names, that of 120 points, and the order of the checks. The model's own have to be the greatest over every
    map of up to 6 points, counted step by step, and over all lists of cycle lengths of up to 30 points."""
    def given(kind, value, *lines):
        assert all(line[2:] == [KINDS[kind], value] for line in lines), lines
        return list(lines)

    for n in range(7):
        assert model.greatest_cycles(n)[0] == max(map(model.period_by_steps, itertools.product(range(n), repeat=n))), n
    for n in range(31):
        assert model.greatest_cycles(n)[0] == max(map(model.least_multiple, length_lists(n))), n
    lines = [line for n, value in ((5, 6), (7, 12), (0, 1)) for line in given("number", value, greatest_period(n))]
    lines += given("number", 5354228880, greatest_period(120)) + given("refused", 8, greatest_period(0, 999), greatest_period(120, 999))
    return lines + given("refused", 13, greatest_period(121, 0), greatest_period(200, 0)) + given("refused", 1, greatest_period(201, 0))


def cycles_code(n):
    """A code of n points with the greatest period, one of those that may be written: the model's cycle lengths, and fixed points."""
    value, lengths = model.greatest_cycles(n)
    system = [model.cycle(k) for k in [1] * (n - sum(lengths)) + lengths]
    code = model.written(system)
    assert model.accepted(code) == system and model.period(model.map_of_system(system)) == ("number", value) and len(code) <= WIDE, n
    return code


def greatest():
    """Every number of points with just enough room. For many, more room, and less, also where a code would fit. Counts at which 13 and 1 begin, and some that
    are small where they are cut to 8, 16 or 32 bits, with any room."""
    codes = [*map(cycles_code, range(121))]
    lines = greatest_examples() + [greatest_period(n) for n in range(121)]
    for n in sorted({*range(13), *range(0, 121, 5), *range(112, 121)}):
        lines += [greatest_period(n, room) for room in (1001, 1000 + 37 * n, WIDEST)]
        short = [greatest_period(n, room) for room in (0, 1, 100, len(codes[n]) - 1, len(codes[n]), len(codes[n]) + 1, 256, 804, 998, 999)]
        assert all(line[2:] == [KINDS["refused"], 8] for line in short)
        lines += short
    counts = [121, 122, 127, 128, 150, 198, 199, 200, 201, 202, 255, 256, 257, 261, 320, 376, 1000, 65536, 65541]
    counts += [2**32, 2**32 + 5, 2**32 + 120, 2**63 - 1, 2**64 - 1]
    lines += [greatest_period(n, room) for n in counts for room in (0, 999, WIDE, WIDEST)]
    return distinct(lines)


# ---- digraph6 lines


def body_length(n):
    return (n * n + 5) // 6


def line_of(table):
    """The line of a map. The bytes after the size, less 63, have to be the digits to the base 64 of a number that has a one for each arrow and no other."""
    n, line = len(table), model.line_of_rows(model.rows_of_map(table))
    body = line[len(line) - body_length(n) :]
    digits = [(byte - 63) * 64**i for i, byte in enumerate(reversed(body)) if byte != 63]
    ones = [2 ** (6 * len(body) - 1 - (n * x + y)) for x, y in enumerate(table)]
    assert line == [38] + model.size_of(n) + body and sum(digits) == sum(ones), table
    return line


def blank_line(n):
    """A line with no marks: all bytes after the size are 63."""
    return [38] + model.size_of(n) + [63] * body_length(n)


def remarked(table, *places):
    """The line of a map with the marks at these rows and columns set where there is none, and taken away where there is one."""
    rows = [[*row] for row in model.rows_of_map(table)]
    for x, y in places:
        rows[x][y] = "10"[int(rows[x][y])]
    return model.line_of_rows(["".join(row) for row in rows])


def replaced(given, place, byte):
    return given[:place] + [byte] + given[place + 1 :]


def lines_in_rooms(code, *rooms):
    """The line of a code with rooms beside its length: 0 is just enough."""
    length = len(model.digraph6_of_code(code, None)[1])
    return [digraph6_of_code(code, max(0, length + more)) for more in rooms]


def codes_in_rooms(line, *rooms):
    """The same of the code of a line."""
    length = len(model.code_of_digraph6(line, None)[1])
    return [code_of_digraph6(line, max(0, length + more)) for more in rooms]


# Maps with their codes and lines. Each is the map that its code has.
SHEET = [([], [0, 0], "&?"), ([0], [1, 1, 1, 1], "&@_"), ([1, 0], [2, 1, 2, 1, 1], "&AW"), ([0, 0], [2, 1, 1, 2, 1], "&Ag")]
SHEET += [([1, 2, 0], [3, 1, 3, 1, 1, 1], "&BP_"), ([0, 0, 1], [3, 1, 1, 3, 2, 1], "&BcO")]


def is_described():
    """The examples of the format's description: bits, sizes, and a graph in which a point has two arcs out. Of all bodies for up to 3 points the model has to read those
    of maps, each as its map; as many as there are other matrices are 15, and the rest, which has padding bits set, is 14."""
    assert model.in_sixes("1000101100011100") == [97, 112, 111]
    assert [*map(model.size_of, (30, 12345, 460175067))] == [[93], [126, 66, 63, 120], [126, 126, 63, 90, 90, 90, 90, 90]]
    assert model.line_of_rows(["00101", "00000", "00000", "01001", "00000"]) == [38, 68, 73, 63, 65, 79, 63]
    for n in range(4):
        lines = [[38, 63 + n, *body] for body in itertools.product(range(63, 127), repeat=body_length(n))]
        answers = [model.code_of_digraph6(line, None) for line in lines]
        maps = [[*table] for table in itertools.product(range(n), repeat=n)]
        assert [line for line, (kind, _) in zip(lines, answers) if kind == "length"] == sorted(map(line_of, maps)), n
        assert all(model.map_of_line(line_of(table)) == table for table in maps), n
        assert answers.count(("refused", 15)) == 2 ** (n * n) - n**n and answers.count(("refused", 14)) == len(lines) - 2 ** (n * n), n


def out_examples():
    """Paper 10 of document 02 on small maps, the lengths of the lines around 62 points and of the longest, and the order of the checks."""
    def given(line, kind, value, output=()):
        assert line[-len(runs(output)) - 2 :] == [KINDS[kind], value] + runs(output), line
        return line

    lines = []
    for table, code, text in SHEET:
        line = [*text.encode()]
        assert model.map_of_code(code, None)[1] == table and line_of(table) == line
        lines += [given(digraph6_of_code(code, room), "length", len(line), line) for room in (len(line), WIDEST)]
        lines += [given(digraph6_of_code(code, room), "refused", 8) for room in (0, len(line) - 1)]
    for n, start, length in ((62, [38, 125], 643), (63, [38, 126, 63, 63, 126], 667), (200, [38, 126, 63, 66, 71], 6672)):
        line = line_of(star(n))
        assert line[: len(start)] == start and len(line) == length
        lines += [given(digraph6_of_code(star_code(n), length), "length", length, line), given(digraph6_of_code(star_code(n), length - 1), "refused", 8)]
    return lines + [given(digraph6_of_code(code, 0), "refused", cause) for code, cause in (([], 3), ([3, 1, 2, 2, 1, 1], 6), ([201, 1], 1), ([0, 0, 0], 7))]


def small_lines_out():
    """Every code of up to 5 points with just enough room and, in turn, with one place less, one more, half of them, none and many."""
    lines = []
    for i, code in enumerate(code for n in range(6) for code in codes_of(n)):
        length = len(model.digraph6_of_code(code, None)[1])
        lines += lines_in_rooms(code, 0, (-1, 1, -length // 2, -length, WIDEST - length)[i % 5])
    return lines


def refused_lines_out():
    """Every cause of a code's own, with room and without; longer codes cut short, with a byte changed or one too many; and inputs of 10,000 bytes."""
    faults = [[201, 1], [], [128], [3, 1, 3, 1, 1], [129, 0], [128, 128], [0, 1], [1, 0], [3, 4], [3, 1, 2, 2, 1, 1], [3, 2, 2, 1, 1, 1, 1], [0, 0, 0], [0, 0, 128]]
    faults += [[3, 1, 3, 1, 1, 1, 1], [201, 1, 128], [128, 2, 1], [255, 127], [5, 1, 4, 1, 2, 1, 1, 1], [2, 1, 1, 1, 9], [38, 63], [38, 66, 80, 95]]
    for code in (star_code(62), star_code(63), model.code_of_map(path_map(20), None)[1]):
        faults += [code[:-1], code + [1], code + [128], replaced(code, 0, code[0] - 1), replaced(code, 0, code[0] + 1), replaced(code, 2, 2), replaced(code, len(code) - 1, 0)]
    lines = [digraph6_of_code(fault, room) for fault in faults for room in (0, WIDEST)]
    lines += [digraph6_of_code(pattern, WIDEST, 10000) for pattern in ([0], [1], [38], [63], [126], [128], [255], [200, 1], [129, 0], [3, 1, 1])]
    assert all(line[-3] == KINDS["refused"] for line in lines) and {line[-2] for line in lines} == {1, 3, 4, 5, 6, 7}
    return lines


def digraph6_out():
    """Codes of up to 65 points: small ones, random ones of many sizes, and maps of several kinds where the size begins to take more bytes."""
    numbers = Numbers(67)
    lines = out_examples() + small_lines_out()
    for i, n in enumerate((*range(6, 19), 21, 25, 30, 31, 32, 33, 36, 42, 48, 53, 59, 60, 61)):
        lines += lines_in_rooms(some_code(numbers, n), *((0, -1), (1,), (0,), (n,))[i % 4])
    for n in (62, 63, 64, 65):
        tables = [path_map(n), cycle_map(n), list(range(n)), random_map(numbers, n), hung(numbers, n, 3)]
        for i, table in enumerate(tables):
            lines += lines_in_rooms(model.code_of_map(table, None)[1], *((0, -1, -2), (1,))[i % 2])
    return distinct(lines + refused_lines_out())


def digraph6_out_long():
    """Random codes of 66 to 199 points, and maps of 200 points of several kinds, with just enough room, one place less and more."""
    numbers = Numbers(71)
    tables = [random_map(numbers, n) for n in (66, 100, 127, 128, 129, 150, 199)] + [table for _, table in shapes()[:17]]
    return [line for i, table in enumerate(tables) for line in lines_in_rooms(model.code_of_map(table, None)[1], *((0, -1), (0,), (1,))[i % 3])]


def in_examples():
    """Paper 10 of document 02: the lines of the small maps, the graph of the format's description, and lines that are refused."""
    def given(line, kind, value, output=()):
        assert line[-len(stretch(output)) - 2 :] == [KINDS[kind], value] + stretch(output), line
        return line

    lines = []
    for _, code, text in SHEET:
        lines += [given(code_of_digraph6([*text.encode()], room), "length", len(code), code) for room in (len(code), WIDE)]
        lines += [given(code_of_digraph6([*text.encode()], room), "refused", 8) for room in (0, len(code) - 1)]
    faults = {14: [[], [66], [38], [38, 126], [38, 127], [38, 66, 80], [38, 66, 80, 95, 63], [38, 126, 63, 63, 66, 80, 95], [38, 64, 96], [38, 126, 126, 63, 63, 63, 66, 72]]}
    faults[1] = [[38, 126, 63, 66, 72], [38, 126, 126, 63, 63, 63, 63, 66, 72]]
    faults[15] = [[38, 64, 63], [38, 65, 63], [38, 65, 119], [38, 68, 73, 63, 65, 79, 63]]
    return lines + [given(code_of_digraph6(line, room), "refused", cause) for cause in faults for line in faults[cause] for room in (0, WIDE)]


def lines_by_chance():
    """The lines of every map of up to 3 points and of some of 4. Those of random maps of 5 to 66 points and of shuffled copies, with rooms around the code's length."""
    numbers = Numbers(73)
    tables = [table for n in range(5) for table in [*itertools.product(range(n), repeat=n)][:: 5 if n == 4 else 1]]
    lines = [code_of_digraph6(line_of(table)) for table in tables]
    for i, n in enumerate((5, 6, 7, 8, 9, 10, 11, 12, 13, 16, 20, 31, 32, 45, 62, 63, 64, 66)):
        table = hung(numbers, n, 1 + numbers.below(n)) if i % 2 else random_map(numbers, n)
        for copy in (table, renamed(table, numbers.shuffled(n))):
            lines += codes_in_rooms(line_of(copy), *((0, -1), (0,), (1, -9999), (WIDEST // 2,))[i % 4])
    return lines


def damaged_bodies():
    """In each place of a small body, and in some of one without marks, a byte beside the format, at its ends, or another one."""
    numbers = Numbers(79)
    lines = []
    for table in ([0], [0, 0], [1, 2, 0], [3, 0, 1, 2], random_map(numbers, 5), random_map(numbers, 6)):
        line = line_of(table)
        lines += [code_of_digraph6(replaced(line, place, byte)) for place in range(2, len(line)) for byte in (0, 38, 62, 63, 64, 126, 127, 255)]
    for n in (7, 30, 62, 63, 64, 199, 200):
        line = blank_line(n)
        places = [len(line) - body_length(n), len(line) // 2, len(line) - 2, len(line) - 1]
        lines += [code_of_digraph6(replaced(line, place, byte)) for place in places for byte in (0, 62, 95, 126, 127, 191)]
    line = line_of(random_map(numbers, 63))
    return lines + [code_of_digraph6(replaced(line, place, byte)) for place, byte in ((5, 62), (300, 127), (666, 62), (666, 127))]


def padded():
    """Each padding bit set alone, and all, behind the marks of a map and behind none; beside them the last bit of the matrix, which is no padding."""
    numbers = Numbers(83)
    lines = []
    for n in (*range(1, 13), 62, 63, 64, 199, 200):
        padding = -n * n % 6
        for line in [blank_line(n)] + [line_of(random_map(numbers, n))][: n < 13]:
            last = [line[-1] - 63 | more for more in [2**i for i in range(padding + 1)] + [2**padding - 1, 2 ** (padding + 1) - 1]]
            lines += [code_of_digraph6(line[:-1] + [63 + bits]) for bits in last]
    return lines


def other_marks():
    """Lines of up to 6 points in which each place in turn has a mark more or less, or a mark stands in another row, so that there are as many, or in another place of
    its own; for 63 points marks more and less at the ends of rows and bytes."""
    numbers = Numbers(89)
    lines = []
    for n in range(1, 7):
        table = random_map(numbers, n)
        beside = [(y + 1) % n for y in table]
        places = [[(x, y)] for x in range(n) for y in range(n)] + [[(x, table[x]), (z, beside[z])] for x in range(n) for z in range(n) if n > 1]
        lines += [code_of_digraph6(remarked(table, *changes)) for changes in places]
    table = numbers.shuffled(63)
    places = [[(0, 0)], [(0, 62)], [(30, 31)], [(62, 0)], [(62, 62)], [(0, table[0])], [(62, table[62])], [(0, table[0]), (62, (table[62] + 1) % 63)]]
    return lines + [code_of_digraph6(remarked(table, *changes)) for changes in places]


def digraph6_in():
    """The sheet, and lines with a right size: maps of up to 66 points, and bytes and marks that are wrong."""
    is_described()
    lines = in_examples() + lines_by_chance() + damaged_bodies() + padded() + other_marks()
    assert {line[-3] for line in lines if line[-4] == KINDS["refused"]} == {1, 8, 14, 15}
    return distinct(lines)


def counts_in_forms():
    """Counts in every form that takes them, with nothing behind, with as many bytes as the matrix takes, one less and one more, and with the matrix of a map of 3
    points; some with that of a map of as many. Some are small where they are cut to 8, 16 or 32 bits. A size that begins as a longer form does is in that form,
    whatever count was meant."""
    counts = [0, 1, 2, 3, 4, 61, 62, 63, 64, 65, 66, 100, 126, 127, 128, 129, 191, 192, 198, 199, 200, 201, 202, 203, 244, 255, 256, 257, 259, 319, 320, 456, 512]
    counts += [4095, 4096, 4099, 65535, 65536, 65539, 131075, 258046, 258047, 258048, 258051, 262143]
    lines = []
    for n in counts:
        length = body_length(n) if n < 245 else 2
        bodies = [[63] * k for k in (0, length, length - 1, length + 1)] + [[80, 95]]
        lines += [code_of_digraph6([38] + model.size_in_form(n, form) + body) for form in range(0 if n < 64 else 1, 3) for body in bodies]
    lines += [code_of_digraph6([38] + model.size_in_form(n, form) + line_of(path_map(n))[-body_length(n) :]) for n in (1, 2, 62, 63) for form in range(3)]
    large = [2**18, 2**18 + 3, 2**24, 2**24 + 3, 2**30 + 3, 2**31, 2**31 + 3, 2**32 - 1, 2**32, 2**32 + 3, 2**32 + 200, 2**33, 2**35, 2**35 + 3, 2**36 - 2, 2**36 - 1]
    return lines + [code_of_digraph6([38] + model.size_in_form(n, 2) + body) for n in large for body in ([], [63], [80, 95], [127])]


def cut_sizes():
    """Sizes cut at each place, also such that are read as counts above 200 by one who takes what is missing for zeros, or for nothing."""
    wholes = [[38] + model.size_in_form(n, form) for n in (0, 3, 63, 200, 201, 258047, 2**36 - 1) for form in range(3) if n < 2 ** (6, 18, 36)[form]]
    return [code_of_digraph6(whole[:end], (0, WIDE)[end % 2]) for whole in wholes for end in range(len(whole))]


def damaged_sizes():
    """Every byte in the place after &, and many in its own. In each place of a size, whatever its count and form, a byte beside the format, at its ends, or another one."""
    lines = [code_of_digraph6([38, byte]) for byte in range(256)]
    lines += [code_of_digraph6([byte, 63]) for byte in (0, 1, 10, 32, 36, 37, 39, 40, 42, 46, 58, 59, 62, 63, 64, 101, 126, 127, 128, 166, 255)]
    sizes = [([66], [80, 95]), (model.size_of(64), [63] * body_length(64)), (model.size_of(201), [])]
    sizes += [(model.size_in_form(3, 1), [80, 95]), (model.size_in_form(3, 2), [80, 95]), (model.size_of(2**36 - 1), [])]
    for size, body in sizes:
        lines += [code_of_digraph6([38] + replaced(size, place, byte) + body) for place in range(len(size)) for byte in (0, 38, 62, 63, 64, 126, 127, 255)]
    return lines


def wrong_lengths():
    """Lines a byte too short or too long, with nothing behind the size or twice as much, with a header, an end of line, or the start of another format."""
    lines = []
    for n in (*range(9), 61, 62, 63, 64, 199, 200):
        line = blank_line(n)
        body = [63] * body_length(n)
        bodies = [body, body[1:], body + [63], body + [64], [], body[len(body) // 2 :]] + [body + body][: n < 100]
        lines += [code_of_digraph6(line[: len(line) - len(body)] + other) for other in bodies]
    for _, _, text in SHEET:
        line = [*text.encode()]
        others = [[*b">>digraph6<<"] + line, line + [10], line + [13, 10], line + [0], [32] + line, line[1:], [58] + line[1:], line + line, line[:1] + line, [10] + line]
        lines += [code_of_digraph6(other) for other in others + [line[:end] for end in range(len(line))]]
    return lines


def faults_together():
    """Lines of 3 points with faults that different checks find, and with room and without: the first check decides."""
    sizes = [[66], model.size_in_form(3, 1), model.size_in_form(3, 2), [127], [126, 63, 62, 66], [126], [126, 126, 63, 63, 63, 63], model.size_in_form(201, 1)]
    sizes += [model.size_in_form(201, 2), [126, 63, 66, 127], [62]]
    bodies = [[80, 95], [80], [], [80, 95, 63], [62, 95], [80, 127], [80, 96], [79, 95], [82, 95], [79, 96], [82, 127], [82, 95, 63], [79], [62, 96, 63]]
    lines = [code_of_digraph6([38] + size + body, room) for size in sizes for body in bodies for room in ((0, 5, 6) if size == [66] else (0,))]
    return lines + [code_of_digraph6(start + size + body, 0) for start in ([], [39], [66]) for size in sizes for body in bodies[::6]]


def hostile_lines():
    """Inputs of 10,000 bytes, nearly all of them one, also such that begin as lines do."""
    starts = [[], [38], [38, 126], [38, 126, 126], [38, 63], [38, 66, 80, 95], [38, 125], [38, 126, 63, 66, 71]]
    return [code_of_digraph6(start + [byte] * (10000 - len(start))) for start in starts for byte in (0, 38, 62, 63, 126, 127, 255)]


def digraph6_sizes():
    """Lines in which the start, the size or the length is wrong, alone and beside other faults, and such in which they nearly are."""
    return distinct(counts_in_forms() + cut_sizes() + damaged_sizes() + wrong_lengths() + faults_together() + hostile_lines())


def damaged_long_lines(table):
    """A map of 200 points with one fault in its line: a byte beside the format, a byte less and more, a padding bit, the longest form of the size, a mark more, less or in
    another row; and with a mark less and a padding bit."""
    line, other = line_of(table), (table[199] + 1) % 200
    marks = [[(0, (table[0] + 1) % 200)], [(199, other)], [(0, table[0])], [(199, table[199])], [(100, table[100]), (199, other)]]
    lines = [replaced(line, 5, 62), replaced(line, 3000, 127), replaced(line, 6671, 127), line[:-1], line + [63], line[:-1] + [line[-1] + 1]]
    lines += [[38] + model.size_in_form(200, 2) + line[5:]] + [remarked(table, *places) for places in marks]
    return [code_of_digraph6(fault) for fault in lines + [lines[-2][:-1] + [lines[-2][-1] + 1]]]


def digraph6_in_long():
    """Random lines of 67 to 199 points, and maps of 200 points whose points have any names, with just enough room, one place less and more; and such with a fault."""
    numbers = Numbers(97)
    tables = [random_map(numbers, n) for n in (67, 128, 199)] + [renamed(table, numbers.shuffled(200)) for _, table in shapes()[10::2]]
    lines = [line for i, table in enumerate(tables) for line in codes_in_rooms(line_of(table), *((0, -1), (0,), (1,))[i % 3])]
    return lines + damaged_long_lines(random_map(numbers, 200))


def in_and_out(code, r):
    """The line of a code's map with its points renamed, the code that it must come in as, and the line that must go out for it: that of the map itself."""
    table = model.map_of_code(code, None)[1]
    line, own = line_of(renamed(table, r)), line_of(table)
    assert all(model.code_of_digraph6(given, None) == ("length", code) for given in (line, own)) and model.digraph6_of_code(code, None) == ("length", own)
    return runs(line) + stretch(code) + runs(own)


def digraph6_back():
    """Every code of up to 4 points, random ones of 5 to 66, and maps of 200 points."""
    numbers = Numbers(101)
    codes = [code for n in range(5) for code in codes_of(n)] + [some_code(numbers, n) for n in (*range(5, 15), 17, 22, 30, 47, 62, 63, 64, 66)]
    codes += [model.code_of_map(table, None)[1] for _, table in shapes()[7::2]]
    return [in_and_out(code, numbers.shuffled(len(model.map_of_code(code, None)[1]))) for code in codes]


# ---- pages


def paged(code, wanted):
    """How many codes the page has, and its bytes, whatever the room."""
    kind, result = model.page(code, wanted, float("inf"))
    assert kind == "page", code
    return result


def pages_of(code, wanted, *rooms):
    """The page with rooms beside its length: 0 is just enough."""
    return [page(code, wanted, len(paged(code, wanted)[1]) + more) for more in rooms]


def page_examples():
    """Paper 2 of document 02 on the list of 3 points, with the answers that its words give."""
    def given(line, kind, value, output=()):
        assert line[-len(stretch(output)) - 3 :] == [KINDS[kind], value, len(output)] + stretch(output), line
        return line

    code, last = [3, 2, 1, 1, 1, 2, 1], [3, 1, 2, 1, 2, 1]
    two = [3, 1, 3, 1, 1, 1, 3, 1, 1, 3, 2, 1]
    rest = two + [3, 1, 1, 3, 1, 1] + last
    lines = [given(page(code, 2), "page", 2, two), given(page(code, 2, 12), "page", 2, two), given(page(code, 2, 11), "refused", 8)]
    # fewer than wanted only if "last" was reached, and none after the last
    lines += [given(page(code, wanted, 24), "page", 4, rest) for wanted in (4, 5, 1000)]
    lines += [given(page(code, 0, 0), "page", 0), given(page(last, 1000, 0), "page", 0), given(page([0, 0], 1000, 0), "page", 0)]
    # 10 first of all, then the code's own checks, then 8
    lines += [given(page(bad, 1001, 0), "refused", 10) for bad in (code, [], [3, 1, 2, 2, 1, 1])]
    lines += [given(page([], 1000, 0), "refused", 3), given(page([3, 1, 2, 2, 1, 1], 0, 0), "refused", 6), given(page(code, 1, 0), "refused", 8)]
    return lines


def small_pages():
    """Every code of up to 4 points with every wanted number that tells something, and every room; from 3 points on the rooms take turns."""
    lines = []
    for n in range(5):
        listing = [plain_listing.numbers(n, system) for system in plain_listing.systems(n)]
        for i, code in enumerate(listing):
            left = listing[i + 1 :]
            assert paged(code, 1000) == (len(left), [x for following in left for x in following])
            for j, wanted in enumerate(sorted({0, 1, 2, 3, len(left), len(left) + 1, 1000})):
                length = sum(map(len, left[:wanted]))
                rooms = [length, max(0, length - 1), length + 1 + i, len(left[0]) if left else WIDEST, 0]
                lines += [page(code, wanted, room) for room in (sorted(set(rooms)) if n < 3 else [rooms[(i + j) % len(rooms)]])]
    return lines


def refused_pages():
    """Codes with a fault of their own, and numbers above 1,000, which come first."""
    code = [8, 3, 2, 1, 1, 1, 3, 2, 1, 2, 1, 2, 1]
    faults = [[201, 1], [], [128], code[:-1], [129, 0], [128, 128], [0, 1], [1, 0], [2, 1, 1, 1, 9], [3, 1, 2, 2, 1, 1], [3, 2, 2, 1, 1, 1, 1], code + [1]]
    lines = [page(fault, wanted, room) for fault in faults for wanted, room in ((0, 0), (1, WIDE), (1000, 0))]
    for wanted in (1001, 1002, 65536, 2**32 + 1, 2**64 - 1):
        lines += [page(given, wanted, room) for given in (code, [3, 1, 2, 2, 1, 1], [201, 1]) for room in (0, WIDE)]
    return lines


def pages():
    lines = page_examples() + small_pages() + refused_pages()
    # over the end of a list of sizes
    for n in range(5, 8):
        listing = list(plain_listing.systems(n))
        for system, following in zip(listing, listing[1:]):
            if list(map(model.points, system)) != list(map(model.points, following)):
                lines += pages_of(model.written(system), 1 + len(lines) % 3, 0)
    eight = [plain_listing.numbers(8, system) for system in plain_listing.systems(8)]
    whole = max(k for k in range(1000) if sum(map(len, eight[1 : 1 + k])) <= WIDEST)
    lines += pages_of(eight[0], whole, 0, -1)
    lines += pages_of(eight[400], 150, 7, -1) + pages_of(eight[-200], 200, 0) + pages_of(eight[-101], 1000, 0, -1)
    return lines


def near_last(n, left):
    """A code of n points after which so many are left: a star on a cycle, which loses two leaves with each."""
    code = model.written([model.cycle(n - 2 - 2 * left) + ((2 + 2 * left,) + (1,) * (1 + 2 * left),)])
    assert paged(code, left + 1)[0] == left
    return code


def pages_long():
    """Codes of 128 and 200 points, whose numbers are of one and two bytes: every map of 200 points that is not random, and one that is."""
    lines = []
    for i, (_, table) in enumerate(shapes()[:20]):
        code = model.code_of_map(table, WIDE)[1]
        wanted = 12 if i == 19 else 2 + i % 4 // 2
        lines += pages_of(code, wanted, i) if i % 2 else pages_of(code, wanted, 0, -1)
    for shape, wanted in ((path_map(128), 4), (star(128), 7), (cycle_map(128), 3), (random_map(Numbers(19), 128), 12)):
        lines += pages_of(model.code_of_map(shape, WIDE)[1], wanted, 0, -1)
    for n in (128, 200):
        lines += pages_of(near_last(n, 0), 0, 0) + pages_of(near_last(n, 0), 1, 0) + pages_of(near_last(n, 0), 1000, 0)
        lines += pages_of(near_last(n, 3), 1000, 0, -1)
    # both components are the last of 100 points, so the list of sizes ends
    lines += pages_of(model.written([model.cycle(98) + ((2, 1),)] * 2), 3, 0, -1)
    return lines


def pairs():
    numbers = Numbers(17)
    return [stretch(table) + stretch(renamed(table, numbers.shuffled(200))) for _, table in shapes()]


def main():
    if sys.argv[1:] not in ([], ["--write"]):
        sys.exit("usage: make_data.py [--write]")
    os.makedirs(MADE, exist_ok=True)
    files = [(f"listing_{n}", [[line] for line in plain_listing.listing(n)]) for n in range(9)]
    files += [("examples", examples()), ("damaged", damaged()), ("damaged_long", damaged_long()), ("reordered", reordered()), ("hostile", hostile())]
    files += [("keystrokes", keystrokes()), ("rooms", rooms()), ("steps", steps()), ("steps_back", steps_back()), ("codes", codes_of_maps()), ("census", censuses())]
    files += [("components", components()), ("pages", pages()), ("pages_long", pages_long()), ("pairs", pairs())]
    files += [("sums", sums()), ("sums_long", sums_long()), ("products_long", products_long()), ("table_counts", table_counts()), ("periods", periods())]
    files += [("greatest", greatest()), ("digraph6_out", digraph6_out()), ("digraph6_out_long", digraph6_out_long()), ("digraph6_in", digraph6_in())]
    files += [("digraph6_sizes", digraph6_sizes()), ("digraph6_in_long", digraph6_in_long()), ("digraph6_back", digraph6_back())]
    other = sum(not save(name, lines) for name, lines in files)
    print(f"{len(files)} files, {other} not as those that are kept")
    return 1 if other else 0


if __name__ == "__main__":
    sys.exit(main())
