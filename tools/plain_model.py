"""The entries of the engine, each written from the words of documents 01 and 02 and by other means than the engine: trees are tuples of numbers, components tuples
of trees, children are all candidate merges that pass the definition's tests, and nothing is fast. tools/make_data.py takes from here what the checks expect.

An answer is a pair: ("length", list of numbers), ("last", None), ("first", None), ("none", None) or ("refused", number of the cause). What has more to say than a
length has a word of its own: "census", "part", "page" and "number".
"""
import functools
import math

from plain_listing import components_of_map, least_rotation, merges, parent, parts, tree_code

COUNT, IMAGE, TRUNCATED, NUMBER_FORM, SIZES, NOT_CANONICAL, TRAILING, ROOM, POSITION, WANTED, TOO_LARGE, UNCOUNTED, TOO_MANY_POINTS = range(1, 14)
LINE_FORM, OUT_DEGREE = 14, 15
MOST_WANTED = 1000
MOST_COUNTED = 15
MOST_PERIOD_POINTS = 120
ENOUGH_BYTES = 1000


class Refused(Exception):
    """A refusal, with its cause."""


# ---- the written code


def written_number(x):
    return [x] if x < 128 else [x % 128 + 128, x // 128]


def written_numbers(numbers):
    return [b for x in numbers for b in written_number(x)]


def written_component(c):
    """The number of trees and the tree codes, as bytes."""
    return written_numbers([len(c)] + [x for t in c for x in t])


def written(system):
    """n, m, and each component, as bytes."""
    return written_numbers([sum(map(points, system)), len(system)]) + [b for c in system for b in written_component(c)]


def cut(code):
    """The numbers of a written code; the first 3 or 4 decides."""
    numbers, at = [], 0
    while at < len(code):
        if code[at] < 128:
            numbers.append(code[at])
            at += 1
        elif at + 1 == len(code):
            raise Refused(TRUNCATED)
        elif not 0 < code[at + 1] < 128:
            raise Refused(NUMBER_FORM)
        else:
            numbers.append(code[at] - 128 + 128 * code[at + 1])
            at += 2
    return numbers


def read(numbers):
    """The components that the numbers say, from left to right, the first fault deciding: 1 for n; 3, 5; then 7. Nothing is asked of any order."""
    at = 0

    def number():
        nonlocal at
        if at == len(numbers):
            raise Refused(TRUNCATED)
        at += 1
        return numbers[at - 1]

    def tree(left):
        size = number()
        if not 0 < size <= left:
            raise Refused(SIZES)
        code, inside = (size,), size - 1
        while inside:
            branch = tree(inside)
            code += branch
            inside -= branch[0]
        return code

    left = number()
    if left > 200:
        raise Refused(COUNT)
    n, m = left, number()
    if m > n or (m == 0 and n > 0):
        raise Refused(SIZES)
    system = []
    for _ in range(m):
        k = number()
        if not 0 < k <= left:
            raise Refused(SIZES)
        component = ()
        for _ in range(k):
            t = tree(left)
            left -= t[0]
            component += (t,)
        system.append(component)
    if left:
        raise Refused(SIZES)
    if at < len(numbers):
        raise Refused(TRAILING)
    return system


# ---- trees, components and their order


def points(c):
    return sum(t[0] for t in c)


def is_tree(t):
    branches = parts(t)
    return branches == sorted(branches) and all(map(is_tree, branches))


def is_component(c):
    return all(map(is_tree, c)) and least_rotation(list(c)) == c


@functools.lru_cache(None)
def children(c):
    """The candidates, in order, that are valid codes with this parent; one already met is skipped."""
    found = []
    for d in merges(c):
        if d not in found and parent(d) == c and is_component(d):
            found.append(d)
    return found


def depth(c):
    return points(c) - len(c)


@functools.lru_cache(None)
def path(c):
    """The places of a component's ancestors among the candidate merges, from the cycle on."""
    p = parent(c)
    return () if p is None else path(p) + (merges(p).index(c),)


def generated(c, d):
    """Negative, 0 or positive, as c comes before d, is d, or comes after d in generation order."""
    p, q = path(c), path(d)
    for x, y in zip(p, q):
        if x != y:
            return x - y
    if len(p) < len(q):
        return -1 if depth(c) % 2 == 0 else 1
    if len(q) < len(p):
        return 1 if depth(d) % 2 == 0 else -1
    return 0


def compared(c, d):
    """The order inside a code: by number of points, then by generation order."""
    return points(c) - points(d) or generated(c, d)


def canonical(system):
    return all(map(is_component, system)) and all(compared(c, d) <= 0 for c, d in zip(system, system[1:]))


def accepted(code):
    system = read(cut(code))
    if not canonical(system):
        raise Refused(NOT_CANONICAL)
    return system


# ---- successors


def entered(c):
    """The first component written of c and its descendants."""
    if depth(c) % 2 == 1:
        below = children(c)
        if below:
            return entered(below[0])
    return c


def left_behind(c):
    """What is written after c and all its descendants."""
    p = parent(c)
    if p is None:
        return None
    siblings = children(p)
    place = siblings.index(c)
    if place + 1 < len(siblings):
        return entered(siblings[place + 1])
    return p if depth(p) % 2 == 1 else left_behind(p)


def next_component(c):
    if depth(c) % 2 == 0:
        below = children(c)
        if below:
            return entered(below[0])
    return left_behind(c)


def next_sizes(sizes):
    """The next nondecreasing list with the same sum: the longest beginning is kept after which a number can grow, and what follows is the least that fits."""
    for i in reversed(range(len(sizes))):
        rest = sum(sizes[i:])
        least = sizes[i] + 1
        if least <= rest - least:
            tail, left = [], rest
            while left >= 2 * least:
                tail.append(least)
                left -= least
            return sizes[:i] + tail + [left]
        if sizes[i] < rest:
            return sizes[:i] + [rest]
    return None


def cycle(n):
    return ((1,),) * n


def next_system(system):
    for i in reversed(range(len(system))):
        c = next_component(system[i])
        if c is not None:
            return system[:i] + [c] + [c if points(d) == points(c) else cycle(points(d)) for d in system[i + 1 :]]
    sizes = next_sizes([points(c) for c in system])
    return None if sizes is None else [cycle(s) for s in sizes]


# ---- predecessors: what comes before a code is the code that it follows, so it is looked for, and the step forward decides


def relatives(c):
    """Components among which the one before c is found: the walk through the tree of generation goes from one to the next past at most two others, and where it has
    left siblings behind it comes from the last of them. The cycle, which has no parent, has none before it."""
    def last_child(d):
        return children(d)[-1:]

    def elder(d):
        siblings = children(parent(d)) if parent(d) else [d]
        return siblings[: siblings.index(d)][-1:]

    p = parent(c)
    for d in last_child(c) + elder(c) + [p] + elder(p) + [d for d in [parent(p)] if d]:
        yield d
        yield from last_child(d)


def previous_component(c):
    """The component that c follows; the order begins with the cycle."""
    if parent(c) is None:
        return None
    return next(d for d in relatives(c) if next_component(d) == c)


@functools.lru_cache(None)
def last_component(n):
    """What no component of n points follows: it stands at the end of the siblings below the cycle, which at odd depth come after their descendants."""
    c = (children(cycle(n)) or [cycle(n)])[-1]
    assert next_component(c) is None
    return c


def previous_sizes(sizes):
    """The list that this one follows: the longest beginning is kept after which a number can be less, that number is as great as can be, and one number has the rest."""
    for i in reversed(range(len(sizes))):
        rest = sum(sizes[i:])
        for lesser in reversed(range(sizes[i - 1] if i else 1, sizes[i])):
            if lesser <= rest - lesser:
                return sizes[:i] + [lesser, rest - lesser]
    return None


def previous_system(system):
    """The system that this one follows, with the same sizes if there is one. The rightmost moves fastest, so to the right of the one that moved all were last."""
    for i in reversed(range(len(system))):
        c = previous_component(system[i])
        if c is not None:
            before = system[:i] + [c] + [last_component(points(d)) for d in system[i + 1 :]]
            if canonical(before):
                assert next_system(before) == system
                return before
    sizes = previous_sizes([points(c) for c in system])
    if sizes is None:
        assert all(c == cycle(1) for c in system)
        return None
    before = [last_component(s) for s in sizes]
    assert next_system(before) == system
    return before


# ---- tables


def checked(table):
    if len(table) > 200:
        raise Refused(COUNT)
    if any(x >= len(table) for x in table):
        raise Refused(IMAGE)
    return table


def system_of_map(table):
    return sorted(components_of_map(table), key=functools.cmp_to_key(compared))


def map_of_system(system):
    table = []

    def plant(t, root):
        here = len(table)
        table.append(root)
        for branch in parts(t):
            plant(branch, here)
        return here

    for c in system:
        roots = [plant(t, None) for t in c]
        for place, root in enumerate(roots):
            table[root] = roots[(place + 1) % len(roots)]
    return table


def census_of_map(table):
    """The rows (length, number of cycles), and the greatest distance of a point from its cycle."""
    def distance(x):
        seen = []
        while x not in seen:
            seen.append(x)
            x = table[x]
        return seen.index(x), len(seen) - seen.index(x)

    walks = [distance(x) for x in range(len(table))]
    lengths = [length for away, length in walks if away == 0]
    rows = [(length, lengths.count(length) // length) for length in sorted(set(lengths))]
    return rows, max([away for away, _ in walks], default=0)


# ---- sum and product of two maps: points have whatever names are at hand, and a map is a dictionary of arrows


def side_by_side(f, g):
    """Both maps: beside its number a point has that of its map."""
    return {(here, x): (here, y) for here, table in enumerate((f, g)) for x, y in enumerate(table)}


def in_pairs(f, g):
    """The points are pairs, each half moving by its own map."""
    return {(x, y): (f[x], g[y]) for x in range(len(f)) for y in range(len(g))}


def table_of_arrows(arrows):
    """The map with its points called 0, 1 and on."""
    numbers = {name: number for number, name in enumerate(arrows)}
    return [numbers[arrows[name]] for name in arrows]


# ---- renamings that leave a map as it is


def walk(table, x):
    """The points that x leads to, itself first, up to where one would come again."""
    seen = [x]
    while table[seen[-1]] not in seen:
        seen.append(table[seen[-1]])
    return seen


def marked_form(table, marks):
    """What is left of a map whose points have marks if their names are forgotten: two such maps have one form exactly if a renaming leads from one to the other and every
    mark is kept."""
    cycles = [seen for seen in (walk(table, x) for x in range(len(table))) if table[seen[-1]] == seen[0] == min(seen)]
    hanging = set(range(len(table))).difference(*cycles)

    def tree(x):
        return marks[x], sorted(tree(y) for y in hanging if table[y] == x)

    def component(around):
        trees = [tree(x) for x in around]
        return min(trees[i:] + trees[:i] for i in range(len(trees)))

    return sorted(map(component, cycles))


def renamings(table):
    """How many renamings leave a map as it is: those that keep the first points are told apart by where the next point goes, and that is to any point which looks like it
    while the first ones are marked. So the numbers of these points multiply."""
    count, marks = 1, [0] * len(table)
    for x in range(len(table)):
        forms = {y: marked_form(table, marks[:y] + [x + 1] + marks[y + 1 :]) for y in range(x, len(table))}
        count *= sum(form == forms[x] for form in forms.values())
        marks[x] = x + 1
    return count


# ---- the period of a map, which the paper calls round length


def least_multiple(lengths):
    """The least common multiple."""
    multiple = 1
    for length in lengths:
        multiple = multiple * length // math.gcd(multiple, length)
    return multiple


def settled(table):
    """Where each point has come to once every point is on a cycle; as many steps as there are points are enough."""
    places = list(range(len(table)))
    for _ in table:
        places = [table[x] for x in places]
    return places


def period_by_steps(table):
    """By the words of the paper: once every point is on a cycle, all are moved on together until each is back, for the first time after at least one step."""
    start = settled(table)
    places, steps = [table[x] for x in start], 1
    while places != start:
        places, steps = [table[x] for x in places], steps + 1
    return steps


def period_of_map(table):
    """The same number without making that many steps: a point on a cycle is back after as many steps as the cycle has points, after twice as many and so on, and at no
    other time. tools/make_data.py holds it against the steps."""
    return least_multiple({len(walk(table, x)) for x in settled(table)})


# ---- the greatest period of so many points


@functools.lru_cache(None)
def fewest_points():
    """For each period of a map of up to 120 points, cycle lengths that have it, after their sum, which is the least. A map has any cycles whose lengths make no
    more than its points, as the other points can hang at them, and a second cycle of the same length changes no period. So the lengths are taken in one after
    another, each to all that was found before it. Of lengths with the same period those of the least sum are enough: with whatever is taken in later they have
    the same period again, and the least sum."""
    found = {1: (0, [])}
    for length in range(1, MOST_PERIOD_POINTS + 1):
        for period, (count, lengths) in list(found.items()):
            if count + length <= MOST_PERIOD_POINTS:
                both, more = least_multiple([period, length]), (count + length, lengths + [length])
                found[both] = min(found.get(both, more), more)
    return found


@functools.lru_cache(None)
def greatest_cycles(n):
    """The greatest period of n points, and cycle lengths of at most n points that have it. tools/make_data.py holds it against maps and lists of lengths."""
    return max((period, lengths) for period, (count, lengths) in fewest_points().items() if count <= n)


# ---- digraph6 lines: bits are a text of the digits 0 and 1, and an adjacency matrix is the list of its rows

# The forms of a size: what it begins with, how many bits follow, and the greatest number that is written in it.
SIZE_FORMS = ([], 6, 62), ([126], 18, 258047), ([126, 126], 36, 2**36 - 1)


def in_sixes(bits):
    """R(x) of the format's description: zeros fill the last six up, and each six, read as a number, is 63 less than its byte."""
    filled = bits + "0" * (-len(bits) % 6)
    return [63 + int(filled[i : i + 6], 2) for i in range(0, len(filled), 6)]


def bits_of(given):
    """The bits in these bytes, or 14 if one is outside the format."""
    if any(not 63 <= byte <= 126 for byte in given):
        raise Refused(LINE_FORM)
    return "".join(f"{byte - 63:06b}" for byte in given)


def size_in_form(n, form):
    start, width, _ = SIZE_FORMS[form]
    return start + in_sixes(f"{n:0{width}b}")


def size_of(n):
    """N(n) of the format's description: the shortest form."""
    return size_in_form(n, [n <= most for _, _, most in SIZE_FORMS].index(True))


def line_of_rows(rows):
    return [ord("&")] + size_of(len(rows)) + in_sixes("".join(rows))


def rows_of_map(table):
    """The row of a point has its one mark in the column of the point's image."""
    return ["".join("1" if x == y else "0" for x in range(len(table))) for y in table]


def cut_size(given):
    """The count with which these bytes begin, and the bytes after it. What begins as a longer form does is in that form."""
    start, width, _ = [form for form in SIZE_FORMS if given[: len(form[0])] == form[0]][-1]
    end = len(start) + width // 6
    if len(given) < end:
        raise Refused(LINE_FORM)
    n = int(bits_of(given[len(start) : end]), 2)
    if n > 200:
        raise Refused(COUNT)
    if given[:end] != size_of(n):
        raise Refused(LINE_FORM)
    return n, given[end:]


def rows_of_line(line):
    """The matrix of a line, whatever marks it has. Bytes that are too many and padding bits that are set are lost in it, so its line is another one."""
    if line[:1] != [ord("&")]:
        raise Refused(LINE_FORM)
    n, body = cut_size(line[1:])
    bits = bits_of(body)
    rows = [bits[n * x : n * (x + 1)] for x in range(n)]
    if len("".join(rows)) < n * n or line_of_rows(rows) != line:
        raise Refused(LINE_FORM)
    return rows


def map_of_line(line):
    rows = rows_of_line(line)
    if any(row.count("1") != 1 for row in rows):
        raise Refused(OUT_DEGREE)
    return [row.index("1") for row in rows]


# ---- the entries: what each answers, given the room of the lent output


def replied(work, room=None, end="last"):
    """The answer of an entry whose result is work(), or which has come to an end of the list: 8 comes last, and only where there is a result to write."""
    try:
        result = work()
    except Refused as cause:
        return "refused", cause.args[0]
    if result is None:
        return end, None
    if room is not None and len(result) > room:
        return "refused", ROOM
    return "length", result


def accept(code):
    return replied(lambda: [0] * sum(map(points, accepted(code))))


def first(n, room):
    def work():
        if n > 200:
            raise Refused(COUNT)
        return written([cycle(1)] * n)

    return replied(work, room)


def successor(code, room):
    def work():
        following = next_system(accepted(code))
        return None if following is None else written(following)

    return replied(work, room)


def predecessor(code, room):
    def work():
        before = previous_system(accepted(code))
        return None if before is None else written(before)

    return replied(work, room, "first")


def page(code, wanted, room):
    """How many codes are written, and their bytes one after another: those of successor calls made in turn, until enough are written or one says "last". Or a
    refusal: 10 first of all, then the code's own, then 8."""
    if wanted > MOST_WANTED:
        return "refused", WANTED
    kind, cause = accept(code)
    if kind == "refused":
        return kind, cause
    codes, whole = 0, []
    while codes < wanted:
        kind, code = successor(code, None)
        if kind == "last":
            break
        codes += 1
        whole += code
    if len(whole) > room:
        return "refused", ROOM
    return "page", (codes, whole)


def code_of_map(table, room):
    return replied(lambda: written(system_of_map(checked(table))), room)


def map_of_code(code, room):
    return replied(lambda: map_of_system(accepted(code)), room)


def combined(first, second, room, both):
    """The code of what is made of two codes: the checks of the first come before those of the second, then 11."""
    def work():
        f = map_of_system(accepted(first))
        g = map_of_system(accepted(second))
        arrows = both(f, g)
        if len(arrows) > 200:
            raise Refused(TOO_LARGE)
        return written(system_of_map(table_of_arrows(arrows)))

    return replied(work, room)


def sum_of_codes(first, second, room):
    return combined(first, second, room, side_by_side)


def product_of_codes(first, second, room):
    return combined(first, second, room, in_pairs)


def census(table, room):
    """The rows one after another, or a refusal; the room is that of a list of rows."""
    def work():
        return census_of_map(checked(table))

    try:
        rows, height = work()
    except Refused as cause:
        return "refused", cause.args[0]
    if len(rows) > room:
        return "refused", ROOM
    return "census", (rows, height)


def turns(c):
    """How many of the rotations of a component equal it: of k trees there are k rotations, itself among them."""
    return sum(c[i:] + c[:i] == c for i in range(len(c)))


def component(code, position):
    """Where the bytes of the component at this position begin in the code, its turns, and these bytes; or a refusal, 9 coming last."""
    try:
        system = accepted(code)
        if position >= len(system):
            raise Refused(POSITION)
    except Refused as cause:
        return "refused", cause.args[0]
    after = [b for c in system[position:] for b in written_component(c)]
    return "part", (len(code) - len(after), turns(system[position]), written_component(system[position]))


def table_count(code):
    """How many tables have this code: a map has as many names for its points as there are orders, and each table comes up once for each renaming that leaves it. Or a
    refusal, 12 coming last."""
    try:
        table = map_of_system(accepted(code))
        if len(table) > MOST_COUNTED:
            raise Refused(UNCOUNTED)
    except Refused as cause:
        return "refused", cause.args[0]
    return "number", math.factorial(len(table)) // renamings(table)


def period(table):
    """The period of a map, or a refusal: 1, then 13, then 2."""
    if MOST_PERIOD_POINTS < len(table) <= 200:
        return "refused", TOO_MANY_POINTS
    try:
        return "number", period_of_map(checked(table))
    except Refused as cause:
        return "refused", cause.args[0]


def greatest_period(n, room):
    """The greatest period of n points, or a refusal: 1, then 13, then 8, which a buffer of fewer than 1,000 bytes is, whichever code is chosen. Which one is
    written is left open, so the answer has none."""
    if n > 200:
        return "refused", COUNT
    if n > MOST_PERIOD_POINTS:
        return "refused", TOO_MANY_POINTS
    if room < ENOUGH_BYTES:
        return "refused", ROOM
    return "number", greatest_cycles(n)[0]


def digraph6_of_code(code, room):
    """The line of the map that map_of_code writes."""
    return replied(lambda: line_of_rows(rows_of_map(map_of_system(accepted(code)))), room)


def code_of_digraph6(line, room):
    return replied(lambda: written(system_of_map(map_of_line(line))), room)
