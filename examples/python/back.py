"""back: prints some codes, those that follow, and the way back; of long codes only whether the way back ends where it began."""

import lethmuok


def words(code):
    return " ".join(map(str, code))


def print_before(code):
    try:
        before = lethmuok.predecessor(code)
        said = "first" if before is None else words(before)
    except lethmuok.Refused as refusal:
        said = "refused %d" % refusal.cause
    print("before %s: %s" % (words(code), said))


def print_steps(code, steps):
    """At most so many steps forward, up to "last", and as many back."""
    print("from " + words(code))
    made = 0
    while made < steps:
        following = lethmuok.successor(code)
        print("  forward: " + ("last" if following is None else words(following)))
        if following is None:
            break
        code, made = following, made + 1
    for _ in range(made):
        code = lethmuok.predecessor(code)
        print("  back: " + ("first" if code is None else words(code)))


def print_cycle(name, n, steps):
    code = start = lethmuok.code_of_map([(x + 1) % n for x in range(n)])
    for _ in range(steps):
        code = lethmuok.successor(code)
    for _ in range(steps):
        code = lethmuok.predecessor(code)
    print("%s, %d steps forward and back: %s" % (name, steps, "the same code" if code == start else "ANOTHER code"))


print_steps([8, 3, 2, 1, 1, 1, 3, 2, 1, 2, 1, 2, 1], 3)
print_steps([3, 1, 1, 3, 2, 1], 5)
print_before([3, 1, 3, 1, 1, 1])
print_before([3, 3, 1, 1, 1, 1, 1, 1])
print_before([0, 0])
print_before([3, 1, 2, 2, 1, 1])
print_cycle("200 points on a cycle", 200, 1000)
