"""turns: prints some codes with their components, and of each how many of its rotations equal it; of long components only that number."""

import itertools

import lethmuok


def words(values):
    return " ".join(map(str, values))


def turns(code, position):
    """The number of turns, or the refusal."""
    try:
        return str(lethmuok.component_turns(code, position))
    except lethmuok.Refused as refusal:
        return "refused %d" % refusal.cause


def print_components(code):
    """Each component, up to the position after the last."""
    print(words(code))
    for position in itertools.count():
        try:
            part = lethmuok.component(code, position)
        except lethmuok.Refused:
            break
        print("  %s: %s" % (words(part), turns(code, position)))


def print_turns(code, position):
    print("%s at %d: %s" % (words(code), position, turns(code, position)))


def print_leaves(cycle, leaves, apart):
    """So many points on a cycle and so many leaves, each so far along from the one before, around as often as it takes."""
    code = lethmuok.code_of_map([(x + 1) % cycle for x in range(cycle)] + [x * apart % cycle for x in range(leaves)])
    print("%d points on a cycle, %d leaves %d apart: %s" % (cycle, leaves, apart, turns(code, 0)))


print_components([3, 1, 3, 1, 1, 1])
print_components([3, 1, 2, 1, 2, 1])
print_components([6, 1, 4, 1, 2, 1, 1, 2, 1])
print_components([7, 1, 4, 1, 2, 1, 1, 3, 1, 1])
print_components([11, 4, 1, 1, 3, 1, 1, 1, 2, 1, 2, 1, 2, 2, 1, 2, 1])
print_components([0, 0])
print_turns([3, 1, 3, 1, 1, 1], 1)
print_turns([6, 1, 4, 2, 1, 1, 2, 1, 1], 0)
print_leaves(200, 0, 1)
print_leaves(100, 100, 1)
print_leaves(100, 99, 1)
print_leaves(150, 50, 3)
print_leaves(150, 49, 3)
print_leaves(100, 60, 5)
