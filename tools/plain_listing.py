#!/usr/bin/env python3
"""plain_listing.py N: the list of all codes of N points, made from the definitions by brute force.

It shares nothing with the engine: it does not merge trees to find new components and never steps from a code to the next.
- Up to 6 points it looks at every map, N to the power N of them, and takes the code of each by Definitions 1, 2 and 14 of document 004. From 7 points on the
  components come from all lists of trees along a cycle instead.
- The order of generation is read off the finished set of components: each one's parent is computed, the children of a component are sorted by the first candidate
  merge that gives them, and the tree so found is walked with alternating output.
- Size lists are all nondecreasing lists with the right sum, sorted; systems are all choices with repetition, sorted by places.
The output has the form of the listing program.
"""
import itertools
import sys
from functools import lru_cache


def tree_code(branches):
    """Definition 1: the number of points, then the codes of the branches in nondecreasing order."""
    branches = sorted(branches)
    return (1 + sum(b[0] for b in branches),) + tuple(x for b in branches for x in b)


def least_rotation(trees):
    """Definition 2."""
    return min(tuple(trees[i:] + trees[:i]) for i in range(len(trees)))


def components_of_map(f):
    n = len(f)
    on_cycle = set()
    for x in range(n):
        y = x
        for _ in range(n):
            y = f[y]
        on_cycle.add(y)

    def tree(x):
        return tree_code([tree(y) for y in range(n) if f[y] == x and y not in on_cycle])

    result, seen = [], set()
    for x in sorted(on_cycle):
        if x in seen:
            continue
        cycle, y = [x], f[x]
        while y != x:
            cycle.append(y)
            y = f[y]
        seen.update(cycle)
        result.append(least_rotation([tree(y) for y in cycle]))
    return result


@lru_cache(None)
def trees(n):
    """All valid trees of n points."""
    found = set()
    for sizes in size_lists(n - 1):
        for pick in itertools.product(*(trees(s) for s in sizes)):
            found.add(tree_code(list(pick)))
    return sorted(found)


@lru_cache(None)
def size_lists(n):
    """Document 000, Definition 2: nondecreasing lists with sum n, in lexicographic order."""
    lists = [()] if n == 0 else []
    for k in range(1, n + 1):
        lists += [t for t in itertools.combinations_with_replacement(range(1, n + 1), k) if sum(t) == n]
    return sorted(lists)


@lru_cache(None)
def components(n):
    """The set of valid components of n points."""
    if n <= 6:
        every = (components_of_map(f) for f in itertools.product(range(n), repeat=n))
        return frozenset(c[0] for c in every if len(c) == 1)
    found = set()
    for sizes in size_lists(n):
        for order in set(itertools.permutations(sizes)):
            for pick in itertools.product(*(trees(s) for s in order)):
                found.add(least_rotation(list(pick)))
    return frozenset(found)


def parts(tree):
    """The branches of a tree, read off its code."""
    branches, at = [], 1
    while at < len(tree):
        branches.append(tree[at : at + tree[at]])
        at += tree[at]
    return branches


def parent(c):
    """Lemma 8."""
    for h, tree in enumerate(c):
        if len(tree) > 1:
            branches = parts(tree)
            rest, last = tree_code(branches[:-1]), branches[-1]
            return c[:h] + tuple(sorted([rest, last])) + c[h + 1 :]
    return None


def merges(c):
    """Definition 10: the candidate merges, left ones first."""
    def merge(t, u):
        return (t[0] + u[0],) + t[1:] + u

    left = [c[:i] + (merge(c[i], c[i + 1]),) + c[i + 2 :] for i in range(len(c) - 1)]
    right = [c[:i] + (merge(c[i + 1], c[i]),) + c[i + 2 :] for i in range(len(c) - 1)]
    return left + right


@lru_cache(None)
def generation(n):
    """Theorem 13 with alternating output: even depths before their descendants, odd ones after."""
    children = {}
    for c in components(n):
        children.setdefault(parent(c), []).append(c)

    def walk(c, even):
        below = sorted(children.get(c, []), key=merges(c).index)
        inner = [d for b in below for d in walk(b, not even)]
        return [c] + inner if even else inner + [c]

    root = ((1,),) * n
    assert children[None] == [root]
    return walk(root, True)


def systems(n):
    """Definition 14, in the order of the whole list."""
    for sizes in size_lists(n):
        groups = [(s, len(list(g))) for s, g in itertools.groupby(sizes)]
        choices = [itertools.combinations_with_replacement(range(len(generation(s))), k) for s, k in groups]
        for places in sorted(itertools.product(*choices)):
            yield [generation(s)[p] for (s, _), group in zip(groups, places) for p in group]


def numbers(n, system):
    flat = [n, len(system)]
    for c in system:
        flat += [len(c)] + [x for t in c for x in t]
    return flat


def listing(n):
    """The lines that the listing program writes."""
    yield f"n {n}"
    total = 0
    for total, system in enumerate(systems(n), 1):
        yield " ".join(map(str, [f"{total}:"] + numbers(n, system)))
    yield f"{total} codes"


def main():
    if len(sys.argv) != 2 or not sys.argv[1].isdecimal():
        sys.exit("usage: plain_listing.py N (a count of points)")
    for line in listing(int(sys.argv[1])):
        print(line)


if __name__ == "__main__":
    main()
