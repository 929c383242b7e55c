#!/usr/bin/env python3
"""Respells the repository's own definitions and lemmas: run once at the top, after the toolchain's port.py.

usage: python3 tools/respell.py            rewrites crates/*/{src,specs,proofs} and the ghost names in crates/*/must-fail/*.edit
       python3 tools/respell.py --list     prints each renamed word, and names that would fall together

Words are in snake case: pointsOf is points_of, leastRotation-least is least_rotation-least. A dash joins two names of a lemma; the name of a
definition, a field or a constructor is one Rust identifier: length-is is length_is. Functions of src/, exported C names and strings keep their names.
"""

import os
import re
import sys

CAMEL = re.compile(r"(?<![A-Za-z0-9_'])[a-z][a-z0-9]*(?:[A-Z][a-z0-9]*)+")
WORD = r"[A-Za-z_][\w']*(?:-[\w'*]+)*"
TOKEN = re.compile(r"(?<![\w'·-])" + WORD)
# Names that Rattle reads in a proof file: they keep their dashes.
MADE = re.compile(r"^(invariant|decreases|loop|returns|the-)|-(requires|holds|init|preserved|smaller)$")
# A function in capitals, which is no type, gets a name in words.
OTHER = {"R": {"crates/lists/proofs/Blocks.antt": "reversed_between"}}
# Names that would fall together with others.
APART = {
    "at-most": "is_at_most",
    "brings-back": "is_back",
    "cycles-of": "cycles_are",
    "on-cycle": "is_on_cycle",
    "successor-of": "has_successor",
    "tree-at": "tree_stands",
    "componentBytes": "bytes_of_component",
    "inOrder": "is_in_order",
    "isBody": "is_line_body",
    "stepBack": "step_back_of",
}
KEPT = {"toZ-ofZ", "getD"}


def snake(word):
    return CAMEL.sub(lambda m: re.sub(r"[A-Z]", lambda c: "_" + c.group(0).lower(), m.group(0)), word)


def sources():
    for folder, dirs, files in os.walk("crates"):
        dirs[:] = sorted(d for d in dirs if d not in ("out", "data"))
        for f in sorted(files):
            if f.endswith((".rt", ".antt", ".edit")):
                yield os.path.join(folder, f)


def imported(texts):
    """The names that are imported from outside the repository."""
    names = set()
    for t in texts.values():
        for m in re.finditer(r"use ([\w.]+)\.\{([^}]*)\}", t):
            parts = m.group(1).split(".")
            if parts[0] == "Rattle" and os.path.isdir(os.path.join("crates", parts[1])):
                continue
            names.update(re.split(r"\s+as\s+", n.strip())[0] for n in m.group(2).split(","))
    return names


def dashed(texts):
    """The dashed names of definitions, fields and constructors."""
    names = set()
    for path, t in texts.items():
        if not path.endswith(".antt"):
            continue
        block = None
        for line in t.split("\n"):
            bare = line.strip()
            if not bare or bare.startswith("--"):
                continue
            indent = len(line) - len(line.lstrip())
            if block is not None and indent <= block:
                block = None
            m = re.match(r"(?:(?:abbrev|unfoldable|opaque|pub)\s+)*(?:record|data)\s", bare)
            if m:
                block = indent
                continue
            m = re.match(r"(?P<marks>(?:(?:abbrev|unfoldable|opaque|pub)\s+)*)(?P<name>" + WORD + r")\s*(?:[({].*?)?:\s", bare)
            if not m or "-" not in m.group("name") or MADE.search(m.group("name")):
                continue
            definition = re.search(r"abbrev|unfoldable", m.group("marks")) and not re.search(r"[≡≤<∈≢]", bare.split(":", 1)[1])
            if block is not None or definition or ("/specs/" in path and m.group("marks")):
                names.add(m.group("name"))
    return names


def plan(texts):
    kit = imported(texts)
    names = {n for n in dashed(texts) if n not in kit and not re.search(r"-\d+$", n)}
    return kit, names


def respelled(path, text, kit, names):
    def word(m):
        w = m.group(0)
        if w in kit or w in KEPT:
            return w
        if w in APART:
            return APART[w]
        if w in names:
            return snake(w.replace("-", "_"))
        for old, where in OTHER.items():
            if path in where and (w == old or w.startswith(old + "_")):
                return where[path] + w[len(old):]
        return "-".join(APART.get(part, snake(part)) for part in w.split("-"))

    if path.endswith(".antt"):
        return TOKEN.sub(word, text)
    return re.sub(r'"(?:[^"\\]|\\.)*"|' + TOKEN.pattern, lambda m: m.group(0) if m.group(0)[0] == '"' else word(m), text)


def main(argv):
    texts = {}
    for p in sources():
        with open(p, encoding="utf-8") as f:
            texts[p] = f.read()
    kit, names = plan(texts)
    if "--list" in argv:
        seen = {}
        for p, t in texts.items():
            for m in TOKEN.finditer(t):
                w = m.group(0)
                seen.setdefault(respelled(p, w, kit, names), set()).add(w)
        for new, olds in sorted(seen.items()):
            if olds != {new}:
                print(f"{' '.join(sorted(olds))} -> {new}" + ("   FALL TOGETHER" if len(olds) > 1 else ""))
        return 0
    for p, t in texts.items():
        new = respelled(p, t, kit, names)
        if new != t:
            with open(p, "w", encoding="utf-8") as f:
                f.write(new)
    return 0


if __name__ == "__main__":
    raise SystemExit(main(sys.argv[1:]))
