"""What the scripts of this folder share: the crates of crates.txt, their files, and the imports and declarations in a file. All of it looks at text alone."""
import os
import re

TOP = os.path.join(os.path.dirname(os.path.realpath(__file__)), "..")
WORD = re.compile(r"[^\s(){}\[\];,.λ`]+")
_MARKS = r"^( *)(?:(?:abbrev|unfoldable) )*"
_DECLARED = re.compile(_MARKS + r"(pub )?(?!use |mod |data |record |mutual|module )(\S+)(?: \{[^}]*\})* : ?")
_TYPE = re.compile(_MARKS + r"(?:pub )?(record|data|module) (?!\{)(\S+)")
_USE = re.compile(r"^\s*(?:unfoldable )?(pub )?(?:ghost )?use (\S+?)(?:\.\{(.*)\}|\s+as (\S+?))?;?\s*$")
_MODULE = re.compile(r"Rattle\.(\w+)\.(.*)$")


def crates():
    """The crates of crates.txt in its order, each with the names that it says the crate stands on."""
    found = {}
    with open(os.path.join(TOP, "crates.txt"), encoding="utf-8") as lines:
        for line in lines:
            if line.strip() and not line.startswith("#"):
                name, _, below = line.partition(":")
                found[name.split()[0]] = below.split()
    return found


def files(folder, *endings):
    """The paths from the top of the repository of the files under a folder with one of these endings, sorted."""
    found = []
    for place, folders, names in os.walk(os.path.join(TOP, folder)):
        folders[:] = [f for f in folders if f not in ("target", "out", ".git")]
        found += [os.path.relpath(os.path.join(place, name), TOP) for name in names if name.endswith(endings)]
    return sorted(found)


def lines_of(path):
    with open(os.path.join(TOP, path), encoding="utf-8") as text:
        return text.read().split("\n")


def is_code(line):
    """Neither blank nor a comment."""
    return bool(line.strip()) and not line.lstrip().startswith(("--", "//"))


class Import:
    """A line `use M.{a, b as c}`, `use M as m` or `use M`; the module is (crate, place in it), or None where M is no module of a crate of this repository."""

    def __init__(self, match):
        module = _MODULE.match(match.group(2))
        self.passed_on = bool(match.group(1))
        self.text = match.group(2)
        self.module = (module.group(1), module.group(2)) if module and module.group(1) in crates() else None
        self.alias = match.group(4)
        self.whole = match.group(3) is None and self.alias is None
        # pairs: the name in the module, the name here
        parts = [[x.strip() for x in part.split(" as ")] for part in (match.group(3) or "").split(",")]
        self.names = [(part[0], part[-1]) for part in parts if part[0]]


def import_in(line):
    match = _USE.match(line)
    return Import(match) if match else None


def module_of(path):
    """crates/a/proofs/B/C.antt is the module ("a", "proofs.B.C")."""
    parts = path.split("/")
    return parts[1], os.path.splitext(".".join(parts[2:]))[0]


class Block:
    """A declaration with the lines from `first` up to `end`. A record or a data type has its fields or constructors in it."""

    def __init__(self, name, public, is_type, first):
        self.name, self.public, self.is_type, self.first, self.end = name, public, is_type, first, None


def blocks(lines):
    """The declarations in the lines of an .antt file, in order."""
    found, fields, depth = [], None, -1
    for i, line in enumerate(lines):
        if not is_code(line):
            continue
        indent = len(line) - len(line.lstrip())
        if fields is not None and indent <= fields:
            fields = None
        kind, declared = _TYPE.match(line), _DECLARED.match(line)
        if kind:
            found.append(Block(kind.group(3), True, True, i))
            is_module = kind.group(2) == "module"
            depth = indent + 2 if is_module else indent
            if not is_module:
                fields = indent
        elif declared and fields is None and (indent <= depth or declared.group(2)):
            found.append(Block(declared.group(3), bool(declared.group(2)), False, i))
            depth = indent
    for block, after in zip(found, found[1:] + [None]):
        block.end = after.first if after else len(lines)
    return found
