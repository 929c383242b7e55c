"""The engine for Python programs, over the shared object that `run` makes of the static library.

Maps, codes and digraph6 lines are given as bytes or as any other sequence of numbers from 0 to 255, and come back as bytes. What the engine refuses raises
Refused; a value that is no byte, or no count that C can hold, raises ValueError before the engine is called.
"""

import ctypes
import operator
import os

_HERE = os.path.dirname(os.path.abspath(__file__))
_LIBRARY = os.environ.get("LETHMUOK_LIBRARY", os.path.join(_HERE, "..", "..", "target", "examples", "liblethmuok.so"))
if not os.path.exists(_LIBRARY):
    raise ImportError("there is no shared object %s: examples/python/run makes it, and LETHMUOK_LIBRARY may name another" % _LIBRARY)
_c = ctypes.CDLL(_LIBRARY)

CAUSES = {
    1: "a count of points, or the length of a table, is above 200",
    2: "a byte of a table is no point",
    3: "the bytes end before the code does",
    4: "a number of two bytes has a wrong second byte",
    5: "the sizes in a code do not fit each other",
    6: "the sizes fit, but this is not the code of the pattern",
    7: "there are numbers after the code",
    8: "the output is shorter than the result; for the greatest period, than 1,000 bytes",
    9: "the code has no component at that position",
    10: "more than 1,000 codes are wanted",
    11: "the result has more than 200 points",
    12: "the code has more than 15 points, and its tables are not counted",
    13: "a count of points, or the length of a table, is above 120, and no period is told",
    14: "the bytes are no digraph6 line in the required form",
    15: "a row of a digraph6 line has not exactly one mark, so it is no map",
}
_LAST = -100
_NONE = -101
_FIRST = -102
_MAX_CODE = 1000
_MAX_LINE = 6672
_MAX_ENTRIES = 19
_MAX_WANTED = 1000


class Refused(ValueError):
    """An input was refused; `cause` is the number of the cause."""

    def __init__(self, cause):
        super().__init__("%d: %s" % (cause, CAUSES[cause]))
        self.cause = cause


def _number(value, limit, what):
    """The value as a number, which must be from 0 to below the limit: ctypes would cut off what does not fit."""
    try:
        number = operator.index(value)
    except TypeError:
        number = -1
    if not 0 <= number < limit:
        raise ValueError("%r is no %s" % (value, what))
    return number


def _count(value):
    return ctypes.c_size_t(_number(value, 2 ** (8 * ctypes.sizeof(ctypes.c_size_t)), "count"))


def _room(count):
    """A buffer of so many bytes. One byte more is allocated, so that its address is never null."""
    return (ctypes.c_uint8 * count).from_buffer((ctypes.c_uint8 * (count + 1))())


def _given(data):
    """A buffer that holds the bytes."""
    try:
        values = [_number(value, 256, "byte") for value in data]
    except TypeError:
        raise ValueError("%r is no sequence of bytes" % (data,)) from None
    buffer = _room(len(values))
    buffer[:] = values
    return buffer


class _PageReply(ctypes.Structure):
    """How many codes a page has, and how many bytes they take together; a refusal stands in both."""

    _fields_ = [("codes", ctypes.c_int64), ("bytes", ctypes.c_int64)]


class _GreatestReply(ctypes.Structure):
    """How many bytes a code with the greatest period has, and what that is; a refusal stands in both."""

    _fields_ = [("length", ctypes.c_int64), ("period", ctypes.c_int64)]


def _reply(kind, name, *arguments):
    """The reply of a function of the library: a count is passed as it is, a buffer as its address and its length."""
    flat = []
    for argument in arguments:
        flat += [argument] if isinstance(argument, ctypes.c_size_t) else [argument, ctypes.c_size_t(len(argument))]
    function = getattr(_c, name)
    function.restype = kind
    return function(*flat)


def _unrefused(number):
    if _LAST < number < 0:
        raise Refused(-number)
    return number


def _call(name, *arguments):
    """Calls a function of the library that answers one number."""
    return _unrefused(_reply(ctypes.c_int64, name, *arguments))


def accept(code):
    """The number of points of a code."""
    return _call("lethmuok_accept", _given(code))


def first(n):
    """The first code in the list of n points."""
    out = _room(_MAX_CODE)
    return bytes(out[: _call("lethmuok_first", _count(n), out)])


def successor(code):
    """The code that follows in the list, or None where the list ends."""
    out = _room(_MAX_CODE)
    reply = _call("lethmuok_successor", _given(code), out)
    return None if reply == _LAST else bytes(out[:reply])


def predecessor(code):
    """The code that comes before in the list, or None where the list begins."""
    out = _room(_MAX_CODE)
    reply = _call("lethmuok_predecessor", _given(code), out)
    return None if reply == _FIRST else bytes(out[:reply])


def page(code, wanted):
    """The codes that follow in the list, as many as are wanted, or fewer where the list ends: how many they are, and their bytes one after another."""
    count = _count(wanted)
    out = _room(_MAX_CODE * min(count.value, _MAX_WANTED))
    reply = _reply(_PageReply, "lethmuok_page", _given(code), count, out)
    return _unrefused(reply.codes), bytes(out[: reply.bytes])


def code_of_map(table):
    """The code of a map."""
    out = _room(_MAX_CODE)
    return bytes(out[: _call("lethmuok_code_of_map", _given(table), out)])


def map_of_code(code):
    """A map that has this code."""
    out = _room(_MAX_CODE)
    return bytes(out[: _call("lethmuok_map_of_code", _given(code), out)])


def digraph6_of_code(code):
    """The digraph6 line of the map that map_of_code gives. There is no header and no newline."""
    out = _room(_MAX_LINE)
    return bytes(out[: _call("lethmuok_digraph6_of_code", _given(code), out)])


def code_of_digraph6(line):
    """The code of the map that a digraph6 line is of. The line has no header and no newline, and its size has the shortest form."""
    out = _room(_MAX_CODE)
    return bytes(out[: _call("lethmuok_code_of_digraph6", _given(line), out)])


def sum_of_codes(first, second):
    """The code of two systems side by side."""
    out = _room(_MAX_CODE)
    return bytes(out[: _call("lethmuok_sum", _given(first), _given(second), out)])


def product_of_codes(first, second):
    """The code of the system whose points are pairs, each half moving by the map of its own code."""
    out = _room(_MAX_CODE)
    return bytes(out[: _call("lethmuok_product", _given(first), _given(second), out)])


def isomorphism(f, g):
    """An isomorphism from the map f to the map g, or None where there is none."""
    out = _room(_MAX_CODE)
    reply = _call("lethmuok_isomorphism", _given(f), _given(g), out)
    return None if reply == _NONE else bytes(out[:reply])


def census(table):
    """A row for each cycle length that occurs, rising, with its number of cycles; and the height, the greatest distance of a point from its cycle."""
    lengths, counts = _room(_MAX_ENTRIES), _room(_MAX_ENTRIES)
    given = _given(table)
    entries = _call("lethmuok_census", given, lengths, counts)
    rows = list(zip(lengths[:entries], counts[:entries]))
    return rows, _call("lethmuok_height", given)


def period(table):
    """The least number of steps, at least 1, that bring each point of a map back once every point is on a cycle: the least common multiple of the cycle lengths, and 1
    for no points. The map may have 120 points."""
    return _call("lethmuok_period", _given(table))


def greatest_period(n, room=_MAX_CODE):
    """A code of n points with the greatest period, n at most 120, and that period: no map of n points has a greater one. Less room than 1,000 bytes is refused,
    however short the code is."""
    out = _room(min(_count(room).value, _MAX_CODE))
    reply = _reply(_GreatestReply, "lethmuok_greatest_period", _count(n), out)
    return bytes(out[: _unrefused(reply.length)]), reply.period


def component(code, position):
    """The bytes of the component at a position, counted from 0."""
    given = _given(code)
    start = _call("lethmuok_component_start", given, _count(position))
    end = _call("lethmuok_component_end", given, _count(position))
    return bytes(given[start:end])


def component_turns(code, position):
    """How many of its rotations equal the component at a position: from 1 to the number of its trees along the cycle."""
    return _call("lethmuok_component_turns", _given(code), _count(position))


def table_count(code):
    """How many tables of as many points have this code, which may have 15 points: over all codes of n points these numbers make n to the power n."""
    return _call("lethmuok_table_count", _given(code))
