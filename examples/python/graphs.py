"""graphs: prints the digraph6 lines of some codes and the codes of some lines; of long lines only how they begin, and whether the code comes back."""

import lethmuok


def words(code):
    return " ".join(map(str, code))


def text(line):
    return line.decode("ascii").replace("\n", "\\n")


def answer(call, given, shown):
    """What is shown of a result, or the refusal."""
    try:
        return shown(call(given))
    except lethmuok.Refused as refusal:
        return "refused %d" % refusal.cause


def print_line(code):
    print("code %s: %s" % (words(code), answer(lethmuok.digraph6_of_code, code, text)))


def print_code(line):
    print("line %s: %s" % (text(line), answer(lethmuok.code_of_digraph6, line, words)))


def print_cycle(n):
    code = lethmuok.code_of_map([(x + 1) % n for x in range(n)])
    line = lethmuok.digraph6_of_code(code)
    back = "the same code" if lethmuok.code_of_digraph6(line) == code else "ANOTHER code"
    print("cycle of %d points: %d bytes, %s and on, read in: %s" % (n, len(line), text(line[:5]), back))


print_line([0, 0])
print_line([1, 1, 1, 1])
print_line([2, 1, 2, 1, 1])
print_line([2, 1, 1, 2, 1])
print_line([3, 1, 3, 1, 1, 1])
print_line([3, 1, 1, 3, 2, 1])
print_line([8, 3, 2, 1, 1, 1, 3, 2, 1, 2, 1, 2, 1])
print_line([3, 1, 2, 2, 1, 1])
# a cycle of 3 points, and with other names; a graph of 8 points
print_code(b"&BP_")
print_code(b"&BKO")
print_code(b"&GOG?_G@?A@?G")
# no sign in front, or a header; no size, 201 points, and a longer form than needed
print_code(b"")
print_code(b"BP_")
print_code(b">>digraph6<<&BP_")
print_code(b"&")
print_code(b"&~?BH")
print_code(b"&~??BP_")
# a byte too few, a newline, a padding bit; a row without a mark, and one with two
print_code(b"&BP")
print_code(b"&BP_\n")
print_code(b"&BP`")
print_code(b"&B?_")
print_code(b"&Bp_")
print_cycle(62)
print_cycle(63)
print_cycle(200)
