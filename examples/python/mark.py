"""mark.py SHEET: marks the answers of a student, and fails where a mark is not the one that the sheet names. ../README.md says what a sheet is."""

import re
import sys

import lethmuok

NUMBER = re.compile("0|[1-9][0-9]{0,2}")
MARK = re.compile("right|wrong|refused +[1-9][0-9]?")


class Unreadable(Exception):
    """A line that is not of the form that a sheet has."""


def bytes_in(text):
    words = [word for word in text.split(" ") if word]
    if len(words) > 1000 or not all(NUMBER.fullmatch(word) and int(word) < 256 for word in words):
        raise Unreadable
    return bytes(map(int, words))


def mark_code(table, answer):
    lethmuok.accept(answer)
    return lethmuok.code_of_map(table) == answer


def mark_map(code, answer):
    return lethmuok.isomorphism(answer, lethmuok.map_of_code(code)) is not None


def mark_next(code, answers):
    """An answer is a code, or None where the student says that the list has ended."""
    for i, answer in enumerate(answers):
        code = lethmuok.successor(code)
        if code is None:
            return answer is None and i == len(answers) - 1
        if answer != code:
            return False
    return True


def question_in(question, given, answer):
    """The function that marks such a question, and what it is called with."""
    if question == "code":
        return mark_code, bytes_in(given), bytes_in(answer)
    if question == "map":
        return mark_map, bytes_in(given), bytes_in(answer)
    if question == "next":
        return mark_next, bytes_in(given), [None if text.strip(" ") == "end" else bytes_in(text) for text in answer.split(",")]
    raise Unreadable


def mark_line(line):
    """Prints the mark of one line; answers whether it is the expected one."""
    parts = line.split(":")
    if len(parts) != 4 or not MARK.fullmatch(parts[3].strip(" ")):
        raise Unreadable
    marker, given, answer = question_in(*parts[:3])
    try:
        found = "right" if marker(given, answer) else "wrong"
    except lethmuok.Refused as refusal:
        found = "refused %d" % refusal.cause
    as_expected = found.split() == parts[3].split()
    print("%s: %s%s" % (":".join(parts[:3]), found, "" if as_expected else " (NOT as expected)"))
    return as_expected


def main():
    if len(sys.argv) != 2:
        sys.stderr.write("usage: mark.py SHEET\n")
        return 2
    try:
        with open(sys.argv[1], "rb") as sheet:
            lines = sheet.read().decode("latin-1").split("\n")
    except OSError:
        sys.stderr.write("mark.py: the sheet cannot be read\n")
        return 2
    marked = failed = unreadable = 0
    for number, line in enumerate(lines, 1):
        if not line or line.startswith("#"):
            continue
        try:
            failed += not mark_line(line)
            marked += 1
        except Unreadable:
            print("line %d: unreadable" % number)
            unreadable += 1
    print("%d answers marked, %d marks not as expected, %d lines unreadable" % (marked, failed, unreadable))
    return 1 if failed or unreadable or not marked else 0


if __name__ == "__main__":
    sys.exit(main())
