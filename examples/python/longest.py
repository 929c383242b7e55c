"""longest: prints a code with the greatest period of some counts of points, and that period; and what is told of greater counts and of shorter buffers."""

import lethmuok


def print_longest(n, room):
    try:
        code, period = lethmuok.greatest_period(n, room)
        answer = "period %d, code %s" % (period, " ".join(map(str, code)))
    except lethmuok.Refused as refusal:
        answer = "refused %d" % refusal.cause
    print("%d points, %d bytes: %s" % (n, room, answer))


# of 0, 5, 7, 30 and 120 points only one code has the greatest period; that of 120 takes more than 32 bits
for n in (0, 5, 7, 30, 120, 121, 201):
    print_longest(n, 1000)
# the room is told last, and of the shortest code too
for n in (0, 120, 121, 201):
    print_longest(n, 999)
