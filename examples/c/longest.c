/* longest: prints a code with the greatest period of some counts of points, and that period; and what is told of greater counts and of shorter buffers. */
#include <inttypes.h>
#include <stdio.h>

#include "lethmuok.h"

static void print_longest(size_t n, size_t room)
{
    uint8_t code[LETHMUOK_MAX_CODE];
    lethmuok_greatest_reply reply = lethmuok_greatest_period(n, code, room);
    printf("%zu points, %zu bytes: ", n, room);
    if (reply.length < 0) {
        printf("refused %d\n", (int)-reply.length);
        return;
    }
    printf("period %" PRId64 ", code", reply.period);
    for (int64_t i = 0; i < reply.length; i++)
        printf(" %d", code[i]);
    printf("\n");
}

int main(void)
{
    /* of 0, 5, 7, 30 and 120 points only one code has the greatest period; that of 120 takes more than 32 bits */
    print_longest(0, LETHMUOK_MAX_CODE);
    print_longest(5, LETHMUOK_MAX_CODE);
    print_longest(7, LETHMUOK_MAX_CODE);
    print_longest(30, LETHMUOK_MAX_CODE);
    print_longest(LETHMUOK_MAX_PERIOD_POINTS, LETHMUOK_MAX_CODE);
    print_longest(LETHMUOK_MAX_PERIOD_POINTS + 1, LETHMUOK_MAX_CODE);
    print_longest(LETHMUOK_MAX_POINTS + 1, LETHMUOK_MAX_CODE);
    /* the room is told last, and of the shortest code too */
    print_longest(0, LETHMUOK_MAX_CODE - 1);
    print_longest(LETHMUOK_MAX_PERIOD_POINTS, LETHMUOK_MAX_CODE - 1);
    print_longest(LETHMUOK_MAX_PERIOD_POINTS + 1, LETHMUOK_MAX_CODE - 1);
    print_longest(LETHMUOK_MAX_POINTS + 1, LETHMUOK_MAX_CODE - 1);
    return 0;
}
