/*
 * Lethmuok: codes of mapping patterns, for callers in C and C++.
 *
 * A map of n points, n at most 200, is a table of n bytes: byte i is the image of point i, points counted from 0. A code is the written code of a
 * pattern; 1,000 bytes hold every code. A digraph6 line is a map as nauty's description of its formats has it, without header and newline; 6,672 bytes hold
 * every line.
 *
 * Replies. Every function answers one number, an int64_t, but for lethmuok_page and lethmuok_greatest_period, which answer two of them; test a number for less
 * than 0 before it becomes a size_t. 0 or more is what the function's comment says. It is never more than 1,000, but for the length of a digraph6 line, which is
 * never more than 6,672, for the bytes of a page, never more than 1,000,000, and for numbers that may need more than 32 bits: what lethmuok_table_count answers
 * is never more than 1,307,674,368,000, and a period, by lethmuok_period or lethmuok_greatest_period, never more than 5,354,228,880. From -1 to -99 it is a
 * refusal, minus the number of its cause; where there are two numbers it stands in both. -100, -101 and -102 are answers too, and no refusals. A result fills
 * the first places of its buffer, and every other byte of every buffer is kept; with a negative reply all of them are.
 *
 * Buffers. Each is a pointer and a count of bytes, all of which must be there to be read, and in an output to be written.
 * - No pointer may be null, not even where the count is 0: for a table of no points, or to lend no room, pass the address of any object and the count 0.
 * - An output may overlap no other buffer of the same call, neither an input nor another output. Inputs may overlap, or be the same.
 * Nothing else is asked of a caller: bytes and counts may be any, and what is no map, no code or no line is refused.
 *
 * Stack. A call takes less than 64 KB: the most that was measured is 28 KB, by lethmuok_sum and lethmuok_product (tests/stack/run measures it).
 *
 * No function allocates memory, keeps a pointer or has a state of its own. All may run at the same time, on outputs of their own.
 */
#ifndef LETHMUOK_H
#define LETHMUOK_H

#include <stddef.h>
#include <stdint.h>

#ifdef __cplusplus
extern "C" {
#endif

/* The negative replies: the causes of refusal, and the three that are no refusals. */
enum {
    LETHMUOK_COUNT = -1,            /* a count of points, or the length of a table, is above 200 */
    LETHMUOK_IMAGE = -2,            /* a byte of a table is no point */
    LETHMUOK_TRUNCATED = -3,        /* the bytes end before the code does */
    LETHMUOK_NUMBER_FORM = -4,      /* a number of two bytes has a wrong second byte */
    LETHMUOK_SIZES = -5,            /* the sizes in a code do not fit each other */
    LETHMUOK_NOT_CANONICAL = -6,    /* the sizes fit, but this is not the code of the pattern */
    LETHMUOK_TRAILING = -7,         /* there are numbers after the code */
    LETHMUOK_ROOM = -8,             /* the output is shorter than the result; for lethmuok_greatest_period, than 1,000 bytes */
    LETHMUOK_POSITION = -9,         /* the code has no component at that position */
    LETHMUOK_WANTED = -10,          /* more than 1,000 codes are wanted */
    LETHMUOK_TOO_LARGE = -11,       /* the result has more than 200 points */
    LETHMUOK_UNCOUNTED = -12,       /* the code has more than 15 points, and its tables are not counted */
    LETHMUOK_TOO_MANY_POINTS = -13, /* a count of points, or the length of a table, is above 120, and no period is told */
    LETHMUOK_LINE_FORM = -14,       /* the bytes are no digraph6 line in the required form */
    LETHMUOK_OUT_DEGREE = -15,      /* a row of a digraph6 line has not exactly one mark, so it is no map */
    LETHMUOK_LAST = -100,           /* no code follows in the list */
    LETHMUOK_NONE = -101,           /* there is no isomorphism */
    LETHMUOK_FIRST = -102           /* no code comes before in the list */
};

/* What always suffices: points of a map, bytes of a code, bytes of a digraph6 line, entries of a census. The most codes that may be wanted of a page, which
 * LETHMUOK_MAX_WANTED times LETHMUOK_MAX_CODE bytes always hold. The most points of a code whose tables are counted, and of which a period is told: that of a
 * map, or the greatest. */
enum {
    LETHMUOK_MAX_POINTS = 200,
    LETHMUOK_MAX_CODE = 1000,
    LETHMUOK_MAX_LINE = 6672,
    LETHMUOK_MAX_ENTRIES = 19,
    LETHMUOK_MAX_WANTED = 1000,
    LETHMUOK_MAX_COUNTED = 15,
    LETHMUOK_MAX_PERIOD_POINTS = 120
};

/* The reply of lethmuok_page: how many codes it wrote, and how many bytes they take together. A refusal stands in both. */
typedef struct {
    int64_t codes;
    int64_t bytes;
} lethmuok_page_reply;

/* The reply of lethmuok_greatest_period: the length of the code that it wrote, and the period of that code's maps. A refusal stands in both. */
typedef struct {
    int64_t length;
    int64_t period;
} lethmuok_greatest_reply;

/* Whether these bytes are a code; answers its number of points. A code may be read again after each byte that is typed: where the answer is LETHMUOK_NUMBER_FORM it
 * stays so, whatever bytes follow. */
int64_t lethmuok_accept(const uint8_t *code, size_t code_len);

/* Writes the first code in the list of n points; answers its length. */
int64_t lethmuok_first(size_t n, uint8_t *out, size_t out_len);

/* Writes the code that follows in the list; answers its length, or LETHMUOK_LAST. */
int64_t lethmuok_successor(const uint8_t *code, size_t code_len, uint8_t *out, size_t out_len);

/* Writes the code that comes before in the list; answers its length, or LETHMUOK_FIRST. */
int64_t lethmuok_predecessor(const uint8_t *code, size_t code_len, uint8_t *out, size_t out_len);

/* Writes the codes that follow in the list, one after another with nothing between them, as many as are wanted, or fewer where the list ends. LETHMUOK_WANTED is
 * told before every fault of the code; where the whole page does not fit, nothing is written, and LETHMUOK_ROOM is told after them all. */
lethmuok_page_reply lethmuok_page(const uint8_t *code, size_t code_len, size_t wanted, uint8_t *out, size_t out_len);

/* Writes the code of a map; answers its length. */
int64_t lethmuok_code_of_map(const uint8_t *table, size_t n, uint8_t *out, size_t out_len);

/* Writes the table of a map that has this code; answers its number of points. */
int64_t lethmuok_map_of_code(const uint8_t *code, size_t code_len, uint8_t *out, size_t out_len);

/* Writes the digraph6 line of the map that lethmuok_map_of_code writes; answers its length. The code's own checks come first, then LETHMUOK_ROOM. */
int64_t lethmuok_digraph6_of_code(const uint8_t *code, size_t code_len, uint8_t *out, size_t out_len);

/* Writes the code of the map that a digraph6 line is of; answers its length. The line has no header and no newline, and its size has the shortest form.
 * LETHMUOK_LINE_FORM comes first, for a line that is empty or does not start with &, then for a size that is cut short or has a byte outside of the format. Then
 * LETHMUOK_COUNT, for a count above 200 in any form of the size. Then LETHMUOK_LINE_FORM, for a longer form than needed, then for a wrong length, a byte outside
 * of the format or a padding bit that is set. Then LETHMUOK_OUT_DEGREE, and LETHMUOK_ROOM is told after them all. */
int64_t lethmuok_code_of_digraph6(const uint8_t *line, size_t line_len, uint8_t *out, size_t out_len);

/* Writes the code of two systems side by side; answers its length. The checks of the first code come before those of the second, then LETHMUOK_TOO_LARGE, and
 * LETHMUOK_ROOM is told after them all. Both inputs may be the same buffer. */
int64_t lethmuok_sum(const uint8_t *first, size_t first_len, const uint8_t *second, size_t second_len, uint8_t *out, size_t out_len);

/* Writes the code of the system whose points are pairs, each half moving by the map of its own code; answers its length. The checks are those of lethmuok_sum, in the
 * same order. */
int64_t lethmuok_product(const uint8_t *first, size_t first_len, const uint8_t *second, size_t second_len, uint8_t *out, size_t out_len);

/* Writes a table r with r(f(x)) = g(r(x)) for every point x, in which every point stands once; answers the number of points, or LETHMUOK_NONE. */
int64_t lethmuok_isomorphism(const uint8_t *f, size_t f_len, const uint8_t *g, size_t g_len, uint8_t *out, size_t out_len);

/* Writes the cycle lengths that occur into `lengths`, rising, and the number of cycles of each beside it into `counts`; answers how many lengths occur. */
int64_t lethmuok_census(const uint8_t *table, size_t n, uint8_t *lengths, size_t lengths_len, uint8_t *counts, size_t counts_len);

/* The greatest distance of a point of a map from its cycle. */
int64_t lethmuok_height(const uint8_t *table, size_t n);

/* The period of a map, which may have LETHMUOK_MAX_PERIOD_POINTS points: the least p of at least 1 such that, once every point is on a cycle, p further steps bring each
 * point back. That is the least common multiple of the cycle lengths, 6 for cycles of 2 and 3, and 1 for no points; it is never more than 5,354,228,880. The papers call
 * it round length. LETHMUOK_COUNT comes first, then LETHMUOK_TOO_MANY_POINTS, then LETHMUOK_IMAGE. */
int64_t lethmuok_period(const uint8_t *table, size_t n);

/* Writes a code of n points with the greatest period, n at most LETHMUOK_MAX_PERIOD_POINTS, and tells that period: no map of n points has a greater one. It is
 * 6 for 5 points, 12 for 7, 1 for none, and 5,354,228,880 for 120. Which code it is, where several have it, is left open. LETHMUOK_COUNT comes first, then
 * LETHMUOK_TOO_MANY_POINTS, then LETHMUOK_ROOM, which is told of every output of fewer than LETHMUOK_MAX_CODE bytes, however short the code is. */
lethmuok_greatest_reply lethmuok_greatest_period(size_t n, uint8_t *out, size_t out_len);

/* Where the bytes of the component at a position, counted from 0, begin in a code; and where they end, which is the place after the last of them. */
int64_t lethmuok_component_start(const uint8_t *code, size_t code_len, size_t position);
int64_t lethmuok_component_end(const uint8_t *code, size_t code_len, size_t position);

/* How many of its rotations equal the component at a position. A rotation moves the first trees along the cycle to the end; of k trees there are k rotations, the
 * component itself being one, so the answer is from 1 to k: 3 for the component 3 1 1 1, and 1 for 2 1 2 1. The refusals are those of lethmuok_component_start. */
int64_t lethmuok_component_turns(const uint8_t *code, size_t code_len, size_t position);

/* How many tables have this code, which may have LETHMUOK_MAX_COUNTED points: of n points from 1 to n!, which for 15 points is 1,307,674,368,000. Over all codes of
 * n points these numbers make n to the power n. The code's own checks come first, then LETHMUOK_UNCOUNTED. */
int64_t lethmuok_table_count(const uint8_t *code, size_t code_len);

#ifdef __cplusplus
}
#endif

#endif
