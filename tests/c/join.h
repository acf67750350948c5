/*
 * Joining, for the C program: triangles, a pentagon and a square with angles and
 * without, refused sheets and sides, one sheet as both, and parts that have 1,024
 * corners together or one more.
 */
#ifndef BEND_TESTS_JOIN_H
#define BEND_TESTS_JOIN_H

#include "bend.h"
#include "check.h"

#include <string.h>

/* A sheet that is lent, and its length. */
struct lent {
    const uint8_t *bytes;
    size_t len;
};

/*
 * Joins the sheets into 28 bytes of 0xaa, of which `lent` are lent. The number must be
 * given and, if it is 0, the result written, else nothing.
 */
static void join(const char *name, struct lent first, struct lent second, size_t side,
                 size_t lent, unsigned number, struct lent result)
{
    uint8_t out[28];
    uint8_t expected[28];
    uint64_t answer;

    memset(out, 0xaa, sizeof out);
    memset(expected, 0xaa, sizeof expected);
    if (number == 0)
        memcpy(expected, result.bytes, result.len);
    answer = bend_join(first.bytes, first.len, second.bytes, second.len, side, out, lent);
    check(name, bend_number(answer) == number
                    && bend_length(answer) == (number == 0 ? result.len : 0)
                    && memcmp(out, expected, sizeof out) == 0);
}

/* The pentagon with (0,3) and (0,2), the square with (1,3), joined on side 1. */
static void join_angles(void)
{
    static const uint8_t pentagon[15] = {0x0b, 0, 5, 0, 3, 0, 0, 0, 0, 0, 2,
                                         0xff, 0xec, 0, 10};
    static const uint8_t square[9] = {0x0b, 0, 4, 0, 3, 0, 1, 0x07, 0x08};
    static const uint8_t overbent[9] = {0x0b, 0, 4, 0, 3, 0, 1, 0x07, 0x09};
    static const uint8_t empty[1] = {0};
    uint8_t plain_pentagon[11], plain_square[7];
    uint8_t both[27] = {0x0b, 0, 7, 0, 0, 0, 4, 0, 0, 0, 5, 0, 1, 0, 4, 0, 2, 0, 4,
                        0, 10, 0xff, 0xec, 0, 0, 0x07, 0x08};
    uint8_t of_first[27], of_second[27], neither[19];
    /* (1,3) becomes (1,5) of the first and (2,4) of the second, the seam is (1,4) */
    static const uint8_t doubled[21] = {0x0b, 0, 6, 0, 1, 0, 4, 0, 1, 0, 5, 0, 2, 0, 4,
                                        0, 0, 0x07, 0x08, 0x07, 0x08};
    const struct lent bent_5 = {pentagon, 15}, bent_4 = {square, 9};
    const struct lent plain_5 = {plain_pentagon, 11}, plain_4 = {plain_square, 7};
    const struct lent over = {overbent, 9}, none = {empty, 0};
    const struct lent all = {both, 27}, without = {neither, 19};
    const struct lent one = {of_first, 27}, other = {of_second, 27};
    const struct lent twice = {doubled, 21};

    memcpy(plain_pentagon, pentagon, sizeof plain_pentagon);
    memcpy(plain_square, square, sizeof plain_square);
    plain_pentagon[0] = plain_square[0] = 3;
    memcpy(neither, both, sizeof neither);
    neither[0] = 3;
    memcpy(of_first, both, sizeof of_first);
    memset(of_first + 25, 0, 2);
    memcpy(of_second, both, sizeof of_second);
    memset(of_second + 19, 0, 6);

    join("join", plain_5, plain_4, 1, 28, 0, without);
    join("join, room for the result", plain_5, plain_4, 1, 19, 0, without);
    join("join, output too short", plain_5, plain_4, 1, 18, 8, none);
    join("join, angles in both", bent_5, bent_4, 1, 27, 0, all);
    join("join, angles in both, output too short", bent_5, bent_4, 1, 26, 8, none);
    join("join, angles in the first", bent_5, plain_4, 1, 27, 0, one);
    join("join, angles in the second", plain_5, bent_4, 1, 27, 0, other);
    join("join, root side", bent_5, bent_4, 4, 0, 9, none);
    join("join, side far away", bent_5, bent_4, (size_t)-1, 28, 9, none);
    join("join, first out of range", over, none, (size_t)-1, 0, 23, none);
    join("join, second out of range", bent_5, over, (size_t)-1, 0, 23, none);
    join("join, second empty", bent_5, none, 4, 0, 1, none);
    join("join, one sheet as both", bent_4, bent_4, 1, 28, 0, twice);
}

/* Makes the sheet of a part with all diagonals at corner 0, and gives its length. */
static size_t make_fan(uint8_t *fan, unsigned corners)
{
    size_t length = 3;
    unsigned b;

    fan[0] = corners > 3 ? 3 : 1;
    fan[1] = (uint8_t)(corners / 256);
    fan[2] = (uint8_t)corners;
    for (b = 2; b < corners - 1; b++) {
        fan[length++] = 0;
        fan[length++] = 0;
        fan[length++] = (uint8_t)(b / 256);
        fan[length++] = (uint8_t)b;
    }
    return length;
}

/*
 * Joins a fan of m corners on the last side before the root of one with n. Taken, the
 * result has 1,024 corners and one or two levels, as both have one.
 */
static void join_fans(const char *name, unsigned n, unsigned m, unsigned number)
{
    static uint8_t first[4087], second[4087], out[4088];
    size_t first_len = make_fan(first, n), second_len = make_fan(second, m);
    uint64_t answer;

    memset(out, 0xaa, sizeof out);
    answer = bend_join(first, first_len, second, second_len, n - 2, out, sizeof out);
    check(name, bend_number(answer) == number
                    && bend_length(answer) == (number == 0 ? 4087u : 0u)
                    && out[4087] == 0xaa && out[0] == (number == 0 ? 3 : 0xaa));
    if (number == 0) {
        unsigned levels = bend_levels(bend_plan(out, 4087));

        check(name, out[1] == 4 && out[2] == 0 && levels >= 1 && levels <= 2);
    }
}

static void joins(void)
{
    static const uint8_t bytes[3] = {1, 0, 3};
    static const uint8_t numbered[7] = {5, 0, 3, 0, 0, 0, 9};
    static const uint8_t squares[2][7] = {{3, 0, 4, 0, 0, 0, 2}, {3, 0, 4, 0, 1, 0, 3}};
    const struct lent triangle = {bytes, 3}, with_bit_2 = {numbered, 7};
    const struct lent on_0 = {squares[0], 7}, on_1 = {squares[1], 7};

    join("join, triangles on side 0", triangle, triangle, 0, 7, 0, on_0);
    join("join, triangles on side 1", triangle, triangle, 1, 7, 0, on_1);
    join("join, triangles on the root", triangle, triangle, 2, 7, 9, on_0);
    join("join, bit 2 in the first", with_bit_2, triangle, 0, 7, 0, on_0);
    join("join, bit 2 in the second", triangle, with_bit_2, 1, 7, 0, on_1);
    join("join, bit 2, output too short", with_bit_2, with_bit_2, 1, 6, 8, on_1);
    join_angles();
    join_fans("join, 1,023 corners and 3", 1023, 3, 0);
    join_fans("join, 1,022 corners and 4", 1022, 4, 0);
    join_fans("join, 513 corners and 513", 513, 513, 0);
    join_fans("join, 3 corners and 1,023", 3, 1023, 0);
    join_fans("join, 1,024 corners and 3", 1024, 3, 10);
    join_fans("join, 513 corners and 514", 513, 514, 10);
    join_fans("join, 1,024 corners and 1,024", 1024, 1024, 10);
}

#endif
