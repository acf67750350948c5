/*
 * Cutting, for the C program: a square, a pentagon and a part of 7 corners with angles and
 * without, refused sheets and numbers, outputs that are too short, halves that are joined
 * again, and parts of 1,024 corners.
 */
#ifndef BEND_TESTS_CUT_H
#define BEND_TESTS_CUT_H

#include "bend.h"
#include "check.h"
#include "join.h"

#include <string.h>

/* The two results that are due. */
struct halves {
    struct lent inner, rest;
};

/*
 * Cuts the sheet into twice 24 bytes of 0xaa, of which `inner_lent` and `rest_lent` are
 * lent. The number must be given and, if it is 0, both halves written, else nothing.
 */
static void cut(const char *name, struct lent sheet, size_t a, size_t b, size_t inner_lent,
                size_t rest_lent, unsigned number, struct halves due)
{
    uint8_t outs[2][24];
    uint8_t expected[2][24];
    uint64_t answer;

    memset(outs, 0xaa, sizeof outs);
    memset(expected, 0xaa, sizeof expected);
    if (number == 0) {
        memcpy(expected[0], due.inner.bytes, due.inner.len);
        memcpy(expected[1], due.rest.bytes, due.rest.len);
    }
    answer = bend_cut(sheet.bytes, sheet.len, a, b, outs[0], inner_lent, outs[1], rest_lent);
    check(name, bend_number(answer) == number
                    && bend_inner_length(answer) == (number == 0 ? due.inner.len : 0)
                    && bend_rest_length(answer) == (number == 0 ? due.rest.len : 0)
                    && answer >> 48 == 0 && memcmp(outs, expected, sizeof outs) == 0);
}

/* A square along its diagonal, with an angle and bit 2 and without: two triangles. */
static void cut_square(void)
{
    static const uint8_t three[3] = {1, 0, 3};
    static const uint8_t plain[7] = {3, 0, 4, 0, 2, 0, 0};
    static const uint8_t bent[13] = {0x0f, 0, 4, 0, 2, 0, 0, 0, 0, 0, 9, 0x07, 0x08};
    static const uint8_t overbent[9] = {0x0b, 0, 4, 0, 2, 0, 0, 0x07, 0x09};
    static const uint8_t empty[1] = {0};
    const struct lent square = {plain, 7}, bent_square = {bent, 13}, over = {overbent, 9};
    const struct lent cut_short = {plain, 6}, none = {empty, 0}, triangle = {three, 3};
    const struct halves due = {triangle, triangle};
    const size_t far = (size_t)-1;

    cut("cut, square", square, 0, 2, 24, 24, 0, due);
    cut("cut, square, higher corner first", square, 2, 0, 24, 24, 0, due);
    cut("cut, square, room for the results", square, 0, 2, 3, 3, 0, due);
    cut("cut, square, inner too short", square, 0, 2, 2, 24, 8, due);
    cut("cut, square, rest too short", square, 0, 2, 24, 2, 8, due);
    cut("cut, square, both too short", square, 0, 2, 2, 2, 8, due);
    cut("cut, square, no outputs", square, 0, 2, 0, 0, 8, due);
    cut("cut, square, angle and bit 2", bent_square, 0, 2, 3, 3, 0, due);
    cut("cut, first corner n", square, 4, 2, 0, 0, 9, due);
    cut("cut, second corner n", square, 0, 4, 24, 24, 9, due);
    cut("cut, corners far away", square, far, far - 1, 24, 0, 9, due);
    cut("cut, a side", square, 1, 2, 24, 24, 13, due);
    cut("cut, the root", square, 0, 3, 0, 24, 13, due);
    cut("cut, equal corners", square, 2, 2, 24, 0, 13, due);
    cut("cut, another diagonal", square, 1, 3, 0, 0, 13, due);
    cut("cut, a triangle", triangle, 0, 2, 24, 24, 13, due);
    cut("cut, angle out of range", over, far, 0, 0, 0, 23, due);
    cut("cut, sheet cut short", cut_short, 0, 2, 24, 24, 2, due);
    cut("cut, no sheet", none, 1, 2, 24, 24, 1, due);
}

/* A pentagon with (0,3) at -2 degrees and (0,2) at 1; the other diagonal keeps its angle. */
static void cut_pentagon(void)
{
    static const uint8_t bytes[15] = {0x0b, 0, 5, 0, 3, 0, 0, 0, 0, 0, 2, 0xff, 0xec, 0, 10};
    static const uint8_t three[3] = {1, 0, 3};
    static const uint8_t fours[2][9] = {{0x0b, 0, 4, 0, 0, 0, 2, 0xff, 0xec},
                                        {0x0b, 0, 4, 0, 0, 0, 2, 0, 10}};
    const struct lent pentagon = {bytes, 15}, triangle = {three, 3};
    const struct lent at_3 = {fours[0], 9}, at_2 = {fours[1], 9};
    const struct halves small_inner = {triangle, at_3}, small_rest = {at_2, triangle};

    cut("cut, pentagon, triangle and square", pentagon, 0, 2, 24, 24, 0, small_inner);
    cut("cut, pentagon, square and triangle", pentagon, 3, 0, 24, 24, 0, small_rest);
    cut("cut, pentagon, room for the results", pentagon, 0, 2, 3, 9, 0, small_inner);
    cut("cut, pentagon, the other's room", pentagon, 0, 2, 9, 3, 8, small_inner);
    cut("cut, pentagon, an angle too short", pentagon, 0, 3, 8, 24, 8, small_rest);
}

/* Corners 1 to 4 of 7, and the rest; joined again the part is in order, the seam at 0. */
static void cut_and_joined(void)
{
    static const uint8_t bytes[27] = {0x0b, 0, 7, 0, 2, 0, 4, 0, 0, 0, 5, 0, 4, 0, 0, 0, 1,
                                      0, 4, 0x07, 0x08, 0, 0, 0xf8, 0xf8, 0, 1};
    static const uint8_t four[9] = {0x0b, 0, 4, 0, 1, 0, 3, 0x07, 0x08};
    static const uint8_t five[15] = {0x0b, 0, 5, 0, 0, 0, 2, 0, 0, 0, 3, 0xf8, 0xf8, 0, 0};
    static const uint8_t again[27] = {0x0b, 0, 7, 0, 0, 0, 4, 0, 0, 0, 5, 0, 1, 0, 4, 0, 2,
                                      0, 4, 0xf8, 0xf8, 0, 0, 0, 0, 0x07, 0x08};
    const struct lent seven = {bytes, 27}, inner = {four, 9}, rest = {five, 15};
    const struct lent whole = {again, 27};
    const struct halves due = {inner, rest};

    cut("cut, 7 corners", seven, 1, 4, 24, 24, 0, due);
    cut("cut, 7 corners, room for the results", seven, 4, 1, 9, 15, 0, due);
    cut("cut, 7 corners, rest a byte short", seven, 1, 4, 24, 14, 8, due);
    join("cut, 7 corners, joined again", rest, inner, 1, 28, 0, whole);
}

/*
 * Cuts a fan of 1,024 corners from corner 0 to b. Both halves are fans of one level, as
 * the whole is, and joined again they give it byte for byte.
 */
static void cut_fan(const char *name, unsigned b)
{
    static uint8_t fan[4087], halves[2][4087], due[2][4087], again[4088];
    size_t len = make_fan(fan, 1024);
    size_t inner_len = make_fan(due[0], b + 1), rest_len = make_fan(due[1], 1025 - b);
    uint64_t answer = bend_cut(fan, len, b, 0, halves[0], inner_len, halves[1], rest_len);

    check(name, bend_number(answer) == 0 && bend_inner_length(answer) == inner_len
                    && bend_rest_length(answer) == rest_len
                    && memcmp(halves[0], due[0], inner_len) == 0
                    && memcmp(halves[1], due[1], rest_len) == 0);
    check(name, bend_levels(bend_plan(halves[0], inner_len)) == 1
                    && bend_levels(bend_plan(halves[1], rest_len)) == 1);
    answer = bend_join(halves[1], rest_len, halves[0], inner_len, 0, again, sizeof again);
    check(name, bend_length(answer) == len && memcmp(again, fan, len) == 0);
}

static void cuts(void)
{
    cut_square();
    cut_pentagon();
    cut_and_joined();
    cut_fan("cut, 1,024 corners, in the middle", 512);
    cut_fan("cut, 1,024 corners, a triangle off", 2);
    cut_fan("cut, 1,024 corners, a triangle left", 1022);
}

#endif
