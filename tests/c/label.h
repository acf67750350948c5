/*
 * Draw on a label, for the C program: the triangle, refused sheets, and parts of 511
 * and 512 corners on either side of the limit.
 */
#ifndef BEND_TESTS_LABEL_H
#define BEND_TESTS_LABEL_H

#include "bend.h"
#include "check.h"

#include <string.h>

/* A sheet of up to 512 corners in the making. */
static uint8_t large[3 + 4 * 509];
static size_t large_len;

static void put_pair(unsigned a, unsigned b)
{
    const uint8_t pair[4] = {(uint8_t)(a / 256), (uint8_t)a, (uint8_t)(b / 256), (uint8_t)b};

    memcpy(large + large_len, pair, sizeof pair);
    large_len += sizeof pair;
}

/*
 * Puts the edges of a piece (u,v) that has the levels and as few corners as they need,
 * (u,v) last, and gives v: a triangle, or two such pieces of one level less side by
 * side, (u + 1,x) and (x,v - 1), and diagonals from u + 1.
 */
static unsigned put_piece(unsigned u, unsigned levels)
{
    unsigned v = u + 2;

    if (levels > 1) {
        v = put_piece(put_piece(u + 1, levels - 1), levels - 1) + 1;
        put_pair(u + 1, v - 1);
        put_pair(u + 1, v);
    }
    put_pair(u, v);
    return v;
}

/*
 * Makes the sheet of a part of 8 levels. Of 511 corners it is such a piece, whose chart
 * has 15 rows; with one more there is a triangle before it, and 16 rows.
 */
static void make_large(unsigned corners)
{
    large[0] = 3;
    large[1] = (uint8_t)(corners / 256);
    large[2] = (uint8_t)corners;
    large_len = 3;
    put_piece(0, 8);
    if (corners == 511)
        large_len -= 4;
}

/*
 * Draws the sheet on a label and on the tape into bytes of 0xaa, of which `lent` are
 * lent. The label must give the number; if it is 19, the tape still draws, else both
 * give and write the same. Refused, the label changes no byte.
 */
static void draw_both(const char *name, const uint8_t *sheet, size_t sheet_len,
                      size_t lent, unsigned number)
{
    static uint8_t outs[3][10300];
    uint64_t label, tape;

    memset(outs, 0xaa, sizeof outs);
    label = bend_draw_label(sheet, sheet_len, outs[0], lent);
    tape = bend_draw(sheet, sheet_len, outs[1], lent);
    check(name, bend_number(label) == number
                    && (number == 0 || bend_length(label) == 0)
                    && (number == 19 ? bend_number(tape) == (lent ? 0 : 8) : label == tape)
                    && memcmp(outs[0], outs[number == 0 ? 1 : 2], sizeof outs[0]) == 0);
}

static void labels(void)
{
    static const uint8_t triangle[3] = {1, 0, 3};
    static const uint8_t two_corners[3] = {1, 0, 2};
    static const uint8_t overbent[9] = {0x0b, 0, 4, 0, 2, 0, 0, 0x07, 0x09};
    static uint8_t chart[10300];
    size_t length;

    draw_both("label, triangle", triangle, 3, 100, 0);
    draw_both("label, triangle, room for the result", triangle, 3, 43, 0);
    draw_both("label, triangle, output too short", triangle, 3, 42, 8);
    draw_both("label, two corners", two_corners, 3, 100, 3);
    draw_both("label, angle out of range", overbent, 9, 0, 23);

    make_large(511);
    length = bend_length(bend_draw(large, large_len, chart, sizeof chart));
    check("511 corners in 15 rows", length > 0 && chart[0] == 0 && chart[1] == 15);
    draw_both("label, 15 rows", large, large_len, sizeof chart, 0);
    draw_both("label, 15 rows, room for the result", large, large_len, length, 0);
    draw_both("label, 15 rows, output too short", large, large_len, length - 1, 8);

    make_large(512);
    length = bend_length(bend_draw(large, large_len, chart, sizeof chart));
    check("512 corners in 16 rows", length > 0 && chart[0] == 0 && chart[1] == 16);
    draw_both("label, 16 rows", large, large_len, sizeof chart, 19);
    draw_both("label, 16 rows, no output", large, large_len, 0, 19);
    draw_both("label, 16 rows, sheet cut short", large, large_len - 1, 0, 2);
}

#endif
