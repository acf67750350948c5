/*
 * Calls the library from C as the header declares it: the triangle's sheet is
 * set in order, without bit 2 and with it, sheets are refused, and a list of
 * edits is run on it, refused, and run with no edit taken. It is drawn, and charts
 * of it are read, with an empty row and without. A square with an angle is set in
 * order, turned, planned, drawn and edited. On the chart of a part with 7 corners
 * the nearest bar is asked for. Parts are drawn on labels, joined, and cut. The last line
 * is `N passed, M failed`; the exit status is 1 if any check failed.
 */
#include "bend.h"
#include "check.h"
#include "cut.h"
#include "join.h"
#include "label.h"

#include <stdio.h>
#include <string.h>

/* Sets the sheet in order into four bytes of 0xaa, of which `lent` are lent. */
static void normalize(const char *name, const uint8_t *sheet, size_t sheet_len,
                      size_t lent, unsigned number, const uint8_t expected[4])
{
    uint8_t out[4] = {0xaa, 0xaa, 0xaa, 0xaa};
    uint64_t answer = bend_normalize(sheet, sheet_len, out, lent);

    check(name, bend_number(answer) == number
                    && bend_length(answer) == (number == 0 ? 3u : 0u)
                    && memcmp(out, expected, sizeof out) == 0);
}

/*
 * Runs on a triangle: a corner added on side 0, one that cannot be taken off,
 * and the new diagonal turned. Each edit lends `lent` bytes of 7.
 */
static void run_edits(const char *name, const uint8_t *first, size_t first_len,
                      uint8_t lent, uint64_t answer,
                      const uint8_t expected[3][7])
{
    const uint8_t list[39] = {
        0, 0, 0, 0, 0, 0, 0, 0, 0, 0, 0, 0, lent,
        1, 0, 0, 0, 0, 0, 0, 0, 0, 0, 0, 0, lent,
        2, 0, 0, 0, 2, 0, 0, 0, 0, 0, 0, 0, lent};
    uint8_t outs[3][7];
    uint64_t found;

    memset(outs, 0xaa, sizeof outs);
    found = bend_run_edits(first, first_len, list, sizeof list,
                           outs[0], 7, outs[1], 7, outs[2], 6);
    check(name, bend_number(found) == bend_number(answer)
                    && bend_place(found) == bend_place(answer)
                    && bend_left(found) == bend_left(answer)
                    && memcmp(outs, expected, sizeof outs) == 0);
}

/* A square with (2,0) at 45 degrees, and the same without its angle. */
static const uint8_t square[9] = {0x0b, 0, 4, 0, 2, 0, 0, 0x01, 0xc2};
static const uint8_t plain_square[7] = {0x03, 0, 4, 0, 2, 0, 0};

/*
 * Sets the sheet of a square in order, or turns its diagonal (0,2), into ten bytes
 * of 0xaa, of which `lent` are lent.
 */
static void bend_square(const char *name, int turn, const uint8_t *sheet,
                        size_t sheet_len, size_t lent, unsigned number,
                        const uint8_t expected[10])
{
    uint8_t out[10];
    uint64_t answer;

    memset(out, 0xaa, sizeof out);
    answer = turn ? bend_flip(sheet, sheet_len, 0, 2, out, lent)
                  : bend_normalize(sheet, sheet_len, out, lent);
    check(name, bend_number(answer) == number
                    && bend_length(answer) == (number == 0 ? 9u : 0u)
                    && memcmp(out, expected, sizeof out) == 0);
}

static void angles(void)
{
    static const uint8_t numbered[13] = {0x0f, 0, 4, 0, 2, 0, 0,
                                         0, 0, 0, 9, 0x01, 0xc2};
    static const uint8_t overbent[9] = {0x0b, 0, 4, 0, 2, 0, 0, 0x07, 0x09};
    static const uint8_t ordered[10] = {0x0b, 0, 4, 0, 0, 0, 2, 0x01, 0xc2, 0xaa};
    static const uint8_t turned[10] = {0x0b, 0, 4, 0, 1, 0, 3, 0, 0, 0xaa};
    uint8_t untouched[10];

    memset(untouched, 0xaa, sizeof untouched);
    bend_square("angle", 0, square, 9, 10, 0, ordered);
    bend_square("angle, room for the result", 0, square, 9, 9, 0, ordered);
    bend_square("angle, output too short", 0, square, 9, 8, 8, untouched);
    bend_square("angle and bit 2", 0, numbered, 13, 9, 0, ordered);
    bend_square("angle missing", 0, square, 7, 10, 2, untouched);
    bend_square("angle out of range", 0, overbent, 9, 10, 23, untouched);
    bend_square("angle turned", 1, square, 9, 10, 0, turned);
    bend_square("angle turned, output too short", 1, square, 9, 8, 8, untouched);
    bend_square("angle out of range, turned", 1, overbent, 9, 0, 23, untouched);
}

/* The plan and the chart do not depend on the angle. */
static void same_chart(void)
{
    uint8_t charts[2][100];
    uint64_t drawn[2];

    memset(charts, 0xaa, sizeof charts);
    drawn[0] = bend_draw(square, sizeof square, charts[0], 100);
    drawn[1] = bend_draw(plain_square, sizeof plain_square, charts[1], 100);
    check("chart with an angle", bend_number(drawn[0]) == 0 && drawn[0] == drawn[1]
                                     && memcmp(charts[0], charts[1], 100) == 0);
    check("plan with an angle", bend_plan(square, sizeof square)
                                    == bend_plan(plain_square, sizeof plain_square));
}

/*
 * The triangle is drawn with 2 rows. Its chart by document 01's places, which has 3
 * and no bar on row 1, is read as the same part.
 */
static void rows(void)
{
    static const uint8_t triangle[3] = {1, 0, 3};
    static const uint8_t drawn[44] = {
        0, 2, 0, 2, 0, 3, 0, 0, 0, 0, 0, 0, 0, 1, 0, 0, 0, 1, 0, 0, 0, 1,
        0, 1, 1, 0, 0, 0, 1, 0, 0, 0, 0, 0, 0, 2, 1, 0, 1, 0, 2, 0, 1, 0xaa};
    uint8_t chart[44];
    uint8_t placed[43];
    uint8_t back[2][3] = {{0, 0, 0}, {0, 0, 0}};
    uint64_t answer;

    memset(chart, 0xaa, sizeof chart);
    answer = bend_draw(triangle, sizeof triangle, chart, sizeof chart);
    check("triangle drawn", bend_number(answer) == 0 && bend_length(answer) == 43
                                && memcmp(chart, drawn, sizeof chart) == 0);
    memcpy(placed, drawn, sizeof placed);
    placed[1] = 3;
    placed[13] = 2;
    check("chart read", bend_number(bend_read_chart(drawn, 43, back[0], 3)) == 0
                            && memcmp(back[0], triangle, 3) == 0);
    check("chart with an empty row read",
          bend_number(bend_read_chart(placed, 43, back[1], 3)) == 0
              && memcmp(back[1], triangle, 3) == 0);
}

/*
 * Asks for the nearest bar from the first cell to the second, each a row and a
 * column. `found` is its corner and one, or 0.
 */
static void nearest_bar(const char *name, const uint8_t *chart, size_t chart_len,
                        const size_t first[2], const size_t second[2],
                        unsigned number, unsigned found)
{
    uint64_t answer = bend_nearest_bar(chart, chart_len, first[0], first[1],
                                       second[0], second[1]);

    check(name, bend_number(answer) == number && bend_corner(answer) == found
                    && answer >> 32 == 0);
}

/*
 * The corners whose bars cover the cells of the chart that is drawn:
 *
 *    0 0 0 0 0 0 6
 *    - 2 3 3 4 - -
 *    1 1 1 5 5 5 5
 */
static void nearest_bars(void)
{
    static const uint8_t seven[19] = {3, 0, 7, 0, 0, 0, 5, 0, 1, 0, 3,
                                      0, 1, 0, 5, 0, 3, 0, 5};
    static const size_t left[2] = {1, 0}, right[2] = {1, 6};
    static const size_t over_3[2] = {0, 3}, under_3[2] = {2, 3};
    static const size_t over_5[2] = {0, 5}, under_5[2] = {2, 5};
    static const size_t at_4[2] = {1, 4}, at_2[2] = {1, 2};
    static const size_t below[2] = {3, 0}, beside[2] = {1, 7};
    static const size_t far[2] = {1, (size_t)-1};
    uint8_t chart[118];
    size_t length;

    memset(chart, 0xaa, sizeof chart);
    length = bend_length(bend_draw(seven, sizeof seven, chart, sizeof chart));
    check("seven corners drawn", length == 117 && chart[117] == 0xaa);
    nearest_bar("from the left", chart, length, left, right, 0, 2 + 1);
    nearest_bar("from the right", chart, length, right, left, 0, 4 + 1);
    nearest_bar("from a bar's own cell", chart, length, at_2, right, 0, 3 + 1);
    nearest_bar("back to a bar's own cell", chart, length, at_4, at_2, 0, 3 + 1);
    nearest_bar("downwards", chart, length, over_3, under_3, 0, 3 + 1);
    nearest_bar("upwards", chart, length, under_3, over_3, 0, 3 + 1);
    nearest_bar("none in a row", chart, length, at_4, right, 0, 0);
    nearest_bar("none in a column", chart, length, over_5, under_5, 0, 0);
    nearest_bar("none, one cell", chart, length, at_2, at_2, 0, 0);
    nearest_bar("cells of no row or column", chart, length, over_3, right, 9, 0);
    nearest_bar("cell below the rows", chart, length, left, below, 9, 0);
    nearest_bar("cell right of the columns", chart, length, beside, left, 9, 0);
    nearest_bar("cell far away", chart, length, left, far, 9, 0);
    nearest_bar("chart cut short", chart, length - 1, left, far, 14, 0);
    nearest_bar("chart with a byte more", chart, length + 1, left, right, 14, 0);
    chart[7] = 3; /* corner 0's row */
    nearest_bar("bar below the rows", chart, length, left, right, 15, 0);
    nearest_bar("bar below the rows, cell far away", chart, length, left, far, 15, 0);
}

/* A corner off and one on again, through a triangle: no angle is left. */
static void through_a_triangle(void)
{
    static const uint8_t list[26] = {1, 0, 0, 0, 1, 0, 0, 0, 0, 0, 0, 0, 3,
                                     0, 0, 0, 0, 2, 0, 0, 0, 0, 0, 0, 0, 7};
    static const uint8_t expected[3][7] = {{1, 0, 3, 0xaa, 0xaa, 0xaa, 0xaa},
                                           {3, 0, 4, 0, 0, 0, 2},
                                           {0, 0, 0, 0, 0xaa, 0xaa, 0xaa}};
    uint8_t outs[3][7];
    uint64_t found;

    memset(outs, 0xaa, sizeof outs);
    found = bend_run_edits(square, sizeof square, list, sizeof list,
                           outs[0], 7, outs[1], 7, outs[2], 4);
    check("list through a triangle", bend_number(found) == 0 && bend_place(found) == 2
                                         && bend_left(found) == 7
                                         && memcmp(outs, expected, sizeof outs) == 0);
}

int main(void)
{
    static const uint8_t triangle[] = {0x01, 0x00, 0x03};
    static const uint8_t two_corners[] = {0x01, 0x00, 0x02};
    /* bit 3, which a triangle cannot have */
    static const uint8_t angled[] = {0x09, 0x00, 0x03, 0x00, 0x00};
    /* bit 2, whose four bytes are skipped */
    static const uint8_t numbered[] = {0x05, 0x00, 0x03, 0x00, 0x00, 0x00, 0x09};
    static const uint8_t written[4] = {0x01, 0x00, 0x03, 0xaa};
    static const uint8_t untouched[4] = {0xaa, 0xaa, 0xaa, 0xaa};
    static const uint8_t run[3][7] = {{3, 0, 4, 0, 0, 0, 2},
                                      {3, 0, 4, 0, 1, 0, 3},
                                      {0, 0, 0, 12, 0, 0, 0xaa}};
    uint8_t not_run[3][7];
    uint8_t none_taken[3][7];

    normalize("triangle", triangle, sizeof triangle, 4, 0, written);
    normalize("two corners", two_corners, sizeof two_corners, 4, 3, untouched);
    normalize("one byte", triangle, 1, 4, 2, untouched);
    normalize("output too short", triangle, sizeof triangle, 2, 8, untouched);
    normalize("bit 2", numbered, sizeof numbered, 4, 0, written);
    normalize("bit 2, room for the result", numbered, sizeof numbered, 3, 0, written);
    normalize("bit 2, output too short", numbered, sizeof numbered, 2, 8, untouched);
    normalize("bit 2 without its bytes", numbered, 3, 4, 2, untouched);
    normalize("bit 2, a byte short", numbered, 6, 4, 2, untouched);
    normalize("bit 3 of a triangle", angled, 3, 4, 23, untouched);
    normalize("bit 3 of a triangle, output too short", angled, 3, 0, 23, untouched);
    normalize("bit 3 of a triangle with two bytes", angled, 5, 4, 2, untouched);
    angles();
    same_chart();
    rows();
    nearest_bars();
    labels();
    joins();
    cuts();
    through_a_triangle();

    memset(not_run, 0xaa, sizeof not_run);
    run_edits("list run", triangle, sizeof triangle, 7, (uint64_t)7 << 32 | 2 << 16, run);
    run_edits("list that lends too much", triangle, sizeof triangle, 8, 35,
              (const uint8_t(*)[7])not_run);
    run_edits("list run, bit 2", numbered, sizeof numbered, 7, (uint64_t)7 << 32 | 2 << 16, run);

    /* a byte short of the result: 8, 11, 13, and the first sheet is the one left */
    memcpy(none_taken, not_run, sizeof none_taken);
    memcpy(none_taken[2], "\0\10\0\13\0\15", 6);
    run_edits("no edit taken, bit 2", numbered, sizeof numbered, 6, 0,
              (const uint8_t(*)[7])none_taken);
    printf("%d passed, %d failed\n", passed, failed);
    return failed > 0;
}
