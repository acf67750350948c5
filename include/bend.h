/*
 * Bend charts for triangulated sheet-metal parts: the operations, for C and C++.
 *
 * A part has n corners, 3 to 1,024, numbered from 0 round its outline, and is
 * cut into triangles by n - 3 diagonals. A sheet is a part in bytes; a chart is
 * its drawing in bytes.
 *
 * A sheet may still have bit 2 in its map byte, once the part number's, and four
 * bytes behind its pairs for it: they count for its length and are skipped. It has
 * the answers of the same sheet without both. No sheet that is written has bit 2.
 *
 * A sheet may have bit 3 and, as its last field, an angle for each pair in the
 * listed order: two bytes in two's complement, high byte first, tenths of a degree,
 * -1,800 to 1,800. An angle stays with its diagonal: the sheets that are written
 * have them in the order of their pairs. A new diagonal starts at 0; a sheet that
 * is written has bit 3 exactly if a sheet that is read has it and more than 3
 * corners are left, and diagonals that had no angle then start at 0. Nothing
 * planned or drawn depends on angles. The longest sheet has 6,133 bytes, the
 * longest that is written 6,129.
 *
 * Every function returns one number of 64 bits. Its low 16 bits are 0 if the
 * operation was done, or the number of the refusal:
 *
 *    1  the sheet is empty, or its map byte lacks bit 0 or has one of bits 4-7
 *    2  the sheet is under 3 bytes, or not exactly as long as its fields
 *    3  the corner count is outside 3 to 1,024
 *    4  bit 1 of the map byte disagrees with the corner count
 *    5  some pair is no diagonal: a side, equal corners, or a corner >= n
 *    6  a pair is repeated, either way round
 *    7  two diagonals cross
 *    8  the output is shorter than the result, or one of two outputs
 *    9  a side or corner that the call names is not below n, or the side to join
 *       on is the root; of two cells, one lies outside the chart, or they are not
 *       of one row or column
 *   10  the part has 1,024 corners and can take no more, or two joined would have
 *       more than 1,024
 *   11  the part is a triangle and can lose no corner
 *   12  a diagonal ends at the corner to be taken off
 *   13  the part lacks the diagonal to be turned or cut
 *   14  the chart has a wrong length, a corner count out of range, or one of
 *       bits 1-7 in a map byte
 *   15  a bar breaks its rule
 *   16  a stroke's corners or order are wrong, or its bars do not fit
 *   17  an upright passes through the gap of a level stroke
 *   18  the strokes lack a side of the part, or diagonals cross
 *   19  the chart has more than fifteen rows (bend_draw_label only)
 *   23  an angle is outside -1,800 to 1,800, or bit 3 stands with 3 corners
 *   32  the list's length is no multiple of 13
 *   33  the list has an edit of a kind above 2
 *   34  the output for the numbers is shorter than two bytes an edit
 *   35  an edit of the list lends more than one of the buffers has
 *
 * The first that applies, in the order given at each function, is returned; the
 * other bits are then 0 and no byte of any output is changed. If the operation
 * was done, the bytes of an output beyond its result stay as they were.
 *
 * The inputs are only read: two of them may be the same bytes, or overlap. No output
 * may overlap an input or another output. No pointer may be null, not even with a
 * length of 0.
 *
 * No function needs more than 128 KiB of stack, and none allocates memory. That
 * is measured (tests/c/stack.c, on parts of 1,024 corners) and not proved.
 */
#ifndef BEND_H
#define BEND_H

#include <stddef.h>
#include <stdint.h>

#ifdef __cplusplus
extern "C" {
#endif

/*
 * Set in order: writes the sheet in normal order, each pair lower corner first
 * and the pairs ascending, each angle with its pair, without bit 2. Gives the
 * length written, 3 + 4(n - 3), and 2(n - 3) more with angles.
 * Refusals: 1, 2, 3, 4, 2, 5, 6, 7, 23; 8.
 */
uint64_t bend_normalize(const uint8_t *sheet, size_t sheet_len,
                        uint8_t *out, size_t out_len);

/*
 * Add a corner on a side: the new corner side + 1 makes a triangle with the
 * side, which becomes a diagonal, with the angle 0 if the sheet has angles; higher
 * corners move up by one. Writes the new part's sheet in normal order and gives
 * its length.
 * Refusals: 1 to 7 and 23 as for bend_normalize; 9; 10; 8.
 */
uint64_t bend_add_ear(const uint8_t *sheet, size_t sheet_len, size_t side,
                      uint8_t *out, size_t out_len);

/*
 * Take off a corner at which no diagonal ends; higher corners move down by one. The
 * diagonal that becomes a side loses its angle. Writes the new part's sheet in
 * normal order, without bit 3 if it is a triangle's, and gives its length.
 * Refusals: 1 to 7 and 23 as for bend_normalize; 9; 11; 12; 8.
 */
uint64_t bend_remove_ear(const uint8_t *sheet, size_t sheet_len, size_t corner,
                         uint8_t *out, size_t out_len);

/*
 * Turn the diagonal between a and b, named in either order, to the other
 * diagonal of its two triangles, with the angle 0 if the sheet has angles. Writes
 * the new part's sheet in normal order and gives its length.
 * Refusals: 1 to 7 and 23 as for bend_normalize; 9; 13; 8.
 */
uint64_t bend_flip(const uint8_t *sheet, size_t sheet_len, size_t a, size_t b,
                   uint8_t *out, size_t out_len);

/*
 * Join two parts along a seam: the second part's root is laid on a side of the
 * first, below n - 1, and becomes a diagonal, with the angle 0 if either sheet has
 * angles. The second's corner j becomes side + j, so that its last falls on the
 * first's old corner side + 1; with m corners in the second, that one and the
 * first's higher ones move up by m - 2. Writes the sheet of the joined part, of
 * n + m - 2 corners, in normal order and gives its length. The two sheets may be the
 * same bytes.
 * Refusals: 1 to 7 and 23 as for bend_normalize, of the first sheet; then the same
 * of the second; 9, also for the root side n - 1; 10, if n + m - 2 is over 1,024; 8.
 */
uint64_t bend_join(const uint8_t *first, size_t first_len,
                   const uint8_t *second, size_t second_len, size_t side,
                   uint8_t *out, size_t out_len);

/*
 * Cut a part along the diagonal between a and b, named in either order; say a < b.
 * The inner part has the corners a to b: corner x becomes x - a, and the cut is its
 * root. The rest has the others, with a, b and the old root: corners up to a stay,
 * b and higher ones move down by b - a - 1, and the cut is its side a. Angles stay
 * with their diagonals; the cut's is dropped. Writes both sheets in normal order,
 * each without bit 3 if it is a triangle's, and gives both lengths. Neither has more
 * levels than the whole. bend_join with the rest as the first sheet, the inner part
 * as the second, and side a gives the part back, but for the angle 0 at the seam, or
 * without angles if both are triangles.
 * Refusals: 1 to 7 and 23 as for bend_normalize; 9; 13; 8, if either output is
 * shorter than its result: both are measured before either is written.
 */
uint64_t bend_cut(const uint8_t *sheet, size_t sheet_len, size_t a, size_t b,
                  uint8_t *inner, size_t inner_len,
                  uint8_t *rest, size_t rest_len);

/*
 * Run a list of edits, from the sheet `first`. Each edit reads the sheet that
 * the last edit taken wrote, or the first sheet if none was taken, and writes
 * the buffer in which that sheet does not lie, the front buffer first. An edit
 * is 13 bytes, its numbers high byte first:
 *
 *    1 byte   the kind: 0 add a corner on side a, 1 take off corner a, 2 turn
 *             the diagonal between a and b
 *    4 bytes  a
 *    4 bytes  b, any number unless the kind is 2
 *    4 bytes  how many bytes of the buffer are lent to the edit
 *
 * The number of each edit, 0 or the refusal as for bend_add_ear,
 * bend_remove_ear and bend_flip, is written to `numbers` in two bytes, high byte
 * first. A refused edit changes nothing else and the list goes on. Gives the
 * place of the sheet left: 0 the first sheet, as it was lent, bit 2 and all, 1 the
 * front buffer, 2 the back buffer; and for 1 and 2 its length.
 * Refusals of the list, before any edit is done: 32; 33; 34; 35.
 */
uint64_t bend_run_edits(const uint8_t *first, size_t first_len,
                        const uint8_t *list, size_t list_len,
                        uint8_t *front, size_t front_len,
                        uint8_t *back, size_t back_len,
                        uint8_t *numbers, size_t numbers_len);

/*
 * Plan: gives the levels, umbrellas and stems of the plan that is drawn. No
 * plan of the part has fewer levels.
 * Refusals: 1 to 7 and 23 as for bend_normalize.
 */
uint64_t bend_plan(const uint8_t *sheet, size_t sheet_len);

/*
 * Draw: writes the part's chart and gives its length. A bar lies on each of its
 * rows: of a part with L levels there are L + 1 to 2 L + 1.
 * Refusals: 1 to 7 and 23 as for bend_normalize; 8.
 */
uint64_t bend_draw(const uint8_t *sheet, size_t sheet_len,
                   uint8_t *out, size_t out_len);

/*
 * Draw on a label of fifteen rows: writes what bend_draw writes and gives its
 * length, if the chart has at most fifteen rows. Every part under 511 corners has;
 * a part that is refused by 19 can still be drawn on a tape by bend_draw.
 * Refusals: 1 to 7 and 23 as for bend_normalize; 19; 8.
 */
uint64_t bend_draw_label(const uint8_t *sheet, size_t sheet_len,
                         uint8_t *out, size_t out_len);

/*
 * Read a chart: writes the sheet, in normal order and without angles, of the part
 * that the chart shows, and gives its length. The chart may have rows without bars.
 * Refusals: 14; 15; 16; 17; 18; 8.
 */
uint64_t bend_read_chart(const uint8_t *chart, size_t chart_len,
                         uint8_t *out, size_t out_len);

/*
 * Nearest bar: of the bars that stand between two cells of one row or column,
 * neither cell counted, gives the corner of the one nearest the first cell, or none
 * if there is no such bar. Rows and columns are numbered from 0. A bar that also
 * covers one of the two cells counts by its cells between them. Equal cells and
 * neighbours have none between. The chart need not show a part: no stroke is asked
 * for more than its form.
 * Refusals: 14; 15; 9.
 */
uint64_t bend_nearest_bar(const uint8_t *chart, size_t chart_len,
                          size_t row, size_t column,
                          size_t to_row, size_t to_column);

/* The number in an answer: 0, or the refusal. */
static inline unsigned bend_number(uint64_t answer)
{
    return (unsigned)(answer & 0xffff);
}

/*
 * The length written, in the answer of an operation that writes one output; 0 if
 * refused.
 */
static inline size_t bend_length(uint64_t answer)
{
    return (size_t)(answer >> 16);
}

/* The length of the inner part's sheet, in an answer of bend_cut; 0 if refused. */
static inline size_t bend_inner_length(uint64_t answer)
{
    return (size_t)(answer >> 16 & 0xffff);
}

/* The length of the rest's sheet, in an answer of bend_cut; 0 if refused. */
static inline size_t bend_rest_length(uint64_t answer)
{
    return (size_t)(answer >> 32 & 0xffff);
}

/* The place in an answer of bend_run_edits: 0 first, 1 front, 2 back. */
static inline unsigned bend_place(uint64_t answer)
{
    return (unsigned)(answer >> 16 & 0xffff);
}

/* The length of the sheet left in a buffer, in an answer of bend_run_edits. */
static inline size_t bend_left(uint64_t answer)
{
    return (size_t)(answer >> 32);
}

/* The corner and one in an answer of bend_nearest_bar; 0 if there is none. */
static inline unsigned bend_corner(uint64_t answer)
{
    return (unsigned)(answer >> 16);
}

/* The levels in an answer of bend_plan. */
static inline unsigned bend_levels(uint64_t answer)
{
    return (unsigned)(answer >> 16 & 0xffff);
}

/* The umbrellas in an answer of bend_plan. */
static inline unsigned bend_umbrellas(uint64_t answer)
{
    return (unsigned)(answer >> 32 & 0xffff);
}

/* The stems in an answer of bend_plan. */
static inline unsigned bend_stems(uint64_t answer)
{
    return (unsigned)(answer >> 48 & 0xffff);
}

#ifdef __cplusplus
}
#endif

#endif
