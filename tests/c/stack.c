/*
 * Calls every function on the sheets that the arguments name, each sheet in a
 * thread with 128 KiB of stack: sets it in order, plans, draws, also on a label, reads
 * the chart back, asks it for the nearest bar, edits it, joins it and two halves, and cuts
 * it along each diagonal. The last line is `N passed, M failed`; the exit status is 1 if
 * any check failed. A stack that is too small ends the program.
 */
#include "bend.h"

#include <pthread.h>
#include <stdio.h>
#include <string.h>

#define STACK (128 * 1024)

static uint8_t sheet[6134];
static size_t sheet_len;
static uint8_t chart[20465];
static uint8_t out[6144];
static uint8_t back[6144];
static uint8_t again[6144];
static uint8_t half[3 + 6 * 510];

static unsigned number16(const uint8_t *at)
{
    return at[0] * 256u + at[1];
}

/* A list of one edit that turns the first diagonal and is taken, with 6,129 bytes lent: no sheet that is written is longer. */
static int run_list(unsigned a, unsigned b)
{
    const uint8_t list[13] = {2, 0, 0, (uint8_t)(a / 256), (uint8_t)a, 0, 0, (uint8_t)(b / 256), (uint8_t)b, 0, 0, 6129 / 256, 6129 % 256};
    uint8_t numbers[2];
    uint64_t ran = bend_run_edits(sheet, sheet_len, list, sizeof list, out, sizeof out, back, sizeof back, numbers, sizeof numbers);
    return bend_number(ran) == 0 && number16(numbers) == 0;
}

/* Whether one corner or another can be taken off: every part has an ear. */
static int take_off(unsigned n)
{
    for (unsigned k = 0; k < n; k++)
        if (bend_number(bend_remove_ear(sheet, sheet_len, k, out, sizeof out)) == 0)
            return 1;
    return 0;
}

/* Makes the sheet of a part of 513 corners, its diagonals at corner 0, listed from the last on, with angles. */
static void make_half(void)
{
    uint8_t *angle = half + 3 + 4 * 510;
    half[0] = 11;
    half[1] = 513 / 256;
    half[2] = 513 % 256;
    for (unsigned i = 0; i < 510; i++) {
        half[3 + 4 * i] = (uint8_t)((511 - i) / 256);
        half[4 + 4 * i] = (uint8_t)(511 - i);
        angle[2 * i] = (uint8_t)(i / 256);
        angle[2 * i + 1] = (uint8_t)i;
    }
}

/* Whether the sheet and a triangle are joined either way round, unless there are too many corners, and two halves to the longest sheet that is written. */
static int join_all(unsigned n)
{
    static const uint8_t triangle[3] = {1, 0, 3};
    unsigned due = n == 1024 ? 10 : 0;
    int holds = bend_number(bend_join(sheet, sheet_len, triangle, sizeof triangle, n / 2, out, sizeof out)) == due;
    holds = holds && bend_number(bend_join(triangle, sizeof triangle, sheet, sheet_len, 1, out, sizeof out)) == due;
    make_half();
    uint64_t joined = bend_join(half, sizeof half, half, sizeof half, 256, out, sizeof out);
    return holds && bend_number(joined) == 0 && bend_length(joined) == 6129 && number16(out + 1) == 1024;
}

/* Whether the sheet is cut along each of its diagonals, and the halves are joined again to a part of as many corners. */
static int cut_all(unsigned n)
{
    int holds = 1;
    for (const uint8_t *pair = sheet + 3; holds && pair < sheet + 3 + 4 * (n - 3); pair += 4) {
        unsigned a = number16(pair), b = number16(pair + 2);
        uint64_t cut = bend_cut(sheet, sheet_len, a, b, out, sizeof out, back, sizeof back);
        uint64_t joined = bend_join(back, bend_rest_length(cut), out, bend_inner_length(cut), a < b ? a : b, again, sizeof again);
        holds = bend_number(cut) == 0 && bend_number(joined) == 0 && number16(again + 1) == n;
    }
    return holds;
}

/* The sheet if every function does what it should, else nothing. */
static void *call_all(void *unused)
{
    (void)unused;
    unsigned n = number16(sheet + 1);
    unsigned a = number16(sheet + 3);
    unsigned b = number16(sheet + 5);
    uint64_t drawn = bend_draw(sheet, sheet_len, chart, sizeof chart);
    int holds = bend_number(drawn) == 0;
    holds = holds && bend_number(bend_draw_label(sheet, sheet_len, chart, sizeof chart)) == (number16(chart) > 15 ? 19 : 0);
    holds = holds && bend_number(bend_read_chart(chart, bend_length(drawn), out, sizeof out)) == 0;
    holds = holds && memcmp(out + 1, sheet + 1, 2) == 0;
    holds = holds && bend_number(bend_nearest_bar(chart, bend_length(drawn), 0, 0, 0, number16(chart + 2) - 1)) == 0;
    holds = holds && bend_number(bend_normalize(sheet, sheet_len, out, sizeof out)) == 0;
    holds = holds && bend_number(bend_plan(sheet, sheet_len)) == 0;
    holds = holds && bend_number(bend_add_ear(sheet, sheet_len, 0, out, sizeof out)) == (n == 1024 ? 10 : 0);
    holds = holds && bend_number(bend_flip(sheet, sheet_len, a, b, out, sizeof out)) == 0;
    holds = holds && take_off(n) && run_list(a, b) && join_all(n) && cut_all(n);
    return holds ? sheet : NULL;
}

int main(int count, char **names)
{
    int passed = 0;
    int failed = 0;
    for (int i = 1; i < count; i++) {
        FILE *file = fopen(names[i], "rb");
        sheet_len = file ? fread(sheet, 1, sizeof sheet, file) : 0;
        if (file)
            fclose(file);
        pthread_attr_t narrow;
        pthread_t thread;
        void *result = NULL;
        pthread_attr_init(&narrow);
        pthread_attr_setstacksize(&narrow, STACK);
        if (pthread_create(&thread, &narrow, call_all, NULL) == 0)
            pthread_join(thread, &result);
        if (result) {
            passed++;
        } else {
            failed++;
            printf("FAILED %s\n", names[i]);
        }
    }
    printf("%d passed, %d failed\n", passed, failed);
    return failed != 0;
}
