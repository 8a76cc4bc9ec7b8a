/* Runs a loop text and prints one of its grids as a map viewer stores it: by rows, here a row to a line. Then it puts the cells back in
   the loop's order, and checks that they are as they were.

       gcc -I include examples/c/map.c build/liblrpd.a -o build/map
       build/map examples/texts/levels.loop bed */
#include <inttypes.h>
#include <stdio.h>
#include <string.h>
#include "lrpd.h"

static int refuse(uint32_t number, uint32_t line, int32_t v)
{
    printf("refused %" PRIu32 " %" PRIu32 " %" PRId32 ": %s\n", number, line, v, lrpd_message(number));
    return 0;
}

int main(int argc, char **argv)
{
    static uint8_t text[LRPD_MOST_BYTES + 1];
    static int32_t cells[LRPD_MOST_CELLS], before[LRPD_MOST_CELLS];
    static uint32_t workspace[LRPD_WORKSPACE(LRPD_MOST_CELLS, LRPD_MOST_PROCESSORS)];
    static const uint8_t schedule[1];

    FILE *file = argc == 3 ? fopen(argv[1], "rb") : NULL;
    if (file == NULL) {
        fprintf(stderr, "usage: map FILE GRID\n");
        return 2;
    }
    size_t length = fread(text, 1, sizeof text, file);
    fclose(file);
    const uint8_t *grid = (const uint8_t *)argv[2];
    size_t bytes = strlen(argv[2]);

    /* Where Check refuses, so do Load and Run, with the same numbers. */
    struct lrpd_check_answer sizes = lrpd_check(text, length);
    lrpd_load(text, length, cells, sizes.cells);
    struct lrpd_run_answer ran = lrpd_run(text, length, cells, sizes.cells, workspace, sizeof workspace / sizeof *workspace, schedule,
                                          0);
    if (ran.number != 0)
        return refuse(ran.number, ran.line, ran.v);
    memcpy(before, cells, sizeof cells);

    struct lrpd_done_answer turned = lrpd_rows(text, length, cells, sizes.cells, grid, bytes);
    if (turned.number != 0)
        return refuse(turned.number, turned.line, turned.v);

    /* The grid's cells stand row after row now, from the same first cell on. */
    struct lrpd_name_answer name = lrpd_name(text, length, grid, bytes);
    printf("%s: %" PRIu32 " rows, %" PRIu32 " columns\n", argv[2], name.rows, name.columns);
    const int32_t *next = cells + name.first;
    for (uint32_t r = 0; r < name.rows; r++)
        for (uint32_t c = 0; c < name.columns; c++)
            printf("%" PRId32 "%c", *next++, c + 1 < name.columns ? ' ' : '\n');

    lrpd_columns(text, length, cells, sizes.cells, grid, bytes);
    if (memcmp(before, cells, sizeof cells) != 0) {
        fprintf(stderr, "the cells are not as they were\n");
        return 1;
    }
    return 0;
}
