/* Runs a loop text under a schedule that comes from the command line, a digit for each step, and prints the result and the cells.

       gcc -I include examples/c/run.c build/liblrpd.a -o build/run
       build/run examples/texts/permutation.loop 1001 */
#include <inttypes.h>
#include <stdio.h>
#include <string.h>
#include "lrpd.h"

int main(int argc, char **argv)
{
    static uint8_t text[LRPD_MOST_BYTES + 1];
    static int32_t cells[LRPD_MOST_CELLS];
    static uint32_t workspace[LRPD_WORKSPACE(LRPD_MOST_CELLS, LRPD_MOST_PROCESSORS)];
    static uint8_t schedule[100];

    FILE *file = argc >= 2 && argc <= 3 ? fopen(argv[1], "rb") : NULL;
    size_t steps = argc == 3 ? strlen(argv[2]) : 0;
    if (file == NULL || steps > sizeof schedule) {
        fprintf(stderr, "usage: run FILE [STEPS]\n");
        return 2;
    }
    size_t length = fread(text, 1, sizeof text, file);
    fclose(file);
    for (size_t i = 0; i < steps; i++)
        schedule[i] = (uint8_t)(argv[2][i] - '0');

    /* Where Check refuses, so do Load and Run, with the same numbers. */
    struct lrpd_check_answer sizes = lrpd_check(text, length);
    lrpd_load(text, length, cells, sizes.cells);
    struct lrpd_run_answer ran = lrpd_run(text, length, cells, sizes.cells, workspace, sizeof workspace / sizeof *workspace, schedule,
                                          steps);
    if (ran.number != 0) {
        printf("refused %" PRIu32 " %" PRIu32 " %" PRId32 "\n", ran.number, ran.line, ran.v);
        return 0;
    }
    printf("%s %" PRIu32 " %" PRIu32 "\n", ran.rerun ? "rerun" : "passed", ran.pairs, ran.cells);
    for (uint32_t i = 0; i < sizes.cells; i++)
        printf("%" PRId32 "\n", cells[i]);
    return 0;
}
