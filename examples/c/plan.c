/* Plans a loop text on the cells of its data and prints its stages in turn, each with the values that the loop's variable has in its
   iterations.

       gcc -I include examples/c/plan.c build/liblrpd.a -o build/plan
       build/plan examples/texts/channels.loop */
#include <inttypes.h>
#include <stdio.h>
#include "lrpd.h"

int main(int argc, char **argv)
{
    /* One byte more than a text may have, so that a longer one is refused and not cut. */
    static uint8_t text[LRPD_MOST_BYTES + 1];
    static int32_t cells[LRPD_MOST_CELLS];
    static uint32_t workspace[LRPD_WORKSPACE(LRPD_MOST_CELLS, LRPD_MOST_PROCESSORS)];
    static uint16_t list[LRPD_MOST_ITERATIONS];

    FILE *file = argc == 2 ? fopen(argv[1], "rb") : NULL;
    if (file == NULL) {
        fprintf(stderr, "usage: plan FILE\n");
        return 2;
    }
    size_t length = fread(text, 1, sizeof text, file);
    fclose(file);

    /* Where Check refuses, so do Bounds, Load and Plan, with the same numbers. */
    struct lrpd_check_answer sizes = lrpd_check(text, length);
    struct lrpd_bounds_answer bounds = lrpd_bounds(text, length);
    lrpd_load(text, length, cells, sizes.cells);
    struct lrpd_plan_answer plan = lrpd_plan(text, length, cells, sizes.cells, workspace, sizeof workspace / sizeof *workspace, list,
                                             bounds.iterations);
    if (plan.number != 0) {
        printf("refused %" PRIu32 " %" PRIu32 " %" PRId32 "\n", plan.number, plan.line, plan.v);
        return 0;
    }
    printf("stages %" PRIu32 "\n", plan.stages);
    for (uint32_t stage = 1; stage <= plan.stages; stage++) {
        printf("%" PRIu32 ":", stage);
        for (uint32_t i = 0; i < bounds.iterations; i++)
            if (list[i] == stage)
                printf(" %" PRId32, (int32_t)(bounds.from + (int64_t)i));
        printf("\n");
    }
    return 0;
}
