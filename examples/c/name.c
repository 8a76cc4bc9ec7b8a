/* Runs a loop text and prints the cells of one name: its extents, which cells they are, counted from 1, its clause, and their values
   afterwards, of a grid the first subscript fastest.

       gcc -I include examples/c/name.c build/liblrpd.a -o build/name
       build/name examples/texts/weights.loop peak */
#include <inttypes.h>
#include <stdio.h>
#include <string.h>
#include "lrpd.h"

static const char *const clauses[] = {
    [LRPD_SHARED] = "shared",       [LRPD_LASTPRIVATE] = "lastprivate", [LRPD_COPIED] = "firstprivate, lastprivate",
    [LRPD_SUM] = "reduction(+)",    [LRPD_PRODUCT] = "reduction(*)",    [LRPD_MAXIMUM] = "reduction(max)",
};

static int refuse(uint32_t number, uint32_t line, int32_t v)
{
    printf("refused %" PRIu32 " %" PRIu32 " %" PRId32 ": %s\n", number, line, v, lrpd_message(number));
    return 0;
}

int main(int argc, char **argv)
{
    static uint8_t text[LRPD_MOST_BYTES + 1];
    static int32_t cells[LRPD_MOST_CELLS];
    static uint32_t workspace[LRPD_WORKSPACE(LRPD_MOST_CELLS, LRPD_MOST_PROCESSORS)];
    static const uint8_t schedule[1];

    FILE *file = argc == 3 ? fopen(argv[1], "rb") : NULL;
    if (file == NULL) {
        fprintf(stderr, "usage: name FILE NAME\n");
        return 2;
    }
    size_t length = fread(text, 1, sizeof text, file);
    fclose(file);

    struct lrpd_name_answer name = lrpd_name(text, length, (const uint8_t *)argv[2], strlen(argv[2]));
    if (name.number != 0)
        return refuse(name.number, name.line, name.v);

    /* A text that Name takes Check and Load take too. */
    struct lrpd_check_answer sizes = lrpd_check(text, length);
    lrpd_load(text, length, cells, sizes.cells);
    struct lrpd_run_answer ran = lrpd_run(text, length, cells, sizes.cells, workspace, sizeof workspace / sizeof *workspace, schedule,
                                          0);
    if (ran.number != 0)
        return refuse(ran.number, ran.line, ran.v);

    printf("%s", argv[2]);
    if (name.subscripts == 1)
        printf("(%" PRIu32 ")", name.rows);
    else if (name.subscripts == 2)
        printf("(%" PRIu32 ", %" PRIu32 ")", name.rows, name.columns);
    printf(": cells %" PRIu32 " to %" PRIu32 ", %s\n", name.first + 1, name.first + name.cells, clauses[name.clause]);
    for (uint32_t i = 0; i < name.cells; i++)
        printf("%" PRId32 "\n", cells[name.first + i]);
    return 0;
}
