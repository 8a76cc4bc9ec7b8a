/* Checks a loop text, loads its cells and prints both.

       gcc -I include examples/c/check.c build/liblrpd.a -o build/check
       build/check examples/texts/permutation.loop */
#include <inttypes.h>
#include <stdio.h>
#include "lrpd.h"

int main(int argc, char **argv)
{
    /* One byte more than a text may have, so that a longer one is refused and not cut. */
    static uint8_t text[LRPD_MOST_BYTES + 1];
    static int32_t cells[LRPD_MOST_CELLS];

    FILE *file = argc == 2 ? fopen(argv[1], "rb") : NULL;
    if (file == NULL) {
        fprintf(stderr, "usage: check FILE\n");
        return 2;
    }
    size_t length = fread(text, 1, sizeof text, file);
    fclose(file);

    struct lrpd_check_answer sizes = lrpd_check(text, length);
    if (sizes.number != 0) {
        printf("refused %" PRIu32 " %" PRIu32 " %" PRId32 "\n", sizes.number, sizes.line, sizes.v);
        return 0;
    }
    printf("cells %" PRIu32 ", processors %" PRIu32 "\n", sizes.cells, sizes.processors);

    /* Exactly as many cells as Check said, so Load refuses nothing. */
    struct lrpd_done_answer loaded = lrpd_load(text, length, cells, sizes.cells);
    if (loaded.number != 0) {
        fprintf(stderr, "refused after Check\n");
        return 1;
    }
    for (uint32_t i = 0; i < sizes.cells; i++)
        printf("%" PRId32 "\n", cells[i]);
    return 0;
}
