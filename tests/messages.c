/* What include/lrpd.h names and says. messages.f90 prints the same of fortran/lrpd.f90, and tests/run compares what they print. */
#include <stdio.h>
#include "lrpd.h"

#define SHOW(name) printf("%s %ld\n", #name, (long)(name))

int main(void)
{
    printf("LRPD_VERSION %s\n", LRPD_VERSION);
    SHOW(LRPD_MOST_BYTES);
    SHOW(LRPD_MOST_CELLS);
    SHOW(LRPD_MOST_PROCESSORS);
    SHOW(LRPD_MOST_ITERATIONS);
    SHOW(LRPD_PRINT_ROOM);
    SHOW(LRPD_DONE);
    SHOW(LRPD_TOO_LONG);
    SHOW(LRPD_BROKEN);
    SHOW(LRPD_BAD_NAME);
    SHOW(LRPD_OVER_LIMIT);
    SHOW(LRPD_BAD_CELLS);
    SHOW(LRPD_BAD_WORKSPACE);
    SHOW(LRPD_BAD_SCHEDULE);
    SHOW(LRPD_BAD_VIEW);
    SHOW(LRPD_BAD_SUBSCRIPT);
    SHOW(LRPD_ZERO_DIVISOR);
    SHOW(LRPD_BAD_LIST);
    SHOW(LRPD_BAD_ROOM);
    SHOW(LRPD_NOT_A_GRID);
    SHOW(LRPD_SHARED);
    SHOW(LRPD_LASTPRIVATE);
    SHOW(LRPD_SUM);
    SHOW(LRPD_COPIED);
    SHOW(LRPD_PRODUCT);
    SHOW(LRPD_MAXIMUM);
    SHOW(LRPD_WORKSPACE(0, 0));
    SHOW(LRPD_WORKSPACE(1, 1));
    SHOW(LRPD_WORKSPACE(17, 3));
    SHOW(LRPD_WORKSPACE(4096, 8));
    for (uint32_t number = 0; number <= 14; number++)
        printf("%ld: %s\n", (long)number, lrpd_message(number));
    printf("all bits: %s\n", lrpd_message(UINT32_MAX));
    return 0;
}
