/* Lapwingboard for C: speculative DO loops with shadow marks.

   Link liblrpd.a or liblrpd.so (`make` builds both). Of the C library they need memcpy and memset, and nothing else.

   What a caller has to see to:
   - A loop text is an array of bytes and its length; no byte ends it. Each array is a pointer, never null, not even with length 0, and
     the number of its elements. An array that a function writes shares no memory with its other arguments.
   - A text is read by recursion: a call needs up to 2 MiB of stack. A thread with less is started with more (pthread_attr_setstacksize).
   That is all: every text and every length gets an answer.

   The library keeps nothing between calls, allocates nothing and starts no thread, so calls from different threads with arrays of
   their own are independent. */
#ifndef LRPD_H
#define LRPD_H

#include <stddef.h>
#include <stdint.h>

#ifdef __cplusplus
extern "C" {
#endif

/* The version of this header and its library: the second number is that of the client's last change request that is in it. What was
   compiled with the header of another second number has to be compiled again: in 1.9 lrpd_name's answer has grown by two fields. */
#define LRPD_VERSION "1.9.0"

/* The most bytes of a text, cells, processors and iterations of a loop. */
#define LRPD_MOST_BYTES 2048
#define LRPD_MOST_CELLS 4096
#define LRPD_MOST_PROCESSORS 8
#define LRPD_MOST_ITERATIONS 65535

/* The words of workspace that Look, Run and Plan ask for. */
#define LRPD_WORKSPACE(cells, processors) \
    (4352 + 64 * (size_t)(processors) + (size_t)(cells) * (4 + 8 * (size_t)(processors)))

/* Bytes that are enough for every printed form. */
#define LRPD_PRINT_ROOM 65535

/* An answer begins with the three numbers of a refusal; the number 0 means none, and then line and v are 0 too. Line and v are 0 but
   where they are named. */
enum {
    LRPD_DONE = 0,
    LRPD_TOO_LONG = 1,       /* the text has more than 2,048 bytes */
    LRPD_BROKEN = 2,         /* line: its form is broken; an unfinished text at its last line */
    LRPD_BAD_NAME = 3,       /* line: a name unknown, given twice or used wrongly, or data of the wrong count; from lrpd_name: line 0 */
    LRPD_OVER_LIMIT = 4,     /* line: over a limit */
    LRPD_BAD_CELLS = 5,      /* not exactly as many cells lent as the loop has */
    LRPD_BAD_WORKSPACE = 6,  /* a workspace under LRPD_WORKSPACE words */
    LRPD_BAD_SCHEDULE = 7,   /* a schedule byte that names no processor */
    LRPD_BAD_VIEW = 8,       /* a view of not exactly two words for each cell */
    LRPD_BAD_SUBSCRIPT = 9,  /* line, v: the serial run met a subscript outside its array or grid */
    LRPD_ZERO_DIVISOR = 10,  /* line, v: the serial run met a zero divisor */
    LRPD_BAD_LIST = 11,      /* not exactly as many numbers in the list as the loop has iterations */
    LRPD_BAD_ROOM = 12,      /* fewer bytes lent than the printed form has */
    LRPD_NOT_A_GRID = 13     /* no grid has the name */
};

/* A number in words, for a message. */
static inline const char *lrpd_message(uint32_t number)
{
    switch (number) {
    case LRPD_DONE: return "done";
    case LRPD_TOO_LONG: return "the text has more than 2,048 bytes";
    case LRPD_BROKEN: return "the form of the line is broken, or the text ends too early";
    case LRPD_BAD_NAME: return "a name is unknown, given twice or used wrongly, or data has the wrong count";
    case LRPD_OVER_LIMIT: return "over a limit";
    case LRPD_BAD_CELLS: return "not exactly as many cells as the loop has";
    case LRPD_BAD_WORKSPACE: return "the workspace is too small";
    case LRPD_BAD_SCHEDULE: return "the schedule names a processor that the loop does not have";
    case LRPD_BAD_VIEW: return "not exactly two words of view for each cell";
    case LRPD_BAD_SUBSCRIPT: return "a subscript is outside its array";
    case LRPD_ZERO_DIVISOR: return "a division by zero";
    case LRPD_BAD_LIST: return "not exactly one number in the list for each iteration";
    case LRPD_BAD_ROOM: return "fewer bytes lent than the printed form has";
    case LRPD_NOT_A_GRID: return "no grid has this name";
    default: return "not a number of this library";
    }
}

/* The loop has so many cells and processors; both are 0 after a refusal. */
struct lrpd_check_answer {
    uint32_t number;
    uint32_t line;
    int32_t v;
    uint32_t cells;
    uint32_t processors;
};

/* It was done, or refused. */
struct lrpd_done_answer {
    uint32_t number;
    uint32_t line;
    int32_t v;
};

/* Whether the loop was run again serially (1) or passed (0), and how many different pairs of iteration and cell, and different cells,
   were written; all are 0 after a refusal. */
struct lrpd_run_answer {
    uint32_t number;
    uint32_t line;
    int32_t v;
    uint32_t rerun;
    uint32_t pairs;
    uint32_t cells;
};

/* The iterations fall into so many stages; 0 after a refusal. */
struct lrpd_plan_answer {
    uint32_t number;
    uint32_t line;
    int32_t v;
    uint32_t stages;
};

/* The loop's variable begins at `from`, the loop has so many iterations, and with schedule(static) its marks and obstacles go by blocks
   (1), else by iteration (0); all are 0 after a refusal. */
struct lrpd_bounds_answer {
    uint32_t number;
    uint32_t line;
    int32_t v;
    int32_t from;
    uint32_t iterations;
    uint32_t blocks;
};

/* The clauses of a name. */
enum {
    LRPD_SHARED = 0,
    LRPD_LASTPRIVATE = 1,
    LRPD_SUM = 2,         /* reduction(+:name) */
    LRPD_COPIED = 3,      /* firstprivate and lastprivate */
    LRPD_PRODUCT = 4,     /* reduction(*:name) */
    LRPD_MAXIMUM = 5      /* reduction(max:name) */
};

/* The cells of a name: its first, counted from 0, how many, how many subscripts the name takes, its clause, and its extents. A single
   cell takes no subscript, and rows and columns are 0; an array takes 1, rows is its length and columns 0; a grid a(m, n) takes 2, rows
   is m and columns n. All are 0 after a refusal. */
struct lrpd_name_answer {
    uint32_t number;
    uint32_t line;
    int32_t v;
    uint32_t first;
    uint32_t cells;
    uint32_t subscripts;
    uint32_t clause;
    uint32_t rows;
    uint32_t columns;
};

/* The printed form has so many bytes; 0 after a refusal. */
struct lrpd_print_answer {
    uint32_t number;
    uint32_t line;
    int32_t v;
    uint32_t length;
};

/* Check: whether the text is a loop, and how many cells and processors it has. Numbers 1 to 4. */
struct lrpd_check_answer lrpd_check(const uint8_t *text, size_t length);

/* Bounds: where the loop's variable begins, and how many iterations the loop has: as many numbers as Plan's list takes. Numbers 1 to 4. */
struct lrpd_bounds_answer lrpd_bounds(const uint8_t *text, size_t length);

/* Name: which cells the name has that these bytes spell; upper case reads as lower case. Numbers 1 to 4, then 3 with line 0 if no such
   name is declared. */
struct lrpd_name_answer lrpd_name(const uint8_t *text, size_t length, const uint8_t *name, size_t name_length);

/* Load: fills the cells, in declared order, a grid's first subscript fastest, from the text's data, with 0 where it gives none. Numbers
   1 to 5; a refusal leaves the cells as found. */
struct lrpd_done_answer lrpd_load(const uint8_t *text, size_t length, int32_t *cells, size_t count);

/* Look: takes one step of the processor that each byte of the schedule names, and writes two words for each cell: its shared value,
   as 32 bits, and its marks. It leaves the cells. Numbers 1 to 8; a refusal leaves view and workspace as found. Else the workspace is
   zero afterwards. */
struct lrpd_done_answer lrpd_look(const uint8_t *text, size_t length, const int32_t *cells, size_t count, uint32_t *workspace,
                                  size_t words, const uint8_t *schedule, size_t steps, uint32_t *view, size_t shown);

/* Run: runs the loop on the cells, speculatively under the schedule and then to its end, and serially if that meets a fault or an
   obstacle. No schedule changes the answer or the cells. Where neither call is refused by 1 to 7, another num_threads changes at most
   `rerun`, and that only in a text with the clause schedule(static). Numbers 1 to 7, 9 and 10; a refusal leaves the cells as found, 1 to 7 the
   workspace too. Else the workspace is zero afterwards. */
struct lrpd_run_answer lrpd_run(const uint8_t *text, size_t length, int32_t *cells, size_t count, uint32_t *workspace, size_t words,
                                const uint8_t *schedule, size_t steps);

/* Plan: writes each iteration's stage to the list, the first iteration's first, and answers how many stages there are, none without
   iterations. Two iterations depend on each other if both touch a cell in the serial run on these cells and one of them writes or
   updates it; a stage is 1 more than the highest stage of a lower iteration that its iteration depends on, else 1. Running the stages
   one after another, the iterations of a stage in any order, gives the serial run's cells. Plan itself leaves the cells as found.
   Numbers 1 to 6, 11, 9 and 10, in this order; a refusal leaves the list as found, 1 to 6 and 11 the workspace too. Else the
   workspace is zero afterwards. */
struct lrpd_plan_answer lrpd_plan(const uint8_t *text, size_t length, const int32_t *cells, size_t count, uint32_t *workspace,
                                  size_t words, uint16_t *list, size_t room);

/* Print: writes the text's printed form to the bytes, and answers how many it has: the text's lines in lower case, one blank between
   tokens, a newline after each line, two-word endings, data with every copy written out, literals without leading zeros; no comments,
   empty lines or closing directive. All else stays as it stood. Two texts differ only in what this removes exactly if their forms are
   the same bytes. A form of at most 2,048 bytes is accepted as a text, and its form is itself. Numbers 1 to 4 and 12; a refusal leaves
   the bytes as found; those behind the form stay as found. */
struct lrpd_print_answer lrpd_print(const uint8_t *text, size_t length, uint8_t *bytes, size_t room);

/* Rows: puts the cells of one grid, which these bytes name, into row order: of a(m, n) what stands at (r - 1) + (c - 1) * m among the
   grid's cells, counted from 0, which is a(r, c), goes to (r - 1) * n + (c - 1). All other cells stay. Upper case reads as lower case,
   and the bytes are the whole name. Numbers 1 to 5, then 13 if no grid has the name; a refusal leaves the cells as found. */
struct lrpd_done_answer lrpd_rows(const uint8_t *text, size_t length, int32_t *cells, size_t count, const uint8_t *name,
                                  size_t name_length);

/* Columns: puts the cells of a grid from row order back into the order that all other functions take them in. It undoes Rows, and Rows
   undoes it. Numbers as of Rows. */
struct lrpd_done_answer lrpd_columns(const uint8_t *text, size_t length, int32_t *cells, size_t count, const uint8_t *name,
                                     size_t name_length);

#ifdef __cplusplus
}
#endif

#endif
