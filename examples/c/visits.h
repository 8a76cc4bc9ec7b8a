/* What each iteration of a loop does with each cell, and where two of them meet in an obstacle: found with the services alone. For
   explain.c.

   It goes through the serial run, one iteration after another. Each becomes a text of its own, for one processor, on the cells as the
   serial run has them by then: the marks that Look shows are what this iteration does with each cell. Only the reductions keep their
   clauses there, which tell updates from other accesses; all else is read and written in place, as in the serial run. Where an
   iteration updates a cell and also reads or writes it, speculation may go another way than the serial run, and the iteration is
   taken statement by statement. */
#ifndef VISITS_H
#define VISITS_H

#include <ctype.h>
#include <inttypes.h>
#include <stdarg.h>
#include <stdio.h>
#include <string.h>
#include "lrpd.h"

/* The most accesses that are kept. */
enum { MOST_KEPT = 400 };

/* The marks of a view. */
enum { WROTE = 1, READ = 2, READ_FIRST = 4, UPDATED = 8, READS = READ | READ_FIRST, ORDINARY = WROTE | READS };

/* What an iteration, by its index, does with a cell. Without marks there is none. */
struct visit {
    uint32_t index, marks;
};

/* The first iterations that do something with a cell, the last one that writes it, and the first two that meet there. */
struct record {
    struct visit writer, reader, toucher, updater, last_writer, one, other;
};

struct name {
    char word[32];
    struct lrpd_name_answer is;
    uint32_t clause;    /* as it is, or as a hint tries it */
    uint32_t obstacles; /* how many of its cells have one */
};

/* The text, and its parts in lower case: the integer lines, the loop's variable, and the lines of the body without blanks. */
static uint8_t text[LRPD_MOST_BYTES + 1];
static size_t length;
static char declarations[LRPD_MOST_BYTES + 2], variable[32], body[LRPD_MOST_BYTES + 2];
static size_t begins[LRPD_MOST_BYTES + 1], lines;
static struct name names[16];
static size_t name_count;
static struct lrpd_check_answer sizes;
static struct lrpd_bounds_answer bounds;

static int32_t entry[LRPD_MOST_CELLS], cells[LRPD_MOST_CELLS];
static uint32_t workspace[LRPD_WORKSPACE(LRPD_MOST_CELLS, LRPD_MOST_PROCESSORS)];
static uint32_t view[2 * LRPD_MOST_CELLS], marks[LRPD_MOST_CELLS];
static struct record records[LRPD_MOST_CELLS];

/* The first accesses of each processor, in order, as many as are wanted. */
static struct access {
    uint32_t index, cell, kind;
} accesses[LRPD_MOST_PROCESSORS][MOST_KEPT];
static size_t kept[LRPD_MOST_PROCESSORS], wanted;

/* Texts ------------------------------------------------------------------------------------------------------------------- */

static size_t word(const char *at)
{
    return islower((unsigned char)*at) ? strspn(at, "abcdefghijklmnopqrstuvwxyz0123456789_") : 0;
}

/* Takes apart a text that Check took. The words of the integer lines are the declared names. */
static void take_apart(void)
{
    static char copy[LRPD_MOST_BYTES + 1];
    for (size_t i = 0; i < length; i++)
        copy[i] = (char)tolower(text[i]);
    size_t bytes = 0;
    for (char *at = strtok(copy, "\n"); at != NULL; at = strtok(NULL, "\n")) {
        at += strspn(at, " ");
        if (variable[0] == '\0' && strncmp(at, "integer ", 8) == 0) {
            strcat(strcat(declarations, at), "\n");
            for (at += 8; *at != '\0'; at++)
                if (word(at) > 0) {
                    struct name *name = &names[name_count++];
                    memcpy(name->word, at, word(at));
                    name->is = lrpd_name(text, length, (const uint8_t *)at, word(at));
                    name->clause = name->is.clause;
                    at += word(at) - 1;
                }
        } else if (variable[0] == '\0' && strncmp(at, "do ", 3) == 0) {
            at += 3 + strspn(at + 3, " ");
            memcpy(variable, at, word(at));
        } else if (variable[0] != '\0' && *at != '\0' && *at != '!') {
            for (; *at != '\0'; at++)
                if (*at != ' ')
                    body[bytes++] = *at;
            body[bytes++] = '\n';
            if (strcmp(body + begins[lines], "enddo\n") == 0)
                return;
            begins[++lines] = bytes;
        }
    }
}

/* A text made of the parts. If it is too long, for which there is room, the services say so. */
static char made[3 * LRPD_MOST_BYTES];
static size_t made_length;

static void add(const char *format, ...)
{
    va_list values;
    va_start(values, format);
    made_length += (size_t)vsnprintf(made + made_length, sizeof made - made_length, format, values);
    va_end(values);
}

static int is_reduction(uint32_t clause)
{
    return clause == LRPD_SUM || clause == LRPD_PRODUCT || clause == LRPD_MAXIMUM;
}

static void add_list(const char *opening, uint32_t one, uint32_t other)
{
    const char *before = opening;
    for (size_t n = 0; n < name_count; n++)
        if (names[n].clause == one || names[n].clause == other) {
            add("%s%s", before, names[n].word);
            before = ", ";
        }
    add("%s", before == opening ? "" : ")");
}

/* A directive with the clauses of the names, or with their reductions only. */
static void add_directive(uint32_t processors, uint32_t blocks, int reductions_only)
{
    add("!$omp parallel do num_threads(%" PRIu32 ")%s", processors, blocks ? " schedule(static)" : "");
    if (!reductions_only) {
        add_list(" firstprivate(", LRPD_COPIED, LRPD_COPIED);
        add_list(" lastprivate(", LRPD_LASTPRIVATE, LRPD_COPIED);
    }
    add_list(" reduction(+:", LRPD_SUM, LRPD_SUM);
    add_list(" reduction(*:", LRPD_PRODUCT, LRPD_PRODUCT);
    add_list(" reduction(max:", LRPD_MAXIMUM, LRPD_MAXIMUM);
    add("\n");
}

/* Iterations -------------------------------------------------------------------------------------------------------------- */

static int32_t value(uint32_t index)
{
    return (int32_t)(bounds.from + (int64_t)index);
}

/* The processor that has an iteration. */
static uint32_t owner(uint32_t index)
{
    uint32_t p = 0;
    while ((uint64_t)bounds.iterations * (p + 1) / sizes.processors <= index)
        p++;
    return p;
}

/* Makes the text of one iteration, of its body the lines `from` to below `to` and then more. */
static void make_part(uint32_t index, size_t from, size_t to, const char *more)
{
    made_length = 0;
    add("%s", declarations);
    add_directive(1, 0, 1);
    add("do %s=%" PRId32 ",%" PRId32 "\n", variable, value(index), value(index));
    add("%.*s%senddo", (int)(begins[to] - begins[from]), body + begins[from], more);
}

/* As many steps as the lines can take: an access takes a name and a sign. */
static size_t steps_of(size_t from, size_t to)
{
    return (begins[to] - begins[from]) / 2 + 1;
}

/* The view of the made text after so many steps; 0 if the text is too long. */
static int look(size_t steps)
{
    static const uint8_t schedule[LRPD_MOST_BYTES];
    return lrpd_look((const uint8_t *)made, made_length, cells, sizes.cells, workspace, LRPD_WORKSPACE(sizes.cells, 1), schedule, steps,
                     view, 2 * (size_t)sizes.cells).number == 0;
}

/* Run on the made text. */
static struct lrpd_run_answer run(uint32_t processors)
{
    static const uint8_t schedule[1];
    return lrpd_run((const uint8_t *)made, made_length, cells, sizes.cells, workspace, LRPD_WORKSPACE(sizes.cells, processors), schedule,
                    0);
}

/* Moves the cells on as the made text does: by its view, or by a Run if it changed a reduction's cell, which a view doesn't show. */
static void move(void)
{
    uint32_t changed = 0;
    for (size_t n = 0; n < name_count; n++)
        for (uint32_t c = names[n].is.first; is_reduction(names[n].clause) && c < names[n].is.first + names[n].is.cells; c++)
            changed |= view[2 * c + 1] & (WROTE | UPDATED);
    if (changed)
        run(1);
    else
        for (uint32_t c = 0; c < sizes.cells; c++)
            cells[c] = (int32_t)view[2 * c];
}

/* The marks of what an iteration did before and what it did then, together. */
static uint32_t marks_of(uint32_t before, uint32_t then)
{
    uint32_t both = before | then;
    int reads_first = (before & READS) || (!(before & WROTE) && (then & READS));
    return (both & (WROTE | UPDATED)) | (!reads_first ? 0 : both & WROTE ? READ_FIRST : READ);
}

/* Adds the marks of the made text to the iteration's. Where accesses are wanted it looks step by step: what is new is an access. */
static int see(uint32_t index, size_t steps)
{
    static uint32_t seen[LRPD_MOST_CELLS];
    memset(seen, 0, sizes.cells * sizeof *seen);
    uint32_t p = owner(index);
    for (size_t step = kept[p] < wanted ? 1 : steps; step <= steps; step++) {
        if (!look(step))
            return 0;
        for (uint32_t c = 0; c < sizes.cells; c++) {
            uint32_t kind = view[2 * c + 1] & ~seen[c];
            if (kind != 0 && kept[p] < wanted)
                accesses[p][kept[p]++] = (struct access){index, c, kind};
            seen[c] = view[2 * c + 1];
        }
    }
    for (uint32_t c = 0; c < sizes.cells; c++)
        marks[c] = marks_of(marks[c], seen[c]);
    return 1;
}

/* Goes through an iteration statement by statement. A write that is put into an `if` shows whether its lines are run. */
static int go_by_statements(uint32_t index)
{
    static const char *const first[] = {"", "(1)", "(1,1)"};
    char inside[64];
    snprintf(inside, sizeof inside, "%s%s=0\nendif\n", names[0].word, first[names[0].is.subscripts]);
    size_t skipped = 0; /* how many `if`s are open, from the one on whose lines are not run */
    memset(marks, 0, sizes.cells * sizeof *marks);
    for (size_t at = 0; at < lines; at++) {
        const char *line = body + begins[at];
        int opens = strncmp(line, "if(", 3) == 0, turns = strncmp(line, "else\n", 5) == 0, closes = strncmp(line, "endif\n", 6) == 0;
        if (skipped > 0) {
            skipped = skipped == 1 && turns ? 0 : skipped + (size_t)opens - (size_t)closes;
        } else if (turns) {
            skipped = 1;
        } else if (!closes) {
            make_part(index, at, at + 1, opens ? "endif\n" : "");
            if (!see(index, steps_of(at, at + 1)))
                return 0;
            if (!opens) {
                move();
                continue;
            }
            make_part(index, at, at + 1, inside);
            if (!look(steps_of(at, at + 1) + 1))
                return 0;
            skipped = !(view[2 * names[0].is.first + 1] & WROTE);
        }
    }
    return 1;
}

/* Goes through an iteration: its marks, and the cells after it. 0 if a statement is too long for that. */
static int go(uint32_t index)
{
    if (kept[owner(index)] < wanted)
        return go_by_statements(index);
    make_part(index, 0, lines, "");
    if (!look(steps_of(0, lines)))
        return go_by_statements(index);
    for (uint32_t c = 0; c < sizes.cells; c++) {
        marks[c] = view[2 * c + 1];
        if ((marks[c] & UPDATED) && (marks[c] & ORDINARY))
            return go_by_statements(index);
    }
    move();
    return 1;
}

/* Obstacles --------------------------------------------------------------------------------------------------------------- */

/* Whether there was an earlier visit, and it counts apart: in another iteration, or in another block. */
static int apart(struct visit earlier, struct visit now)
{
    return earlier.marks != 0 && (bounds.blocks ? owner(earlier.index) != owner(now.index) : earlier.index != now.index);
}

static void keep_first(struct visit *first, struct visit now, int does)
{
    if (does && first->marks == 0)
        *first = now;
}

/* Takes in what an iteration does with a cell, after all iterations before it. 1 if that makes an obstacle, and there was none. */
static uint32_t take_in(struct record *record, uint32_t clause, struct visit now)
{
    int updates = (now.marks & UPDATED) != 0, touches = (now.marks & ORDINARY) != 0, writes = (now.marks & WROTE) != 0;
    /* What the same block wrote before is not read first. */
    int reads_first = (now.marks & READS) != 0 && (record->last_writer.marks == 0 || apart(record->last_writer, now));
    struct visit met = {0, 0};
    if ((clause == LRPD_SHARED ? touches : reads_first) && apart(record->writer, now))
        met = record->writer;
    else if (clause == LRPD_SHARED && writes && apart(record->toucher, now))
        met = record->toucher;
    else if (clause != LRPD_SHARED && clause != LRPD_COPIED && writes && apart(record->reader, now))
        met = record->reader;
    else if (updates)
        met = touches ? now : record->toucher;
    else
        met = record->updater;
    uint32_t found = record->one.marks == 0 && met.marks != 0;
    if (found) {
        record->one = met;
        record->other = now;
    }
    keep_first(&record->writer, now, writes);
    keep_first(&record->reader, now, reads_first);
    keep_first(&record->toucher, now, touches);
    keep_first(&record->updater, now, updates);
    if (writes)
        record->last_writer = now;
    return found;
}

/* Finds the obstacles. 0 if a statement is too long for that. A name needs its clause only until all its cells have one: without it
   fewer iterations are taken statement by statement, but a picture would not show its updates. */
static int find_obstacles(void)
{
    memcpy(cells, entry, sizeof cells);
    for (uint32_t index = 0; index < bounds.iterations; index++) {
        if (!go(index))
            return 0;
        for (size_t n = 0; n < name_count; n++) {
            for (uint32_t c = names[n].is.first; c < names[n].is.first + names[n].is.cells; c++)
                if (marks[c] != 0)
                    names[n].obstacles += take_in(&records[c], names[n].clause, (struct visit){index, marks[c]});
            if (wanted == 0 && names[n].obstacles == names[n].is.cells)
                names[n].clause = LRPD_SHARED;
        }
    }
    for (size_t n = 0; n < name_count; n++)
        names[n].clause = names[n].is.clause;
    return 1;
}

#endif
