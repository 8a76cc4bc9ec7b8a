/* Says in words why a loop text was refused, met a fault or was run again, and can draw its run.

       gcc -I include examples/c/explain.c build/liblrpd.a -o build/explain
       build/explain examples/texts/rerun.loop --svg build/rerun.svg

   For a rerun it tells each cell with an obstacle, its clause, and two iterations that meet there (visits.h says how they are found).
   A hint names a directive only if Run, asked with it, said that the loop passes on these cells. That holds for this library: in
   OpenMP a lastprivate cell has no value at entry, nor afterwards if the last iteration doesn't write it. */
#include <inttypes.h>
#include <stdio.h>
#include <string.h>
#include "lrpd.h"
#include "picture.h"
#include "visits.h"

/* At most so many cells of a name are told, and so many runs made for a hint. */
enum { TOLD = 20, RUNS = 300 };

/* Words ------------------------------------------------------------------------------------------------------------------- */

/* A cell by its name and subscripts. In a grid the first one goes fastest. */
static void name_cell(char label[PICTURE_LABEL], const struct name *name, uint32_t cell)
{
    uint32_t at = cell - name->is.first;
    if (name->is.subscripts == 2)
        snprintf(label, PICTURE_LABEL, "%.31s(%" PRIu32 ", %" PRIu32 ")", name->word, at % name->is.rows + 1, at / name->is.rows + 1);
    else if (name->is.subscripts == 1)
        snprintf(label, PICTURE_LABEL, "%.31s(%" PRIu32 ")", name->word, at + 1);
    else
        snprintf(label, PICTURE_LABEL, "%.31s", name->word);
}

/* Adds what an iteration does with a cell. */
static void add_visit(char story[PICTURE_STORY], struct visit visit)
{
    static const char *const does[16] = {
        [WROTE] = "writes it", [READ] = "reads it", [WROTE | READ_FIRST] = "reads and then writes it", [UPDATED] = "updates it",
        [UPDATED | WROTE] = "writes and updates it", [UPDATED | READ] = "reads and updates it",
        [UPDATED | WROTE | READ_FIRST] = "reads, writes and updates it"};
    char where[32] = "";
    if (bounds.blocks)
        snprintf(where, sizeof where, " (processor %" PRIu32 ")", owner(visit.index));
    size_t used = strlen(story);
    snprintf(story + used, PICTURE_STORY - used, "%s = %" PRId32 "%s %s", variable, value(visit.index), where, does[visit.marks]);
}

/* The clause of a cell with an obstacle, and the two iterations that meet there, or the one that updates it and does more. */
static void tell(char story[PICTURE_STORY], uint32_t clause, const struct record *record)
{
    static const char *const clauses[] = {
        [LRPD_SHARED] = "shared", [LRPD_LASTPRIVATE] = "lastprivate", [LRPD_COPIED] = "firstprivate, lastprivate",
        [LRPD_SUM] = "reduction(+)", [LRPD_PRODUCT] = "reduction(*)", [LRPD_MAXIMUM] = "reduction(max)"};
    snprintf(story, PICTURE_STORY, "(%s): ", clauses[clause]);
    add_visit(story, record->one);
    if (record->other.index != record->one.index) {
        strcat(story, ", ");
        add_visit(story, record->other);
    }
}

static void tell_obstacles(void)
{
    char label[PICTURE_LABEL], story[PICTURE_STORY];
    for (size_t n = 0; n < name_count; n++) {
        uint32_t told = 0;
        for (uint32_t c = names[n].is.first; told < TOLD && told < names[n].obstacles; c++)
            if (records[c].one.marks != 0) {
                name_cell(label, &names[n], c);
                tell(story, names[n].clause, &records[c]);
                printf("  %s %s\n", label, story);
                told++;
            }
        if (told < names[n].obstacles)
            printf("  and %" PRIu32 " more cells of %s\n", names[n].obstacles - told, names[n].word);
    }
}

/* A refusal or a fault in words, and its line. */
static void tell_refusal(struct lrpd_run_answer ran)
{
    printf("refused %" PRIu32 " %" PRIu32 " %" PRId32 ": %s\n", ran.number, ran.line, ran.v, lrpd_message(ran.number));
    if (ran.line == 0)
        return;
    printf("  line %" PRIu32, ran.line);
    if (variable[0] != '\0')
        printf(", %s = %" PRId32, variable, ran.v);
    printf(": ");
    size_t at = 0;
    for (uint32_t line = 1; at < length && line < ran.line; at++)
        line += text[at] == '\n';
    while (at < length && text[at] == ' ')
        at++;
    for (; at < length && text[at] != '\n'; at++)
        putchar(text[at] >= ' ' && text[at] <= '~' ? text[at] : '?');
    putchar('\n');
}

/* Hints ------------------------------------------------------------------------------------------------------------------- */

static struct name *blamed[16];
static size_t blamed_count;
static uint32_t runs_left = RUNS;

/* Whether Run says that the loop passes with the clauses of the names as they are now. */
static int passes(uint32_t processors, uint32_t blocks)
{
    if (runs_left == 0)
        return 0;
    runs_left--;
    made_length = 0;
    add("%s", declarations);
    add_directive(processors, blocks, 0);
    add("do %s=%" PRId32 ",%" PRId32 "\n%.*senddo", variable, value(0), value(bounds.iterations - 1), (int)begins[lines], body);
    memcpy(cells, entry, sizes.cells * sizeof *cells);
    struct lrpd_run_answer ran = run(processors);
    return ran.number == 0 && ran.rerun == 0;
}

/* Tries clauses for the names with obstacles from this one on. What passes with shared or lastprivate passes with firstprivate and
   lastprivate, so those need no try. The third name and all after it get the same clause. */
static int choose(size_t at, uint32_t processors, uint32_t blocks)
{
    static const uint32_t tried[] = {LRPD_COPIED, LRPD_SUM, LRPD_PRODUCT, LRPD_MAXIMUM};
    if (at == blamed_count)
        return passes(processors, blocks);
    size_t next = at < 2 ? at + 1 : blamed_count;
    for (size_t k = 0; k < sizeof tried / sizeof *tried; k++) {
        for (size_t n = at; n < next; n++)
            blamed[n]->clause = tried[k];
        if (choose(next, processors, blocks))
            return 1;
    }
    return 0;
}

/* Goes back to the clauses that names have, or to plain lastprivate, where the loop still passes. */
static void simplify(uint32_t processors, uint32_t blocks)
{
    runs_left += 2 * (uint32_t)blamed_count;
    for (size_t n = 0; n < blamed_count; n++) {
        uint32_t found = blamed[n]->clause;
        blamed[n]->clause = blamed[n]->is.clause;
        if (found == LRPD_COPIED && !passes(processors, blocks))
            blamed[n]->clause = LRPD_LASTPRIVATE;
        if (!passes(processors, blocks))
            blamed[n]->clause = found;
    }
}

/* In which form an assignment to a reduction's name is an update. */
static void tell_updates(const struct name *name)
{
    static const char *const subscripts[] = {"", "(k)", "(k, l)"};
    const char *word = name->word, *at = subscripts[name->is.subscripts];
    printf("hint: an update of %s is %s%s = ", word, word, at);
    if (name->is.clause == LRPD_SUM)
        printf("%s%s + e or %s%s = %s%s - e", word, at, word, at, word, at);
    else
        printf(name->is.clause == LRPD_PRODUCT ? "%s%s * e" : "max(%s%s, e)", word, at);
    printf("; nothing else may touch a cell that is updated\n");
}

/* What would help: other clauses, then blocks with them, then larger blocks; else a plan. */
static void hint(void)
{
    static uint16_t list[LRPD_MOST_ITERATIONS];
    for (size_t n = 0; n < name_count; n++)
        if (names[n].obstacles > 0)
            blamed[blamed_count++] = &names[n];
    uint32_t processors = sizes.processors, blocks = bounds.blocks;
    int found = choose(0, processors, blocks);
    if (!found && !blocks && processors > 1)
        found = choose(0, processors, blocks = 1);
    while (!found && processors > 2)
        found = choose(0, --processors, blocks);
    if (found) {
        simplify(processors, blocks);
        made_length = 0;
        add_directive(processors, blocks, 0);
        printf("hint: it passes here with\n  %s", made);
        return;
    }
    for (size_t n = 0; n < blamed_count; n++)
        if (is_reduction(blamed[n]->is.clause))
            tell_updates(blamed[n]);
    uint32_t stages = lrpd_plan(text, length, entry, sizes.cells, workspace, LRPD_WORKSPACE(sizes.cells, sizes.processors), list,
                                bounds.iterations).stages;
    printf("hint: no directive was found with which it passes; ");
    if (stages < bounds.iterations)
        printf("its plan has %" PRIu32 " stages for %" PRIu32 " iterations (examples/c/plan.c)\n", stages, bounds.iterations);
    else
        printf("each iteration depends on the one before it\n");
}

/* The picture ------------------------------------------------------------------------------------------------------------- */

/* Gives rows to the cells that are accessed, to those with an obstacle before others if there are too many, and columns to the
   accesses, the processors moving in turn. */
static void lay_out(struct picture *picture)
{
    static uint32_t row_of[LRPD_MOST_CELLS];
    static uint8_t shown[LRPD_MOST_CELLS];
    size_t room[2] = {PICTURE_ROWS, PICTURE_ROWS};
    int cut = 0, full = 0;
    for (uint32_t p = 0; p < sizes.processors; p++)
        for (size_t at = 0; at < kept[p]; at++)
            shown[accesses[p][at].cell] = 1;
    for (uint32_t c = 0; c < sizes.cells; c++)
        room[0] -= shown[c] && records[c].one.marks != 0 && room[0] > 0;
    for (size_t n = 0; n < name_count; n++)
        for (uint32_t c = names[n].is.first; c < names[n].is.first + names[n].is.cells; c++) {
            int obstacle = records[c].one.marks != 0;
            row_of[c] = PICTURE_ROWS;
            if (shown[c] && room[obstacle] > 0) {
                room[obstacle]--;
                row_of[c] = (uint32_t)picture->row_count++;
                name_cell(picture->rows[row_of[c]].label, &names[n], c);
                if (obstacle)
                    tell(picture->rows[row_of[c]].story, names[n].clause, &records[c]);
            }
            cut |= shown[c] && row_of[c] == PICTURE_ROWS;
        }
    for (size_t turn = 0; turn < wanted; turn++)
        for (uint32_t p = 0; p < sizes.processors; p++)
            if (turn < kept[p] && picture->column_count < PICTURE_COLUMNS) {
                struct access *access = &accesses[p][turn];
                struct record *record = &records[access->cell];
                int meets = record->one.marks != 0 && (access->index == record->one.index || access->index == record->other.index);
                picture->columns[picture->column_count++] =
                    (struct picture_column){p, row_of[access->cell], value(access->index),
                                            access->kind & UPDATED ? 'u' : access->kind & WROTE ? 'w' : 'r', meets};
                full |= turn + 1 == wanted;
            }
    snprintf(picture->note, sizeof picture->note, "The accesses of the serial run, one to a column; the processors move in turn.%s%s",
             full ? " Only the first of each are drawn." : "", cut ? " Not all cells are drawn." : "");
}

/* Says that a picture which was asked for is not there; 1 if one was. */
static int leave_out(const char *path)
{
    if (path != NULL)
        fprintf(stderr, "%s is not written\n", path);
    return path != NULL;
}

static int draw(const char *path, struct lrpd_run_answer ran)
{
    static struct picture picture;
    FILE *out = fopen(path, "wb");
    if (out == NULL)
        return leave_out(path);
    picture.variable = variable;
    picture.processors = sizes.processors;
    snprintf(picture.title, sizeof picture.title, "%s %" PRIu32 " %" PRIu32 ": %" PRIu32 " iterations on %" PRIu32 " processors%s",
             ran.rerun ? "rerun" : "passed", ran.pairs, ran.cells, bounds.iterations, sizes.processors,
             bounds.blocks ? ", schedule(static)" : "");
    lay_out(&picture);
    draw_picture(out, &picture);
    return fclose(out) == 0 ? 0 : leave_out(path);
}

/* ------------------------------------------------------------------------------------------------------------------------- */

int main(int argc, char **argv)
{
    static const uint8_t none[1];
    const char *path = argc == 4 && strcmp(argv[2], "--svg") == 0 ? argv[3] : NULL;
    FILE *file = argc == 2 || path != NULL ? fopen(argv[1], "rb") : NULL;
    if (file == NULL) {
        fprintf(stderr, "usage: explain FILE [--svg FILE]\n");
        return 2;
    }
    length = fread(text, 1, sizeof text, file);
    fclose(file);

    /* Where Check refuses, so do Bounds, Load and Run, with the same numbers. */
    sizes = lrpd_check(text, length);
    bounds = lrpd_bounds(text, length);
    lrpd_load(text, length, entry, sizes.cells);
    memcpy(cells, entry, sizeof cells);
    struct lrpd_run_answer ran = lrpd_run(text, length, cells, sizes.cells, workspace, LRPD_WORKSPACE(sizes.cells, sizes.processors),
                                          none, 0);
    if (sizes.number == 0)
        take_apart();
    if (ran.number != 0) {
        tell_refusal(ran);
        return leave_out(path);
    }
    printf("%s %" PRIu32 " %" PRIu32 "\n", ran.rerun ? "rerun" : "passed", ran.pairs, ran.cells);
    wanted = path != NULL ? MOST_KEPT / sizes.processors : 0;
    if ((ran.rerun || path != NULL) && !find_obstacles()) {
        printf("  a statement is too long for more: divide it\n");
        return leave_out(path);
    }
    tell_obstacles();
    int failed = path != NULL && draw(path, ran);
    if (ran.rerun)
        hint();
    return failed;
}
