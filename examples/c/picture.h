/* Draws accesses of cells as an SVG picture: cells down, those with an obstacle in red, and the accesses across, one to a column; above
   them a row for each processor with its iterations. For explain.c. */
#ifndef PICTURE_H
#define PICTURE_H

#include <inttypes.h>
#include <stdio.h>
#include <string.h>

enum { PICTURE_ROWS = 64, PICTURE_COLUMNS = 400, PICTURE_LABEL = 64, PICTURE_STORY = 256 };

struct picture {
    /* All words are letters, digits and signs that XML takes as they are. */
    char title[128], note[256];
    const char *variable;
    uint32_t processors;
    size_t row_count, column_count;
    /* A cell, and what is told of its obstacle: empty if it has none. */
    struct picture_row {
        char label[PICTURE_LABEL], story[PICTURE_STORY];
    } rows[PICTURE_ROWS];
    /* An access by a processor, in the iteration with this v: its row, PICTURE_ROWS if the cell has none, whether it reads, writes or
       updates ('r', 'w', 'u'), and whether it is one of those that meet in an obstacle. */
    struct picture_column {
        uint32_t processor, row;
        int32_t v;
        char kind;
        int meets;
    } columns[PICTURE_COLUMNS];
};

/* Sizes in pixels: a column, a row, a letter, and where the processors' rows begin. */
enum { PICTURE_WIDE = 16, PICTURE_HIGH = 20, PICTURE_LETTER = 8, PICTURE_TOP = 64 };

static inline void draw_words(FILE *out, size_t x, size_t y, const char *how, const char *words)
{
    fprintf(out, "<text x=\"%zu\" y=\"%zu\"%s>%s</text>\n", x, y + 14, how, words);
}

static inline void draw_access(FILE *out, size_t x, size_t y, char kind, int meets, const char *colour)
{
    if (meets)
        fprintf(out, "<circle cx=\"%zu\" cy=\"%zu\" r=\"7\" fill=\"#fff\" stroke=\"#d00000\" stroke-width=\"1.5\"/>\n", x + 8, y + 10);
    if (kind == 'u')
        fprintf(out, "<path d=\"M%zu %zu l5 5 l-5 5 l-5 -5 z\" fill=\"%s\"/>\n", x + 8, y + 5, colour);
    else if (kind == 'w')
        fprintf(out, "<rect x=\"%zu\" y=\"%zu\" width=\"8\" height=\"8\" fill=\"%s\"/>\n", x + 4, y + 6, colour);
    else if (kind == 'r')
        fprintf(out, "<circle cx=\"%zu\" cy=\"%zu\" r=\"3.5\" fill=\"#fff\" stroke=\"%s\" stroke-width=\"2\"/>\n", x + 8, y + 10, colour);
}

static inline void draw_legend(FILE *out, size_t y, int obstacles)
{
    static const struct {
        char kind;
        const char *words;
    } signs[] = {{'r', "reads"}, {'w', "writes"}, {'u', "updates"}, {0, "iterations that meet in an obstacle"}};
    for (size_t k = 0; k < (obstacles ? 4 : 3); k++) {
        size_t x = PICTURE_LETTER + 90 * k;
        draw_access(out, x, y, signs[k].kind, signs[k].kind == 0, "#333");
        draw_words(out, x + 20, y, "", signs[k].words);
    }
}

/* The iterations of a processor, each from its first access to its last. */
static inline void draw_iterations(FILE *out, const struct picture *picture, uint32_t processor, size_t left, size_t y, const char *colour)
{
    for (size_t at = 0, last; at < picture->column_count; at = last + 1) {
        last = at;
        if (picture->columns[at].processor != processor)
            continue;
        for (size_t next = at + 1; next < picture->column_count; next++)
            if (picture->columns[next].processor == processor) {
                if (picture->columns[next].v != picture->columns[at].v)
                    break;
                last = next;
            }
        char words[64];
        int bytes = snprintf(words, sizeof words, "%s = %" PRId32, picture->variable, picture->columns[at].v);
        size_t x = left + PICTURE_WIDE * at, wide = PICTURE_WIDE * (last - at + 1);
        fprintf(out, "<rect x=\"%zu\" y=\"%zu\" width=\"%zu\" height=\"%d\" rx=\"3\" fill=\"%s\"/>\n", x + 1, y + 2, wide - 2,
                PICTURE_HIGH - 4, colour);
        if (PICTURE_LETTER * (size_t)bytes <= wide)
            draw_words(out, x + wide / 2, y, " fill=\"#fff\" text-anchor=\"middle\"", words);
    }
}

static inline void draw_picture(FILE *out, const struct picture *picture)
{
    static const char *const colours[] = {"#0072b2", "#b87400", "#009e73", "#a84f86", "#3f93c7", "#6b5b95", "#5f6b00", "#333333"};
    size_t label = strlen("processor 0"), story = 0;
    for (size_t r = 0; r < picture->row_count; r++) {
        label = strlen(picture->rows[r].label) > label ? strlen(picture->rows[r].label) : label;
        story = strlen(picture->rows[r].story) > story ? strlen(picture->rows[r].story) : story;
    }
    size_t left = PICTURE_LETTER * (label + 2), right = left + PICTURE_WIDE * picture->column_count;
    size_t top = PICTURE_TOP + PICTURE_HIGH * picture->processors + 12, bottom = top + PICTURE_HIGH * picture->row_count;
    size_t wide = right + PICTURE_LETTER * (story + 2), high = bottom + 40;
    wide = wide < 640 ? 640 : wide;
    fprintf(out, "<svg xmlns=\"http://www.w3.org/2000/svg\" version=\"1.1\" width=\"%zu\" height=\"%zu\" font-family=\"monospace\" "
                 "font-size=\"12\">\n<rect width=\"%zu\" height=\"%zu\" fill=\"#fff\"/>\n", wide, high, wide, high);
    draw_words(out, PICTURE_LETTER, 8, " font-size=\"15\" font-weight=\"bold\"", picture->title);
    draw_legend(out, 34, story > 0);
    for (uint32_t p = 0; p < picture->processors; p++) {
        char words[32];
        snprintf(words, sizeof words, "processor %" PRIu32, p);
        draw_words(out, left - PICTURE_LETTER, PICTURE_TOP + PICTURE_HIGH * p, " text-anchor=\"end\"", words);
        draw_iterations(out, picture, p, left, PICTURE_TOP + PICTURE_HIGH * p, colours[p]);
    }
    for (size_t r = 0; r < picture->row_count; r++) {
        size_t y = top + PICTURE_HIGH * r;
        int obstacle = picture->rows[r].story[0] != '\0';
        fprintf(out, "<rect x=\"%zu\" y=\"%zu\" width=\"%zu\" height=\"%d\" fill=\"%s\"/>\n", left, y, right - left, PICTURE_HIGH - 1,
                obstacle ? "#ffd9d6" : "#f2f2f2");
        draw_words(out, left - PICTURE_LETTER, y, obstacle ? " text-anchor=\"end\" fill=\"#d00000\"" : " text-anchor=\"end\"",
                   picture->rows[r].label);
        draw_words(out, right + PICTURE_LETTER, y, " fill=\"#d00000\"", picture->rows[r].story);
    }
    for (size_t at = 0; at < picture->column_count; at++) {
        const struct picture_column *column = &picture->columns[at];
        if (column->row >= picture->row_count)
            continue;
        /* A reader of SVG shows the title where the pointer is. */
        fprintf(out, "<g><title>%s, %s = %" PRId32 "</title>\n", picture->rows[column->row].label, picture->variable, column->v);
        draw_access(out, left + PICTURE_WIDE * at, top + PICTURE_HIGH * column->row, column->kind, column->meets,
                    colours[column->processor]);
        fprintf(out, "</g>\n");
    }
    draw_words(out, PICTURE_LETTER, bottom + 14, " fill=\"#555\"", picture->note);
    fprintf(out, "</svg>\n");
}

#endif
