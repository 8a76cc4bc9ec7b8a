/* Tells whether two loop texts are alike: whether their printed forms are the same, or else at which line of the forms they begin to
   differ. Of one text alone it prints the form.

       gcc -I include examples/c/alike.c build/liblrpd.a -o build/alike
       build/alike examples/alike/ours.loop examples/alike/theirs.loop

   The exit status is 0 for alike, 1 for different, and 2 if a text is refused or can't be read. */
#include <inttypes.h>
#include <stdio.h>
#include <string.h>
#include "lrpd.h"

/* The bytes lent are enough for every text, so that Print refuses by 1 to 4 alone. */
struct loop {
    uint8_t text[LRPD_MOST_BYTES + 1];
    uint8_t form[LRPD_PRINT_ROOM];
    size_t length;
    struct lrpd_print_answer printed;
};

/* Prints a line of a text or a form, by its number, with ? for bytes that no text has. */
static void show_line(const uint8_t *bytes, size_t length, uint32_t number)
{
    size_t at = 0;
    for (uint32_t line = 1; at < length && line < number; at++)
        line += bytes[at] == '\n';
    for (; at < length && bytes[at] != '\n'; at++)
        putchar(bytes[at] >= ' ' && bytes[at] <= '~' ? bytes[at] : '?');
    putchar('\n');
}

/* Reads a text and takes its form. A refusal is told in words, with its line. */
static void take(struct loop *loop, FILE *file, const char *name)
{
    loop->length = fread(loop->text, 1, sizeof loop->text, file);
    fclose(file);
    loop->printed = lrpd_print(loop->text, loop->length, loop->form, sizeof loop->form);
    if (loop->printed.number == 0)
        return;
    printf("%s: refused %" PRIu32 " %" PRIu32 " %" PRId32 ": %s\n", name, loop->printed.number, loop->printed.line, loop->printed.v,
           lrpd_message(loop->printed.number));
    if (loop->printed.line > 0) {
        printf("  line %" PRIu32 ": ", loop->printed.line);
        show_line(loop->text, loop->length, loop->printed.line);
    }
}

/* The first line at which two forms differ. Both have it: a form ends with its only line `end do`, so none begins another. */
static uint32_t first_difference(const struct loop *one, const struct loop *two)
{
    uint32_t line = 1;
    for (size_t at = 0; one->form[at] == two->form[at]; at++)
        line += one->form[at] == '\n';
    return line;
}

int main(int argc, char **argv)
{
    static struct loop one, two;
    FILE *first = argc == 2 || argc == 3 ? fopen(argv[1], "rb") : NULL;
    FILE *second = argc == 3 ? fopen(argv[2], "rb") : NULL;
    if (first == NULL || (argc == 3 && second == NULL)) {
        fprintf(stderr, "usage: alike FILE [FILE]\n");
        return 2;
    }
    take(&one, first, argv[1]);
    if (argc == 3)
        take(&two, second, argv[2]);
    if (one.printed.number != 0 || two.printed.number != 0)
        return 2;

    if (argc == 2) {
        fwrite(one.form, 1, one.printed.length, stdout);
        return 0;
    }
    if (one.printed.length == two.printed.length && memcmp(one.form, two.form, one.printed.length) == 0) {
        printf("alike\n");
        return 0;
    }
    uint32_t line = first_difference(&one, &two);
    printf("different at line %" PRIu32 " of the forms\n  ", line);
    show_line(one.form, one.printed.length, line);
    printf("  ");
    show_line(two.form, two.printed.length, line);
    return 1;
}
