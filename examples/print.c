/* Reads a job from standard input and prints its sheet to a terminal, one line of the sheet to a line. From the top folder:
 *   tools/build sheet_c && cc -Iinclude examples/print.c target/staticlib/libsheet_c.a -o target/print
 *   target/print < examples/shelf.job */
#include <stdio.h>
#include "sheet.h"

static const char *const marks[12] = {"─", "┴", "┬", "┼", "│", "/", "┤", "├", "┌", "┐", "└", "┘"}; /* segments 0 to 11 */
static uint8_t job[65536], store[65536];

static size_t size_of(const uint8_t *field) { return (size_t)field[1] << 8 | field[2]; } /* behind the letter, two bytes */

static void show_text(const uint8_t *line) { /* an L field: the texts of its S fields, behind an annotation */
    for (size_t at = 3; at < 3 + size_of(line); at += 3 + size_of(line + at))
        if (line[at] == 'S') fwrite(line + at + 4, 1, size_of(line + at) - 1, stdout);
}

static void show_border(const uint8_t *line) { /* a B field: its segments */
    for (size_t at = 4; at < 3 + size_of(line); at++) fputs(marks[line[at]], stdout);
}

int main(void) {
    uint64_t length;
    size_t read = fread(job, 1, sizeof job, stdin);
    uint8_t number = sheet_render(job, read, store, sizeof store, &length);
    if (number != 0) return fprintf(stderr, "refused %u\n", number), 1;
    /* Past the head, line by line; behind the lines are F fields, names that wait. */
    for (size_t at = 5; at < length && store[at] != 'F'; at += 3 + size_of(store + at)) {
        if (store[at] == 'L') show_text(store + at);
        else show_border(store + at);
        putchar('\n');
    }
    return 0;
}
