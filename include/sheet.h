/* Viseorchid: text wrapped into the lines of a sheet, and tables laid onto it.
 *
 * The calls of target/staticlib/libsheet_c.a, which `tools/build sheet_c` proves and builds; it needs memcpy and memset
 * and nothing else. Inputs and sheets are fields: a letter, a length of two bytes, high byte first, and that many bytes.
 *   job       W (width, flags: 1 pad, 2 allow overflow; annotation of padding), then any number of
 *             T (mode: 0 Normal, 1 Pre, 2 PreWrap; annotation, annotation of what wraps in Pre, UTF-8 text) and F (name)
 *   sheet     H (number of lines, two bytes), then so many lines, then any number of F, names that wait, then any number
 *             of V; H counts the lines alone
 *   line      L, a text, of S (annotation, text) and F (name); B, a border (annotation, then a segment for each column,
 *             0 to 11); G, a border with holes (annotation, number of segments in two bytes, the segments, then for
 *             each hole, one at least, its column in two bytes and an S or F)
 *   V         a hanging cell (position, two bytes; width; rows left, 1 to 16; then its lines)
 *   cells     C (width, then lines); K, a cell that spans rows (width, number of rows, 1 to 16, then lines); a cell's
 *             lines are a sheet's without its first five bytes and without what follows its lines, F and V
 *   prefixes  P (text)
 * README.md, "The house format", says more, and which characters a text may hold.
 *
 * Every call reads its inputs and writes a sheet into the lent store. It gives back a number:
 *   0       The sheet stands at the start of the store, and *length is its length in bytes. The store's bytes
 *           past the sheet are as they were.
 *   1 to 10 A refusal (enum sheet_refusal). The whole store is zeroed, and *length is 0; for refusal 8 it is the
 *           length that the store would need.
 * A job's sheet has at most 5 + 15 u bytes, with pad 5 + (19 + width) u, u being its text and name bytes and one for each
 * name; a store of no bytes gives 8 with the length needed.
 *
 * A call takes every input, however damaged. It never fails otherwise, allocates nothing and keeps nothing; it uses
 * at most 160 KB of stack, and calls from several threads do not disturb each other.
 *
 * What a caller owes: each pointer is valid for its length and not null, also where the length is 0; `length` is not
 * null; the store and *length overlap with no input and not with each other; a flag is true or false.
 */
#ifndef SHEET_H
#define SHEET_H

#include <stdbool.h>
#include <stddef.h>
#include <stdint.h>

#ifdef __cplusplus
extern "C" {
#endif

/* The numbers of the refusals. Where several apply, 1 to 4 come first, over the whole input, then 5, 6, 10, 7, 9, 8. */
enum sheet_refusal {
    SHEET_CROOKED_RECORD = 1,    /* a field breaks the format, is missing or out of place; over 16 cells; a number of
                                    rows off 1 to 16; a hole that ends past its border */
    SHEET_NO_WIDTH = 2,          /* the width of a block, cell, hanging cell or sheet is 0 */
    SHEET_STRANGE_CHARACTER = 3, /* not well-formed UTF-8, or a character that is off the list */
    SHEET_OVERFULL_JOB = 4,      /* a job's texts and names have over 4,096 bytes, one more counted for each name */
    SHEET_TOO_NARROW = 5,        /* a character is wider than its line, and overflow is not allowed */
    SHEET_NO_BORDER_ABOVE = 6,   /* collapsing meets a cell that starts with a border, under no border */
    SHEET_LONG_LINE = 7,         /* a line or a hanging cell of the result has over 65,535 bytes */
    SHEET_STORE_SHORT = 8,       /* the sheet is longer than the store */
    SHEET_LONG_SHEET = 9,        /* the result has over 65,535 lines */
    SHEET_OVERHANG_MISFIT = 10   /* holes overlap, a new hole ends past its border, or a hanging cell is wider than its
                                    row and short of lines: see below */
};

/* The sheet of a job: its texts wrapped to the block's width. Names behind its last closed word wait at the sheet's end, as
 * F fields; names lost in a hard wrap stay lost. Refusals 1 to 5 and 8. */
uint8_t sheet_render(const uint8_t *job, size_t job_length,
                     uint8_t *store, size_t store_length, uint64_t *length);

/* The sheet with the guest sheet's lines added, each behind a prefix. Lines and prefixes (P fields) go in pairs, which
 * end with the shorter list; with `repeat_last` the last prefix repeats. The sheet's V fields are handed on as they are;
 * the guest's V fields and waiting names are checked and dropped. Refusals 1, 2, 3, 7, 8, 9 and 10. */
uint8_t sheet_append_subrender(const uint8_t *sheet, size_t sheet_length,
                               const uint8_t *guest, size_t guest_length,
                               const uint8_t *prefixes, size_t prefixes_length,
                               bool repeat_last, uint8_t width, bool pad, bool borders, uint8_t annotation,
                               uint8_t *store, size_t store_length, uint64_t *length);

/* The sheet with a row of cells (at most 16 C and K fields) beside each other, their inner edges joined to the borders
 * above and below. `collapse` merges the cells' own first and last borders into these two. The sheet's V fields are
 * taken in, and what hangs on below the row is handed out as V fields. Refusals 1, 2, 3, 6, 7, 8, 9 and 10. */
uint8_t sheet_append_columns_with_borders(const uint8_t *sheet, size_t sheet_length,
                                          const uint8_t *cells, size_t cells_length,
                                          bool collapse, uint8_t width, bool pad, bool borders, uint8_t annotation,
                                          uint8_t *store, size_t store_length, uint64_t *length);

/* The sheet with cells (at most 16 C fields; a K is refusal 1) below each other and, with `borders`, a border between
 * two cells and one at the end. The sheet's V fields are handed on as they are. Refusals 1, 2, 3, 7, 8, 9 and 10. */
uint8_t sheet_append_vert_row(const uint8_t *sheet, size_t sheet_length,
                              const uint8_t *cells, size_t cells_length,
                              uint8_t width, bool pad, bool borders, uint8_t annotation,
                              uint8_t *store, size_t store_length, uint64_t *length);

/* In the last three: `width` is the sheet's width in columns, which counts for padding and for the borders of
 * sheet_append_vert_row; a row of cells is as wide as the cells and one column for each edge between them. `pad` fills
 * each added line to the width and turns an added border into text, which a later row does not join: build tables
 * without it. `borders` draws the borders and edges; without it edges are spaces, no border is added, and a border above
 * is joined all the same. `annotation` marks what the call itself writes.
 *
 * Names that wait. The F fields behind the sheet's lines go to the front of the first text line that a call adds, before
 * its prefix and in their order; all neighbouring pieces of that line with equal annotations are then joined. A border
 * that a call adds does not take them, also where `pad` turns it into text; a border in a guest or in a line of a row is
 * text and does. A call that adds no text line hands them on, before the V fields. A name that waits may have 65,535
 * bytes; the line that takes it is refused with 7 where it becomes too long. To end the waiting, cut the F fields out; to
 * use a sheet's lines as a cell's, cut F and V fields off.
 *
 * Cells that span rows. A K cell of n rows stands in its own row and in the n - 1 rows after it. After each row but its
 * last, what is left of it comes back as a V field at the sheet's end. Its position is the sum of the widths of the cells
 * before it in its own row, one more for each; its rows left are one fewer. Give the sheet with its V fields to the next
 * sheet_append_columns_with_borders.
 * - In these rows put a stand-in at the place of each hanging cell: a C cell of its width without lines. A V field takes
 *   the place of the first cell that does not begin to the left of its position, and that cell is lost, whatever it
 *   holds; without a stand-in it is one of yours. Where there is no such cell, the V field stands after all cells, behind
 *   an empty cell that fills the columns up to it.
 * - For a row's height a spanning cell counts its lines divided by its rows left, rounded down, and in its last row all
 *   lines that it still has. The row is as high as the highest of its cells.
 * - The line after those of the row stands in the border below it, each piece a hole, and is used up: the border is a G
 *   field. A cell that has no such line gives a hole of blanks, and a line without pieces gives none. Without `borders`
 *   the line is used up all the same and is not shown.
 * - V fields stay until their rows are laid, also past the end of a table: the next row on that sheet takes them in. To end
 *   a table early, cut the sheet's bytes at the first V field; H counts the lines alone and stays right.
 * - The lines of a K cell are filled to its width in its first row; a V field's are laid as they stand.
 * - A border in a guest or in a line of the row, with holes or without, becomes text of the call's annotation: the holes'
 *   texts show, their names are gone. Names and annotations stay where a cell's border stands in the border below, as
 *   holes, and where with `pad` the border below becomes text.
 * - To print a sheet, give it to sheet_append_subrender as the guest of a sheet without lines, with one empty prefix that
 *   repeats: each line of the answer is a text, the borders too, and nothing follows the lines.
 * Refusal 10 is given where
 * - a G field that becomes text in a guest, a cell or a hanging cell has a hole that begins before the one ahead of it
 *   ends;
 * - a new hole ends past the border below the row, with `borders` or without, as when the last cell spans rows and its
 *   line is wider than the cell;
 * - a V field took the place of a cell, is wider than the whole row, has too few lines for the row, and `collapse` took
 *   no last border off it. */

#ifdef __cplusplus
}
#endif

#endif
