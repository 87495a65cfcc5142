/* Tables and sheet: text to cells, and cells to text. */
#include <errno.h>
#include <inttypes.h>
#include <string.h>

#include "sheet_text.h"

static const char NAME[] = "gilthoren-sheet";
static const char USAGE[] = "usage: gilthoren-sheet cells < TEXT > CELLS\n"
                            "       gilthoren-sheet text < CELLS > TEXT\n";

static int text_to_cells(const struct bytes *in) {
    struct sheet_text sheet = {0};
    struct sheet_error error;
    int status = 1;
    if (sheet_read(&sheet, in, &error)) status = bytes_end(&sheet.input, NAME, 0);
    else sheet_say(&error, "gilthoren-sheet: ");
    sheet_clear(&sheet);
    return status;
}

/* An input that is not readable is written as raw cells, and told. */
static int cells_to_text(const struct bytes *in) {
    struct bytes text = {0};
    struct sheet_refusal refusal = sheet_write(in, &text);
    if (refusal.number)
        fprintf(stderr, "%s: not readable, written as raw cells: refused %" PRIu64 ", cell %zu of the %s\n", NAME, refusal.number, refusal.cell,
                refusal.number == GILTHOREN_BAD_TABLE ? "tables" : "sheet");
    int status = bytes_end(&text, NAME, 0);
    bytes_clear(&text);
    return status;
}

int main(int count, char **words) {
    struct bytes in = {0};
    bool to_cells = count == 2 && strcmp(words[1], "cells") == 0, to_text = count == 2 && strcmp(words[1], "text") == 0;
    if (!to_cells && !to_text) {
        fputs(USAGE, stderr);
        return 2;
    }
    int status = 1;
    if (!bytes_read(&in, stdin)) fprintf(stderr, "%s: cannot read: %s\n", NAME, strerror(errno));
    else status = to_cells ? text_to_cells(&in) : cells_to_text(&in);
    bytes_clear(&in);
    return status;
}
