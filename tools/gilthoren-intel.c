/* The listing program's text with the instruction of each record beside its numbers, in Intel syntax. */
#include <errno.h>
#include <stdlib.h>
#include <string.h>

#include "intel.h"
#include "refusals.h"

static const char NAME[] = "gilthoren-intel";
static const char USAGE[] = "usage: gilthoren-intel [CELLS or TEXT] < LISTING\n";

enum { NUMBERS_WIDTH = 32, LONGEST_LINE = 256 };

/* A listing on its way through. */
struct listing {
    struct lines lines;
    char line[LONGEST_LINE];
    size_t number; /* of the line, from 1 */
    const struct sheet_text *sheet;
    struct bytes text;
};

static int fails(const struct listing *l, const char *message) {
    fprintf(stderr, "%s: line %zu: %s\n", NAME, l->number, message);
    return 1;
}

/* The next line; false if there is none. One that is too long, or has a zero in it, is as good as empty: no line of a listing is. */
static bool next_line(struct listing *l) {
    const char *start, *end;
    l->number++;
    if (!lines_next(&l->lines, &start, &end)) return false;
    size_t length = (size_t)(end - start);
    if (length >= sizeof l->line || memchr(start, 0, length)) length = 0;
    memcpy(l->line, start, length);
    l->line[length] = 0;
    return true;
}

/* So many numbers with single blanks between them, and nothing else. */
static bool numbers(const char *at, int64_t *value, int count) {
    for (int i = 0; i < count; i++) {
        char *end;
        if (*at != '-' && (*at < '0' || *at > '9')) return false;
        errno = 0;
        value[i] = strtoll(at, &end, 10);
        if (errno || end == at || *end != (i + 1 < count ? ' ' : 0)) return false;
        at = end + 1;
    }
    return true;
}

/* The variable of a memory operand by its name, or as v and its number; then what the processor lacks. */
static void put_comment(struct listing *l, const struct record *record) {
    size_t variable;
    bool has_variable = intel_variable(record, l->sheet, &variable), lacks = intel_has_no_encoding(record);
    if (has_variable || lacks) bytes_print(&l->text, "  ; ");
    if (has_variable) {
        const char *name = sheet_name(&l->sheet->variables, variable);
        if (name) bytes_print(&l->text, "%s", name);
        else bytes_print(&l->text, "v%zu", variable);
    }
    if (lacks) bytes_print(&l->text, "%sno encoding", has_variable ? ", " : "");
}

static bool put_record(struct listing *l) {
    int64_t n[8];
    if (!numbers(l->line, n, 8)) return false;
    struct record record = {n[0], n[1], n[2], n[3], n[4], n[5], n[6], n[7]};
    bool is_label = record.form == GILTHOREN_FORM_LABEL;
    bytes_print(&l->text, "%-*s %s", NUMBERS_WIDTH, l->line, is_label ? "" : "    ");
    if (!intel_print(&record, l->sheet, &l->text)) return false;
    put_comment(l, &record);
    bytes_print(&l->text, "\n");
    return true;
}

/* True if the sheet has slots to look a variable up in. */
static bool is_readable(const struct sheet_text *sheet) {
    struct bytes text = {0};
    bool good = sheet_write(&sheet->input, &text).number == 0;
    bytes_clear(&text);
    return good;
}

/* Behind `ok`: so many records and nothing more. */
static int accepted(struct listing *l, int64_t records) {
    if (l->sheet && !is_readable(l->sheet)) return fails(l, "a list, but the file has a sheet that is not readable");
    bytes_print(&l->text, "%s\n", l->line);
    for (int64_t i = 0; i < records; i++) {
        if (!next_line(l)) return fails(l, "expected a record");
        if (!put_record(l)) return fails(l, "expected eight numbers of a record that a list can hold");
    }
    if (next_line(l)) return fails(l, "expected the end of the listing");
    return 0;
}

static int refused(struct listing *l, uint64_t number, uint64_t place) {
    bytes_print(&l->text, "%s: %s, %s (", l->line, refusal_word(number), refusal_meaning(number));
    refusal_place(l->sheet, number, place, &l->text);
    bytes_print(&l->text, ")\n");
    return 0;
}

static int show(struct listing *l) {
    int64_t value[2];
    bool has_line = next_line(l);
    if (has_line && strncmp(l->line, "ok ", 3) == 0 && numbers(l->line + 3, value, 1) && value[0] >= 0) return accepted(l, value[0]);
    if (has_line && strncmp(l->line, "refused ", 8) == 0 && numbers(l->line + 8, value, 2) && refusal_is_known((uint64_t)value[0]) && value[1] >= 0)
        return refused(l, (uint64_t)value[0], (uint64_t)value[1]);
    if (has_line && strcmp(l->line, "too long") == 0) {
        bytes_print(&l->text, "too long: the input has more than 65536 bytes\n");
        return 0;
    }
    return fails(l, "expected 'ok' and a count, 'refused' with number and place, or 'too long'");
}

/* Reads the listing and shows it. */
static int show_listing(struct listing *l) {
    struct bytes listing = {0};
    int status = 1;
    if (!bytes_read(&listing, stdin)) {
        fprintf(stderr, "%s: cannot read: %s\n", NAME, strerror(errno));
    } else if (text_wide(&listing)) {
        fprintf(stderr, "%s: expected a listing in UTF-8, found %s\n", NAME, text_wide(&listing));
    } else {
        l->lines = text_lines((const char *)listing.at, listing.count);
        status = show(l);
    }
    bytes_clear(&listing);
    return status;
}

int main(int count, char **words) {
    struct listing l = {.number = 0};
    struct sheet_text sheet = {0};
    if (count > 2) {
        fputs(USAGE, stderr);
        return 2;
    }
    if (count == 2) l.sheet = &sheet;
    int status = count == 2 && !sheet_open(&sheet, words[1], "gilthoren-intel: ") ? 1 : show_listing(&l);
    if (status == 0) status = bytes_end(&l.text, NAME, 0);
    bytes_clear(&l.text);
    sheet_clear(&sheet);
    return status;
}
