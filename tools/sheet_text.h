/* Tables and sheet as text that a person writes, and back. docs/TOOLS.md has the grammar.
 *
 * Both sides meet in an `input`: the bytes that the listing program reads, which are the count of table cells, the tables and the sheet. */
#ifndef GILTHOREN_SHEET_TEXT_H
#define GILTHOREN_SHEET_TEXT_H

#include "gilthoren.h"
#include "store.h"
#include "text.h"

/* Names of variables or of labels. */
struct sheet_names {
    struct bytes text;             /* the names, each with a zero behind it */
    struct numbers starts, owners; /* for each name where it starts in the text, and the variable or label that has it */
};

/* What a text or an input gives. All zeros is a sheet that nothing was read into. */
struct sheet_text {
    struct bytes input;
    struct numbers cell_lines;        /* the line of each whole cell of the input, 0 if it has none */
    struct numbers instruction_lines; /* the line of each instruction, for a text in words */
    struct sheet_names variables, labels;
};

/* A message has room for the longest one, which shows two pieces of the text. */
struct sheet_error {
    size_t line; /* from 1; 0 for an error of the whole text */
    char message[160 + 2 * SHOWN_ROOM];
};

/* Tables and sheet in an input, as gilthoren_lower takes them. */
struct sheet_parts {
    const uint8_t *tables, *sheet;
    size_t tables_bytes, sheet_bytes;
};

/* Refusal 1, 2 or 3 and its cell; number 0 for tables and a sheet that are readable. */
struct sheet_refusal {
    uint64_t number;
    size_t cell;
};

/* Reads a text. On false `error` tells the line and what was expected there. */
bool sheet_read(struct sheet_text *sheet, const struct bytes *text, struct sheet_error *error);
/* Takes cells or text, whichever the bytes are: cells have a zero among their first eight bytes, a text in UTF-8 has none. */
bool sheet_take(struct sheet_text *sheet, const struct bytes *file, struct sheet_error *error);

/* The same of the file at a path; what is wrong with it is said on standard error, behind `before`. */
bool sheet_open(struct sheet_text *sheet, const char *path, const char *before);
/* Says what is wrong, behind `before`, on standard error. */
void sheet_say(const struct sheet_error *error, const char *before);
void sheet_clear(struct sheet_text *sheet);

/* Writes an input as text, in words if tables and sheet are readable, else as raw cells. The answer says which. */
struct sheet_refusal sheet_write(const struct bytes *input, struct bytes *text);

/* False when the first cell is missing, negative or beyond the cells that follow. */
bool sheet_split(const struct bytes *input, struct sheet_parts *parts);

/* The name of a variable or label, or NULL. */
const char *sheet_name(const struct sheet_names *names, size_t owner);
/* The variable or label of a name; false if there is none. */
bool sheet_named(const struct sheet_names *names, const char *word, size_t length, size_t *owner);

/* Words by their numbers: types, operations of Binary and of Unary. */
enum { SHEET_TYPES = GILTHOREN_TYPE_NULL + 1, SHEET_BINARY = GILTHOREN_BINARY_REM + 1, SHEET_UNARY = GILTHOREN_UNARY_NOT + 1 };
extern const char *const sheet_type_words[SHEET_TYPES];
extern const char *const sheet_binary_words[SHEET_BINARY];
extern const char *const sheet_unary_words[SHEET_UNARY];

/* Bytes of a variable: 0 for one with no width. Code and count are as a readable sheet has them. */
int64_t sheet_type_size(int64_t code, int64_t count);

/* A variable's offset behind one of offset `end`: the least multiple of its element's width not below `end` plus its size; `end` for one with
 * no width. */
int64_t sheet_offset_behind(int64_t end, int64_t code, int64_t count);

/* The cell of a variable's entry, and that of the first instruction of a readable sheet. */
size_t sheet_entry(size_t variable);
size_t sheet_body(const uint8_t *sheet);

#endif
