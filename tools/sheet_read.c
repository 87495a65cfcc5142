/* Text to tables and sheet. One pass over the lines; a name is declared above its first use. */
#include "sheet_text.h"

#include <stdarg.h>
#include <string.h>

/* Cells of one part of the input, each with its line. */
struct part {
    struct bytes cells;
    struct numbers lines;
};

struct type {
    int64_t code, count;
};

struct reader {
    const char *at, *end; /* what is left of the line, without its comment */
    size_t line;          /* 0 before the first */
    struct sheet_text *sheet;
    struct sheet_error *error;
    struct part floats, variables, parameters, body, raw;
    int64_t strings, labels;
    size_t strings_line, labels_line, returns_line, raw_line; /* 0 until there is such a line */
    struct type returns;
};

struct word {
    const char *at;
    size_t length;
};

/* -- errors -- */

static bool fail(struct reader *r, const char *format, ...) {
    va_list words;
    va_start(words, format);
    r->error->line = r->line;
    vsnprintf(r->error->message, sizeof r->error->message, format, words);
    va_end(words);
    return false;
}

/* A message with the start of what is left of the line. */
static bool expected(struct reader *r, const char *what) {
    if (r->at == r->end) return fail(r, "expected %s, found the end of the line", what);
    return fail(r, "expected %s, found '%s'", what, text_shown(r->at, (size_t)(r->end - r->at)).text);
}

/* -- cells -- */

static void put(struct reader *r, struct part *part, int64_t value) {
    cell_add(&part->cells, value);
    numbers_add(&part->lines, r->line);
}

static size_t cells_of(const struct part *part) {
    return part->cells.count / CELL;
}

/* -- the parts of a line -- */

static bool is_digit(char c) {
    return c >= '0' && c <= '9';
}

/* The bytes of a letter; 0 if there is none. */
static size_t letter(const char *at, const char *end) {
    uint32_t code;
    size_t length = at < end ? text_character(at, end, &code) : 0;
    return length > 0 && text_is_letter(code) ? length : 0;
}

static size_t letter_or_digit(const char *at, const char *end) {
    return at < end && is_digit(*at) ? 1 : letter(at, end);
}

static bool is_blank(char c) {
    return c == ' ' || c == '\t';
}

static void skip_blanks(struct reader *r) {
    while (r->at < r->end && is_blank(*r->at)) r->at++;
}

static bool at_end(struct reader *r) {
    skip_blanks(r);
    return r->at == r->end;
}

static bool need_end(struct reader *r) {
    return at_end(r) || expected(r, "the end of the line");
}

static bool next_is(struct reader *r, char c) {
    return !at_end(r) && *r->at == c;
}

/* Takes a sign if it is next. */
static bool take_sign(struct reader *r, char c) {
    if (!next_is(r, c)) return false;
    r->at++;
    return true;
}

static bool need_sign(struct reader *r, char c) {
    char what[] = {'\'', c, '\'', 0};
    return take_sign(r, c) || expected(r, what);
}

/* The next word, of length 0 if there is none; it is left where it is. */
static struct word peek_word(struct reader *r) {
    skip_blanks(r);
    struct word word = {r->at, letter(r->at, r->end)};
    if (word.length == 0) return word;
    for (size_t more; (more = letter_or_digit(r->at + word.length, r->end)) > 0;) word.length += more;
    return word;
}

static bool is_word(struct word word, const char *text) {
    return word.length == strlen(text) && memcmp(word.at, text, word.length) == 0;
}

/* Takes a word if it is next. */
static bool take_word(struct reader *r, const char *text) {
    struct word word = peek_word(r);
    if (!is_word(word, text)) return false;
    r->at += word.length;
    return true;
}

/* The position of a word in a list, or -1. */
static int position(struct word word, const char *const *list, int count) {
    for (int i = 0; i < count; i++)
        if (is_word(word, list[i])) return i;
    return -1;
}

/* Digits as a number up to a limit. */
static bool digits(const char **at, const char *end, uint64_t limit, uint64_t *value) {
    const char *start = *at;
    *value = 0;
    for (; *at < end && is_digit(**at); ++*at) {
        uint64_t digit = (uint64_t)(**at - '0');
        if (*value > (limit - digit) / 10) return false;
        *value = 10 * *value + digit;
    }
    return *at > start;
}

/* A number of a cell: from -2^63 to 2^63 - 1. */
static bool need_number(struct reader *r, int64_t *value) {
    skip_blanks(r);
    const char *at = r->at;
    bool negative = at < r->end && *at == '-';
    uint64_t size;
    if (negative) at++;
    if (!digits(&at, r->end, (uint64_t)INT64_MAX + negative, &size) || letter(at, r->end) > 0)
        return expected(r, "a number from -9223372036854775808 to 9223372036854775807");
    r->at = at;
    *value = negative ? (size ? -(int64_t)(size - 1) - 1 : 0) : (int64_t)size;
    return true;
}

static bool need_count(struct reader *r, const char *what, int64_t *value) {
    if (at_end(r) || !is_digit(*r->at)) return expected(r, what);
    return need_number(r, value);
}

/* A letter with a number behind it, as v0 or L12. */
static bool is_numbered(struct word word, char letter, int64_t *number) {
    const char *at = word.at + 1, *end = word.at + word.length;
    uint64_t value;
    if (word.length < 2 || *word.at != letter || !digits(&at, end, INT64_MAX, &value) || at != end) return false;
    *number = (int64_t)value;
    return true;
}

/* -- names -- */

static bool is_reserved(struct word word) {
    static const char *const others[] = {"strings", "labels", "label", "variable", "parameter", "returns", "cells", "bytes",  "true",
                                         "false",   "cast",   "zero",  "call",     "jump",      "unless",  "return", "comment"};
    return position(word, others, sizeof others / sizeof *others) >= 0 || position(word, sheet_type_words, SHEET_TYPES) >= 0 ||
           position(word, sheet_binary_words, SHEET_BINARY) >= 0 || position(word, sheet_unary_words, SHEET_UNARY) >= 0;
}

/* A letter that stands for a numbered thing, and digits. */
static bool looks_numbered(struct word word) {
    if (word.length < 2 || !strchr("vLfs", *word.at)) return false;
    for (size_t i = 1; i < word.length; i++)
        if (!is_digit(word.at[i])) return false;
    return true;
}

/* Gives the next word, a new name, to a variable or label. */
static bool need_new_name(struct reader *r, struct sheet_names *names, size_t owner) {
    struct word word = peek_word(r);
    size_t other;
    if (word.length == 0) return expected(r, "a name");
    if (is_reserved(word)) return expected(r, "a name that is not a word of the text form");
    if (looks_numbered(word)) return expected(r, "a name that is not v, L, f or s with a number");
    if (sheet_named(names, word.at, word.length, &other)) return expected(r, "a name that is not given yet");
    numbers_add(&names->starts, names->text.count);
    numbers_add(&names->owners, owner);
    bytes_add(&names->text, word.at, word.length);
    bytes_add(&names->text, "", 1);
    r->at += word.length;
    return true;
}

/* -- types, variables, labels, operands -- */

#define TYPES "a type (long, ulong, short, ushort, float, shortfloat, bool, char, byte, address, custom, null)"
#define OPERATIONS "an operation (add, sub, mul, div, rem, shl, shr, bitand, bitor, bitxor, eq, noteq, lt, le, gt, ge, and, or)"

static bool need_type(struct reader *r, struct type *type) {
    struct word word = peek_word(r);
    int code = position(word, sheet_type_words, SHEET_TYPES);
    if (code <= 0) return expected(r, TYPES);
    r->at += word.length;
    *type = (struct type){code, -1};
    if (!take_sign(r, '[')) return true;
    return need_count(r, "the count of an array", &type->count) && need_sign(r, ']');
}

/* The type of a variable's entry; false if it has none above. */
static bool entry(const struct reader *r, int64_t id, struct type *type) {
    if ((uint64_t)id >= cells_of(&r->variables) / 2) return false;
    *type = (struct type){cell_at(r->variables.cells.at, 2 * (size_t)id), cell_at(r->variables.cells.at, 2 * (size_t)id + 1)};
    return true;
}

static bool unknown_name(struct reader *r, const char *what, struct word word) {
    return fail(r, "expected %s, found '%s', which names no variable above", what, text_shown(word.at, word.length).text);
}

/* A variable as id, code, count: v and its number, or its name; then its own type, if that is not its entry's. */
static bool need_variable(struct reader *r, const char *what, int64_t cells[3]) {
    struct word word = peek_word(r);
    size_t owner;
    struct type type;
    if (word.length == 0 || is_reserved(word)) return expected(r, what);
    if (sheet_named(&r->sheet->variables, word.at, word.length, &owner)) cells[0] = (int64_t)owner;
    else if (!is_numbered(word, 'v', &cells[0])) return unknown_name(r, what, word);
    r->at += word.length;
    if (take_sign(r, ':')) {
        if (!need_type(r, &type)) return false;
    } else if (!entry(r, cells[0], &type)) {
        struct shown shown = text_shown(word.at, word.length);
        return fail(r, "expected a type behind '%s', as %s:long: there is no such variable above", shown.text, shown.text);
    }
    cells[1] = type.code;
    cells[2] = type.count;
    return true;
}

static bool need_label(struct reader *r, int64_t *label) {
    struct word word = peek_word(r);
    size_t owner;
    if (sheet_named(&r->sheet->labels, word.at, word.length, &owner)) *label = (int64_t)owner;
    else if (!is_numbered(word, 'L', label)) return expected(r, "a label (a name that is given above, or L and a number)");
    r->at += word.length;
    return true;
}

/* An integer constant: its number, and its type if that is not long. */
static bool need_int(struct reader *r, int64_t cells[4]) {
    static const char *const types[] = {"long", "ulong", "short", "ushort"};
    cells[0] = GILTHOREN_OPERAND_INT;
    if (!need_number(r, &cells[1])) return false;
    if (!take_sign(r, ':')) return true;
    struct word word = peek_word(r);
    int type = position(word, types, 4);
    if (type < 0) return expected(r, "long, ulong, short or ushort");
    r->at += word.length;
    cells[2] = type / 2;
    cells[3] = type % 2;
    return true;
}

/* The words that are operands by themselves, and constants of the tables. */
static bool is_plain_operand(struct word word, int64_t cells[4]) {
    cells[1] = is_word(word, "true");
    if (is_word(word, "null")) cells[0] = GILTHOREN_OPERAND_NULL;
    else if (is_word(word, "true") || is_word(word, "false")) cells[0] = GILTHOREN_OPERAND_BOOL;
    else if (is_numbered(word, 'f', &cells[1])) cells[0] = GILTHOREN_OPERAND_FLOAT;
    else if (is_numbered(word, 's', &cells[1])) cells[0] = GILTHOREN_OPERAND_DATA_ADDRESS;
    else return false;
    return true;
}

static bool need_operand(struct reader *r, int64_t cells[4]) {
    memset(cells, 0, 4 * sizeof *cells);
    if (at_end(r)) return expected(r, "an operand");
    if (is_digit(*r->at) || *r->at == '-') return need_int(r, cells);
    struct word word = peek_word(r);
    if (is_plain_operand(word, cells)) {
        r->at += word.length;
        return true;
    }
    cells[0] = take_sign(r, '&') ? GILTHOREN_OPERAND_ADDRESS : GILTHOREN_OPERAND_VAR;
    return need_variable(r, cells[0] == GILTHOREN_OPERAND_ADDRESS ? "a variable" : "an operand", cells + 1);
}

/* -- instructions -- */

/* One instruction as 13 cells. */
struct row {
    int64_t kind, operation, dest[3], left[4], right[4];
};

static void put_row(struct reader *r, const struct row *row) {
    numbers_add(&r->sheet->instruction_lines, r->line);
    put(r, &r->body, row->kind);
    put(r, &r->body, row->operation);
    for (int i = 0; i < 3; i++) put(r, &r->body, row->dest[i]);
    for (int i = 0; i < 4; i++) put(r, &r->body, row->left[i]);
    for (int i = 0; i < 4; i++) put(r, &r->body, row->right[i]);
}

/* Behind `call`: symbol number and arguments in parentheses. */
static bool read_call(struct reader *r, struct row *row) {
    size_t count_cell = cells_of(&r->body) + 6;
    int64_t argument[4], count = 0;
    row->kind = GILTHOREN_INSTR_CALL;
    if (!need_count(r, "the number of a symbol", &row->left[0]) || !need_sign(r, '(')) return false;
    put_row(r, row);
    while (!take_sign(r, ')')) {
        if (count > 0 && !take_sign(r, ',')) return expected(r, "',' or ')'");
        if (!need_operand(r, argument)) return false;
        for (int i = 0; i < 4; i++) put(r, &r->body, argument[i]);
        count++;
    }
    cell_set(r->body.cells.at, count_cell, count);
    return need_end(r);
}

/* Behind an operand that starts a right side: an operation and its second operand, or nothing. */
static bool read_copy_or_binary(struct reader *r, struct row *row) {
    if (!need_operand(r, row->left)) return false;
    row->kind = GILTHOREN_INSTR_COPY;
    if (!at_end(r)) {
        struct word word = peek_word(r);
        row->kind = GILTHOREN_INSTR_BINARY;
        row->operation = position(word, sheet_binary_words, SHEET_BINARY);
        if (row->operation < 0) return expected(r, OPERATIONS);
        r->at += word.length;
        if (!need_operand(r, row->right)) return false;
    }
    put_row(r, row);
    return need_end(r);
}

/* A variable, `=` and what it becomes. */
static bool read_assignment(struct reader *r, struct row *row) {
    if (!need_variable(r, "a declaration or an instruction", row->dest) || !need_sign(r, '=')) return false;
    if (take_word(r, "call")) {
        row->operation = 1;
        return read_call(r, row);
    }
    struct word word = peek_word(r);
    int unary = position(word, sheet_unary_words, SHEET_UNARY);
    if (unary < 0 && !is_word(word, "cast")) return read_copy_or_binary(r, row);
    row->kind = unary < 0 ? GILTHOREN_INSTR_CAST : GILTHOREN_INSTR_UNARY;
    row->operation = unary < 0 ? 0 : unary;
    r->at += word.length;
    if (!need_operand(r, row->left)) return false;
    put_row(r, row);
    return need_end(r);
}

/* Behind `jump`: a label, and the condition that must not hold if there is one. */
static bool read_jump(struct reader *r, struct row *row) {
    row->kind = GILTHOREN_INSTR_JUMP;
    if (!need_label(r, &row->operation)) return false;
    if (take_word(r, "unless")) {
        row->kind = GILTHOREN_INSTR_JUMP_IF_NOT;
        if (!need_operand(r, row->left)) return false;
    }
    put_row(r, row);
    return need_end(r);
}

/* A word, a colon and nothing more is a label that stands here. */
static bool is_label_line(struct reader *r) {
    struct word word = peek_word(r);
    r->at += word.length;
    bool is_label = word.length > 0 && take_sign(r, ':') && at_end(r);
    r->at = word.at;
    return is_label;
}

static bool read_label_line(struct reader *r, struct row *row) {
    row->kind = GILTHOREN_INSTR_LABEL;
    if (!need_label(r, &row->operation)) return false;
    put_row(r, row);
    return true;
}

static bool read_instruction(struct reader *r) {
    struct row row = {0};
    if (is_label_line(r)) return read_label_line(r, &row);
    if (take_word(r, "jump")) return read_jump(r, &row);
    if (take_word(r, "call")) return read_call(r, &row);
    if (take_word(r, "return")) {
        row.kind = GILTHOREN_INSTR_RETURN;
        if (!need_operand(r, row.left)) return false;
    } else if (take_word(r, "zero")) {
        row.kind = GILTHOREN_INSTR_ZERO;
        if (!need_variable(r, "a variable", row.dest)) return false;
    } else if (take_word(r, "comment")) {
        row.kind = GILTHOREN_INSTR_COMMENT;
    } else {
        return read_assignment(r, &row);
    }
    put_row(r, &row);
    return need_end(r);
}

/* -- declarations -- */

static bool read_strings(struct reader *r) {
    if (r->strings_line) return fail(r, "expected one line of strings: line %zu counts them", r->strings_line);
    r->strings_line = r->line;
    return need_count(r, "the count of strings", &r->strings) && need_end(r);
}

static bool read_float(struct reader *r) {
    bool is_short = take_word(r, "short");
    if (!is_short && !take_word(r, "long")) return expected(r, "long or short");
    put(r, &r->floats, is_short);
    return need_end(r);
}

static bool read_labels(struct reader *r) {
    int64_t count;
    if (!need_count(r, "the count of labels", &count)) return false;
    if (count > INT64_MAX - r->labels) return fail(r, "expected fewer labels");
    r->labels += count;
    r->labels_line = r->line;
    return need_end(r);
}

static bool read_label(struct reader *r) {
    if (r->labels == INT64_MAX) return fail(r, "expected fewer labels");
    r->labels_line = r->line;
    return need_new_name(r, &r->sheet->labels, (size_t)r->labels++) && need_end(r);
}

/* A type, with a name before it or not. */
static bool read_variable(struct reader *r) {
    struct type type;
    bool has_name = position(peek_word(r), sheet_type_words, SHEET_TYPES) < 0;
    if (has_name && !need_new_name(r, &r->sheet->variables, cells_of(&r->variables) / 2)) return false;
    if (!need_type(r, &type)) return false;
    put(r, &r->variables, type.code);
    put(r, &r->variables, type.count);
    return need_end(r);
}

static bool read_parameter(struct reader *r) {
    int64_t cells[3];
    if (!need_variable(r, "a variable", cells)) return false;
    for (int i = 0; i < 3; i++) put(r, &r->parameters, cells[i]);
    return need_end(r);
}

static bool read_returns(struct reader *r) {
    if (r->returns_line) return fail(r, "expected one return type: line %zu gives it", r->returns_line);
    r->returns_line = r->line;
    if (take_word(r, "none")) return need_end(r);
    return need_type(r, &r->returns) && need_end(r);
}

/* -- raw cells -- */

/* No cell can follow the bytes of a torn one. */
static bool start_raw(struct reader *r) {
    r->raw_line = r->line;
    return r->raw.cells.count % CELL == 0 || fail(r, "expected nothing behind the bytes of a torn cell");
}

static bool read_cells(struct reader *r) {
    int64_t value;
    if (!start_raw(r)) return false;
    while (!at_end(r)) {
        if (!need_number(r, &value)) return false;
        put(r, &r->raw, value);
    }
    return true;
}

static bool read_bytes(struct reader *r) {
    int64_t value;
    if (!start_raw(r)) return false;
    for (int count = 0; count == 0 || !at_end(r); count++) {
        skip_blanks(r);
        const char *start = r->at;
        if (count == CELL - 1) return expected(r, "at most seven bytes");
        if (!need_number(r, &value)) return false;
        if (value < 0 || value > 255) {
            r->at = start;
            return expected(r, "a byte from 0 to 255");
        }
        bytes_add(&r->raw.cells, &(uint8_t){(uint8_t)value}, 1);
    }
    return true;
}

/* -- lines -- */

static bool has_words(const struct reader *r) {
    return r->strings_line || r->labels_line || r->returns_line || cells_of(&r->floats) || cells_of(&r->variables) ||
           cells_of(&r->parameters) || cells_of(&r->body);
}

struct keyword {
    const char *word;
    bool (*read)(struct reader *);
    bool is_raw;
};

/* A line that is not empty, by its first word. */
static bool read_line(struct reader *r) {
    static const struct keyword keywords[] = {
        {"strings", read_strings, false},     {"float", read_float, false},
        {"labels", read_labels, false},       {"label", read_label, false},
        {"variable", read_variable, false},   {"parameter", read_parameter, false},
        {"returns", read_returns, false},     {"cells", read_cells, true},
        {"bytes", read_bytes, true},          {"", read_instruction, false},
    };
    struct word word = peek_word(r);
    const struct keyword *keyword = keywords;
    while (*keyword->word && !is_word(word, keyword->word)) keyword++;
    if (keyword->is_raw ? has_words(r) : r->raw_line > 0) return fail(r, "expected lines of words or lines of raw cells, not both");
    r->at += strlen(keyword->word);
    return keyword->read(r);
}

/* Sets the reader on the next line; false if there is none. A comment is left out. */
static bool next_line(struct reader *r, struct lines *lines) {
    if (!lines_next(lines, &r->at, &r->end)) return false;
    r->line = lines->number;
    const char *comment = memchr(r->at, '#', (size_t)(r->end - r->at));
    if (comment) r->end = comment;
    while (r->end > r->at && is_blank(r->end[-1])) r->end--;
    return true;
}

static bool read_lines(struct reader *r, const struct bytes *text) {
    struct lines lines = text_lines((const char *)text->at, text->count);
    const char *wide = text_wide(text);
    if (wide) return fail(r, "expected a text in UTF-8, found %s", wide);
    while (next_line(r, &lines))
        if (!at_end(r) && !read_line(r)) return false;
    return true;
}

/* -- the input from its parts -- */

/* A cell that is no line's own, with the line that made it what it is. */
static void put_head(struct part *input, int64_t value, size_t line) {
    cell_add(&input->cells, value);
    numbers_add(&input->lines, line);
}

static size_t last_line(const struct part *part) {
    return part->lines.count ? part->lines.at[part->lines.count - 1] : 0;
}

static void append(struct part *input, const struct part *part) {
    bytes_add(&input->cells, part->cells.at, part->cells.count);
    for (size_t i = 0; i < part->lines.count; i++) numbers_add(&input->lines, part->lines.at[i]);
}

/* The count of table cells, tables and sheet. */
static void join(struct reader *r, struct part *input) {
    put_head(input, (int64_t)cells_of(&r->floats) + 1, last_line(&r->floats));
    put_head(input, r->strings, r->strings_line);
    append(input, &r->floats);
    put_head(input, (int64_t)cells_of(&r->variables) / 2, last_line(&r->variables));
    put_head(input, (int64_t)cells_of(&r->parameters) / 3, last_line(&r->parameters));
    put_head(input, r->labels, r->labels_line);
    put_head(input, r->returns.code, r->returns_line);
    put_head(input, r->returns.count, r->returns_line);
    put_head(input, (int64_t)r->sheet->instruction_lines.count, last_line(&r->body));
    append(input, &r->variables);
    append(input, &r->parameters);
    append(input, &r->body);
}

static void part_clear(struct part *part) {
    bytes_clear(&part->cells);
    numbers_clear(&part->lines);
}

static void reader_clear(struct reader *r) {
    part_clear(&r->floats);
    part_clear(&r->variables);
    part_clear(&r->parameters);
    part_clear(&r->body);
    part_clear(&r->raw);
}

bool sheet_read(struct sheet_text *sheet, const struct bytes *text, struct sheet_error *error) {
    struct reader r = {.sheet = sheet, .error = error, .returns = {GILTHOREN_TYPE_NONE, -1}};
    struct part input = {{0}, {0}};
    bool good = read_lines(&r, text);
    if (r.raw_line) append(&input, &r.raw);
    else join(&r, &input);
    sheet->input = input.cells;
    sheet->cell_lines = input.lines;
    reader_clear(&r);
    return good;
}
