/* Tables and sheet to text. The scan over the cells is the layout's: it stops at the first cell that is refused. */
#include "sheet_text.h"

#include <inttypes.h>

/* A scan over tables or sheet. After a refusal it stays at its cell, and every cell reads as its least value. */
struct scan {
    const uint8_t *at;
    size_t bytes, cell;
    uint64_t wrong; /* the refusal for a cell off the layout */
    struct sheet_refusal refusal;
    struct bytes *text;
    const uint8_t *types; /* the variables' entries, once they are read */
    int64_t variables;
};

struct variable {
    int64_t id, code, count;
};

/* -- cells -- */

static void refuse(struct scan *s, uint64_t number, size_t cell) {
    if (s->refusal.number == 0) s->refusal = (struct sheet_refusal){number, cell};
}

/* Refuses the cell that is next; it reads as its least value. */
static int64_t refuse_next(struct scan *s, uint64_t number, int64_t low) {
    refuse(s, number, s->cell);
    return low;
}

static bool at_end(const struct scan *s) {
    return s->cell * CELL == s->bytes;
}

/* A cell from `low` to `high`; one above `limit` is oversize, any other one is off the layout. */
static int64_t take_limited(struct scan *s, int64_t low, int64_t high, int64_t limit) {
    if (s->refusal.number) return low;
    if (s->bytes / CELL <= s->cell) return refuse_next(s, s->wrong, low);
    int64_t value = cell_at(s->at, s->cell);
    if (value < low || value > high) return refuse_next(s, s->wrong, low);
    if (value > limit) return refuse_next(s, GILTHOREN_OVERSIZE, low);
    s->cell++;
    return value;
}

static int64_t take(struct scan *s, int64_t low, int64_t high) {
    return take_limited(s, low, high, high);
}

/* A count from 0 or, for a type, from -1, with its limit. */
static int64_t take_count(struct scan *s, int64_t low, int64_t limit) {
    return take_limited(s, low, INT64_MAX, limit);
}

static int64_t take_id(struct scan *s) {
    return take(s, 0, INT64_MAX);
}

static void take_zeros(struct scan *s, int count) {
    while (count-- > 0) take(s, 0, 0);
}

static struct variable take_variable(struct scan *s) {
    struct variable v;
    v.id = take_id(s);
    v.code = take(s, GILTHOREN_TYPE_LONG, GILTHOREN_TYPE_NULL);
    v.count = take_count(s, -1, GILTHOREN_MOST_COUNT);
    return v;
}

/* -- words -- */

static void put_type(struct scan *s, int64_t code, int64_t count) {
    bytes_print(s->text, "%s", sheet_type_words[code]);
    if (count != -1) bytes_print(s->text, "[%lld]", (long long)count);
}

static bool is_entry(const struct scan *s, struct variable v) {
    return v.id < s->variables && cell_at(s->types, 2 * (size_t)v.id) == v.code && cell_at(s->types, 2 * (size_t)v.id + 1) == v.count;
}

static void put_variable(struct scan *s, struct variable v) {
    if (s->refusal.number) return;
    bytes_print(s->text, "v%lld", (long long)v.id);
    if (is_entry(s, v)) return;
    bytes_print(s->text, ":");
    put_type(s, v.code, v.count);
}

static void write_int(struct scan *s) {
    static const char *const types[] = {"", ":ulong", ":short", ":ushort"};
    int64_t value = take(s, INT64_MIN, INT64_MAX);
    int64_t is_short = take(s, 0, 1), is_unsigned = take(s, 0, 1);
    bytes_print(s->text, "%lld%s", (long long)value, types[2 * is_short + is_unsigned]);
}

static void write_operand(struct scan *s) {
    int64_t kind = take(s, GILTHOREN_OPERAND_VAR, GILTHOREN_OPERAND_NULL);
    if (kind == GILTHOREN_OPERAND_INT) {
        write_int(s);
        return;
    }
    if (kind == GILTHOREN_OPERAND_VAR || kind == GILTHOREN_OPERAND_ADDRESS) {
        if (kind == GILTHOREN_OPERAND_ADDRESS) bytes_print(s->text, "&");
        put_variable(s, take_variable(s));
        return;
    }
    if (kind == GILTHOREN_OPERAND_FLOAT) bytes_print(s->text, "f%lld", (long long)take_id(s));
    if (kind == GILTHOREN_OPERAND_DATA_ADDRESS) bytes_print(s->text, "s%lld", (long long)take_id(s));
    if (kind == GILTHOREN_OPERAND_BOOL) bytes_print(s->text, "%s", take(s, 0, 1) ? "true" : "false");
    if (kind == GILTHOREN_OPERAND_NULL) bytes_print(s->text, "null");
    take_zeros(s, kind == GILTHOREN_OPERAND_NULL ? 3 : 2);
}

/* -- instructions: each starts behind its kind -- */

static void write_dest(struct scan *s) {
    put_variable(s, take_variable(s));
    bytes_print(s->text, " = ");
}

static void write_left(struct scan *s) {
    write_operand(s);
    take_zeros(s, 4);
}

static void write_unary(struct scan *s) {
    int64_t operation = take(s, 0, SHEET_UNARY - 1);
    write_dest(s);
    bytes_print(s->text, "%s ", sheet_unary_words[operation]);
    write_left(s);
}

static void write_binary(struct scan *s) {
    int64_t operation = take(s, 0, SHEET_BINARY - 1);
    write_dest(s);
    write_operand(s);
    bytes_print(s->text, " %s ", sheet_binary_words[operation]);
    write_operand(s);
}

/* Copy and Cast. */
static void write_copy(struct scan *s, const char *word) {
    take_zeros(s, 1);
    write_dest(s);
    bytes_print(s->text, "%s", word);
    write_left(s);
}

static void write_zero(struct scan *s) {
    take_zeros(s, 1);
    bytes_print(s->text, "zero ");
    put_variable(s, take_variable(s));
    take_zeros(s, 8);
}

static void write_call(struct scan *s) {
    if (take(s, 0, 1)) write_dest(s);
    else take_zeros(s, 3);
    bytes_print(s->text, "call %lld(", (long long)take_id(s));
    int64_t count = take_count(s, 0, GILTHOREN_MOST_ARGUMENTS);
    take_zeros(s, 6);
    for (int64_t i = 0; i < count && !s->refusal.number; i++) {
        bytes_print(s->text, "%s", i > 0 ? ", " : "");
        write_operand(s);
    }
    bytes_print(s->text, ")");
}

static void write_jump_if_not(struct scan *s) {
    bytes_print(s->text, "jump L%lld unless ", (long long)take_id(s));
    take_zeros(s, 3);
    write_left(s);
}

static void write_return(struct scan *s) {
    take_zeros(s, 4);
    bytes_print(s->text, "return ");
    write_left(s);
}

/* Label and Jump: a label's number and zeros. */
static void write_label(struct scan *s, const char *before, const char *behind) {
    bytes_print(s->text, "%sL%lld%s", before, (long long)take_id(s), behind);
    take_zeros(s, 11);
}

static void write_comment(struct scan *s) {
    bytes_print(s->text, "comment");
    take_zeros(s, 12);
}

static void write_instruction(struct scan *s) {
    switch ((enum gilthoren_instr)take(s, GILTHOREN_INSTR_COPY, GILTHOREN_INSTR_COMMENT)) {
    case GILTHOREN_INSTR_COPY: write_copy(s, ""); break;
    case GILTHOREN_INSTR_UNARY: write_unary(s); break;
    case GILTHOREN_INSTR_BINARY: write_binary(s); break;
    case GILTHOREN_INSTR_CAST: write_copy(s, "cast "); break;
    case GILTHOREN_INSTR_ZERO: write_zero(s); break;
    case GILTHOREN_INSTR_CALL: write_call(s); break;
    case GILTHOREN_INSTR_LABEL: write_label(s, "", ":"); break;
    case GILTHOREN_INSTR_JUMP: write_label(s, "jump ", ""); break;
    case GILTHOREN_INSTR_JUMP_IF_NOT: write_jump_if_not(s); break;
    case GILTHOREN_INSTR_RETURN: write_return(s); break;
    case GILTHOREN_INSTR_COMMENT: write_comment(s); break;
    }
    bytes_print(s->text, "\n");
}

/* -- tables and sheet -- */

static void write_tables(struct scan *s) {
    int64_t strings = take(s, 0, GILTHOREN_MOST_STRINGS);
    if (strings > 0) bytes_print(s->text, "strings %lld\n", (long long)strings);
    for (int i = 0; !at_end(s) && !s->refusal.number; i++) {
        if (i == GILTHOREN_MOST_FLOATS) refuse(s, s->wrong, s->cell);
        bytes_print(s->text, "float %s  # f%d\n", take(s, 0, 1) ? "short" : "long", i);
    }
}

/* The variables; the count of the one whose offset passes its limit is oversize. */
static void write_variables(struct scan *s, int64_t variables) {
    int64_t offset = 0;
    s->types = s->at + sheet_entry(0) * CELL;
    for (int64_t i = 0; i < variables && !s->refusal.number; i++) {
        int64_t code = take(s, GILTHOREN_TYPE_LONG, GILTHOREN_TYPE_NULL), count = take_count(s, -1, GILTHOREN_MOST_COUNT);
        offset = sheet_offset_behind(offset, code, count);
        if (offset > GILTHOREN_MOST_COUNT) refuse(s, GILTHOREN_OVERSIZE, s->cell - 1);
        bytes_print(s->text, "variable ");
        put_type(s, code, count);
        bytes_print(s->text, "  # v%lld\n", (long long)i);
    }
    s->variables = variables;
}

static void write_parameters(struct scan *s, int64_t parameters) {
    for (int64_t i = 0; i < parameters && !s->refusal.number; i++) {
        bytes_print(s->text, "parameter ");
        put_variable(s, take_variable(s));
        bytes_print(s->text, "\n");
    }
}

/* The return type, 0 and -1 for none. */
static void take_returns(struct scan *s, int64_t *code, int64_t *count) {
    *code = take(s, GILTHOREN_TYPE_NONE, GILTHOREN_TYPE_NULL);
    *count = *code == GILTHOREN_TYPE_NONE ? take(s, -1, -1) : take_count(s, -1, GILTHOREN_MOST_COUNT);
}

static void write_sheet(struct scan *s) {
    int64_t code, count;
    int64_t variables = take_count(s, 0, GILTHOREN_MOST_VARIABLES), parameters = take_count(s, 0, GILTHOREN_MOST_PARAMETERS);
    int64_t labels = take_count(s, 0, GILTHOREN_MOST_LABELS);
    take_returns(s, &code, &count);
    int64_t instructions = take_count(s, 0, GILTHOREN_MOST_INSTRUCTIONS);
    write_variables(s, variables);
    write_parameters(s, parameters);
    if (labels > 0) bytes_print(s->text, "labels %lld\n", (long long)labels);
    if (code != GILTHOREN_TYPE_NONE) {
        bytes_print(s->text, "returns ");
        put_type(s, code, count);
        bytes_print(s->text, "\n");
    }
    if (instructions > 0) bytes_print(s->text, "\n");
    for (int64_t i = 0; i < instructions && !s->refusal.number; i++) write_instruction(s);
    if (!at_end(s)) refuse(s, GILTHOREN_TORN_SHEET, s->cell);
}

/* -- raw cells -- */

static void write_raw(const struct bytes *input, struct sheet_refusal refusal, struct bytes *text) {
    enum { A_LINE = 13 };
    size_t cells = input->count / CELL;
    const char *slice = refusal.number == GILTHOREN_BAD_TABLE ? "tables" : "sheet";
    bytes_print(text, "# not readable: refused %" PRIu64 ", cell %zu of the %s\n", refusal.number, refusal.cell, slice);
    for (size_t i = 0; i < cells; i++) {
        if (i % A_LINE == 0) bytes_print(text, "%scells", i > 0 ? "\n" : "");
        bytes_print(text, " %lld", (long long)cell_at(input->at, i));
    }
    bytes_print(text, cells == 0 ? "cells\n" : "\n");
    if (input->count % CELL == 0) return;
    bytes_print(text, "bytes");
    for (size_t i = CELL * cells; i < input->count; i++) bytes_print(text, " %d", input->at[i]);
    bytes_print(text, "\n");
}

struct sheet_refusal sheet_write(const struct bytes *input, struct bytes *text) {
    struct sheet_refusal refusal = {GILTHOREN_BAD_TABLE, 0};
    struct sheet_parts parts;
    struct bytes words = {0};
    if (sheet_split(input, &parts)) {
        struct scan tables = {.at = parts.tables, .bytes = parts.tables_bytes, .wrong = GILTHOREN_BAD_TABLE, .text = &words};
        struct scan sheet = {.at = parts.sheet, .bytes = parts.sheet_bytes, .wrong = GILTHOREN_TORN_SHEET, .text = &words};
        write_tables(&tables);
        if (!tables.refusal.number) write_sheet(&sheet);
        refusal = tables.refusal.number ? tables.refusal : sheet.refusal;
    }
    if (refusal.number) write_raw(input, refusal, text);
    else bytes_add(text, words.at, words.count);
    bytes_clear(&words);
    return refusal;
}
