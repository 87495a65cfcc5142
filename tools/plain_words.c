/* What a function lacks to be a plain one, in words. Each function gives a condition that is broken, or NULL. */
#include "plain_words.h"

/* Where the parts of an instruction start among its cells, and where a call counts its arguments. */
enum { OPERATION = 1, DEST = 2, LEFT = 5, RIGHT = 9, ARGUMENTS = 6 };

static const int64_t LOW = -(1LL << 31), IMMEDIATE_HIGH = (1LL << 31) - 1, SHORT_HIGH = (1LL << 32) - 1;

static const char NO_PLAIN_CODE[] = "a variable is a float, custom or null";

/* -- variables -- */

/* Integers, Bool, Char, Byte and Address. */
static bool is_plain_code(int64_t code) {
    return (code >= GILTHOREN_TYPE_LONG && code <= GILTHOREN_TYPE_UNSIGNED_SHORT) || (code >= GILTHOREN_TYPE_BOOL && code <= GILTHOREN_TYPE_ADDRESS);
}

/* Of the variable at a cell: its id, code and count. */
static const char *entry_words(const uint8_t *sheet, size_t cell) {
    int64_t id = cell_at(sheet, cell);
    if (id >= cell_at(sheet, 0)) return "a variable has no entry";
    size_t entry = sheet_entry((size_t)id);
    if (cell_at(sheet, cell + 1) != cell_at(sheet, entry) || cell_at(sheet, cell + 2) != cell_at(sheet, entry + 1))
        return "a variable's own type is not its entry's";
    return is_plain_code(cell_at(sheet, cell + 1)) ? NULL : NO_PLAIN_CODE;
}

static const char *scalar_words(const uint8_t *sheet, size_t cell) {
    const char *words = entry_words(sheet, cell);
    if (words) return words;
    return cell_at(sheet, cell + 2) == -1 ? NULL : "an array stands elsewhere than under zero";
}

static int64_t dest_width(const uint8_t *sheet, size_t dest) {
    return sheet_type_size(cell_at(sheet, dest + 1), -1);
}

/* -- operands -- */

static bool is_within(int64_t value, int64_t low, int64_t high) {
    return value >= low && value <= high;
}

static bool is_constant(const uint8_t *sheet, size_t cell, bool is_short) {
    return cell_at(sheet, cell) == GILTHOREN_OPERAND_INT && cell_at(sheet, cell + 2) == is_short;
}

static const char *operand_words(const uint8_t *sheet, size_t cell) {
    if (is_constant(sheet, cell, true) && !is_within(cell_at(sheet, cell + 1), LOW, SHORT_HIGH)) return "a short constant is not in -2^31 to 2^32 - 1";
    switch ((enum gilthoren_operand)cell_at(sheet, cell)) {
    case GILTHOREN_OPERAND_VAR: return scalar_words(sheet, cell + 1);
    case GILTHOREN_OPERAND_FLOAT: return "an operand is a float constant";
    case GILTHOREN_OPERAND_ADDRESS: return "an operand is the address of a variable";
    case GILTHOREN_OPERAND_DATA_ADDRESS: return "an operand is the address of a string";
    default: return NULL;
    }
}

/* Of an operand that is plain. */
static int64_t width(const uint8_t *sheet, size_t cell) {
    int64_t kind = cell_at(sheet, cell);
    if (kind == GILTHOREN_OPERAND_VAR) return dest_width(sheet, cell + 1);
    if (kind == GILTHOREN_OPERAND_BOOL) return 1;
    return is_constant(sheet, cell, true) ? 4 : 8;
}

static bool is_bool(const uint8_t *sheet, size_t cell) {
    int64_t kind = cell_at(sheet, cell);
    return kind == GILTHOREN_OPERAND_BOOL || (kind == GILTHOREN_OPERAND_VAR && cell_at(sheet, cell + 2) == GILTHOREN_TYPE_BOOL);
}

/* -- labels -- */

static size_t behind(const uint8_t *sheet, size_t cell) {
    size_t arguments = cell_at(sheet, cell) == GILTHOREN_INSTR_CALL ? (size_t)cell_at(sheet, cell + ARGUMENTS) : 0;
    return cell + GILTHOREN_CELLS_INSTR + GILTHOREN_CELLS_OPERAND * arguments;
}

/* Whether a label stands among the first instructions. */
static bool stands(const uint8_t *sheet, int64_t label, uint64_t instructions) {
    size_t cell = sheet_body(sheet);
    for (; instructions > 0; instructions--, cell = behind(sheet, cell))
        if (cell_at(sheet, cell) == GILTHOREN_INSTR_LABEL && cell_at(sheet, cell + OPERATION) == label) return true;
    return false;
}

static const char *jump_words(const uint8_t *sheet, size_t cell) {
    bool has_place = stands(sheet, cell_at(sheet, cell + OPERATION), (uint64_t)cell_at(sheet, 5));
    return has_place ? NULL : "the label that it jumps to stands nowhere";
}

/* -- instructions, each by its first cell -- */

static const char *dest_and_left(const uint8_t *sheet, size_t cell) {
    const char *words = scalar_words(sheet, cell + DEST);
    return words ? words : operand_words(sheet, cell + LEFT);
}

/* Copy and Unary. */
static const char *move_words(const uint8_t *sheet, size_t cell) {
    const char *words = dest_and_left(sheet, cell);
    if (words) return words;
    return width(sheet, cell + LEFT) == dest_width(sheet, cell + DEST) ? NULL : "operand and dest do not agree in width";
}

/* What an operation other than a comparison asks beyond widths. */
static const char *operation_words(const uint8_t *sheet, size_t cell) {
    int64_t operation = cell_at(sheet, cell + OPERATION);
    bool is_byte = dest_width(sheet, cell + DEST) == 1;
    bool takes_immediate = is_within(operation, GILTHOREN_BINARY_BIT_OR, GILTHOREN_BINARY_BIT_AND) || operation == GILTHOREN_BINARY_ADD || operation == GILTHOREN_BINARY_SUB;
    if (takes_immediate && is_constant(sheet, cell + RIGHT, false) && !is_within(cell_at(sheet, cell + RIGHT + 1), LOW, IMMEDIATE_HIGH))
        return "a long constant as right is not in -2^31 to 2^31 - 1";
    if (operation == GILTHOREN_BINARY_MUL && is_byte) return "mul is not one byte wide";
    return operation == GILTHOREN_BINARY_REM && is_byte ? "rem is not one byte wide" : NULL;
}

static const char *binary_words(const uint8_t *sheet, size_t cell) {
    const char *words = dest_and_left(sheet, cell);
    int64_t operation = cell_at(sheet, cell + OPERATION);
    if (!words) words = operand_words(sheet, cell + RIGHT);
    if (words || operation == GILTHOREN_BINARY_OR || operation == GILTHOREN_BINARY_AND) return words;
    if (width(sheet, cell + LEFT) != width(sheet, cell + RIGHT)) return "left and right do not agree in width";
    if (is_within(operation, GILTHOREN_BINARY_EQ, GILTHOREN_BINARY_GE)) return cell_at(sheet, cell + DEST + 1) == GILTHOREN_TYPE_BOOL ? NULL : "the dest of a comparison is not bool";
    if (width(sheet, cell + LEFT) != dest_width(sheet, cell + DEST)) return "operands and dest do not agree in width";
    return operation_words(sheet, cell);
}

static const char *cast_words(const uint8_t *sheet, size_t cell) {
    const char *words = dest_and_left(sheet, cell);
    if (words) return words;
    int64_t code = cell_at(sheet, cell + DEST + 1), from = width(sheet, cell + LEFT), to = dest_width(sheet, cell + DEST);
    if (from == 4 && to == 8 && code != GILTHOREN_TYPE_LONG && code != GILTHOREN_TYPE_UNSIGNED_LONG) return "a cast from four bytes to eight has a dest of long or ulong";
    if (to < 8 && is_constant(sheet, cell + LEFT, false) && !is_within(cell_at(sheet, cell + LEFT + 1), LOW, SHORT_HIGH))
        return "a long constant that is cast to fewer bytes is not in -2^31 to 2^32 - 1";
    return NULL;
}

static const char *jump_if_not_words(const uint8_t *sheet, size_t cell) {
    const char *words = operand_words(sheet, cell + LEFT);
    if (words) return words;
    return is_bool(sheet, cell + LEFT) ? jump_words(sheet, cell) : "the condition is not bool";
}

static const char *label_words(const uint8_t *sheet, size_t cell, uint64_t before) {
    return stands(sheet, cell_at(sheet, cell + OPERATION), before) ? "the label stands already" : NULL;
}

static const char *instruction_words(const uint8_t *sheet, size_t cell, uint64_t before) {
    switch ((enum gilthoren_instr)cell_at(sheet, cell)) {
    case GILTHOREN_INSTR_COPY:
    case GILTHOREN_INSTR_UNARY: return move_words(sheet, cell);
    case GILTHOREN_INSTR_BINARY: return binary_words(sheet, cell);
    case GILTHOREN_INSTR_CAST: return cast_words(sheet, cell);
    case GILTHOREN_INSTR_ZERO: return entry_words(sheet, cell + DEST);
    case GILTHOREN_INSTR_CALL: return "it is a call";
    case GILTHOREN_INSTR_LABEL: return label_words(sheet, cell, before);
    case GILTHOREN_INSTR_JUMP: return jump_words(sheet, cell);
    case GILTHOREN_INSTR_JUMP_IF_NOT: return jump_if_not_words(sheet, cell);
    case GILTHOREN_INSTR_RETURN: return operand_words(sheet, cell + LEFT);
    case GILTHOREN_INSTR_COMMENT: break;
    }
    return NULL;
}

/* -- variables, parameters, return type -- */

static const char *return_words(const uint8_t *sheet) {
    int64_t code = cell_at(sheet, 3), count = cell_at(sheet, 4);
    if (count != -1) return "the return type is an array";
    return code == GILTHOREN_TYPE_NONE || code == GILTHOREN_TYPE_NULL || is_plain_code(code) ? NULL : "the return type is a float or custom";
}

static const char *parameter_words(const uint8_t *sheet, size_t first, size_t cell) {
    for (size_t other = first; other < cell; other += GILTHOREN_CELLS_VARIABLE)
        if (cell_at(sheet, other) == cell_at(sheet, cell)) return "two parameters are one variable";
    const char *words = entry_words(sheet, cell);
    if (words) return words;
    return cell_at(sheet, cell + 2) == -1 ? NULL : "a parameter is an array";
}

static const char *head_words(const uint8_t *sheet) {
    size_t first = sheet_entry((size_t)cell_at(sheet, 0)), end = sheet_body(sheet);
    for (size_t cell = sheet_entry(0); cell < first; cell += GILTHOREN_CELLS_TYPE)
        if (!is_plain_code(cell_at(sheet, cell))) return NO_PLAIN_CODE;
    const char *words = return_words(sheet);
    for (size_t cell = first; !words && cell < end; cell += GILTHOREN_CELLS_VARIABLE) words = parameter_words(sheet, first, cell);
    return words;
}

const char *plain_words(const uint8_t *sheet, uint64_t number) {
    size_t cell = sheet_body(sheet);
    if (number == 0) return head_words(sheet);
    for (uint64_t before = number - 1; before > 0; before--) cell = behind(sheet, cell);
    return instruction_words(sheet, cell, number - 1);
}
