/* Gilthoren: the proved lowering from placement rules to x86-64 records.
 *
 * Tables, sheets, packs and records are byte slices of cells: eight bytes each, little-endian, two's complement. docs/FORMAT.md has their parts, and
 * below are the numbers. A slice is a pointer and its length in bytes; the pointer is not null, even where the length is 0, and a length is
 * below 2^63.
 *
 * Aliasing: the bytes and numbers that a call writes overlap nothing else that is lent to the same call, and nobody else writes any of it or
 * reads what it writes while the call runs. What a call only reads may overlap; it is never written. Calls on
 * different memory may run at the same time: the library keeps nothing between calls and allocates nothing.
 *
 * Every call ends, for any bytes.
 */
#ifndef GILTHOREN_H
#define GILTHOREN_H

#include <stddef.h>
#include <stdint.h>

#ifdef __cplusplus
extern "C" {
#endif

/* The version of this header and of its library. */
#define GILTHOREN_VERSION_MAJOR 0
#define GILTHOREN_VERSION_MINOR 1
#define GILTHOREN_VERSION_PATCH 0
#define GILTHOREN_VERSION (10000 * GILTHOREN_VERSION_MAJOR + 100 * GILTHOREN_VERSION_MINOR + GILTHOREN_VERSION_PATCH)

/* Answers. `place` then holds: */
enum gilthoren_answer {
    GILTHOREN_ACCEPTED = 0,        /* the number of records, or of the cells of a sheet that was written */
    GILTHOREN_BAD_TABLE = 1,       /* the first wrong cell of the tables: off the layout, or too long */
    GILTHOREN_TORN_SHEET = 2,      /* the first wrong, missing or left-over cell of the sheet */
    GILTHOREN_OVERSIZE = 3,        /* the cell that passes a limit */
    GILTHOREN_NO_WIDTH = 4,        /* a size is asked of Custom, Null or an array of them; 0 before the body, else the instruction from 1 */
    GILTHOREN_NO_ENTRY = 5,        /* a variable, label, string or float beyond its table; as for 4 */
    GILTHOREN_ODD_WIDTH = 6,       /* a size other than 1, 2, 4 or 8; as for 4 */
    GILTHOREN_NO_LOWERING = 7,     /* an instruction that Krc does not lower; as for 4 */
    GILTHOREN_REGISTERS_SPENT = 8, /* reserved and never answered: arguments beyond the registers go to the stack */
    GILTHOREN_PAGE_FULL = 9,       /* the number of records needed, of 64 bytes each, or of cells: the bytes lent for them are fewer */
    GILTHOREN_BAD_PACK = 13,       /* the first wrong, missing or left-over cell of the pack */
    GILTHOREN_TYPE_DIFFERS = 17    /* the cell of the first id whose own type is not its entry's, or that has no entry */
};

/* -- sheets -- */

enum gilthoren_limit {
    GILTHOREN_MOST_STRINGS = 256,
    GILTHOREN_MOST_FLOATS = 256,
    GILTHOREN_MOST_VARIABLES = 256,
    GILTHOREN_MOST_PARAMETERS = 256,
    GILTHOREN_MOST_LABELS = 256,
    GILTHOREN_MOST_INSTRUCTIONS = 4096,
    GILTHOREN_MOST_ARGUMENTS = 64, /* of a call */
    GILTHOREN_MOST_COUNT = 1048576, /* of a type; and the offset of a variable */
    GILTHOREN_MOST_SHEETS = 256     /* of a pack */
};

/* How many cells the parts of a sheet have. */
enum gilthoren_cells {
    GILTHOREN_CELLS_HEAD = 6,
    GILTHOREN_CELLS_TYPE = 2,
    GILTHOREN_CELLS_VARIABLE = 3, /* in edition 2 a parameter has one */
    GILTHOREN_CELLS_OPERAND = 4,
    GILTHOREN_CELLS_INSTR = 13 /* without a call's arguments */
};

/* Type codes. No type is of a return type alone. */
enum gilthoren_type {
    GILTHOREN_TYPE_NONE = 0,
    GILTHOREN_TYPE_LONG = 1,
    GILTHOREN_TYPE_UNSIGNED_LONG = 2,
    GILTHOREN_TYPE_SHORT = 3,
    GILTHOREN_TYPE_UNSIGNED_SHORT = 4,
    GILTHOREN_TYPE_FLOAT = 5,
    GILTHOREN_TYPE_SHORT_FLOAT = 6,
    GILTHOREN_TYPE_BOOL = 7,
    GILTHOREN_TYPE_CHAR = 8,
    GILTHOREN_TYPE_BYTE = 9,
    GILTHOREN_TYPE_ADDRESS = 10,
    GILTHOREN_TYPE_CUSTOM = 11,
    GILTHOREN_TYPE_NULL = 12
};

enum gilthoren_operand {
    GILTHOREN_OPERAND_VAR = 0,
    GILTHOREN_OPERAND_INT = 1,
    GILTHOREN_OPERAND_FLOAT = 2,
    GILTHOREN_OPERAND_BOOL = 3,
    GILTHOREN_OPERAND_ADDRESS = 4,
    GILTHOREN_OPERAND_DATA_ADDRESS = 5,
    GILTHOREN_OPERAND_NULL = 6
};

enum gilthoren_instr {
    GILTHOREN_INSTR_COPY = 0,
    GILTHOREN_INSTR_UNARY = 1,
    GILTHOREN_INSTR_BINARY = 2,
    GILTHOREN_INSTR_CAST = 3,
    GILTHOREN_INSTR_ZERO = 4,
    GILTHOREN_INSTR_CALL = 5,
    GILTHOREN_INSTR_LABEL = 6,
    GILTHOREN_INSTR_JUMP = 7,
    GILTHOREN_INSTR_JUMP_IF_NOT = 8,
    GILTHOREN_INSTR_RETURN = 9,
    GILTHOREN_INSTR_COMMENT = 10
};

/* Operations of a Unary and of a Binary. */
enum gilthoren_unary { GILTHOREN_UNARY_NEG = 0, GILTHOREN_UNARY_BIT_NOT = 1, GILTHOREN_UNARY_NOT = 2 };

enum gilthoren_binary {
    GILTHOREN_BINARY_OR = 0, /* Or and And are the logical pair, which is not lowered */
    GILTHOREN_BINARY_AND = 1,
    GILTHOREN_BINARY_BIT_OR = 2,
    GILTHOREN_BINARY_BIT_XOR = 3,
    GILTHOREN_BINARY_BIT_AND = 4,
    GILTHOREN_BINARY_EQ = 5,
    GILTHOREN_BINARY_NOT_EQ = 6,
    GILTHOREN_BINARY_LT = 7,
    GILTHOREN_BINARY_LE = 8,
    GILTHOREN_BINARY_GT = 9,
    GILTHOREN_BINARY_GE = 10,
    GILTHOREN_BINARY_SHL = 11,
    GILTHOREN_BINARY_SHR = 12,
    GILTHOREN_BINARY_ADD = 13,
    GILTHOREN_BINARY_SUB = 14,
    GILTHOREN_BINARY_MUL = 15,
    GILTHOREN_BINARY_DIV = 16,
    GILTHOREN_BINARY_REM = 17
};

/* -- records -- */

/* A record is eight cells: form, operation, dst tag, dst value, src tag, src value, size, source size. */
enum { GILTHOREN_RECORD_BYTES = 64 };

/* Forms, and behind them the operations of each. What is not here stands in no list. */
enum gilthoren_form {
    GILTHOREN_FORM_BINARY = 0,
    GILTHOREN_FORM_COMPLEX_BINARY = 4,
    GILTHOREN_FORM_CONVERT = 5,
    GILTHOREN_FORM_CTRL = 6,
    GILTHOREN_FORM_EXTEND = 7,
    GILTHOREN_FORM_LEA = 8,   /* of operation 0 */
    GILTHOREN_FORM_LABEL = 9, /* of operation 0 */
    GILTHOREN_FORM_PREFIX = 11,
    GILTHOREN_FORM_SET_CC = 12, /* its operation is a condition code */
    GILTHOREN_FORM_SHIFT = 13,
    GILTHOREN_FORM_STACK = 14,
    GILTHOREN_FORM_UNARY = 17
};

enum gilthoren_bin_op {
    GILTHOREN_OP_MOV = 0,
    GILTHOREN_OP_ADD = 2,
    GILTHOREN_OP_SUB = 3,
    GILTHOREN_OP_AND = 6,
    GILTHOREN_OP_OR = 7,
    GILTHOREN_OP_XOR = 8,
    GILTHOREN_OP_CMP = 9,
    GILTHOREN_OP_LOAD_F = 11,
    GILTHOREN_OP_STORE_F = 12,
    GILTHOREN_OP_ADD_F = 13,
    GILTHOREN_OP_SUB_F = 14,
    GILTHOREN_OP_MUL_F = 15,
    GILTHOREN_OP_DIV_F = 16,
    GILTHOREN_OP_UCOMI_F = 18
};

enum gilthoren_complex_bin_op { GILTHOREN_OP_DIV = 3, GILTHOREN_OP_IMUL = 4, GILTHOREN_OP_IDIV = 5 };

enum gilthoren_conv_op {
    GILTHOREN_OP_CVTSD2SS = 1,
    GILTHOREN_OP_CVTSI2SD = 2,
    GILTHOREN_OP_CVTSI2SS = 3,
    GILTHOREN_OP_CVTSS2SD = 4,
    GILTHOREN_OP_CVTTSD2SI = 6,
    GILTHOREN_OP_CVTTSS2SI = 7
};

enum gilthoren_ctrl_op {
    GILTHOREN_OP_JMP = 0,
    GILTHOREN_OP_CALL = 1,
    GILTHOREN_OP_RET = 2,
    GILTHOREN_OP_JMP_CC = 64 /* plus a condition code, which is E in every list */
};

enum gilthoren_extend_op { GILTHOREN_OP_MOVSXD = 1, GILTHOREN_OP_MOVZX = 2 };
enum gilthoren_prefix_op { GILTHOREN_OP_REP_STOS = 20 };
enum gilthoren_shift_op { GILTHOREN_OP_SHL = 0, GILTHOREN_OP_SHR = 1, GILTHOREN_OP_SAR = 2 };
enum gilthoren_stack_op { GILTHOREN_OP_PUSH = 0, GILTHOREN_OP_POP = 1 };
enum gilthoren_unary_op { GILTHOREN_OP_NEG = 0, GILTHOREN_OP_NOT = 1, GILTHOREN_OP_CDQ = 5, GILTHOREN_OP_CQO = 6 };

enum gilthoren_condition_code {
    GILTHOREN_CC_E = 0,
    GILTHOREN_CC_NE = 1,
    GILTHOREN_CC_G = 2,
    GILTHOREN_CC_GE = 3,
    GILTHOREN_CC_L = 4,
    GILTHOREN_CC_LE = 5,
    GILTHOREN_CC_A = 6,
    GILTHOREN_CC_AE = 7,
    GILTHOREN_CC_B = 8,
    GILTHOREN_CC_BE = 9,
    GILTHOREN_CC_P = 14,
    GILTHOREN_CC_NP = 15
};

/* What the value behind a tag is. */
enum gilthoren_tag {
    GILTHOREN_TAG_NO_OPERAND = 0, /* 0 */
    GILTHOREN_TAG_REG = 1,        /* a register's number */
    GILTHOREN_TAG_IMM = 2,        /* the number itself */
    GILTHOREN_TAG_SYM = 3,        /* a symbol's number */
    GILTHOREN_TAG_LABEL = 4,      /* a label's number in the function */
    GILTHOREN_TAG_RBP = 5,        /* memory at RBP plus the value */
    GILTHOREN_TAG_STRING = 6,     /* memory of a string of the tables, RIP-relative */
    GILTHOREN_TAG_FLOAT = 7,      /* memory of a float constant of the tables, RIP-relative */
    GILTHOREN_TAG_RSP = 8         /* memory at RSP plus the value */
};

enum gilthoren_register {
    GILTHOREN_RAX = 0,
    GILTHOREN_RCX = 1,
    GILTHOREN_RDX = 2,
    GILTHOREN_RSP = 4,
    GILTHOREN_RBP = 5,
    GILTHOREN_RSI = 6,
    GILTHOREN_RDI = 7,
    GILTHOREN_R8 = 8,
    GILTHOREN_R9 = 9,
    GILTHOREN_XMM0 = 16,
    GILTHOREN_XMM1 = 17,
    GILTHOREN_XMM2 = 18,
    GILTHOREN_XMM3 = 19,
    GILTHOREN_XMM4 = 20,
    GILTHOREN_XMM5 = 21,
    GILTHOREN_XMM6 = 22,
    GILTHOREN_XMM7 = 23
};

/* -- calls -- */

/* Lowers the function of a sheet. After 0 the record bytes hold the list at their start and their old content behind it; after a
 * refusal they hold their old content. The list is the one that Krc's `generate` collects before `add_function`, but that a Return and
 * an argument read a short float constant by four bytes, that a cast of an unsigned short to an integer of eight bytes widens with
 * zeros, by a four-byte load and the store, that slots lie on their own width, and that arguments and parameters beyond the registers,
 * where Krc has no lowering, are passed on the stack. The refusal is the first of the order in docs/FORMAT.md, "Refusals".
 *
 * Of a list that is accepted it is proved: slots are disjoint and inside the frame; each, and each element of an array, lies at a
 * multiple of its element's width; the frame is the least multiple of 16 not below the last offset; registers carry parameters and
 * arguments in order; of those beyond the registers number j, from 0, is in the eight bytes at RSP + 8 j at the call, with zeros above
 * it, and at RSP + 8 + 8 j at a function's entry; RSP is a multiple of 16 at each call and the frame's end again behind it. An argument
 * that is a float constant is the constant's value where the linker has not placed the constant in the stack's bytes that the call's own
 * arguments are written to.
 *
 * If the function is plain (gilthoren_plain says 1), the records, entered as the System V ABI says, simulate it step by step: at most
 * 12 + 2 k + 5 n records for n steps and k parameters beyond the six registers, each slot holding its variable's value, faults and
 * returns exactly where the function has them, no byte changed outside the frame and the saved RBP. A fault is a division by zero, or of
 * the least signed value by -1. */
uint64_t gilthoren_lower(const uint8_t *tables, size_t tables_bytes, const uint8_t *sheet, size_t sheet_bytes,
                         uint8_t *records, size_t records_bytes, uint64_t *place);

/* The plain test: 1 if the function is a plain one (docs/FORMAT.md), and `place` holds 0; else 0, and `place` holds the first number at
 * fault: 0 for variables, parameters, the return type, refusals 1 to 3 and a refusal before the body; else the number, from 1, of the
 * first instruction that breaks a condition or that the lowering refuses. Of a label placed twice the second place is at fault and
 * every later one, and of a jump to a label that stands nowhere the jump. */
uint64_t gilthoren_plain(const uint8_t *tables, size_t tables_bytes, const uint8_t *sheet, size_t sheet_bytes, uint64_t *place);

/* Finds a sheet in a pack by its number, from 0. After 0 the sheet is the `length` bytes of the pack from byte `from` on, and `place` holds 0.
 * Else the answer is GILTHOREN_BAD_PACK, whatever the number is, or GILTHOREN_NO_ENTRY with 0 in `place` for a number that is not below the
 * count of sheets, and `from` and `length` hold 0. The three pointers are to different memory. */
uint64_t gilthoren_pack_sheet(const uint8_t *pack, size_t pack_bytes, uint64_t number, uint64_t *place, uint64_t *from, uint64_t *length);

/* Lowers a sheet where it stands in its pack: GILTHOREN_BAD_PACK, then GILTHOREN_NO_ENTRY as above, then what gilthoren_lower answers for that
 * sheet, with what is proved of it. Changing one sheet of a pack, its length kept, alters the answer for no other; exchanging good tables for
 * other good ones alters none for a sheet that names no string and no float. */
uint64_t gilthoren_pack_lower(const uint8_t *tables, size_t tables_bytes, const uint8_t *pack, size_t pack_bytes, uint64_t number,
                              uint8_t *records, size_t records_bytes, uint64_t *place);

/* The totals of a pack: after 0 `records` holds the number of records of all its sheets that lower, `refused` the number of those that do not, and
 * `place` 0; room for records plays no part, and bad tables refuse every sheet. Or GILTHOREN_BAD_PACK, with 0 in both. The three pointers are to
 * different memory. */
uint64_t gilthoren_pack_totals(const uint8_t *tables, size_t tables_bytes, const uint8_t *pack, size_t pack_bytes, uint64_t *place,
                               uint64_t *records, uint64_t *refused);

/* Writes a sheet of edition 1 in edition 2 (docs/FORMAT.md), at the start of the output bytes. After 0 these hold the result and their old
 * content behind it, and `place` holds the number of its cells; after a refusal they hold their old content. The refusals, in this order: 2 or
 * 3 of the edition that is read, 17, and 9 with the cells needed. A sheet that does not lower is converted as well.
 *
 * It is proved: the layout of a result is right in its own edition; converted back, with room for it, it is the first sheet byte for byte; and
 * the two hold the same function, where a variable of edition 2 has its entry's type. The lowering and the plain test read edition 1. */
uint64_t gilthoren_to_edition2(const uint8_t *sheet, size_t sheet_bytes, uint8_t *out, size_t out_bytes, uint64_t *place);

/* Writes a sheet of edition 2 in edition 1; all else is as for gilthoren_to_edition2. */
uint64_t gilthoren_to_edition1(const uint8_t *sheet, size_t sheet_bytes, uint8_t *out, size_t out_bytes, uint64_t *place);

#ifdef __cplusplus
}
#endif

#endif
