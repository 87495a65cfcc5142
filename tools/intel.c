/* Records as Intel text. */
#include "intel.h"

enum { GPRS = GILTHOREN_XMM0, REGISTERS = GILTHOREN_XMM7 + 1, CONDITIONS = GILTHOREN_CC_NP + 1 };

/* All of Krc's, by their codes; a list has not S, NS, O and NO. */
static const char *const conditions[CONDITIONS] = {"e", "ne", "g", "ge", "l", "le", "a", "ae", "b", "be", "s", "ns", "o", "no", "p", "np"};

/* A record on its way to text. */
struct print {
    struct bytes *text;
    const struct sheet_text *sheet;
};

/* -- sizes and registers -- */

/* 0 to 3 for one, two, four and eight bytes; no size is eight. -1 for any other. */
static int width_row(int64_t size) {
    switch (size) {
    case 1: return 0;
    case 2: return 1;
    case 4: return 2;
    case 0:
    case 8: return 3;
    default: return -1;
    }
}

static const char *register_name(int64_t index, int64_t size) {
    static const char *const names[4][GPRS] = {
        {"al", "cl", "dl", "bl", "spl", "bpl", "sil", "dil", "r8b", "r9b", "r10b", "r11b", "r12b", "r13b", "r14b", "r15b"},
        {"ax", "cx", "dx", "bx", "sp", "bp", "si", "di", "r8w", "r9w", "r10w", "r11w", "r12w", "r13w", "r14w", "r15w"},
        {"eax", "ecx", "edx", "ebx", "esp", "ebp", "esi", "edi", "r8d", "r9d", "r10d", "r11d", "r12d", "r13d", "r14d", "r15d"},
        {"rax", "rcx", "rdx", "rbx", "rsp", "rbp", "rsi", "rdi", "r8", "r9", "r10", "r11", "r12", "r13", "r14", "r15"},
    };
    static const char *const xmm[REGISTERS - GPRS] = {"xmm0", "xmm1", "xmm2", "xmm3", "xmm4", "xmm5", "xmm6", "xmm7"};
    return index < GPRS ? names[width_row(size)][index] : xmm[index - GPRS];
}

static const char *pointer(int64_t size) {
    static const char *const words[4] = {"byte", "word", "dword", "qword"};
    return words[width_row(size)];
}

/* -- operands -- */

/* With `.L` before it an assembler takes no name for a register, an instruction or a section; no name starts with a digit. */
static void put_label(const struct print *p, int64_t label) {
    const char *name = p->sheet ? sheet_name(&p->sheet->labels, (size_t)label) : NULL;
    if (name) bytes_print(p->text, ".L%s", name);
    else bytes_print(p->text, ".L%lld", (long long)label);
}

static void put_based(const struct print *p, const char *base, int64_t value) {
    bytes_print(p->text, "[%s %c %llu]", base, value < 0 ? '-' : '+', value < 0 ? -(unsigned long long)value : (unsigned long long)value);
}

/* The address alone, as Lea takes it. */
static void put_address(const struct print *p, int64_t tag, int64_t value) {
    if (tag == GILTHOREN_TAG_RBP) put_based(p, "rbp", value);
    if (tag == GILTHOREN_TAG_RSP) put_based(p, "rsp", value);
    if (tag == GILTHOREN_TAG_STRING) bytes_print(p->text, "[rip + string%lld]", (long long)value);
    if (tag == GILTHOREN_TAG_FLOAT) bytes_print(p->text, "[rip + float%lld]", (long long)value);
}

static bool is_memory(int64_t tag) {
    return tag == GILTHOREN_TAG_RBP || tag == GILTHOREN_TAG_STRING || tag == GILTHOREN_TAG_FLOAT || tag == GILTHOREN_TAG_RSP;
}

static void put_operand(const struct print *p, int64_t tag, int64_t value, int64_t size) {
    if (tag == GILTHOREN_TAG_REG) bytes_print(p->text, "%s", register_name(value, size));
    if (tag == GILTHOREN_TAG_IMM) bytes_print(p->text, "%lld", (long long)value);
    if (tag == GILTHOREN_TAG_SYM) bytes_print(p->text, "symbol%lld", (long long)value);
    if (tag == GILTHOREN_TAG_LABEL) put_label(p, value);
    if (is_memory(tag)) {
        bytes_print(p->text, "%s ptr ", pointer(size));
        put_address(p, tag, value);
    }
}

/* -- instructions -- */

/* The word of an operation, NULL if it has none. */
static const char *word_of(const char *const *words, size_t count, int64_t operation) {
    return operation >= 0 && (uint64_t)operation < count ? words[operation] : NULL;
}

#define WORD_OF(words, operation) word_of(words, sizeof(words) / sizeof *(words), operation)

/* One operand: that of dst, or of src where dst is none. */
static void put_one(const struct print *p, const struct record *r, const char *word, int64_t size) {
    bytes_print(p->text, "%s ", word);
    if (r->dst_tag != GILTHOREN_TAG_NO_OPERAND) put_operand(p, r->dst_tag, r->dst, size);
    else put_operand(p, r->src_tag, r->src, size);
}

static void put_two(const struct print *p, const struct record *r, const char *word, int64_t dst_size, int64_t src_size) {
    bytes_print(p->text, "%s ", word);
    put_operand(p, r->dst_tag, r->dst, dst_size);
    bytes_print(p->text, ", ");
    put_operand(p, r->src_tag, r->src, src_size);
}

/* Of a Binary: whether it works on floats. */
static bool is_float(const struct record *r) {
    return r->operation >= GILTHOREN_OP_LOAD_F;
}

static bool put_binary(const struct print *p, const struct record *r) {
    static const char *const words[] = {
        [GILTHOREN_OP_MOV] = "mov",      [GILTHOREN_OP_ADD] = "add",      [GILTHOREN_OP_SUB] = "sub",     [GILTHOREN_OP_AND] = "and",
        [GILTHOREN_OP_OR] = "or",        [GILTHOREN_OP_XOR] = "xor",      [GILTHOREN_OP_CMP] = "cmp",     [GILTHOREN_OP_LOAD_F] = "movs",
        [GILTHOREN_OP_STORE_F] = "movs", [GILTHOREN_OP_ADD_F] = "adds",   [GILTHOREN_OP_SUB_F] = "subs",  [GILTHOREN_OP_MUL_F] = "muls",
        [GILTHOREN_OP_DIV_F] = "divs",   [GILTHOREN_OP_UCOMI_F] = "ucomis"};
    const char *start = WORD_OF(words, r->operation), *width = r->size == 4 ? "s" : "d";
    char word[8];
    if (!start) return false;
    snprintf(word, sizeof word, "%s%s", start, is_float(r) ? width : "");
    put_two(p, r, word, r->size, r->size);
    return true;
}

static bool put_complex(const struct print *p, const struct record *r) {
    if (r->operation == GILTHOREN_OP_IMUL) put_two(p, r, "imul", r->size, r->size);
    else if (r->operation == GILTHOREN_OP_DIV) put_one(p, r, "div", r->size);
    else if (r->operation == GILTHOREN_OP_IDIV) put_one(p, r, "idiv", r->size);
    else return false;
    return true;
}

/* The integer side has the record's size; the width of a float source is in the operation. */
static bool put_convert(const struct print *p, const struct record *r) {
    static const char *const words[] = {[GILTHOREN_OP_CVTSD2SS] = "cvtsd2ss",   [GILTHOREN_OP_CVTSI2SD] = "cvtsi2sd",
                                        [GILTHOREN_OP_CVTSI2SS] = "cvtsi2ss",   [GILTHOREN_OP_CVTSS2SD] = "cvtss2sd",
                                        [GILTHOREN_OP_CVTTSD2SI] = "cvttsd2si", [GILTHOREN_OP_CVTTSS2SI] = "cvttss2si"};
    const char *word = WORD_OF(words, r->operation);
    bool from_double = r->operation == GILTHOREN_OP_CVTSD2SS || r->operation == GILTHOREN_OP_CVTTSD2SI;
    bool from_single = r->operation == GILTHOREN_OP_CVTSS2SD || r->operation == GILTHOREN_OP_CVTTSS2SI;
    if (word) put_two(p, r, word, r->size, from_double ? 8 : from_single ? 4 : r->size);
    return word != NULL;
}

static bool put_ctrl(const struct print *p, const struct record *r) {
    char word[8];
    if (r->operation == GILTHOREN_OP_JMP) put_one(p, r, "jmp", 8);
    else if (r->operation == GILTHOREN_OP_CALL) put_one(p, r, "call", 8);
    else if (r->operation == GILTHOREN_OP_RET) bytes_print(p->text, "ret");
    else if (r->operation >= GILTHOREN_OP_JMP_CC && r->operation < GILTHOREN_OP_JMP_CC + CONDITIONS) {
        snprintf(word, sizeof word, "j%s", conditions[r->operation - GILTHOREN_OP_JMP_CC]);
        put_one(p, r, word, 8);
    } else return false;
    return true;
}

static bool put_extend(const struct print *p, const struct record *r) {
    static const char *const words[] = {[GILTHOREN_OP_MOVSXD] = "movsxd", [GILTHOREN_OP_MOVZX] = "movzx"};
    const char *word = WORD_OF(words, r->operation);
    if (word) put_two(p, r, word, r->size, r->source_size);
    return word != NULL;
}

static bool put_lea(const struct print *p, const struct record *r) {
    if (r->operation != 0 || !is_memory(r->src_tag)) return false;
    bytes_print(p->text, "lea %s, ", register_name(r->dst, 8));
    put_address(p, r->src_tag, r->src);
    return true;
}

static bool put_set(const struct print *p, const struct record *r) {
    const char *condition = WORD_OF(conditions, r->operation);
    char word[8];
    if (!condition) return false;
    snprintf(word, sizeof word, "set%s", condition);
    put_one(p, r, word, 1);
    return true;
}

/* The count is CL, whatever the size. */
static bool put_shift(const struct print *p, const struct record *r) {
    static const char *const words[] = {[GILTHOREN_OP_SHL] = "shl", [GILTHOREN_OP_SHR] = "shr", [GILTHOREN_OP_SAR] = "sar"};
    const char *word = WORD_OF(words, r->operation);
    if (word) put_two(p, r, word, r->size, 1);
    return word != NULL;
}

static bool put_stack(const struct print *p, const struct record *r) {
    static const char *const words[] = {[GILTHOREN_OP_PUSH] = "push", [GILTHOREN_OP_POP] = "pop"};
    const char *word = WORD_OF(words, r->operation);
    if (word) put_one(p, r, word, 8);
    return word != NULL;
}

static bool put_unary(const struct print *p, const struct record *r) {
    if (r->operation == GILTHOREN_OP_NEG) put_one(p, r, "neg", r->size);
    else if (r->operation == GILTHOREN_OP_NOT) put_one(p, r, "not", r->size);
    else if (r->operation == GILTHOREN_OP_CDQ) bytes_print(p->text, "cdq");
    else if (r->operation == GILTHOREN_OP_CQO) bytes_print(p->text, "cqo");
    else return false;
    return true;
}

static bool put_label_line(const struct print *p, const struct record *r) {
    put_label(p, r->dst);
    bytes_print(p->text, ":");
    return r->operation == 0;
}

static bool put_prefix(const struct print *p, const struct record *r) {
    bytes_print(p->text, "rep stosb");
    return r->operation == GILTHOREN_OP_REP_STOS && r->size == 1;
}

static bool put_instruction(const struct print *p, const struct record *r) {
    switch (r->form) {
    case GILTHOREN_FORM_BINARY: return put_binary(p, r);
    case GILTHOREN_FORM_COMPLEX_BINARY: return put_complex(p, r);
    case GILTHOREN_FORM_CONVERT: return put_convert(p, r);
    case GILTHOREN_FORM_CTRL: return put_ctrl(p, r);
    case GILTHOREN_FORM_EXTEND: return put_extend(p, r);
    case GILTHOREN_FORM_LEA: return put_lea(p, r);
    case GILTHOREN_FORM_LABEL: return put_label_line(p, r);
    case GILTHOREN_FORM_PREFIX: return put_prefix(p, r);
    case GILTHOREN_FORM_SET_CC: return put_set(p, r);
    case GILTHOREN_FORM_SHIFT: return put_shift(p, r);
    case GILTHOREN_FORM_STACK: return put_stack(p, r);
    case GILTHOREN_FORM_UNARY: return put_unary(p, r);
    default: return false;
    }
}

/* -- what a list can hold -- */

/* A tag with a value that it can have. */
static bool is_operand(int64_t tag, int64_t value) {
    switch (tag) {
    case GILTHOREN_TAG_NO_OPERAND: return value == 0;
    case GILTHOREN_TAG_REG: return value >= 0 && value < REGISTERS;
    case GILTHOREN_TAG_IMM:
    case GILTHOREN_TAG_RBP: return true;
    case GILTHOREN_TAG_SYM:
    case GILTHOREN_TAG_LABEL:
    case GILTHOREN_TAG_STRING:
    case GILTHOREN_TAG_FLOAT:
    case GILTHOREN_TAG_RSP: return value >= 0;
    default: return false;
    }
}

/* Tags that a form takes, as bits. */
struct shape {
    unsigned dst, src;
};

#define BIT(tag) (1u << (tag))
#define MEMORY (BIT(GILTHOREN_TAG_RBP) | BIT(GILTHOREN_TAG_STRING) | BIT(GILTHOREN_TAG_FLOAT))
#define VALUE (BIT(GILTHOREN_TAG_REG) | BIT(GILTHOREN_TAG_IMM) | MEMORY)
#define ONE (BIT(GILTHOREN_TAG_NO_OPERAND))

static struct shape shape_of(const struct record *r) {
    const unsigned reg = BIT(GILTHOREN_TAG_REG), label = BIT(GILTHOREN_TAG_LABEL);
    bool divides = r->operation == GILTHOREN_OP_DIV || r->operation == GILTHOREN_OP_IDIV;
    switch (r->form) {
    case GILTHOREN_FORM_BINARY: return (struct shape){reg | BIT(GILTHOREN_TAG_RBP) | BIT(GILTHOREN_TAG_RSP), VALUE};
    case GILTHOREN_FORM_COMPLEX_BINARY: return (struct shape){divides ? ONE : reg, reg};
    case GILTHOREN_FORM_CONVERT: return (struct shape){reg, VALUE};
    case GILTHOREN_FORM_CTRL:
        return (struct shape){r->operation == GILTHOREN_OP_RET ? ONE : r->operation == GILTHOREN_OP_CALL ? BIT(GILTHOREN_TAG_SYM) : label, ONE};
    case GILTHOREN_FORM_EXTEND: return (struct shape){reg, reg | MEMORY};
    case GILTHOREN_FORM_LEA: return (struct shape){reg, MEMORY};
    case GILTHOREN_FORM_LABEL: return (struct shape){label, ONE};
    case GILTHOREN_FORM_SHIFT: return (struct shape){reg, reg};
    case GILTHOREN_FORM_SET_CC:
    case GILTHOREN_FORM_STACK: return (struct shape){reg, ONE};
    case GILTHOREN_FORM_UNARY: return (struct shape){r->operation == GILTHOREN_OP_CDQ || r->operation == GILTHOREN_OP_CQO ? ONE : reg, ONE};
    default: return (struct shape){ONE, ONE};
    }
}

static bool is_record(const struct record *r) {
    if (!is_operand(r->dst_tag, r->dst) || !is_operand(r->src_tag, r->src)) return false;
    if (width_row(r->size) < 0 || width_row(r->source_size) < 0) return false;
    struct shape shape = shape_of(r);
    return (shape.dst & BIT(r->dst_tag)) && (shape.src & BIT(r->src_tag));
}

bool intel_print(const struct record *record, const struct sheet_text *sheet, struct bytes *text) {
    struct print p = {text, sheet};
    size_t before = text->count;
    if (is_record(record) && put_instruction(&p, record)) return true;
    text->count = before;
    return false;
}

/* -- what the processor lacks -- */

static bool is_xmm(int64_t tag, int64_t value) {
    return tag == GILTHOREN_TAG_REG && value >= GPRS;
}

/* True if a constant is no immediate of that width, read as signed or as unsigned; all but mov have no more than 32 bits, with their sign. */
static bool is_too_wide(const struct record *r) {
    if (width_row(r->size) == 3) return r->operation != GILTHOREN_OP_MOV && (r->src < INT32_MIN || r->src > INT32_MAX);
    int bits = 8 * (int)r->size;
    return r->src < -((int64_t)1 << (bits - 1)) || r->src >= (int64_t)1 << bits;
}

static bool binary_has_no_encoding(const struct record *r) {
    if (is_float(r)) return r->src_tag == GILTHOREN_TAG_IMM || r->size == 1 || r->size == 2;
    return r->src_tag == GILTHOREN_TAG_IMM && is_too_wide(r);
}

/* The integer side of a conversion has four or eight bytes, and is no immediate. */
static bool convert_has_no_encoding(const struct record *r) {
    return r->src_tag == GILTHOREN_TAG_IMM || r->size == 1 || r->size == 2;
}

bool intel_has_no_encoding(const struct record *r) {
    if (r->form == GILTHOREN_FORM_BINARY) return binary_has_no_encoding(r);
    if (r->form == GILTHOREN_FORM_COMPLEX_BINARY) return r->operation == GILTHOREN_OP_IMUL && r->size == 1;
    if (r->form == GILTHOREN_FORM_CONVERT) return convert_has_no_encoding(r);
    return r->form == GILTHOREN_FORM_LEA && is_xmm(r->dst_tag, r->dst);
}

/* -- slots -- */

static bool rbp_value(const struct record *r, int64_t *value) {
    if (r->dst_tag == GILTHOREN_TAG_RBP) *value = r->dst;
    else if (r->src_tag == GILTHOREN_TAG_RBP) *value = r->src;
    else return false;
    return true;
}

bool intel_variable(const struct record *record, const struct sheet_text *sheet, size_t *variable) {
    struct sheet_parts parts;
    int64_t value, offset = 0;
    if (!sheet || !rbp_value(record, &value) || !sheet_split(&sheet->input, &parts)) return false;
    size_t variables = (size_t)cell_at(parts.sheet, 0);
    for (size_t v = 0; v < variables; v++) {
        size_t cell = sheet_entry(v);
        int64_t code = cell_at(parts.sheet, cell), count = cell_at(parts.sheet, cell + 1);
        offset = sheet_offset_behind(offset, code, count);
        *variable = v;
        if (value >= -offset && value < sheet_type_size(code, count) - offset) return true;
    }
    return false;
}

struct record intel_record(const uint8_t *bytes) {
    return (struct record){cell_at(bytes, 0), cell_at(bytes, 1), cell_at(bytes, 2), cell_at(bytes, 3),
                           cell_at(bytes, 4), cell_at(bytes, 5), cell_at(bytes, 6), cell_at(bytes, 7)};
}
