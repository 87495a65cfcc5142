/* What reading and writing of sheets share: words, sizes, names, the parts of an input. */
#include "sheet_text.h"

#include <errno.h>
#include <string.h>

const char *const sheet_type_words[SHEET_TYPES] = {"none",       "long", "ulong", "short", "ushort",  "float", "shortfloat",
                                                   "bool",       "char", "byte",  "address", "custom", "null"};

const char *const sheet_binary_words[SHEET_BINARY] = {"or", "and", "bitor", "bitxor", "bitand", "eq",  "noteq", "lt",  "le",
                                                      "gt", "ge",  "shl",   "shr",    "add",    "sub", "mul",   "div", "rem"};

const char *const sheet_unary_words[SHEET_UNARY] = {"neg", "bitnot", "not"};

int64_t sheet_type_size(int64_t code, int64_t count) {
    static const int64_t sizes[SHEET_TYPES] = {0, 8, 8, 4, 4, 8, 4, 1, 1, 1, 8, 0, 0};
    return count == -1 ? sizes[code] : sizes[code] * count;
}

int64_t sheet_offset_behind(int64_t end, int64_t code, int64_t count) {
    int64_t width = sheet_type_size(code, -1);
    return width ? (end + sheet_type_size(code, count) + width - 1) / width * width : end;
}

bool sheet_split(const struct bytes *input, struct sheet_parts *parts) {
    if (input->count < CELL) return false;
    int64_t count = cell_at(input->at, 0);
    size_t rest = input->count - CELL;
    if (count < 0 || (uint64_t)count > rest / CELL) return false;
    parts->tables = input->at + CELL;
    parts->tables_bytes = CELL * (size_t)count;
    parts->sheet = parts->tables + parts->tables_bytes;
    parts->sheet_bytes = rest - parts->tables_bytes;
    return true;
}

const char *sheet_name(const struct sheet_names *names, size_t owner) {
    for (size_t i = 0; i < names->owners.count; i++)
        if (names->owners.at[i] == owner) return (const char *)names->text.at + names->starts.at[i];
    return NULL;
}

bool sheet_named(const struct sheet_names *names, const char *word, size_t length, size_t *owner) {
    for (size_t i = 0; i < names->starts.count; i++) {
        const char *name = (const char *)names->text.at + names->starts.at[i];
        if (strlen(name) != length || memcmp(name, word, length) != 0) continue;
        *owner = names->owners.at[i];
        return true;
    }
    return false;
}

bool sheet_take(struct sheet_text *sheet, const struct bytes *file, struct sheet_error *error) {
    size_t first = file->count < CELL ? file->count : CELL;
    bool has_zero = first > 0 && memchr(file->at, 0, first);
    if (!has_zero || text_wide(file)) return sheet_read(sheet, file, error);
    bytes_add(&sheet->input, file->at, file->count);
    return true;
}

void sheet_say(const struct sheet_error *error, const char *before) {
    if (error->line > 0) fprintf(stderr, "%sline %zu: %s\n", before, error->line, error->message);
    else fprintf(stderr, "%s%s\n", before, error->message);
}

/* Reads a file. On false `error` has the reason. */
static bool read_file(struct bytes *file, const char *path, struct sheet_error *error) {
    FILE *from = fopen(path, "rb");
    bool good = from && bytes_read(file, from);
    error->line = 0;
    if (!good) snprintf(error->message, sizeof error->message, "cannot be read: %s", strerror(errno));
    if (from) fclose(from);
    return good;
}

bool sheet_open(struct sheet_text *sheet, const char *path, const char *before) {
    struct bytes file = {0}, name = {0};
    struct sheet_error error;
    bytes_print(&name, "%s", before);
    text_show(&name, path, strlen(path));
    bytes_add(&name, ": ", sizeof ": ");
    bool good = read_file(&file, path, &error) && sheet_take(sheet, &file, &error);
    if (!good) sheet_say(&error, (char *)name.at);
    bytes_clear(&file);
    bytes_clear(&name);
    return good;
}

size_t sheet_entry(size_t variable) {
    return GILTHOREN_CELLS_HEAD + GILTHOREN_CELLS_TYPE * variable;
}

size_t sheet_body(const uint8_t *sheet) {
    return sheet_entry((size_t)cell_at(sheet, 0)) + GILTHOREN_CELLS_VARIABLE * (size_t)cell_at(sheet, 1);
}

static void names_clear(struct sheet_names *names) {
    bytes_clear(&names->text);
    numbers_clear(&names->starts);
    numbers_clear(&names->owners);
}

void sheet_clear(struct sheet_text *sheet) {
    bytes_clear(&sheet->input);
    numbers_clear(&sheet->cell_lines);
    numbers_clear(&sheet->instruction_lines);
    names_clear(&sheet->variables);
    names_clear(&sheet->labels);
}
