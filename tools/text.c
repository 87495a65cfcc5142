/* Texts: how they are encoded, their lines, and what a message shows of them. */
#include "text.h"

#include <string.h>

/* -- encodings -- */

/* The least code that so many bytes are needed for. */
static const uint32_t least_code[] = {0, 0, 0x80, 0x800, 0x10000};

/* The bytes of a character by its first one, and the first byte's share of the code; 0 for none. */
static size_t character_length(uint8_t first, uint32_t *share) {
    size_t length = first < 0x80 ? 1 : first < 0xC0 ? 0 : first < 0xE0 ? 2 : first < 0xF0 ? 3 : first < 0xF8 ? 4 : 0;
    *share = length < 2 ? first : first & (0x7Fu >> length);
    return length;
}

size_t text_character(const char *at, const char *end, uint32_t *code) {
    size_t length = character_length((uint8_t)*at, code);
    if (length == 0 || length > (size_t)(end - at)) return 0;
    for (size_t i = 1; i < length; i++) {
        uint8_t byte = (uint8_t)at[i];
        if ((byte & 0xC0) != 0x80) return 0;
        *code = *code << 6 | (byte & 0x3F);
    }
    bool is_surrogate = *code >= 0xD800 && *code <= 0xDFFF;
    return *code < least_code[length] || *code > 0x10FFFF || is_surrogate ? 0 : length;
}

static bool is_ascii_text(uint8_t byte) {
    return (byte >= 0x20 && byte < 0x7F) || byte == '\t' || byte == '\n' || byte == '\r';
}

/* Whether the first bytes, eight at most, are ASCII text with so many zeros before each sign and behind it. */
static bool is_spread(const struct bytes *file, size_t before, size_t behind) {
    size_t unit = before + 1 + behind, bytes = file->count < CELL ? file->count : CELL;
    if (bytes < unit) return false;
    for (size_t i = 0; i < bytes; i++) {
        bool is_sign = i % unit == before;
        if (is_sign ? !is_ascii_text(file->at[i]) : file->at[i] != 0) return false;
    }
    return true;
}

static bool starts_with(const struct bytes *file, const char *mark, size_t bytes) {
    return file->count >= bytes && memcmp(file->at, mark, bytes) == 0;
}

/* A count of cells that starts as a mark does is below 2^32, and a wide text's second character is not 0. */
const char *text_wide(const struct bytes *file) {
    bool is_count = file->count >= CELL && cell_at(file->at, 0) >> 32 == 0;
    if (is_count) return NULL;
    if (starts_with(file, "\xFF\xFE\0\0", 4) || starts_with(file, "\0\0\xFE\xFF", 4)) return "UTF-32";
    if (starts_with(file, "\xFF\xFE", 2) || starts_with(file, "\xFE\xFF", 2)) return "UTF-16";
    if (is_spread(file, 0, 1) || is_spread(file, 1, 0)) return "UTF-16";
    return is_spread(file, 0, 3) || is_spread(file, 3, 0) ? "UTF-32" : NULL;
}

/* -- lines -- */

struct lines text_lines(const char *text, size_t bytes) {
    static const char mark[] = "\xEF\xBB\xBF";
    struct lines lines = {text, bytes ? text + bytes : text, 0};
    if (bytes >= 3 && memcmp(text, mark, 3) == 0) lines.at += 3;
    return lines;
}

bool lines_next(struct lines *lines, const char **start, const char **end) {
    if (lines->at == lines->end) return false;
    lines->number++;
    *start = lines->at;
    while (lines->at < lines->end && *lines->at != '\n' && *lines->at != '\r') lines->at++;
    *end = lines->at;
    if (lines->end - lines->at >= 2 && memcmp(lines->at, "\r\n", 2) == 0) lines->at++;
    if (lines->at < lines->end) lines->at++;
    return true;
}

/* -- what is shown -- */

struct range {
    uint32_t first, last;
};

static bool is_among(uint32_t code, const struct range *ranges, size_t count) {
    for (size_t i = 0; i < count; i++)
        if (code >= ranges[i].first && code <= ranges[i].last) return true;
    return false;
}

/* Control codes, and what has no width or turns a line's direction. */
static bool is_hidden(uint32_t code) {
    static const struct range hidden[] = {{0, 0x1F},        {0x7F, 0x9F},     {0xAD, 0xAD},     {0x61C, 0x61C},
                                          {0x200B, 0x200F}, {0x2028, 0x202E}, {0x2060, 0x206F}, {0xFEFF, 0xFEFF}};
    return is_among(code, hidden, sizeof hidden / sizeof *hidden);
}

static bool is_blank(uint32_t code) {
    static const struct range blanks[] = {{0x20, 0x20},     {0xA0, 0xA0},     {0x1680, 0x1680}, {0x2000, 0x200A},
                                          {0x202F, 0x202F}, {0x205F, 0x205F}, {0x3000, 0x3000}};
    return is_among(code, blanks, sizeof blanks / sizeof *blanks);
}

bool text_is_letter(uint32_t code) {
    if (code < 0x80) return (code >= 'a' && code <= 'z') || (code >= 'A' && code <= 'Z') || code == '_';
    return !is_hidden(code) && !is_blank(code);
}

void text_show(struct bytes *to, const char *at, size_t bytes) {
    const char *end = at + bytes;
    while (at < end) {
        uint32_t code;
        size_t length = text_character(at, end, &code);
        bool hides = length == 0 || is_hidden(code);
        if (length == 0) length = 1;
        for (size_t i = 0; hides && i < length; i++) bytes_print(to, "\\x%02X", (unsigned)(uint8_t)at[i]);
        if (!hides) bytes_add(to, at, length);
        at += length;
    }
}

struct shown text_shown(const char *at, size_t bytes) {
    struct shown shown;
    struct bytes text = {0};
    size_t cut = 0;
    uint32_t code;
    while (cut < bytes) {
        size_t length = text_character(at + cut, at + bytes, &code);
        if (cut + (length ? length : 1) > SHOWN_BYTES) break;
        cut += length ? length : 1;
    }
    text_show(&text, at, cut);
    memcpy(shown.text, text.at ? (char *)text.at : "", text.count);
    shown.text[text.count] = 0;
    bytes_clear(&text);
    return shown;
}
