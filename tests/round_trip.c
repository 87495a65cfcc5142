/* Cells to text and back, over every case of a file of answers (vectors/README.md has its form).
 *
 * usage: round_trip FILE
 *
 * Held for each case: the writer's verdict is the stored refusal 1 to 3 with its cell, or none; the text reads as the same bytes. A damaged
 * copy of the text is read too: it gives an error with a line of the text, or an input that makes the trip in its turn. Tables that are torn
 * have no place in an input and are counted only. */
#include <inttypes.h>
#include <string.h>

#include "../tools/sheet_text.h"
#include "cases.h"

struct counts {
    uint64_t words, raw, torn_tables, damaged_read, damaged_refused;
};

/* Writes an input as text and reads it again: the same input. The text is handed out. */
static struct sheet_refusal trip(const struct bytes *input, uint64_t number, struct bytes *text) {
    struct sheet_text back = {0};
    struct sheet_error error = {0};
    struct sheet_refusal refusal = sheet_write(input, text);
    if (!sheet_read(&back, text, &error)) {
        sheet_say(&error, "");
        cases_stop("its text is not read", number);
    }
    if (back.input.count != input->count || (input->count > 0 && memcmp(back.input.at, input->at, input->count) != 0))
        cases_stop("its text is of other cells", number);
    if (back.cell_lines.count != input->count / CELL) cases_stop("not a line for each cell", number);
    sheet_clear(&back);
    return refusal;
}

static uint64_t draw(uint64_t below) {
    static uint64_t state = 88172645463325252u;
    state ^= state << 13, state ^= state >> 7, state ^= state << 17;
    return state % below;
}

static size_t lines_of(const struct bytes *text) {
    size_t lines = 1;
    for (size_t i = 0; i < text->count; i++) lines += text->at[i] == '\n';
    return lines;
}

/* One byte is another, or some bytes are missing. */
static void damage(struct bytes *text) {
    static const char signs[] = "0195vLfs:=(),[]&-# \n\tulongcabyte";
    size_t at = draw(text->count), gone = draw(4);
    if (gone > text->count - at) gone = text->count - at;
    memmove(text->at + at, text->at + at + gone, text->count - at - gone);
    text->count -= gone;
    if (gone == 0) text->at[at] = (uint8_t)signs[draw(sizeof signs)];
}

static void check_damaged(struct bytes *text, uint64_t number, struct counts *counts) {
    struct sheet_text sheet = {0};
    struct sheet_error error = {0};
    struct bytes again = {0};
    damage(text);
    if (sheet_read(&sheet, text, &error)) {
        trip(&sheet.input, number, &again);
        counts->damaged_read++;
    } else {
        if (error.line < 1 || error.line > lines_of(text) || strncmp(error.message, "expected ", 9) != 0) cases_stop("an error of no line", number);
        counts->damaged_refused++;
    }
    bytes_clear(&again);
    sheet_clear(&sheet);
}

static void check(const struct answer *a, uint64_t number, struct counts *counts) {
    struct bytes input = {0}, text = {0};
    cell_add(&input, (int64_t)(a->tables.count / CELL));
    bytes_add(&input, a->tables.at, a->tables.count);
    bytes_add(&input, a->sheet.at, a->sheet.count);
    struct sheet_refusal refusal = trip(&input, number, &text);
    bool is_refused = a->number >= GILTHOREN_BAD_TABLE && a->number <= GILTHOREN_OVERSIZE;
    if (refusal.number != (is_refused ? a->number : GILTHOREN_ACCEPTED)) cases_stop("another verdict on the layout", number);
    if (is_refused && refusal.cell != a->place) cases_stop("another cell is refused", number);
    *(is_refused ? &counts->raw : &counts->words) += 1;
    for (int i = 0; i < 3 && text.count > 0; i++) check_damaged(&text, number, counts);
    bytes_clear(&input);
    bytes_clear(&text);
}

/* The listing program's input as raw cells, also where no count of table cells stands at its start. */
static void check_raw(size_t bytes) {
    struct bytes input = {0}, text = {0};
    for (size_t i = 0; i < bytes; i++) bytes_add(&input, &(uint8_t){(uint8_t)(255 - i)}, 1);
    struct sheet_refusal refusal = trip(&input, bytes, &text);
    if (refusal.number != GILTHOREN_BAD_TABLE || refusal.cell != 0) cases_stop("an input without a count is not refused", bytes);
    bytes_clear(&input);
    bytes_clear(&text);
}

int main(int words, char **word) {
    struct cases cases = cases_open(words == 2 ? word[1] : NULL);
    struct counts counts = {0};
    for (uint64_t i = 0; i < cases.count; i++) {
        struct answer a = cases_next(&cases);
        if (a.tables.count % CELL) counts.torn_tables++;
        else check(&a, i, &counts);
        answer_clear(&a);
    }
    cases_close(&cases);
    for (size_t bytes = 0; bytes < 30; bytes++) check_raw(bytes);
    printf("%" PRIu64 " round trips in words, %" PRIu64 " as raw cells, %" PRIu64 " torn tables left out, ", counts.words, counts.raw,
           counts.torn_tables);
    printf("damaged texts: %" PRIu64 " read, %" PRIu64 " refused\n", counts.damaged_read, counts.damaged_refused);
    return 0;
}
