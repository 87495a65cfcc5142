/* Lowers a sheet that is written as text (docs/TOOLS.md), or is a file of cells.
 *
 * usage: lower SHEET
 *
 * Standard output has the listing, as the listing program writes it; standard error says in words what a refusal means and where its place
 * is, and what the plain test says: yes, or the first fault and the condition that it breaks. Status 0 when the sheet is accepted, 1 when it
 * is refused, 2 when it is not lowered at all, 3 when the listing or the words cannot be written. */
#include <inttypes.h>

#include "../tools/plain_words.h"
#include "../tools/refusals.h"
#include "gilthoren.h"

struct answer {
    uint64_t number, place;
    struct bytes records;
};

/* Lowers twice: with no room at all the refusal tells how many records are needed. */
static struct answer lower(const struct sheet_parts *in) {
    struct answer answer = {0, 0, {0}};
    uint8_t none;
    answer.number = gilthoren_lower(in->tables, in->tables_bytes, in->sheet, in->sheet_bytes, &none, 0, &answer.place);
    if (answer.number != GILTHOREN_PAGE_FULL) return answer;
    for (uint64_t cells = GILTHOREN_RECORD_BYTES / CELL * answer.place; cells > 0; cells--) cell_add(&answer.records, 0);
    answer.number = gilthoren_lower(in->tables, in->tables_bytes, in->sheet, in->sheet_bytes, answer.records.at, answer.records.count, &answer.place);
    return answer;
}

/* `ok` and a line for each record, or `refused` with number and place. */
static void put_listing(const struct answer *answer, struct bytes *text) {
    if (answer->number != GILTHOREN_ACCEPTED) {
        bytes_print(text, "refused %" PRIu64 " %" PRIu64 "\n", answer->number, answer->place);
        return;
    }
    bytes_print(text, "ok %" PRIu64 "\n", answer->place);
    for (size_t cell = 0; cell < answer->records.count / CELL; cell++)
        bytes_print(text, "%" PRId64 "%c", cell_at(answer->records.at, cell), cell % 8 < 7 ? ' ' : '\n');
}

static void put_refusal(const struct sheet_text *sheet, const struct answer *answer, struct bytes *words) {
    if (answer->number == GILTHOREN_ACCEPTED) return;
    bytes_print(words, "refused: %s, %s (", refusal_word(answer->number), refusal_meaning(answer->number));
    refusal_place(sheet, answer->number, answer->place, words);
    bytes_print(words, ")\n");
}

/* The first fault, and the condition that it breaks; with none, the lowering's refusal is the fault. */
static void put_fault(const struct sheet_text *sheet, const struct sheet_parts *in, uint64_t fault, struct bytes *words) {
    const char *condition = plain_words(in->sheet, fault);
    bytes_print(words, "plain: no, %s (", condition ? condition : "the lowering refuses it");
    instruction_place(sheet, fault, words);
    bytes_print(words, ")\n");
}

static void put_plain(const struct sheet_text *sheet, const struct sheet_parts *in, uint64_t refusal, struct bytes *words) {
    uint64_t fault = 0;
    if (gilthoren_plain(in->tables, in->tables_bytes, in->sheet, in->sheet_bytes, &fault))
        bytes_print(words, "plain: yes, the records do what the sheet says, step by step\n");
    else if (refusal >= GILTHOREN_BAD_TABLE && refusal <= GILTHOREN_OVERSIZE) bytes_print(words, "plain: no, it is not readable\n");
    else put_fault(sheet, in, fault, words);
}

static int lower_sheet(const struct sheet_text *sheet) {
    struct sheet_parts in;
    struct answer answer = {GILTHOREN_BAD_TABLE, 0, {0}};
    struct bytes listing = {0}, words = {0};
    bool is_split = sheet_split(&sheet->input, &in);
    if (is_split) answer = lower(&in);
    put_listing(&answer, &listing);
    put_refusal(sheet, &answer, &words);
    if (is_split) put_plain(sheet, &in, answer.number, &words);
    int status = bytes_end(&listing, "lower", answer.number == GILTHOREN_ACCEPTED ? 0 : 1);
    if (!bytes_write(&words, stderr)) status = STATUS_BROKEN;
    bytes_clear(&answer.records);
    bytes_clear(&listing);
    bytes_clear(&words);
    return status;
}

int main(int count, char **words) {
    struct sheet_text sheet = {0};
    if (count != 2) {
        fputs("usage: lower SHEET\n", stderr);
        return 2;
    }
    int status = sheet_open(&sheet, words[1], "") ? lower_sheet(&sheet) : 2;
    sheet_clear(&sheet);
    return status;
}
