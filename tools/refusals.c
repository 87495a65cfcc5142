/* Refusals in words. */
#include "refusals.h"

#include <inttypes.h>

/* What a refusal's place counts. */
enum place { PLACE_UNKNOWN, PLACE_TABLES, PLACE_SHEET, PLACE_INSTRUCTION, PLACE_RECORDS, PLACE_PACK };

struct refusal {
    const char *word, *meaning;
    enum place place;
};

/* A number without a row, or with a row of no words, refuses nothing. */
static const struct refusal refusals[] = {
    [GILTHOREN_BAD_TABLE] = {"bad table", "the tables are off the layout or too long", PLACE_TABLES},
    [GILTHOREN_TORN_SHEET] = {"torn sheet", "the sheet is off the layout, too short, or has cells left over", PLACE_SHEET},
    [GILTHOREN_OVERSIZE] = {"oversize", "a limit is passed", PLACE_SHEET},
    [GILTHOREN_NO_WIDTH] = {"no width", "a size is asked of Custom, Null or an array of them", PLACE_INSTRUCTION},
    [GILTHOREN_NO_ENTRY] = {"no entry", "a variable, label, string or float lies beyond its table", PLACE_INSTRUCTION},
    [GILTHOREN_ODD_WIDTH] = {"odd width", "a size other than 1, 2, 4 or 8 is moved at once", PLACE_INSTRUCTION},
    [GILTHOREN_NO_LOWERING] = {"no lowering", "Krc has no lowering for it", PLACE_INSTRUCTION},
    [GILTHOREN_PAGE_FULL] = {"page full", "there is no room for all records", PLACE_RECORDS},
    [GILTHOREN_BAD_PACK] = {"bad pack", "the pack is off the layout, too short, or has cells left over", PLACE_PACK},
    [GILTHOREN_TYPE_DIFFERS] = {"type differs", "a variable's own type is not its entry's, or it has no entry", PLACE_SHEET},
};

static const struct refusal unknown = {"unknown refusal", "this program has no words for the number", PLACE_UNKNOWN};

static const struct refusal *row(uint64_t number) {
    bool has_row = number < sizeof refusals / sizeof *refusals && refusals[number].word;
    return has_row ? &refusals[number] : &unknown;
}

bool refusal_is_known(uint64_t number) {
    return row(number) != &unknown;
}

const char *refusal_word(uint64_t number) {
    return row(number)->word;
}

const char *refusal_meaning(uint64_t number) {
    return row(number)->meaning;
}

/* The line of a cell of the tables or of the sheet, 0 if it has none. */
static size_t cell_line(const struct sheet_text *sheet, enum place slice, uint64_t place) {
    struct sheet_parts parts;
    if (!sheet || !sheet_split(&sheet->input, &parts)) return 0;
    size_t before = 1 + (slice == PLACE_TABLES ? 0 : parts.tables_bytes / CELL), lines = sheet->cell_lines.count;
    return before < lines && place < lines - before ? sheet->cell_lines.at[before + place] : 0;
}

static void put_line(size_t line, struct bytes *text) {
    if (line) bytes_print(text, ", line %zu", line);
}

static void cell_place(const struct sheet_text *sheet, enum place slice, uint64_t place, struct bytes *text) {
    bytes_print(text, "cell %" PRIu64 " of the %s", place, slice == PLACE_TABLES ? "tables" : "sheet");
    put_line(cell_line(sheet, slice, place), text);
}

void instruction_place(const struct sheet_text *sheet, uint64_t place, struct bytes *text) {
    if (place == 0) {
        bytes_print(text, "before the body");
        return;
    }
    bytes_print(text, "instruction %" PRIu64, place);
    put_line(sheet && place <= sheet->instruction_lines.count ? sheet->instruction_lines.at[place - 1] : 0, text);
}

void refusal_place(const struct sheet_text *sheet, uint64_t number, uint64_t place, struct bytes *text) {
    switch (row(number)->place) {
    case PLACE_TABLES:
    case PLACE_SHEET: cell_place(sheet, row(number)->place, place, text); break;
    case PLACE_INSTRUCTION: instruction_place(sheet, place, text); break;
    case PLACE_RECORDS: bytes_print(text, "%" PRIu64 " records are needed", place); break;
    case PLACE_PACK: bytes_print(text, "cell %" PRIu64 " of the pack", place); break;
    case PLACE_UNKNOWN: bytes_print(text, "number %" PRIu64 ", place %" PRIu64, number, place); break;
    }
}
