/* The lowering and the plain test: tables, sheet, the number of record bytes. */
#include "lent.h"

static uint64_t lower(const struct lent *t, const struct lent *s, const struct lent *r, uint64_t *place) {
    return gilthoren_lower(t->bytes, t->length, s->bytes, s->length, r->bytes, r->length, place);
}

/* Numbers and places that docs/FORMAT.md allows, and the record bytes that the answer allows to be written. */
static void check_answer(uint64_t answer, uint64_t place, const struct lent *t, const struct lent *s, const struct lent *r) {
    must(answer <= 9 && answer != 8, "the number");
    must(answer != 1 || place <= t->length / 8, "the tables' cell");
    must((answer != 2 && answer != 3) || place <= s->length / 8, "the sheet's cell");
    must(answer < 4 || answer > 8 || place <= 4096, "the instruction");
    must(answer != 9 || place * GILTHOREN_RECORD_BYTES > r->length, "the room");
    must(answer != 0 || place * GILTHOREN_RECORD_BYTES <= r->length, "the count");
    unharmed_from(r, answer == 0 ? place * GILTHOREN_RECORD_BYTES : 0);
    unharmed_around(r);
}

/* With no room at all the answer is the same refusal, or 9 with the number of records. */
static void check_no_room(uint64_t answer, uint64_t place, const struct lent *t, const struct lent *s) {
    struct lent none = lend(0);
    uint64_t needed = 0, again = lower(t, s, &none, &needed);
    must(needed == place, "the place with no room");
    must(again == (answer == 0 ? 9 : answer) || (again == 0 && place == 0), "the answer with no room");
    unharmed_around(&none);
    free(none.all);
}

/* A plain function is lowered; of others no number is named that lies behind the refusal's place. */
static void check_plain(uint64_t answer, uint64_t place, const struct lent *t, const struct lent *s) {
    uint64_t fault = UINT64_MAX;
    uint64_t yes = gilthoren_plain(t->bytes, t->length, s->bytes, s->length, &fault);
    must(yes <= 1 && fault <= 4096, "the plain test's answer");
    must(yes == 0 || (fault == 0 && (answer == 0 || answer == 9)), "a plain function is lowered");
    must(answer < 1 || answer > 3 || fault == 0, "a refusal that names a cell is fault 0");
    must(answer < 4 || answer > 8 || fault <= place, "a fault before the refusal's place comes first");
}

int LLVMFuzzerTestOneInput(const uint8_t *data, size_t size);
int LLVMFuzzerTestOneInput(const uint8_t *data, size_t size) {
    struct input in = {data, data + size};
    struct lent tables = slice(&in), sheet = slice(&in);
    struct lent old_tables = copy_of(&tables), old_sheet = copy_of(&sheet);
    struct lent records = lend((size_t)(number(&in) % MOST_ROOM));
    uint64_t place = UINT64_MAX, answer = lower(&tables, &sheet, &records, &place);

    check_answer(answer, place, &tables, &sheet, &records);
    check_no_room(answer, place, &tables, &sheet);
    check_plain(answer, place, &tables, &sheet);
    unharmed(&tables, &old_tables);
    unharmed(&sheet, &old_sheet);
    free(tables.all), free(sheet.all), free(old_tables.all), free(old_sheet.all), free(records.all);
    return 0;
}
