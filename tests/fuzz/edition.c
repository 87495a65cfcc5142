/* The editions of a sheet: a sheet, the number of output bytes. It is read as one of either edition. */
#include "lent.h"

typedef uint64_t conversion(const uint8_t *sheet, size_t sheet_bytes, uint8_t *out, size_t out_bytes, uint64_t *place);

/* Numbers and places that docs/FORMAT.md allows, and the bytes that the answer allows to be written. */
static void check_answer(uint64_t answer, uint64_t place, const struct lent *s, const struct lent *out) {
    must(answer == GILTHOREN_ACCEPTED || answer == GILTHOREN_TORN_SHEET || answer == GILTHOREN_OVERSIZE || answer == GILTHOREN_PAGE_FULL || answer == GILTHOREN_TYPE_DIFFERS, "the number");
    must((answer != GILTHOREN_TORN_SHEET && answer != GILTHOREN_OVERSIZE) || place <= s->length / 8, "the sheet's cell");
    must(answer != GILTHOREN_TYPE_DIFFERS || place < s->length / 8, "the id's cell");
    must(answer != GILTHOREN_PAGE_FULL || place * 8 > out->length, "the cells needed");
    must(answer != GILTHOREN_ACCEPTED || place * 8 <= out->length, "the cells written");
    unharmed_from(out, answer == GILTHOREN_ACCEPTED ? (size_t)place * 8 : 0);
    unharmed_around(out);
}

/* What is converted comes back as it was. */
static void check_back(const struct lent *s, const struct lent *out, uint64_t cells, conversion *back) {
    struct lent again = lend(s->length);
    uint64_t place = UINT64_MAX, answer = back(out->bytes, (size_t)cells * 8, again.bytes, again.length, &place);
    must(answer == GILTHOREN_ACCEPTED && place * 8 == s->length, "the way back");
    same_bytes(&again, s, s->length);
    unharmed_around(&again);
    free(again.all);
}

static void check(const struct lent *s, size_t room, conversion *there, conversion *back) {
    struct lent out = lend(room), before = copy_of(s), none = lend(0);
    uint64_t place = UINT64_MAX, needed = UINT64_MAX, answer = there(s->bytes, s->length, out.bytes, out.length, &place);
    check_answer(answer, place, s, &out);
    if (answer == GILTHOREN_ACCEPTED) check_back(s, &out, place, back);
    uint64_t again = there(s->bytes, s->length, none.bytes, 0, &needed);
    must(needed == place && again == (answer == GILTHOREN_ACCEPTED ? GILTHOREN_PAGE_FULL : answer), "the answer with no room");
    unharmed(s, &before);
    free(out.all), free(before.all), free(none.all);
}

int LLVMFuzzerTestOneInput(const uint8_t *data, size_t size);
int LLVMFuzzerTestOneInput(const uint8_t *data, size_t size) {
    struct input in = {data, data + size};
    struct lent sheet = slice(&in);
    size_t room = (size_t)(number(&in) % MOST_ROOM);
    check(&sheet, room, gilthoren_to_edition2, gilthoren_to_edition1);
    check(&sheet, room, gilthoren_to_edition1, gilthoren_to_edition2);
    free(sheet.all);
    return 0;
}
