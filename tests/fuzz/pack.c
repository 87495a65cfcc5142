/* Packs and their totals: a pack, a number, tables, the number of record bytes. */
#include "lent.h"

struct found {
    uint64_t answer, place, from, length;
};

static struct found find(const struct lent *p, uint64_t n) {
    struct found f = {UINT64_MAX, UINT64_MAX, UINT64_MAX, UINT64_MAX};
    f.answer = gilthoren_pack_sheet(p->bytes, p->length, n, &f.place, &f.from, &f.length);
    return f;
}

/* 0, 5 and 13 are all that a look-up answers, and what it finds lies in the pack. */
static void check_found(const struct found *f, const struct lent *p) {
    must(f->answer == GILTHOREN_ACCEPTED || f->answer == GILTHOREN_NO_ENTRY || f->answer == GILTHOREN_BAD_PACK, "the number");
    must(f->answer == GILTHOREN_BAD_PACK ? f->place <= p->length / 8 : f->place == 0, "the place");
    must(f->answer == GILTHOREN_ACCEPTED || (f->from == 0 && f->length == 0), "a refused part");
    must(f->from <= p->length && f->length <= p->length - f->from && f->from % 8 == 0 && f->length % 8 == 0, "the part");
}

/* The sheets tile the pack behind its pairs: all numbers below the count are found, one behind the other, and none above. */
static void check_tiles(const struct lent *p) {
    uint64_t count = p->bytes[0] | (uint64_t)p->bytes[1] << 8, behind = 8 + 16 * count;
    must(count >= 1 && count <= GILTHOREN_MOST_SHEETS, "the count");
    for (uint64_t k = 0; k < count; k++) {
        struct found f = find(p, k);
        must(f.answer == GILTHOREN_ACCEPTED && f.from == behind, "a gap");
        behind += f.length;
    }
    must(behind == p->length, "the end");
    must(find(p, count).answer == GILTHOREN_NO_ENTRY, "a number that is not there");
}

/* The lowering in the pack is that of the sheet's own bytes. */
static void check_lower(const struct found *f, const struct lent *t, const struct lent *p, uint64_t n, size_t room) {
    struct lent one = lend(room), two = lend(room);
    uint64_t place = UINT64_MAX, wanted = f->place, number = f->answer;
    uint64_t answer = gilthoren_pack_lower(t->bytes, t->length, p->bytes, p->length, n, one.bytes, room, &place);
    if (f->answer == GILTHOREN_ACCEPTED) number = gilthoren_lower(t->bytes, t->length, p->bytes + f->from, f->length, two.bytes, room, &wanted);
    must(answer == number && place == wanted, "the lowering in the pack");
    same_bytes(&one, &two, room);
    unharmed_around(&one);
    free(one.all), free(two.all);
}

/* The totals are those of the sheets, lowered one by one from the first on. */
static void check_totals(uint64_t answer, uint64_t place, const struct lent *t, const struct lent *p) {
    uint64_t at = UINT64_MAX, records = UINT64_MAX, refused = UINT64_MAX, sum = 0, away = 0;
    uint64_t number = gilthoren_pack_totals(t->bytes, t->length, p->bytes, p->length, &at, &records, &refused);
    if (answer == GILTHOREN_BAD_PACK) {
        must(number == answer && at == place && records == 0 && refused == 0, "the totals of a bad pack");
        return;
    }
    struct found f;
    for (uint64_t k = 0; (f = find(p, k)).answer == GILTHOREN_ACCEPTED; k++) {
        uint8_t none;
        uint64_t needed = 0, said = gilthoren_lower(t->bytes, t->length, p->bytes + f.from, f.length, &none, 0, &needed);
        if (said == GILTHOREN_PAGE_FULL || said == GILTHOREN_ACCEPTED) sum += needed;
        else away++;
    }
    must(number == GILTHOREN_ACCEPTED && at == 0 && records == sum && refused == away, "the totals");
}

int LLVMFuzzerTestOneInput(const uint8_t *data, size_t size);
int LLVMFuzzerTestOneInput(const uint8_t *data, size_t size) {
    struct input in = {data, data + size};
    struct lent pack = slice(&in);
    uint64_t n = number(&in);
    struct lent tables = slice(&in), old_pack = copy_of(&pack), old_tables = copy_of(&tables);
    size_t room = (size_t)(number(&in) % MOST_ROOM);
    struct found f = find(&pack, n);

    check_found(&f, &pack);
    if (f.answer != GILTHOREN_BAD_PACK) check_tiles(&pack);
    check_lower(&f, &tables, &pack, n, room);
    check_totals(f.answer, f.place, &tables, &pack);
    unharmed(&pack, &old_pack);
    unharmed(&tables, &old_tables);
    free(pack.all), free(tables.all), free(old_pack.all), free(old_tables.all);
    return 0;
}
