/* The library's functions as C calls them, on every case and every call of a file of answers (vectors/README.md has its form).
 *
 * usage: exports FILE
 *
 * Held for each case: number and place; the records, and every byte behind them or, after a refusal, every byte as it was, up to a margin behind
 * the slice that is lent; tables and sheet unchanged; the plain test's verdict, with 0 or the first number at fault for its place. Held for each
 * call: the answer and every number that it leaves; every byte of the slices that it writes, up to a margin behind them; the others unchanged. */
#include <inttypes.h>
#include <stdlib.h>
#include <string.h>

#include "cases.h"
#include "gilthoren.h"

/* Room that is never lent, and what it holds. */
enum { MARGIN = 128, FILLER = 0xA5 };

static bool is_filler(const uint8_t *bytes, size_t count) {
    for (size_t i = 0; i < count; i++)
        if (bytes[i] != FILLER) return false;
    return true;
}

static bool is_same(const struct bytes *list, const uint8_t *bytes) {
    return list->count == 0 || memcmp(list->at, bytes, list->count) == 0;
}

/* A copy that is never null, for a slice must not be. */
static uint8_t *copy(const struct bytes *list) {
    uint8_t *to = malloc(list->count + 1);
    if (!to) cases_stop("out of memory", 0);
    if (list->count > 0) memcpy(to, list->at, list->count);
    return to;
}

static void check_lower(const struct answer *a, const uint8_t *tables, const uint8_t *sheet, uint64_t number) {
    uint64_t place = UINT64_MAX;
    uint8_t *records = malloc(a->room + MARGIN);
    if (!records) cases_stop("out of memory", number);
    memset(records, FILLER, a->room + MARGIN);
    uint64_t answer = gilthoren_lower(tables, a->tables.count, sheet, a->sheet.count, records, a->room, &place);
    if (answer != a->number) cases_stop("another answer", number);
    if (place != a->place) cases_stop("another place", number);
    if (!is_same(&a->records, records)) cases_stop("other records", number);
    if (!is_filler(records + a->records.count, a->room + MARGIN - a->records.count)) cases_stop("a byte is changed that is no record's", number);
    free(records);
}

static void check_plain(const struct answer *a, const uint8_t *tables, const uint8_t *sheet, uint64_t number) {
    uint64_t place = UINT64_MAX;
    uint64_t verdict = gilthoren_plain(tables, a->tables.count, sheet, a->sheet.count, &place);
    if (verdict != (a->faults.count == 0)) cases_stop("another verdict of the plain test", number);
    if (place != (verdict ? 0 : a->faults.at[0])) cases_stop("the plain test names another number than the first at fault", number);
}

/* What a call is lent. */
struct lent {
    uint8_t *reads[MOST_READS], *writes[MOST_WRITES];
};

static uint64_t answered(const struct call *c, const struct lent *l, uint64_t *left) {
    size_t first = c->reads[0].count, second = c->reads[1].count, room = c->writes[0].length;
    switch (c->export) {
    case PACK_SHEET: return gilthoren_pack_sheet(l->reads[0], first, c->takes, &left[0], &left[1], &left[2]);
    case PACK_LOWER: return gilthoren_pack_lower(l->reads[0], first, l->reads[1], second, c->takes, l->writes[0], room, &left[0]);
    case PACK_TOTALS: return gilthoren_pack_totals(l->reads[0], first, l->reads[1], second, &left[0], &left[1], &left[2]);
    case TO_EDITION2: return gilthoren_to_edition2(l->reads[0], first, l->writes[0], room, &left[0]);
    case TO_EDITION1: return gilthoren_to_edition1(l->reads[0], first, l->writes[0], room, &left[0]);
    default: cases_stop("an export that is not there", c->export);
    }
}

/* Filler, with what the slice starts with before. */
static uint8_t *filled(const struct written *w) {
    uint8_t *to = malloc(w->length + MARGIN);
    if (!to) cases_stop("out of memory", 0);
    memset(to, FILLER, w->length + MARGIN);
    if (w->before.count > 0) memcpy(to, w->before.at, w->before.count);
    return to;
}

/* What it starts with afterwards, and behind that what was there. */
static bool is_written(const struct written *w, const uint8_t *bytes) {
    size_t after = w->after.count, before = w->before.count, from = after > before ? after : before;
    if (!is_same(&w->after, bytes)) return false;
    if (before > after && memcmp(bytes + after, w->before.at + after, before - after) != 0) return false;
    return is_filler(bytes + from, w->length + MARGIN - from);
}

static void check_call(const struct call *c, uint64_t number) {
    const struct shape *shape = &shapes[c->export];
    struct lent lent = {.reads = {NULL}};
    uint64_t left[MOST_LEFT] = {UINT64_MAX, UINT64_MAX, UINT64_MAX};
    for (size_t i = 0; i < shape->reads; i++) lent.reads[i] = copy(&c->reads[i]);
    for (size_t i = 0; i < shape->writes; i++) lent.writes[i] = filled(&c->writes[i]);
    if (answered(c, &lent, left) != c->answers[0]) cases_stop("another answer to a call", number);
    if (memcmp(left, c->answers + 1, shape->leaves * sizeof *left) != 0) cases_stop("a call leaves another number", number);
    for (size_t i = 0; i < shape->writes; i++) {
        if (!is_written(&c->writes[i], lent.writes[i])) cases_stop("a call writes other bytes", number);
        free(lent.writes[i]);
    }
    for (size_t i = 0; i < shape->reads; i++) {
        if (!is_same(&c->reads[i], lent.reads[i])) cases_stop("a call changes what it reads", number);
        free(lent.reads[i]);
    }
}

int main(int words, char **word) {
    struct cases cases = cases_open(words == 2 ? word[1] : NULL);
    uint64_t accepted = 0, plain = 0;
    for (uint64_t i = 0; i < cases.count; i++) {
        struct answer a = cases_next(&cases);
        uint8_t *tables = copy(&a.tables), *sheet = copy(&a.sheet);
        check_lower(&a, tables, sheet, i);
        check_plain(&a, tables, sheet, i);
        if (!is_same(&a.tables, tables) || !is_same(&a.sheet, sheet)) cases_stop("tables or sheet are changed", i);
        accepted += a.number == GILTHOREN_ACCEPTED;
        plain += a.faults.count == 0;
        free(tables);
        free(sheet);
        answer_clear(&a);
    }
    cases_calls(&cases);
    for (uint64_t i = 0; i < cases.calls; i++) {
        struct call c = calls_next(&cases);
        check_call(&c, i);
        call_clear(&c);
    }
    cases_close(&cases);
    printf("%" PRIu64 " sheets answered, %" PRIu64 " accepted, %" PRIu64 " plain; %" PRIu64 " calls of the other functions\n", cases.count, accepted, plain, cases.calls);
    return 0;
}
