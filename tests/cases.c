/* Reads a file of answers. */
#include "cases.h"

#include <inttypes.h>
#include <stdlib.h>
#include <string.h>

_Noreturn void cases_stop(const char *what, uint64_t number) {
    fprintf(stderr, "case %" PRIu64 ": %s\n", number, what);
    exit(1);
}

static uint8_t next_byte(struct cases *c) {
    if (c->at == c->file.count) cases_stop("the file ends early", 0);
    return c->file.at[c->at++];
}

/* LEB128, lowest seven bits first. */
static uint64_t next_number(struct cases *c) {
    uint64_t value = 0;
    unsigned shift = 0;
    uint8_t byte;
    do {
        if (shift > 63) cases_stop("a number is too long", 0);
        byte = next_byte(c);
        value |= (uint64_t)(byte & 127) << shift;
        shift += 7;
    } while (byte > 127);
    return value;
}

/* Zigzag: 2v, or -2v - 1 for a negative v. */
static int64_t next_cell(struct cases *c) {
    uint64_t z = next_number(c);
    return z & 1 ? -(int64_t)(z >> 1) - 1 : (int64_t)(z >> 1);
}

static void next_slice(struct cases *c, struct bytes *slice) {
    for (uint64_t cells = next_number(c); cells > 0; cells--) cell_add(slice, next_cell(c));
    for (uint8_t torn = next_byte(c); torn > 0; torn--) bytes_add(slice, &(uint8_t){next_byte(c)}, 1);
}

struct answer cases_next(struct cases *c) {
    struct answer a = {.number = 0};
    next_slice(c, &a.tables);
    next_slice(c, &a.sheet);
    a.room = next_number(c);
    a.number = next_number(c);
    a.place = next_number(c);
    for (uint64_t cells = a.number == 0 ? 8 * a.place : 0; cells > 0; cells--) cell_add(&a.records, next_cell(c));
    for (uint64_t faults = next_number(c); faults > 0; faults--) numbers_add(&a.faults, (size_t)next_number(c));
    return a;
}

struct cases cases_open(const char *path) {
    struct cases c = {.at = 8};
    FILE *from = path ? fopen(path, "rb") : NULL;
    if (!from || !bytes_read(&c.file, from) || c.file.count < 8 || memcmp(c.file.at, "KRCVEC02", 8) != 0) cases_stop("no file of answers", 0);
    fclose(from);
    c.count = next_number(&c);
    return c;
}

const struct shape shapes[EXPORTS] = {
    [PACK_SHEET] = {.reads = 1, .takes = 1, .writes = 0, .leaves = 3},
    [PACK_LOWER] = {.reads = 2, .takes = 1, .writes = 1, .leaves = 1},
    [PACK_TOTALS] = {.reads = 2, .takes = 0, .writes = 0, .leaves = 3},
    [TO_EDITION2] = {.reads = 1, .takes = 0, .writes = 1, .leaves = 1},
    [TO_EDITION1] = {.reads = 1, .takes = 0, .writes = 1, .leaves = 1},
};

void cases_calls(struct cases *c) {
    c->in_calls = true;
    c->calls = next_number(c);
}

struct call calls_next(struct cases *c) {
    struct call call = {.takes = 0};
    uint64_t export = next_number(c);
    if (export >= EXPORTS) cases_stop("an export that is not there", export);
    call.export = (enum export)export;
    const struct shape *shape = &shapes[export];
    for (size_t i = 0; i < shape->reads; i++) next_slice(c, &call.reads[i]);
    if (shape->takes) call.takes = next_number(c);
    for (size_t i = 0; i < shape->writes; i++) {
        call.writes[i].length = next_number(c);
        next_slice(c, &call.writes[i].before);
    }
    for (size_t i = 0; i <= shape->leaves; i++) call.answers[i] = next_number(c);
    for (size_t i = 0; i < shape->writes; i++) next_slice(c, &call.writes[i].after);
    return call;
}

void call_clear(struct call *call) {
    for (size_t i = 0; i < MOST_READS; i++) bytes_clear(&call->reads[i]);
    for (size_t i = 0; i < MOST_WRITES; i++) {
        bytes_clear(&call->writes[i].before);
        bytes_clear(&call->writes[i].after);
    }
}

static void skip_calls(struct cases *c) {
    cases_calls(c);
    for (uint64_t i = 0; i < c->calls; i++) {
        struct call call = calls_next(c);
        call_clear(&call);
    }
}

void cases_close(struct cases *c) {
    if (!c->in_calls) skip_calls(c);
    if (c->at != c->file.count) cases_stop("bytes are left over", c->count);
    bytes_clear(&c->file);
}

void answer_clear(struct answer *a) {
    bytes_clear(&a->tables);
    bytes_clear(&a->sheet);
    bytes_clear(&a->records);
    numbers_clear(&a->faults);
}
