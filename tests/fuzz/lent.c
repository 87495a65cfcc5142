#include "lent.h"

#include <stdio.h>

enum { GUARD = 64, MOST_BYTES = 1 << 16 };

/* What lent memory holds before it is filled. */
static uint8_t old[MOST_BYTES + 2 * GUARD];

void must(int holds, const char *what) {
    if (!holds) {
        fprintf(stderr, "broken: %s\n", what);
        abort();
    }
}

/* Unsigned LEB128; a number that is cut off ends with the input. */
uint64_t number(struct input *in) {
    uint64_t n = 0;
    for (unsigned shift = 0; shift < 64 && in->at < in->end; shift += 7) {
        uint8_t byte = *in->at++;
        n |= (uint64_t)(byte & 0x7f) << shift;
        if (byte < 0x80) break;
    }
    return n;
}

int LLVMFuzzerInitialize(int *argc, char ***argv);
int LLVMFuzzerInitialize(int *argc, char ***argv) {
    (void)argc, (void)argv;
    for (size_t i = 0; i < sizeof old; i++) old[i] = (uint8_t)(0xa5 ^ i * 29 ^ i >> 8);
    return 0;
}

struct lent lend(size_t length) {
    struct lent l = {malloc(length + 2 * GUARD), NULL, length};
    must(l.all != NULL && length <= MOST_BYTES, "memory");
    l.bytes = l.all + GUARD;
    memcpy(l.all, old, length + 2 * GUARD);
    return l;
}

void unharmed_around(const struct lent *l) {
    size_t behind = GUARD + l->length;
    must(memcmp(l->all, old, GUARD) == 0 && memcmp(l->all + behind, old + behind, GUARD) == 0, "a canary");
}

void unharmed_from(const struct lent *l, size_t from) {
    must(memcmp(l->bytes + from, old + GUARD + from, l->length - from) == 0, "old content");
}

void unharmed(const struct lent *l, const struct lent *before) {
    must(memcmp(l->bytes, before->bytes, l->length) == 0, "bytes that were lent to be read");
    unharmed_around(l);
}

void same_bytes(const struct lent *a, const struct lent *b, size_t count) {
    must(count <= a->length && count <= b->length && memcmp(a->bytes, b->bytes, count) == 0, "the same bytes");
}

struct lent slice(struct input *in) {
    uint64_t cells = number(in);
    size_t left = (size_t)(in->end - in->at), torn;
    struct lent l;
    if (cells > left) cells = left;
    if (cells > MOST_BYTES / 8 - 1) cells = MOST_BYTES / 8 - 1;
    l = lend(8 * cells + 7);
    for (uint64_t c = 0; c < cells; c++) {
        uint64_t z = number(in), v = (z >> 1) ^ (0 - (z & 1));
        for (unsigned b = 0; b < 8; b++) l.bytes[8 * c + b] = (uint8_t)(v >> (8 * b));
    }
    torn = in->at < in->end ? *in->at++ % 8 : 0;
    for (size_t b = 0; b < torn; b++) l.bytes[8 * cells + b] = in->at < in->end ? *in->at++ : 0;
    l.length = 8 * cells + torn;
    memcpy(l.bytes + l.length, old + GUARD + l.length, GUARD);
    return l;
}

struct lent copy_of(const struct lent *l) {
    struct lent c = lend(l->length);
    memcpy(c.bytes, l->bytes, l->length);
    return c;
}
