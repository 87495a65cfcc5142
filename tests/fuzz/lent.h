/* What the drivers share: an input's numbers and slices, and memory between canaries. An input has what is lent to a call in the compact form of
 * vectors/README.md; where it is cut off, numbers end and slices are short. */
#ifndef GILTHOREN_LENT_H
#define GILTHOREN_LENT_H

#include <stdint.h>
#include <stdlib.h>
#include <string.h>

#include "gilthoren.h"

enum { MOST_ROOM = 1 << 14 };

struct input {
    const uint8_t *at, *end;
};

/* Bytes between canaries. */
struct lent {
    uint8_t *all, *bytes;
    size_t length;
};

/* Stops the fuzzer. */
void must(int holds, const char *what);

uint64_t number(struct input *in);

/* Bytes of old content. */
struct lent lend(size_t length);

/* Counted cells, zigzag, then the bytes of a torn cell. */
struct lent slice(struct input *in);
struct lent copy_of(const struct lent *l);

/* Nothing was written around it; or from `from` on; or at all. */
void unharmed_around(const struct lent *l);
void unharmed_from(const struct lent *l, size_t from);
void unharmed(const struct lent *l, const struct lent *before);

/* Two slices have the same bytes up to `count`. */
void same_bytes(const struct lent *a, const struct lent *b, size_t count);

#endif
