/* Reads a file of answers (vectors/README.md has its form). */
#ifndef GILTHOREN_CASES_H
#define GILTHOREN_CASES_H

#include "../tools/store.h"

/* A case: what is lent, and what must be answered. */
struct answer {
    struct bytes tables, sheet, records; /* the records as bytes, when accepted */
    uint64_t room;                       /* bytes of the record slice that is lent */
    uint64_t number, place;
    struct numbers faults; /* everything at fault, ascending; the plain test names the first */
};

/* Another export, by its number in a file, and how much it is lent. */
enum export { PACK_SHEET, PACK_LOWER, PACK_TOTALS, TO_EDITION2, TO_EDITION1, EXPORTS };
enum { MOST_READS = 3, MOST_WRITES = 2, MOST_LEFT = 3 };
struct shape {
    size_t reads, takes, writes, leaves; /* slices, numbers, slices, numbers behind the answer */
};
extern const struct shape shapes[EXPORTS];

/* A slice that a call writes: its bytes, its first bytes before, and its first bytes afterwards. */
struct written {
    uint64_t length;
    struct bytes before, after;
};

/* A call of another export: what is lent, and what must come back. */
struct call {
    enum export export;
    struct bytes reads[MOST_READS];
    uint64_t takes;
    struct written writes[MOST_WRITES];
    uint64_t answers[1 + MOST_LEFT];
};

/* Its cases, and then its calls. */
struct cases {
    struct bytes file;
    size_t at; /* the next byte */
    uint64_t count, calls;
    bool in_calls;
};

/* Each stops the program with a message if the file is not what it must be. The calls may be left to `cases_close`. */
struct cases cases_open(const char *path);
struct answer cases_next(struct cases *cases);
void cases_calls(struct cases *cases); /* behind the cases */
struct call calls_next(struct cases *cases);
void cases_close(struct cases *cases);

void answer_clear(struct answer *answer);
void call_clear(struct call *call);

/* Ends the program: the number of a case and what is wrong with it. */
_Noreturn void cases_stop(const char *what, uint64_t number);

#endif
