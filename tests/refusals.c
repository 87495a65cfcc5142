/* Every number has words and a place that can be shown: those that calls refuse by, those that none does, and any other. tests/header.py holds the words to
 * docs/FORMAT.md.
 *
 * usage: refusals SHEET */
#include <inttypes.h>
#include <stdlib.h>
#include <string.h>

#include "../tools/refusals.h"

static _Noreturn void stop(const char *what, uint64_t number) {
    fprintf(stderr, "refusal %" PRIu64 ": %s\n", number, what);
    exit(1);
}

static void check_place(const struct sheet_text *sheet, uint64_t number, uint64_t place) {
    struct bytes text = {0};
    refusal_place(sheet, number, place, &text);
    if (text.count == 0) stop("no place", number);
    bytes_clear(&text);
}

static void check(const struct sheet_text *sheet, uint64_t number) {
    static const uint64_t places[] = {0, 1, 2, 6, 4096, 1u << 20, UINT64_MAX / 8, UINT64_MAX};
    bool is_none = number == GILTHOREN_ACCEPTED || number == GILTHOREN_REGISTERS_SPENT || number > 99;
    bool is_one = !is_none && (number <= GILTHOREN_PAGE_FULL || number == GILTHOREN_TYPE_DIFFERS);
    if (is_none && refusal_is_known(number)) stop("known, and no call refuses by it", number);
    if (is_one && !refusal_is_known(number)) stop("not known, and calls refuse by it", number);
    if (strlen(refusal_word(number)) == 0 || strlen(refusal_meaning(number)) == 0) stop("no words", number);
    if ((strcmp(refusal_word(number), "unknown refusal") == 0) == refusal_is_known(number)) stop("words of another number", number);
    for (size_t i = 0; i < sizeof places / sizeof *places; i++) {
        check_place(sheet, number, places[i]);
        check_place(NULL, number, places[i]);
    }
}

int main(int count, char **words) {
    struct sheet_text sheet = {0};
    if (count != 2 || !sheet_open(&sheet, words[1], "")) return 2;
    for (uint64_t number = 0; number < 300; number++) check(&sheet, number);
    for (unsigned bit = 9; bit < 64; bit++) check(&sheet, (uint64_t)1 << bit);
    check(&sheet, UINT64_MAX);
    sheet_clear(&sheet);
    return 0;
}
