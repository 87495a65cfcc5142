/* The words for broken conditions, on every case of a file of answers (vectors/README.md has its form).
 *
 * usage: words FILE
 *
 * Held for each readable sheet: a condition has words at exactly the numbers at fault, up to the last instruction or, where the lowering refuses the
 * sheet, up to the refusal's place, which is at fault with or without words. */
#include <inttypes.h>
#include <stdlib.h>

#include "../tools/plain_words.h"
#include "cases.h"

static bool is_fault(const struct answer *a, uint64_t number) {
    for (size_t i = 0; i < a->faults.count; i++)
        if (a->faults.at[i] == number) return true;
    return false;
}

/* Whether tables and sheet are readable: the lowering accepts them, or refuses them by a number behind the layout's. */
static bool is_readable(const struct answer *a, uint64_t index) {
    if (a->number > GILTHOREN_PAGE_FULL) cases_stop("a number that the lowering does not answer", index);
    return a->number == GILTHOREN_ACCEPTED || a->number > GILTHOREN_OVERSIZE;
}

/* How many numbers have words. */
static uint64_t check_words(const struct answer *a, uint64_t index) {
    bool is_refused = a->number > GILTHOREN_OVERSIZE && a->number < GILTHOREN_PAGE_FULL;
    uint64_t with = 0, end = is_refused ? a->place : (uint64_t)cell_at(a->sheet.at, 5) + 1;
    for (uint64_t number = 0; number < end; number++) {
        bool has_words = plain_words(a->sheet.at, number) != NULL;
        if (has_words != is_fault(a, number)) cases_stop(has_words ? "words for what is no fault" : "no words for a fault", index);
        with += has_words;
    }
    if (is_refused && !is_fault(a, a->place)) cases_stop("a refusal that is no fault", index);
    return with;
}

int main(int words, char **word) {
    struct cases cases = cases_open(words == 2 ? word[1] : NULL);
    uint64_t readable = 0, with = 0;
    for (uint64_t i = 0; i < cases.count; i++) {
        struct answer a = cases_next(&cases);
        if (is_readable(&a, i)) {
            readable++;
            with += check_words(&a, i);
        }
        answer_clear(&a);
    }
    cases_close(&cases);
    printf("%" PRIu64 " sheets, words for %" PRIu64 " numbers\n", readable, with);
    return 0;
}
