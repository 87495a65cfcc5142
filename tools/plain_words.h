/* What a function lacks to be a plain one, in words. */
#ifndef GILTHOREN_PLAIN_WORDS_H
#define GILTHOREN_PLAIN_WORDS_H

#include "sheet_text.h"

/* The condition that a readable sheet breaks at a number, which is 0 or an instruction's; NULL for none. Where gilthoren_plain names a number that breaks
 * none, the lowering refuses the sheet there. */
const char *plain_words(const uint8_t *sheet, uint64_t number);

#endif
