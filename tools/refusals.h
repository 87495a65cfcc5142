/* Refusals in words. */
#ifndef GILTHOREN_REFUSALS_H
#define GILTHOREN_REFUSALS_H

#include "sheet_text.h"

/* Whether a call can refuse by a number. */
bool refusal_is_known(uint64_t number);

/* The word of a refusal and what it means. A number that is not known has words that say so. */
const char *refusal_word(uint64_t number);
const char *refusal_meaning(uint64_t number);

/* Adds an instruction's number, and the line of the text where there is one; 0 is before the body. */
void instruction_place(const struct sheet_text *sheet, uint64_t place, struct bytes *text);

/* Adds where a refusal's place is: the cell or the instruction, and the line of the text where there is one. Of a number that is not known it adds the
 * place as it is. */
void refusal_place(const struct sheet_text *sheet, uint64_t number, uint64_t place, struct bytes *text);

#endif
