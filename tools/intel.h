/* Records as x86-64 instructions in Intel syntax. */
#ifndef GILTHOREN_INTEL_H
#define GILTHOREN_INTEL_H

#include "sheet_text.h"

/* The eight cells of a record. */
struct record {
    int64_t form, operation, dst_tag, dst, src_tag, src, size, source_size;
};

/* Adds a record's instruction to a text; a label is `.L0:` or `.Lname:`. `sheet` gives the names of labels and may be NULL. False, with nothing
 * added, if no accepted list can hold the record. */
bool intel_print(const struct record *record, const struct sheet_text *sheet, struct bytes *text);

/* True if the processor has no encoding for the record's instruction (docs/DIFFERENCES.md). */
bool intel_has_no_encoding(const struct record *record);

/* The variable whose slot the record's memory operand lies in, of a readable sheet; false if there is none. */
bool intel_variable(const struct record *record, const struct sheet_text *sheet, size_t *variable);

/* A record of 64 bytes as its cells. */
struct record intel_record(const uint8_t *bytes);

#endif
