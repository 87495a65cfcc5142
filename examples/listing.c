/* Lowers a sheet through the C interface and writes its records, one line of eight numbers each. It needs nothing but the library.
 *
 * Status 0 when the sheet is accepted, 1 when it is refused, 3 when the records cannot be written. */
#include <inttypes.h>
#include <stdio.h>
#include <string.h>

#include "gilthoren.h"

/* Cells as bytes, little-endian. */
static size_t put_cells(uint8_t *out, const int64_t *cells, size_t n) {
    for (size_t i = 0; i < n; i++)
        for (unsigned b = 0; b < 8; b++) out[8 * i + b] = (uint8_t)((uint64_t)cells[i] >> (8 * b));
    return 8 * n;
}

static int64_t cell(const uint8_t *bytes) {
    uint64_t v = 0;
    int64_t w;
    for (unsigned b = 0; b < 8; b++) v |= (uint64_t)bytes[b] << (8 * b);
    memcpy(&w, &v, sizeof w);
    return w;
}

/* Whether all that was written went out; the reason is said where it did not. */
static int is_written(void) {
    if (fflush(stdout) == 0 && !ferror(stdout)) return 1;
    perror("listing: cannot write");
    return 0;
}

int main(void) {
    static const int64_t table_cells[] = {0};
    static const int64_t sheet_cells[] = {1, 1, 0, 3, -1, 1, 3, -1, 0, 3, -1, 9, 0, 0, 0, 0, 0, 0, 3, -1, 0, 0, 0, 0};
    uint8_t tables[sizeof table_cells], sheet[sizeof sheet_cells];
    static uint8_t records[65536];
    uint64_t place = 0, number, fault = 0;
    size_t t = put_cells(tables, table_cells, sizeof table_cells / sizeof *table_cells);
    size_t s = put_cells(sheet, sheet_cells, sizeof sheet_cells / sizeof *sheet_cells);

    number = gilthoren_lower(tables, t, sheet, s, records, sizeof records, &place);
    if (number != GILTHOREN_ACCEPTED) {
        printf("refused %" PRIu64 " %" PRIu64 "\n", number, place);
        return is_written() ? 1 : 3;
    }
    printf("ok %" PRIu64 "\n", place);
    for (uint64_t r = 0; r < place; r++)
        for (unsigned c = 0; c < 8; c++)
            printf("%" PRId64 "%c", cell(records + GILTHOREN_RECORD_BYTES * r + 8 * c), c < 7 ? ' ' : '\n');
    printf("plain %" PRIu64 "\n", gilthoren_plain(tables, t, sheet, s, &fault));
    return is_written() ? 0 : 3;
}
