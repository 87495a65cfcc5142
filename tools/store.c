/* Growing lists, and cells in them; reading and writing of streams. */
#include "store.h"

#include <errno.h>
#include <stdarg.h>
#include <stdlib.h>
#include <string.h>

static void *grown(void *at, size_t bytes) {
    void *more = realloc(at, bytes);
    if (!more) {
        fputs("out of memory\n", stderr);
        exit(STATUS_BROKEN);
    }
    return more;
}

/* Room for so many more bytes. */
static void bytes_room(struct bytes *list, size_t more) {
    if (list->room - list->count >= more) return;
    list->room = 2 * list->room + more + 64;
    list->at = grown(list->at, list->room);
}

void bytes_add(struct bytes *list, const void *from, size_t count) {
    if (count == 0) return;
    bytes_room(list, count);
    memcpy(list->at + list->count, from, count);
    list->count += count;
}

void bytes_clear(struct bytes *list) {
    free(list->at);
    *list = (struct bytes){0};
}

void bytes_print(struct bytes *list, const char *format, ...) {
    va_list words, again;
    va_start(words, format);
    va_copy(again, words);
    int length = vsnprintf(NULL, 0, format, again);
    va_end(again);
    if (length > 0) {
        bytes_room(list, (size_t)length + 1);
        vsnprintf((char *)list->at + list->count, (size_t)length + 1, format, words);
        list->count += (size_t)length;
    }
    va_end(words);
}

bool bytes_read(struct bytes *list, FILE *from) {
    uint8_t part[4096];
    size_t count;
    while ((count = fread(part, 1, sizeof part, from)) > 0) bytes_add(list, part, count);
    return !ferror(from);
}

bool bytes_write(const struct bytes *list, FILE *to) {
    size_t written = list->count ? fwrite(list->at, 1, list->count, to) : 0;
    return written == list->count && fflush(to) == 0;
}

int bytes_end(const struct bytes *list, const char *program, int status) {
    if (bytes_write(list, stdout)) return status;
    fprintf(stderr, "%s: cannot write: %s\n", program, strerror(errno));
    return STATUS_BROKEN;
}

void numbers_add(struct numbers *list, size_t number) {
    if (list->count == list->room) {
        list->room = 2 * list->room + 16;
        list->at = grown(list->at, list->room * sizeof *list->at);
    }
    list->at[list->count++] = number;
}

void numbers_clear(struct numbers *list) {
    free(list->at);
    *list = (struct numbers){0};
}

int64_t cell_at(const uint8_t *bytes, size_t cell) {
    uint64_t bits = 0;
    int64_t value;
    for (unsigned b = 0; b < CELL; b++) bits |= (uint64_t)bytes[CELL * cell + b] << (8 * b);
    memcpy(&value, &bits, sizeof value);
    return value;
}

void cell_set(uint8_t *bytes, size_t cell, int64_t value) {
    for (unsigned b = 0; b < CELL; b++) bytes[CELL * cell + b] = (uint8_t)((uint64_t)value >> (8 * b));
}

void cell_add(struct bytes *list, int64_t value) {
    uint8_t cell[CELL];
    cell_set(cell, 0, value);
    bytes_add(list, cell, CELL);
}
