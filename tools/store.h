/* Growing lists of bytes and of numbers, and cells in them; reading and writing of streams. When memory runs out the program says so and ends with
 * status 3. */
#ifndef GILTHOREN_STORE_H
#define GILTHOREN_STORE_H

#include <stdbool.h>
#include <stddef.h>
#include <stdint.h>
#include <stdio.h>

enum { CELL = 8 };

/* The status of a program that cannot write, or has no memory. */
enum { STATUS_BROKEN = 3 };

/* A list that is all zeros is empty. */
struct bytes {
    uint8_t *at;
    size_t count, room;
};

struct numbers {
    size_t *at;
    size_t count, room;
};

void bytes_add(struct bytes *list, const void *from, size_t count);
void bytes_clear(struct bytes *list);
/* Adds text as printf makes it, without the zero at its end. */
void bytes_print(struct bytes *list, const char *format, ...);
/* Adds all that is left of a stream; false if it cannot be read, and errno has the reason. */
bool bytes_read(struct bytes *list, FILE *from);
/* Writes the list and sees it off; false if it cannot be written, and errno has the reason. */
bool bytes_write(const struct bytes *list, FILE *to);
/* Writes the list to standard output. The status is the given one, or STATUS_BROKEN with the reason on standard error. */
int bytes_end(const struct bytes *list, const char *program, int status);

void numbers_add(struct numbers *list, size_t number);
void numbers_clear(struct numbers *list);

/* A cell is eight bytes, little-endian, two's complement. */
int64_t cell_at(const uint8_t *bytes, size_t cell);
void cell_set(uint8_t *bytes, size_t cell, int64_t value);
void cell_add(struct bytes *list, int64_t value);

#endif
