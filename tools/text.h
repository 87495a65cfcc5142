/* Texts: how they are encoded, their lines, and what a message shows of them. */
#ifndef GILTHOREN_TEXT_H
#define GILTHOREN_TEXT_H

#include "store.h"

/* The bytes of the character that starts at `at`, and its code; 0 if they are no UTF-8. `at` is before `end`. */
size_t text_character(const char *at, const char *end, uint32_t *code);

/* Letters of ASCII, `_`, and every sign beyond ASCII that is no blank and can be seen. */
bool text_is_letter(uint32_t code);

/* The name of a wide encoding that the bytes are in, which no program here reads; NULL if they are in none. */
const char *text_wide(const struct bytes *file);

/* A text on its way through. Lines end with LF, CR LF or CR. */
struct lines {
    const char *at, *end; /* what is left of the text */
    size_t number;        /* of the last line that was taken, from 1 */
};

/* The lines of a text, behind a mark of UTF-8 at its start. */
struct lines text_lines(const char *text, size_t bytes);
/* Takes a line, without its end; false if there is none. */
bool lines_next(struct lines *lines, const char **start, const char **end);

/* Adds a text as it may be shown: what is no character, or has no sign of its own, stands as \xNN. */
void text_show(struct bytes *to, const char *at, size_t bytes);

/* A short piece of a text, as it may be shown. */
enum { SHOWN_BYTES = 24, SHOWN_ROOM = 4 * SHOWN_BYTES + 1 };
struct shown {
    char text[SHOWN_ROOM];
};

/* The start of a text, of whole characters, at most SHOWN_BYTES bytes before they are shown. */
struct shown text_shown(const char *at, size_t bytes);

#endif
