/* The stack that a call uses: each call runs on a stack of its own that was filled with a pattern, and the deepest byte that changed is looked for.
 * Inputs: files in the listing program's form, named by the arguments. */
#include <stdint.h>
#include <stdio.h>
#include <stdlib.h>
#include <string.h>
#include <ucontext.h>

#include "gilthoren.h"

enum { STACK = 1 << 20, MOST_INPUT = 1 << 23, MOST_RECORDS = 1 << 25, PATTERN = 0xa5 };

static uint8_t stack[STACK], input[MOST_INPUT], records[MOST_RECORDS];
static size_t tables_bytes, sheet_bytes;
static ucontext_t caller, callee;

static void nothing(void) {
}

static void lower(void) {
    uint64_t place;
    gilthoren_lower(input + 8, tables_bytes, input + 8 + tables_bytes, sheet_bytes, records, sizeof records, &place);
}

static void plain(void) {
    uint64_t place;
    gilthoren_plain(input + 8, tables_bytes, input + 8 + tables_bytes, sheet_bytes, &place);
}

static size_t used_by(void (*call)(void)) {
    size_t k = 0;
    memset(stack, PATTERN, sizeof stack);
    getcontext(&callee);
    callee.uc_stack.ss_sp = stack;
    callee.uc_stack.ss_size = sizeof stack;
    callee.uc_link = &caller;
    makecontext(&callee, call, 0);
    swapcontext(&caller, &callee);
    while (k < sizeof stack && stack[k] == PATTERN) k++;
    return sizeof stack - k;
}

static int read_input(const char *name) {
    FILE *file = fopen(name, "rb");
    size_t length;
    uint64_t cells;
    if (!file) return 0;
    length = fread(input, 1, sizeof input, file);
    fclose(file);
    memcpy(&cells, input, sizeof cells);
    if (length < 8 || cells > (length - 8) / 8) return 0;
    tables_bytes = 8 * cells;
    sheet_bytes = length - 8 - tables_bytes;
    return 1;
}

int main(int argc, char **argv) {
    size_t most_lower = 0, most_plain = 0, none = used_by(nothing);
    for (int k = 1; k < argc; k++) {
        size_t l, p;
        if (!read_input(argv[k])) {
            fprintf(stderr, "%s: no input\n", argv[k]);
            return 1;
        }
        l = used_by(lower) - none, p = used_by(plain) - none;
        most_lower = l > most_lower ? l : most_lower;
        most_plain = p > most_plain ? p : most_plain;
    }
    printf("stack: at most %zu bytes for gilthoren_lower, %zu for gilthoren_plain, over %d inputs\n", most_lower, most_plain, argc - 1);
    return 0;
}
