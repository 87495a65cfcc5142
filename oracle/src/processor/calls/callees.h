// Callees in C: each holds every argument that it gets, the raw eight bytes of those on the stack, and RSP at its entry, to the
// script of the run. For each call the script has: symbol, how far the caller's RSP lies below B, the count of arguments, the count
// of those on the stack, a bit for each of these whose raw bytes are left out, the raw bytes, the arguments, the result.
#include <stdarg.h>
#include <stdint.h>
#include <string.h>

extern const uint64_t *script;
extern uint64_t stack_base, calls, difference[4];

enum { SYMBOL = 1, ALIGNMENT = 2, DEPTH = 3, COUNT = 4, ARGUMENT = 100, STACKED = 200 };

// Keeps the first difference: the call from 1, what, wanted, found.
static void hold(uint64_t what, uint64_t wanted, uint64_t found) {
    if (wanted == found || difference[0]) return;
    difference[0] = calls;
    difference[1] = what;
    difference[2] = wanted;
    difference[3] = found;
}

// Between the caller's RSP and the address of the callee's frame lie the return address and the saved RBP.
static void enter(uint64_t symbol, const void *frame, uint64_t arguments) {
    const uint64_t *stacked = (const uint64_t *)frame + 2;
    calls++;
    hold(SYMBOL, *script++, symbol);
    hold(ALIGNMENT, 0, (uint64_t)stacked % 16);
    hold(DEPTH, *script++, stack_base - (uint64_t)stacked);
    hold(COUNT, *script++, arguments);
    uint64_t count = *script++, left_out = *script++;
    for (uint64_t j = 0; j < count; j++, script++)
        if (!(left_out >> j & 1)) hold(STACKED + j, *script, stacked[j]);
}

static void whole(uint64_t i, uint64_t value) {
    hold(ARGUMENT + i, *script++, value);
}

static void real(uint64_t i, double value) {
    uint64_t bits;
    memcpy(&bits, &value, sizeof bits);
    whole(i, bits);
}

static inline void short_real(uint64_t i, float value) {
    uint32_t bits;
    memcpy(&bits, &value, sizeof bits);
    whole(i, bits);
}

// The first eight bytes of a string.
static inline void text(uint64_t i, const char *value) {
    uint64_t bytes;
    memcpy(&bytes, value, sizeof bytes);
    whole(i, bytes);
}

static uint64_t result(void) {
    return *script++;
}

static inline double real_result(void) {
    uint64_t bits = result();
    double value;
    memcpy(&value, &bits, sizeof value);
    return value;
}

static inline float short_real_result(void) {
    uint32_t bits = (uint32_t)result();
    float value;
    memcpy(&value, &bits, sizeof value);
    return value;
}
