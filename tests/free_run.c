/* Runs examples/free_run.sheet on the processor: its Intel text is assembled as `free_run`. */
#include <stdint.h>
#include <stdio.h>

int64_t free_run(uint64_t map, int64_t want);

/* The first of `want` free pages in a row, written without the rule's own loop. */
static int64_t wanted(uint64_t map, int64_t want) {
    int64_t least = want < 1 ? 1 : want;
    for (int64_t first = 0; first + least <= 64; first++) {
        int64_t length = 0;
        while (length < least && (map >> (first + length) & 1)) length++;
        if (length == least) return first;
    }
    return -1;
}

int main(void) {
    uint64_t map = 88172645463325252u;
    int runs = 0;
    for (int i = 0; i < 4000; i++) {
        map ^= map << 13, map ^= map >> 7, map ^= map << 17;
        for (int64_t want = 0; want < 12; want++, runs++) {
            uint64_t pages = i % 2 ? map | map << 3 | map >> 9 : map;
            int64_t found = free_run(pages, want);
            if (found == wanted(pages, want)) continue;
            fprintf(stderr, "free_run(%llx, %lld) is %lld\n", (unsigned long long)pages, (long long)want, (long long)found);
            return 1;
        }
    }
    if (free_run(UINT64_MAX, 64) != 0 || free_run(UINT64_MAX, 65) != -1 || free_run(0, 1) != -1) return 1;
    printf("%d runs on the processor\n", runs + 3);
    return 0;
}
