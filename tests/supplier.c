/* Runs examples/supplier.sheet on the processor: its Intel text is assembled as `supplier`, and `symbol0` is the function that it calls. */
#include <stdbool.h>
#include <stdint.h>
#include <stdio.h>

int64_t supplier(int64_t units, int64_t price, int64_t freight, int64_t duty, int64_t tax, int64_t rebate, int32_t deposit, int32_t returned, bool is_paid);
int64_t symbol0(int64_t due, int64_t freight, int64_t duty, int64_t tax, int64_t rebate, int64_t units, int32_t deposit, int32_t returned, bool is_paid);

static bool is_aligned = true;

/* Another factor for each amount. */
static int64_t weighed(int64_t due, int64_t freight, int64_t duty, int64_t tax, int64_t rebate, int64_t units, int32_t deposit, int32_t returned, bool is_paid) {
    return due + 3 * freight + 5 * duty + 7 * tax + 11 * rebate + 13 * units + 17 * (int64_t)deposit + 19 * (int64_t)returned + 23 * is_paid;
}

int64_t symbol0(int64_t due, int64_t freight, int64_t duty, int64_t tax, int64_t rebate, int64_t units, int32_t deposit, int32_t returned, bool is_paid) {
    /* the saved RBP lies 16 bytes below what RSP was at the call */
    if ((uintptr_t)__builtin_frame_address(0) % 16 != 0) is_aligned = false;
    return weighed(due, freight, duty, tax, rebate, units, deposit, returned, is_paid);
}

/* A small number of either sign. */
static int64_t next(uint64_t *state) {
    *state ^= *state << 13, *state ^= *state >> 7, *state ^= *state << 17;
    return (int64_t)(*state % 2000001) - 1000000;
}

int main(void) {
    uint64_t state = 88172645463325252u;
    int runs = 0;
    for (; runs < 2000; runs++) {
        int64_t a[8];
        for (int i = 0; i < 8; i++) a[i] = next(&state);
        bool is_paid = runs % 2;
        int64_t found = supplier(a[0], a[1], a[2], a[3], a[4], a[5], (int32_t)a[6], (int32_t)a[7], is_paid);
        int64_t due = a[0] * a[1];
        if (is_aligned && found == weighed(due, a[2], a[3], a[4], a[5], a[0], (int32_t)a[6], (int32_t)a[7], is_paid) - due) continue;
        fprintf(stderr, "supplier's run %d gives %lld%s\n", runs, (long long)found, is_aligned ? "" : ", with RSP off its alignment");
        return 1;
    }
    printf("%d calls of nine amounts\n", runs);
    return 0;
}
