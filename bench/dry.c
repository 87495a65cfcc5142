/* Times of dry runs beside the processor's and Unicorn's, on the same lists: dry NAME.cells NAME.bin ..
 *
 * A .cells file is a sheet in the listing program's form, a loop that goes round as often as its first parameter says (bench/loops.py); the .bin file beside it is its
 * list as machine code. Each is run for about as many records by gilthoren_run, natively, and, where Unicorn is there, by uc_emu_start with a count of
 * instructions. The least of several rounds counts, in which the three take turns. */
#define _GNU_SOURCE
#include <inttypes.h>
#include <stdint.h>
#include <stdio.h>
#include <stdlib.h>
#include <string.h>
#include <sys/mman.h>
#include <time.h>

#include "gilthoren.h"
#ifdef WITH_UNICORN
#include <unicorn/unicorn.h>
#endif

enum { MOST = 1 << 20, MOST_RECORDS = 1 << 25, ROUNDS = 9, RECORDS = 4000000 };

static uint8_t input[MOST], records[MOST_RECORDS], frame[MOST], *code;
static size_t input_bytes, code_bytes, tables_bytes;
static uint64_t turns; /* how often the loop goes round */

static double now(void) {
    struct timespec t;
    clock_gettime(CLOCK_MONOTONIC, &t);
    return (double)t.tv_sec * 1e9 + (double)t.tv_nsec;
}

static size_t read_file(const char *name, uint8_t *to, size_t most) {
    FILE *file = fopen(name, "rb");
    size_t bytes = file ? fread(to, 1, most, file) : 0;
    if (!file || bytes == 0) fprintf(stderr, "%s: cannot be read\n", name), exit(1);
    fclose(file);
    return bytes;
}

/* The records of a run with so many turns. */
static uint64_t run(uint64_t allowance) {
    uint64_t values[3] = {turns, 3, 5}, place, end, value;
    const uint8_t *sheet = input + 8 + tables_bytes;
    uint64_t answer = gilthoren_run(input + 8, tables_bytes, sheet, input_bytes - 8 - tables_bytes, (const uint8_t *)values, sizeof values, frame, sizeof frame, records,
                                    sizeof records, allowance, &place, &end, &value);
    if (answer != 0) fprintf(stderr, "refused %" PRIu64 " %" PRIu64 "\n", answer, place), exit(1);
    return place;
}

static double ours(uint64_t *count) {
    double start = now();
    *count = run(UINT64_MAX);
    return now() - start;
}

static double natively(void) {
    int64_t (*function)(int64_t, int64_t, int64_t);
    memcpy(&function, &code, sizeof function);
    double start = now();
    volatile int64_t value = function((int64_t)turns, 3, 5);
    (void)value;
    return now() - start;
}

#ifdef WITH_UNICORN
/* As many instructions as the run has, counted by Unicorn. */
static double stepped(uint64_t instructions) {
    uint64_t at = 0x100000, stack = 0x800000, top = stack + 0x80000, rdi = turns, rsi = 3, rdx = 5, back = 0x700000;
    uc_engine *uc;
    if (uc_open(UC_ARCH_X86, UC_MODE_64, &uc)) fprintf(stderr, "no Unicorn\n"), exit(1);
    uc_mem_map(uc, at, (code_bytes + 0xfff) / 0x1000 * 0x1000, UC_PROT_ALL);
    uc_mem_map(uc, stack, 0x100000, UC_PROT_ALL);
    uc_mem_write(uc, at, code, code_bytes);
    uc_mem_write(uc, top - 8, &back, 8);
    top -= 8;
    uc_reg_write(uc, UC_X86_REG_RSP, &top);
    uc_reg_write(uc, UC_X86_REG_RDI, &rdi);
    uc_reg_write(uc, UC_X86_REG_RSI, &rsi);
    uc_reg_write(uc, UC_X86_REG_RDX, &rdx);
    double start = now();
    uc_err error = uc_emu_start(uc, at, back, 0, instructions);
    double taken = now() - start;
    if (error) fprintf(stderr, "Unicorn: %s\n", uc_strerror(error)), exit(1);
    uc_close(uc);
    return taken;
}
#endif

static double least(double a, double b) {
    return b == 0 || a < b ? a : b;
}

static void measure(const char *cells, const char *bin) {
    uint64_t count = 0, table_cells;
    double by_us = 0, by_processor = 0, by_unicorn = 0;
    input_bytes = read_file(cells, input, sizeof input);
    memcpy(&table_cells, input, sizeof table_cells);
    tables_bytes = 8 * table_cells;
    code_bytes = read_file(bin, code, MOST);
    turns = 1;
    uint64_t once = run(UINT64_MAX);
    turns = 2;
    uint64_t loop = run(UINT64_MAX) - once;
    turns = RECORDS / loop + 1;
    for (int k = 0; k < ROUNDS; k++) {
        by_us = least(ours(&count), by_us);
        by_processor = least(natively(), by_processor);
#ifdef WITH_UNICORN
        by_unicorn = least(stepped(count - turns - 1), by_unicorn); /* a Label is no instruction: one each turn, and one behind the last */
#endif
    }
    printf("| %" PRIu64 " | %" PRIu64 " | %.2f | %.2f | %.2f | %.2f | %.2f |\n", loop, count, by_us / (double)count, by_processor / (double)count, by_unicorn / (double)count,
           by_us / by_processor, by_unicorn > 0 ? by_us / by_unicorn : 0);
}

int main(int argc, char **argv) {
    code = mmap(NULL, MOST, PROT_READ | PROT_WRITE | PROT_EXEC, MAP_PRIVATE | MAP_ANONYMOUS, -1, 0);
    if (code == MAP_FAILED) return 1;
    printf("| records a turn | records run | ours, ns a record | processor, ns a record | Unicorn, ns a record | ours / processor | ours / Unicorn |\n|---|---|---|---|---|---|---|\n");
    for (int k = 1; k + 1 < argc; k += 2) measure(argv[k], argv[k + 1]);
    return 0;
}
