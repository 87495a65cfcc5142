// Runs functions on a private stack with given registers and bytes, and reports what is left.
// Requests come on standard input, results go to standard output; both are host-endian.
#define _GNU_SOURCE
#include <signal.h>
#include <stdint.h>
#include <stdio.h>
#include <stdlib.h>
#include <string.h>
#include <sys/mman.h>
#include <sys/time.h>
#include <ucontext.h>

enum { STACK = 4 << 20, GUARD = 64 << 10 };

// RAX, RCX, RDX, RBX, RSP, RBP, RSI, RDI, R8 to R15, then the flags.
uint64_t machine[17];
// The low eight bytes of XMM0 to XMM7.
uint64_t floats[8];
uint64_t host_stack, entry_point;

// For callees in C (callees.h): what the next of them is to find, B, the calls so far, and the first difference.
enum { LONGEST_SCRIPT = 1 << 16 };
static uint64_t script_words[LONGEST_SCRIPT];
const uint64_t *script;
uint64_t stack_base, calls, difference[4];

// The functions of this batch, in order.
extern const uint64_t functions[];

void enter_function(void);
void leave_function(void);

struct request {
    uint64_t function;
    uint64_t shift;  // moves B down, a multiple of 16
    uint64_t below;  // bytes of the region below B
    uint64_t above;  // bytes of the region from B on
    uint64_t script; // words for the callees, behind the region
    uint64_t machine[17];
    uint64_t floats[8];
};

struct result {
    uint64_t signal;  // 0 when the function returned
    uint64_t address; // of the instruction that raised it, from the function's start
    uint64_t base;    // B
    uint64_t calls;   // of callees in C
    uint64_t difference[4];
    uint64_t machine[17];
};

static volatile uint64_t signal_number, signal_address;

// Goes on behind the function; the registers stay as they were.
static void on_signal(int number, siginfo_t *info, void *context) {
    (void)info;
    ucontext_t *user = context;
    signal_number = (uint64_t)number;
    signal_address = (uint64_t)user->uc_mcontext.gregs[REG_RIP];
    user->uc_mcontext.gregs[REG_RIP] = (greg_t)leave_function;
}

__asm__(
    ".intel_syntax noprefix\n"
    ".text\n"
    ".globl enter_function\n"
    "enter_function:\n"
    "  push rbx\n  push rbp\n  push r12\n  push r13\n  push r14\n  push r15\n"
    "  mov [rip + host_stack], rsp\n"
    "  push qword ptr [rip + machine + 128]\n"
    "  popfq\n"
    "  movsd xmm0, [rip + floats]\n"
    "  movsd xmm1, [rip + floats + 8]\n"
    "  movsd xmm2, [rip + floats + 16]\n"
    "  movsd xmm3, [rip + floats + 24]\n"
    "  movsd xmm4, [rip + floats + 32]\n"
    "  movsd xmm5, [rip + floats + 40]\n"
    "  movsd xmm6, [rip + floats + 48]\n"
    "  movsd xmm7, [rip + floats + 56]\n"
    "  mov rax, [rip + machine]\n"
    "  mov rcx, [rip + machine + 8]\n"
    "  mov rdx, [rip + machine + 16]\n"
    "  mov rbx, [rip + machine + 24]\n"
    "  mov rsp, [rip + machine + 32]\n"
    "  mov rbp, [rip + machine + 40]\n"
    "  mov rsi, [rip + machine + 48]\n"
    "  mov rdi, [rip + machine + 56]\n"
    "  mov r8, [rip + machine + 64]\n"
    "  mov r9, [rip + machine + 72]\n"
    "  mov r10, [rip + machine + 80]\n"
    "  mov r11, [rip + machine + 88]\n"
    "  mov r12, [rip + machine + 96]\n"
    "  mov r13, [rip + machine + 104]\n"
    "  mov r14, [rip + machine + 112]\n"
    "  mov r15, [rip + machine + 120]\n"
    "  jmp qword ptr [rip + entry_point]\n"
    ".globl leave_function\n"
    "leave_function:\n"
    "  mov [rip + machine], rax\n"
    "  mov [rip + machine + 8], rcx\n"
    "  mov [rip + machine + 16], rdx\n"
    "  mov [rip + machine + 24], rbx\n"
    "  mov [rip + machine + 32], rsp\n"
    "  mov [rip + machine + 40], rbp\n"
    "  mov [rip + machine + 48], rsi\n"
    "  mov [rip + machine + 56], rdi\n"
    "  mov [rip + machine + 64], r8\n"
    "  mov [rip + machine + 72], r9\n"
    "  mov [rip + machine + 80], r10\n"
    "  mov [rip + machine + 88], r11\n"
    "  mov [rip + machine + 96], r12\n"
    "  mov [rip + machine + 104], r13\n"
    "  mov [rip + machine + 112], r14\n"
    "  mov [rip + machine + 120], r15\n"
    "  mov rsp, [rip + host_stack]\n"
    "  pushfq\n"
    "  pop qword ptr [rip + machine + 128]\n"
    "  push 0x202\n" // the direction flag clear, and no alignment check in C code
    "  popfq\n"
    "  pop r15\n  pop r14\n  pop r13\n  pop r12\n  pop rbp\n  pop rbx\n"
    "  ret\n"
    ".att_syntax\n");

static void catch_signals(void) {
    static uint8_t handler_stack[64 << 10];
    stack_t alternate = {.ss_sp = handler_stack, .ss_size = sizeof handler_stack};
    sigaltstack(&alternate, NULL);
    struct sigaction action;
    memset(&action, 0, sizeof action);
    action.sa_sigaction = on_signal;
    action.sa_flags = SA_SIGINFO | SA_ONSTACK;
    int numbers[] = {SIGFPE, SIGSEGV, SIGBUS, SIGILL, SIGTRAP, SIGVTALRM};
    for (size_t i = 0; i < sizeof numbers / sizeof *numbers; i++)
        sigaction(numbers[i], &action, NULL);
}

// A function that runs for two seconds of processor time does not end: SIGVTALRM.
static void set_timer(void) {
    struct itimerval timer;
    memset(&timer, 0, sizeof timer);
    timer.it_value.tv_sec = 2;
    setitimer(ITIMER_VIRTUAL, &timer, NULL);
}

static void run(const struct request *request, uint64_t base, struct result *result) {
    memcpy(machine, request->machine, sizeof machine);
    memcpy(floats, request->floats, sizeof floats);
    memset(difference, 0, sizeof difference);
    script = script_words;
    stack_base = base;
    calls = 0;
    machine[4] = base + 8;
    uint64_t back = (uint64_t)leave_function;
    memcpy((void *)(base + 8), &back, sizeof back);
    entry_point = functions[request->function];
    signal_number = 0;
    signal_address = entry_point;
    set_timer();
    enter_function();
    result->signal = signal_number;
    result->address = signal_address - entry_point;
    result->base = base;
    result->calls = calls;
    memcpy(result->difference, difference, sizeof difference);
    memcpy(result->machine, machine, sizeof machine);
}

int main(void) {
    uint8_t *stack = mmap(NULL, STACK, PROT_READ | PROT_WRITE, MAP_PRIVATE | MAP_ANONYMOUS, -1, 0);
    if (stack == MAP_FAILED) return 2;
    catch_signals();
    uint64_t back = (uint64_t)leave_function;
    fwrite(&back, sizeof back, 1, stdout);
    struct request request;
    while (fread(&request, sizeof request, 1, stdin) == 1) {
        uint64_t base = (uint64_t)stack + STACK - GUARD - request.shift;
        uint8_t *region = (uint8_t *)(base - request.below);
        size_t length = request.below + request.above;
        if (fread(region, 1, length, stdin) != length || request.script > LONGEST_SCRIPT) return 3;
        if (fread(script_words, sizeof *script_words, request.script, stdin) != request.script) return 3;
        struct result result;
        run(&request, base, &result);
        fwrite(&result, sizeof result, 1, stdout);
        fwrite(region, 1, length, stdout);
    }
    return fflush(stdout) == 0 ? 0 : 4;
}
