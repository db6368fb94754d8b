/*
 * Which instructions of the library were reached. The library is not compiled with counters, so that what is tested is what is shipped:
 * each of its instructions has a breakpoint, which is removed where it is first met. The file that FUZZ_INSTRUCTIONS names has their
 * addresses, in rising order.
 */
#define _GNU_SOURCE
#include <signal.h>
#include <stdio.h>
#include <stdlib.h>
#include <string.h>
#include <sys/mman.h>
#include <ucontext.h>
#include <unistd.h>

#include "fuzz.h"

enum { MOST = 65536, PAGE = 4096, BREAKPOINT = 0xCC, ALTERNATE = 65536 };

__attribute__((section("__libfuzzer_extra_counters"))) static uint8_t reached[MOST];
static uintptr_t address[MOST];
static uint8_t original[MOST];
static int instructions;
static volatile int met;

#ifdef __x86_64__
/* The first instruction at or behind an address. */
static int find(uintptr_t at) {
    int low = 0, high = instructions;
    while (low < high) {
        int middle = (low + high) / 2;
        if (address[middle] < at)
            low = middle + 1;
        else
            high = middle;
    }
    return low;
}

static void on_trap(int signal, siginfo_t *info, void *context) {
    (void)signal, (void)info;
    greg_t *registers = ((ucontext_t *)context)->uc_mcontext.gregs;
    uintptr_t at = (uintptr_t)registers[REG_RIP] - 1;
    int k = find(at);
    if (k == instructions || address[k] != at) abort();
    *(volatile uint8_t *)at = original[k];
    reached[k] = 1;
    met++;
    registers[REG_RIP] = (greg_t)at;
}

/* The library may be called with the stack at any depth, so the handler has its own. */
static void handle_traps(void) {
    static uint8_t alternate[ALTERNATE];
    stack_t stack = {.ss_sp = alternate, .ss_size = sizeof alternate};
    sigaltstack(&stack, NULL);
    struct sigaction action;
    memset(&action, 0, sizeof action);
    action.sa_sigaction = on_trap;
    action.sa_flags = SA_SIGINFO | SA_NODEFER | SA_ONSTACK;
    sigaction(SIGTRAP, &action, NULL);
}

static void set_breakpoints(void) {
    uintptr_t first = address[0] / PAGE * PAGE, end = (address[instructions - 1] / PAGE + 1) * PAGE;
    if (mprotect((void *)first, end - first, PROT_READ | PROT_WRITE | PROT_EXEC) != 0) abort();
    for (int k = 0; k < instructions; k++) {
        original[k] = *(uint8_t *)address[k];
        *(volatile uint8_t *)address[k] = BREAKPOINT;
    }
}

void watch_instructions(void) {
    const char *path = getenv("FUZZ_INSTRUCTIONS");
    if (!path) return;
    FILE *file = fopen(path, "r");
    if (!file) abort();
    unsigned long at;
    while (instructions < MOST && fscanf(file, "%lx", &at) == 1) address[instructions++] = at;
    fclose(file);
    if (instructions == 0) return;
    handle_traps();
    set_breakpoints();
}
#else
void watch_instructions(void) {}
#endif

void tell_reached(void) {
    if (instructions) fprintf(stderr, "instructions of the library reached: %d of %d\n", met, instructions);
}
