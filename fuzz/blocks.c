/*
 * Which blocks of the proved functions an input is the first to reach. The archive carries no instrumentation of its own, so
 * each block's first byte is made a trap; the trap puts the byte back, and tells libFuzzer by one of its extra counters.
 * A block costs that once, and the reader runs at its own speed from then on.
 */
#define _GNU_SOURCE
#include <signal.h>
#include <stdint.h>
#include <stdio.h>
#include <stdlib.h>
#include <sys/mman.h>
#include <ucontext.h>

enum { MOST = 8192, PAGE = 4096, TRAP = 0xCC };

__attribute__((section("__libfuzzer_extra_counters"))) static uint8_t met[MOST];
static uint8_t *place[MOST];
static uint8_t byte[MOST];
static uint8_t ever[MOST];
static size_t blocks;

static void fail(const char *why) {
    fprintf(stderr, "blocks: %s\n", why);
    abort();
}

/* The places ascend. */
static size_t block_at(const uint8_t *at) {
    size_t low = 0, high = blocks;
    while (low + 1 < high) {
        size_t middle = low + (high - low) / 2;
        if (place[middle] <= at) low = middle; else high = middle;
    }
    if (blocks == 0 || place[low] != at) fail("a trap that is not ours");
    return low;
}

static void on_trap(int signal, siginfo_t *info, void *context) {
    (void)signal;
    (void)info;
    greg_t *next = &((ucontext_t *)context)->uc_mcontext.gregs[REG_RIP];
    uint8_t *at = (uint8_t *)*next - 1;
    size_t k = block_at(at);
    *at = byte[k];
    met[k] = ever[k] = 1;
    *next = (greg_t)at;
}

/* How many, and which not, at the end of the run. */
static void report(void) {
    size_t reached = 0;
    for (size_t k = 0; k < blocks; k++) reached += ever[k];
    fprintf(stderr, "blocks of the proved functions reached: %zu of %zu\n", reached, blocks);
    const char *name = getenv("GRAIN_UNREACHED");
    FILE *file = name ? fopen(name, "w") : NULL;
    if (!file) return;
    for (size_t k = 0; k < blocks; k++) {
        if (!ever[k]) fprintf(file, "%lx\n", (unsigned long)place[k]);
    }
    fclose(file);
}

static void load(const char *name) {
    FILE *file = name ? fopen(name, "r") : NULL;
    unsigned long at;
    if (!file) fail("GRAIN_BLOCKS names no file");
    while (blocks < MOST && fscanf(file, "%lx", &at) == 1) place[blocks++] = (uint8_t *)at;
    if (blocks == 0 || blocks == MOST) fail("no blocks, or too many");
    fclose(file);
}

void watch_blocks(void) {
    load(getenv("GRAIN_BLOCKS"));
    struct sigaction action = {.sa_sigaction = on_trap, .sa_flags = SA_SIGINFO};
    if (sigaction(SIGTRAP, &action, NULL)) fail("no handler");
    for (size_t k = 0; k < blocks; k++) {
        uint8_t *page = (uint8_t *)((uintptr_t)place[k] & ~(uintptr_t)(PAGE - 1));
        if (mprotect(page, PAGE, PROT_READ | PROT_WRITE | PROT_EXEC)) fail("the code cannot be written");
        byte[k] = *place[k];
        *place[k] = TRAP;
    }
    atexit(report);
}
