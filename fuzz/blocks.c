/*
 * blocks - which blocks of the library's code the inputs reach.
 *
 * The library is proved code from a compiler that leaves no marks for a
 * fuzzer. So each block of it gets a breakpoint: when it is hit for the first
 * time, the block is counted for libFuzzer, which then keeps the input, and
 * the breakpoint is taken off for good.
 *
 * FUZZ_BLOCKS names a file with a block a line, as bytes from rd_check,
 * decimal (fuzz/list-blocks writes it). Without it nothing is watched.
 */
#define _GNU_SOURCE
#include <signal.h>
#include <stdint.h>
#include <stdio.h>
#include <stdlib.h>
#include <sys/mman.h>
#include <ucontext.h>
#include <unistd.h>

#include "reaperdecade.h"

#define MOST 4096
#define BREAKPOINT 0xcc

static struct {
    uint8_t *at;
    uint8_t byte; /* what the breakpoint stands for */
    int reached;
} blocks[MOST];
static size_t count;

/* libFuzzer takes what is in this section for coverage. */
__attribute__((section("__libfuzzer_extra_counters"))) static uint8_t counters[MOST];

static void fail(const char *what)
{
    perror(what);
    exit(2);
}

static void hit(int signal, siginfo_t *info, void *context)
{
    greg_t *registers = ((ucontext_t *)context)->uc_mcontext.gregs;
    uint8_t *at = (uint8_t *)registers[REG_RIP] - 1;
    size_t i;

    (void)signal;
    (void)info;
    for (i = 0; i < count && blocks[i].at != at; i++) {
    }
    if (i == count) {
        abort(); /* a breakpoint that is not ours */
    }
    *at = blocks[i].byte;
    blocks[i].reached = 1;
    counters[i] = 1;
    registers[REG_RIP] = (greg_t)at;
}

static void report(void)
{
    size_t reached = 0;
    size_t i;

    for (i = 0; i < count; i++) {
        reached += blocks[i].reached;
    }
    fprintf(stderr, "library blocks reached: %zu of %zu; not, in bytes from rd_check:", reached, count);
    for (i = 0; i < count; i++) {
        if (!blocks[i].reached) {
            fprintf(stderr, " %td", blocks[i].at - (uint8_t *)rd_check);
        }
    }
    fprintf(stderr, "\n");
}

static void read_blocks(FILE *from)
{
    long offset;

    while (count < MOST && fscanf(from, "%ld", &offset) == 1) {
        blocks[count++].at = (uint8_t *)rd_check + offset;
    }
}

/* Lets the page of a block be written as well as run. */
static void open_page(uint8_t *at)
{
    uintptr_t page = (uintptr_t)sysconf(_SC_PAGESIZE);

    if (mprotect((void *)((uintptr_t)at & ~(page - 1)), page, PROT_READ | PROT_WRITE | PROT_EXEC) != 0) {
        fail("mprotect");
    }
}

void watch_blocks(void)
{
    const char *name = getenv("FUZZ_BLOCKS");
    struct sigaction action = { .sa_sigaction = hit, .sa_flags = SA_SIGINFO };
    FILE *from;
    size_t i;

    if (name == NULL) {
        return;
    }
    from = fopen(name, "r");
    if (from == NULL || sigaction(SIGTRAP, &action, NULL) != 0) {
        fail(name);
    }
    read_blocks(from);
    fclose(from);
    for (i = 0; i < count; i++) {
        open_page(blocks[i].at);
        blocks[i].byte = *blocks[i].at;
        *blocks[i].at = BREAKPOINT;
    }
    atexit(report);
}
