/*
 * timer_cost - what a call to the tick timer costs, for callgrind.
 *
 *     timer_cost CALLS ADDRESS
 *
 * Makes CALLS of each kind: starts, readings that count on by 7, reads and
 * writes of the register at ADDRESS, which may be none, and asks whether the
 * interrupt is raised.
 *
 *     gcc -std=c99 -O2 -Iinclude -o timer_cost examples/timer_cost.c crates/reaperdecade/out/libreaperdecade.a
 *     valgrind --tool=callgrind --toggle-collect=rd_timer_write ./timer_cost 12000 8
 *
 * The instructions counted, over CALLS, are those of a call.
 */
#include <stdio.h>
#include <stdlib.h>

#include "reaperdecade.h"

int main(int argc, char **argv)
{
    uint8_t block[RD_TIMER_BYTES];
    uint32_t numbers = 0;
    uint32_t raised = 0;
    uint32_t address;
    uint32_t calls;
    uint32_t n;

    if (argc != 3) {
        fprintf(stderr, "usage: timer_cost CALLS ADDRESS\n");
        return 2;
    }
    calls = (uint32_t)strtoul(argv[1], NULL, 10);
    address = (uint32_t)strtoul(argv[2], NULL, 10);
    for (n = 0; n < calls; n++) {
        numbers |= rd_timer_start(block, sizeof block);
    }
    for (n = 0; n < calls; n++) {
        numbers |= rd_timer_reading(block, sizeof block, 7 * n);
    }
    for (n = 0; n < calls; n++) {
        numbers |= rd_timer_number(rd_timer_read(block, sizeof block, address));
    }
    for (n = 0; n < calls; n++) {
        numbers |= rd_timer_write(block, sizeof block, address, n);
    }
    for (n = 0; n < calls; n++) {
        raised += rd_timer_interrupt(block, sizeof block);
    }
    printf("numbers %lu, raised %lu times\n", (unsigned long)numbers, (unsigned long)raised);
    return 0;
}
