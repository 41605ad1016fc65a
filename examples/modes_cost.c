/*
 * modes_cost - what steps of a shift cost, for callgrind.
 *
 *     modes_cost IMAGE CYCLES
 *
 * Holds the plan image in file IMAGE at places 0 and 1, starts the first and
 * makes the steps of so many cycles, with a request for the other place before
 * each cycle's first step; then the same steps by rd_step_all over the same tables.
 * Three functions stand around the calls, so that each kind can be counted by
 * itself: first_step for steps that show tick 0 and take a request, later_step
 * for the others, and plain_step for those of rd_step_all.
 *
 *     gcc -std=c99 -O2 -Iinclude -o modes_cost examples/modes_cost.c crates/reaperdecade/out/libreaperdecade.a
 *     valgrind --tool=callgrind --toggle-collect=later_step ./modes_cost examples/plans/tunnel.image 100
 *
 * It prints how many calls of each there were, with the number of lanes. The
 * instructions counted, divided by calls and by lanes, are those of a lane; the
 * function around a call adds a few to each call.
 */
#include <inttypes.h>
#include <stdio.h>
#include <stdlib.h>

#include "reaperdecade.h"

#define IMAGE_BYTES 65536
#define MOST_LANES 96

static uint8_t image[IMAGE_BYTES];
static uint8_t words[4 * 2 * RD_ALL_LANES_WORDS];
static uint8_t states[RD_STATE_BYTES * MOST_LANES];
static uint8_t block[RD_MODES_BYTES];
static size_t row;

uint32_t first_step(void);
uint32_t later_step(void);
uint32_t plain_step(void);

uint32_t first_step(void)
{
    return rd_modes_step(words, sizeof words, states, row, block, sizeof block);
}

uint32_t later_step(void)
{
    return rd_modes_step(words, sizeof words, states, row, block, sizeof block);
}

uint32_t plain_step(void)
{
    return rd_step_all(words, sizeof words, states, row);
}

/* Called through these pointers, so that the compiler takes none into main. */
static uint32_t (*volatile take)(void) = first_step;
static uint32_t (*volatile step)(void) = later_step;
static uint32_t (*volatile plain)(void) = plain_step;

static uint32_t word(const uint8_t *b)
{
    return (uint32_t)b[0] | (uint32_t)b[1] << 8 | (uint32_t)b[2] << 16 | (uint32_t)b[3] << 24;
}

int main(int argc, char **argv)
{
    const uint8_t *trailer;
    uint32_t ticks, refused = 0;
    size_t length;
    FILE *file;
    long cycles, c;
    uint32_t i;

    if (argc != 3 || (file = fopen(argv[1], "rb")) == NULL) {
        fprintf(stderr, "usage: modes_cost IMAGE CYCLES\n");
        return 2;
    }
    length = fread(image, 1, sizeof image, file);
    fclose(file);
    cycles = strtol(argv[2], NULL, 10);
    rd_modes_fresh(block, sizeof block);
    if (rd_modes_hold(image, length, 0, words, sizeof words, block, sizeof block) != 0
        || rd_modes_hold(image, length, 1, words, sizeof words, block, sizeof block) != 0) {
        fprintf(stderr, "modes_cost: the plan is refused\n");
        return 1;
    }
    trailer = image + word(image + length - 4);
    ticks = word(trailer);
    row = RD_STATE_BYTES * (size_t)(word(trailer + 12) + word(trailer + 52));
    refused |= rd_modes_start(0, 0, words, sizeof words, states, row, block, sizeof block);
    for (c = 0; c < cycles; c++) {
        refused |= rd_modes_request((uint32_t)((c + 1) % 2), block, sizeof block);
        refused |= take();
        for (i = 1; i < ticks; i++) {
            refused |= step();
        }
    }
    for (c = 0; c < cycles; c++) {
        for (i = 0; i < ticks; i++) {
            refused |= plain();
        }
    }
    printf("%s: %ld first steps, %" PRIu64 " later ones, %" PRIu64 " plain, %zu lanes\n", refused == 0 ? "ok" : "refused", cycles,
           (uint64_t)cycles * (ticks - 1), (uint64_t)cycles * ticks, row / RD_STATE_BYTES);
    return refused == 0 ? 0 : 1;
}
