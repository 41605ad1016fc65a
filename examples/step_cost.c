/*
 * step_cost - what a step costs, for callgrind.
 *
 *     step_cost one|all STEPS
 *
 * Starts 96 lanes over the dispatch table of the plan paper's case A, and steps
 * them STEPS times, one lane after the other or all at a time.
 *
 *     cc -std=c99 -O2 -Iinclude -o step_cost examples/step_cost.c libreaperdecade.a
 *     valgrind --tool=callgrind ./step_cost one 96000
 *     valgrind --tool=callgrind ./step_cost all 1000
 *     callgrind_annotate callgrind.out.*
 *
 * Each run makes 96,000 lane steps: the instructions of rd_step and of
 * rd_step_all, over 96,000, are those of a lane's step.
 */
#include <stdio.h>
#include <stdlib.h>
#include <string.h>

#include "reaperdecade.h"

#define LANES 96u
#define WORDS 14u

static uint8_t words[4 * WORDS * LANES];
static uint8_t states[RD_STATE_BYTES * LANES];

int main(int argc, char **argv)
{
    static const uint8_t table[WORDS] = { 10, 4, 0, 1, 0, 2, 3, 0, 3, 4, 0, 6, 2, 0 };
    uint32_t refused = 0;
    uint32_t lane;
    uint32_t i;
    long steps;
    long n;

    if (argc != 3) {
        fprintf(stderr, "usage: step_cost one|all STEPS\n");
        return 2;
    }
    steps = strtol(argv[2], NULL, 10);
    for (lane = 0; lane < LANES; lane++) {
        for (i = 0; i < WORDS; i++) {
            words[4 * (WORDS * lane + i)] = table[i];
        }
        refused |= rd_start(0, WORDS * lane, states + RD_STATE_BYTES * lane, RD_STATE_BYTES);
    }
    for (n = 0; n < steps; n++) {
        if (strcmp(argv[1], "one") == 0) {
            refused |= rd_step(words, sizeof words, states + RD_STATE_BYTES * (size_t)(n % LANES), RD_STATE_BYTES);
        } else {
            refused |= rd_step_all(words, sizeof words, states, sizeof states);
        }
    }
    printf("%s\n", refused == 0 ? "ok" : "refused");
    return refused == 0 ? 0 : 1;
}
