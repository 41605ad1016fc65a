/*
 * draft_cost - what each call on a draft costs, for callgrind.
 *
 *     draft_cost FILE
 *
 * Reads a plan image from FILE, makes a draft of it and does every other call
 * once: reads place 0, the total of core 0 and of the job of the piece at
 * place 0, moves that piece to where it is, removes it and adds it again.
 * Prints the number that each call gives.
 *
 *     gcc -std=c99 -O2 -Iinclude -o draft_cost examples/draft_cost.c crates/reaperdecade/out/libreaperdecade.a
 *     valgrind --tool=callgrind --toggle-collect=rd_draft_move ./draft_cost FILE
 *
 * bench/run does this for every call.
 */
#include <stdio.h>

#include "reaperdecade.h"

/* More bytes than any image has. */
static uint8_t image[1 << 20];
static uint32_t words[RD_DRAFT_WORDS];

int main(int argc, char **argv)
{
    uint32_t piece[4] = {0, 0, 0, 0};
    uint32_t number[7];
    FILE *from;
    size_t length;

    if (argc != 2 || (from = fopen(argv[1], "rb")) == NULL) {
        fprintf(stderr, "usage: draft_cost FILE\n");
        return 2;
    }
    length = fread(image, 1, sizeof image, from);
    fclose(from);
    number[0] = rd_draft_make(image, length, words, RD_DRAFT_WORDS);
    number[1] = rd_draft_place(words, RD_DRAFT_WORDS, 0, piece, 4);
    number[2] = rd_draft_number(rd_draft_core(words, RD_DRAFT_WORDS, 0));
    number[3] = rd_draft_number(rd_draft_job(words, RD_DRAFT_WORDS, piece[0], piece[1]));
    number[4] = rd_draft_move(words, RD_DRAFT_WORDS, 0, piece[2]);
    number[5] = rd_draft_remove(words, RD_DRAFT_WORDS, 0);
    number[6] = rd_draft_add(words, RD_DRAFT_WORDS, 0, piece[0], piece[1], piece[2], piece[3]);
    printf("make %u, place %u, core %u, job %u, move %u, remove %u, add %u\n", (unsigned)number[0], (unsigned)number[1], (unsigned)number[2],
        (unsigned)number[3], (unsigned)number[4], (unsigned)number[5], (unsigned)number[6]);
    return 0;
}
