/*
 * line - the answer to a plan image, in words.
 *
 *     line FILE [BYTES]
 *
 * Checks the plan image in FILE, has the answer said in words with BYTES bytes
 * lent for it (RD_LINE_BYTES, and no more than that), and prints the line's
 * length and the line; 0 alone where the bytes do not suffice. Ends with status
 * 0 for an accepted plan, 1 for a refused one and 2 for anything else, a byte
 * changed that is not the line's among it.
 *
 *     gcc -std=c99 -Iinclude -o line examples/line.c crates/reaperdecade/out/libreaperdecade.a
 *
 * bench/run counts the instructions of rd_line by it.
 */
#include <inttypes.h>
#include <stdio.h>
#include <stdlib.h>
#include <string.h>

#include "reaperdecade.h"

/* What the bytes hold before. */
#define BEFORE 0x23

/* More bytes than any image has. */
static uint8_t image[1 << 20];

/* The answer in words, in so many bytes. */
static uint32_t say(uint64_t answer, uint8_t *line, size_t length)
{
    return rd_line(rd_answer_number(answer), rd_answer_table(answer), rd_answer_row(answer), line, length);
}

static int untouched(const uint8_t *line, size_t from)
{
    while (from < RD_LINE_BYTES && line[from] == BEFORE) {
        from++;
    }
    return from == RD_LINE_BYTES;
}

int main(int argc, char **argv)
{
    uint8_t line[RD_LINE_BYTES];
    size_t lent = argc == 3 ? strtoul(argv[2], NULL, 10) : sizeof line;
    uint64_t answer;
    uint32_t length;
    FILE *from;

    if (argc < 2 || argc > 3 || lent > sizeof line || (from = fopen(argv[1], "rb")) == NULL) {
        fprintf(stderr, "usage: line FILE [BYTES]\n");
        return 2;
    }
    answer = rd_check(image, fread(image, 1, sizeof image, from));
    fclose(from);
    memset(line, BEFORE, sizeof line);
    length = say(answer, line, lent);
    if (!untouched(line, length)) {
        fprintf(stderr, "line: a byte changed that is not the line's\n");
        return 2;
    }
    printf("%" PRIu32 "%s%.*s\n", length, length == 0 ? "" : " ", (int)length, (const char *)line);
    return answer == 0 ? 0 : 1;
}
