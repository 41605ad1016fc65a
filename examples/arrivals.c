/*
 * arrivals - when the frames of a plan arrive.
 *
 *     arrivals IMAGE [FRAME]
 *
 * Reads the plan image in file IMAGE, checks it and prints the answer as
 * `number table row`. For an accepted plan a line `frame earliest latest`
 * follows for each row of the frame table: between which ticks of the cycle
 * that frame arrives, as read on the clock of the node that sends it. With
 * FRAME it asks for that row alone, and the answer is that of the asking.
 *
 * Ends with status 0 for an accepted plan and frame, 1 for a refusal, 2 for a
 * wrong call or a file that cannot be read.
 *
 *     gcc -std=c99 -Iinclude -o arrivals examples/arrivals.c crates/reaperdecade/out/libreaperdecade.a
 */
#include <errno.h>
#include <inttypes.h>
#include <stdio.h>
#include <stdlib.h>
#include <string.h>

#include "reaperdecade.h"

/* Past so many bytes no file is an image; one byte more lets the library see that it is too long. */
#define IMAGE_BYTES 65536

static uint8_t image[IMAGE_BYTES + 1];

static size_t read_image(const char *name)
{
    FILE *file = fopen(name, "rb");
    size_t length;

    if (file == NULL) {
        fprintf(stderr, "arrivals: %s: %s\n", name, strerror(errno));
        exit(2);
    }
    length = fread(image, 1, sizeof image, file);
    if (ferror(file)) {
        fprintf(stderr, "arrivals: %s cannot be read\n", name);
        exit(2);
    }
    fclose(file);
    return length;
}

static uint32_t word_at(const uint8_t *b)
{
    return (uint32_t)b[0] | (uint32_t)b[1] << 8 | (uint32_t)b[2] << 16 | (uint32_t)b[3] << 24;
}

/* Prints an answer, and gives the status that goes with it. */
static int print_answer(uint64_t answer)
{
    printf("%" PRIu32 " %" PRIu32 " %" PRIu32 "\n", rd_answer_number(answer), rd_answer_table(answer), rd_answer_row(answer));
    return answer == 0 ? 0 : 1;
}

static void print_ticks(uint32_t frame, const uint8_t *ticks)
{
    printf("%" PRIu32 " %" PRIu32 " %" PRIu32 "\n", frame, word_at(ticks), word_at(ticks + 4));
}

/* All frames, up to the first row that there is not. */
static int print_all(size_t length)
{
    uint8_t ticks[8];
    int status = print_answer(rd_check(image, length));
    uint32_t frame;

    for (frame = 0; rd_arrivals(image, length, frame, ticks, sizeof ticks) == 0; frame++) {
        print_ticks(frame, ticks);
    }
    return status;
}

static int print_one(size_t length, uint32_t frame)
{
    uint8_t ticks[8];
    int status = print_answer(rd_arrivals(image, length, frame, ticks, sizeof ticks));

    if (status == 0) {
        print_ticks(frame, ticks);
    }
    return status;
}

int main(int argc, char **argv)
{
    size_t length;
    char *end = "";
    unsigned long frame = 0;

    if (argc == 3) {
        frame = strtoul(argv[2], &end, 10);
    }
    if (argc < 2 || argc > 3 || *end != '\0' || frame > UINT32_MAX) {
        fputs("usage: arrivals IMAGE [FRAME]\n", stderr);
        return 2;
    }
    length = read_image(argv[1]);
    return argc == 3 ? print_one(length, (uint32_t)frame) : print_all(length);
}
