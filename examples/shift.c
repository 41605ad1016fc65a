/*
 * shift - two plans of a shift, and the change from one to the other.
 *
 *     shift FIRST SECOND [AT [CYCLE]]
 *
 * Holds the plan image in file FIRST at place 0 and that in SECOND at place 1,
 * and prints for each the answer as `number table row`. It starts the first in
 * CYCLE (0), makes AT steps (half a cycle), requests the second, which prints a
 * line `requested` with the number that the request gives, and steps on until
 * the cycle after the next tick 0 is over, or until the calendar ends. Of the
 * cycle before that tick 0 and of the one from it on it prints a line for tick 0
 * and for each tick in which some lane shows something else than in the tick
 * before: `cycle tick place`, then `kind.row` for each lane, cores first, then links. The place
 * is that of the plan whose table the lanes are at. A step that is refused ends
 * it with a line `refused` and the step's number.
 *
 * Ends with status 0 where nothing was refused, 1 for a refusal, 2 for a wrong
 * call or a file that cannot be read, 3 where the library did what it should not
 * have done.
 *
 *     gcc -std=c99 -Iinclude -o shift examples/shift.c crates/reaperdecade/out/libreaperdecade.a
 */
#include <errno.h>
#include <inttypes.h>
#include <stdio.h>
#include <stdlib.h>
#include <string.h>

#include "reaperdecade.h"

/* Past so many bytes no file is an image; one byte more lets the library see that it is too long. */
#define IMAGE_BYTES 65536
#define PLANS 2
#define MOST_LANES 96

/* What lent bytes hold before a call, to tell afterwards which of them it wrote. */
#define UNWRITTEN 0xa5
#define GUARD 16

static uint8_t image[IMAGE_BYTES + 1];
static uint8_t words[4 * PLANS * RD_ALL_LANES_WORDS];
static uint8_t states[RD_STATE_BYTES * MOST_LANES];
static uint8_t block[RD_MODES_BYTES + GUARD];
/* The word after the first plan's tables, which lie one after another: behind it are those of the second. */
static uint32_t first_end;
/* Kind and row of each lane, eight bytes, as printed last. */
static uint8_t printed[8 * MOST_LANES];

static size_t read_image(const char *name)
{
    FILE *file = fopen(name, "rb");
    size_t length;

    if (file == NULL) {
        fprintf(stderr, "shift: %s: %s\n", name, strerror(errno));
        exit(2);
    }
    length = fread(image, 1, sizeof image, file);
    if (ferror(file)) {
        fprintf(stderr, "shift: %s cannot be read\n", name);
        exit(2);
    }
    fclose(file);
    return length;
}

/* The word of four bytes at b, the lowest first, on every machine. */
static uint32_t word(const uint8_t *b)
{
    return (uint32_t)b[0] | (uint32_t)b[1] << 8 | (uint32_t)b[2] << 16 | (uint32_t)b[3] << 24;
}

/* An accepted image's trailer: H, P, then byte offset and row count of each table; the last word points to it. */
static const uint8_t *trailer(size_t length)
{
    return image + word(image + length - 4);
}

static uint32_t rows(size_t length, int table)
{
    return word(trailer(length) + 8 * table + 4);
}

/* Nothing past the block is the library's to write. */
static void check_guard(void)
{
    size_t i;

    for (i = RD_MODES_BYTES; i < sizeof block; i++) {
        if (block[i] != UNWRITTEN) {
            fprintf(stderr, "shift: a byte past the block was written\n");
            exit(3);
        }
    }
}

/* Holds the image that was read at a place, and says what that gives. */
static void hold(uint32_t place, size_t length)
{
    uint64_t answer = rd_modes_hold(image, length, place, words, sizeof words, block, RD_MODES_BYTES);

    check_guard();
    printf("%" PRIu32 " %" PRIu32 " %" PRIu32 "\n", rd_answer_number(answer), rd_answer_table(answer),
           rd_answer_row(answer));
    if (answer != 0) {
        exit(1);
    }
}

/* The word after a plan's tables, which begin at a word: a table is H, n and n entries of three words. */
static uint32_t walk(uint32_t first, uint32_t lanes)
{
    while (lanes-- > 0) {
        first += 2 + 3 * word(words + 4 * (size_t)(first + 1));
    }
    return first;
}

/* The place whose tables a record is at. */
static int place_of(const uint8_t *state)
{
    return word(state + 16) < first_end ? 0 : 1;
}

/* What the step that moved the lanes has shown at a tick, where that is new. */
static void show(uint32_t lanes, uint64_t cycle, uint32_t tick)
{
    int new = tick == 0;
    uint32_t l;

    for (l = 0; l < lanes; l++) {
        const uint8_t *state = states + RD_STATE_BYTES * (size_t)l;

        if (place_of(state) != place_of(states)) {
            fprintf(stderr, "shift: lanes 0 and %" PRIu32 " are at different plans\n", l);
            exit(3);
        }
        new |= memcmp(printed + 8 * (size_t)l, state + 20, 8) != 0;
        memcpy(printed + 8 * (size_t)l, state + 20, 8);
    }
    if (!new) {
        return;
    }
    printf("%" PRIu64 " %" PRIu32 " %d ", cycle, tick, place_of(states));
    for (l = 0; l < lanes; l++) {
        printf(" %" PRIu32 ".%" PRIu32, word(printed + 8 * (size_t)l), word(printed + 8 * (size_t)l + 4));
    }
    printf("\n");
}

static uint64_t number(const char *text)
{
    char *end;
    unsigned long long value;

    errno = 0;
    value = strtoull(text, &end, 10);
    if (errno != 0 || end == text || *end != '\0') {
        fprintf(stderr, "shift: %s is no number\n", text);
        exit(2);
    }
    return (uint64_t)value;
}

int main(int argc, char **argv)
{
    uint32_t ticks = 0, lanes = 0, place, refusal;
    uint64_t at, cycle, change, i;

    if (argc < 3 || argc > 5) {
        fprintf(stderr, "usage: shift FIRST SECOND [AT [CYCLE]]\n");
        return 2;
    }
    memset(block, UNWRITTEN, sizeof block);
    rd_modes_fresh(block, RD_MODES_BYTES);
    check_guard();
    for (place = 0; place < PLANS; place++) {
        size_t length = read_image(argv[1 + place]);

        hold(place, length);
        if (place == 0) {
            ticks = word(trailer(length));
            lanes = rows(length, 1) + rows(length, 6);
            first_end = walk(0, lanes);
        }
    }
    at = argc > 3 ? number(argv[3]) : ticks / 2;
    cycle = argc > 4 ? number(argv[4]) : 0;
    if (at > UINT64_MAX - 2 * (uint64_t)ticks) {
        fprintf(stderr, "shift: %" PRIu64 " steps are too many\n", at);
        return 2;
    }

    refusal = rd_modes_start(0, cycle, words, sizeof words, states, RD_STATE_BYTES * (size_t)lanes, block, RD_MODES_BYTES);
    change = (at + ticks - 1) / ticks * ticks;
    for (i = 0; refusal == 0 && i < change + ticks; i++) {
        if (i == at) {
            uint32_t requested = rd_modes_request(1, block, RD_MODES_BYTES);

            printf("requested %" PRIu32 "\n", requested);
            if (requested != 0) {
                return 1;
            }
        }
        refusal = rd_modes_step(words, sizeof words, states, RD_STATE_BYTES * (size_t)lanes, block, RD_MODES_BYTES);
        check_guard();
        if (refusal == 0 && i + ticks >= change) {
            show(lanes, cycle + i / ticks, (uint32_t)(i % ticks));
        }
    }
    if (refusal != 0) {
        printf("refused %" PRIu32 "\n", refusal);
        return 1;
    }
    return 0;
}
