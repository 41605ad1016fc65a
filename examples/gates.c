/*
 * gates - the gate lists of a plan's links, for the switches that send over them.
 *
 *     gates IMAGE [LINK [WORDS]]
 *
 * Reads the plan image in file IMAGE, checks it and prints the answer as
 * `number table row`. For an accepted plan a line `link from interval octet`
 * follows for each pair of each link's list: from that tick of the cycle on, for
 * so many ticks, the queues of the octet are open, queue 0 as its lowest bit.
 * The octet is in hexadecimal. With LINK it asks for the list of that row of the
 * link table alone, and the answer is that of the asking: 25 where there is no
 * such link. With WORDS it lends only so many words for the list: 42 where they
 * are too few.
 *
 * Ends with status 0 for an accepted plan and link, 1 for a refusal, 2 for a
 * wrong call or a file that cannot be read, 3 where the library wrote what it
 * should not have written.
 *
 *     gcc -std=c99 -Iinclude -o gates examples/gates.c crates/reaperdecade/out/libreaperdecade.a
 */
#include <errno.h>
#include <inttypes.h>
#include <stdio.h>
#include <stdlib.h>
#include <string.h>

#include "reaperdecade.h"

/* Past so many bytes no file is an image; one byte more lets the library see that it is too long. */
#define IMAGE_BYTES 65536

/* What the lent bytes hold before a call, to tell afterwards which of them it wrote. */
#define UNWRITTEN 0xa5

static uint8_t image[IMAGE_BYTES + 1];
/* RD_GATE_WORDS suffice for every link of every accepted plan: where all are lent, 42 is not met. */
static uint8_t words[4 * RD_GATE_WORDS];

static size_t read_image(const char *name)
{
    FILE *file = fopen(name, "rb");
    size_t length;

    if (file == NULL) {
        fprintf(stderr, "gates: %s: %s\n", name, strerror(errno));
        exit(2);
    }
    length = fread(image, 1, sizeof image, file);
    if (ferror(file)) {
        fprintf(stderr, "gates: %s cannot be read\n", name);
        exit(2);
    }
    fclose(file);
    return length;
}

/* Word number i of the list. A word is four bytes, the lowest first, on every machine. */
static uint32_t word_at(size_t i)
{
    const uint8_t *b = words + 4 * i;

    return (uint32_t)b[0] | (uint32_t)b[1] << 8 | (uint32_t)b[2] << 16 | (uint32_t)b[3] << 24;
}

/* Prints an answer, and gives the status that goes with it. */
static int print_answer(uint64_t answer)
{
    printf("%" PRIu32 " %" PRIu32 " %" PRIu32 "\n", rd_answer_number(answer), rd_answer_table(answer), rd_answer_row(answer));
    return answer == 0 ? 0 : 1;
}

/*
 * Asks for the list of a link in so many lent words. A call that gives 0 writes
 * the list and leaves later words as they were; a refused call writes nothing.
 * Both are looked at here, which a caller need not do: it is proved.
 */
static uint64_t ask(size_t length, uint32_t link, size_t lent)
{
    uint64_t answer;
    size_t i, written;

    memset(words, UNWRITTEN, sizeof words);
    answer = rd_gates(image, length, link, words, 4 * lent);
    written = answer == 0 ? 4 * (1 + 2 * (size_t)word_at(0)) : 0;
    for (i = written; i < sizeof words; i++) {
        if (words[i] != UNWRITTEN) {
            fprintf(stderr, "gates: byte %zu is not as it was\n", i);
            exit(3);
        }
    }
    return answer;
}

/* The list in the words: word 0 is m, then each pair has an octet and an interval. The first interval begins at tick 0. */
static void print_list(uint32_t link)
{
    uint32_t m = word_at(0), from = 0, pair;

    for (pair = 0; pair < m; pair++) {
        uint32_t octet = word_at(1 + 2 * (size_t)pair);
        uint32_t interval = word_at(2 + 2 * (size_t)pair);

        printf("%" PRIu32 " %" PRIu32 " %" PRIu32 " %02" PRIx32 "\n", link, from, interval, octet);
        from += interval;
    }
}

/* All links, up to the first row that there is not; of a refused image no link has a list. */
static int print_all(size_t length)
{
    int status = print_answer(rd_check(image, length));
    uint32_t link;

    for (link = 0; ask(length, link, RD_GATE_WORDS) == 0; link++) {
        print_list(link);
    }
    return status;
}

static int print_one(size_t length, uint32_t link, size_t lent)
{
    int status = print_answer(ask(length, link, lent));

    if (status == 0) {
        print_list(link);
    } else {
        puts("no word is written");
    }
    return status;
}

/* A number from 0 to most; ends the program where the text is no such number. */
static uint32_t number(const char *text, uint32_t most)
{
    char *end;
    unsigned long value = strtoul(text, &end, 10);

    if (*text < '0' || *text > '9' || *end != '\0' || value > most) {
        fprintf(stderr, "gates: %s is no number from 0 to %" PRIu32 "\n", text, most);
        exit(2);
    }
    return (uint32_t)value;
}

int main(int argc, char **argv)
{
    uint32_t link = 0, lent = RD_GATE_WORDS;
    size_t length;

    if (argc < 2 || argc > 4) {
        fputs("usage: gates IMAGE [LINK [WORDS]]\n", stderr);
        return 2;
    }
    if (argc > 2) {
        link = number(argv[2], UINT32_MAX);
    }
    if (argc > 3) {
        lent = number(argv[3], RD_GATE_WORDS);
    }
    length = read_image(argv[1]);
    return argc > 2 ? print_one(length, link, lent) : print_all(length);
}
