/*
 * build_cost - what building every lane's table costs, for callgrind.
 *
 *     build_cost one|all FILE
 *
 * Reads an accepted plan image from FILE and builds the tables of all its
 * lanes, lane by lane or all in one call. Prints how many lanes and words.
 *
 *     gcc -std=c99 -O2 -Iinclude -o build_cost examples/build_cost.c crates/reaperdecade/out/libreaperdecade.a
 *     valgrind --tool=callgrind ./build_cost all FILE
 *     callgrind_annotate --inclusive=yes callgrind.out.*
 */
#include <stdio.h>
#include <string.h>

#include "reaperdecade.h"

/* More bytes than any image has. */
static uint8_t image[1 << 20];
static uint8_t words[4 * RD_ALL_LANES_WORDS];

static uint32_t word_at(const uint8_t *b)
{
    return (uint32_t)b[0] | (uint32_t)b[1] << 8 | (uint32_t)b[2] << 16 | (uint32_t)b[3] << 24;
}

/*
 * The lanes of an accepted plan, its cores and its links. The last word of its
 * image tells where the trailer begins: H, P, then the offset and the number of
 * rows of each table. Cores are the first table, links the sixth.
 */
static uint32_t lanes_of(size_t length)
{
    const uint8_t *trailer = image + word_at(image + length - 4);

    return word_at(trailer + 4 * 3) + word_at(trailer + 4 * 13);
}

int main(int argc, char **argv)
{
    FILE *from;
    size_t length;
    size_t first = 0;
    uint64_t answer = 0;
    uint32_t lane = 0;
    int all;

    if (argc != 3 || (from = fopen(argv[2], "rb")) == NULL) {
        fprintf(stderr, "usage: build_cost one|all FILE\n");
        return 2;
    }
    all = strcmp(argv[1], "all") == 0;
    length = fread(image, 1, sizeof image, from);
    fclose(from);
    if (all) {
        answer = rd_build_all(image, length, words, sizeof words);
    }
    do { /* an accepted plan has a lane 0 */
        if (!all) {
            answer = rd_build(image, length, lane, words + 4 * first, sizeof words - 4 * first);
        }
        if (answer != 0) {
            printf("refused: %u\n", (unsigned)rd_answer_number(answer));
            return 1;
        }
        first += 2 + 3 * (size_t)word_at(words + 4 * (first + 1));
        lane++;
    } while (lane < lanes_of(length));
    printf("%u lanes, %lu words\n", (unsigned)lane, (unsigned long)first);
    return 0;
}
