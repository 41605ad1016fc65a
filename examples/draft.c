/*
 * draft - how a planner's editor keeps a draft of a plan.
 *
 *     draft IMAGE PLACE START
 *
 * Reads the plan image in file IMAGE and makes a draft of it. Then it reads
 * the piece at PLACE and moves it to START, tries a move that is refused, adds
 * a second piece, as the first was before its move, at the lowest free place,
 * removes it again, and tries to remove it once more. After the making and
 * after each edit that is done it prints the total of each core and of the
 * piece's job.
 *
 * What is asked of a draft is not what the check asks: pieces may overlap or
 * lie outside windows while they are being edited, and jobs may have too little
 * or too much. Only what questions 5 and 10 ask of a piece by itself holds of
 * every piece in a draft.
 *
 * Ends with status 0 where PLACE was moved to START, 1 where that, the reading
 * of PLACE or the making of the draft was refused, and 2 for a wrong call or a
 * file that cannot be read.
 *
 *     gcc -std=c99 -Iinclude -o draft examples/draft.c crates/reaperdecade/out/libreaperdecade.a
 */
#include <errno.h>
#include <inttypes.h>
#include <stdio.h>
#include <stdlib.h>
#include <string.h>

#include "reaperdecade.h"

/* Past so many bytes no file is an image; one byte more lets the library see that it is too long. */
#define IMAGE_BYTES 65536

/* Past every due tick, so that question 10 refuses it. */
#define NO_START UINT32_MAX

/* A piece, in the order of its four words. */
struct piece {
    uint32_t task;
    uint32_t job;
    uint32_t start;
    uint32_t length;
};

/* The draft: nothing but a row of words, which the caller lends to each call. */
static uint32_t words[RD_DRAFT_WORDS];

/* The words before an edit, to show what a refusal leaves. Before the making all words are 0 in both. */
static uint32_t before[RD_DRAFT_WORDS];

static uint32_t read_place(uint32_t place, struct piece *piece)
{
    uint32_t four[4];
    uint32_t number = rd_draft_place(words, RD_DRAFT_WORDS, place, four, 4);

    if (number == 0) {
        piece->task = four[0];
        piece->job = four[1];
        piece->start = four[2];
        piece->length = four[3];
    }
    return number;
}

/* The lowest place without a piece, or RD_DRAFT_PLACES where each has one. */
static uint32_t free_place(void)
{
    struct piece taken;
    uint32_t place = 0;

    while (place < RD_DRAFT_PLACES && read_place(place, &taken) == 0) {
        place++;
    }
    return place;
}

static void print_place(uint32_t place)
{
    struct piece piece;
    uint32_t number = read_place(place, &piece);

    if (number == 0) {
        printf("    place %" PRIu32 ": task %" PRIu32 " job %" PRIu32 " start %" PRIu32 " length %" PRIu32 "\n",
               place, piece.task, piece.job, piece.start, piece.length);
    } else {
        printf("    place %" PRIu32 ": refused by %" PRIu32 "\n", place, number);
    }
}

/* Each core's total. The first core that is not there is refused by 5. */
static void print_cores(void)
{
    uint32_t core = 0;
    uint64_t result = rd_draft_core(words, RD_DRAFT_WORDS, core);

    while (rd_draft_number(result) == 0) {
        printf("    core %" PRIu32 ": %" PRIu32 " ticks\n", core, rd_draft_total(result));
        core++;
        result = rd_draft_core(words, RD_DRAFT_WORDS, core);
    }
}

static void print_job(const struct piece *piece)
{
    uint64_t result = rd_draft_job(words, RD_DRAFT_WORDS, piece->task, piece->job);

    if (rd_draft_number(result) == 0) {
        printf("    task %" PRIu32 " job %" PRIu32 ": %" PRIu32 " ticks\n", piece->task, piece->job, rd_draft_total(result));
    } else {
        printf("    task %" PRIu32 " job %" PRIu32 ": refused by %" PRIu32 "\n", piece->task, piece->job, rd_draft_number(result));
    }
}

/* How an edit went: done, or refused by a number, and then whether the words are those before it. */
static void print_edit(uint32_t number)
{
    if (number == 0) {
        printf("done\n");
    } else {
        printf("refused by %" PRIu32 ", words %s\n", number, memcmp(words, before, sizeof words) == 0 ? "as before" : "changed");
    }
}

static uint32_t move(uint32_t place, uint32_t start)
{
    uint32_t number;

    memcpy(before, words, sizeof words);
    number = rd_draft_move(words, RD_DRAFT_WORDS, place, start);
    printf("move place %" PRIu32 " to %" PRIu32 ": ", place, start);
    print_edit(number);
    return number;
}

static uint32_t add(uint32_t place, const struct piece *piece)
{
    uint32_t number;

    memcpy(before, words, sizeof words);
    number = rd_draft_add(words, RD_DRAFT_WORDS, place, piece->task, piece->job, piece->start, piece->length);
    printf("add place %" PRIu32 ": ", place);
    print_edit(number);
    return number;
}

static uint32_t take_out(uint32_t place)
{
    uint32_t number;

    memcpy(before, words, sizeof words);
    number = rd_draft_remove(words, RD_DRAFT_WORDS, place);
    printf("remove place %" PRIu32 ": ", place);
    print_edit(number);
    return number;
}

/* The totals that an edit of this piece can change, and the place that it was at. */
static void print_all(uint32_t place, const struct piece *piece)
{
    print_cores();
    print_job(piece);
    print_place(place);
}

/* Edits the draft; gives the number of the move that was asked for. */
static uint32_t edit(uint32_t place, uint32_t start, const struct piece *piece)
{
    uint32_t number;
    uint32_t second;

    /* A move keeps length and job, so all totals stay as they are. */
    number = move(place, start);
    print_all(place, piece);

    /* A refused edit says why and changes no word. */
    move(place, NO_START);

    /* A piece more: its job's total and its core's are higher by its length. Where every place is taken, 34 refuses it. */
    second = free_place();
    add(second, piece);
    print_all(second, piece);

    /* What was added can be removed; then the totals are what they were, and the place is free again. */
    take_out(second);
    print_all(second, piece);

    /* There is no piece to remove any more. */
    take_out(second);
    return number;
}

static void fail(const char *what)
{
    fprintf(stderr, "draft: %s: %s\n", what, errno != 0 ? strerror(errno) : "failed");
    exit(2);
}

static uint32_t word_of(const char *text)
{
    char *end;
    unsigned long long number;

    errno = 0;
    number = strtoull(text, &end, 10);
    if (errno != 0 || text[0] < '0' || text[0] > '9' || *end != '\0' || number > UINT32_MAX) {
        fprintf(stderr, "draft: %s is no number from 0 to %" PRIu32 "\n", text, UINT32_MAX);
        exit(2);
    }
    return (uint32_t)number;
}

/* Reads a file into the bytes lent and gives how many there are. */
static size_t read_file(const char *name, uint8_t *bytes, size_t room)
{
    FILE *from;
    size_t length;

    errno = 0;
    from = fopen(name, "rb");
    if (from == NULL) {
        fail(name);
    }
    length = fread(bytes, 1, room, from);
    if (ferror(from)) {
        fail(name);
    }
    fclose(from);
    return length;
}

int main(int argc, char **argv)
{
    static uint8_t image[IMAGE_BYTES + 1];
    struct piece piece;
    size_t length;
    uint32_t place;
    uint32_t start;
    uint32_t number;

    if (argc != 4) {
        fprintf(stderr, "usage: draft IMAGE PLACE START\n");
        return 2;
    }
    length = read_file(argv[1], image, sizeof image);
    place = word_of(argv[2]);
    start = word_of(argv[3]);

    /* The image is not needed any more once there is a draft: all that edits need to know is in its words. */
    number = rd_draft_make(image, length, words, RD_DRAFT_WORDS);
    printf("make: ");
    print_edit(number);
    if (number != 0) {
        return 1;
    }
    if (read_place(place, &piece) != 0) {
        print_cores();
        print_place(place);
        return 1;
    }
    print_all(place, &piece);
    return edit(place, start, &piece) == 0 ? 0 : 1;
}
