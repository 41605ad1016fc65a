/*
 * load_tool - what a load tool does with a plan image, whole.
 *
 *     load_tool [-c CYCLE] [-n CYCLES] [FILE]
 *     load_tool [-c CYCLE] [-n CYCLES] [-o OUT] -s SHARED FIRST SECOND
 *
 * Reads a plan image from FILE or standard input, checks it and prints the
 * answer as `number table row`. A refused plan ends there, with the answer in
 * words on a second line and status 1.
 * For an accepted one it builds every lane's table into one row of words,
 * starts every lane in cycle CYCLE (0), steps all lanes through CYCLES (2)
 * cycles, and prints `cycle tick lane kind row` wherever a lane shows
 * something else than at the tick before.
 *
 * With -s it joins two images, the first SHARED tasks being the same in both,
 * and goes on with the joined one. After the answer it prints the joined
 * image's length, 0 where there is none, and asks rd_check about its bytes.
 * OUT gets the joined image, a refused one too.
 *
 *     gcc -std=c99 -Iinclude -o load_tool examples/load_tool.c crates/reaperdecade/out/libreaperdecade.a
 */
#include <errno.h>
#include <inttypes.h>
#include <stdio.h>
#include <stdlib.h>
#include <string.h>

#include "reaperdecade.h"

/* Bytes that grow. */
struct bytes {
    uint8_t *at;
    size_t length;
    size_t room;
};

/* The tables of all lanes in one row of words, and the states of all lanes. */
struct tables {
    struct bytes words;
    struct bytes states;
    uint32_t lanes;
};

static void fail(const char *what)
{
    fprintf(stderr, "load_tool: %s: %s\n", what, errno != 0 ? strerror(errno) : "failed");
    exit(2);
}

/* Makes room for so many bytes in all. */
static void make_room(struct bytes *b, size_t room)
{
    uint8_t *at;

    if (b->at != NULL && room <= b->room) {
        return;
    }
    if (room < 2 * b->room) {
        room = 2 * b->room;
    }
    if (room < 256) {
        room = 256;
    }
    at = realloc(b->at, room);
    if (at == NULL) {
        fail("memory");
    }
    b->at = at;
    b->room = room;
}

static uint32_t word_at(const uint8_t *b)
{
    return (uint32_t)b[0] | (uint32_t)b[1] << 8 | (uint32_t)b[2] << 16 | (uint32_t)b[3] << 24;
}

/* The fields of a state. */
static uint64_t cycle_of(const uint8_t *state)
{
    return (uint64_t)word_at(state) | (uint64_t)word_at(state + 4) << 32;
}

static uint32_t tick_of(const uint8_t *state)
{
    return word_at(state + 8);
}

static uint32_t kind_of(const uint8_t *state)
{
    return word_at(state + 20);
}

static uint32_t row_of(const uint8_t *state)
{
    return word_at(state + 24);
}

static struct bytes read_all(FILE *from)
{
    struct bytes b = { NULL, 0, 0 };

    do {
        make_room(&b, b.length + 4096);
        b.length += fread(b.at + b.length, 1, b.room - b.length, from);
    } while (!feof(from) && !ferror(from));
    if (ferror(from)) {
        fail("read");
    }
    return b;
}

static struct bytes read_file(const char *name)
{
    struct bytes b;
    FILE *from = fopen(name, "rb");

    if (from == NULL) {
        fail(name);
    }
    b = read_all(from);
    fclose(from);
    return b;
}

static void write_file(const char *name, const struct bytes *b)
{
    FILE *to = fopen(name, "wb");

    if (to == NULL || fwrite(b->at, 1, b->length, to) != b->length || fclose(to) != 0) {
        fail(name);
    }
}

/* Builds a lane's table after those that are there. Gives 0 where the lane is past the last one. */
static int build_lane(const struct bytes *image, uint32_t lane, struct bytes *words)
{
    for (;;) {
        uint8_t *table = words->at + words->length;
        uint64_t answer = rd_build(image->at, image->length, lane, table, words->room - words->length);

        switch (rd_answer_number(answer)) {
        case 0:
            words->length += 4 * (2 + 3 * (size_t)word_at(table + 4));
            return 1;
        case 25:
            return 0;
        case 26: /* too few words */
            make_room(words, words->room + 1);
            break;
        default: /* the plan was accepted, and nobody has changed it */
            errno = 0;
            fail("build");
        }
    }
}

/* Builds every lane's table and starts every lane. */
static struct tables load(const struct bytes *image, uint64_t cycle)
{
    struct tables t = { { NULL, 0, 0 }, { NULL, 0, 0 }, 0 };
    size_t first = 0;

    make_room(&t.words, 0);
    make_room(&t.states, 0);
    while (build_lane(image, t.lanes, &t.words)) {
        make_room(&t.states, t.states.length + RD_STATE_BYTES);
        if (first > UINT32_MAX || rd_start(cycle, (uint32_t)first, t.states.at + t.states.length, RD_STATE_BYTES) != 0) {
            errno = 0;
            fail("start");
        }
        t.states.length += RD_STATE_BYTES;
        first = t.words.length / 4;
        t.lanes++;
    }
    return t;
}

/* Prints an answer in words, on a line of its own. */
static void print_line(uint32_t number, uint32_t table, uint32_t row)
{
    uint8_t line[RD_LINE_BYTES];
    uint32_t length = rd_line(number, table, row, line, sizeof line);

    printf("%.*s\n", (int)length, (const char *)line);
}

/* Prints the answer, and a refusal in words too. */
static void print_answer(uint64_t answer)
{
    uint32_t number = rd_answer_number(answer);
    uint32_t table = rd_answer_table(answer);
    uint32_t row = rd_answer_row(answer);

    printf("%" PRIu32 " %" PRIu32 " %" PRIu32 "\n", number, table, row);
    if (answer != 0) {
        print_line(number, table, row);
    }
}

/* Steps all lanes once, and prints those that show something else than before, or all. Gives the step's number. */
static uint32_t step(struct tables *t, uint8_t *before, int all)
{
    uint32_t number;
    uint32_t lane;

    memcpy(before, t->states.at, t->states.length);
    number = rd_step_all(t->words.at, t->words.length, t->states.at, t->states.length);
    if (number != 0) {
        return number;
    }
    for (lane = 0; lane < t->lanes; lane++) {
        const uint8_t *old = before + (size_t)RD_STATE_BYTES * lane;
        const uint8_t *now = t->states.at + (size_t)RD_STATE_BYTES * lane;

        if (all || kind_of(old) != kind_of(now) || row_of(old) != row_of(now)) {
            printf("%" PRIu64 " %" PRIu32 " %" PRIu32 " %" PRIu32 " %" PRIu32 "\n",
                   cycle_of(old), tick_of(old), lane, kind_of(now), row_of(now));
        }
    }
    return 0;
}

static void run(struct tables *t, uint64_t cycles)
{
    uint8_t *before = malloc(t->states.length + 1);
    uint64_t ticks = t->lanes == 0 ? 0 : word_at(t->words.at);
    uint64_t cycle;
    uint64_t tick;

    if (before == NULL) {
        fail("memory");
    }
    for (cycle = 0; cycle < cycles; cycle++) {
        for (tick = 0; tick < ticks; tick++) {
            uint32_t number = step(t, before, cycle == 0 && tick == 0);

            if (number != 0) {
                printf("step refused: %" PRIu32 "\n", number);
                print_line(number, 0, 0);
                free(before);
                return;
            }
        }
    }
    free(before);
}

/* Checks a plan and prints the answer. */
static uint64_t check(const struct bytes *image)
{
    uint64_t answer = rd_check(image->at, image->length);

    print_answer(answer);
    return answer;
}

/* Joins the second plan to the first and prints the answer and the joined image's length. Gives the answer. */
static uint64_t join(const struct bytes *first, const struct bytes *second, uint32_t shared, struct bytes *joined)
{
    uint32_t length;
    uint64_t answer;

    make_room(joined, RD_IMAGE_BYTES);
    answer = rd_join(first->at, first->length, second->at, second->length, shared, joined->at, joined->room, &length);
    joined->length = length;
    print_answer(answer);
    printf("joined: %" PRIu32 " bytes\n", length);
    if (length != 0 && rd_check(joined->at, joined->length) != answer) { /* it is the joined image's own answer */
        errno = 0;
        fail("join");
    }
    return answer;
}

/* Builds all lanes of an accepted plan and steps them. */
static void load_and_run(const struct bytes *image, uint64_t cycle, uint64_t cycles)
{
    struct tables t = load(image, cycle);

    run(&t, cycles);
    free(t.words.at);
    free(t.states.at);
}

static uint64_t number_of(const char *text)
{
    char *end;
    unsigned long long n;

    errno = 0;
    n = strtoull(text, &end, 10);
    if (errno != 0 || end == text || *end != '\0') {
        fail(text);
    }
    return n;
}

static uint32_t word_of(const char *text)
{
    uint64_t n = number_of(text);

    if (n > UINT32_MAX) {
        errno = ERANGE;
        fail(text);
    }
    return (uint32_t)n;
}

/* What the command line asks for: to load the first plan (NULL for standard input), or to join the second to it. */
struct options {
    uint64_t cycle;
    uint64_t cycles;
    int joins;
    uint32_t shared;
    const char *first;
    const char *second;
    const char *out;
};

/* Takes an option and its value. Gives 0 where there is no such option. */
static int take_option(struct options *o, const char *name, const char *value)
{
    if (strcmp(name, "-c") == 0) {
        o->cycle = number_of(value);
    } else if (strcmp(name, "-n") == 0) {
        o->cycles = number_of(value);
    } else if (strcmp(name, "-o") == 0) {
        o->out = value;
    } else if (strcmp(name, "-s") == 0) {
        o->joins = 1;
        o->shared = word_of(value);
    } else {
        return 0;
    }
    return 1;
}

/* Gives 0 where the command line is wrong. */
static int read_options(int argc, char **argv, struct options *o)
{
    int i = 1;

    while (i + 1 < argc && argv[i][0] == '-') {
        if (!take_option(o, argv[i], argv[i + 1])) {
            return 0;
        }
        i += 2;
    }
    if (i < argc && argv[i][0] == '-') {
        return 0;
    }
    o->first = i < argc ? argv[i] : NULL;
    o->second = i + 1 < argc ? argv[i + 1] : NULL;
    return o->joins ? argc - i == 2 : argc - i <= 1 && o->out == NULL;
}

/* The plan to load: the first, or the two joined. Gives the answer about it. */
static uint64_t take_plan(const struct options *o, struct bytes *plan)
{
    struct bytes first = o->first != NULL ? read_file(o->first) : read_all(stdin);
    struct bytes second;
    uint64_t answer;

    if (!o->joins) {
        *plan = first;
        return check(plan);
    }
    second = read_file(o->second);
    answer = join(&first, &second, o->shared, plan);
    if (o->out != NULL && plan->length != 0) {
        write_file(o->out, plan);
    }
    free(first.at);
    free(second.at);
    return answer;
}

int main(int argc, char **argv)
{
    struct options o = { 0, 2, 0, 0, NULL, NULL, NULL };
    struct bytes plan = { NULL, 0, 0 };
    uint64_t answer;

    if (!read_options(argc, argv, &o)) {
        fprintf(stderr, "usage: load_tool [-c CYCLE] [-n CYCLES] [FILE]\n"
                        "       load_tool [-c CYCLE] [-n CYCLES] [-o OUT] -s SHARED FIRST SECOND\n");
        return 2;
    }
    answer = take_plan(&o, &plan);
    if (answer == 0) {
        load_and_run(&plan, o.cycle, o.cycles);
    }
    free(plan.at);
    return answer == 0 ? 0 : 1;
}
