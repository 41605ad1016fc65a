/*
 * timer_loop - a board's main loop, which steps a plan by the tick timer.
 *
 *     timer_loop [-a] IMAGE EVERY BEGIN UNTIL GONE...
 *
 * Stands for a board: a load tool's main loop and the timer that drives it. The
 * board's counter is simulated, as a count of 64 bits that never wraps. The loop
 * sees its low 32 bits alone, which do.
 *
 * Checks the plan image in file IMAGE, builds all lanes and starts them in cycle
 * 0. One tick of the plan is EVERY counts (1 to 2^32 - 1). The loop begins when
 * the counter stands at BEGIN, and comes round again after GONE counts (0 to
 * 2^32 - 1): each GONE in turn, then from the first again, until UNTIL counts
 * (0 to 2^63 - 1) or more have gone by. One GONE at least is not 0.
 * With a GONE above EVERY the loop is late, by many ticks where GONE is large.
 * It still steps once for each of them: it brings the counter in no further than
 * compare at a time, so that each match is seen. With -a ("at once") it brings
 * in all that has gone by and takes one step where there is a match, as a simple
 * loop would. That is enough where no GONE is above EVERY, else ticks may be lost.
 *
 * The board's own count tells how many ticks were due. The first round in which
 * the steps made, or the tick where a lane's state stands, differ from that is
 * told, with status 1. Else the program prints at the end what it went through,
 * and that no tick was lost, with status 0.
 * A refused plan is told with status 1, as a refused step would be; a wrong
 * call, or a file that cannot be read, has status 2.
 *
 *     gcc -std=c99 -Iinclude -o timer_loop examples/timer_loop.c crates/reaperdecade/out/libreaperdecade.a
 */
#include <errno.h>
#include <inttypes.h>
#include <stdio.h>
#include <stdlib.h>
#include <string.h>

#include "reaperdecade.h"

/* The tables of an image whose rows have a lane each. */
enum { CORE = 0, LINK = 5 };

/* The most lanes that a plan has: 32 cores and 64 links. */
#define LANES 96

/* A plan as a load tool holds it. One byte more than an image has lets the library see that a file is too long. */
struct plan {
    uint8_t image[RD_IMAGE_BYTES + 1];
    size_t length;
    uint8_t words[4 * RD_ALL_LANES_WORDS];
    uint8_t states[RD_STATE_BYTES * LANES];
    size_t lanes;
};

/* The main loop: its plan, the timer's block, how many counts a tick has; then what the board notes: rounds, counts gone by, steps made. */
struct loop {
    struct plan plan;
    uint8_t block[RD_TIMER_BYTES];
    uint32_t every;
    uint64_t rounds;
    uint64_t gone;
    uint64_t steps;
};

/* What the command line asks for. */
struct call {
    int at_once;
    const char *file;
    uint32_t every;
    uint32_t begin;
    uint64_t until;
    uint32_t *gone;
    size_t gones;
};

static struct loop the_loop;

static void fail(const char *what, const char *why)
{
    fprintf(stderr, "timer_loop: %s: %s\n", what, why);
    exit(2);
}

/* Says a refusal in words, and ends with the status. */
static void refused(int status, const char *what, uint32_t number, uint32_t table, uint32_t row)
{
    uint8_t line[RD_LINE_BYTES];
    uint32_t length = rd_line(number, table, row, line, sizeof line);

    printf("%s refused: %.*s\n", what, (int)length, (const char *)line);
    exit(status);
}

static uint32_t word_at(const uint8_t *bytes)
{
    return (uint32_t)bytes[0] | (uint32_t)bytes[1] << 8 | (uint32_t)bytes[2] << 16 | (uint32_t)bytes[3] << 24;
}

static void read_plan(struct plan *p, const char *file)
{
    FILE *from = fopen(file, "rb");

    if (from != NULL) {
        p->length = fread(p->image, 1, sizeof p->image, from);
    }
    if (from == NULL || ferror(from)) {
        fail(file, "cannot be read");
    }
    fclose(from);
}

/* Asks the checker. */
static void check(const struct plan *p)
{
    uint64_t answer = rd_check(p->image, p->length);

    if (answer != 0) {
        refused(1, "plan", rd_answer_number(answer), rd_answer_table(answer), rd_answer_row(answer));
    }
}

/* How many rows a table of an accepted image has. The image's last word points to its trailer: cycle, precision, then offset and rows of each. */
static uint32_t rows_of(const struct plan *p, size_t table)
{
    return word_at(p->image + word_at(p->image + p->length - 4) + 4 * (3 + 2 * table));
}

/* Builds all lanes of an accepted plan and starts them in cycle 0. */
static void load(struct plan *p)
{
    uint32_t first = 0;

    p->lanes = (size_t)rows_of(p, CORE) + rows_of(p, LINK);
    if (rd_build_all(p->image, p->length, p->words, sizeof p->words) != 0) {
        fail("build", "an accepted plan was refused");
    }
    for (size_t lane = 0; lane < p->lanes; lane++) {
        uint32_t number = rd_start(0, first, p->states + RD_STATE_BYTES * lane, RD_STATE_BYTES);

        if (number != 0) {
            refused(2, "start", number, 0, 0);
        }
        first += 2 + 3 * word_at(p->words + 4 * ((size_t)first + 1));
    }
}

/* The fields of a lane's state that are read here, and the cycle H of its table. */
static uint64_t cycle_of(const struct plan *p, size_t lane)
{
    const uint8_t *state = p->states + RD_STATE_BYTES * lane;

    return (uint64_t)word_at(state) | (uint64_t)word_at(state + 4) << 32;
}

static uint32_t tick_of(const struct plan *p, size_t lane)
{
    return word_at(p->states + RD_STATE_BYTES * lane + 8);
}

static uint32_t length_of_cycle(const struct plan *p, size_t lane)
{
    return word_at(p->words + 4 * (size_t)word_at(p->states + RD_STATE_BYTES * lane + 16));
}

/* Where a lane stands, in ticks from the start of cycle 0. */
static uint64_t stands_at(const struct plan *p, size_t lane)
{
    return cycle_of(p, lane) * length_of_cycle(p, lane) + tick_of(p, lane);
}

/* The first lane that stands elsewhere; past the last one where there is none. */
static size_t lane_elsewhere(const struct plan *p, uint64_t ticks)
{
    size_t lane = 0;

    while (lane < p->lanes && stands_at(p, lane) == ticks) {
        lane++;
    }
    return lane;
}

/* How many ticks were due by now. */
static uint64_t due(const struct loop *l)
{
    return l->gone / l->every;
}

/* Tells how the steps made, or where a lane stands, differ from the ticks due, and ends. */
static void not_in_time(const struct loop *l)
{
    uint64_t ticks = due(l);

    printf("round %" PRIu64 ", counts gone by %" PRIu64 ": ticks due %" PRIu64 ", steps made %" PRIu64, l->rounds, l->gone, ticks, l->steps);
    if (l->steps < ticks) {
        printf(", behind by %" PRIu64 "\n", ticks - l->steps);
    } else if (l->steps > ticks) {
        printf(", ahead by %" PRIu64 "\n", l->steps - ticks);
    } else {
        size_t lane = lane_elsewhere(&l->plan, ticks);

        printf(", but lane %zu stands at tick %" PRIu64 "\n", lane, stands_at(&l->plan, lane));
    }
    exit(1);
}

/* Compares the ticks due with the steps made and where the lanes stand. */
static void compare_with_board(const struct loop *l)
{
    if (l->steps != due(l) || lane_elsewhere(&l->plan, due(l)) != l->plan.lanes) {
        not_in_time(l);
    }
}

/* Steps all lanes. One step more than are due is told at once: a loop that takes one match again and again would come to no end. */
static void step(struct loop *l)
{
    struct plan *p = &l->plan;
    uint32_t number = rd_step_all(p->words, sizeof p->words, p->states, RD_STATE_BYTES * p->lanes);

    if (number != 0) {
        refused(1, "step", number, 0, 0);
    }
    l->steps++;
    if (l->steps > due(l)) {
        not_in_time(l);
    }
}

/* Looks at the number of a call to the timer. None is refused here: the block has 16 bytes, and count is not written. */
static void look_at(uint32_t number)
{
    if (number != 0) {
        refused(2, "timer", number, 0, 0);
    }
}

static uint32_t timer_register(const struct loop *l, uint32_t address)
{
    uint64_t read = rd_timer_read(l->block, sizeof l->block, address);

    look_at(rd_timer_number(read));
    return rd_timer_value(read);
}

static void set_register(struct loop *l, uint32_t address, uint32_t value)
{
    look_at(rd_timer_write(l->block, sizeof l->block, address, value));
}

static void bring_in(struct loop *l, uint32_t count)
{
    look_at(rd_timer_reading(l->block, sizeof l->block, count));
}

static int interrupted(const struct loop *l)
{
    return rd_timer_interrupt(l->block, sizeof l->block) != 0;
}

/* Begins where the counter stands; the first tick is due EVERY counts on. A fresh block's compare is its count, so the reading sets no match. */
static void start_timer(struct loop *l, uint32_t counter)
{
    memset(l->block, 0xff, sizeof l->block); /* what the block held before does not matter */
    look_at(rd_timer_start(l->block, sizeof l->block));
    bring_in(l, counter);
    set_register(l, RD_TIMER_COMPARE, counter + l->every);
    set_register(l, RD_TIMER_ENABLE, 1);
}

/* Takes a match: one step, then clears it and sets compare on from where it was, not from the count, which may be past it. */
static void take_match(struct loop *l)
{
    step(l);
    set_register(l, RD_TIMER_STATUS, 1);
    set_register(l, RD_TIMER_COMPARE, timer_register(l, RD_TIMER_COMPARE) + l->every);
}

/* How far one value of the counter lies before another. It wraps as the counter does. */
static uint32_t counts_between(uint32_t from, uint32_t to)
{
    return to - from;
}

/* Brings the counter in, but no further than compare. Compare is never the count itself here: it was last set on by 1 to 2^32 - 1 counts. */
static void bring_in_up_to_compare(struct loop *l, uint32_t now)
{
    uint32_t count = timer_register(l, RD_TIMER_COUNT);
    uint32_t compare = timer_register(l, RD_TIMER_COMPARE);

    bring_in(l, counts_between(count, compare) <= counts_between(count, now) ? compare : now);
}

/* Takes every match up to now, one after another. */
static void take_all(struct loop *l, uint32_t now)
{
    bring_in_up_to_compare(l, now);
    while (interrupted(l)) {
        take_match(l);
        bring_in_up_to_compare(l, now);
    }
}

/* Takes one match at most. Where more were due, compare stays behind the count: it is come to when nearly 2^32 counts more have gone by. */
static void take_one(struct loop *l, uint32_t now)
{
    bring_in(l, now);
    if (interrupted(l)) {
        take_match(l);
    }
}

/* One round, with the counter at now. */
static void come_round(struct loop *l, uint32_t now, int at_once)
{
    if (at_once) {
        take_one(l, now);
    } else {
        take_all(l, now);
    }
}

static void print_end(const struct loop *l, uint32_t began)
{
    printf("rounds %" PRIu64 ", counts gone by %" PRIu64 ", wraps of the counter %" PRIu64 "\n", l->rounds, l->gone, (began + l->gone) >> 32);
    printf("ticks stepped %" PRIu64 ", lanes %zu, all at cycle %" PRIu64 " tick %" PRIu32 "\n", l->steps, l->plan.lanes, cycle_of(&l->plan, 0),
           tick_of(&l->plan, 0));
    printf("no tick was lost\n");
}

/* Lets the loop come round until so many counts have gone by. */
static void run(struct loop *l, const struct call *c)
{
    start_timer(l, c->begin);
    while (l->gone < c->until) {
        l->gone += c->gone[l->rounds % c->gones];
        l->rounds++;
        come_round(l, (uint32_t)(c->begin + l->gone), c->at_once);
        compare_with_board(l);
    }
    print_end(l, c->begin);
}

/* A number from lowest to highest, in decimal. */
static uint64_t number_of(const char *name, const char *text, uint64_t lowest, uint64_t highest)
{
    char *end;
    unsigned long long n;

    errno = 0;
    n = strtoull(text, &end, 10);
    if (text[0] < '0' || text[0] > '9' || *end != '\0' || errno != 0 || n < lowest || n > highest) {
        fprintf(stderr, "timer_loop: %s %s: not a number from %" PRIu64 " to %" PRIu64 "\n", name, text, lowest, highest);
        exit(2);
    }
    return n;
}

/* The list of GONE, in which one at least is not 0: the loop would never end otherwise. */
static void read_list(struct call *c, char **texts, size_t length)
{
    uint32_t any = 0;

    c->gones = length;
    c->gone = malloc(length * sizeof *c->gone);
    if (c->gone == NULL) {
        fail("memory", "not enough");
    }
    for (size_t i = 0; i < length; i++) {
        c->gone[i] = (uint32_t)number_of("GONE", texts[i], 0, UINT32_MAX);
        any |= c->gone[i];
    }
    if (any == 0) {
        fail("GONE", "all are 0, and the loop would never end");
    }
}

static struct call read_call(int argc, char **argv)
{
    struct call c = { argc > 1 && strcmp(argv[1], "-a") == 0, NULL, 0, 0, 0, NULL, 0 };
    char **arguments = argv + 1 + c.at_once;
    int many = argc - 1 - c.at_once;

    if (many < 5 || arguments[0][0] == '-') {
        fprintf(stderr, "usage: timer_loop [-a] IMAGE EVERY BEGIN UNTIL GONE...\n");
        exit(2);
    }
    c.file = arguments[0];
    c.every = (uint32_t)number_of("EVERY", arguments[1], 1, UINT32_MAX);
    c.begin = (uint32_t)number_of("BEGIN", arguments[2], 0, UINT32_MAX);
    c.until = number_of("UNTIL", arguments[3], 0, INT64_MAX);
    read_list(&c, arguments + 4, (size_t)many - 4);
    return c;
}

int main(int argc, char **argv)
{
    struct call c = read_call(argc, argv);

    the_loop.every = c.every;
    read_plan(&the_loop.plan, c.file);
    check(&the_loop.plan);
    load(&the_loop.plan);
    run(&the_loop, &c);
    free(c.gone);
    return 0;
}
