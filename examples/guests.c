/*
 * guests - two plans run side by side: does a guest notice that another one
 * has changed?
 *
 *     guests VCPU FIRST SECOND
 *
 * Stands for two load tools, one with the plan image in file FIRST, one with
 * that in SECOND, where the supplier of the guest in VCPU has changed its tasks.
 * Checks both images, builds all lanes of each, starts them, each plan in a
 * cycle of its own, and steps both through one cycle. At each tick it reads from
 * the states what each core's lane shows: VCPU switch and the rest of a window
 * (kinds 1 and 2) by the window's row, task switch and work (3 and 4) by the
 * piece's task and job, since pieces of one guest may stand in other rows
 * where another guest has more of them or fewer.
 *
 * Prints in how many ticks VCPU shows something else in the two plans, then
 * that no other VCPU shows anything else, with status 0; or which other one
 * notices first, at which tick and on which core, with what the plans show
 * there, and status 1.
 * Refused plans, and plans with other cycles or numbers of cores, are told
 * with status 1; a wrong call, or a file that cannot be read, has status 2.
 *
 * That no other VCPU shows anything else is proved for accepted plans that
 * differ in one VCPU's tasks and pieces alone. This program does not ask for
 * that: tools/plan compare does, and says which rows differ. Where windows
 * differ, their rows may do so too, and rows are what this program compares.
 *
 *     gcc -std=c99 -Iinclude -o guests examples/guests.c crates/reaperdecade/out/libreaperdecade.a
 */
#include <inttypes.h>
#include <stdio.h>
#include <stdlib.h>
#include <string.h>

#include "reaperdecade.h"

/* The tables of an image that are read here, and how many words a row has. */
enum { CORE, VCPU, TASK, WINDOW, PIECE, LINK };
enum { TASK_WORDS = 5, WINDOW_WORDS = 3, PIECE_WORDS = 4 };

/* Kinds that a core's lane shows. */
enum { IDLE, VCPU_SWITCH, REST_OF_WINDOW, TASK_SWITCH, WORK };

/* The VCPU of an idle core. */
#define NONE UINT32_MAX

/* The most lanes that a plan has: 32 cores and 64 links. */
#define LANES 96

/* A plan as a load tool holds it. One byte more than an image has lets the library see that a file is too long. */
struct plan {
    uint8_t image[RD_IMAGE_BYTES + 1];
    size_t length;
    uint8_t words[4 * RD_ALL_LANES_WORDS];
    uint8_t states[RD_STATE_BYTES * LANES];
    size_t lanes;
};

/* What a core shows: window and 0, or task and job. */
struct shown {
    uint32_t kind;
    uint32_t vcpu;
    uint32_t row;
    uint32_t job;
};

/* The first tick and core where another VCPU shows something else, which one, and what the core shows. */
struct notice {
    int found;
    uint32_t tick;
    uint32_t core;
    uint32_t vcpu;
    struct shown first;
    struct shown second;
};

static struct plan plans[2];

static uint32_t word_at(const uint8_t *bytes)
{
    return (uint32_t)bytes[0] | (uint32_t)bytes[1] << 8 | (uint32_t)bytes[2] << 16 | (uint32_t)bytes[3] << 24;
}

/* A word of the trailer of an accepted image, which the image's last word points to: cycle, precision, then offset and rows of each table. */
static uint32_t trailer(const struct plan *p, size_t word)
{
    return word_at(p->image + word_at(p->image + p->length - 4) + 4 * word);
}

static uint32_t cycle_of(const struct plan *p)
{
    return trailer(p, 0);
}

static uint32_t rows_of(const struct plan *p, size_t table)
{
    return trailer(p, 3 + 2 * table);
}

/* A word of a row. */
static uint32_t word_of(const struct plan *p, size_t table, size_t row_words, uint32_t row, size_t word)
{
    return word_at(p->image + trailer(p, 2 + 2 * table) + 4 * (row_words * row + word));
}

static int read_plan(struct plan *p, const char *file)
{
    FILE *from = fopen(file, "rb");
    int bad;

    if (from == NULL) {
        return 0;
    }
    p->length = fread(p->image, 1, sizeof p->image, from);
    bad = ferror(from);
    fclose(from);
    return !bad;
}

/* Asks the checker. Tells a refusal, and gives 0 there. */
static int accepted(const struct plan *p, const char *which)
{
    uint64_t answer = rd_check(p->image, p->length);
    uint8_t line[RD_LINE_BYTES];
    uint32_t length = rd_line(rd_answer_number(answer), rd_answer_table(answer), rd_answer_row(answer), line, sizeof line);

    if (answer != 0) {
        printf("%s plan refused: %.*s\n", which, (int)length, (const char *)line);
    }
    return answer == 0;
}

/* Builds all lanes of an accepted plan and starts them in a cycle. */
static int load(struct plan *p, uint64_t cycle)
{
    uint32_t first = 0;

    p->lanes = (size_t)rows_of(p, CORE) + rows_of(p, LINK);
    if (rd_build_all(p->image, p->length, p->words, sizeof p->words) != 0) {
        return 0;
    }
    for (size_t lane = 0; lane < p->lanes; lane++) {
        if (rd_start(cycle, first, p->states + RD_STATE_BYTES * lane, RD_STATE_BYTES) != 0) {
            return 0;
        }
        first += 2 + 3 * word_at(p->words + 4 * ((size_t)first + 1));
    }
    return 1;
}

static int step(struct plan *p)
{
    return rd_step_all(p->words, sizeof p->words, p->states, RD_STATE_BYTES * p->lanes) == 0;
}

/* What a core's state shows, by window, or by task and job. */
static struct shown shown_on(const struct plan *p, uint32_t core)
{
    const uint8_t *state = p->states + (size_t)RD_STATE_BYTES * core;
    uint32_t kind = word_at(state + 20);
    uint32_t row = word_at(state + 24);
    struct shown s = { kind, NONE, row, 0 };

    if (kind == VCPU_SWITCH || kind == REST_OF_WINDOW) {
        s.vcpu = word_of(p, WINDOW, WINDOW_WORDS, row, 0);
    } else if (kind != IDLE) {
        s.row = word_of(p, PIECE, PIECE_WORDS, row, 0);
        s.job = word_of(p, PIECE, PIECE_WORDS, row, 1);
        s.vcpu = word_of(p, TASK, TASK_WORDS, s.row, 0);
    }
    return s;
}

static int same(struct shown a, struct shown b)
{
    return a.kind == b.kind && a.vcpu == b.vcpu && a.row == b.row && a.job == b.job;
}

/* The other VCPU that shows one of the two, or NONE. */
static uint32_t another(struct shown a, struct shown b, uint32_t vcpu)
{
    return a.vcpu != vcpu && a.vcpu != NONE ? a.vcpu : b.vcpu != vcpu ? b.vcpu : NONE;
}

/* Compares what all cores show at a tick. Gives 1 where the VCPU shows something else, and keeps the first notice of another one. */
static int compare(uint32_t tick, uint32_t vcpu, struct notice *kept)
{
    int own = 0;

    for (uint32_t core = 0; core < rows_of(&plans[0], CORE); core++) {
        struct notice n = { 1, tick, core, NONE, shown_on(&plans[0], core), shown_on(&plans[1], core) };

        if (same(n.first, n.second)) {
            continue;
        }
        own |= n.first.vcpu == vcpu || n.second.vcpu == vcpu;
        n.vcpu = another(n.first, n.second, vcpu);
        if (n.vcpu != NONE && !kept->found) {
            *kept = n;
        }
    }
    return own;
}

static void print_shown(struct shown s)
{
    static const char *const names[] = { "idle", "VCPU switch", "rest of window", "task switch", "work" };

    printf("%s", names[s.kind]);
    if (s.kind == VCPU_SWITCH || s.kind == REST_OF_WINDOW) {
        printf(", window %" PRIu32 " of VCPU %" PRIu32, s.row, s.vcpu);
    } else if (s.kind != IDLE) {
        printf(", task %" PRIu32 " job %" PRIu32 " of VCPU %" PRIu32, s.row, s.job, s.vcpu);
    }
}

static void print_notice(const struct notice *n)
{
    printf("VCPU %" PRIu32 " notices at tick %" PRIu32 " on core %" PRIu32 ": ", n->vcpu, n->tick, n->core);
    print_shown(n->first);
    printf("; in the second plan: ");
    print_shown(n->second);
    printf("\n");
}

/* Steps both plans through a cycle and tells what was seen. Gives the status. */
static int run(uint32_t vcpu)
{
    struct notice kept = { 0, 0, 0, NONE, { 0, 0, 0, 0 }, { 0, 0, 0, 0 } };
    uint32_t cycle = cycle_of(&plans[0]);
    uint32_t own = 0;

    for (uint32_t tick = 0; tick < cycle; tick++) {
        if (!step(&plans[0]) || !step(&plans[1])) {
            fprintf(stderr, "guests: a step was refused\n");
            return 2;
        }
        own += compare(tick, vcpu, &kept);
    }
    printf("VCPU %" PRIu32 " shows something else in %" PRIu32 " of %" PRIu32 " ticks\n", vcpu, own, cycle);
    if (kept.found) {
        print_notice(&kept);
        return 1;
    }
    printf("VCPU %" PRIu32 " %s; no other VCPU shows anything else in %" PRIu32 " ticks\n", vcpu,
           own == 0 ? "shows the same" : "changed", cycle);
    return 0;
}

/* Tells where two numbers differ, and gives 1 there. */
static int differ(const char *what, uint32_t first, uint32_t second)
{
    if (first != second) {
        printf("%s: %" PRIu32 ", in the second plan %" PRIu32 "\n", what, first, second);
    }
    return first != second;
}

/* A VCPU's number, or NONE where the text is none. */
static uint32_t number_of(const char *text)
{
    char *end;
    unsigned long n = strtoul(text, &end, 10);

    return text[0] < '0' || text[0] > '9' || *end != '\0' || n > UINT32_MAX ? NONE : (uint32_t)n;
}

int main(int argc, char **argv)
{
    uint32_t vcpu = argc == 4 ? number_of(argv[1]) : NONE;

    if (vcpu == NONE) {
        fprintf(stderr, "usage: guests VCPU FIRST SECOND\n");
        return 2;
    }
    for (int i = 0; i < 2; i++) {
        if (!read_plan(&plans[i], argv[2 + i])) {
            fprintf(stderr, "guests: %s: cannot be read\n", argv[2 + i]);
            return 2;
        }
    }
    if (!accepted(&plans[0], "first") || !accepted(&plans[1], "second")) {
        return 1;
    }
    if (differ("cores", rows_of(&plans[0], CORE), rows_of(&plans[1], CORE)) || differ("cycle", cycle_of(&plans[0]), cycle_of(&plans[1]))) {
        return 1;
    }
    if (vcpu >= rows_of(&plans[0], VCPU) && vcpu >= rows_of(&plans[1], VCPU)) {
        fprintf(stderr, "guests: no plan has a VCPU %" PRIu32 "\n", vcpu);
        return 2;
    }
    if (!load(&plans[0], 0) || !load(&plans[1], UINT64_MAX - 1)) {
        fprintf(stderr, "guests: an accepted plan was not built or started\n");
        return 2;
    }
    return run(vcpu);
}
