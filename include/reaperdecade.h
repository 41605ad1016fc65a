/*
 * reaperdecade.h - check tunnel plans, say the answer in words, build their
 * dispatch tables, step them; change between plans at a cycle's end; the tick
 * timer that drives the steps; tell when frames arrive; list the gates of links
 * for switches; join two plans to one; edit their pieces in drafts.
 *
 * The functions of libreaperdecade.a, for C99 and later and for C++. Each of
 * them is proved to meet its contract: its result and every byte that it
 * leaves are what the definitions of the plan paper give, for any bytes.
 *
 * Buffers. A buffer is a pointer to its first byte, which is not null, and its
 * length in bytes, which may be 0. Any alignment will do. (Drafts alone are lent
 * as rows of uint32_t, aligned as such and counted in words.) While a call runs,
 * nobody else may write its buffers, nobody else may read those that it
 * writes, and a buffer that it writes may not overlap another one. Nothing is
 * kept between calls and no memory is allocated, so calls on buffers that are
 * apart from each other may run at the same time.
 *
 * Words. A word is four bytes, the lowest first, at every length and on every
 * machine. A part of a word at the end of a buffer of words does not count,
 * and is never written.
 *
 * Refusals. Input of any length and any content is taken. A call that refuses
 * it says why by its number and changes no byte. (rd_line gives no number but a
 * length, and 0 where it writes nothing; rd_timer_interrupt gives 0 or 1, and 0
 * where the block has not 16 bytes. rd_join alone asks its last
 * questions of what it has written, so that their refusal leaves the joined
 * image in the buffer; and it writes *length at every call.)
 */
#ifndef REAPERDECADE_H
#define REAPERDECADE_H

#include <stddef.h>
#include <stdint.h>

#ifdef __cplusplus
extern "C" {
#endif

/*
 * An answer is number + 2^16 * table + 2^32 * row. 0 is 0 0 0, accepted. Any
 * other number is the first question of the plan paper that is answered no,
 * with the table and the row that it names, or 0 and 0 where it names none.
 */
static inline uint32_t rd_answer_number(uint64_t answer)
{
    return (uint32_t)(answer & 0xffffu);
}

static inline uint32_t rd_answer_table(uint64_t answer)
{
    return (uint32_t)((answer >> 16) & 0xffffu);
}

static inline uint32_t rd_answer_row(uint64_t answer)
{
    return (uint32_t)(answer >> 32);
}

/*
 * Checks a plan image: asks the check's questions, which README.md lists in
 * the order asked.
 *
 * image      image_len bytes, which are only read.
 *
 * Gives the answer: 0 where every question is answered yes.
 */
uint64_t rd_check(const uint8_t *image, size_t image_len);

/*
 * Says an answer in words, for a screen: what its number says, then the number
 * and the place in brackets, for instance
 *
 *     two pieces on one core overlap (answer 12, piece 7)
 *     the image's length is out of bounds (answer 1, table 0, row 0)
 *     accepted, every question is answered yes (answer 0, table 0, row 0)
 *
 * number, table, row   any. A table without a name, 0 among them, stands as
 *                      its number.
 * line                 line_len bytes.
 *
 * Gives the line's length, 1 to 95, and writes the line without a newline and
 * without a zero; later bytes are left as they were. Gives 0, which is no
 * success here, and writes nothing where line_len is less than the line's
 * length.
 * All bytes of a line are printable ASCII, 32 to 126. Different answers have
 * different lines, and no line of another number than 0 begins with
 * `accepted`. Programs go by the numbers: words may change with a version.
 *
 * With an answer:
 *
 *     uint8_t line[RD_LINE_BYTES];
 *     uint32_t length = rd_line(rd_answer_number(answer), rd_answer_table(answer),
 *                               rd_answer_row(answer), line, sizeof line);
 *
 *     printf("%.*s\n", (int)length, (const char *)line);
 *
 * With a refusal's number alone, as of rd_step, table and row are 0.
 */
uint32_t rd_line(uint32_t number, uint32_t table, uint32_t row, uint8_t *line, size_t line_len);

/* So many bytes hold every line and a newline, or a zero, after it. */
#define RD_LINE_BYTES 96

/*
 * Builds the dispatch table of one lane of a plan: the check's questions again,
 * then 25 (is there such a lane?) and 26 (do the words suffice?).
 *
 * image      image_len bytes, which are only read.
 * lane       core lanes come first, by row of the core table, then links.
 * words      words_len bytes, of which words_len / 4 words count.
 *
 * Gives 0 and writes the table from the first word on: the cycle H, the number
 * n of entries, and n entries of three words, first tick, kind and row. That
 * is 2 + 3 * n words; later words are left as they were.
 * Gives another answer and writes nothing where a question is answered no: 25
 * past the last lane, 26 where there are fewer than 2 + 3 * n words.
 *
 * Kinds: 0 idle (row 0), 1 VCPU switch, 2 the rest of a window outside pieces
 * (the row is a window), 3 task switch, 4 work (a piece), 5 sending (a frame).
 */
uint64_t rd_build(const uint8_t *image, size_t image_len, uint32_t lane, uint8_t *words, size_t words_len);

/*
 * Builds the dispatch tables of all lanes, one after another, lanes rising:
 * the check's questions once, then 26 of all tables together. For a load tool
 * that wants every table: rd_build checks again for each lane.
 *
 * image      image_len bytes, which are only read.
 * words      words_len bytes, of which words_len / 4 words count.
 *
 * Gives 0 and writes the tables from the first word on, each as rd_build
 * writes it; later bytes are left as they were. Lane 0's table begins at word
 * 0. Where a lane's table begins at word f, its n is word f + 1, and the next
 * lane's begins at word f + 2 + 3 * n: these are the first words for rd_start.
 * There is a table for each row of the core table, then for each link.
 * Gives another answer and writes nothing where a question is answered no: 26
 * where there are fewer words than all tables take.
 */
uint64_t rd_build_all(const uint8_t *image, size_t image_len, uint8_t *words, size_t words_len);

/*
 * So many words suffice for every accepted plan: for the table of one lane, and
 * for the tables of all lanes together, built by rd_build_all or by rd_build
 * one after another. No build of a lane that there is gives 26 then.
 */
#define RD_LANE_WORDS 27653
#define RD_ALL_LANES_WORDS 31200

/*
 * A lane's state is 28 bytes, the lowest byte of each number first:
 *
 *     byte   0   8 bytes   cycle
 *            8   4         tick
 *           12   4         entry of the lane's table
 *           16   4         first word of the lane's table, counted in words
 *           20   4         kind last shown
 *           24   4         row last shown
 */
#define RD_STATE_BYTES 28

/*
 * Starts a lane: tick 0, entry 0, kind 0 and row 0 of a cycle.
 *
 * cycle      any.
 * first      the index of the word at which the lane's table begins; any.
 * state      state_len bytes.
 *
 * Gives 0 and writes the state. Gives 27 and writes nothing where state_len is
 * not 28.
 */
uint32_t rd_start(uint64_t cycle, uint32_t first, uint8_t *state, size_t state_len);

/*
 * Steps one lane by one tick. The state's kind and row are then those of the
 * tick that it leaves, and its cycle, tick and entry those of the next one.
 * After tick H - 1 come tick 0 and entry 0 of the next cycle.
 *
 * words      words_len bytes: the tables of all lanes, as built. They are only
 *            read, and of them only the table's head, the state's entry and
 *            the first tick of the next one.
 * state      state_len bytes.
 *
 * Gives 0 and writes the state. Gives a refusal's number and writes nothing:
 * 27 where the state does not fit its words or state_len is not 28, 28 at the
 * last tick of cycle 2^64 - 1, where the calendar ends.
 */
uint32_t rd_step(const uint8_t *words, size_t words_len, uint8_t *state, size_t state_len);

/*
 * Steps all lanes by one tick, or none of them.
 *
 * words      as for rd_step.
 * states     states_len bytes: a row of states, 28 bytes each. A shorter last
 *            one is a state that does not fit (27).
 *
 * Gives 0, also for no states, and writes every state. Gives the number of the
 * lowest state that is refused, 27 or 28, and writes nothing.
 */
uint32_t rd_step_all(const uint8_t *words, size_t words_len, uint8_t *states, size_t states_len);

/*
 * Modes. A shift holds up to eight accepted plans at places 0 to 7, runs one of
 * them, and changes to another at a cycle's end. What is kept lies in three
 * buffers of the caller's: the modes block, whose layout is the library's own;
 * one row of words with the tables of all plans that are held; and one row of
 * states with a record for each lane. The caller hands each call what the last
 * one left, and nobody else writes them.
 *
 * A block of another length than RD_MODES_BYTES gives 27, asked before all
 * else. A block of any other bytes is safe to lend, and no byte that is not lent
 * is touched; what is said below holds from rd_modes_fresh on.
 */
#define RD_MODES_BYTES 172

/*
 * Makes a block fresh: no place holds a plan, no word is taken, nothing runs.
 *
 * Gives 0, or 27 (above) and writes nothing.
 */
uint32_t rd_modes_fresh(uint8_t *modes, size_t modes_len);

/*
 * Holds a plan at a place: builds the tables of all its lanes, as rd_build_all
 * does, behind those of the plans that were held so far.
 *
 * image      image_len bytes, which are only read.
 * place      0 to 7. A plan that the place held before is no longer held; its
 *            words stay taken.
 * words      words_len bytes, of which words_len / 4 words count, and of them at
 *            most 2^32 - 1; 4 * RD_ALL_LANES_WORDS bytes for each call that gives
 *            0 suffice for any plans.
 *
 * Gives 0, writes the tables and nothing else of the words, and ends the run: a
 * step gives 27, and a request 43 or 44, until a start.
 * Gives another answer and writes nothing where a question is answered no: the
 * image's own answer where it is not accepted; 43 where there is no such place;
 * 26 where the words that are left do not suffice.
 */
uint64_t rd_modes_hold(const uint8_t *image, size_t image_len, uint32_t place, uint8_t *words, size_t words_len,
                       uint8_t *modes, size_t modes_len);

/*
 * Starts the plan of a place on all its lanes, at tick 0 of a cycle. A request
 * that was not yet taken is dropped.
 *
 * place      one that holds a plan.
 * cycle      any.
 * words      words_len bytes, as they were lent when the plan was held; they are
 *            only read.
 * states     states_len bytes: 28 for each lane of the plan.
 *
 * Gives 0 and writes all states. Gives a refusal's number and writes nothing: 43
 * where the place holds no plan; 27 where states_len is not 28 for each of its
 * lanes, or the words end before its tables do.
 */
uint32_t rd_modes_start(uint32_t place, uint64_t cycle, const uint8_t *words, size_t words_len, uint8_t *states,
                        size_t states_len, uint8_t *modes, size_t modes_len);

/*
 * Requests the plan of a place: it is taken by the next step that gives 0 and
 * shows a tick 0, on all lanes at once; a refused step leaves it standing. Where
 * tick 0 is next, as right after a start, that is the next step; else at most
 * H - 1 steps come between. After tick 0 of cycle 2^64 - 1 no such step comes: a
 * request still gives 0, and is never taken. A later request replaces an earlier
 * one that was not yet taken, also where it names the plan that runs.
 *
 * Gives 0, or a refusal's number, which leaves an earlier request standing: 43
 * where the place holds no plan; 44 where no plan runs, or the plan has not the
 * running one's H, number of cores and number of links.
 */
uint32_t rd_modes_request(uint32_t place, uint8_t *modes, size_t modes_len);

/*
 * Steps all lanes of the running plan by one tick, or none of them; where tick 0
 * is next and a plan is requested, that plan's tables are shown from this tick
 * on.
 *
 * words      words_len bytes, which are only read.
 * states     states_len bytes: the row that the last start or step left.
 *
 * Gives 0 and writes all states; kind and row are those of the plan that this tick
 * shows. A request is taken exactly where the states' tick was 0 before a step
 * that gives 0; from then on each state's first word is that of its table of the
 * plan requested.
 * Gives a refusal's number and writes nothing, and a request stands as it did: 27
 * where nothing runs, states_len is not 28 for each lane of the running plan, or
 * a state does not fit its words; 28 at the last tick of cycle 2^64 - 1.
 */
uint32_t rd_modes_step(const uint8_t *words, size_t words_len, uint8_t *states, size_t states_len, uint8_t *modes,
                       size_t modes_len);

/*
 * The tick timer. The board's timer, which drives the steps, has a 32-bit
 * counter, which wraps, and four registers of one word each. A block is their
 * 16 bytes:
 *
 *     byte   0   4 bytes   count: the counter's value at the last reading; read only
 *            4   4         compare
 *            8   4         status: bit 0 is the match, other bits read 0
 *           12   4         enable: bit 0 lets the match interrupt, other bits read 0
 *
 * The counter itself is the caller's to ask; a reading brings its value in.
 * Nothing else does: a register read shows the count of the last reading. Ticks
 * are the counter's here; how many of them make a tick of the plan is the
 * board's affair.
 *
 * On a reading the ticks gone by are the new count less the old one, modulo
 * 2^32. The match is set exactly if compare less the old count, modulo 2^32, is
 * from 1 to that number; else it stays. So where fewer than 2^32 ticks pass
 * between two readings, and compare is not written between them, the match is
 * set exactly if the counter has come to compare since the earlier one: none is
 * missed and none is made up. Once set it stays, until 1 is written to bit 0 of
 * status or the block is made fresh. One that was cleared stays so until the
 * counter comes to compare again. Clearing takes away what readings have shown,
 * and no more: where the counter has come to compare since the last reading, the
 * next one sets the match.
 * A compare that is written takes the place of the old one for all ticks since
 * the last reading. One that equals the count is come to 2^32 ticks later, and
 * one that lies behind it by n ticks 2^32 - n later. So a loop that is as late as
 * the distance by which it sets compare on, or later, leaves compare at or
 * behind the count, and waits so long for its next match. The loop of
 * examples/timer_loop.c brings the counter in no further than compare at a time,
 * and steps once for each match: that loses no tick, however late it is, while
 * fewer than 2^32 pass before it comes round.
 *
 * Any bytes of a block are taken; of status and enable only bit 0 counts. A
 * start, a reading or a write that gives 0 leaves the other bits of both 0.
 * A block of another length than 16 bytes has no register: 38, and no interrupt.
 */
#define RD_TIMER_BYTES 16
#define RD_TIMER_COUNT 0
#define RD_TIMER_COMPARE 4
#define RD_TIMER_STATUS 8
#define RD_TIMER_ENABLE 12

/*
 * Makes a block fresh: 0 everywhere. What it held before does not matter. The
 * first reading counts from 0: make one, where the counter stands, before you
 * set compare.
 *
 * Gives 0, or 38 where block_len is not 16, and then writes nothing.
 */
uint32_t rd_timer_start(uint8_t *block, size_t block_len);

/*
 * A reading: brings in the counter's value, any, which count then shows, and
 * sets the match, or leaves it, as said above.
 *
 * Gives 0, or 38 where block_len is not 16, and then writes nothing.
 */
uint32_t rd_timer_reading(uint8_t *block, size_t block_len, uint32_t count);

/*
 * Reads the register at an address, 0, 4, 8 or 12; any other is refused (38).
 *
 * Gives number + 2^32 * value; the value is 0 where the number is not.
 */
uint64_t rd_timer_read(const uint8_t *block, size_t block_len, uint32_t address);

static inline uint32_t rd_timer_number(uint64_t read)
{
    return (uint32_t)(read & 0xffffffffu);
}

static inline uint32_t rd_timer_value(uint64_t read)
{
    return (uint32_t)(read >> 32);
}

/*
 * Writes a register: 38 (is the address 0, 4, 8 or 12?), then 39 (is it not
 * that of count?). At compare any value is taken. At status 1 in bit 0 clears
 * the match and 0 leaves it; at enable bit 0 is taken. Other bits do nothing.
 *
 * Gives 0, or the number of the question answered no, and then writes nothing.
 */
uint32_t rd_timer_write(uint8_t *block, size_t block_len, uint32_t address, uint32_t value);

/*
 * Gives 1 while the interrupt is raised, that is while match and enable are
 * both 1, else 0; 0 too where block_len is not 16.
 */
uint32_t rd_timer_interrupt(const uint8_t *block, size_t block_len);

/*
 * When a frame arrives, as read on the clock of the node that sends it, the
 * from node of its link: the check's questions again, then 5 (is there such a
 * frame?) and 26 (are there two words?).
 *
 * image      image_len bytes, which are only read.
 * frame      the row in the frame table.
 * ticks      ticks_len bytes, of which ticks_len / 4 words count; 8 suffice.
 *
 * Gives 0 and writes two words, the earliest tick and the latest, counted from
 * the cycle's start: the frame's end plus its link's lowest delay, and its end
 * plus its link's delay. Later bytes are left as they were. The latest is no
 * sooner than the earliest, and the latest plus P lies in the same cycle.
 * In every run of the plan the frame arrives at one of these ticks or between
 * them, whatever delay within its link's bounds the crossing takes.
 * Gives another answer and writes nothing where a question is answered no: the
 * image's own answer where it is not accepted; 5, table 8 and the row asked for
 * where there is no such frame; 26 where there are fewer than two words.
 */
uint64_t rd_arrivals(const uint8_t *image, size_t image_len, uint32_t frame, uint8_t *ticks, size_t ticks_len);

/*
 * The gate list of a link, as a switch with IEEE 802.1Qbv gates takes it: which
 * queues are open from tick 0 of the cycle on. The check's questions again, then
 * 25 (is there such a link?) and 42 (do the words suffice?).
 *
 * image      image_len bytes, which are only read.
 * link       the row in the link table; not its lane.
 * words      words_len bytes, of which words_len / 4 words count;
 *            4 * RD_GATE_WORDS bytes suffice for any link of any plan.
 *
 * Gives 0 and writes m, how many gates there are, then for each an octet and an
 * interval in ticks: 1 + 2 * m words. Later bytes are left as they were. Bit q of
 * the octet (bit 0 lowest) is 1 exactly in the ticks in which the link's dispatch
 * table shows the sending (kind 5) of a frame of a stream in queue q; all other
 * bits are 0, and between frames the octet is 0. Intervals are at least 1 and sum
 * to H, and neighbouring octets differ.
 * Gives another answer and writes nothing where a question is answered no: the
 * image's own answer where it is not accepted; 25 where there is no such link; 42
 * where there are fewer words.
 */
uint64_t rd_gates(const uint8_t *image, size_t image_len, uint32_t link, uint8_t *words, size_t words_len);

/* Words that suffice for any gate list: two gates for each of 512 frames, and one. */
#define RD_GATE_WORDS 2051

/*
 * Joins two plans to one, so that a machine can change between two modes without
 * changing its tables: the first plan whole, with what the second adds to it.
 * Asks the check's questions of the first, then of the second; then 35 (do H,
 * P, cores, VCPUs, windows and links agree, row by row and word by word?), 36
 * (have both plans at least `shared` tasks, and are the first so many equal,
 * word by word?) and 37 (has no table too many rows, and do the lent bytes
 * suffice?); then the check's questions of the joined image.
 *
 * first      first_len bytes, which are only read.
 * second     second_len bytes, which are only read; may be the first's own.
 * shared     how many leading rows of the task table both plans share; any. 0
 *            where they share none.
 * joined     joined_len bytes, which overlap neither input; RD_IMAGE_BYTES
 *            always suffice.
 * length     a uint32_t, not null, aligned as such and apart from all of these.
 *            It is written at every call.
 *
 * Gives the first answer that is not 0, or 0 where every question is answered
 * yes.
 * Where both inputs are accepted and 35 to 37 are answered yes, writes the
 * joined image from the first byte on, and its length to *length; later bytes
 * are left as they were. This is so whatever the answer: a refusal is then one
 * of the joined image, its row is one there, and rd_check of the *length bytes
 * gives that answer again.
 * Else *length is 0 and no byte of joined is written. 35 to 37 have table and
 * row 0; another refusal is the first's own where rd_check refuses the first,
 * else the second's. So *length tells whether there is a joined image, and the
 * answer whether it is accepted.
 *
 * The joined plan. Task t of the second keeps its number where t is below
 * shared; the others come after the first's tasks, in their order. Pieces,
 * streams, buffers and chains of the second get these task numbers, and frames
 * the numbers of their streams in the joined plan. Such a row that then equals
 * one of the first is that row, the lowest such; the others are appended, in
 * their order. Then pieces and frames are put in the order of question 32, so
 * rows of the first may have other numbers there.
 * In an accepted result every task of either plan works in the same ticks as in
 * its own plan, and nothing else works.
 *
 * The worst pair of plans that we know takes 10 million instructions, three
 * checks among them. A call takes 52 kB of the stack.
 */
uint64_t rd_join(const uint8_t *first, size_t first_len, const uint8_t *second, size_t second_len, uint32_t shared, uint8_t *joined,
                 size_t joined_len, uint32_t *length);

/* No image that passes question 1 is longer. */
#define RD_IMAGE_BYTES 65116

/*
 * Drafts. A draft is a row of words made from an image, in which pieces are
 * added, removed and moved, and in which the piece total of each job and each
 * core's total of piece ticks are kept: the sums of lengths, switch ticks
 * among them, true after every edit. The image need not be accepted; it has to
 * pass 1 to 10 and 32 alone. So pieces may lie outside windows, overlap, or be
 * too few or too many.
 *
 * words      a pointer to the first of n words, aligned as a uint32_t is, and
 *            n, counted in words. The first RD_DRAFT_WORDS are the draft; later
 *            words are never written, and say nothing. With fewer, making
 *            gives 34 and every other call 33.
 *
 * The words are in the machine's own byte order and their layout is the
 * library's own, so a draft never leaves the machine: do not store one for
 * another machine or another version of the library. It may be copied, and
 * lent with more words or fewer at each call. Equal pieces do not mean equal
 * words: places that are free hold what was there before.
 *
 * Any words are taken. Each call but rd_draft_make asks first whether they are
 * a draft with true totals (33); words that somebody else has changed are
 * refused by that, unless they are a draft with true totals again.
 *
 * A piece is named by its place, 0 to 2,047: on making its row in the image,
 * on adding one that the caller chooses. Pieces that are added or moved meet
 * 5 (there is such a task) and 10 (the job is below H / T, the length is more
 * than the task switch, and the piece lies between the job's release and due
 * tick) by themselves; nothing else is asked of them. No call turns a draft
 * into an image again.
 *
 * A refusal changes no word. Every call goes over all places a few times: some
 * 0.1 to 0.4 million instructions, and 25 kB of the stack.
 */
#define RD_DRAFT_WORDS 32768
#define RD_DRAFT_PLACES 2048

/*
 * Makes a draft of an image: 1 to 5, 32 and 6 to 10, then 34 (are there
 * RD_DRAFT_WORDS words?). What the words held before does not matter.
 *
 * Gives 0, or the number of the question answered no.
 */
uint32_t rd_draft_make(const uint8_t *image, size_t image_len, uint32_t *words, size_t n);

/*
 * Adds a piece at a place: 33, then 5 and 10 of the piece, then 34 (is the
 * place below 2,048 and free?). Start and length are in ticks, and the length
 * includes the task switch.
 *
 * Gives 0, or the number of the question answered no.
 */
uint32_t rd_draft_add(uint32_t *words, size_t n, uint32_t place, uint32_t task, uint32_t job, uint32_t start, uint32_t length);

/*
 * Removes the piece at a place: 33, which asks too whether there is one. The
 * place can then be used again.
 *
 * Gives 0 or 33.
 */
uint32_t rd_draft_remove(uint32_t *words, size_t n, uint32_t place);

/*
 * Moves the piece at a place to another start: 33 as for removing, then 10 of
 * the piece with that start.
 *
 * Gives 0, 33 or 10.
 */
uint32_t rd_draft_move(uint32_t *words, size_t n, uint32_t place, uint32_t start);

/*
 * The piece total of a job: 33, then 5 (is there such a task?), then 10 (is
 * the job below H / T?). A job without a piece has total 0.
 *
 * Gives number + 2^32 * total; the total is 0 where the number is not.
 */
uint64_t rd_draft_job(const uint32_t *words, size_t n, uint32_t task, uint32_t job);

/*
 * A core's total of piece ticks: 33, then 5 (is there such a core?).
 *
 * Gives number + 2^32 * total; the total is 0 where the number is not.
 */
uint64_t rd_draft_core(const uint32_t *words, size_t n, uint32_t core);

static inline uint32_t rd_draft_number(uint64_t reading)
{
    return (uint32_t)(reading & 0xffffffffu);
}

static inline uint32_t rd_draft_total(uint64_t reading)
{
    return (uint32_t)(reading >> 32);
}

/*
 * Reads the piece at a place, as last made, added or moved: 33 as for
 * removing, then 34 (are there four words to write?).
 *
 * piece      m words, aligned as a uint32_t is, apart from the draft's.
 *
 * Gives 0 and writes task, job, start and length to the first four words of
 * piece, or the number of the question answered no and writes nothing.
 */
uint32_t rd_draft_place(const uint32_t *words, size_t n, uint32_t place, uint32_t *piece, size_t m);

#ifdef __cplusplus
}
#endif

#endif
