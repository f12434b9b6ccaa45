/* Calls two archives of the library in one process: that of the commit before a change, to whose names bench/beside adds before_, and
   that of the change. Every output byte, answer and record must be the same; both are timed in turn, the least of many passes. Writes a
   line for each function, width and number of blocks. Ends with 1 where something differs, or a call takes longer than LIMIT times what
   it took before, plus SLACK. Each archive is called as its own header declares (side.c). */
#include "../include/softspoken.h"
#include "measure.h"
#include "side.h"
#include <stdio.h>
#include <string.h>

#define LIMIT 1.03
/* Nanoseconds, a few cycles: the same instructions at another address can cost a call that much, which is a third of an open. */
#define SLACK 1.0
/* Nanoseconds of a pass: thousands of the clock's steps, and so short that on a shared machine many passes are not interrupted. */
#define PASS 2e5
/* Rounds of four passes in a measurement; how often a row that seems above the limit is measured again. */
enum { ROUNDS = 500, AGAIN = 3 };

static const struct side *const archives[2] = {&before_side, &after_side};

/* What both sides of a pair lend, with room for any width and number of blocks; last is the record's before a batch, and first the first
   number that a batch is given. No padding, so that two can be compared as bytes. */
enum { MOST = SOFTSPOKEN_BLOCKS_MAX };
struct pair {
    struct numbers record;
    uint64_t key, last, first;
    uint32_t answer, width;
    uint64_t blocks;
    uint8_t roots[SOFTSPOKEN_ROOTS_BYTES(1)], delta[SOFTSPOKEN_DELTA_BYTES];
    uint8_t receiver_base_pads[SOFTSPOKEN_RECEIVER_BASE_PADS_BYTES], sender_base_pads[SOFTSPOKEN_SENDER_BASE_PADS_BYTES];
    uint8_t setup_message[SOFTSPOKEN_SETUP_MESSAGE_BYTES], siblings[SOFTSPOKEN_SIBLINGS_BYTES];
    uint8_t choices[SOFTSPOKEN_CHOICES_BYTES(MOST)], v[SOFTSPOKEN_TABLE_BYTES(MOST)], w[SOFTSPOKEN_TABLE_BYTES(MOST)];
    uint8_t correction[SOFTSPOKEN_CORRECTION_BYTES(1, MOST)], message[SOFTSPOKEN_CHECK_MESSAGE_BYTES];
    uint8_t receiver_pads[SOFTSPOKEN_RECEIVER_PADS_BYTES(MOST)], sender_pads[SOFTSPOKEN_SENDER_PADS_BYTES(MOST)];
};
#define RANGE(array) (array), sizeof(array)

/* What a call takes and writes. Both archives write to the same place, so that no place is better for one of them. */
static const struct side *lib;
static const struct pair *in;
static struct pair out;
static uint64_t batch;

/* Each calls a function once; a step gets its record as it stands before that step. */

static uint32_t receiver_setup(void) {
    return lib->receiver_setup(in->width, in->roots, SOFTSPOKEN_ROOTS_BYTES(in->width), RANGE(in->receiver_base_pads),
                               RANGE(out.setup_message));
}

static uint32_t sender_setup(void) {
    return lib->sender_setup(in->width, RANGE(in->delta), RANGE(in->sender_base_pads), RANGE(in->setup_message), RANGE(out.siblings));
}

static uint32_t open_session(void) {
    out.record = (struct numbers){0, batch, in->blocks, SOFTSPOKEN_STAGE_CLOSED};
    return lib->open(&out.record, in->width);
}

static uint32_t receiver_start(void) {
    out.record = (struct numbers){in->width, in->last, 0, SOFTSPOKEN_STAGE_READY};
    return lib->receiver_start(&out.record, in->roots, SOFTSPOKEN_ROOTS_BYTES(in->width), batch, in->blocks, out.choices,
                               SOFTSPOKEN_CHOICES_BYTES(in->blocks), out.v, SOFTSPOKEN_TABLE_BYTES(in->blocks), out.correction,
                               SOFTSPOKEN_CORRECTION_BYTES(in->width, in->blocks));
}

static uint32_t sender_correct(void) {
    out.record = (struct numbers){in->width, in->last, 0, SOFTSPOKEN_STAGE_READY};
    return lib->sender_correct(&out.record, RANGE(in->siblings), RANGE(in->delta), batch, in->blocks, in->correction,
                               SOFTSPOKEN_CORRECTION_BYTES(in->width, in->blocks), out.w, SOFTSPOKEN_TABLE_BYTES(in->blocks));
}

static uint32_t receiver_answer(void) {
    out.record = (struct numbers){in->width, batch, in->blocks, SOFTSPOKEN_STAGE_OPEN};
    return lib->receiver_answer(&out.record, in->key, in->choices, SOFTSPOKEN_CHOICES_BYTES(in->blocks), in->v,
                                SOFTSPOKEN_TABLE_BYTES(in->blocks), RANGE(out.message), out.receiver_pads,
                                SOFTSPOKEN_RECEIVER_PADS_BYTES(in->blocks));
}

static uint32_t sender_verify(void) {
    out.record = (struct numbers){in->width, batch, in->blocks, SOFTSPOKEN_STAGE_OPEN};
    return lib->sender_verify(&out.record, in->key, in->w, SOFTSPOKEN_TABLE_BYTES(in->blocks), RANGE(in->delta), RANGE(in->message),
                              out.sender_pads, SOFTSPOKEN_SENDER_PADS_BYTES(in->blocks));
}

/* In the order of a session. Only those of a batch depend on the number of blocks. */
enum { CALLS = 7 };
static const struct { const char *name; uint32_t (*call)(void); int of_batch; } calls[CALLS] = {
    {"receiver setup", receiver_setup, 0},
    {"sender setup", sender_setup, 0},
    {"open", open_session, 0},
    {"receiver start", receiver_start, 1},
    {"sender correct", sender_correct, 1},
    {"receiver answer", receiver_answer, 1},
    {"sender verify", sender_verify, 1},
};
static int chosen; /* the call that work makes */

static void work(unsigned i) {
    batch = in->first + i;
    out.answer = calls[chosen].call();
}

/* An honest pair up to the end of a batch, whose check message the sender accepts, by the old archive. */
static void prepare(struct pair *p, uint32_t width, uint32_t blocks) {
    fill(p, sizeof *p);
    p->width = width;
    p->blocks = blocks;
    p->last = random64() >> 33; /* so that many batches can follow, in 32 bits too */
    p->first = p->last + 1;
    for (uint32_t t = 0; t < SOFTSPOKEN_BASE_TRANSFERS; t++) {
        unsigned choice = softspoken_base_choice(width, p->delta, t);
        memcpy(p->sender_base_pads + 32 * t, p->receiver_base_pads + 64 * t + 32 * choice, 32);
    }
    lib = archives[0];
    in = p;
    for (chosen = 0; chosen < CALLS; chosen++) {
        out = *p;
        work(0);
        expect(out.answer == SOFTSPOKEN_DONE, "the old archive, answer to an honest pair");
        *p = out;
    }
}

/* Outputs start alike, so that a byte that only one archive writes is seen too. */
static struct pair blank, kept;

static void begin(int archive) {
    lib = archives[archive];
    out = blank;
}

/* Keeps what the first of several calls wrote, and compares the others with it. */
static void end(int nth) {
    char what[80];
    if (nth == 0) { kept = out; return; }
    snprintf(what, sizeof what, "old and new archive, %s, width %u, blocks %u", calls[chosen].name, (unsigned)in->width,
             (unsigned)in->blocks);
    expect(!memcmp(&out, &kept, sizeof out), what);
}

static void compare_calls(void) {
    for (chosen = 0; chosen < CALLS; chosen++)
        for (int archive = 0; archive < 2; archive++) {
            begin(archive);
            work(0);
            end(archive);
        }
}

/* Every width and number of blocks; then with a bit of the check message flipped, and with numbers that are refused. */
static void compare(void) {
    static struct pair p;
    fill(&blank, sizeof blank);
    for (int n = 0; n < 60; n++) {
        prepare(&p, 1u << n % 4, 1 + n / 4);
        compare_calls();
        p.message[random64() % sizeof p.message] ^= 1 << n % 8;
        compare_calls();
        p.first = p.last;
        compare_calls();
        p.last = p.first = 0;
        compare_calls();
        p.first = 1;
        p.blocks = 0;
        compare_calls();
        p.width = 3;
        compare_calls();
    }
}

/* Above is 1 until a measurement finds the row within the limit. */
static struct row { int call, above; const struct pair *in; struct timed t[2]; } rows[CALLS * 8];
static int rows_count;

static void list_rows(void) {
    static struct pair pairs[8];
    for (int n = 0; n < 8; n++) prepare(&pairs[n], 1u << n / 2, n % 2 ? 1 : MOST);
    for (int call = 0; call < CALLS; call++)
        for (int n = 0; n < 8; n++)
            if (calls[call].of_batch || n % 2) rows[rows_count++] = (struct row){call, 1, &pairs[n], {{0, 0}, {0, 0}}};
}

static void choose(const struct row *r) {
    chosen = r->call;
    in = r->in;
}

/* Both archives get the same turns, so that the outputs of their last turns can be compared. The first guess may have met a slow while. */
static void find_turns(struct row *r) {
    struct timed guess = {0, 0};
    choose(r);
    begin(0);
    for (int pass = 0; pass < 5; pass++) time_pass(&guess, work);
    r->t[0] = r->t[1] = (struct timed){1 + (unsigned)(PASS / guess.best), 1e18};
}

/* First, second, second, first: a machine that gets slower or faster meanwhile meets both alike. */
static void time_round(struct row *r, int first) {
    choose(r);
    for (int n = 0; n < 4; n++) {
        int archive = n == 1 || n == 2 ? !first : first;
        begin(archive);
        time_pass(&r->t[archive], work);
        end(n);
    }
}

/* Times the rows that are above the limit, or not timed yet; what was measured of them is forgotten. A round goes over all of them, so
   that a slow while of the machine meets all alike. How many are above the limit then. */
static int measure(void) {
    int above = 0;
    for (struct row *r = rows; r < rows + rows_count; r++)
        if (r->above) find_turns(r);
    for (int round = 0; round < ROUNDS; round++)
        for (struct row *r = rows; r < rows + rows_count; r++)
            if (r->above) time_round(r, round % 2);
    for (struct row *r = rows; r < rows + rows_count; r++) {
        r->above = r->t[1].best > LIMIT * r->t[0].best + SLACK;
        above += r->above;
    }
    return above;
}

static void print_row(const struct row *r) {
    char blocks[12] = "";
    if (calls[r->call].of_batch) snprintf(blocks, sizeof blocks, "%u", (unsigned)r->in->blocks);
    printf("%-16s %5u %6s %12.1f %12.1f %8.3f%s\n", calls[r->call].name, (unsigned)r->in->width, blocks, r->t[0].best, r->t[1].best,
           r->t[1].best / r->t[0].best, r->above ? "  slower" : "");
}

int main(void) {
    compare();
    list_rows();
    int above = measure();
    for (int again = 0; again < AGAIN && above; again++) above = measure();
    printf("%-16s %5s %6s %12s %12s %8s\n", "", "width", "blocks", "old, ns", "new, ns", "new/old");
    for (const struct row *r = rows; r < rows + rows_count; r++) print_row(r);
    printf("outputs, answers and records are the same; %d of %d calls are slower, by the limit of %.2f\n", above, rows_count, LIMIT);
    return above != 0;
}
