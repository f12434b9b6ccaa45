#include "steps.h"
#include "../include/softspoken.h"
#include "fast.h"
#include "measure.h"
#include "plain.h"
#include <stdio.h>
#include <string.h>

/* The inputs of all kinds: a width and a number of blocks, the sender's table of batch 1, and a message that it accepts. */
static struct inputs {
    uint32_t width, blocks;
    uint64_t key;
    uint8_t roots[4096], siblings[4096], delta[16], received[16256], choices[128], v[16384], w[16384], sent[1032];
} inputs[8], *in;

static void put_le64(uint8_t *p, uint64_t x) { for (int j = 0; j < 8; j++) p[j] = x >> 8 * j; }

static void prepare(uint32_t width, uint32_t blocks) {
    size_t len = 8 * (blocks + 1);
    fill(in, sizeof *in);
    in->width = width;
    in->blocks = blocks;
    plain_sender_correct(width, in->siblings, in->delta, 1, blocks, in->received, in->w);
    uint64_t choice = random64();
    put_le64(in->sent, choice);
    for (int c = 0; c < 128; c++)
        put_le64(in->sent + 8 + 8 * c, plain_fold(in->key, in->w + c * len, len) ^ (in->delta[c / 8] >> c % 8 & 1 ? choice : 0));
}

/* The proved steps with the parameters of plain.h, each on a record as it stands before that step. */

static void proved_receiver_start(unsigned width, const uint8_t *roots, uint64_t batch, unsigned blocks, uint8_t *choices,
                                  uint8_t *table, uint8_t *correction) {
    struct softspoken_record r = {.width = width, .stage = SOFTSPOKEN_STAGE_READY};
    uint32_t answer = softspoken_receiver_start(&r, roots, SOFTSPOKEN_ROOTS_BYTES(width), batch, blocks, choices,
                                                SOFTSPOKEN_CHOICES_BYTES(blocks), table, SOFTSPOKEN_TABLE_BYTES(blocks), correction,
                                                SOFTSPOKEN_CORRECTION_BYTES(width, blocks));
    expect(answer == SOFTSPOKEN_DONE, "receiver start, answer");
}

static void proved_sender_correct(unsigned width, const uint8_t *siblings, const uint8_t delta[16], uint64_t batch, unsigned blocks,
                                  const uint8_t *correction, uint8_t *table) {
    struct softspoken_record r = {.width = width, .stage = SOFTSPOKEN_STAGE_READY};
    uint32_t answer = softspoken_sender_correct(&r, siblings, SOFTSPOKEN_SIBLINGS_BYTES, delta, SOFTSPOKEN_DELTA_BYTES, batch, blocks,
                                                correction, SOFTSPOKEN_CORRECTION_BYTES(width, blocks), table,
                                                SOFTSPOKEN_TABLE_BYTES(blocks));
    expect(answer == SOFTSPOKEN_DONE, "sender correction, answer");
}

static void proved_receiver_answer(uint64_t batch, unsigned blocks, uint64_t key, const uint8_t *choices, const uint8_t *table,
                                   uint8_t message[1032], uint8_t *pads) {
    struct softspoken_record r = {.width = in->width, .blocks = blocks, .last = batch, .stage = SOFTSPOKEN_STAGE_OPEN};
    uint32_t answer = softspoken_receiver_answer(&r, key, choices, SOFTSPOKEN_CHOICES_BYTES(blocks), table,
                                                 SOFTSPOKEN_TABLE_BYTES(blocks), message, SOFTSPOKEN_CHECK_MESSAGE_BYTES, pads,
                                                 SOFTSPOKEN_RECEIVER_PADS_BYTES(blocks));
    expect(answer == SOFTSPOKEN_DONE, "receiver answer, answer");
}

static int proved_sender_verify(uint64_t batch, unsigned blocks, uint64_t key, const uint8_t *table, const uint8_t delta[16],
                                const uint8_t message[1032], uint8_t *pads) {
    struct softspoken_record r = {.width = in->width, .blocks = blocks, .last = batch, .stage = SOFTSPOKEN_STAGE_OPEN};
    uint32_t answer = softspoken_sender_verify(&r, key, table, SOFTSPOKEN_TABLE_BYTES(blocks), delta, SOFTSPOKEN_DELTA_BYTES, message,
                                               SOFTSPOKEN_CHECK_MESSAGE_BYTES, pads, SOFTSPOKEN_SENDER_PADS_BYTES(blocks));
    expect(answer == SOFTSPOKEN_DONE || answer == SOFTSPOKEN_ERR_CHECK, "sender verify, answer");
    return answer == SOFTSPOKEN_DONE;
}

enum { PLAIN, FAST, PROVED, KINDS };

static const struct kind {
    void (*start)(unsigned, const uint8_t *, uint64_t, unsigned, uint8_t *, uint8_t *, uint8_t *);
    void (*correct)(unsigned, const uint8_t *, const uint8_t *, uint64_t, unsigned, const uint8_t *, uint8_t *);
    void (*answer)(uint64_t, unsigned, uint64_t, const uint8_t *, const uint8_t *, uint8_t *, uint8_t *);
    int (*verify)(uint64_t, unsigned, uint64_t, const uint8_t *, const uint8_t *, const uint8_t *, uint8_t *);
} kinds[KINDS] = {
    [PLAIN] = {plain_receiver_start, plain_sender_correct, plain_receiver_answer, plain_sender_verify},
    [FAST] = {fast_receiver_start, fast_sender_correct, fast_receiver_answer, fast_sender_verify},
    [PROVED] = {proved_receiver_start, proved_sender_correct, proved_receiver_answer, proved_sender_verify},
};

static struct outputs {
    uint8_t choices[128], v[16384], correction[16256], w[16384], message[1032], mine[30720], both[61440];
    int accepted;
} outputs[KINDS];

enum { START, CORRECT, ANSWER, VERIFY, RECEIVER_BATCH, SENDER_BATCH, STEPS };

static const struct { const char *what, *name; double goal; } steps[STEPS] = {
    [START] = {"step", "receiver start", 0.5},
    [CORRECT] = {"step", "sender correction", 0.5},
    [ANSWER] = {"step", "receiver answer", 0.35},
    [VERIFY] = {"step", "sender verify", 0.35},
    [RECEIVER_BATCH] = {"batch", "receiver", 0.5},
    [SENDER_BATCH] = {"batch", "sender", 0.5},
};

static int kind, step; /* what work does */

/* A whole batch has number 1, whose table the sent message fits; else both halves of the number depend on i. */
static void work(unsigned i) {
    const struct kind *f = &kinds[kind];
    struct outputs *o = &outputs[kind];
    int whole = step == RECEIVER_BATCH || step == SENDER_BATCH;
    uint64_t batch = whole ? 1 : (i + 1) * 0x100000001;
    if (step == START || step == RECEIVER_BATCH) f->start(in->width, in->roots, batch, in->blocks, o->choices, o->v, o->correction);
    if (step == CORRECT || step == SENDER_BATCH) f->correct(in->width, in->siblings, in->delta, batch, in->blocks, in->received, o->w);
    if (step == ANSWER || step == RECEIVER_BATCH)
        f->answer(batch, in->blocks, in->key, whole ? o->choices : in->choices, whole ? o->v : in->v, o->message, o->mine);
    if (step == VERIFY || step == SENDER_BATCH)
        o->accepted = f->verify(batch, in->blocks, in->key, whole ? o->w : in->w, in->delta, in->sent, o->both);
}

/* The outputs start alike, so that a byte that only one kind writes is seen too. */
static void compare_step(unsigned i, int accepted) {
    static struct outputs before;
    fill(&before, sizeof before);
    before.accepted = accepted;
    for (kind = 0; kind < KINDS; kind++) {
        outputs[kind] = before;
        work(i);
        expect(outputs[kind].accepted == accepted && !memcmp(&outputs[kind], &outputs[PLAIN], sizeof before), steps[step].name);
    }
}

/* Every width and every number of blocks; the verify also with a bit of the message flipped. */
void compare_steps(void) {
    in = inputs;
    for (int n = 0; n < 60; n++) {
        prepare(1u << n % 4, 1 + n / 4);
        unsigned i = n == 59 ? UINT32_MAX - 1 : (unsigned)random64() % UINT32_MAX;
        for (step = 0; step < STEPS; step++) compare_step(i, 1);
        in->sent[8 + random64() % 1024] ^= 1 << n % 8;
        step = VERIFY;
        compare_step(i, 0);
    }
}

/* A pass goes over all rows, so that a slow while of the machine meets all alike. */
void time_steps(void) {
    static struct timed t[STEPS][8][KINDS];
    for (int n = 0; n < 8; n++) {
        in = &inputs[n];
        prepare(1u << n / 2, n % 2 ? 1 : 15);
    }
    for (int pass = 0; pass < PASSES; pass++)
        for (step = 0; step < STEPS; step++)
            for (int n = 0; n < 8; n++)
                for (in = &inputs[n], kind = 0; kind < KINDS; kind++) time_pass(&t[step][n][kind], work);
    for (step = 0; step < STEPS; step++)
        for (int n = 0; n < 8; n++) {
            const struct timed *row = t[step][n];
            printf("%s\t%s\t%u\t%u\t%.3f\t%.3f\t%.3f\t%.2f\n", steps[step].what, steps[step].name, (unsigned)inputs[n].width,
                   (unsigned)inputs[n].blocks, row[PLAIN].best / 1e3, row[FAST].best / 1e3, row[PROVED].best / 1e3, steps[step].goal);
        }
}
