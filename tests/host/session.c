/* Plays both sides of a session of width WIDTH as a host program does, on the batches that the second implementation stored: after each
   call the answer, the record and every byte of every range must be what that implementation gives. Before each step it is called with
   faults, and must refuse and leave everything; a wrong check message must close the session, but not under a key that isn't usable. */
#include "../../include/softspoken.h"
#include <stdio.h>
#include <string.h>

enum { TREES = 128 / WIDTH, MOST_BLOCKS = 2, MOST_LENGTH = 8 * (MOST_BLOCKS + 1) };
enum step { START, CORRECT, ANSWER, VERIFY };

/* All that both sides hold, with room for one byte more in each range, so that a length too large can be lent. */
struct ranges {
    uint8_t roots[32 * TREES + 1], siblings[4097], delta[17];
    uint8_t choices[MOST_LENGTH + 1], v[128 * MOST_LENGTH + 1], correction[(TREES - 1) * MOST_LENGTH + 1], w[128 * MOST_LENGTH + 1];
    uint8_t message[1033], mine[2048 * MOST_BLOCKS + 1], both[4096 * MOST_BLOCKS + 1];
};

/* A call, beside the record: what is given, and the lengths of the step's ranges in the order of its parameters. */
struct call { enum step step; uint64_t number, key; uint32_t blocks; size_t n[4]; };

static const char *const names[] = {"receiver start", "sender correct", "receiver answer", "sender verify"};
static struct ranges lent;
static unsigned calls, wrong;

static void expect(int right, const char *step, const char *what) {
    if (right) return;
    printf("host: %s: %s\n", step, what);
    wrong++;
}

static struct call call_of(enum step step, uint64_t number, uint32_t blocks, uint64_t key) {
    const size_t len = 8 * (blocks + 1), table = 128 * len, correction = (TREES - 1) * len;
    const size_t n[4][4] = {{32 * TREES, len, table, correction},
                            {4096, 16, correction, table},
                            {len, table, 1032, 2048 * blocks},
                            {table, 16, 1032, 4096 * blocks}};
    struct call c = {step, number, key, blocks, {0}};
    memcpy(c.n, n[step], sizeof c.n);
    return c;
}

static uint32_t made(const struct call *c, struct softspoken_record *r) {
    struct ranges *a = &lent;
    const size_t *n = c->n;
    calls++;
    switch (c->step) {
    case START:
        return softspoken_receiver_start(r, a->roots, n[0], c->number, c->blocks, a->choices, n[1], a->v, n[2], a->correction, n[3]);
    case CORRECT:
        return softspoken_sender_correct(r, a->siblings, n[0], a->delta, n[1], c->number, c->blocks, a->correction, n[2], a->w, n[3]);
    case ANSWER:
        return softspoken_receiver_answer(r, c->key, a->choices, n[0], a->v, n[1], a->message, n[2], a->mine, n[3]);
    default:
        return softspoken_sender_verify(r, c->key, a->w, n[0], a->delta, n[1], a->message, n[2], a->both, n[3]);
    }
}

static struct softspoken_record record_of(uint32_t width, uint64_t last, uint32_t blocks, uint32_t stage) {
    struct softspoken_record r = {.width = width, .blocks = blocks, .last = last, .stage = stage};
    return r;
}

/* Field by field: the record's last bytes mean nothing. */
static int same(const struct softspoken_record *a, const struct softspoken_record *b) {
    return a->width == b->width && a->blocks == b->blocks && a->last == b->last && a->stage == b->stage;
}

/* Makes a call and holds the answer, the record and all ranges to what must stand there afterwards. */
static void compare(const struct call *c, struct softspoken_record *r, uint32_t answer, struct softspoken_record after,
                    const struct ranges *ranges) {
    expect(made(c, r) == answer, names[c->step], "another answer");
    expect(same(r, &after), names[c->step], "another record");
    expect(!memcmp(&lent, ranges, sizeof lent), names[c->step], "other bytes");
}

static void refused(struct call c, struct softspoken_record r, uint32_t answer) {
    const struct ranges before = lent;
    compare(&c, &r, answer, r, &before);
}

/* A step that ends a batch, with each key that isn't usable. */
static void refused_keys(struct call c, struct softspoken_record r) {
    for (c.key = 0; c.key < 2; c.key++) refused(c, r, SOFTSPOKEN_ERR_KEY);
}

/* Each length one short and one long; then a fault for each refusal, from the last to the first, with those before it left in. */
static void refusals(struct call c, struct softspoken_record r) {
    const int opens = c.step == START || c.step == CORRECT;
    for (int at = 0; at < 4; at++) {
        c.n[at]--;
        refused(c, r, SOFTSPOKEN_ERR_LENGTH);
        c.n[at] += 2;
        refused(c, r, SOFTSPOKEN_ERR_LENGTH);
        c.n[at]--;
    }
    if (!opens) refused_keys(c, r);
    c.n[3]--;
    if (!opens) {
        refused_keys(c, r);
        c.key = 1;
    }
    *(opens ? &c.blocks : &r.blocks) = 16;
    refused(c, r, SOFTSPOKEN_ERR_BLOCKS);
    *(opens ? &c.blocks : &r.blocks) = 0;
    refused(c, r, SOFTSPOKEN_ERR_BLOCKS);
    *(opens ? &c.number : &r.last) = 0;
    refused(c, r, SOFTSPOKEN_ERR_BATCH);
    if (opens) {
        c.number = r.last;
        refused(c, r, SOFTSPOKEN_ERR_BATCH);
        if (r.last > UINT32_MAX) {
            c.number = (uint64_t)(uint32_t)r.last + 1; /* by its lower half it is the next */
            refused(c, r, SOFTSPOKEN_ERR_BATCH);
        }
    }
    r.stage = opens ? SOFTSPOKEN_STAGE_OPEN : SOFTSPOKEN_STAGE_READY;
    refused(c, r, SOFTSPOKEN_ERR_STAGE);
    r.stage = SOFTSPOKEN_STAGE_CLOSED;
    refused(c, r, SOFTSPOKEN_ERR_STAGE);
    r.width = 3;
    refused(c, r, SOFTSPOKEN_ERR_WIDTH);
}

/* One wrong bit of the message closes the session, if the key is usable; every step is then refused, until it is opened anew. */
static void closes(const struct call *verify, struct softspoken_record r) {
    lent.message[8] ^= 1;
    const struct ranges before = lent;
    const struct softspoken_record closed = record_of(r.width, r.last, r.blocks, SOFTSPOKEN_STAGE_CLOSED);
    const struct softspoken_record new = record_of(WIDTH, 0, 0, SOFTSPOKEN_STAGE_READY);
    refused_keys(*verify, r);
    compare(verify, &r, SOFTSPOKEN_ERR_CHECK, closed, &before);
    for (enum step step = START; step <= VERIFY; step++) refused(call_of(step, 7, verify->blocks, verify->key), r, SOFTSPOKEN_ERR_STAGE);
    expect(softspoken_open(&r, WIDTH) == SOFTSPOKEN_DONE && same(&r, &new), "open", "a closed session isn't opened anew");
    lent.message[8] ^= 1;
}

static void take(FILE *f, void *p, size_t n) {
    expect(fread(p, 1, n, f) == n, "stored", "the file is too short");
}

static uint64_t take_number(FILE *f, size_t bytes) {
    uint8_t s[8] = {0};
    uint64_t number = 0;
    take(f, s, bytes);
    for (int i = 7; i >= 0; i--) number = number << 8 | s[i];
    return number;
}

/* Width in 4 bytes, last in 8, blocks and stage in 4 each. */
static struct softspoken_record take_record(FILE *f) {
    struct softspoken_record r;
    r.width = (uint32_t)take_number(f, 4);
    r.last = take_number(f, 8);
    r.blocks = (uint32_t)take_number(f, 4);
    r.stage = (uint32_t)take_number(f, 4);
    return r;
}

/* The ranges that a step writes are its last ones: as the file has them. */
static void take_written(FILE *f, const struct call *c, struct ranges *a) {
    const size_t *n = c->n;
    if (c->step == START) { take(f, a->choices, n[1]); take(f, a->v, n[2]); take(f, a->correction, n[3]); }
    if (c->step == CORRECT) take(f, a->w, n[3]);
    if (c->step == ANSWER) { take(f, a->message, n[2]); take(f, a->mine, n[3]); }
    if (c->step == VERIFY) take(f, a->both, n[3]);
}

/* Calls of a step with keys that aren't usable: of each the file has the key, the answer and the record. The ranges stay. */
static void weak_keys(FILE *f, struct call c, struct softspoken_record *r) {
    const struct ranges before = lent;
    for (int n = 0; n < 2; n++) {
        c.key = take_number(f, 8);
        const uint32_t answer = (uint32_t)take_number(f, 4);
        compare(&c, r, answer, take_record(f), &before);
    }
}

/* The two steps that open the batch, then the two that end it, in a weak batch after calls with keys that aren't usable; records are the
   receiver's and the sender's. */
static void batch(FILE *f, struct softspoken_record records[2], int weak) {
    static struct ranges after;
    const uint64_t number = take_number(f, 8), key = take_number(f, 8);
    uint32_t blocks = (uint32_t)take_number(f, 4);
    if (blocks > MOST_BLOCKS) blocks = MOST_BLOCKS;
    for (enum step step = START; step <= VERIFY; step++) {
        const struct call c = call_of(step, number, blocks, key);
        refusals(c, records[step % 2]);
        if (weak && step >= ANSWER) weak_keys(f, c, &records[step % 2]);
        if (step == VERIFY) closes(&c, records[1]);
        after = lent;
        const uint32_t answer = (uint32_t)take_number(f, 4);
        const struct softspoken_record record = take_record(f);
        take_written(f, &c, &after);
        compare(&c, &records[step % 2], answer, record, &after);
    }
}

/* Opens a session on a record that holds other numbers; other widths are refused and leave it. */
static void opens(struct softspoken_record *r) {
    const uint32_t not_allowed[] = {0, 3, 5, 16, UINT32_MAX};
    const struct softspoken_record any = record_of(3, UINT64_MAX - 5, 77, SOFTSPOKEN_STAGE_CLOSED);
    const struct softspoken_record new = record_of(WIDTH, 0, 0, SOFTSPOKEN_STAGE_READY);
    *r = any;
    for (int i = 0; i < 5; i++)
        expect(softspoken_open(r, not_allowed[i]) == SOFTSPOKEN_ERR_WIDTH && same(r, &any), "open",
               "a width is not refused");
    expect(softspoken_open(r, WIDTH) == SOFTSPOKEN_DONE && same(r, &new), "open", "another record");
}

int main(int argc, char **argv) {
    struct softspoken_record records[2];
    FILE *f = argc == 2 ? fopen(argv[1], "rb") : NULL;
    if (!f) return 2;
    memset(&lent, 0xa5, sizeof lent);
    take(f, lent.roots, 32 * TREES);
    take(f, lent.siblings, 4096);
    take(f, lent.delta, 16);
    opens(&records[0]);
    opens(&records[1]);
    /* the second has number 2^32 - 1, and the third the next; the fourth the highest, and none is above it */
    for (int n = 0; n < 4; n++) batch(f, records, 0);
    expect(records[0].last == UINT64_MAX && records[1].last == UINT64_MAX, "stored", "the last batch has another number");
    const uint64_t numbers[] = {0, 1, UINT32_MAX, (uint64_t)UINT32_MAX + 1, UINT64_MAX - 1, UINT64_MAX};
    for (int i = 0; i < 6; i++) {
        refused(call_of(START, numbers[i], 1, 0), records[0], SOFTSPOKEN_ERR_BATCH);
        refused(call_of(CORRECT, numbers[i], 1, 0), records[1], SOFTSPOKEN_ERR_BATCH);
    }
    opens(&records[0]);
    opens(&records[1]);
    batch(f, records, 1);
    expect(fgetc(f) == EOF, "stored", "the file is too long");
    fclose(f);
    printf("host: %u calls of the steps of a session of width %u, %u differences\n", calls, (unsigned)WIDTH, wrong);
    return wrong ? 1 : 0;
}
