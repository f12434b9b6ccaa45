/* A pair of firms, both sides in one process: the setup, three batches, and one whose check message is damaged on the
   way. A real host carries `sent`, batch number, blocks and key over its network, and runs base transfers where this
   one copies. */
#define _DEFAULT_SOURCE /* getentropy, explicit_bzero */
#include <softspoken.h>
#include <stdio.h>
#include <stdlib.h>
#include <string.h>
#include <unistd.h>

enum { WIDTH = 8, BLOCKS = 15 };
#define RANGE(array) (array), sizeof(array)
#define WIPE(array) explicit_bzero(RANGE(array))

static struct {
    struct softspoken_record record;
    uint8_t roots[SOFTSPOKEN_ROOTS_BYTES(WIDTH)], base_pads[SOFTSPOKEN_RECEIVER_BASE_PADS_BYTES];
    uint8_t choices[SOFTSPOKEN_CHOICES_BYTES(BLOCKS)], table[SOFTSPOKEN_TABLE_BYTES(BLOCKS)];
    uint8_t pads[SOFTSPOKEN_RECEIVER_PADS_BYTES(BLOCKS)];
} receiver;

static struct {
    struct softspoken_record record;
    uint8_t delta[SOFTSPOKEN_DELTA_BYTES], base_pads[SOFTSPOKEN_SENDER_BASE_PADS_BYTES];
    uint8_t siblings[SOFTSPOKEN_SIBLINGS_BYTES], table[SOFTSPOKEN_TABLE_BYTES(BLOCKS)];
    uint8_t pads[SOFTSPOKEN_SENDER_PADS_BYTES(BLOCKS)];
} sender;

static struct {
    uint8_t setup[SOFTSPOKEN_SETUP_MESSAGE_BYTES], correction[SOFTSPOKEN_CORRECTION_BYTES(WIDTH, BLOCKS)];
    uint8_t check[SOFTSPOKEN_CHECK_MESSAGE_BYTES];
} sent;

static void draw(void *range, size_t n) {
    for (size_t at = 0; at < n; at += 256) /* getentropy gives no more at once */
        if (getentropy((uint8_t *)range + at, n - at < 256 ? n - at : 256) != 0) abort();
}

/* Once the pads of a batch are used. */
static void wipe_batch(void) {
    WIPE(receiver.choices);
    WIPE(receiver.table);
    WIPE(receiver.pads);
    WIPE(sender.table);
    WIPE(sender.pads);
}

/* When the setup is given up. */
static void wipe_setup(void) {
    WIPE(receiver.roots);
    WIPE(sender.delta);
    WIPE(sender.siblings);
}

/* What a host does on each answer; whether the pair goes on with the batch. */
static int done(const char *step, uint32_t answer) {
    if (answer != SOFTSPOKEN_DONE) printf("%s: refused, %s\n", step, softspoken_answer_name(answer));
    switch (answer) {
    case SOFTSPOKEN_DONE: return 1;
    case SOFTSPOKEN_ERR_STAGE: return 0; /* out of turn, or a closed session: drop the message, nothing has changed */
    case SOFTSPOKEN_ERR_BATCH: return 0; /* this number was had: agree on a higher one */
    case SOFTSPOKEN_ERR_CHECK:           /* tell the receiver; neither side uses this batch or this setup any more */
        wipe_batch();
        wipe_setup();
        return 0;
    default: abort(); /* ERR_WIDTH, ERR_BLOCKS, ERR_KEY, ERR_LENGTH: a fault of this program */
    }
}

static int setup(void) {
    draw(RANGE(receiver.roots));
    draw(RANGE(receiver.base_pads));
    draw(RANGE(sender.delta));
    for (uint32_t t = 0; t < SOFTSPOKEN_BASE_TRANSFERS; t++) { /* the base transfers */
        unsigned choice = softspoken_base_choice(WIDTH, sender.delta, t);
        memcpy(sender.base_pads + 32 * t, receiver.base_pads + 64 * t + 32 * choice, 32);
    }
    if (!done("receiver setup", softspoken_receiver_setup(WIDTH, RANGE(receiver.roots), RANGE(receiver.base_pads),
                                                          RANGE(sent.setup))) ||
        !done("sender setup", softspoken_sender_setup(WIDTH, RANGE(sender.delta), RANGE(sender.base_pads),
                                                      RANGE(sent.setup), RANGE(sender.siblings))))
        return 0;
    WIPE(receiver.base_pads);
    WIPE(sender.base_pads);
    return done("receiver open", softspoken_open(&receiver.record, WIDTH)) &&
           done("sender open", softspoken_open(&sender.record, WIDTH));
}

/* Each side stores its record, and what the batch still needs, before it sends what a step wrote. So no batch is ever
   run twice. */
static int batch(uint64_t number, uint8_t damage) {
    uint64_t key;
    if (!done("start", softspoken_receiver_start(&receiver.record, RANGE(receiver.roots), number, BLOCKS,
                                                 RANGE(receiver.choices), RANGE(receiver.table),
                                                 RANGE(sent.correction))) ||
        !done("correct", softspoken_sender_correct(&sender.record, RANGE(sender.siblings), RANGE(sender.delta), number,
                                                   BLOCKS, RANGE(sent.correction), RANGE(sender.table))))
        return 0;
    do {
        draw(&key, sizeof key); /* the sender's, and only now that the correction has come */
    } while (key < 2);          /* 0 and 1 are no usable keys */
    if (!done("answer", softspoken_receiver_answer(&receiver.record, key, RANGE(receiver.choices),
                                                   RANGE(receiver.table), RANGE(sent.check), RANGE(receiver.pads))))
        return 0;
    sent.check[8] ^= damage; /* in column 0's fold: refused for every delta */
    return done("verify", softspoken_sender_verify(&sender.record, key, RANGE(sender.table), RANGE(sender.delta),
                                                   RANGE(sent.check), RANGE(sender.pads)));
}

int main(void) {
    int right = setup();
    for (uint64_t number = 1; number <= 3 && right; number++) {
        unsigned agree = 0;
        right = batch(number, 0);
        for (size_t j = 0; right && j < SOFTSPOKEN_TRANSFERS(BLOCKS); j++) {
            unsigned choice = softspoken_choice(receiver.choices, j);
            agree += memcmp(receiver.pads + 32 * j, sender.pads + 64 * j + 32 * choice, 32) == 0;
        }
        printf("batch %lu: %u pads of the receiver are the sender's of its choice\n", (unsigned long)number, agree);
        right = right && agree == SOFTSPOKEN_TRANSFERS(BLOCKS);
        wipe_batch();
    }
    right = right && !batch(4, 1) && sender.record.stage == SOFTSPOKEN_STAGE_CLOSED;
    right = right && !batch(5, 0); /* a receiver that goes on all the same is refused */
    return right ? EXIT_SUCCESS : EXIT_FAILURE;
}
