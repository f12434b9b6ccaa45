/* Compiled twice by bench/beside, with the header of each archive and SIDE as the name of what it gives. */
#include "side.h"
#include <softspoken.h>

static struct softspoken_record laid(const struct numbers *n) {
    struct softspoken_record r = {0};
    r.width = (uint32_t)n->width;
    r.last = n->last; /* which fits: bench/beside.c gives no archive more than it takes */
    r.blocks = (uint32_t)n->blocks;
    r.stage = (uint32_t)n->stage;
    return r;
}

static uint32_t kept(struct numbers *n, const struct softspoken_record *r, uint32_t answer) {
    *n = (struct numbers){r->width, r->last, r->blocks, r->stage};
    return answer;
}

static uint32_t open_session(struct numbers *record, uint32_t width) {
    struct softspoken_record r = laid(record);
    return kept(record, &r, softspoken_open(&r, width));
}

static uint32_t receiver_start(struct numbers *record, const uint8_t *roots, size_t roots_len, uint64_t batch, uint32_t blocks,
                               uint8_t *choices, size_t choices_len, uint8_t *table, size_t table_len, uint8_t *correction,
                               size_t correction_len) {
    struct softspoken_record r = laid(record);
    return kept(record, &r, softspoken_receiver_start(&r, roots, roots_len, batch, blocks, choices, choices_len, table, table_len,
                                                      correction, correction_len));
}

static uint32_t sender_correct(struct numbers *record, const uint8_t *siblings, size_t siblings_len, const uint8_t *delta,
                               size_t delta_len, uint64_t batch, uint32_t blocks, const uint8_t *correction, size_t correction_len,
                               uint8_t *table, size_t table_len) {
    struct softspoken_record r = laid(record);
    return kept(record, &r, softspoken_sender_correct(&r, siblings, siblings_len, delta, delta_len, batch, blocks, correction,
                                                      correction_len, table, table_len));
}

static uint32_t receiver_answer(struct numbers *record, uint64_t key, const uint8_t *choices, size_t choices_len, const uint8_t *table,
                                size_t table_len, uint8_t *message, size_t message_len, uint8_t *pads, size_t pads_len) {
    struct softspoken_record r = laid(record);
    return kept(record, &r, softspoken_receiver_answer(&r, key, choices, choices_len, table, table_len, message, message_len, pads,
                                                       pads_len));
}

static uint32_t sender_verify(struct numbers *record, uint64_t key, const uint8_t *table, size_t table_len, const uint8_t *delta,
                              size_t delta_len, const uint8_t *message, size_t message_len, uint8_t *pads, size_t pads_len) {
    struct softspoken_record r = laid(record);
    return kept(record, &r, softspoken_sender_verify(&r, key, table, table_len, delta, delta_len, message, message_len, pads,
                                                     pads_len));
}

const struct side SIDE = {
    softspoken_receiver_setup, softspoken_sender_setup, open_session,  receiver_start,
    sender_correct,            receiver_answer,         sender_verify,
};
