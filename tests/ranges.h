/* All that the two sides of a pair lend to the steps, with room for any width and number of blocks. */
#include "../include/softspoken.h"

enum { MOST = SOFTSPOKEN_BLOCKS_MAX };
#define RANGE(array) (array), sizeof(array)

static uint8_t roots[SOFTSPOKEN_ROOTS_BYTES(1)], delta[SOFTSPOKEN_DELTA_BYTES];
static uint8_t receiver_base_pads[SOFTSPOKEN_RECEIVER_BASE_PADS_BYTES], sender_base_pads[SOFTSPOKEN_SENDER_BASE_PADS_BYTES];
static uint8_t setup_message[SOFTSPOKEN_SETUP_MESSAGE_BYTES], siblings[SOFTSPOKEN_SIBLINGS_BYTES];
static uint8_t choices[SOFTSPOKEN_CHOICES_BYTES(MOST)], v[SOFTSPOKEN_TABLE_BYTES(MOST)], w[SOFTSPOKEN_TABLE_BYTES(MOST)];
static uint8_t correction[SOFTSPOKEN_CORRECTION_BYTES(1, MOST)], message[SOFTSPOKEN_CHECK_MESSAGE_BYTES];
static uint8_t receiver_pads[SOFTSPOKEN_RECEIVER_PADS_BYTES(MOST)], sender_pads[SOFTSPOKEN_SENDER_PADS_BYTES(MOST)];

/* All base pads are 0, so that the setup is honest, and the check message is accepted, for any delta. */
static void fill_inputs(void) {
    for (size_t i = 0; i < sizeof roots; i++) roots[i] = (uint8_t)(i * 167 + 13);
    for (size_t i = 0; i < sizeof delta; i++) delta[i] = (uint8_t)(i * 59 + 7);
}
