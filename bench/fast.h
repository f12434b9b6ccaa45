/* The steps of a batch, as fast as C goes on a given x86-64: the parameters and the outputs of plain.h. */
#ifndef FAST_H
#define FAST_H
#include <stddef.h>
#include <stdint.h>

void fast_receiver_start(unsigned width, const uint8_t *roots, uint64_t batch, unsigned blocks, uint8_t *choices, uint8_t *table,
                         uint8_t *correction);
void fast_sender_correct(unsigned width, const uint8_t *siblings, const uint8_t delta[16], uint64_t batch, unsigned blocks,
                         const uint8_t *correction, uint8_t *table);
void fast_receiver_answer(uint64_t batch, unsigned blocks, uint64_t key, const uint8_t *choices, const uint8_t *table,
                          uint8_t message[1032], uint8_t *pads);
/* Whether the check message is accepted; where it isn't, the pads stay. */
int fast_sender_verify(uint64_t batch, unsigned blocks, uint64_t key, const uint8_t *table, const uint8_t delta[16],
                       const uint8_t message[1032], uint8_t *pads);

#endif
