/* Plain C counterparts of the proved functions, from RFC 8439, FIPS 180-4, the field's definition and papers 01 and 02. */
#include "../include/softspoken.h"
#include <stddef.h>
#include <stdint.h>

void plain_chacha20_block(const uint8_t key[32], uint32_t counter, const uint8_t nonce[12], uint8_t out[64]);
void plain_sha256(const uint8_t *m, size_t len, uint8_t out[32]);
uint64_t plain_fold(uint64_t key, const uint8_t *s, size_t len);
/* Both setups for a width that is allowed, on ranges of the lengths that include/softspoken.h names. */
void plain_receiver_setup(unsigned width, const uint8_t *roots, const uint8_t base_pads[8192], uint8_t message[8192]);
void plain_sender_setup(unsigned width, const uint8_t delta[16], const uint8_t base_pads[4096], const uint8_t message[8192],
                        uint8_t siblings[4096]);
/* A batch's steps for a width and blocks that are allowed, on ranges of the lengths that paper 01 names. */
void plain_receiver_start(unsigned width, const uint8_t *roots, uint64_t batch, unsigned blocks, uint8_t *choices, uint8_t *table,
                          uint8_t *correction);
void plain_sender_correct(unsigned width, const uint8_t *siblings, const uint8_t delta[16], uint64_t batch, unsigned blocks,
                          const uint8_t *correction, uint8_t *table);
void plain_receiver_answer(uint64_t batch, unsigned blocks, uint64_t key, const uint8_t *choices, const uint8_t *table,
                           uint8_t message[1032], uint8_t *pads);
/* Whether the check message is accepted; where it isn't, the pads stay. */
int plain_sender_verify(uint64_t batch, unsigned blocks, uint64_t key, const uint8_t *table, const uint8_t delta[16],
                        const uint8_t message[1032], uint8_t *pads);
/* All rows of a table but those of the spent block, 16 bytes each: bit by bit, and by 8 x 8 bits at once. */
void plain_rows(unsigned blocks, const uint8_t *table, uint8_t *rows);
void block8_rows(unsigned blocks, const uint8_t *table, uint8_t *rows);
/* Any file: the answer, the head's values and the places, as include/softspoken.h names them. */
struct softspoken_file plain_file_read(const uint8_t *file, size_t len);
/* Any numbers, lengths and ranges, as softspoken_file_write takes them: each body byte by byte, and by memcpy. */
typedef uint32_t write_file(uint32_t width, uint32_t blocks, uint64_t batch, const uint8_t *setup, size_t setup_len,
                            const uint8_t *correction, size_t correction_len, const uint8_t *key, size_t key_len, const uint8_t *check,
                            size_t check_len, uint8_t *file, size_t file_len);
write_file plain_file_write, memcpy_file_write;
