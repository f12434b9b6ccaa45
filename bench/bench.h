/* The functions that crates/bench exports. A slice is a pointer and a length; an array is a pointer to that many elements. */
#ifndef BENCH_H
#define BENCH_H
#include <stddef.h>
#include <stdint.h>

void bench_chacha20_one(const uint8_t key[32], uint32_t counter, const uint8_t nonce[12], uint8_t out[64]);
/* word w of lane l at 4w + l, of the four keys and of the four blocks */
void bench_chacha20_four(const uint32_t keys[32], uint32_t counter, const uint8_t nonce[12], uint32_t out[64]);
void bench_sha256_one(const uint8_t *m, size_t len, uint8_t out[32]);
/* four messages of 32 bytes, and their digests in the same places */
void bench_sha256_four(const uint8_t m[128], uint8_t out[128]);
uint64_t bench_fold(uint64_t key, const uint8_t *s, size_t len);
void bench_fold_table(uint64_t key, uint32_t table[512]);
/* four columns of len bytes; out stays as it is where s_len is not 4 * len */
void bench_fold_four(const uint32_t table[512], const uint8_t *s, size_t s_len, size_t len, uint64_t out[4]);
/* the 64 rows of a block, from a table of columns of len bytes; rows stay as they are where a length does not fit */
void bench_block_rows(size_t len, const uint8_t *table, size_t table_len, uint32_t block, uint8_t *rows, size_t rows_len);

#endif
