/* The steps of a batch for one CPU, as the limit of what the construction allows: vectors as wide as the target has, and its carry-less
   product. AVX2 and PCLMUL are needed; AVX-512, VPCLMULQDQ, VBMI and GFNI are used where the target has them. No branch and no address
   depends on a secret, but for the branch on the verify's answer. */
#include "fast.h"
#include "sha256.h"
#include <immintrin.h>
#include <string.h>

#if !defined(__AVX2__) || !defined(__PCLMUL__)
#error "AVX2 and PCLMUL are needed: -march=native on a CPU that has them"
#endif

#define INLINE static inline __attribute__((always_inline))

/* A lane is a tree in the walks and a row in the hashes. 128 / k trees fill whole vectors at every width. */
#if defined(__AVX512BW__)
enum { LANES = 16 };
typedef __m512i wide;
#define WIDE(name) _mm512_##name
#define PAIRS(high, low) _mm512_set4_epi64(high, low, high, low)
#else
enum { LANES = 8 };
typedef __m256i wide;
#define WIDE(name) _mm256_##name
#define PAIRS(high, low) _mm256_set_epi64x(high, low, high, low)
#endif
typedef uint32_t lanes __attribute__((vector_size(4 * LANES), may_alias));

INLINE lanes broadcast(uint32_t x) { return x - (lanes){0}; }

INLINE lanes lane_numbers(void) {
    lanes x;
    for (unsigned l = 0; l < LANES; l++) x[l] = l;
    return x;
}

/* The bytes of each eight in the order given. */
INLINE lanes shuffle_bytes(lanes x, long long order) {
    return (lanes)WIDE(shuffle_epi8)((wide)x, PAIRS(order + 0x0808080808080808, order));
}

/* AVX-512 has a rotation; in AVX2 a shuffle of bytes is one for 8 and 16 bits. */
INLINE lanes rotl(lanes x, int k) {
#if !defined(__AVX512BW__)
    if (k == 8) return shuffle_bytes(x, 0x0605040702010003);
    if (k == 16) return shuffle_bytes(x, 0x0504070601000302);
#endif
    return x << k | x >> (32 - k);
}
INLINE lanes rotr(lanes x, int k) { return rotl(x, 32 - k); }
INLINE lanes swap_bytes(lanes x) { return shuffle_bytes(x, 0x0405060700010203); }

/* Between lanes and rows of eight words, one row a lane. */

/* In each 128-bit part, word j of vector i goes to word i of vector j. */
INLINE void transpose(lanes x[4]) {
    wide a = WIDE(unpacklo_epi32)((wide)x[0], (wide)x[1]), b = WIDE(unpackhi_epi32)((wide)x[0], (wide)x[1]);
    wide c = WIDE(unpacklo_epi32)((wide)x[2], (wide)x[3]), d = WIDE(unpackhi_epi32)((wide)x[2], (wide)x[3]);
    x[0] = (lanes)WIDE(unpacklo_epi64)(a, c), x[1] = (lanes)WIDE(unpackhi_epi64)(a, c);
    x[2] = (lanes)WIDE(unpacklo_epi64)(b, d), x[3] = (lanes)WIDE(unpackhi_epi64)(b, d);
}

/* Once the parts are transposed, part p of vectors i and i + 4 are the halves of row 4p + i. */
INLINE void to_rows(lanes x[8], __m256i r[LANES]) {
    transpose(x);
    transpose(x + 4);
    for (int i = 0; i < 4; i++) {
        wide a = (wide)x[i], b = (wide)x[i + 4];
#if defined(__AVX512BW__)
        wide low = _mm512_permutex2var_epi64(a, _mm512_set_epi64(11, 10, 3, 2, 9, 8, 1, 0), b);
        wide high = _mm512_permutex2var_epi64(a, _mm512_set_epi64(15, 14, 7, 6, 13, 12, 5, 4), b);
        r[i] = _mm512_castsi512_si256(low), r[i + 4] = _mm512_extracti64x4_epi64(low, 1);
        r[i + 8] = _mm512_castsi512_si256(high), r[i + 12] = _mm512_extracti64x4_epi64(high, 1);
#else
        r[i] = _mm256_permute2x128_si256(a, b, 0x20), r[i + 4] = _mm256_permute2x128_si256(a, b, 0x31);
#endif
    }
}

INLINE void from_rows(const __m256i r[LANES], lanes x[8]) {
    for (int i = 0; i < 4; i++) {
#if defined(__AVX512BW__)
        wide low = _mm512_inserti64x4(_mm512_castsi256_si512(r[i]), r[i + 4], 1);
        wide high = _mm512_inserti64x4(_mm512_castsi256_si512(r[i + 8]), r[i + 12], 1);
        x[i] = (lanes)_mm512_shuffle_i64x2(low, high, 0x88), x[i + 4] = (lanes)_mm512_shuffle_i64x2(low, high, 0xdd);
#else
        x[i] = (lanes)_mm256_permute2x128_si256(r[i], r[i + 4], 0x20), x[i + 4] = (lanes)_mm256_permute2x128_si256(r[i], r[i + 4], 0x31);
#endif
    }
    transpose(x);
    transpose(x + 4);
}

/* A mask of the first n of eight words. */
INLINE __m256i first_words(unsigned n) {
    return _mm256_cmpgt_epi32(_mm256_set1_epi32((int)n), _mm256_set_epi32(7, 6, 5, 4, 3, 2, 1, 0));
}

/* Between lanes and rows of any number of words, stride bytes apart. */
static void load_lanes(const uint8_t *from, size_t stride, unsigned words, lanes *to) {
    for (unsigned w = 0; w < words; w += 8) {
        __m256i r[LANES], mask = first_words(words - w);
        for (int l = 0; l < LANES; l++) r[l] = _mm256_maskload_epi32((const int *)(from + l * stride + 4 * w), mask);
        from_rows(r, to + w);
    }
}

static void store_lanes(const lanes *from, unsigned words, uint8_t *to, size_t stride) {
    for (unsigned w = 0; w < words; w += 8) {
        __m256i r[LANES], mask = first_words(words - w);
        lanes x[8];
        for (int i = 0; i < 8; i++) x[i] = from[w + i];
        to_rows(x, r);
        for (int l = 0; l < LANES; l++) _mm256_maskstore_epi32((int *)(to + l * stride + 4 * w), mask, r[l]);
    }
}

/* ChaCha20, a key in every lane. A node's block is its two children in lanes, so nothing is transposed below the roots. */

INLINE void quarter(lanes *s, int a, int b, int c, int d) {
    s[a] += s[b]; s[d] = rotl(s[d] ^ s[a], 16);
    s[c] += s[d]; s[b] = rotl(s[b] ^ s[c], 12);
    s[a] += s[b]; s[d] = rotl(s[d] ^ s[a], 8);
    s[c] += s[d]; s[b] = rotl(s[b] ^ s[c], 7);
}

static void block(const lanes key[8], uint32_t counter, uint32_t use, uint64_t batch, lanes *restrict out) {
    const uint32_t constant[4] = {0x61707865, 0x3320646e, 0x79622d32, 0x6b206574}, last[4] = {counter, use, (uint32_t)batch, batch >> 32};
    lanes s[16];
    for (int i = 0; i < 4; i++) s[i] = broadcast(constant[i]), s[12 + i] = broadcast(last[i]);
    for (int i = 0; i < 8; i++) s[4 + i] = key[i];
    for (int i = 0; i < 10; i++) {
        quarter(s, 0, 4, 8, 12);
        quarter(s, 1, 5, 9, 13);
        quarter(s, 2, 6, 10, 14);
        quarter(s, 3, 7, 11, 15);
        quarter(s, 0, 5, 10, 15);
        quarter(s, 1, 6, 11, 12);
        quarter(s, 2, 7, 8, 13);
        quarter(s, 3, 4, 9, 14);
    }
    for (int i = 0; i < 4; i++) out[i] = s[i] + constant[i], out[12 + i] = s[12 + i] + last[i];
    for (int i = 0; i < 8; i++) out[4 + i] = s[4 + i] + key[i];
}

/* The walk over a tree in every lane, depth first, so that all of it stays in the first cache. */

struct walk { uint64_t batch; unsigned words; lanes column[8][32]; };

/* Gives the sum of the streams of the leaves below a node. A right subtree's sum goes into the column of its level, so that a leaf is in
   column b where its number has bit b: one addition a node, and none a leaf. */
static void add_below(struct walk *a, const lanes node[8], unsigned levels, lanes *restrict sum) {
    if (levels == 0) {
        block(node, 0, 1, a->batch, sum);
        if (a->words > 16) block(node, 1, 1, a->batch, sum + 16);
        return;
    }
    lanes children[16], right[32];
    block(node, 0, 0, 0, children);
    add_below(a, children, levels - 1, sum);
    add_below(a, children + 8, levels - 1, right);
    for (unsigned w = 0; w < a->words; w++) {
        a->column[levels - 1][w] ^= right[w];
        sum[w] ^= right[w];
    }
}

void fast_receiver_start(unsigned width, const uint8_t *roots, uint64_t batch, unsigned blocks, uint8_t *choices, uint8_t *table,
                         uint8_t *correction) {
    size_t len = 8 * (blocks + 1);
    struct walk a;
    a.batch = batch;
    a.words = 2 * (blocks + 1);
    lanes u[32], choice[32];
    for (unsigned i = 0; i < 128 / width; i += LANES) {
        lanes node[8];
        load_lanes(roots + 32 * i, 32, 8, node);
        memset(a.column, 0, width * sizeof *a.column);
        add_below(&a, node, width, u);
        for (unsigned b = 0; b < width; b++) store_lanes(a.column[b], a.words, table + (i * width + b) * len, width * len);
        for (unsigned w = 0; i == 0 && w < a.words; w++) {
            uint32_t word = u[w][0];
            memcpy(choices + 4 * w, &word, 4);
            choice[w] = broadcast(word);
        }
        for (unsigned w = 0; w < a.words; w++) u[w] ^= choice[w];
        if (i) {
            store_lanes(u, a.words, correction + (i - 1) * len, len);
        } else { /* tree 0 has no correction */
            uint8_t rows[LANES * 128];
            store_lanes(u, a.words, rows, len);
            memcpy(correction, rows + len, (LANES - 1) * len);
        }
    }
}

/* All ones in lane l where bit first + l * step of delta is 1. */
static lanes delta_mask(const uint8_t delta[16], unsigned first, unsigned step) {
    lanes bit = lane_numbers() * step + first, word = broadcast(0);
    for (unsigned q = 0; q < 4; q++) {
        uint32_t part;
        memcpy(&part, delta + 4 * q, 4);
        word |= (lanes)(bit >> 5 == q) & part;
    }
    return -(word >> (bit & 31) & 1);
}

/* Sibling r has r levels below it. With u the correction and the sums below siblings r + 1 and up, column r is what their walks have added
   to it, the sum below sibling r, and u where delta's bit r is 1. */
void fast_sender_correct(unsigned width, const uint8_t *siblings, const uint8_t delta[16], uint64_t batch, unsigned blocks,
                         const uint8_t *correction, uint8_t *table) {
    size_t len = 8 * (blocks + 1);
    struct walk a;
    a.batch = batch;
    a.words = 2 * (blocks + 1);
    for (unsigned i = 0; i < 128 / width; i += LANES) {
        lanes u[32], node[8], sum[32];
        if (i) {
            load_lanes(correction + (i - 1) * len, len, a.words, u);
        } else { /* tree 0 has no correction */
            uint8_t rows[LANES * 128];
            memset(rows, 0, len);
            memcpy(rows + len, correction, (LANES - 1) * len);
            load_lanes(rows, len, a.words, u);
        }
        memset(a.column, 0, width * sizeof *a.column);
        for (unsigned r = width; r-- > 0;) {
            lanes mask = delta_mask(delta, i * width + r, width);
            load_lanes(siblings + 32 * (i * width + width - 1 - r), 32 * width, 8, node);
            add_below(&a, node, r, sum);
            for (unsigned w = 0; w < a.words; w++) {
                a.column[r][w] ^= sum[w] ^ (u[w] & mask);
                u[w] ^= sum[w];
            }
        }
        for (unsigned b = 0; b < width; b++) store_lanes(a.column[b], a.words, table + (i * width + b) * len, width * len);
    }
}

/* The fold by carry-less products: the sum over words m of word m times key^(n - 1 - m) in 128 bits, and one reduction at the end. */

static uint64_t reduce(__m128i x) {
    const __m128i low = _mm_set_epi64x(0, 27); /* X^64 is X^4 + X^3 + X + 1 */
    __m128i once = _mm_clmulepi64_si128(x, low, 0x01), twice = _mm_clmulepi64_si128(once, low, 0x01);
    return (uint64_t)_mm_cvtsi128_si64(_mm_xor_si128(_mm_xor_si128(x, once), twice));
}

/* What word m of n is multiplied by; 0 beyond the last. */
static void powers(uint64_t key, unsigned n, uint64_t p[16]) {
    memset(p, 0, 128);
    p[n - 1] = 1;
    for (unsigned m = n - 1; m-- > 0;) p[m] = reduce(_mm_clmulepi64_si128(_mm_set_epi64x(0, p[m + 1]), _mm_set_epi64x(0, key), 0x00));
}

/* Four columns of n words, stride bytes apart. */
#if defined(__AVX512BW__) && defined(__VPCLMULQDQ__)
static void fold_four(const uint64_t p[16], unsigned n, const uint8_t *columns, size_t stride, uint64_t out[4]) {
    __m512i s[4], low = _mm512_set1_epi64(27);
    for (int c = 0; c < 4; c++) {
        s[c] = _mm512_setzero_si512();
        for (unsigned m = 0; m < n; m += 8) { /* eight words, as four pairs, by the powers beside them */
            __m512i x = _mm512_maskz_loadu_epi64((__mmask8)((1u << (n - m < 8 ? n - m : 8)) - 1), columns + c * stride + 8 * m);
            __m512i g = _mm512_loadu_si512(p + m);
            s[c] ^= _mm512_clmulepi64_epi128(x, g, 0x00) ^ _mm512_clmulepi64_epi128(x, g, 0x11);
        }
    }
    /* each column's four sums into one, all four columns in one vector */
    __m512i a = _mm512_shuffle_i64x2(s[0], s[1], 0x44) ^ _mm512_shuffle_i64x2(s[0], s[1], 0xee);
    __m512i b = _mm512_shuffle_i64x2(s[2], s[3], 0x44) ^ _mm512_shuffle_i64x2(s[2], s[3], 0xee);
    __m512i x = _mm512_shuffle_i64x2(a, b, 0x88) ^ _mm512_shuffle_i64x2(a, b, 0xdd);
    __m512i once = _mm512_clmulepi64_epi128(x, low, 0x01), twice = _mm512_clmulepi64_epi128(once, low, 0x01);
    _mm512_mask_compressstoreu_epi64(out, 0x55, x ^ once ^ twice);
}
#else
static void fold_four(const uint64_t p[16], unsigned n, const uint8_t *columns, size_t stride, uint64_t out[4]) {
    for (int c = 0; c < 4; c++) {
        __m128i s = _mm_setzero_si128();
        for (unsigned m = 0; m < n; m += 2) { /* p has a 0 beyond an odd n */
            __m128i x = m + 1 < n ? _mm_loadu_si128((const __m128i *)(columns + c * stride + 8 * m))
                                  : _mm_loadl_epi64((const __m128i *)(columns + c * stride + 8 * m));
            __m128i g = _mm_loadu_si128((const __m128i *)(p + m));
            s = _mm_xor_si128(s, _mm_xor_si128(_mm_clmulepi64_si128(x, g, 0x00), _mm_clmulepi64_si128(x, g, 0x11)));
        }
        out[c] = reduce(s);
    }
}
#endif

static void fold_table(const uint64_t p[16], unsigned n, const uint8_t *table, uint64_t folds[128]) {
    for (unsigned c = 0; c < 128; c += 4) fold_four(p, n, table + 8 * n * c, 8 * n, folds + c);
}

/* The rows of a block of 64: big-endian word q of row ROW_OF(j) to words[q][j]. */

#if defined(__AVX512BW__) && defined(__AVX512VBMI__) && defined(__GFNI__)
#define ROW_OF(j) (((j) & 3) | ((j) & 12) << 2 | ((j) >> 2 & 12))

/* A byte of each of 64 rows, from eight columns. One permutation transposes the 8 x 8 bytes; then each eight bytes, as a matrix of bits
   that the units are multiplied by, are transposed too. */
INLINE __m512i row_bytes(const uint8_t *columns, size_t len) {
    const __m512i units = _mm512_set1_epi64((long long)0x8040201008040201);
    uint8_t order[64];
    for (int j = 0; j < 64; j++) order[j] = (uint8_t)(8 * (7 - j % 8) + j / 8);
    __m512i x = _mm512_setzero_si512();
    for (int c = 0; c < 8; c++) {
        long long word;
        memcpy(&word, columns + c * len, 8);
        x = _mm512_mask_set1_epi64(x, (__mmask8)(1 << c), word);
    }
    return _mm512_gf2p8affine_epi64_epi8(units, _mm512_permutexvar_epi8(_mm512_loadu_si512(order), x), 0);
}

static void gather_rows(const uint8_t *columns, size_t len, uint32_t words[4][64]) {
    for (int q = 0; q < 4; q++) {
        __m512i r[4];
        for (int m = 0; m < 4; m++) r[m] = row_bytes(columns + (4 * q + m) * 8 * len, len);
        __m512i low = _mm512_unpacklo_epi8(r[3], r[2]), high = _mm512_unpacklo_epi8(r[1], r[0]);
        _mm512_store_si512(words[q], _mm512_unpacklo_epi16(low, high));
        _mm512_store_si512(words[q] + 16, _mm512_unpackhi_epi16(low, high));
        low = _mm512_unpackhi_epi8(r[3], r[2]), high = _mm512_unpackhi_epi8(r[1], r[0]);
        _mm512_store_si512(words[q] + 32, _mm512_unpacklo_epi16(low, high));
        _mm512_store_si512(words[q] + 48, _mm512_unpackhi_epi16(low, high));
    }
}
#else
#define ROW_OF(j) (j)

typedef uint64_t quads __attribute__((vector_size(32)));

/* Swaps the bits of a at mask << shift with those of b at mask. */
INLINE void swap(quads *a, quads *b, int shift, uint64_t mask) {
    quads t = (*a >> shift ^ *b) & mask;
    *b ^= t;
    *a ^= t << shift;
}

/* Lane m of vector c has column 8m + c. The 8 x 8 bytes of a lane are transposed between the vectors, then 8 x 8 bits in each number. */
static void gather_rows(const uint8_t *columns, size_t len, uint32_t words[4][64]) {
    const __m256i halves = _mm256_set_epi32(7, 5, 3, 1, 6, 4, 2, 0);
    const __m256i bytes = _mm256_set_epi32(0x03070b0f, 0x02060a0e, 0x0105090d, 0x0004080c, 0x03070b0f, 0x02060a0e, 0x0105090d, 0x0004080c);
    for (int q = 0; q < 4; q++) {
        quads x[8];
        for (int c = 0; c < 8; c++)
            for (int m = 0; m < 4; m++) { uint64_t word; memcpy(&word, columns + (8 * (4 * q + m) + c) * len, 8); x[c][m] = word; }
        for (int c = 0; c < 4; c++) swap(&x[c], &x[c + 4], 32, 0x00000000ffffffff);
        for (int c = 0; c < 8; c += c % 4 == 1 ? 3 : 1) swap(&x[c], &x[c + 2], 16, 0x0000ffff0000ffff);
        for (int c = 0; c < 8; c += 2) swap(&x[c], &x[c + 1], 8, 0x00ff00ff00ff00ff);
        for (int i = 0; i < 8; i++) {
            quads t = (x[i] ^ x[i] >> 7) & 0x00aa00aa00aa00aa;
            x[i] ^= t ^ t << 7;
            t = (x[i] ^ x[i] >> 14) & 0x0000cccc0000cccc;
            x[i] ^= t ^ t << 14;
            t = (x[i] ^ x[i] >> 28) & 0x00000000f0f0f0f0;
            x[i] ^= t ^ t << 28;
            __m256i rows = _mm256_shuffle_epi8(_mm256_permutevar8x32_epi32((__m256i)x[i], halves), bytes);
            _mm256_storeu_si256((__m256i *)(words[q] + 8 * i), rows);
        }
    }
}
#endif

/* SHA-256, a message in every lane: with 16 lanes half the time of the SHA instructions (docs/DECISIONS.md). */

/* Ch and Maj, which AVX-512 has as one instruction each. */
#if defined(__AVX512BW__)
INLINE lanes choose(lanes e, lanes f, lanes g) { return (lanes)_mm512_ternarylogic_epi32((__m512i)e, (__m512i)f, (__m512i)g, 0xca); }
INLINE lanes majority(lanes a, lanes b, lanes c) { return (lanes)_mm512_ternarylogic_epi32((__m512i)a, (__m512i)b, (__m512i)c, 0xe8); }
#else
INLINE lanes choose(lanes e, lanes f, lanes g) { return g ^ (e & (f ^ g)); }
INLINE lanes majority(lanes a, lanes b, lanes c) { return (a & b) | (c & (a | b)); }
#endif

INLINE void rounds(lanes v[8], lanes w[16], int from, int to) {
    const uint32_t *k = K;
    __asm__("" : "+r"(k)); /* hides the values: the load is to broadcast them, not the vector units */
#pragma GCC unroll 64
    for (int t = from; t < to; t++) {
        lanes a = v[0], e = v[4], x = w[(t + 1) % 16], y = w[(t + 14) % 16];
        if (t >= 16) w[t % 16] += (rotr(y, 17) ^ rotr(y, 19) ^ y >> 10) + w[(t + 9) % 16] + (rotr(x, 7) ^ rotr(x, 18) ^ x >> 3);
        lanes t1 = v[7] + (w[t % 16] + k[t]) + choose(e, v[5], v[6]) + (rotr(e, 6) ^ rotr(e, 11) ^ rotr(e, 25));
        lanes t2 = (rotr(a, 2) ^ rotr(a, 13) ^ rotr(a, 22)) + majority(a, v[1], v[2]);
        v[7] = v[6]; v[6] = v[5]; v[5] = e; v[4] = v[3] + t1;
        v[3] = v[2]; v[2] = v[1]; v[1] = a; v[0] = t1 + t2;
    }
}

/* The first three words of a pad's message are the same in all rows, so their rounds are done once a batch. */
struct hash { uint64_t batch; lanes state[8]; };

static void message_start(uint64_t batch, lanes w[16]) {
    w[0] = broadcast(0x50414453); /* "PADS" */
    w[1] = swap_bytes(broadcast((uint32_t)batch));
    w[2] = swap_bytes(broadcast(batch >> 32));
}

static struct hash hash_start(uint64_t batch) {
    struct hash h = {.batch = batch};
    lanes w[16];
    message_start(batch, w);
    for (int i = 0; i < 8; i++) h.state[i] = broadcast(H[i]);
    rounds(h.state, w, 0, 3);
    return h;
}

/* The digests of LANES rows; words 8 to 15 are the padding, which the compiler folds into the rounds and the schedule. */
static void digest(const struct hash *h, lanes row, const lanes value[4], lanes out[8]) {
    lanes v[8], w[16];
    message_start(h->batch, w);
    w[3] = swap_bytes(row);
    for (int q = 0; q < 4; q++) w[4 + q] = value[q];
    w[8] = broadcast(0x80000000);
    for (int t = 9; t < 15; t++) w[t] = broadcast(0);
    w[15] = broadcast(256);
    for (int i = 0; i < 8; i++) v[i] = h->state[i];
    rounds(v, w, 3, 64);
    for (int i = 0; i < 8; i++) out[i] = swap_bytes(v[i] + H[i]);
}

/* The pads of a block's 64 rows, their values xored with flip, to places stride bytes apart. */
static void block_pads(const struct hash *h, const uint32_t words[4][64], const uint32_t flip[4], unsigned first_row, uint8_t *pads,
                       size_t stride) {
    for (unsigned j = 0; j < 64; j += LANES) {
        lanes value[4], out[8];
        __m256i r[LANES];
        for (int q = 0; q < 4; q++) value[q] = *(const lanes *)(words[q] + j) ^ flip[q];
        digest(h, ROW_OF(lane_numbers() + j) + first_row, value, out);
        to_rows(out, r);
        for (unsigned l = 0; l < LANES; l++) _mm256_storeu_si256((__m256i *)(pads + stride * ROW_OF(j + l)), r[l]);
    }
}

void fast_receiver_answer(uint64_t batch, unsigned blocks, uint64_t key, const uint8_t *choices, const uint8_t *table,
                          uint8_t message[1032], uint8_t *pads) {
    static const uint32_t zero[4];
    size_t len = 8 * (blocks + 1);
    uint64_t p[16], folds[132];
    powers(key, blocks + 1, p);
    fold_four(p, blocks + 1, choices, 0, folds); /* four times the same; the table's go over the last three */
    fold_table(p, blocks + 1, table, folds + 1);
    memcpy(message, folds, 1032);
    struct hash h = hash_start(batch);
    for (unsigned b = 0; b < blocks; b++) {
        uint32_t words[4][64] __attribute__((aligned(64)));
        gather_rows(table + 8 * b, len, words);
        block_pads(&h, words, zero, 64 * b, pads + 2048 * b, 32);
    }
}

int fast_sender_verify(uint64_t batch, unsigned blocks, uint64_t key, const uint8_t *table, const uint8_t delta[16],
                       const uint8_t message[1032], uint8_t *pads) {
    static const uint32_t zero[4];
    size_t len = 8 * (blocks + 1);
    uint64_t p[16], folds[128], sent[129], different = 0;
    uint32_t flip[4];
    powers(key, blocks + 1, p);
    fold_table(p, blocks + 1, table, folds);
    memcpy(sent, message, 1032);
    for (int c = 0; c < 128; c++) different |= sent[c + 1] ^ folds[c] ^ (sent[0] & -(uint64_t)(delta[c / 8] >> c % 8 & 1));
    if (different) return 0;
    for (int q = 0; q < 4; q++)
        flip[q] = (uint32_t)delta[4 * q] << 24 | (uint32_t)delta[4 * q + 1] << 16 | (uint32_t)delta[4 * q + 2] << 8 | delta[4 * q + 3];
    struct hash h = hash_start(batch);
    for (unsigned b = 0; b < blocks; b++) {
        uint32_t words[4][64] __attribute__((aligned(64)));
        gather_rows(table + 8 * b, len, words);
        block_pads(&h, words, zero, 64 * b, pads + 4096 * b, 64);
        block_pads(&h, words, flip, 64 * b, pads + 4096 * b + 32, 64);
    }
    return 1;
}
