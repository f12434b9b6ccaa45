#include "plain.h"
#include "sha256.h"
#include <string.h>

static uint32_t rotl(uint32_t x, int k) { return x << k | x >> (32 - k); }
static uint32_t rotr(uint32_t x, int k) { return x >> k | x << (32 - k); }

/* ChaCha20, RFC 8439 section 2.3 */

static uint32_t load_le(const uint8_t *p) {
    return p[0] | (uint32_t)p[1] << 8 | (uint32_t)p[2] << 16 | (uint32_t)p[3] << 24;
}

static void quarter(uint32_t *s, int a, int b, int c, int d) {
    s[a] += s[b]; s[d] = rotl(s[d] ^ s[a], 16);
    s[c] += s[d]; s[b] = rotl(s[b] ^ s[c], 12);
    s[a] += s[b]; s[d] = rotl(s[d] ^ s[a], 8);
    s[c] += s[d]; s[b] = rotl(s[b] ^ s[c], 7);
}

void plain_chacha20_block(const uint8_t key[32], uint32_t counter, const uint8_t nonce[12], uint8_t out[64]) {
    uint32_t start[16] = {0x61707865, 0x3320646e, 0x79622d32, 0x6b206574}, s[16];
    for (int i = 0; i < 8; i++) start[4 + i] = load_le(key + 4 * i);
    start[12] = counter;
    for (int i = 0; i < 3; i++) start[13 + i] = load_le(nonce + 4 * i);
    memcpy(s, start, sizeof s);
    for (int i = 0; i < 10; i++) {
        quarter(s, 0, 4, 8, 12);
        quarter(s, 1, 5, 9, 13);
        quarter(s, 2, 6, 10, 14);
        quarter(s, 3, 7, 11, 15);
        quarter(s, 0, 5, 10, 15);
        quarter(s, 1, 6, 11, 12);
        quarter(s, 2, 7, 8, 13);
        quarter(s, 3, 4, 9, 14);
    }
    for (int i = 0; i < 16; i++) {
        uint32_t v = s[i] + start[i];
        for (int j = 0; j < 4; j++) out[4 * i + j] = v >> 8 * j;
    }
}

/* SHA-256, FIPS 180-4 section 6.2 */

static void compress(uint32_t h[8], const uint8_t *p) {
    uint32_t w[64], v[8];
    for (int t = 0; t < 16; t++)
        w[t] = (uint32_t)p[4 * t] << 24 | p[4 * t + 1] << 16 | p[4 * t + 2] << 8 | p[4 * t + 3];
    for (int t = 16; t < 64; t++) {
        uint32_t a = w[t - 15], b = w[t - 2];
        w[t] = (rotr(b, 17) ^ rotr(b, 19) ^ b >> 10) + w[t - 7] + (rotr(a, 7) ^ rotr(a, 18) ^ a >> 3) + w[t - 16];
    }
    memcpy(v, h, sizeof v);
    for (int t = 0; t < 64; t++) {
        uint32_t a = v[0], e = v[4];
        uint32_t t1 = v[7] + (rotr(e, 6) ^ rotr(e, 11) ^ rotr(e, 25)) + ((e & v[5]) ^ (~e & v[6])) + K[t] + w[t];
        uint32_t t2 = (rotr(a, 2) ^ rotr(a, 13) ^ rotr(a, 22)) + ((a & v[1]) ^ (a & v[2]) ^ (v[1] & v[2]));
        v[7] = v[6]; v[6] = v[5]; v[5] = e; v[4] = v[3] + t1;
        v[3] = v[2]; v[2] = v[1]; v[1] = a; v[0] = t1 + t2;
    }
    for (int i = 0; i < 8; i++) h[i] += v[i];
}

void plain_sha256(const uint8_t *m, size_t len, uint8_t out[32]) {
    uint32_t h[8];
    uint8_t tail[128] = {0};
    size_t whole = len / 64 * 64, rest = len - whole, blocks = rest < 56 ? 1 : 2;
    memcpy(h, H, sizeof h);
    for (size_t at = 0; at < whole; at += 64) compress(h, m + at);
    memcpy(tail, m + whole, rest);
    tail[rest] = 0x80;
    for (int j = 0; j < 8; j++) tail[64 * blocks - 1 - j] = (uint64_t)len * 8 >> 8 * j;
    for (size_t b = 0; b < blocks; b++) compress(h, tail + 64 * b);
    for (int i = 0; i < 32; i++) out[i] = h[i / 4] >> (24 - 8 * (i % 4));
}

/* The fold over GF(2^64), the product bit by bit */

static uint64_t product(uint64_t g, uint64_t a) {
    uint64_t r = 0;
    for (int i = 0; i < 64; i++) {
        r ^= g & -(a >> i & 1);
        g = g << 1 ^ (g >> 63) * 27;
    }
    return r;
}

uint64_t plain_fold(uint64_t key, const uint8_t *s, size_t len) {
    uint64_t acc = 0;
    for (size_t at = 0; at + 8 <= len; at += 8) {
        uint64_t w = 0;
        for (int j = 0; j < 8; j++) w |= (uint64_t)s[at + j] << 8 * j;
        acc = product(key, acc) ^ w;
    }
    return acc;
}

/* Both setups, one node at a time. Delta enters only as masks. */

/* Adds the children made at each level from this one on, below a node, to that level's two totals. */
static void add_children(const uint8_t node[32], unsigned level, unsigned width, uint8_t *totals) {
    static const uint8_t nonce[12];
    uint8_t children[64];
    if (level == width) return;
    plain_chacha20_block(node, 0, nonce, children);
    for (int j = 0; j < 64; j++) totals[64 * level + j] ^= children[j];
    add_children(children, level + 1, width, totals);
    add_children(children + 32, level + 1, width, totals);
}

void plain_receiver_setup(unsigned width, const uint8_t *roots, const uint8_t base_pads[8192], uint8_t message[8192]) {
    memcpy(message, base_pads, 8192);
    for (unsigned i = 0; i < 128 / width; i++) add_children(roots + 32 * i, 0, width, message + 64 * width * i);
}

void plain_sender_setup(unsigned width, const uint8_t delta[16], const uint8_t base_pads[4096], const uint8_t message[8192],
                        uint8_t siblings[4096]) {
    for (unsigned i = 0; i < 128 / width; i++) {
        uint8_t totals[64 * 8];
        memcpy(totals, message + 64 * width * i, 64 * width);
        for (unsigned level = 0; level < width; level++) {
            unsigned at = i * width + level, bit = i * width + width - 1 - level;
            const uint8_t *left = totals + 64 * level, *right = left + 32, *pad = base_pads + 32 * at;
            uint8_t *node = siblings + 32 * at;
            uint8_t mask = -(delta[bit / 8] >> bit % 8 & 1); /* all ones where the path goes right, and the node is the left one */
            for (int j = 0; j < 32; j++) node[j] = ((left[j] & mask) | (right[j] & ~mask)) ^ pad[j];
            add_children(node, level + 1, width, totals);
        }
    }
}

/* A batch, one node at a time and one row at a time. The receiver's leaf numbers are public; delta enters only as masks. */

struct batch { unsigned width; uint64_t number; size_t len; };

static void xor_into(uint8_t *restrict to, const uint8_t *restrict from, size_t n) {
    for (size_t j = 0; j < n; j++) to[j] ^= from[j];
}

static void xor_masked(uint8_t *restrict to, const uint8_t *restrict from, size_t n, uint8_t mask) {
    for (size_t j = 0; j < n; j++) to[j] ^= from[j] & mask;
}

static void make_children(const uint8_t node[32], uint8_t children[64]) {
    static const uint8_t nonce[12];
    plain_chacha20_block(node, 0, nonce, children);
}

static void make_stream(const struct batch *a, const uint8_t leaf[32], uint8_t stream[128]) {
    uint8_t nonce[12] = {1};
    for (int j = 0; j < 8; j++) nonce[4 + j] = a->number >> 8 * j;
    plain_chacha20_block(leaf, 0, nonce, stream);
    if (a->len > 64) plain_chacha20_block(leaf, 1, nonce, stream + 64);
}

/* Adds the streams of the leaves below a node to u, and to column b those of the leaves whose number has bit b. */
static void add_leaves(const struct batch *a, const uint8_t node[32], unsigned levels, unsigned number, uint8_t *u, uint8_t *columns) {
    if (levels == 0) {
        uint8_t stream[128];
        make_stream(a, node, stream);
        xor_into(u, stream, a->len);
        for (unsigned b = 0; b < a->width; b++)
            if (number >> b & 1) xor_into(columns + b * a->len, stream, a->len);
        return;
    }
    uint8_t children[64];
    make_children(node, children);
    add_leaves(a, children, levels - 1, 2 * number, u, columns);
    add_leaves(a, children + 32, levels - 1, 2 * number + 1, u, columns);
}

void plain_receiver_start(unsigned width, const uint8_t *roots, uint64_t batch, unsigned blocks, uint8_t *choices, uint8_t *table,
                          uint8_t *correction) {
    struct batch a = {width, batch, 8 * (blocks + 1)};
    unsigned trees = 128 / width;
    memset(choices, 0, a.len);
    memset(table, 0, 128 * a.len);
    memset(correction, 0, (trees - 1) * a.len);
    for (unsigned i = 0; i < trees; i++) {
        uint8_t *u = i ? correction + (i - 1) * a.len : choices;
        add_leaves(&a, roots + 32 * i, width, 0, u, table + i * width * a.len);
        if (i) xor_into(u, choices, a.len);
    }
}

/* Adds to column b the streams of the leaves below a node whose number, exclusive or d, has bit b. */
static void add_apart(const struct batch *a, const uint8_t node[32], unsigned levels, unsigned number, unsigned d, uint8_t *columns) {
    if (levels == 0) {
        uint8_t stream[128];
        make_stream(a, node, stream);
        for (unsigned b = 0; b < a->width; b++) xor_masked(columns + b * a->len, stream, a->len, -((number ^ d) >> b & 1));
        return;
    }
    uint8_t children[64];
    make_children(node, children);
    add_apart(a, children, levels - 1, 2 * number, d, columns);
    add_apart(a, children + 32, levels - 1, 2 * number + 1, d, columns);
}

void plain_sender_correct(unsigned width, const uint8_t *siblings, const uint8_t delta[16], uint64_t batch, unsigned blocks,
                          const uint8_t *correction, uint8_t *table) {
    struct batch a = {width, batch, 8 * (blocks + 1)};
    memset(table, 0, 128 * a.len);
    for (unsigned i = 0; i < 128 / width; i++) {
        uint8_t *columns = table + i * width * a.len;
        unsigned d = 0;
        for (unsigned b = 0, c = i * width; b < width; b++, c++) d |= (delta[c / 8] >> c % 8 & 1u) << b;
        for (unsigned level = 0; level < width; level++) {
            unsigned below = width - 1 - level;
            add_apart(&a, siblings + 32 * (i * width + level), below, d >> below ^ 1, d, columns);
        }
        if (i)
            for (unsigned b = 0; b < width; b++)
                xor_masked(columns + b * a.len, correction + (i - 1) * a.len, a.len, -(d >> b & 1));
    }
}

/* A row value, bit by bit: the place of the row and that of the column by a division each. */
static void gather_row(size_t len, const uint8_t *table, unsigned row, uint8_t value[16]) {
    memset(value, 0, 16);
    for (int c = 0; c < 128; c++) value[c / 8] |= (table[c * len + row / 8] >> row % 8 & 1) << c % 8;
}

void plain_rows(unsigned blocks, const uint8_t *table, uint8_t *rows) {
    for (unsigned row = 0; row < 64 * blocks; row++) gather_row(8 * (blocks + 1), table, row, rows + 16 * row);
}

/* Eight bytes as an 8 x 8 matrix of bits, transposed: in blocks of 1, 2 and 4 bits, what differs across the diagonal changes places. */
static uint64_t transpose8(uint64_t x) {
    uint64_t t = (x ^ x >> 7) & 0x00aa00aa00aa00aa;
    x ^= t ^ t << 7;
    t = (x ^ x >> 14) & 0x0000cccc0000cccc;
    x ^= t ^ t << 14;
    t = (x ^ x >> 28) & 0x00000000f0f0f0f0;
    return x ^ t ^ t << 28;
}

void block8_rows(unsigned blocks, const uint8_t *table, uint8_t *rows) {
    size_t len = 8 * (blocks + 1);
    for (unsigned at = 0; at < 8 * blocks; at++, rows += 128)
        for (unsigned k = 0; k < 16; k++) {
            uint64_t x = 0;
            for (int c = 0; c < 8; c++) x |= (uint64_t)table[(8 * k + c) * len + at] << 8 * c;
            x = transpose8(x);
            for (int r = 0; r < 8; r++) rows[16 * r + k] = (uint8_t)(x >> 8 * r);
        }
}

/* What the pad of a row hashes. */
static void pad_input(uint64_t batch, size_t len, const uint8_t *table, unsigned row, uint8_t m[32]) {
    memcpy(m, "PADS", 4);
    for (int j = 0; j < 8; j++) m[4 + j] = batch >> 8 * j;
    for (int j = 0; j < 4; j++) m[12 + j] = row >> 8 * j;
    gather_row(len, table, row, m + 16);
}

void plain_receiver_answer(uint64_t batch, unsigned blocks, uint64_t key, const uint8_t *choices, const uint8_t *table,
                           uint8_t message[1032], uint8_t *pads) {
    size_t len = 8 * (blocks + 1);
    for (int c = 0; c <= 128; c++) {
        uint64_t fold = plain_fold(key, c ? table + (c - 1) * len : choices, len);
        for (int j = 0; j < 8; j++) message[8 * c + j] = fold >> 8 * j;
    }
    for (unsigned row = 0; row < 64 * blocks; row++) {
        uint8_t m[32];
        pad_input(batch, len, table, row, m);
        plain_sha256(m, 32, pads + 32 * row);
    }
}

static uint64_t load_le64(const uint8_t *p) { return load_le(p) | (uint64_t)load_le(p + 4) << 32; }

int plain_sender_verify(uint64_t batch, unsigned blocks, uint64_t key, const uint8_t *table, const uint8_t delta[16],
                        const uint8_t message[1032], uint8_t *pads) {
    size_t len = 8 * (blocks + 1);
    uint64_t choice = load_le64(message), different = 0;
    for (int c = 0; c < 128; c++) {
        uint64_t mask = -(uint64_t)(delta[c / 8] >> c % 8 & 1);
        different |= load_le64(message + 8 + 8 * c) ^ plain_fold(key, table + c * len, len) ^ (choice & mask);
    }
    if (different) return 0;
    for (unsigned row = 0; row < 64 * blocks; row++) {
        uint8_t m[32];
        pad_input(batch, len, table, row, m);
        plain_sha256(m, 32, pads + 64 * row);
        xor_into(m + 16, delta, 16);
        plain_sha256(m, 32, pads + 64 * row + 32);
    }
    return 1;
}

/* A batch on file, in one pass over the contents */

static struct softspoken_file refused(uint32_t answer, size_t len) {
    return (struct softspoken_file){answer, 0, 0, 0, len, len, len, len, len, len};
}

struct softspoken_file plain_file_read(const uint8_t *file, size_t len) {
    enum { SETUP, HEAD, CORRECTION, KEY, CHECK, END };
    if (len < 4) return refused(SOFTSPOKEN_ERR_CONTENTS, len);
    uint32_t count = load_le(file);
    if ((count != 4 && count != 5) || len < 4 + 12 * count) return refused(SOFTSPOKEN_ERR_CONTENTS, len);
    uint64_t begin[END + 1], at = 4 + 12 * count;
    begin[SETUP] = at; /* where the head begins, if the setup is absent */
    const uint8_t *entry = file + 4;
    for (unsigned body = END - count; body < END; body++, entry += 12) {
        if (load_le(entry) != body + 1 || load_le(entry + 4) != at) return refused(SOFTSPOKEN_ERR_CONTENTS, len);
        begin[body] = at;
        at += load_le(entry + 8);
    }
    if (at != len) return refused(SOFTSPOKEN_ERR_CONTENTS, len);
    uint64_t head_len = begin[CORRECTION] - begin[HEAD];
    if (head_len != 10 && head_len != 6) return refused(SOFTSPOKEN_ERR_BODY, len);
    const uint8_t *head = file + begin[HEAD];
    uint32_t width = head[0], blocks = head[1];
    uint64_t batch = load_le(head + 2);
    if (head_len == 10) batch |= (uint64_t)load_le(head + 6) << 32;
    if (width != 1 && width != 2 && width != 4 && width != 8) return refused(SOFTSPOKEN_ERR_WIDTH, len);
    if (batch == 0) return refused(SOFTSPOKEN_ERR_BATCH, len);
    if (blocks < 1 || blocks > 15) return refused(SOFTSPOKEN_ERR_BLOCKS, len);
    if ((count == 5 && begin[HEAD] - begin[SETUP] != 8192) ||
        begin[KEY] - begin[CORRECTION] != (128 / width - 1) * 8 * (blocks + 1) || begin[CHECK] - begin[KEY] != 8 ||
        len - begin[CHECK] != 1032)
        return refused(SOFTSPOKEN_ERR_BODY, len);
    if (load_le64(file + begin[KEY]) < 2) return refused(SOFTSPOKEN_ERR_KEY, len);
    return (struct softspoken_file){SOFTSPOKEN_DONE, width, blocks, batch, begin[SETUP], begin[HEAD], begin[CORRECTION], begin[KEY],
                                    begin[CHECK], len};
}

/* Writing one: the rules first, then contents and bodies together */

typedef void copy_bytes(uint8_t *to, const uint8_t *from, size_t n);

/* Byte by byte; gcc looks whether the two overlap, and moves 16 bytes at once. Where the loop lies across two cache lines, or is in one
   function with the rest and runs out of registers, it takes half as long again: no fair comparison. */
__attribute__((noinline, aligned(64))) static void lay(uint8_t *to, const uint8_t *from, size_t n) {
    for (size_t i = 0; i < n; i++) to[i] = from[i];
}

/* The C library's always: gcc has slower code of its own for a length that it knows. */
__attribute__((noinline)) static void lay_memcpy(uint8_t *to, const uint8_t *from, size_t n) { memcpy(to, from, n); }

static void store_le(uint8_t *p, int bytes, uint64_t x) {
    for (int j = 0; j < bytes; j++) p[j] = x >> 8 * j;
}

/* Where the next entry and the next body go. */
struct place { uint8_t *file, *entry, *body; };

static inline void add_body(struct place *to, copy_bytes *copy, uint32_t kind, struct softspoken_body from) {
    store_le(to->entry, 4, kind);
    store_le(to->entry + 4, 4, to->body - to->file);
    store_le(to->entry + 8, 4, from.len);
    copy(to->body, from.bytes, from.len);
    to->entry += 12;
    to->body += from.len;
}

static inline uint32_t write_by(copy_bytes *copy, uint32_t width, uint32_t blocks, uint64_t batch, struct softspoken_body setup,
                                struct softspoken_body correction, struct softspoken_body key, struct softspoken_body check,
                                uint8_t *file, size_t len) {
    if (width != 1 && width != 2 && width != 4 && width != 8) return SOFTSPOKEN_ERR_WIDTH;
    if (batch == 0) return SOFTSPOKEN_ERR_BATCH;
    if (blocks < 1 || blocks > 15) return SOFTSPOKEN_ERR_BLOCKS;
    if ((setup.len != 0 && setup.len != 8192) || correction.len != (128 / width - 1) * 8 * (blocks + 1) || key.len != 8 ||
        check.len != 1032)
        return SOFTSPOKEN_ERR_BODY;
    if (load_le64(key.bytes) < 2) return SOFTSPOKEN_ERR_KEY;
    uint32_t count = setup.len ? 5 : 4;
    if (len != 4 + 12 * count + setup.len + 10 + correction.len + 8 + 1032) return SOFTSPOKEN_ERR_LENGTH;
    struct place to = {file, file + 4, file + 4 + 12 * count};
    uint8_t head[10] = {width, blocks};
    store_le(head + 2, 8, batch);
    store_le(file, 4, count);
    if (setup.len) add_body(&to, copy, SOFTSPOKEN_FILE_SETUP, setup);
    add_body(&to, copy, SOFTSPOKEN_FILE_HEAD, (struct softspoken_body){head, 10});
    add_body(&to, copy, SOFTSPOKEN_FILE_CORRECTION, correction);
    add_body(&to, copy, SOFTSPOKEN_FILE_KEY, key);
    add_body(&to, copy, SOFTSPOKEN_FILE_CHECK, check);
    return SOFTSPOKEN_DONE;
}

uint32_t plain_file_write(uint32_t width, uint32_t blocks, uint64_t batch, const uint8_t *setup, size_t setup_len,
                          const uint8_t *correction, size_t correction_len, const uint8_t *key, size_t key_len, const uint8_t *check,
                          size_t check_len, uint8_t *file, size_t len) {
    return write_by(lay, width, blocks, batch, (struct softspoken_body){setup, setup_len},
                    (struct softspoken_body){correction, correction_len}, (struct softspoken_body){key, key_len},
                    (struct softspoken_body){check, check_len}, file, len);
}

uint32_t memcpy_file_write(uint32_t width, uint32_t blocks, uint64_t batch, const uint8_t *setup, size_t setup_len,
                           const uint8_t *correction, size_t correction_len, const uint8_t *key, size_t key_len, const uint8_t *check,
                           size_t check_len, uint8_t *file, size_t len) {
    return write_by(lay_memcpy, width, blocks, batch, (struct softspoken_body){setup, setup_len},
                    (struct softspoken_body){correction, correction_len}, (struct softspoken_body){key, key_len},
                    (struct softspoken_body){check, check_len}, file, len);
}
