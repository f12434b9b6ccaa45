/* Times the proved functions beside plain C, and the steps of a batch also beside the fastest C, in one run: the kinds of a row in
   turn, the least of many passes. Outputs are compared first. Writes a line for each row, with tabs between: here "work", name,
   nanoseconds of plain C and proved, goal of their ratio or TOLD; for the steps see steps.h. bench/report.py reads them. */
#include "../include/softspoken.h"
#include "../tests/file.h"
#include "bench.h"
#include "measure.h"
#include "plain.h"
#include "steps.h"
#include <stdio.h>
#include <string.h>

enum { COLUMNS = 128, LENGTH = 128, BLOCKS = 15 };
enum { TOLD = 0 }; /* in the place of a goal */

static uint8_t key[4][32], nonce[12], message[1024], table_bytes[COLUMNS * LENGTH];
static uint8_t roots[4096], delta[16], pads[8192], totals[8192];
static uint8_t file[SOFTSPOKEN_FILE_MAX + 1];
static uint32_t lanes[32];
static volatile uint64_t sink;

/* Each work function does its work once, on inputs that depend on i. */

static void block_plain(unsigned i) { uint8_t out[64]; plain_chacha20_block(key[0], i, nonce, out); sink ^= out[0]; }
static void block_one(unsigned i) { uint8_t out[64]; bench_chacha20_one(key[0], i, nonce, out); sink ^= out[0]; }
static void block_four(unsigned i) { uint32_t out[64]; bench_chacha20_four(lanes, i, nonce, out); sink ^= out[0]; }

static void sha_plain(unsigned i) { uint8_t out[32]; message[0] = (uint8_t)i; plain_sha256(message, 32, out); sink ^= out[0]; }
static void sha_one(unsigned i) { uint8_t out[32]; message[0] = (uint8_t)i; bench_sha256_one(message, 32, out); sink ^= out[0]; }
static void sha_four(unsigned i) { uint8_t out[128]; message[0] = (uint8_t)i; bench_sha256_four(message, out); sink ^= out[0]; }
static void long_plain(unsigned i) { uint8_t out[32]; message[0] = (uint8_t)i; plain_sha256(message, 1015, out); sink ^= out[0]; }
static void long_one(unsigned i) { uint8_t out[32]; message[0] = (uint8_t)i; bench_sha256_one(message, 1015, out); sink ^= out[0]; }

static void fold_plain(unsigned i) {
    for (int c = 0; c < COLUMNS; c++) sink ^= plain_fold(i + 7, table_bytes + c * LENGTH, LENGTH);
}
static void fold_one(unsigned i) {
    for (int c = 0; c < COLUMNS; c++) sink ^= bench_fold(i + 7, table_bytes + c * LENGTH, LENGTH);
}
static void fold_four(unsigned i) {
    uint32_t t[512];
    uint64_t out[4];
    bench_fold_table(i + 7, t);
    for (int c = 0; c < COLUMNS; c += 4) {
        bench_fold_four(t, table_bytes + c * LENGTH, 4 * LENGTH, LENGTH, out);
        sink ^= out[0] ^ out[1] ^ out[2] ^ out[3];
    }
}

/* All 960 rows of a batch of 15 blocks. */
static void rows_with(unsigned i, void (*gather)(unsigned, const uint8_t *, uint8_t *)) {
    uint8_t out[1024 * BLOCKS];
    table_bytes[0] = (uint8_t)i;
    gather(BLOCKS, table_bytes, out);
    sink ^= out[0];
}
static void proved_rows(unsigned blocks, const uint8_t *table, uint8_t *rows) {
    size_t len = 8 * (blocks + 1);
    for (unsigned b = 0; b < blocks; b++) bench_block_rows(len, table, COLUMNS * len, b, rows + 1024 * b, 1024);
}
static void rows_plain(unsigned i) { rows_with(i, plain_rows); }
static void rows_block8(unsigned i) { rows_with(i, block8_rows); }
static void rows_proved(unsigned i) { rows_with(i, proved_rows); }

static void receiver_plain(unsigned width, unsigned i) {
    uint8_t out[8192];
    roots[0] = (uint8_t)i;
    plain_receiver_setup(width, roots, pads, out);
    sink ^= out[0];
}
static void receiver_proved(unsigned width, unsigned i) {
    uint8_t out[8192];
    roots[0] = (uint8_t)i;
    sink ^= softspoken_receiver_setup(width, roots, 4096 / width, pads, 8192, out, 8192);
    sink ^= out[0];
}
static void sender_plain(unsigned width, unsigned i) {
    uint8_t out[4096];
    delta[0] = (uint8_t)i;
    plain_sender_setup(width, delta, pads, totals, out);
    sink ^= out[0];
}
static void sender_proved(unsigned width, unsigned i) {
    uint8_t out[4096];
    delta[0] = (uint8_t)i;
    sink ^= softspoken_sender_setup(width, delta, 16, pads, 4096, totals, 8192, out, 4096);
    sink ^= out[0];
}
static void receiver8_plain(unsigned i) { receiver_plain(8, i); }
static void receiver8_proved(unsigned i) { receiver_proved(8, i); }
static void receiver1_plain(unsigned i) { receiver_plain(1, i); }
static void receiver1_proved(unsigned i) { receiver_proved(1, i); }
static void sender8_plain(unsigned i) { sender_plain(8, i); }
static void sender8_proved(unsigned i) { sender_proved(8, i); }
static void sender1_plain(unsigned i) { sender_plain(1, i); }
static void sender1_proved(unsigned i) { sender_proved(1, i); }

/* The longest file: k = 1, P = 15, with a setup. Its batch number depends on i. */
static void file_with(unsigned i, struct softspoken_file (*read)(const uint8_t *, size_t)) {
    const uint64_t batch = (i + 1) * 0x100000001; /* one store, so that neither reader waits for bytes to be put together */
    memcpy(file + SOFTSPOKEN_FILE_CONTENTS_BYTES(5) + SOFTSPOKEN_SETUP_MESSAGE_BYTES + 2, &batch, sizeof batch);
    struct softspoken_file found = read(file, SOFTSPOKEN_FILE_MAX);
    sink ^= found.answer ^ found.batch ^ found.check;
}
static void file_plain(unsigned i) { file_with(i, plain_file_read); }
static void file_proved(unsigned i) { file_with(i, softspoken_file_read); }

/* What travelled in a batch, and a range for the file, with room for other lengths. */
enum { SETUP, CORRECTION, KEY, CHECK, BODIES, ROOM = 1 << 15 };
static uint8_t travelled[BODIES][ROOM / 2], written[ROOM];

struct shape { uint32_t width, blocks; size_t len[BODIES], file_len; };
#define SHAPE(width, blocks, setup) \
    {width, blocks, {setup, SOFTSPOKEN_CORRECTION_BYTES(width, blocks), SOFTSPOKEN_FILE_KEY_BYTES, SOFTSPOKEN_CHECK_MESSAGE_BYTES}, \
     SOFTSPOKEN_FILE_BYTES(width, blocks, setup)}

static uint32_t write_with(write_file *write, const struct shape *s, uint64_t batch) {
    return write(s->width, s->blocks, batch, travelled[SETUP], s->len[SETUP], travelled[CORRECTION], s->len[CORRECTION], travelled[KEY],
                 s->len[KEY], travelled[CHECK], s->len[CHECK], written, s->file_len);
}

/* The longest file and the shortest: k = 8, P = 1, without a setup. The batch number depends on i. */
static void longest_with(unsigned i, write_file *write) {
    static const struct shape longest = SHAPE(1, SOFTSPOKEN_BLOCKS_MAX, SOFTSPOKEN_SETUP_MESSAGE_BYTES);
    sink ^= write_with(write, &longest, (i + 1) * 0x100000001) ^ written[0];
}
static void shortest_with(unsigned i, write_file *write) {
    static const struct shape shortest = SHAPE(8, 1, 0);
    sink ^= write_with(write, &shortest, (i + 1) * 0x100000001) ^ written[0];
}
static void longest_plain(unsigned i) { longest_with(i, plain_file_write); }
static void longest_memcpy(unsigned i) { longest_with(i, memcpy_file_write); }
static void longest_proved(unsigned i) { longest_with(i, softspoken_file_write); }
static void shortest_plain(unsigned i) { shortest_with(i, plain_file_write); }
static void shortest_memcpy(unsigned i) { shortest_with(i, memcpy_file_write); }
static void shortest_proved(unsigned i) { shortest_with(i, softspoken_file_write); }

/* Units are what the times are divided by: blocks, hashes, words. */
struct row { const char *name; work_once *plain; double plain_units; work_once *proved; double units, goal; };

static const struct row rows[] = {
    {"ChaCha20 block", block_plain, 1, block_one, 1, 1.0},
    {"ChaCha20 block, four at once", block_plain, 1, block_four, 4, 0.5},
    {"SHA-256 of 32 bytes", sha_plain, 1, sha_one, 1, 1.0},
    {"SHA-256 of 32 bytes, four at once", sha_plain, 1, sha_four, 4, 0.45},
    {"SHA-256 block of a long message", long_plain, 16, long_one, 16, 1.0},
    {"folded word, one column", fold_plain, COLUMNS * LENGTH / 8, fold_one, COLUMNS * LENGTH / 8, 1.0},
    {"folded word, four columns at once", fold_plain, COLUMNS * LENGTH / 8, fold_four, COLUMNS * LENGTH / 8, 0.35},
    {"rows of a batch, P = 15", rows_plain, 1, rows_proved, 1, 0.1},
    {"the same, beside C by 8 × 8 bits", rows_block8, 1, rows_proved, 1, 1.0},
    {"receiver setup, k = 8", receiver8_plain, 1, receiver8_proved, 1, 0.6},
    {"receiver setup, k = 1", receiver1_plain, 1, receiver1_proved, 1, 0.6},
    {"sender setup, k = 8", sender8_plain, 1, sender8_proved, 1, 0.6},
    {"sender setup, k = 1", sender1_plain, 1, sender1_proved, 1, 0.6},
    {"batch file read", file_plain, 1, file_proved, 1, 1.0},
    {"batch file write, longest", longest_plain, 1, longest_proved, 1, 1.0},
    {"the longest, beside memcpy", longest_memcpy, 1, longest_proved, 1, TOLD},
    {"batch file write, shortest", shortest_plain, 1, shortest_proved, 1, 1.0},
    {"the shortest, beside memcpy", shortest_memcpy, 1, shortest_proved, 1, TOLD},
};
enum { ROWS = sizeof rows / sizeof *rows };

static void compare(void) {
    uint8_t a[128], b[128], blocks[4][64];
    uint32_t t[512], four[64];
    uint64_t folds[4];
    for (uint32_t n = 0; n < 200; n++) {
        fill(key, sizeof key); fill(nonce, sizeof nonce); fill(message, sizeof message);
        for (int l = 0; l < 4; l++) {
            plain_chacha20_block(key[l], n, nonce, blocks[l]);
            for (int w = 0; w < 8; w++) memcpy(&lanes[4 * w + l], key[l] + 4 * w, 4);
        }
        bench_chacha20_one(key[0], n, nonce, a);
        expect(!memcmp(a, blocks[0], 64), "ChaCha20 block");
        bench_chacha20_four(lanes, n, nonce, four);
        for (int l = 0; l < 4; l++)
            for (int w = 0; w < 16; w++) expect(!memcmp(&four[4 * w + l], blocks[l] + 4 * w, 4), "four ChaCha20 blocks");
        plain_sha256(message, n, a); bench_sha256_one(message, n, b);
        expect(!memcmp(a, b, 32), "SHA-256");
        bench_sha256_four(message, b);
        for (int l = 0; l < 4; l++) { plain_sha256(message + 32 * l, 32, a); expect(!memcmp(a, b + 32 * l, 32), "four SHA-256"); }
        uint64_t g = random64();
        size_t len = 8 * (n % 17);
        bench_fold_table(g, t);
        bench_fold_four(t, message, 4 * len, len, folds);
        for (int c = 0; c < 4; c++) {
            uint64_t f = plain_fold(g, message + c * len, len);
            expect(f == folds[c] && f == bench_fold(g, message + c * len, len), "fold");
        }
    }
}

static void compare_rows(void) {
    static uint8_t a[1024 * BLOCKS], b[1024 * BLOCKS];
    for (unsigned blocks = 1; blocks <= BLOCKS; blocks++) {
        fill(table_bytes, sizeof table_bytes);
        plain_rows(blocks, table_bytes, a);
        proved_rows(blocks, table_bytes, b);
        expect(!memcmp(a, b, 1024 * blocks), "rows");
        block8_rows(blocks, table_bytes, b);
        expect(!memcmp(a, b, 1024 * blocks), "rows by 8 x 8 bits");
    }
}

static void compare_setups(void) {
    static uint8_t a[8192], b[8192];
    for (int n = 0; n < 40; n++) {
        uint32_t width = 1u << n % 4;
        fill(roots, sizeof roots); fill(delta, sizeof delta); fill(pads, sizeof pads); fill(totals, sizeof totals);
        plain_receiver_setup(width, roots, pads, a);
        expect(softspoken_receiver_setup(width, roots, 4096 / width, pads, 8192, b, 8192) == SOFTSPOKEN_DONE, "receiver setup");
        expect(!memcmp(a, b, 8192), "receiver setup");
        plain_sender_setup(width, delta, pads, totals, a);
        expect(softspoken_sender_setup(width, delta, 16, pads, 4096, totals, 8192, b, 4096) == SOFTSPOKEN_DONE, "sender setup");
        expect(!memcmp(a, b, 4096), "sender setup");
    }
}

static int same_file(struct softspoken_file a, struct softspoken_file b) {
    return a.answer == b.answer && a.width == b.width && a.blocks == b.blocks && a.batch == b.batch && a.setup == b.setup &&
           a.head == b.head && a.correction == b.correction && a.key == b.key && a.check == b.check && a.end == b.end;
}

/* Files of every width and number of blocks, with either head, some with batch 0 or a key below 4; then with the length of a body, a byte
   of contents or head, or the end changed. */
static void compare_files(void) {
    for (uint32_t n = 0; n < 12000; n++) {
        uint32_t width = 1u << n % 4, blocks = 1 + n / 4 % 15, first = 1 + n / 60 % 2;
        struct lengths lengths = lengths_for(width, blocks);
        if (random64() % 2) lengths.of[SOFTSPOKEN_FILE_HEAD] = SOFTSPOKEN_FILE_SHORT_HEAD_BYTES;
        int change = n / 120 % 4;
        if (change == 1) lengths.of[1 + random64() % 5] += random64() % 2 ? 1 : -1;
        size_t len = lay_file(file, first, lengths, width, blocks, random64() % 20 ? random64() >> random64() % 64 : 0);
        uint32_t key_len = lengths.of[SOFTSPOKEN_FILE_KEY];
        if (random64() % 8 == 0) put_le(file + len - lengths.of[SOFTSPOKEN_FILE_CHECK] - key_len, key_len, random64() % 4);
        size_t head = SOFTSPOKEN_FILE_CONTENTS_BYTES(6 - first) + (first == 1 ? lengths.of[1] : 0), at = random64() % 128;
        if (change == 2) file[at < 64 ? at : head + at % 10] = (uint8_t)random64() % (at % 2 ? 20 : 255);
        if (change == 3) len = random64() % (len + 2);
        expect(same_file(plain_file_read(file, len), softspoken_file_read(file, len)), "batch file read");
    }
}

/* Calls that are right, at every width and number of blocks, with a setup and without; and as many with one fault or more: a bit of the
   width, the blocks, a body's length or the file's length flipped, batch 0, or a key that isn't usable. The range starts alike for each
   writer. What lies behind the file stays, and after a refusal all of it. */
static void compare_writes(void) {
    static write_file *const writers[] = {plain_file_write, memcpy_file_write, softspoken_file_write};
    static uint8_t before[ROOM], first[ROOM];
    fill(travelled, sizeof travelled); fill(before, sizeof before);
    for (uint32_t n = 0; n < 6000; n++) {
        uint32_t width = 1u << n % 4, blocks = 1 + n / 4 % 15, setup = n / 60 % 2 * SOFTSPOKEN_SETUP_MESSAGE_BYTES, answer = 0;
        struct shape s = SHAPE(width, blocks, setup);
        uint64_t batch = 1 + (random64() >> random64() % 64);
        unsigned faults = n / 120 % 2 ? 1 + random64() % 63 : 0;
        if (faults & 1) s.width ^= 1u << random64() % 32;
        if (faults & 2) batch = 0;
        if (faults & 4) s.blocks ^= 1u << random64() % 32;
        if (faults & 8) s.len[random64() % BODIES] ^= 1u << random64() % 14;
        if (faults & 16) s.file_len ^= 1u << random64() % 15;
        put_le(travelled[KEY], SOFTSPOKEN_FILE_KEY_BYTES, faults & 32 ? random64() % 2 : 2 + random64() % 4);
        for (unsigned w = 0; w < sizeof writers / sizeof *writers; w++) {
            memcpy(written, before, ROOM);
            uint32_t told = write_with(writers[w], &s, batch);
            if (w == 0) answer = told, memcpy(first, written, ROOM);
            expect(told == answer && !memcmp(written, first, ROOM), "batch file write");
        }
        size_t laid = answer == SOFTSPOKEN_DONE ? s.file_len : 0;
        expect((answer == SOFTSPOKEN_DONE) == !faults, "batch file write, answer");
        expect(!memcmp(first + laid, before + laid, ROOM - laid), "batch file write, what stays");
    }
}

static void time_rows(void) {
    static struct timed plain[ROWS], proved[ROWS];
    fill(table_bytes, sizeof table_bytes);
    lay_file(file, SOFTSPOKEN_FILE_SETUP, lengths_for(1, SOFTSPOKEN_BLOCKS_MAX), 1, SOFTSPOKEN_BLOCKS_MAX, 1);
    for (int pass = 0; pass < PASSES; pass++)
        for (int r = 0; r < ROWS; r++) {
            time_pass(&plain[r], rows[r].plain);
            time_pass(&proved[r], rows[r].proved);
        }
    for (int r = 0; r < ROWS; r++)
        printf("work\t%s\t%.3f\t%.3f\t%.2f\n", rows[r].name, plain[r].best / rows[r].plain_units, proved[r].best / rows[r].units,
               rows[r].goal);
}

int main(void) {
    compare();
    compare_rows();
    compare_setups();
    compare_files();
    compare_writes();
    compare_steps();
    time_rows();
    time_steps();
    return 0;
}
