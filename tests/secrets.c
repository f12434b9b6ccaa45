/* No branch and no address may depend on a secret. Contracts can't say this and a mask in the source is not enough, so the compiled
   functions run under memcheck with every secret range marked undefined: a jump or an address that depends on one is reported. */
#include "../bench/bench.h"
#include "ranges.h"
#include <stdio.h>
#include <string.h>
#include <valgrind/memcheck.h>

static int failed;

static void fail(const char *name, const char *what) {
    printf("%s: %s\n", name, what);
    failed = 1;
}

static void hide(const void *range, size_t n) { VALGRIND_MAKE_MEM_UNDEFINED(range, n); }

/* The work reported so many jumps and addresses, each time that one was met. */
static void expect_reports(const char *name, unsigned before, unsigned reports) {
    if (VALGRIND_COUNT_ERRORS - before != reports) fail(name, "steered by a secret");
}

/* What was written still depends on the secret, so the marking was not lost on the way. From here on all of it counts as secret. (The look
   counts as an error of its own.) */
static void expect_secret(const char *name, const void *out, size_t n) {
    if (VALGRIND_CHECK_MEM_IS_DEFINED(out, n) == 0) fail(name, "the secret does not reach the output");
    hide(out, n);
}

/* What is public, and must hold nothing of a secret. */
static void expect_public(const char *name, const void *out, size_t n) {
    if (VALGRIND_CHECK_MEM_IS_DEFINED(out, n) != 0) fail(name, "a secret reaches what is public");
}

/* Run as part of the work: an answer that depends on a secret is reported here. */
static void expect_answer(const char *name, uint32_t answer, uint32_t expected) {
    if (answer != expected) fail(name, "another answer");
}

/* A step whose answer is known, and the jumps in it that a secret may decide. */
#define STEP(name, work, answer, reports) \
    do { \
        unsigned before = VALGRIND_COUNT_ERRORS; \
        expect_answer(name, work, answer); \
        expect_reports(name, before, reports); \
    } while (0)
#define DONE(name, work) STEP(name, work, SOFTSPOKEN_DONE, 0)

/* Both sides, each step on what the one before it wrote. Roots, delta, base pads, siblings, choices, tables, rows and pads are secret; the
   setup message, the correction and the check message, which are sent, count as secret here too. The records, the key, the numbers and
   the lengths are public. */

static const uint64_t key = 0x0123456789abcdef;

static void setups(uint32_t width) {
    memset(setup_message, 0, sizeof setup_message);
    memset(siblings, 0, sizeof siblings);
    DONE("receiver setup",
         softspoken_receiver_setup(width, roots, SOFTSPOKEN_ROOTS_BYTES(width), RANGE(receiver_base_pads), RANGE(setup_message)));
    expect_secret("receiver setup", RANGE(setup_message));
    DONE("sender setup", softspoken_sender_setup(width, RANGE(delta), RANGE(sender_base_pads), RANGE(setup_message), RANGE(siblings)));
    expect_secret("sender setup", RANGE(siblings));
}

/* Opens a session. What follows a record's stage means nothing, and opening may leave there what a register held, so it is set anew: no
   later step may bring a secret to it. */
static void open_record(struct softspoken_record *r, uint32_t width) {
    const size_t fields = offsetof(struct softspoken_record, stage) + sizeof r->stage;
    DONE("open", softspoken_open(r, width));
    expect_public("open", r, fields);
    memset((uint8_t *)r + fields, 0, sizeof *r - fields);
}

/* Both tables, the choices and the correction of a batch, and the records open. */
static void begin(uint32_t width, uint32_t blocks, struct softspoken_record *receiver, struct softspoken_record *sender) {
    const size_t len = SOFTSPOKEN_CHOICES_BYTES(blocks), table = SOFTSPOKEN_TABLE_BYTES(blocks);
    const size_t sent = SOFTSPOKEN_CORRECTION_BYTES(width, blocks);
    memset(choices, 0, len);
    memset(v, 0, table);
    memset(correction, 0, sent);
    memset(w, 0, table);
    open_record(receiver, width);
    open_record(sender, width);
    DONE("receiver start", softspoken_receiver_start(receiver, roots, SOFTSPOKEN_ROOTS_BYTES(width), 1, blocks, choices, len, v, table,
                                                     correction, sent));
    expect_public("receiver start", receiver, sizeof *receiver);
    expect_secret("choices", choices, len);
    expect_secret("receiver's table", v, table);
    expect_secret("correction", correction, sent);
    DONE("sender correction", softspoken_sender_correct(sender, RANGE(siblings), RANGE(delta), 1, blocks, correction, sent, w, table));
    expect_public("sender correction", sender, sizeof *sender);
    expect_secret("sender's table", w, table);
}

static void answer(uint32_t blocks, struct softspoken_record *receiver) {
    const size_t len = SOFTSPOKEN_CHOICES_BYTES(blocks), table = SOFTSPOKEN_TABLE_BYTES(blocks);
    const size_t pads = SOFTSPOKEN_RECEIVER_PADS_BYTES(blocks);
    memset(message, 0, sizeof message);
    memset(receiver_pads, 0, pads);
    STEP("refused key", softspoken_receiver_answer(receiver, 1, choices, len, v, table, RANGE(message), receiver_pads, pads),
         SOFTSPOKEN_ERR_KEY, 0);
    DONE("receiver answer", softspoken_receiver_answer(receiver, key, choices, len, v, table, RANGE(message), receiver_pads, pads));
    expect_public("receiver answer", receiver, sizeof *receiver);
    expect_secret("check message", RANGE(message));
    expect_secret("receiver's pads", receiver_pads, pads);
}

/* The verify's answer is public and depends on secrets: one jump decides it, and only one, though there are 128 columns. The record and
   the answer must be public then, and a message with a wrong first or last fold is told in the same way, before a pad is written. */
static void verify(uint32_t blocks, const struct softspoken_record *open) {
    const size_t table = SOFTSPOKEN_TABLE_BYTES(blocks), pads = SOFTSPOKEN_SENDER_PADS_BYTES(blocks);
    struct softspoken_record r;
    memset(sender_pads, 0, pads);
    r = *open;
    STEP("refused key", softspoken_sender_verify(&r, 1, w, table, RANGE(delta), RANGE(message), sender_pads, pads), SOFTSPOKEN_ERR_KEY, 0);
    expect_public("refused key", &r, sizeof r);
    expect_public("refused key", sender_pads, pads);
    for (size_t at = 8; at < sizeof message; at += 8 * 127) {
        r = *open;
        message[at] ^= 1;
        STEP("refused check", softspoken_sender_verify(&r, key, w, table, RANGE(delta), RANGE(message), sender_pads, pads),
             SOFTSPOKEN_ERR_CHECK, 1);
        message[at] ^= 1;
        expect_public("refused check", &r, sizeof r);
        expect_public("refused check", sender_pads, pads);
    }
    r = *open;
    STEP("sender verify", softspoken_sender_verify(&r, key, w, table, RANGE(delta), RANGE(message), sender_pads, pads), SOFTSPOKEN_DONE, 1);
    expect_public("sender verify", &r, sizeof r);
    expect_secret("sender's pads", sender_pads, pads);
}

static void batch(uint32_t width, uint32_t blocks) {
    struct softspoken_record receiver, sender;
    begin(width, blocks, &receiver, &sender);
    answer(blocks, &receiver);
    verify(blocks, &sender);
}

/* What travelled in the batch before is written to a file, with a setup of so many bytes. All of it but the key counts as secret here;
   contents and head must be public. */
static size_t write_file(uint32_t width, uint32_t blocks, size_t setup, uint8_t *file) {
    static const uint8_t sent_key[SOFTSPOKEN_FILE_KEY_BYTES] = {27};
    const size_t len = SOFTSPOKEN_FILE_BYTES(width, blocks, setup), sent = SOFTSPOKEN_CORRECTION_BYTES(width, blocks);
    uint8_t *bodies = file + SOFTSPOKEN_FILE_CONTENTS_BYTES(setup ? 5 : 4), *head = bodies + setup;
    uint8_t *rest = head + SOFTSPOKEN_FILE_HEAD_BYTES;
    memset(file, 0, len);
    DONE("file write", softspoken_file_write(width, blocks, 1, setup_message, setup, correction, sent, RANGE(sent_key), RANGE(message),
                                             file, len));
    expect_public("contents of a file", file, bodies - file);
    if (setup) expect_secret("setup in a file", bodies, setup);
    expect_public("head in a file", head, rest - head);
    expect_secret("correction in a file", rest, sent);
    expect_public("key in a file", rest + sent, sizeof sent_key);
    expect_secret("check message in a file", rest + sent + sizeof sent_key, sizeof message);
    return len;
}

/* The reader is steered by contents, head and key alone, and tells nothing of the other bodies. Between blocks and batch the struct has
   bytes that mean nothing. */
static void file(uint32_t width, uint32_t blocks, size_t setup) {
    static uint8_t kept[SOFTSPOKEN_FILE_MAX];
    const size_t len = write_file(width, blocks, setup, kept);
    unsigned before = VALGRIND_COUNT_ERRORS;
    struct softspoken_file found = softspoken_file_read(kept, len);
    expect_answer("file read", found.answer, SOFTSPOKEN_DONE);
    expect_reports("file read", before, 0);
    expect_public("file read", &found, offsetof(struct softspoken_file, blocks) + sizeof found.blocks);
    expect_public("file read", &found.batch, sizeof found - offsetof(struct softspoken_file, batch));
}

static void files(uint32_t width, uint32_t blocks) {
    file(width, blocks, 0);
    file(width, blocks, sizeof setup_message);
}

/* The functions of the layers below, alone. */

#define RUN(name, work, out) \
    do { \
        memset(out, 0, sizeof out); \
        unsigned before = VALGRIND_COUNT_ERRORS; \
        work; \
        expect_reports(name, before, 0); \
        expect_secret(name, RANGE(out)); \
    } while (0)

static void layers(void) {
    static const uint8_t nonce[12];
    static uint32_t table[512];
    uint8_t bytes[128], rows[1024];
    uint32_t words[64], keys[32];
    uint64_t folds[4], fold[1];
    memcpy(keys, roots, sizeof keys);
    bench_fold_table(key, table);
    RUN("chacha20::one::block", bench_chacha20_one(roots, 1, nonce, bytes), bytes);
    RUN("chacha20::four::block", bench_chacha20_four(keys, 1, nonce, words), words);
    RUN("sha256::one::digest", bench_sha256_one(roots, 200, bytes), bytes);
    RUN("sha256::four::digest", bench_sha256_four(roots, bytes), bytes);
    RUN("gf64::fold", fold[0] = bench_fold(key, roots, 128), fold);
    RUN("gf64::fold_four", bench_fold_four(table, roots, 512, 128, folds), folds);
    RUN("rows::block_rows", bench_block_rows(16, roots, 2048, 1, RANGE(rows)), rows);
}

/* The header's functions that read a secret, as this compiler makes them. */
static void inline_functions(void) {
    uint8_t bits[SOFTSPOKEN_BASE_TRANSFERS];
    for (uint32_t width = 1; width <= 8; width *= 2)
        RUN("base choice", for (uint32_t t = 0; t < sizeof bits; t++) bits[t] = softspoken_base_choice(width, delta, t), bits);
    RUN("choice", for (size_t row = 0; row < sizeof bits; row++) bits[row] = softspoken_choice(roots, row), bits);
}

/* Planted leaks, a jump and an address that a secret decides, to see that the test can fail. */

__attribute__((noinline)) static int planted_jump(void) {
    unsigned before = VALGRIND_COUNT_ERRORS;
    if (bench_fold(3, roots, 16) & 1) puts("odd");
    expect_reports("planted jump", before, 0);
    return failed;
}

__attribute__((noinline)) static int planted_address(void) {
    static const uint8_t table[16] = {1};
    volatile uint8_t out;
    unsigned before = VALGRIND_COUNT_ERRORS;
    out = table[bench_fold(3, roots, 16) & 15];
    (void)out;
    expect_reports("planted address", before, 0);
    return failed;
}

int main(int argc, char **argv) {
    const char *planted = argc > 1 ? argv[1] : "";
    if (!RUNNING_ON_VALGRIND) return 2;
    fill_inputs();
    hide(RANGE(roots));
    hide(RANGE(delta));
    hide(RANGE(receiver_base_pads));
    hide(RANGE(sender_base_pads));
    if (!strcmp(planted, "jump")) return planted_jump();
    if (!strcmp(planted, "address")) return planted_address();
    layers();
    inline_functions();
    for (uint32_t width = 1; width <= 8; width *= 2) {
        setups(width);
        batch(width, 1);
        files(width, 1);
        batch(width, MOST);
        files(width, MOST);
    }
    return failed;
}
