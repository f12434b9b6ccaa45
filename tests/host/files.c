/* Reads files as a host program does, those that the second implementation stored: the numbers that come back, and the body that the
   header's function hands out of each kind, must be what that implementation gives, and the file must stay as it was. Of a file that is
   taken, what was found is written and read back: with the same values and bodies, and the same bytes where the head is a long one. Then
   each refusal of the writer. */
#include "../../include/softspoken.h"
#include <stdio.h>
#include <stdlib.h>
#include <string.h>

/* No kind above this is asked for; 0 and this one are no kinds. */
enum { LAST = 6 };

/* Each byte of a range that is to be written, and of so many after it. */
enum { BEFORE = 0xa5, GUARD = 16 };

static unsigned calls, written, same, wrong;

static void expect(int right, const char *what) {
    if (right) return;
    printf("host: file %u: %s\n", calls, what);
    wrong++;
}

/* Bytes of the stored file in an allocation of their own. After the file's end, which is reported, all is 0. */
static uint8_t *take(FILE *f, size_t n) {
    uint8_t *p = calloc(n + 1, 1);
    if (!p) exit(2);
    expect(fread(p, 1, n, f) == n, "the stored file is too short");
    return p;
}

/* The next number of the stored file is this one. */
static void expect_number(FILE *f, uint64_t number, size_t n, const char *what) {
    uint8_t *p = take(f, n);
    expect(!memcmp(p, &number, n), what);
    free(p);
}

static uint32_t take_length(FILE *f) {
    uint32_t n;
    uint8_t *p = take(f, sizeof n);
    memcpy(&n, p, sizeof n);
    free(p);
    return n < 1 << 20 ? n : 1 << 20;
}

/* The body is as stored, and a part of the file, or empty. */
static void expect_body(FILE *f, struct softspoken_body body, const uint8_t *file, size_t len) {
    const size_t n = take_length(f);
    uint8_t *stored = take(f, n);
    expect(body.len == n, "a body of another length");
    if (body.len == n && n > 0) {
        expect(body.bytes >= file && body.bytes + n <= file + len, "a body outside the file");
        expect(!memcmp(body.bytes, stored, n), "another body");
    }
    free(stored);
}

/* What a file is written of. */
struct batch {
    uint32_t width, blocks;
    uint64_t number;
    struct softspoken_body setup, correction, key, check;
};

static struct batch batch_in(const struct softspoken_file *found, const uint8_t *file, size_t len) {
    return (struct batch){found->width,
                          found->blocks,
                          found->batch,
                          softspoken_file_body(found, file, len, SOFTSPOKEN_FILE_SETUP),
                          softspoken_file_body(found, file, len, SOFTSPOKEN_FILE_CORRECTION),
                          softspoken_file_body(found, file, len, SOFTSPOKEN_FILE_KEY),
                          softspoken_file_body(found, file, len, SOFTSPOKEN_FILE_CHECK)};
}

static int same_body(struct softspoken_body a, struct softspoken_body b) { return a.len == b.len && !memcmp(a.bytes, b.bytes, a.len); }

static int same_batch(struct batch a, struct batch b) {
    return a.width == b.width && a.blocks == b.blocks && a.number == b.number && same_body(a.setup, b.setup) &&
           same_body(a.correction, b.correction) && same_body(a.key, b.key) && same_body(a.check, b.check);
}

static int untouched(const uint8_t *p, size_t n) {
    while (n > 0 && p[n - 1] == BEFORE) n--;
    return n == 0;
}

/* Writes a batch to a range of this length, in an allocation of its own. */
static uint8_t *writes(struct batch b, size_t n, uint32_t answer) {
    uint8_t *out = malloc(n + GUARD);
    if (!out) exit(2);
    memset(out, BEFORE, n + GUARD);
    const uint32_t given = softspoken_file_write(b.width, b.blocks, b.number, b.setup.bytes, b.setup.len, b.correction.bytes,
                                                 b.correction.len, b.key.bytes, b.key.len, b.check.bytes, b.check.len, out, n);
    expect(given == answer, "another answer of the writer");
    expect(untouched(out + n, GUARD), "it was written beyond the range");
    return out;
}

static void expect_refused(struct batch b, size_t n, uint32_t answer) {
    uint8_t *out = writes(b, n, answer);
    expect(untouched(out, n), "a refused range was written to");
    free(out);
}

/* From the last refusal to the first, each with the faults of those before it left in. This is the right length. */
static void expect_refusals(struct batch b, size_t n) {
    static const uint8_t weak[2][SOFTSPOKEN_FILE_KEY_BYTES] = {{0}, {1}};
    expect_refused(b, n - 1, SOFTSPOKEN_ERR_LENGTH);
    expect_refused(b, n + 1, SOFTSPOKEN_ERR_LENGTH);
    for (int key = 0; key < 2; key++) {
        b.key.bytes = weak[key];
        expect_refused(b, n, SOFTSPOKEN_ERR_KEY);
        expect_refused(b, n - 1, SOFTSPOKEN_ERR_KEY);
        expect_refused(b, n + 1, SOFTSPOKEN_ERR_KEY);
    }
    struct batch other = b;
    other.correction.len++, other.key.len--; /* together they are as long as before */
    expect_refused(other, n, SOFTSPOKEN_ERR_BODY);
    b.setup.len = 1; /* neither a setup nor none */
    expect_refused(b, n, SOFTSPOKEN_ERR_BODY);
    expect_refused(b, n + 1, SOFTSPOKEN_ERR_BODY);
    b.blocks += 256;
    expect_refused(b, n + 1, SOFTSPOKEN_ERR_BLOCKS);
    b.number = 0;
    expect_refused(b, n + 1, SOFTSPOKEN_ERR_BATCH);
    b.width += 256;
    expect_refused(b, n + 1, SOFTSPOKEN_ERR_WIDTH);
}

/* Writes what was found in a file that is taken. */
static void writes_again(const struct softspoken_file *found, const uint8_t *file, size_t len) {
    const struct batch b = batch_in(found, file, len);
    const size_t n = SOFTSPOKEN_FILE_BYTES(b.width, b.blocks, b.setup.len);
    uint8_t *out = writes(b, n, SOFTSPOKEN_DONE);
    const struct softspoken_file again = softspoken_file_read(out, n);
    expect(again.answer == SOFTSPOKEN_DONE && same_batch(b, batch_in(&again, out, n)), "what was written is read as another batch");
    if (softspoken_file_body(found, file, len, SOFTSPOKEN_FILE_HEAD).len == SOFTSPOKEN_FILE_HEAD_BYTES) {
        expect(n == len && !memcmp(out, file, n), "it was written with other bytes");
        same++;
    }
    free(out);
    expect_refusals(b, n);
    written++;
}

/* Reads one file; its answer. */
static uint32_t reads(FILE *f) {
    const size_t len = take_length(f);
    uint8_t *file = take(f, len), *before = malloc(len + 1);
    if (!before) exit(2);
    memcpy(before, file, len);
    const struct softspoken_file found = softspoken_file_read(file, len);
    expect_number(f, found.answer, 4, "another answer");
    expect_number(f, found.width, 4, "another width");
    expect_number(f, found.blocks, 4, "other blocks");
    expect_number(f, found.batch, 8, "another batch number");
    const uint64_t places[6] = {found.setup, found.head, found.correction, found.key, found.check, found.end};
    for (int i = 0; i < 6; i++) expect_number(f, places[i], 8, "another place");
    for (uint32_t kind = 0; kind <= LAST; kind++) expect_body(f, softspoken_file_body(&found, file, len, kind), file, len);
    if (found.answer == SOFTSPOKEN_DONE) writes_again(&found, file, len);
    expect(!memcmp(file, before, len), "it was written to");
    free(before);
    free(file);
    calls++;
    return found.answer;
}

int main(int argc, char **argv) {
    const uint32_t answers[] = {SOFTSPOKEN_DONE,      SOFTSPOKEN_ERR_WIDTH,    SOFTSPOKEN_ERR_BATCH,
                                SOFTSPOKEN_ERR_BLOCKS, SOFTSPOKEN_ERR_CONTENTS, SOFTSPOKEN_ERR_BODY,
                                SOFTSPOKEN_ERR_KEY};
    unsigned given[SOFTSPOKEN_ERR_KEY + 1] = {0};
    FILE *f = argc == 2 ? fopen(argv[1], "rb") : NULL;
    if (!f) return 2;
    for (int c; (c = fgetc(f)) != EOF && wrong < 10;) {
        ungetc(c, f);
        const uint32_t answer = reads(f);
        if (answer <= SOFTSPOKEN_ERR_KEY) given[answer]++;
    }
    fclose(f);
    for (size_t i = 0; i < sizeof answers / sizeof *answers; i++) {
        if (given[answers[i]]) continue;
        printf("host: no file got %s\n", softspoken_answer_name(answers[i]));
        wrong++;
    }
    if (!same || same == written) {
        printf("host: no file with one of the two heads was written\n");
        wrong++;
    }
    printf("host: %u stored files read, %u of them written, %u to the same bytes, %u differences\n", calls, written, same, wrong);
    return wrong ? 1 : 0;
}
