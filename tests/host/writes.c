/* Writes files as a host program does, on the values and bodies that the second implementation stored: the answer and every byte of the
   file must be what that implementation gives. What is refused leaves the range, and no call writes beside it or to a body. */
#include "../../include/softspoken.h"
#include <stdio.h>
#include <stdlib.h>
#include <string.h>

/* The ranges: four bodies, of setup, correction, key and check, then the file. */
enum { BODIES = 4, FILE_AT = BODIES };

/* Each byte of the file's range before the call, and of so many after it. */
enum { BEFORE = 0xa5, GUARD = 16 };

static unsigned calls, wrong;

static void expect(int right, const char *what) {
    if (right) return;
    printf("host: write %u: %s\n", calls, what);
    wrong++;
}

/* Bytes of the stored file in an allocation of their own, with room for so many more. After the file's end, which is reported, all is 0. */
static uint8_t *take(FILE *f, size_t n, size_t more) {
    uint8_t *p = calloc(n + more + 1, 1);
    if (!p) exit(2);
    expect(fread(p, 1, n, f) == n, "the stored file is too short");
    return p;
}

static uint64_t take_number(FILE *f, size_t bytes) {
    uint8_t *p = take(f, bytes, 0);
    uint64_t number = 0;
    while (bytes-- > 0) number = number << 8 | p[bytes];
    free(p);
    return number;
}

/* What the call must leave of the file's range and the guard after it. */
static uint8_t *take_after(FILE *f, size_t n, uint32_t answer) {
    const size_t written = answer == SOFTSPOKEN_DONE ? n : 0;
    uint8_t *after = take(f, written, n + GUARD);
    memset(after + written, BEFORE, n - written + GUARD);
    return after;
}

/* One call; the answer that it must give. */
static uint32_t writes(FILE *f) {
    const uint32_t width = (uint32_t)take_number(f, 4), blocks = (uint32_t)take_number(f, 4);
    const uint64_t batch = take_number(f, 8);
    size_t n[BODIES + 1];
    uint8_t *bodies[BODIES], *before[BODIES];
    for (int i = 0; i <= BODIES; i++) {
        n[i] = take_number(f, 4);
        if (n[i] > 1 << 20) n[i] = 1 << 20;
    }
    for (int i = 0; i < BODIES; i++) {
        bodies[i] = take(f, n[i], 0);
        before[i] = malloc(n[i] + 1);
        if (!before[i]) exit(2);
        memcpy(before[i], bodies[i], n[i]);
    }
    const uint32_t answer = (uint32_t)take_number(f, 4);
    uint8_t *after = take_after(f, n[FILE_AT], answer), *file = malloc(n[FILE_AT] + GUARD);
    if (!file) exit(2);
    memset(file, BEFORE, n[FILE_AT] + GUARD);
    const uint32_t given = softspoken_file_write(width, blocks, batch, bodies[0], n[0], bodies[1], n[1], bodies[2], n[2], bodies[3], n[3],
                                                 file, n[FILE_AT]);
    expect(given == answer, "another answer");
    expect(!memcmp(file, after, n[FILE_AT] + GUARD), "other bytes");
    for (int i = 0; i < BODIES; i++) {
        expect(!memcmp(bodies[i], before[i], n[i]), "a body was written to");
        free(bodies[i]);
        free(before[i]);
    }
    free(after);
    free(file);
    calls++;
    return answer;
}

int main(int argc, char **argv) {
    const uint32_t answers[] = {SOFTSPOKEN_DONE,       SOFTSPOKEN_ERR_WIDTH, SOFTSPOKEN_ERR_BATCH, SOFTSPOKEN_ERR_BLOCKS,
                                SOFTSPOKEN_ERR_LENGTH, SOFTSPOKEN_ERR_BODY,  SOFTSPOKEN_ERR_KEY};
    unsigned given[SOFTSPOKEN_ERR_KEY + 1] = {0};
    FILE *f = argc == 2 ? fopen(argv[1], "rb") : NULL;
    if (!f) return 2;
    for (int c; (c = fgetc(f)) != EOF && wrong < 10;) {
        ungetc(c, f);
        const uint32_t answer = writes(f);
        if (answer <= SOFTSPOKEN_ERR_KEY) given[answer]++;
    }
    fclose(f);
    for (size_t i = 0; i < sizeof answers / sizeof *answers; i++) {
        if (given[answers[i]]) continue;
        printf("host: no write got %s\n", softspoken_answer_name(answers[i]));
        wrong++;
    }
    printf("host: %u stored writes, %u differences\n", calls, wrong);
    return wrong ? 1 : 0;
}
