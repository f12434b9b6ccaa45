/* The parts of include/softspoken.h that are code: its inline functions on numbers that are allowed and on numbers that are not, its
   macros on variables, and the version, which the argument gives as pkg-config tells it. To be run under sanitizers: delta, the choices
   and a file stand in allocations of their own, so that a read beyond them is seen. */
#include <softspoken.h>
#include <stdio.h>
#include <stdlib.h>
#include <string.h>

static unsigned wrong;

static void expect(int right, const char *what, uint32_t a, uint32_t b) {
    if (right) return;
    if (wrong++ < 10) printf("inline: %s, on %lu and %lu\n", what, (unsigned long)a, (unsigned long)b);
}

/* As the header's text has it: tree i's path ends at the leaf whose number is the tree's bits of delta. */
static unsigned path_side(uint32_t width, const uint8_t *delta, uint32_t transfer) {
    uint32_t tree = transfer / width, level = transfer % width, leaf = 0;
    for (uint32_t b = 0; b < width; b++) leaf |= (uint32_t)(delta[(tree * width + b) / 8] >> (tree * width + b) % 8 & 1) << b;
    return leaf >> (width - 1 - level) & 1u;
}

static void base_choices(uint8_t *delta) {
    const uint32_t far[] = {255, 256, 257, 1u << 31, UINT32_MAX - 7, UINT32_MAX - 1, UINT32_MAX};
    for (uint32_t w = 0; w < 140 + 7; w++)
        for (uint32_t t = 0; t < 140 + 7; t++) {
            uint32_t width = w < 140 ? w : far[w - 140], transfer = t < 140 ? t : far[t - 140];
            int allowed = (width == 1 || width == 2 || width == 4 || width == 8) && transfer < 128;
            unsigned choice = softspoken_base_choice(width, delta, transfer);
            expect(choice == (allowed ? 1u - path_side(width, delta, transfer) : 0), "base choice", width, transfer);
        }
}

static void choices(uint8_t *range, uint32_t blocks) {
    for (uint32_t row = 0; row < 64 * (blocks + 1); row++)
        expect(softspoken_choice(range, row) == (range[row / 8] & 1 << row % 8 ? 1u : 0u), "choice", blocks, row);
}

static void sizes(void) {
    for (uint32_t width = 0; width < 300; width++) {
        size_t trees = 0;
        while (width && (trees + 1) * width <= 128) trees++;
        expect(SOFTSPOKEN_TREES(width) == trees, "trees", width, 0);
        expect(SOFTSPOKEN_ROOTS_BYTES(width) == 32 * trees, "roots", width, 0);
        expect(SOFTSPOKEN_CORRECTION_BYTES(width, 2) == (trees ? trees - 1 : 0) * 24, "correction", width, 2);
    }
}

static void names(void) {
#define NAMED(answer) expect(!strcmp(softspoken_answer_name(answer), #answer), #answer, answer, 0)
    NAMED(SOFTSPOKEN_DONE);
    NAMED(SOFTSPOKEN_ERR_WIDTH);
    NAMED(SOFTSPOKEN_ERR_STAGE);
    NAMED(SOFTSPOKEN_ERR_BATCH);
    NAMED(SOFTSPOKEN_ERR_BLOCKS);
    NAMED(SOFTSPOKEN_ERR_LENGTH);
    NAMED(SOFTSPOKEN_ERR_CHECK);
    NAMED(SOFTSPOKEN_ERR_CONTENTS);
    NAMED(SOFTSPOKEN_ERR_BODY);
    NAMED(SOFTSPOKEN_ERR_KEY);
    for (uint32_t answer = 10; answer < 1000; answer++)
        expect(!strcmp(softspoken_answer_name(answer), "unknown answer"), "an answer that there is not", answer, 0);
    expect(!strcmp(softspoken_answer_name(UINT32_MAX), "unknown answer"), "the highest number", UINT32_MAX, 0);
}

/* A body reaches from its place to the next, if both stand in the file in this order; it is empty otherwise, and for any other kind. Its
   bytes are read, so that a part which isn't in the file is seen. */
static void body(const struct softspoken_file *found, const uint8_t *file, size_t len, uint32_t kind, uint64_t from, uint64_t to) {
    struct softspoken_body part = softspoken_file_body(found, file, len, kind);
    size_t same = 0;
    for (size_t i = 0; i < part.len; i++) same += part.bytes[i] == (uint8_t)(from + i);
    expect(same == part.len && part.bytes >= file && part.bytes <= file + len, "bytes of a body", (uint32_t)len, kind);
    expect(part.len == (from < to && to <= len ? to - from : 0), "length of a body", (uint32_t)len, kind);
}

/* All places are at the file's end but two neighbours, which go over numbers in the file, around its end and far beyond. */
static void bodies(const uint8_t *file, size_t len) {
    const uint64_t places[] = {0, 1, 2, len / 2, len - 1, len, len + 1, len + 1024, UINT32_MAX, (uint64_t)1 << 32, ((uint64_t)1 << 32) + 1,
                               UINT64_MAX / 2, UINT64_MAX / 2 + 1, UINT64_MAX - 1, UINT64_MAX};
    const uint32_t others[] = {0, 6, 7, 255, 256, 257, 258, 65537, UINT32_MAX - 1, UINT32_MAX};
    const size_t count = sizeof places / sizeof *places;
    for (size_t n = 0; n < count * count; n++)
        for (uint32_t kind = 1; kind <= 5; kind++) {
            const uint64_t from = places[n / count], to = places[n % count];
            struct softspoken_file found = {SOFTSPOKEN_DONE, 1, 1, 1, len, len, len, len, len, len};
            uint64_t *const in_order[] = {&found.setup, &found.head, &found.correction, &found.key, &found.check, &found.end};
            *in_order[kind - 1] = from;
            *in_order[kind] = to;
            body(&found, file, len, kind, from, to);
            for (size_t i = 0; i < sizeof others / sizeof *others; i++) body(&found, file, len, others[i], 0, 0);
        }
}

int main(int argc, char **argv) {
    char version[32];
    uint8_t *delta = (uint8_t *)malloc(SOFTSPOKEN_DELTA_BYTES);
    if (argc != 2 || !delta) return 2;
    snprintf(version, sizeof version, "%d.%d.%d", SOFTSPOKEN_VERSION_MAJOR, SOFTSPOKEN_VERSION_MINOR, SOFTSPOKEN_VERSION_PATCH);
    expect(!strcmp(SOFTSPOKEN_VERSION, version), "the version's numbers", SOFTSPOKEN_VERSION_NUMBER, 0);
    expect(!strcmp(SOFTSPOKEN_VERSION, argv[1]), "the version in the pkg-config file", SOFTSPOKEN_VERSION_NUMBER, 0);
    for (unsigned fill = 0; fill < 64; fill++) {
        for (unsigned i = 0; i < SOFTSPOKEN_DELTA_BYTES; i++) delta[i] = (uint8_t)((fill * 16 + i) * 0x9e3779b1u >> 24);
        base_choices(delta);
    }
    free(delta);
    for (uint32_t blocks = 1; blocks <= SOFTSPOKEN_BLOCKS_MAX; blocks++) {
        uint8_t *range = (uint8_t *)malloc(SOFTSPOKEN_CHOICES_BYTES(blocks));
        if (!range) return 2;
        for (size_t i = 0; i < SOFTSPOKEN_CHOICES_BYTES(blocks); i++) range[i] = (uint8_t)((i + blocks) * 0x9e3779b1u >> 24);
        choices(range, blocks);
        free(range);
    }
    for (size_t len = 0; len < 300; len += len < 4 ? 1 : 59) {
        uint8_t *file = (uint8_t *)malloc(len);
        if (!file && len) return 2;
        for (size_t i = 0; i < len; i++) file[i] = (uint8_t)i;
        bodies(file, len);
        free(file);
    }
    sizes();
    names();
    if (wrong) printf("inline: %u differences\n", wrong);
    return wrong ? 1 : 0;
}
