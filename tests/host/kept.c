/* A host's code that shows a batch kept on file (docs/INTEGRATION.md quotes it), on files that are laid by hand: with a setup and without,
   and one for each place in the order of refusals. Then files that end in their contents, each in an allocation of its own, so that
   memcheck sees a read beyond it. */
#include "../file.h"
#include <stdio.h>
#include <stdlib.h>

static uint8_t laid[SOFTSPOKEN_FILE_MAX + 2];
static unsigned files, wrong;

static void show(FILE *from, FILE *to) {
    static uint8_t file[SOFTSPOKEN_FILE_MAX + 1]; /* a byte more than the longest file, so that a longer one is refused */
    size_t len = fread(file, 1, sizeof file, from);
    struct softspoken_file found = softspoken_file_read(file, len);
    if (found.answer != SOFTSPOKEN_DONE) {
        fprintf(to, "refused: %s\n", softspoken_answer_name(found.answer));
        return;
    }
    fprintf(to, "width %u, blocks %u, batch %lu\n", found.width, found.blocks, (unsigned long)found.batch);
    for (uint32_t kind = SOFTSPOKEN_FILE_SETUP; kind <= SOFTSPOKEN_FILE_CHECK; kind++) {
        struct softspoken_body body = softspoken_file_body(&found, file, len, kind);
        fprintf(to, "kind %u: %zu bytes\n", kind, body.len);
    }
}

/* The first bytes of what is laid, as a file on disk. */
static void shows(size_t len, const char *text) {
    char shown[200] = "";
    FILE *from = tmpfile(), *to = tmpfile();
    if (!from || !to || fwrite(laid, 1, len, from) != len) exit(2);
    rewind(from);
    show(from, to);
    rewind(to);
    size_t n = fread(shown, 1, sizeof shown - 1, to);
    fclose(from);
    fclose(to);
    files++;
    if (n == strlen(text) && !strcmp(shown, text)) return;
    printf("host: a file is shown as\n%sin the place of\n%s", shown, text);
    wrong++;
}

static void done(void) {
    const uint32_t most = SOFTSPOKEN_BLOCKS_MAX;
    struct lengths n = lengths_for(8, 1);
    shows(lay_file(laid, SOFTSPOKEN_FILE_HEAD, n, 8, 1, 7),
          "width 8, blocks 1, batch 7\n"
          "kind 1: 0 bytes\nkind 2: 10 bytes\nkind 3: 240 bytes\nkind 4: 8 bytes\nkind 5: 1032 bytes\n");
    n.of[SOFTSPOKEN_FILE_HEAD] = SOFTSPOKEN_FILE_SHORT_HEAD_BYTES;
    shows(lay_file(laid, SOFTSPOKEN_FILE_HEAD, n, 8, 1, UINT32_MAX),
          "width 8, blocks 1, batch 4294967295\n"
          "kind 1: 0 bytes\nkind 2: 6 bytes\nkind 3: 240 bytes\nkind 4: 8 bytes\nkind 5: 1032 bytes\n");
    shows(lay_file(laid, SOFTSPOKEN_FILE_SETUP, lengths_for(1, most), 1, most, UINT64_MAX),
          "width 1, blocks 15, batch 18446744073709551615\n"
          "kind 1: 8192 bytes\nkind 2: 10 bytes\nkind 3: 16256 bytes\nkind 4: 8 bytes\nkind 5: 1032 bytes\n");
    shows(SOFTSPOKEN_FILE_MAX + 1, "refused: SOFTSPOKEN_ERR_CONTENTS\n");
    shows(SOFTSPOKEN_FILE_MAX + 2, "refused: SOFTSPOKEN_ERR_CONTENTS\n");
}

/* A file with a setup and key 1, which isn't usable. */
static size_t lay_weak(struct lengths n, uint32_t width, uint32_t blocks, uint64_t batch) {
    const size_t len = lay_file(laid, SOFTSPOKEN_FILE_SETUP, n, width, blocks, batch);
    uint8_t *key = laid + len - n.of[SOFTSPOKEN_FILE_CHECK] - n.of[SOFTSPOKEN_FILE_KEY];
    memset(key, 0, n.of[SOFTSPOKEN_FILE_KEY]);
    key[0] = 1;
    return len;
}

/* From the last refusal to the first, each with the faults of those before it left in. */
static void refused(void) {
    struct lengths n = lengths_for(1, 1);
    shows(lay_weak(n, 1, 1, 1), "refused: SOFTSPOKEN_ERR_KEY\n");
    n.of[SOFTSPOKEN_FILE_KEY]++;
    shows(lay_weak(n, 1, 1, 1), "refused: SOFTSPOKEN_ERR_BODY\n");
    shows(lay_weak(n, 1, 16, 1), "refused: SOFTSPOKEN_ERR_BLOCKS\n");
    shows(lay_weak(n, 1, 16, 0), "refused: SOFTSPOKEN_ERR_BATCH\n");
    shows(lay_weak(n, 3, 16, 0), "refused: SOFTSPOKEN_ERR_WIDTH\n");
    n.of[SOFTSPOKEN_FILE_HEAD]--;
    const size_t len = lay_weak(n, 3, 16, 0);
    shows(len, "refused: SOFTSPOKEN_ERR_BODY\n");
    shows(len - 1, "refused: SOFTSPOKEN_ERR_CONTENTS\n");
}

static void cut(uint32_t first) {
    lay_file(laid, first, lengths_for(1, 1), 1, 1, 1);
    for (size_t len = 0; len <= SOFTSPOKEN_FILE_CONTENTS_BYTES(SOFTSPOKEN_FILE_CHECK + 1 - first); len++) {
        uint8_t *file = malloc(len);
        if (!file) exit(2);
        memcpy(file, laid, len);
        if (softspoken_file_read(file, len).answer != SOFTSPOKEN_ERR_CONTENTS) {
            printf("host: a file of %zu bytes is not refused\n", len);
            wrong++;
        }
        free(file);
        files++;
    }
}

int main(void) {
    done();
    refused();
    cut(SOFTSPOKEN_FILE_SETUP);
    cut(SOFTSPOKEN_FILE_HEAD);
    printf("host: %u files laid by hand and read, %u differences\n", files, wrong);
    return wrong ? 1 : 0;
}
