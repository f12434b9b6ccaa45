/* A batch kept on file and read back. Both sides run in one process, as in pair.c, which shows the rest of a host: its
   part on each answer, what it stores, and when it wipes. This one ends at the first refusal.

   The file has only what travelled: the setup message, width, blocks and batch number, the correction, the key and the
   check message. So it is public towards the other side, but a site protects it as it does its other records. */
#define _DEFAULT_SOURCE /* getentropy, explicit_bzero */
#include <softspoken.h>
#include <stdio.h>
#include <stdlib.h>
#include <string.h>
#include <unistd.h>

enum { WIDTH = 4, BLOCKS = 3 };
#define BATCH UINT64_C(4294967297)
#define RANGE(array) (array), sizeof(array)

/* What no other side sees, and no file. */
static struct {
    uint8_t roots[SOFTSPOKEN_ROOTS_BYTES(WIDTH)], base_pads[SOFTSPOKEN_RECEIVER_BASE_PADS_BYTES];
    uint8_t choices[SOFTSPOKEN_CHOICES_BYTES(BLOCKS)], receiver_table[SOFTSPOKEN_TABLE_BYTES(BLOCKS)];
    uint8_t receiver_pads[SOFTSPOKEN_RECEIVER_PADS_BYTES(BLOCKS)];
    uint8_t delta[SOFTSPOKEN_DELTA_BYTES], chosen_pads[SOFTSPOKEN_SENDER_BASE_PADS_BYTES];
    uint8_t siblings[SOFTSPOKEN_SIBLINGS_BYTES], sender_table[SOFTSPOKEN_TABLE_BYTES(BLOCKS)];
    uint8_t sender_pads[SOFTSPOKEN_SENDER_PADS_BYTES(BLOCKS)];
} secret;

static struct {
    uint8_t setup[SOFTSPOKEN_SETUP_MESSAGE_BYTES], correction[SOFTSPOKEN_CORRECTION_BYTES(WIDTH, BLOCKS)];
    uint8_t key[SOFTSPOKEN_FILE_KEY_BYTES], check[SOFTSPOKEN_CHECK_MESSAGE_BYTES];
} sent;

static void need(int right, const char *what) {
    if (right) return;
    fprintf(stderr, "keep: %s\n", what);
    exit(EXIT_FAILURE);
}

static void done(uint32_t answer) { need(answer == SOFTSPOKEN_DONE, softspoken_answer_name(answer)); }

static void draw(uint8_t *range, size_t n) {
    for (size_t at = 0; at < n; at += 256) /* getentropy gives no more at once */
        need(getentropy(range + at, n - at < 256 ? n - at : 256) == 0, "no random bytes");
}

static void setup(struct softspoken_record *receiver, struct softspoken_record *sender) {
    draw(RANGE(secret.roots));
    draw(RANGE(secret.base_pads));
    draw(RANGE(secret.delta));
    for (uint32_t t = 0; t < SOFTSPOKEN_BASE_TRANSFERS; t++) { /* the base transfers */
        unsigned choice = softspoken_base_choice(WIDTH, secret.delta, t);
        memcpy(secret.chosen_pads + 32 * t, secret.base_pads + 64 * t + 32 * choice, 32);
    }
    done(softspoken_receiver_setup(WIDTH, RANGE(secret.roots), RANGE(secret.base_pads), RANGE(sent.setup)));
    done(softspoken_sender_setup(WIDTH, RANGE(secret.delta), RANGE(secret.chosen_pads), RANGE(sent.setup),
                                 RANGE(secret.siblings)));
    done(softspoken_open(receiver, WIDTH));
    done(softspoken_open(sender, WIDTH));
}

static void batch(struct softspoken_record *receiver, struct softspoken_record *sender) {
    uint64_t key;
    done(softspoken_receiver_start(receiver, RANGE(secret.roots), BATCH, BLOCKS, RANGE(secret.choices),
                                   RANGE(secret.receiver_table), RANGE(sent.correction)));
    done(softspoken_sender_correct(sender, RANGE(secret.siblings), RANGE(secret.delta), BATCH, BLOCKS,
                                   RANGE(sent.correction), RANGE(secret.sender_table)));
    do { /* until it is usable */
        draw(RANGE(sent.key)); /* as it travels, little-endian */
        key = 0;
        for (unsigned i = 0; i < sizeof sent.key; i++) key |= (uint64_t)sent.key[i] << 8 * i;
    } while (key < 2);
    done(softspoken_receiver_answer(receiver, key, RANGE(secret.choices), RANGE(secret.receiver_table),
                                    RANGE(sent.check), RANGE(secret.receiver_pads)));
    done(softspoken_sender_verify(sender, key, RANGE(secret.sender_table), RANGE(secret.delta), RANGE(sent.check),
                                  RANGE(secret.sender_pads)));
}

static void store(const char *path, const uint8_t *file, size_t len) {
    FILE *to = fopen(path, "wb");
    need(to != NULL, "the file can't be made");
    need(fwrite(file, 1, len, to) == len, "the file can't be written");
    need(fclose(to) == 0, "the file can't be written");
}

static size_t load(const char *path, uint8_t *file, size_t room) {
    FILE *from = fopen(path, "rb");
    need(from != NULL, "the file can't be opened");
    size_t len = fread(file, 1, room, from);
    need(!ferror(from) && fclose(from) == 0, "the file can't be read");
    return len;
}

static int is(struct softspoken_body body, const uint8_t *bytes, size_t len) {
    return body.len == len && memcmp(body.bytes, bytes, len) == 0;
}

/* Reads a file, sees that it has what was kept, and writes what was found once more: these are the same bytes. */
static void look(const uint8_t *file, size_t len) {
    static uint8_t again[SOFTSPOKEN_FILE_MAX];
    struct softspoken_file found = softspoken_file_read(file, len);
    done(found.answer);
    struct softspoken_body setup = softspoken_file_body(&found, file, len, SOFTSPOKEN_FILE_SETUP);
    struct softspoken_body correction = softspoken_file_body(&found, file, len, SOFTSPOKEN_FILE_CORRECTION);
    struct softspoken_body key = softspoken_file_body(&found, file, len, SOFTSPOKEN_FILE_KEY);
    struct softspoken_body check = softspoken_file_body(&found, file, len, SOFTSPOKEN_FILE_CHECK);
    need(found.width == WIDTH && found.blocks == BLOCKS && found.batch == BATCH, "other values were read");
    need(is(setup, RANGE(sent.setup)) && is(correction, RANGE(sent.correction)) && is(key, RANGE(sent.key)) &&
         is(check, RANGE(sent.check)), "another body was read");
    size_t again_len = SOFTSPOKEN_FILE_BYTES(found.width, found.blocks, setup.len);
    done(softspoken_file_write(found.width, found.blocks, found.batch, setup.bytes, setup.len, correction.bytes,
                               correction.len, key.bytes, key.len, check.bytes, check.len, again, again_len));
    need(again_len == len && memcmp(again, file, len) == 0, "other bytes were written");
}

int main(int argc, char **argv) {
    static uint8_t kept[SOFTSPOKEN_FILE_BYTES(WIDTH, BLOCKS, sizeof sent.setup)];
    static uint8_t file[SOFTSPOKEN_FILE_MAX + 1]; /* one byte more, so that a longer file is refused */
    struct softspoken_record receiver, sender;
    need(argc == 2, "name the file to keep the batch in");
    setup(&receiver, &sender);
    batch(&receiver, &sender);
    explicit_bzero(&secret, sizeof secret);
    done(softspoken_file_write(WIDTH, BLOCKS, BATCH, RANGE(sent.setup), RANGE(sent.correction), RANGE(sent.key),
                               RANGE(sent.check), RANGE(kept)));
    store(argv[1], RANGE(kept));
    printf("width %d blocks %d batch %lu: %zu bytes kept\n", WIDTH, BLOCKS, (unsigned long)BATCH, sizeof kept);
    look(file, load(argv[1], RANGE(file)));
    puts("read back, and written again: the same");
    return EXIT_SUCCESS;
}
