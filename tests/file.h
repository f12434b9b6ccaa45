/* A batch file laid by hand, by what include/softspoken.h says of one. */
#include "../include/softspoken.h"
#include <string.h>

/* The length of each body, by kind. */
struct lengths { uint32_t of[SOFTSPOKEN_FILE_CHECK + 1]; };

static inline struct lengths lengths_for(uint32_t width, uint32_t blocks) {
    struct lengths n = {{0, SOFTSPOKEN_SETUP_MESSAGE_BYTES, SOFTSPOKEN_FILE_HEAD_BYTES, SOFTSPOKEN_CORRECTION_BYTES(width, blocks),
                         SOFTSPOKEN_FILE_KEY_BYTES, SOFTSPOKEN_CHECK_MESSAGE_BYTES}};
    return n;
}

static inline void put_le(uint8_t *to, int bytes, uint64_t number) {
    for (int i = 0; i < bytes; i++) to[i] = (uint8_t)(number >> 8 * i);
}

static inline void put_le32(uint8_t *to, uint32_t number) { put_le(to, 4, number); }

/* Lays contents, head and a usable key; the other bodies stay as they are. The first kind is the setup, or the head where the setup is
   absent. Of a head that is shorter than a long one, the first bytes are laid. Gives the file's length. */
static inline size_t lay_file(uint8_t *file, uint32_t first, struct lengths n, uint32_t width, uint32_t blocks, uint64_t batch) {
    uint8_t head[SOFTSPOKEN_FILE_HEAD_BYTES] = {(uint8_t)width, (uint8_t)blocks};
    uint32_t entries = SOFTSPOKEN_FILE_CHECK + 1 - first, at = SOFTSPOKEN_FILE_CONTENTS_BYTES(entries);
    put_le(head + 2, 8, batch);
    put_le32(file, entries);
    for (uint32_t kind = first; kind <= SOFTSPOKEN_FILE_CHECK; kind++) {
        uint8_t *entry = file + SOFTSPOKEN_FILE_CONTENTS_BYTES(kind - first);
        put_le32(entry, kind);
        put_le32(entry + 4, at);
        put_le32(entry + 8, n.of[kind]);
        if (kind == SOFTSPOKEN_FILE_HEAD) memcpy(file + at, head, n.of[kind] < sizeof head ? n.of[kind] : sizeof head);
        if (kind == SOFTSPOKEN_FILE_KEY) memset(file + at, 27, n.of[kind]);
        at += n.of[kind];
    }
    return at;
}
