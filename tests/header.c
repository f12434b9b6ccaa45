/* include/softspoken.h alone: it stands as C99 and as C++, twice in one file, and its sizes are those that paper 01 and the steps name.
   There is nothing to run: a wrong size doesn't compile. */
#include <softspoken.h>
#include <softspoken.h>

#define HOLDS(line, fact) typedef char holds_##line[(fact) ? 1 : -1]
#define AT(line, fact) HOLDS(line, fact)
#define EXPECT(fact) AT(__LINE__, fact)

#if SOFTSPOKEN_VERSION_NUMBER < 20200 || SOFTSPOKEN_VERSION_NUMBER / 10000 != SOFTSPOKEN_VERSION_MAJOR
#error "the version's number"
#endif
EXPECT(sizeof(SOFTSPOKEN_VERSION) >= sizeof("2.2.0"));

/* The record, without a hole before its end; there are 4 bytes after stage that mean nothing. */
EXPECT(sizeof(struct softspoken_record) == 24);
EXPECT(offsetof(struct softspoken_record, width) == 0);
EXPECT(offsetof(struct softspoken_record, blocks) == 4);
EXPECT(offsetof(struct softspoken_record, last) == 8);
EXPECT(sizeof(((struct softspoken_record *)0)->last) == 8);
EXPECT(offsetof(struct softspoken_record, stage) == 16);

/* The numbers of a file that are returned, in the library's order; there are 4 bytes between blocks and batch that mean nothing. */
EXPECT(sizeof(struct softspoken_file) == 72);
EXPECT(offsetof(struct softspoken_file, answer) == 0);
EXPECT(offsetof(struct softspoken_file, width) == 4);
EXPECT(offsetof(struct softspoken_file, blocks) == 8);
EXPECT(offsetof(struct softspoken_file, batch) == 16);
EXPECT(offsetof(struct softspoken_file, setup) == 24);
EXPECT(offsetof(struct softspoken_file, head) == 32);
EXPECT(offsetof(struct softspoken_file, correction) == 40);
EXPECT(offsetof(struct softspoken_file, key) == 48);
EXPECT(offsetof(struct softspoken_file, check) == 56);
EXPECT(offsetof(struct softspoken_file, end) == 64);

EXPECT(SOFTSPOKEN_TREES(1) == 128);
EXPECT(SOFTSPOKEN_TREES(8) == 16);
EXPECT(SOFTSPOKEN_ROOTS_BYTES(1) == 4096);
EXPECT(SOFTSPOKEN_ROOTS_BYTES(8) == 512);
EXPECT(SOFTSPOKEN_CHOICES_BYTES(1) == 16);
EXPECT(SOFTSPOKEN_CHOICES_BYTES(15) == 128);
EXPECT(SOFTSPOKEN_TABLE_BYTES(1) == 2048);

/* Numbers that no step allows: the library's definitions have 0 for a quotient by 0 and for a difference below 0. */
EXPECT(SOFTSPOKEN_TREES(0) == 0);
EXPECT(SOFTSPOKEN_TREES(0u) == 0);
EXPECT(SOFTSPOKEN_ROOTS_BYTES(0) == 0);
EXPECT(SOFTSPOKEN_CORRECTION_BYTES(0, 15) == 0);
EXPECT(SOFTSPOKEN_TREES(128) == 1);
EXPECT(SOFTSPOKEN_CORRECTION_BYTES(128, 15) == 0);
EXPECT(SOFTSPOKEN_TREES(129) == 0);
EXPECT(SOFTSPOKEN_ROOTS_BYTES(129) == 0);
EXPECT(SOFTSPOKEN_CORRECTION_BYTES(129, 15) == 0);
EXPECT(SOFTSPOKEN_CORRECTION_BYTES(UINT32_MAX, UINT32_MAX) == 0);
EXPECT(SOFTSPOKEN_CORRECTION_BYTES(3, 0) == 41 * 8);
EXPECT(SOFTSPOKEN_TABLE_BYTES(UINT32_MAX) == (size_t)1024 << 32);
EXPECT(SOFTSPOKEN_SENDER_PADS_BYTES(UINT32_MAX) == (size_t)4096 * UINT32_MAX);

/* paper 01, 'Edges' */
EXPECT(SOFTSPOKEN_TABLE_BYTES(15) == 16384);
EXPECT(SOFTSPOKEN_CORRECTION_BYTES(1, 15) == 16256);
EXPECT(SOFTSPOKEN_SENDER_PADS_BYTES(15) == 61440);
EXPECT(SOFTSPOKEN_CORRECTION_BYTES(8, 1) == 240);

/* and 'Steps and their turning away' */
EXPECT(SOFTSPOKEN_RECEIVER_PADS_BYTES(3) == 2048 * 3);
EXPECT(SOFTSPOKEN_SENDER_PADS_BYTES(3) == 4096 * 3);
EXPECT(SOFTSPOKEN_CHECK_MESSAGE_BYTES == 8 * (1 + 128));
EXPECT(SOFTSPOKEN_RECEIVER_BASE_PADS_BYTES == 2 * SOFTSPOKEN_PAD_BYTES * SOFTSPOKEN_BASE_TRANSFERS);
EXPECT(SOFTSPOKEN_SENDER_BASE_PADS_BYTES == SOFTSPOKEN_PAD_BYTES * SOFTSPOKEN_BASE_TRANSFERS);
EXPECT(SOFTSPOKEN_SETUP_MESSAGE_BYTES == 2 * 32 * SOFTSPOKEN_BASE_TRANSFERS);
EXPECT(SOFTSPOKEN_SIBLINGS_BYTES == 32 * SOFTSPOKEN_BASE_TRANSFERS);

/* paper 02, notes 1, 3 and 5 */
EXPECT(SOFTSPOKEN_FILE_SETUP == 1 && SOFTSPOKEN_FILE_HEAD == 2 && SOFTSPOKEN_FILE_CORRECTION == 3);
EXPECT(SOFTSPOKEN_FILE_KEY == 4 && SOFTSPOKEN_FILE_CHECK == 5);
EXPECT(SOFTSPOKEN_ERR_CONTENTS == 7 && SOFTSPOKEN_ERR_BODY == 8 && SOFTSPOKEN_ERR_KEY == 9);
EXPECT(SOFTSPOKEN_FILE_CONTENTS_BYTES(4) == 52);
EXPECT(SOFTSPOKEN_FILE_CONTENTS_BYTES(5) == 64);
EXPECT(SOFTSPOKEN_FILE_HEAD_BYTES == 1 + 1 + 8);
EXPECT(SOFTSPOKEN_FILE_SHORT_HEAD_BYTES == 1 + 1 + 4);
EXPECT(SOFTSPOKEN_FILE_KEY_BYTES == 8);
EXPECT(SOFTSPOKEN_FILE_MAX == 64 + 8192 + 10 + 16256 + 8 + 1032);
EXPECT(SOFTSPOKEN_FILE_MAX == 25562);

/* The shortest and the longest file that is written, without a setup and with it. */
EXPECT(SOFTSPOKEN_FILE_BYTES(8, 1, 0) == 1342);
EXPECT(SOFTSPOKEN_FILE_BYTES(8, 1, 8192) == 9546);
EXPECT(SOFTSPOKEN_FILE_BYTES(1, 15, 0) == 17358);
EXPECT(SOFTSPOKEN_FILE_BYTES(1, 15, 8192) == SOFTSPOKEN_FILE_MAX);
