/* softspoken: oblivious transfer extension (SoftSpokenOT over small fields), proved, for C and C++.

   From 128 base transfers, made once for a pair, two sides draw batches of up to 960 oblivious transfers. The sender
   ends with two pads of 32 bytes per transfer, the receiver with the one that its choice bit numbers.

       receiver                                                  sender
       softspoken_receiver_setup     --- setup message --->      softspoken_sender_setup       once for a pair
       softspoken_open                                           softspoken_open

       softspoken_receiver_start     --- correction ------>      softspoken_sender_correct     for each batch
                                     <-- key --------------      (random, 2 or above, once the correction has come)
       softspoken_receiver_answer    --- check message --->      softspoken_sender_verify
       pads: one per transfer                                    pads: two per transfer

   Random bytes, base transfers and carriage between the sides are the host's. Link with -lsoftspoken. What travelled of
   a batch is kept on file: softspoken_file_write lays it out, softspoken_file_read finds it there.

   CALLS. A byte range is a pointer and its length in bytes. The pointer must be valid for that length, and not null
   even where the length is 0. The record, and a range that the call writes, must not overlap any other range of that
   call. Of numbers, records, lengths and bytes any are allowed: what a step can't use it refuses. No function
   allocates, keeps anything between calls or touches global data, so threads may call on records and ranges of their
   own. Beside what is lent a call takes at most 16 KB of stack, which it doesn't wipe.

   ANSWERS. A call returns SOFTSPOKEN_DONE or a refusal. The conditions of a call are looked at in the order in which
   its comment lists the refusals, and the first that is met is returned. After a refusal the record and every range
   are as they were, except that SOFTSPOKEN_ERR_CHECK sets the record's stage to SOFTSPOKEN_STAGE_CLOSED. A call never
   writes to a range that is marked 'in', and never beyond a range.

   A FAILED CHECK. After SOFTSPOKEN_ERR_CHECK the sender's record is closed, and neither side goes on with this setup:
   a failed check tells a cheating receiver something about delta. The sender tells the receiver that the check failed,
   and nothing else. The receiver's record is ready, and the receiver holds pads of that batch: it must not use them.
   The receiver wipes its roots, choices, table and pads, the sender its delta, siblings and table. To go on they make a
   new setup, with new base transfers.

   SECRETS. Each range is marked 'secret' (this side tells it to nobody) or 'sent' (to or from the other side). The
   fields of a record, widths, batch numbers, blocks, lengths, keys and answers are public. No branch and no address
   depends on a byte of any range, but for one jump in softspoken_sender_verify, on its answer; for the contents, the
   head and the key of a file, which softspoken_file_read looks at; and for the key in softspoken_file_write.

   THE KEY. A usable key is 2 or above: with key 0 a fold is the column's last word, and with key 1 the sum of its
   words, whatever their order. The sender draws 8 random bytes once the correction has come, and draws again while
   their number is below 2. Keys 0 and 1 are refused by SOFTSPOKEN_ERR_KEY, which closes nothing: the batch stays open,
   and may be answered and verified with a usable key.

   THE LINE. The library carries nothing. Beside the three messages the host carries batch number, blocks and key. They
   must be the same on both sides, as must the width. We advise 8 bytes for the batch number, 4 for the blocks and 8 for
   the key, each little-endian. The host must authenticate the line. The check doesn't do that: half of the setup
   message is never used, nor is the correction of a tree whose bits of delta are all 0. What is altered there alone is
   not noticed.

   STORE AND WIPE. Store the record after each step that is done, before you send what the step wrote. Store with it
   what the rest of the batch needs: what the step wrote, and at the sender the key, before it is sent. A record that is
   set back lets a batch run twice: the sender may then learn choices, or a cheating receiver may guess again. Wipe the
   base pads after the setup, tables after the batch, choices and pads once the transfers are used, and roots, delta and
   siblings when you give the setup up.

   TO TEST A HOST on a failed check, change one byte of the check message: message[8 + 8 * c], for one c from 0 to 127.
   With nothing else changed this is refused for every delta. Don't change the correction: one wrong bit in one tree's
   correction passes with a chance of 2^-width, as the tree doesn't use it where its bits of delta are all 0.

   VALUES. Below, + of bytes is exclusive or, and numbers are little-endian. A node of a tree is 32 bytes, the key of a
   ChaCha20 block (RFC 8439) whose nonce is a use number in 4 bytes and a batch number in 8. Use 0, batch 0, counter 0
   gives a node's two children, the left one first. Leaves stand width levels below the root, numbered from 0 at the
   left. A leaf's stream is its blocks of use 1 and the batch's number, counters 0 and 1, cut to the length of a column.
   The fold of a column under a key starts at 0, and for each 64-bit word of the column in turn is multiplied by the key
   and has the word added, as polynomials over two elements modulo X^64 + X^4 + X^3 + X + 1. The pad of a row value is
   SHA-256 of 32 bytes: the letters PADS, the batch number in 8 bytes, the row in 4, and the row value in 16.

   What a function promises below, its answer and what the record and each range hold afterwards, is proved for all
   inputs (docs/THEOREMS.md tells how). What SECRETS says, the bound on the stack and the four inline functions are
   tested, not proved. */
#ifndef SOFTSPOKEN_H
#define SOFTSPOKEN_H

#include <stddef.h>
#include <stdint.h>

#ifdef __cplusplus
extern "C" {
#endif

/* The major number rises when a program that was compiled with an older header no longer works, the minor one when
   there is something new. The string and the number, which is for #if, are made of these three. */
#define SOFTSPOKEN_VERSION_MAJOR 2
#define SOFTSPOKEN_VERSION_MINOR 2
#define SOFTSPOKEN_VERSION_PATCH 0
#define SOFTSPOKEN_VERSION_NUMBER \
    (SOFTSPOKEN_VERSION_MAJOR * 10000 + SOFTSPOKEN_VERSION_MINOR * 100 + SOFTSPOKEN_VERSION_PATCH)
#define SOFTSPOKEN_VERSION \
    SOFTSPOKEN_TEXT(SOFTSPOKEN_VERSION_MAJOR) "." \
    SOFTSPOKEN_TEXT(SOFTSPOKEN_VERSION_MINOR) "." SOFTSPOKEN_TEXT(SOFTSPOKEN_VERSION_PATCH)
#define SOFTSPOKEN_TEXT(macro) SOFTSPOKEN_TEXT_OF(macro)
#define SOFTSPOKEN_TEXT_OF(text) #text

/* ---- Sizes. A width is 1, 2, 4 or 8. A batch has 1 to 15 blocks of 64 transfers, and one block more that is spent on
   the check: 64 * (blocks + 1) rows. All sizes are exact, and constant expressions where their arguments are. Any
   32-bit arguments may be given: as in the library's definitions, a quotient by 0 is 0, and a difference stops at 0. A
   macro that has a width evaluates it more than once. */

#define SOFTSPOKEN_BLOCKS_MAX 15
#define SOFTSPOKEN_BASE_TRANSFERS 128
#define SOFTSPOKEN_TREES(width) \
    ((width) == 0 ? (size_t)0 : SOFTSPOKEN_BASE_TRANSFERS / ((size_t)(width) + ((width) == 0)))
#define SOFTSPOKEN_TRANSFERS(blocks) (64 * (size_t)(blocks))

/* One pad, of a base transfer or of a batch. */
#define SOFTSPOKEN_PAD_BYTES 32

/* Setup, and what each side keeps of it. */
#define SOFTSPOKEN_ROOTS_BYTES(width) (32 * SOFTSPOKEN_TREES(width))
#define SOFTSPOKEN_DELTA_BYTES 16
#define SOFTSPOKEN_RECEIVER_BASE_PADS_BYTES 8192
#define SOFTSPOKEN_SENDER_BASE_PADS_BYTES 4096
#define SOFTSPOKEN_SETUP_MESSAGE_BYTES 8192
#define SOFTSPOKEN_SIBLINGS_BYTES 4096

/* A batch. */
#define SOFTSPOKEN_CHOICES_BYTES(blocks) (8 * ((size_t)(blocks) + 1))
#define SOFTSPOKEN_TABLE_BYTES(blocks) (128 * SOFTSPOKEN_CHOICES_BYTES(blocks))
#define SOFTSPOKEN_CORRECTION_BYTES(width, blocks) \
    ((SOFTSPOKEN_TREES(width) - (SOFTSPOKEN_TREES(width) != 0)) * SOFTSPOKEN_CHOICES_BYTES(blocks))
#define SOFTSPOKEN_CHECK_MESSAGE_BYTES 1032
#define SOFTSPOKEN_RECEIVER_PADS_BYTES(blocks) (SOFTSPOKEN_PAD_BYTES * SOFTSPOKEN_TRANSFERS(blocks))
#define SOFTSPOKEN_SENDER_PADS_BYTES(blocks) (2 * SOFTSPOKEN_PAD_BYTES * SOFTSPOKEN_TRANSFERS(blocks))

/* A batch on file: its contents of 4 or 5 entries, and the bodies whose sizes are not named above. Then the exact size
   of a file that is written, with a setup of so many bytes, where 0 means none; and the longest file that is read,
   25562. A host that reads from disk needs room for one byte more, to see that a file is longer. A macro that has the
   setup's size evaluates it more than once. */
#define SOFTSPOKEN_FILE_CONTENTS_BYTES(entries) (4 + 12 * (size_t)(entries))
#define SOFTSPOKEN_FILE_HEAD_BYTES 10
#define SOFTSPOKEN_FILE_SHORT_HEAD_BYTES 6
#define SOFTSPOKEN_FILE_KEY_BYTES 8
#define SOFTSPOKEN_FILE_BYTES(width, blocks, setup_bytes) \
    (SOFTSPOKEN_FILE_CONTENTS_BYTES((setup_bytes) == 0 ? 4 : 5) + (size_t)(setup_bytes) + SOFTSPOKEN_FILE_HEAD_BYTES + \
     SOFTSPOKEN_CORRECTION_BYTES(width, blocks) + SOFTSPOKEN_FILE_KEY_BYTES + SOFTSPOKEN_CHECK_MESSAGE_BYTES)
#define SOFTSPOKEN_FILE_MAX SOFTSPOKEN_FILE_BYTES(1, SOFTSPOKEN_BLOCKS_MAX, SOFTSPOKEN_SETUP_MESSAGE_BYTES)

/* ---- What a call returns. */
enum softspoken_answer {
    SOFTSPOKEN_DONE = 0,
    SOFTSPOKEN_ERR_WIDTH = 1,    /* the width is not 1, 2, 4 or 8 */
    SOFTSPOKEN_ERR_STAGE = 2,    /* the record is in another stage than the step needs */
    SOFTSPOKEN_ERR_BATCH = 3,    /* the batch number is 0, or a new one is not above the last */
    SOFTSPOKEN_ERR_BLOCKS = 4,   /* the blocks are not 1 to 15 */
    SOFTSPOKEN_ERR_LENGTH = 5,   /* a range has another length than the one named */
    SOFTSPOKEN_ERR_CHECK = 6,    /* the check failed: the receiver cheated, or something was damaged or mixed up */
    SOFTSPOKEN_ERR_CONTENTS = 7, /* a file's count, kinds, offsets or end are not by the rules */
    SOFTSPOKEN_ERR_BODY = 8,     /* a body in a file has another length than its kind has */
    SOFTSPOKEN_ERR_KEY = 9       /* the key is 0 or 1 */
};

/* The name of an answer, as it stands above, for a log; "unknown answer" for any other number. */
static inline const char *softspoken_answer_name(uint32_t answer) {
    switch (answer) {
    case SOFTSPOKEN_DONE: return "SOFTSPOKEN_DONE";
    case SOFTSPOKEN_ERR_WIDTH: return "SOFTSPOKEN_ERR_WIDTH";
    case SOFTSPOKEN_ERR_STAGE: return "SOFTSPOKEN_ERR_STAGE";
    case SOFTSPOKEN_ERR_BATCH: return "SOFTSPOKEN_ERR_BATCH";
    case SOFTSPOKEN_ERR_BLOCKS: return "SOFTSPOKEN_ERR_BLOCKS";
    case SOFTSPOKEN_ERR_LENGTH: return "SOFTSPOKEN_ERR_LENGTH";
    case SOFTSPOKEN_ERR_CHECK: return "SOFTSPOKEN_ERR_CHECK";
    case SOFTSPOKEN_ERR_CONTENTS: return "SOFTSPOKEN_ERR_CONTENTS";
    case SOFTSPOKEN_ERR_BODY: return "SOFTSPOKEN_ERR_BODY";
    case SOFTSPOKEN_ERR_KEY: return "SOFTSPOKEN_ERR_KEY";
    default: return "unknown answer";
    }
}

/* ---- The record of a session. Each side has one of its own for each direction of transfers, and lends it to every
   step. It has no hole before its end. The 4 bytes after stage mean nothing, and a step may leave anything there: store
   and compare a record field by field. A record that version 1 stored, of 16 bytes, isn't one of this version. To take
   its session over, set each field by its name: a batch number of version 1 means the same batch. */
enum softspoken_stage {
    SOFTSPOKEN_STAGE_READY = 0, /* for a new batch */
    SOFTSPOKEN_STAGE_OPEN = 1,  /* a batch is open */
    SOFTSPOKEN_STAGE_CLOSED = 2 /* a check failed: every step on this record but softspoken_open is refused */
};

struct softspoken_record {
    uint32_t width;
    uint32_t blocks; /* of the open batch */
    uint64_t last;   /* the last batch number, 0 for none */
    uint32_t stage;
};

/* ---- Setup, once for a pair. Of the 128 / width trees, tree i has base transfers i * width to i * width + width - 1,
   one for each level from the root down, and the bits of delta with the same numbers, the lowest first, as its own
   number. Bit c of delta is at byte c / 8, weight 2^(c % 8). The tree's path ends at the leaf of that number, so it
   takes the highest bit first. */

/* The sender's choice in a base transfer: which of the receiver's two pads it must get there. It is 1 minus the side
   that the path takes at that level. For a width that is not 1, 2, 4 or 8, or a transfer that is not 0 to 127, it is 0,
   and delta isn't read. */
static inline unsigned softspoken_base_choice(uint32_t width, const uint8_t delta[SOFTSPOKEN_DELTA_BYTES],
                                              uint32_t transfer) {
    if ((width != 1 && width != 2 && width != 4 && width != 8) || transfer >= SOFTSPOKEN_BASE_TRANSFERS) return 0;
    uint32_t bit = transfer ^ (width - 1); /* level l of a tree takes its bit width - 1 - l */
    return 1u ^ ((unsigned)delta[bit / 8] >> bit % 8 & 1u);
}

/* The receiver's setup.
   Refusals, in this order: ERR_WIDTH, ERR_LENGTH.

   roots      in, secret: SOFTSPOKEN_ROOTS_BYTES(width), drawn at random; 32 for each tree, in tree order. The receiver
              keeps them for every batch.
   base_pads  in, secret: SOFTSPOKEN_RECEIVER_BASE_PADS_BYTES. For each base transfer, in order, its pad 0, then its
              pad 1.
   message    out, sent: SOFTSPOKEN_SETUP_MESSAGE_BYTES. When done: for each base transfer, in order, and for side 0
              (left) and then 1, the sum of all children of that side made at that level of the tree, + the base pad of
              that number. */
uint32_t softspoken_receiver_setup(uint32_t width, const uint8_t *roots, size_t roots_len, const uint8_t *base_pads,
                                   size_t base_pads_len, uint8_t *message, size_t message_len);

/* The sender's setup. It can't notice a wrong message, or pads of other base transfers: it is done then too, and the
   siblings may be no nodes of the receiver's trees.
   Refusals, in this order: ERR_WIDTH, ERR_LENGTH.

   delta      in, secret: SOFTSPOKEN_DELTA_BYTES, drawn at random before the base transfers. Kept for every batch.
   base_pads  in, secret: SOFTSPOKEN_SENDER_BASE_PADS_BYTES. For each base transfer, in order, the pad numbered
              softspoken_base_choice(width, delta, transfer).
   message    in, sent: SOFTSPOKEN_SETUP_MESSAGE_BYTES, from the receiver's setup of the same width.
   siblings   out, secret: SOFTSPOKEN_SIBLINGS_BYTES. When done: for each base transfer, in order, the node beside the
              path at that level: the masked total of its side, + the base pad, + all other children of that side made
              at that level, which come from the siblings above. Kept for every batch. */
uint32_t softspoken_sender_setup(uint32_t width, const uint8_t *delta, size_t delta_len, const uint8_t *base_pads,
                                 size_t base_pads_len, const uint8_t *message, size_t message_len, uint8_t *siblings,
                                 size_t siblings_len);

/* Opens a session, whatever the record held. Open once for a setup: opening again lets batch numbers be used again,
   which give the same choices and rows again, and lets a receiver whose check failed guess again at the same delta.
   Refusals: ERR_WIDTH.

   record     when done: width as given, last 0, blocks 0, stage ready. */
uint32_t softspoken_open(struct softspoken_record *record, uint32_t width);

/* ---- A batch. A column has SOFTSPOKEN_CHOICES_BYTES(blocks) bytes; its row j is at byte j / 8, weight 2^(j % 8). A
   table has 128 columns, one after the other; column i * width + b belongs to tree i and its bit b. A row value gathers
   a row's bit of all 128 columns in 16 bytes, ordered as in delta. Transfer j is row j; the rows of the last block get
   no pads. */

/* The choice bit of a row, which must be one of the batch: 0 to 64 * (blocks + 1) - 1. */
static inline unsigned softspoken_choice(const uint8_t *choices, size_t row) {
    return (unsigned)choices[row / 8] >> row % 8 & 1u;
}

/* The receiver's start of a batch, on a ready record. The width is the record's.
   Refusals, in this order: ERR_WIDTH; ERR_STAGE unless ready; ERR_BATCH if batch is 0 or not above last; ERR_BLOCKS;
   ERR_LENGTH.

   record     when done: last and blocks are those given, stage open; the width stays.
   roots      in, secret: SOFTSPOKEN_ROOTS_BYTES(width), those of the setup.
   batch      1 to 18446744073709551615; both sides give the same.
   blocks     1 to 15; both sides give the same.
   choices    out, secret: SOFTSPOKEN_CHOICES_BYTES(blocks). When done: a choice bit for every row, the sum of the
              streams of all leaves of tree 0. The host can't choose them: they come from the roots.
   table      out, secret: SOFTSPOKEN_TABLE_BYTES(blocks). When done: for tree i, bit b, the sum of the streams of the
              leaves whose number has bit b.
   correction out, sent: SOFTSPOKEN_CORRECTION_BYTES(width, blocks). When done: for each tree from 1 on, the sum of the
              streams of all its leaves, + choices. */
uint32_t softspoken_receiver_start(struct softspoken_record *record, const uint8_t *roots, size_t roots_len,
                                   uint64_t batch, uint32_t blocks, uint8_t *choices, size_t choices_len,
                                   uint8_t *table, size_t table_len, uint8_t *correction, size_t correction_len);

/* The sender's correction of a batch, on a ready record. The width is the record's. A wrong correction isn't noticed
   here. After an honest setup the verify accepts it only where the errors in what the receiver sent cancel in every
   column (docs/THEOREMS.md, demand 3).
   Refusals, in this order: ERR_WIDTH; ERR_STAGE unless ready; ERR_BATCH if batch is 0 or not above last; ERR_BLOCKS;
   ERR_LENGTH.

   record     when done: last and blocks are those given, stage open; the width stays.
   siblings   in, secret: SOFTSPOKEN_SIBLINGS_BYTES, those of the setup.
   delta      in, secret: SOFTSPOKEN_DELTA_BYTES, that of the setup.
   batch, blocks  as in the receiver's start.
   correction in, sent: SOFTSPOKEN_CORRECTION_BYTES(width, blocks), from the receiver's start.
   table      out, secret: SOFTSPOKEN_TABLE_BYTES(blocks). When done: for tree i, bit b, the sum of the streams of those
              leaves, made from the siblings, whose number exclusive or the tree's number has bit b; + the tree's
              correction where delta has the bit (tree 0 has none). If both sides are honest, row value j is the
              receiver's row value j, + delta where choice j is 1. */
uint32_t softspoken_sender_correct(struct softspoken_record *record, const uint8_t *siblings, size_t siblings_len,
                                   const uint8_t *delta, size_t delta_len, uint64_t batch, uint32_t blocks,
                                   const uint8_t *correction, size_t correction_len, uint8_t *table, size_t table_len);

/* The receiver's answer to the sender's key, which ends the batch. The record must be open; blocks and batch number are
   the record's. A batch must be answered for one key only: the record sees to that, as long as it is not set back.
   Don't use the pads before the sender's verify is done: if it fails they are wiped (A FAILED CHECK).
   Refusals, in this order: ERR_WIDTH; ERR_STAGE unless open; ERR_BATCH if last is 0; ERR_BLOCKS; ERR_KEY; ERR_LENGTH.

   record     when done: blocks 0, stage ready; width and last stay.
   key        from the sender: 2 or above.
   choices    in, secret: SOFTSPOKEN_CHOICES_BYTES(blocks), and
   table      in, secret: SOFTSPOKEN_TABLE_BYTES(blocks): those of the receiver's start.
   message    out, sent: SOFTSPOKEN_CHECK_MESSAGE_BYTES. When done: under the key, the fold of the choices, then that of
              each column of the table, 8 bytes each.
   pads       out, secret: SOFTSPOKEN_RECEIVER_PADS_BYTES(blocks). When done: at 32 * j the pad of row value j. If both
              sides are honest, it is the sender's pad of transfer j that softspoken_choice(choices, j) numbers. */
uint32_t softspoken_receiver_answer(struct softspoken_record *record, uint64_t key, const uint8_t *choices,
                                    size_t choices_len, const uint8_t *table, size_t table_len, uint8_t *message,
                                    size_t message_len, uint8_t *pads, size_t pads_len);

/* The sender's verify of the check message, which ends the batch. The record must be open; blocks and batch number are
   the record's. The check passes exactly when in every column c the sent fold of the column + the fold of the table's
   column is the sent fold of the choices where delta has bit c, and 0 elsewhere. So after an honest setup an honest
   receiver passes; and whatever was sent after an honest setup, a tree whose folded error isn't 0 (docs/THEOREMS.md,
   demand 3) passes for at most one value of its bits of delta. All columns are looked at before the answer, which tells
   none from another.
   Refusals, in this order: ERR_WIDTH; ERR_STAGE unless open; ERR_BATCH if last is 0; ERR_BLOCKS; ERR_KEY; ERR_LENGTH;
   ERR_CHECK.

   record     when done: blocks 0, stage ready; width and last stay. After ERR_CHECK: stage closed, all else stays; what
              both sides must do then, A FAILED CHECK says.
   key        drawn at random once the correction has come, 2 or above (THE KEY), and then told to the receiver.
   table      in, secret: SOFTSPOKEN_TABLE_BYTES(blocks), that of the sender's correction.
   delta      in, secret: SOFTSPOKEN_DELTA_BYTES, that of the setup.
   message    in, sent: SOFTSPOKEN_CHECK_MESSAGE_BYTES, from the receiver's answer.
   pads       out, secret: SOFTSPOKEN_SENDER_PADS_BYTES(blocks). When done: for transfer j, pad 0 at 64 * j, the pad of
              row value j, and pad 1 at 64 * j + 32, that of row value j + delta. */
uint32_t softspoken_sender_verify(struct softspoken_record *record, uint64_t key, const uint8_t *table,
                                  size_t table_len, const uint8_t *delta, size_t delta_len, const uint8_t *message,
                                  size_t message_len, uint8_t *pads, size_t pads_len);

/* ---- A batch on file: what travelled, as a site keeps it for support. No secret is in it. A file begins with its
   contents: the number of its entries, 4 or 5, in 4 bytes, then for each entry its kind, where its body begins, counted
   from the file's start, and its body's length, in 4 bytes each, all little-endian. Then the bodies follow in the same
   order, without a gap, up to the file's end. The kinds stand in order, each once; only the setup may be absent. */
enum softspoken_file_kind {
    SOFTSPOKEN_FILE_SETUP = 1,      /* the setup message: SOFTSPOKEN_SETUP_MESSAGE_BYTES */
    SOFTSPOKEN_FILE_HEAD = 2,       /* width in 1 byte, blocks in 1, batch number in 8: SOFTSPOKEN_FILE_HEAD_BYTES; or
                                       with the number in 4, as in version 1: SOFTSPOKEN_FILE_SHORT_HEAD_BYTES */
    SOFTSPOKEN_FILE_CORRECTION = 3, /* SOFTSPOKEN_CORRECTION_BYTES(width, blocks), by the head */
    SOFTSPOKEN_FILE_KEY = 4,        /* a usable key, little-endian: SOFTSPOKEN_FILE_KEY_BYTES */
    SOFTSPOKEN_FILE_CHECK = 5       /* the check message: SOFTSPOKEN_CHECK_MESSAGE_BYTES */
};

/* What reading a file finds. A body is what lies between its place and the next one; an absent setup begins where the
   head does, so it is empty. */
struct softspoken_file {
    uint32_t answer;
    uint32_t width;      /* the head's values */
    uint32_t blocks;
    uint64_t batch;
    uint64_t setup;      /* where each body begins, counted from the file's start */
    uint64_t head;
    uint64_t correction;
    uint64_t key;
    uint64_t check;
    uint64_t end;        /* the file's length */
};

/* Reads a file. It looks at the form and the key alone: it can't tell who wrote the file, or whether the check passed.
   It writes nothing and copies nothing.
   Refusals, in this order: ERR_CONTENTS if the count, a kind, an offset or the file's end breaks the rules above;
   ERR_BODY if the head has neither of its two lengths; ERR_WIDTH; ERR_BATCH if the batch number is 0; ERR_BLOCKS;
   ERR_BODY if another body hasn't the length above; ERR_KEY.

   file       in, sent: any bytes, of any length.

   When done: the head's values, and the places. After a refusal the head's values are 0, and every place is the file's
   length, so every body is empty. The end is the file's length always. */
struct softspoken_file softspoken_file_read(const uint8_t *file, size_t file_len);

/* A body: a part of a file, and so valid for as long as the file's bytes are. The pointer is never null. */
struct softspoken_body {
    const uint8_t *bytes;
    size_t len;
};

/* The body of a kind, from a file and what reading it found. It is empty after a refusal, and for any other kind. Any
   struct, file and kind may be given: with another file's struct the body may be empty or other bytes, but it is always
   a part of the file that is given. This is tested, not proved. */
static inline struct softspoken_body softspoken_file_body(const struct softspoken_file *found, const uint8_t *file,
                                                          size_t file_len, uint32_t kind) {
    struct softspoken_body body = {file, 0};
    uint64_t from = 0, to = 0;
    switch (kind) {
    case SOFTSPOKEN_FILE_SETUP: from = found->setup, to = found->head; break;
    case SOFTSPOKEN_FILE_HEAD: from = found->head, to = found->correction; break;
    case SOFTSPOKEN_FILE_CORRECTION: from = found->correction, to = found->key; break;
    case SOFTSPOKEN_FILE_KEY: from = found->key, to = found->check; break;
    case SOFTSPOKEN_FILE_CHECK: from = found->check, to = found->end; break;
    default: break;
    }
    if (from < to && to <= file_len) {
        body.bytes = file + (size_t)from;
        body.len = (size_t)(to - from);
    }
    return body;
}

/* Writes a batch to a file, always with the long head. Whatever is written is read with the same values and bodies. A
   batch has one such file: two files with long heads that are read are the same bytes exactly when their head values
   and all bodies agree, the setup or its absence with them. To bring a file with a short head to the long one, read it
   and write what was found. The bodies that softspoken_file_body hands out are parts of that file, so the range that is
   written must be another.
   Refusals, in this order: ERR_WIDTH; ERR_BATCH if the batch number is 0; ERR_BLOCKS; ERR_BODY if the setup is neither
   empty nor of the length above, or another body hasn't the length above; ERR_KEY; ERR_LENGTH if the file hasn't
   SOFTSPOKEN_FILE_BYTES(width, blocks, setup_len).

   width, blocks, batch  the head's values.
   setup      in, sent: SOFTSPOKEN_SETUP_MESSAGE_BYTES, or of length 0, which means none.
   correction in, sent: SOFTSPOKEN_CORRECTION_BYTES(width, blocks).
   key        in, sent: SOFTSPOKEN_FILE_KEY_BYTES, little-endian; its number is 2 or above.
   check      in, sent: SOFTSPOKEN_CHECK_MESSAGE_BYTES.
   file       out, sent: SOFTSPOKEN_FILE_BYTES(width, blocks, setup_len). When done: the contents, of 5 entries or,
              without a setup, of 4; then the setup, the head, the correction, the key and the check. */
uint32_t softspoken_file_write(uint32_t width, uint32_t blocks, uint64_t batch, const uint8_t *setup, size_t setup_len,
                               const uint8_t *correction, size_t correction_len, const uint8_t *key, size_t key_len,
                               const uint8_t *check, size_t check_len, uint8_t *file, size_t file_len);

#ifdef __cplusplus
}
#endif

#endif
