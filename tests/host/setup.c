/* Calls both setups as a host program does, on the inputs that the second implementation stored, and holds every byte of every range
   afterwards to what that implementation gives; then with widths and lengths that must be refused and must leave every byte. */
#include "../../include/softspoken.h"
#include <stdio.h>
#include <string.h>

/* Each range has room for one byte more than its longest length, so that a length too large can be lent. */
struct receiver { uint8_t roots[4097], base_pads[8193], message[8193]; };
struct sender { uint8_t delta[17], base_pads[4097], message[8193], siblings[4097]; };

static const uint32_t widths[] = {1, 2, 4, 8};
static unsigned calls, wrong;

static void expect(int right, const char *step, uint32_t width, const char *what) {
    if (right) return;
    printf("host: %s setup, width %u: %s\n", step, (unsigned)width, what);
    wrong++;
}

static void receiver(uint32_t width, const size_t n[3], uint32_t answer, struct receiver *r, const uint8_t *message) {
    struct receiver after = *r;
    if (message) memcpy(after.message, message, 8192);
    uint32_t got = softspoken_receiver_setup(width, r->roots, n[0], r->base_pads, n[1], r->message, n[2]);
    expect(got == answer, "receiver", width, "another answer");
    expect(!memcmp(r, &after, sizeof after), "receiver", width, "other bytes");
    calls++;
}

static void sender(uint32_t width, const size_t n[4], uint32_t answer, struct sender *s, const uint8_t *siblings) {
    struct sender after = *s;
    if (siblings) memcpy(after.siblings, siblings, 4096);
    uint32_t got = softspoken_sender_setup(width, s->delta, n[0], s->base_pads, n[1], s->message, n[2], s->siblings, n[3]);
    expect(got == answer, "sender", width, "another answer");
    expect(!memcmp(s, &after, sizeof after), "sender", width, "other bytes");
    calls++;
}

static void take(FILE *f, uint8_t *p, size_t n) {
    expect(fread(p, 1, n, f) == n, "stored", 0, "the file is too short");
}

/* The sender has the receiver's message, and the stored pads are those that the header's choices give. */
static void honest_inputs(uint32_t width, const struct receiver *r, struct sender *s) {
    memcpy(s->message, r->message, 8192);
    for (uint32_t t = 0; t < SOFTSPOKEN_BASE_TRANSFERS; t++)
        expect(!memcmp(s->base_pads + 32 * t, r->base_pads + 64 * t + 32 * softspoken_base_choice(width, s->delta, t), 32), "sender", width,
               "another choice in a base transfer");
}

/* The stored cases: the receiver's, then the sender's on its message, then the sender's on any message. */
static void done(FILE *f) {
    const size_t lengths[4] = {16, 4096, 8192, 4096};
    for (int w = 0; w < 4; w++) {
        static struct receiver r;
        static struct sender s;
        static uint8_t message[8192], siblings[4096];
        const size_t n[3] = {4096 / widths[w], 8192, 8192};
        memset(&r, 0xa5, sizeof r);
        memset(&s, 0xa5, sizeof s);
        take(f, r.roots, n[0]);
        take(f, r.base_pads, n[1]);
        take(f, message, n[2]);
        receiver(widths[w], n, SOFTSPOKEN_DONE, &r, message);
        for (int honest = 1; honest >= 0; honest--) {
            take(f, s.delta, 16);
            take(f, s.base_pads, 4096);
            if (honest) honest_inputs(widths[w], &r, &s);
            else take(f, s.message, 8192);
            take(f, siblings, 4096);
            sender(widths[w], lengths, SOFTSPOKEN_DONE, &s, siblings);
        }
    }
    expect(fgetc(f) == EOF, "stored", 0, "the file is too long");
}

/* A length as it should be, one byte short, one byte long, and 0. */
static size_t changed(size_t n, int how) {
    if (how == 1) return n ? n - 1 : 0;
    return how == 2 ? n + 1 : how == 3 ? 0 : n;
}

/* Each range in turn with its length changed; of a width that is not allowed also with every length as it should be. */
static void refused(uint32_t width, uint32_t answer) {
    static struct receiver r;
    static struct sender s;
    const size_t receiver_lengths[3] = {32 * (128 / (width ? width : 1)), 8192, 8192}, sender_lengths[4] = {16, 4096, 8192, 4096};
    memset(&r, 0x5a, sizeof r);
    memset(&s, 0x5a, sizeof s);
    for (int how = answer == SOFTSPOKEN_ERR_WIDTH ? 0 : 1; how <= 3; how++) {
        for (int at = 0; at < 3; at++) {
            size_t n[3];
            memcpy(n, receiver_lengths, sizeof n);
            n[at] = changed(n[at], how);
            receiver(width, n, answer, &r, NULL);
        }
        for (int at = 0; at < 4; at++) {
            size_t n[4];
            memcpy(n, sender_lengths, sizeof n);
            n[at] = changed(n[at], how);
            sender(width, n, answer, &s, NULL);
        }
    }
}

int main(int argc, char **argv) {
    const uint32_t not_allowed[] = {0, 3, 5, 16, UINT32_MAX};
    FILE *f = argc == 2 ? fopen(argv[1], "rb") : NULL;
    if (!f) return 2;
    done(f);
    fclose(f);
    for (int w = 0; w < 4; w++) refused(widths[w], SOFTSPOKEN_ERR_LENGTH);
    for (int w = 0; w < 5; w++) refused(not_allowed[w], SOFTSPOKEN_ERR_WIDTH);
    printf("host: %u calls of both setups, %u differences\n", calls, wrong);
    return wrong ? 1 : 0;
}
