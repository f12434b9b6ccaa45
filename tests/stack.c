/* How much stack each exported function takes beside what it is lent: it runs on a stack of its own, filled with a pattern, of which the
   bytes that are no longer the pattern's are counted. Fails where one takes more than include/softspoken.h says. */
#include "ranges.h"
#include <stdio.h>
#include <string.h>
#include <ucontext.h>

enum { ROOM = 64 * 1024, LIMIT = 16 * 1024, PATTERN = 0xa5 };

static struct softspoken_record receiver, sender;
static uint32_t width, answer;
static uint8_t key[SOFTSPOKEN_FILE_KEY_BYTES] = {27}, file[SOFTSPOKEN_FILE_MAX];

/* In the order of a batch of the most blocks, each on what those before it left. */
static void nothing(void) { answer = SOFTSPOKEN_DONE; }
static void receiver_setup(void) {
    answer = softspoken_receiver_setup(width, roots, SOFTSPOKEN_ROOTS_BYTES(width), RANGE(receiver_base_pads), RANGE(setup_message));
}
static void sender_setup(void) {
    answer = softspoken_sender_setup(width, RANGE(delta), RANGE(sender_base_pads), RANGE(setup_message), RANGE(siblings));
}
static void open_receiver(void) { answer = softspoken_open(&receiver, width); }
static void open_sender(void) { answer = softspoken_open(&sender, width); }
static void start(void) {
    answer = softspoken_receiver_start(&receiver, roots, SOFTSPOKEN_ROOTS_BYTES(width), 1, MOST, RANGE(choices), RANGE(v), correction,
                                       SOFTSPOKEN_CORRECTION_BYTES(width, MOST));
}
static void correct(void) {
    answer = softspoken_sender_correct(&sender, RANGE(siblings), RANGE(delta), 1, MOST, correction,
                                       SOFTSPOKEN_CORRECTION_BYTES(width, MOST), RANGE(w));
}
static void end_receiver(void) {
    answer = softspoken_receiver_answer(&receiver, 27, RANGE(choices), RANGE(v), RANGE(message), RANGE(receiver_pads));
}
static void end_sender(void) {
    answer = softspoken_sender_verify(&sender, 27, RANGE(w), RANGE(delta), RANGE(message), RANGE(sender_pads));
}
static void write_file(void) {
    answer = softspoken_file_write(width, MOST, 1, RANGE(setup_message), correction, SOFTSPOKEN_CORRECTION_BYTES(width, MOST), RANGE(key),
                                   RANGE(message), file, SOFTSPOKEN_FILE_BYTES(width, MOST, sizeof setup_message));
}
/* The struct that comes back counts too. */
static void read_file(void) {
    answer = softspoken_file_read(file, SOFTSPOKEN_FILE_BYTES(width, MOST, sizeof setup_message)).answer;
}

static const struct { const char *name; void (*call)(void); } steps[] = {
    {"receiver setup", receiver_setup}, {"sender setup", sender_setup}, {"receiver open", open_receiver}, {"sender open", open_sender},
    {"receiver start", start}, {"sender correct", correct}, {"receiver answer", end_receiver}, {"sender verify", end_sender},
    {"file write", write_file}, {"file read", read_file},
};

static size_t taken(void (*call)(void)) {
    static uint8_t stack[ROOM];
    static ucontext_t back, there;
    size_t clean = 0;
    memset(stack, PATTERN, sizeof stack);
    getcontext(&there);
    there.uc_stack.ss_sp = stack;
    there.uc_stack.ss_size = sizeof stack;
    there.uc_link = &back;
    makecontext(&there, call, 0);
    swapcontext(&back, &there);
    while (clean < sizeof stack && stack[clean] == PATTERN) clean++;
    return sizeof stack - clean;
}

enum { STEPS = sizeof steps / sizeof *steps, WIDTHS = 4 };

int main(void) {
    size_t bytes[STEPS][WIDTHS];
    int failed = 0;
    fill_inputs();
    for (int w = 0; w < WIDTHS; w++)
        for (int s = 0; s < STEPS; s++) {
            const size_t own = taken(nothing);
            width = 1u << w;
            bytes[s][w] = taken(steps[s].call) - own;
            if (answer != SOFTSPOKEN_DONE || bytes[s][w] == 0 || bytes[s][w] > LIMIT) failed = 1;
        }
    puts("stack in bytes, at widths 1, 2, 4 and 8");
    for (int s = 0; s < STEPS; s++)
        printf("%-15s %6zu %6zu %6zu %6zu\n", steps[s].name, bytes[s][0], bytes[s][1], bytes[s][2], bytes[s][3]);
    return failed;
}
