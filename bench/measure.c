#include "measure.h"
#include <stdio.h>
#include <stdlib.h>
#include <time.h>

uint64_t random64(void) {
    static uint64_t x = 88172645463325252u;
    x ^= x << 13; x ^= x >> 7; x ^= x << 17;
    return x;
}

void fill(void *p, size_t n) {
    for (size_t i = 0; i < n; i++) ((uint8_t *)p)[i] = (uint8_t)random64();
}

void expect(int same, const char *what) {
    if (!same) { fprintf(stderr, "%s: outputs differ\n", what); exit(1); }
}

static double now(void) {
    struct timespec t;
    clock_gettime(CLOCK_MONOTONIC, &t);
    return t.tv_sec * 1e9 + t.tv_nsec;
}

static double pass(work_once *work, unsigned turns) {
    double from = now();
    for (unsigned i = 0; i < turns; i++) work(i);
    return (now() - from) / turns;
}

void time_pass(struct timed *t, work_once *work) {
    if (t->turns == 0) {
        pass(work, 3);
        t->turns = 1 + (unsigned)(5e5 / (pass(work, 3) + 1));
        t->best = 1e18;
    }
    double each = pass(work, t->turns);
    if (each < t->best) t->best = each;
}
