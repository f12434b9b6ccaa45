/* What the timed parts share. */
#ifndef MEASURE_H
#define MEASURE_H
#include <stddef.h>
#include <stdint.h>

enum { PASSES = 200 };

uint64_t random64(void);
void fill(void *p, size_t n);
/* Ends the run where outputs differ. */
void expect(int same, const char *what);

/* Work does its work once, on inputs that may depend on i. */
typedef void work_once(unsigned i);
/* Starts as zeros. */
struct timed { unsigned turns; double best; };
/* One more pass of that many turns, about half a millisecond, which is longer than a CPU takes to wake its wide vectors; the first call
   finds how many. Best is nanoseconds a turn in the best pass. */
void time_pass(struct timed *t, work_once *work);

#endif
