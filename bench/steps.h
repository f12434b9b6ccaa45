/* The steps of a batch in three kinds: plain C, the fastest C, and proved. */
#ifndef STEPS_H
#define STEPS_H

/* Ends the run where an output byte or an answer differs, at any width and any number of blocks. */
void compare_steps(void);
/* Writes a line for each step or whole batch, width, and number of blocks: what, name, width, blocks, microseconds of the three kinds,
   goal of the ratio of proved to plain; with tabs between. */
void time_steps(void);

#endif
