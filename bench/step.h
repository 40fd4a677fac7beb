/* One call, executed in single steps: after each instruction the registers go to an observer. The
 * processor's trap flag makes the steps, so the same program runs on the machine and in the emulator. */
#ifndef BENCH_STEP_H
#define BENCH_STEP_H

#include <stdint.h>

/* 16 general registers in the order of step_names, then 16 xmm registers. The arithmetic flags stand
 * in the place of the stack pointer. */
enum { FLAGS = 7, XMM = 16, REGISTER_COUNT = 32, WORD_COUNT = 9 };

struct registers {
    uint64_t half[REGISTER_COUNT][2];
};

/* The function and its parameters as words, in the order of the C parameters. */
struct stepped_call {
    uint64_t function;
    uint64_t words[WORD_COUNT];
};

/* Steps are numbered by their place in the call: those of a thinned function apart, from its entry on,
 * with STEP_PLACES rows of numbers, one for each of so many of its calls in turn, so that a block's
 * S-box at one position of the state keeps its numbers in every round. */
enum { STEP_PLACES = 16, STEP_ROW = 1 << 12, STEP_INNER = 1 << 16, STEP_NUMBERS = STEP_INNER + STEP_PLACES * STEP_ROW };

/* The step with this number ran the instruction at the address and turned one set of registers into
 * the other. */
typedef void step_observer(uint32_t number, uint64_t address, const struct registers *before,
                           const struct registers *after);

extern const char *const step_names[REGISTER_COUNT];

void step_prepare(step_observer *observer);

/* Calls of the function at this address, the thinned one, run at full speed, but for one in EVERY on
 * average. Which ones follows from the seed alone. An EVERY of 1 steps through all. */
void step_thin(uint64_t function, unsigned every, uint64_t seed);

/* Makes the call with every register cleared that is no parameter, so that the host leaves nothing
 * in them, and gives its result. */
uint32_t step_make(const struct stepped_call *call);

#endif
