/* How deep a job goes into the stack: it runs on a painted one, and the paint is looked at after. */
#ifndef BENCH_STACK_H
#define BENCH_STACK_H

#include <stddef.h>

/* Bytes from the top of the painted stack to the deepest byte changed; 0 if the job cannot be run. A
 * byte written may happen to be the paint, so a job has to be run under two paints at least. */
size_t stack_depth(void (*job)(void), int paint);

#endif
