/* Two S-boxes as they must not be written, to show that the trace test can fail. */
#ifndef BENCH_KNOWN_BAD_H
#define BENCH_KNOWN_BAD_H

#include "calls.h"

/* A bare S-box read from a table: the address read is the secret. */
extern const struct library known_bad_lookup;
/* A bare inversion by products that end early: the way through the code follows the secret. */
extern const struct library known_bad_branch;

/* Fills the table; before the first call. */
void known_bad_prepare(void);

#endif
