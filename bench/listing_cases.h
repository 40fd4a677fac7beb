/* The calls that the listing test steps through, and what is secret in each. */
#ifndef BENCH_LISTING_CASES_H
#define BENCH_LISTING_CASES_H

#include "calls.h"
#include "step.h"

#include <stdbool.h>

/* What a case must show: nothing depends on the secret; or, in a case that is known to be bad, a value
 * does, or a transition does and no value. */
enum expected { INDEPENDENT, VALUES_FOUND, TRANSITIONS_FOUND };

enum place { IN_DATA, IN_KEY };

struct listing_case {
    const char *name;
    const struct library *library;
    const struct call *call;
    enum place place;
    enum expected expected;
    bool unmasked; /* the masks of the data stay 0 */
    uint8_t secrets[4][2];
    unsigned secret_pairs;
    unsigned long bad_pairs; /* of calls, in a known-bad case; 0 in the others */
};

enum { LISTING_CASES = 23 };
extern const struct listing_case listing_cases[LISTING_CASES];

bool listing_known_bad(const struct listing_case *listing);

void listing_prepare(void);

/* Fills the buffers for a call with this secret; run seeds all masks and records. */
void listing_fill(const struct listing_case *listing, uint8_t secret, unsigned long run, struct stepped_call *stepped);

/* True if a call in steps leaves the same bytes as one at full speed. */
bool listing_same(const struct listing_case *listing, uint8_t secret, unsigned long run);

#endif
