/* Counts of checks, and the last line that every test program here prints. */
#ifndef HOST_TALLY_H
#define HOST_TALLY_H

#include <stdbool.h>
#include <stdio.h>

struct tally {
    unsigned long passed;
    unsigned long failed;
};

/* More failures than this are counted but not named. */
enum { TALLY_NAMED = 20 };

static inline void tally_check(struct tally *tally, bool passed, const char *name)
{
    if (passed) {
        tally->passed++;
    } else if (tally->failed++ < TALLY_NAMED) {
        printf("failed: %s\n", name);
    }
}

/* The exit status: a run without a single check is a failure too. */
static inline int tally_report(const struct tally *tally)
{
    printf("%lu passed, %lu failed\n", tally->passed, tally->failed);
    return tally->failed == 0 && tally->passed > 0 ? 0 : 1;
}

#endif
