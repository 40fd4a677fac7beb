/* Four pieces of masking as they must not be written, to show that the listing test can fail. */
#ifndef BENCH_LISTING_BAD_H
#define BENCH_LISTING_BAD_H

#include "calls.h"

/* Sums the four products of the parts first and adds the fresh mask last: in between a register
 * holds the bare product. */
extern const struct library listing_bad_last;
/* Masks anew with a mask that has two equal bits: no value is rare, but half of them tell one bit. */
extern const struct library listing_bad_bits;
/* Loads the masked byte and then its mask into one register: no value tells anything, but the bits that
 * flip are the secret. */
extern const struct library listing_bad_over;
/* Adds mask bytes to the data bytes of a block in 144 turns, and in one of them the byte's own. */
extern const struct library listing_bad_turn;

#endif
