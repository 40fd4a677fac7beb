/* The table of the listing test: a row for each function that the calls of a case reached. */
#ifndef BENCH_LISTING_TABLE_H
#define BENCH_LISTING_TABLE_H

#include "listing_cases.h"
#include "watch.h"

/* A figure above this is a finding. */
static const double table_threshold = 7.5;

/* Starts the rows of a case. */
void table_begin(void);

/* Adds what watch.h has counted with these two secrets, and names each value and transition that
 * depends on them. */
void table_add(const struct listing_case *listing, const uint8_t *secrets);

/* Prints the rows of the case and counts the values and transitions in them that depend on a secret. */
struct findings {
    unsigned long depend[KINDS];
};
struct findings table_print(const struct listing_case *listing);

void table_print_head(void);

/* How many classes and histograms were compared, over all steps, registers and pairs of secrets. */
uint64_t table_comparisons(void);

/* Names the archive's functions that no case reached. True if these are the key expansion's alone. */
bool table_reached(void);

#endif
