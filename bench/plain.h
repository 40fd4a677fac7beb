/* The same masked rules in plain C, as a measure of what they cost without proofs: the same entries,
 * numbers, points and wiped strip. plain.c is compiled twice: with PLAIN_TABLES it reads products, maps
 * and the bare S-box from tables, without it computes them. */
#ifndef BENCH_PLAIN_H
#define BENCH_PLAIN_H

#include "calls.h"

extern const struct library plain_tables;
extern const struct library plain_computed;

/* Fills the tables; before the first call. */
void plain_tables_prepare(void);

#endif
