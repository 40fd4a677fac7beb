/* What the registers held after each step of a call, and what changed in them, compared between two
 * secrets.
 *
 * A step is the n-th instruction of a call; an address that is reached twice is two steps. Looked at
 * are the value that the step leaves in each register that it writes, and the transition: the value
 * before it added to the value after it, the bits that flip.
 *
 * Calls come in pairs, one with each secret, all masks independent. Values and transitions are sorted
 * into classes; for each class, a pair gives a difference d: how often the class came up with the
 * first secret less how often with the second. If nothing depends on the secret, d is as likely as
 * -d, whatever the distribution, and however samples within one call hang together. The figure of a
 * class is |sum of d| / sqrt(sum of d*d) over all pairs. By Hoeffding's inequality for random signs
 * it reaches x by chance with a probability of at most 2 exp(-x*x / 2). This holds for any number of
 * pairs and needs no table of a distribution. It also holds when the sizes |d| are given, so a class
 * whose d is always 0 is no comparison.
 *
 * That finds a class that comes up far more often with one secret. A small difference in many classes
 * shows in a second figure, over a whole histogram: m is the sum over its classes of d times the sum
 * of all earlier d. Without dependence m is as likely as -m, whatever came before; with it m grows.
 * With S the sum of m, V the sum of m*m and a constant v, the figure is the root of
 * S*S / (V + v) - ln((V + v) / v), and reaches x by chance with a probability of at most
 * exp(-x*x / 2): the bound for sums that are normed by their own squares, mixed over a normal
 * distribution of variance 1 / v. */
#ifndef BENCH_WATCH_H
#define BENCH_WATCH_H

#include "step.h"

#include <stdbool.h>
#include <stddef.h>

/* The histograms of a sample: each of its bytes (8 in a general register, 16 in an xmm register, the
 * lowest first), all its bytes added, and its Hamming weight. A byte has one from the pair after the
 * first one in which it varies; the bytes added, once two bytes vary. */
enum { FOLD = 16, WEIGHT = 17, HISTOGRAM_COUNT = 18, CLASS_COUNT = 256 };

/* What one pair gave, and all of them: d, the sum of d and the sum of d*d. */
struct class {
    int32_t difference, sum;
    uint32_t squares;
};

struct histogram {
    unsigned long from; /* the first pair that counts */
    bool touched;       /* by this pair */
    int64_t growth;     /* m of this pair */
    int64_t growth_sum;
    uint64_t growth_squares;
    int64_t total_difference, total_sum; /* of the weights added up, as one class that counts many */
    uint64_t total_squares;
    struct class classes[CLASS_COUNT];
};

struct sample {
    bool seen;
    uint32_t varying; /* the bytes that have a histogram, a bit for each */
    uint64_t first[2];
    struct histogram *histograms[HISTOGRAM_COUNT];
};

enum { VALUE, TRANSITION, KINDS };

/* A register is watched from the pair after the first one in which the step changes it. */
struct watched {
    unsigned long from;
    struct sample samples[KINDS];
};

struct step {
    uint32_t number;
    uint32_t next;    /* the index, plus 1, of the next step with this number, or 0 */
    uint32_t watches; /* the registers that are watched, a bit for each */
    uint64_t address;
    struct watched *registers[REGISTER_COUNT];
};

/* Forgets everything. */
void watch_reset(void);

/* Which of the two secrets, 0 or 1, the calls have from now on. */
void watch_secret(int which);

step_observer watch_observe;

void watch_end_pair(void);

/* Sorts the steps by address and gives them and their number. */
const struct step *watch_steps(size_t *count);

/* True while every step had one address. */
bool watch_one_way(void);

/* True when every pair gave the same differences: no mask touches what was sampled. */
bool watch_unmasked(const struct sample *sample);

/* The greatest figure of a sample, what has it, and how many comparisons were made for it. */
struct figure {
    double greatest;
    const char *of;
    unsigned compared;
};
struct figure watch_figure(const struct sample *sample);

#endif
