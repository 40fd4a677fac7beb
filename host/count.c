/* Samples the points that the library records: for one secret byte, random masks and records, and
 * each point's frequencies against the document's table by a chi-squared test. A full count of all
 * 2^26 settings is proved, and run by the oracle; this looks at the compiled library.
 *
 * usage: count [SECRET [SAMPLES [SEED]]]      (the secret in hex; without a seed always the same masks)
 *
 * The bounds: chi-squared with 3 degrees of freedom passes 45 with probability 9.3e-10, with 15
 * degrees it passes 75 with probability 5.7e-10. Over 32 pairs and 30 nibbles a false alarm has a
 * probability below 5e-8. */
#include "salcivorn.h"
#include "tally.h"

#include <stdlib.h>

enum { WIDEST = 16 };

#define SETTINGS 67108864.0
#define BOUND_PAIR 45.0
#define BOUND_NIBBLE 75.0

/* One run of points with the same counts over all settings: for zero, and for each other value. */
struct row {
    unsigned first, last, values;
    double zero, other;
};

static const struct row table[] = {
    {1, 4, 16, 4194304, 4194304},     {5, 8, 16, 8126464, 3932160},     {9, 14, 16, 4194304, 4194304},
    {15, 18, 4, 16777216, 16777216},  {19, 22, 4, 29360128, 12582912},  {23, 30, 4, 16777216, 16777216},
    {31, 34, 4, 29360128, 12582912},  {35, 38, 4, 16777216, 16777216},  {39, 42, 4, 29360128, 12582912},
    {43, 46, 4, 16777216, 16777216},  {47, 50, 16, 8126464, 3932160},   {51, 54, 16, 4194304, 4194304},
    {55, 58, 16, 8126464, 3932160},   {59, 62, 16, 4194304, 4194304},
};

static unsigned long seen[SALCIVORN_POINTS_SIZE][256];

/* splitmix64 */
static uint64_t next(uint64_t *state)
{
    uint64_t z = *state += UINT64_C(0x9e3779b97f4a7c15);

    z = (z ^ z >> 30) * UINT64_C(0xbf58476d1ce4e5b9);
    z = (z ^ z >> 27) * UINT64_C(0x94d049bb133111eb);
    return z ^ z >> 31;
}

static bool sample(uint8_t secret, uint64_t random)
{
    uint8_t mask = (uint8_t)random, data = secret ^ mask;
    uint8_t record[SALCIVORN_RECORD_SIZE] = {
        (uint8_t)(random >> 8), (uint8_t)(random >> 16), (uint8_t)(random >> 24 & 3)};
    uint8_t points[SALCIVORN_POINTS_SIZE];

    if (salcivorn_sbox_points(SALCIVORN_ENCRYPT, &data, 1, &mask, 1, record, sizeof record, points,
                              sizeof points) != SALCIVORN_DONE)
        return false;
    for (size_t i = 0; i < SALCIVORN_POINTS_SIZE; i++)
        seen[i][points[i]]++;
    return true;
}

/* A value beyond the point's width fails it at once. */
static bool fits(const struct row *row, unsigned point, double samples)
{
    const unsigned long *counts = seen[point - 1];
    double sum = 0, total = 0;

    for (unsigned value = 0; value < row->values; value++) {
        double expected = samples * (value == 0 ? row->zero : row->other) / SETTINGS;
        double off = (double)counts[value] - expected;
        sum += off * off / expected;
        total += (double)counts[value];
    }
    return total == samples && sum < (row->values == WIDEST ? BOUND_NIBBLE : BOUND_PAIR);
}

static void check_points(struct tally *tally, double samples)
{
    for (size_t i = 0; i < sizeof table / sizeof table[0]; i++)
        for (unsigned point = table[i].first; point <= table[i].last; point++) {
            char name[20];
            snprintf(name, sizeof name, "point %u", point);
            tally_check(tally, fits(&table[i], point, samples), name);
        }
}

int main(int count, char **words)
{
    uint8_t secret = (uint8_t)(count > 1 ? strtoul(words[1], NULL, 16) : 0x53);
    unsigned long samples = count > 2 ? strtoul(words[2], NULL, 10) : 1000000;
    uint64_t state = count > 3 ? strtoull(words[3], NULL, 10) : 62;
    struct tally tally = {0, 0};

    for (unsigned long i = 0; i < samples; i++)
        if (!sample(secret, next(&state))) {
            printf("a good call was refused\n");
            return 1;
        }
    check_points(&tally, (double)samples);
    return tally_report(&tally);
}
