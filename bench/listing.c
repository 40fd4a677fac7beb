/* The listing test: does anything that the compiled functions leave in a register, or any change in
 * one, depend on the secret? Each call runs in single steps, in pairs of two secrets under fresh random
 * masks (watch.h says how a pair is compared). Cases that are known to be bad run in the same way and
 * must be found.
 *
 * usage: listing [slice|all] [SEED] [WORD], with WORD only the cases that have it in their name */
#define _XOPEN_SOURCE 700
#include "listing_table.h"
#include "symbols.h"
#include "tally.h"
#include "watch.h"

#include <math.h>
#include <stdlib.h>
#include <string.h>
#include <unistd.h>

/* The chance of a false alarm in a whole run is at most the number of comparisons times
 * 2 exp(-7.5*7.5/2) = 1.2e-12; the run fails if there are so many that this reaches one in a thousand. */
static const double accepted_chance = 0.001;

/* Pairs of calls for each pair of secrets; 7.5*7.5 that all agree reach the threshold, so no number may
 * be below 60. In a block one S-box call in EVERY is stepped through; the S-box cases step through all. */
struct amounts {
    const char *word;
    unsigned long sbox_pairs, block_pairs;
    unsigned sbox_secrets, every;
    size_t longest_key;
};
static const struct amounts all_amounts[] = {{"slice", 3000, 64, 1, 32, 16}, {"all", 3000, 300, 4, 8, 32}};

static struct tally tally;
static uint64_t seed = 1;
static unsigned long runs;
static bool terminal; /* where the progress is one line that is written over and over; elsewhere, a line for each case */

/* No two calls have the same masks. Runs 0 and 1 of calls_fill are not random, so the numbers begin above. */
static unsigned long next_run(void)
{
    return (seed << 32) + 2 + runs++;
}

static uint32_t make_call(const struct listing_case *listing, const uint8_t *secrets, int which)
{
    struct stepped_call stepped;

    listing_fill(listing, secrets[which], next_run(), &stepped);
    watch_secret(which);
    return step_make(&stepped);
}

/* Both calls of a pair step through the same S-box calls. Gives the number of refused calls. */
static unsigned long make_pairs(const struct listing_case *listing, const uint8_t *secrets, unsigned long pairs,
                                unsigned every)
{
    uint64_t substitute = symbols_find("sbox::substitute_in_place");
    unsigned long refused = 0;

    watch_reset();
    for (unsigned long pair = 0; pair < pairs; pair++) {
        for (int which = 0; which < 2; which++) {
            step_thin(substitute, every, (seed << 32) + pair);
            refused += make_call(listing, secrets, which) != SALCIVORN_DONE;
        }
        watch_end_pair();
        if (terminal && pair % 20 == 0)
            fprintf(stderr, "\r%-36s%02x against %02x: %lu of %lu pairs  \r", listing->name, secrets[0], secrets[1],
                    pair, pairs);
    }
    return refused;
}

static unsigned long pairs_of(const struct listing_case *listing, const struct amounts *amounts)
{
    if (listing_known_bad(listing))
        return listing->bad_pairs;
    return listing->call->kind == BLOCK ? amounts->block_pairs : amounts->sbox_pairs;
}

static unsigned secrets_of(const struct listing_case *listing, const struct amounts *amounts)
{
    return listing->secret_pairs < amounts->sbox_secrets ? listing->secret_pairs : amounts->sbox_secrets;
}

static bool as_expected(const struct listing_case *listing, struct findings found)
{
    if (listing->expected == VALUES_FOUND)
        return found.depend[VALUE] > 0;
    return found.depend[VALUE] == 0 && (found.depend[TRANSITION] > 0) == (listing->expected == TRANSITIONS_FOUND);
}

/* Steps, and S-box calls that are passed over, must not change what a call does. */
static void test_same(const struct listing_case *listing, unsigned every)
{
    watch_reset();
    step_thin(symbols_find("sbox::substitute_in_place"), every, seed);
    tally_check(&tally, listing_same(listing, listing->secrets[0][0], next_run()), "same bytes in steps");
}

static void run_case(const struct listing_case *listing, const struct amounts *amounts)
{
    unsigned every = listing->call->kind == BLOCK ? amounts->every : 1;
    uint64_t compared = table_comparisons();
    unsigned long refused = 0;
    bool one_way = true;

    if (!terminal)
        fprintf(stderr, "%zu of %d: %s\n", listing - listing_cases + 1, LISTING_CASES, listing->name);
    test_same(listing, every);
    table_begin();
    for (unsigned i = 0; i < secrets_of(listing, amounts); i++) {
        refused += make_pairs(listing, listing->secrets[i], pairs_of(listing, amounts), every);
        one_way = one_way && watch_one_way();
        table_add(listing, listing->secrets[i]);
    }
    tally_check(&tally, as_expected(listing, table_print(listing)), listing->name);
    tally_check(&tally, refused == 0 && table_comparisons() > compared, "calls done and registers seen");
    tally_check(&tally, one_way || listing_known_bad(listing), "every step has one address");
}

static void report_chance(void)
{
    double chance = (double)table_comparisons() * 2 * exp(-table_threshold * table_threshold / 2);

    printf("%llu comparisons, threshold %.1f: chance of a false alarm at most %.6f\n",
           (unsigned long long)table_comparisons(), table_threshold, chance);
    tally_check(&tally, chance < accepted_chance, "chance of a false alarm");
}

/* Known-bad cases are always run, so that every run can fail. */
static int run_all(const struct amounts *amounts, const char *word)
{
    listing_prepare();
    step_prepare(watch_observe);
    terminal = isatty(STDERR_FILENO);
    printf("S-box: %lu pairs of calls for each of %u pairs of secrets\n", amounts->sbox_pairs, amounts->sbox_secrets);
    printf("block: %lu pairs of calls, one S-box in %u in steps\n\n", amounts->block_pairs, amounts->every);
    table_print_head();
    for (size_t i = 0; i < LISTING_CASES; i++)
        if (listing_cases[i].call->key_len <= amounts->longest_key
            && (listing_known_bad(&listing_cases[i]) || strstr(listing_cases[i].name, word) != NULL))
            run_case(&listing_cases[i], amounts);
    printf("\n");
    if (*word == '\0')
        tally_check(&tally, table_reached(), "functions reached");
    report_chance();
    return tally_report(&tally);
}

int main(int count, char **words)
{
    const char *amount = count > 1 ? words[1] : "slice";

    if (count > 2)
        seed = strtoull(words[2], NULL, 10);
    for (size_t i = 0; i < sizeof all_amounts / sizeof *all_amounts; i++)
        if (strcmp(amount, all_amounts[i].word) == 0 && symbols_read() && symbols_find("sbox::substitute_in_place") != 0)
            return run_all(&all_amounts[i], count > 3 ? words[3] : "");
    fprintf(stderr, "usage: listing [slice|all] [SEED] [WORD], in a program with its symbol table\n");
    return 1;
}
