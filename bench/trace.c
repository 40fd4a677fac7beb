/* The constant-trace test: whatever the key, block, mask and strip, a call executes the same
 * instructions in the same order and makes the same loads and stores in the same order. Two S-boxes
 * that are known to be bad must be found out in the same run.
 *
 * usage: qemu-x86_64 -plugin trace_plugin.so,page=FILE trace FILE [RUNS] */
#define _XOPEN_SOURCE 700
#include "calls.h"
#include "known_bad.h"
#include "page.h"
#include "tally.h"

#include <stdlib.h>

enum { FEWEST_RUNS = 200, MOST_RUNS = 100000 };

enum expected { CONSTANT, BAD_ACCESSES, BAD_CODE };

/* The hashes of all runs of one call. */
struct traces {
    const char *name;
    unsigned long runs, refused;
    uint64_t code[MOST_RUNS], accesses[MOST_RUNS];
};

static volatile struct trace_page *page;
static struct traces traces;
static struct buffers buffers;
static struct tally tally;

/* The recording covers the call and the few instructions before and after it. */
static void record_run(const struct library *library, const struct call *call, unsigned long run)
{
    uint32_t number;

    calls_fill(&buffers, call, run);
    page->code = page->accesses = 0;
    page->code_length = page->access_length = 0;
    page->recording = 1;
    number = calls_make(library, call, &buffers);
    page->recording = 0;
    traces.code[run] = page->code;
    traces.accesses[run] = page->accesses;
    traces.refused += number != SALCIVORN_DONE;
}

static void record_call(const struct library *library, const struct call *call, const char *name, unsigned long runs)
{
    traces.name = name;
    traces.runs = runs;
    traces.refused = 0;
    for (unsigned long run = 0; run < runs; run++)
        record_run(library, call, run);
}

static int compare(const void *one, const void *other)
{
    uint64_t left = *(const uint64_t *)one, right = *(const uint64_t *)other;

    return (left > right) - (left < right);
}

/* Sorts, so that equal hashes stand together. */
static unsigned long distinct(uint64_t *hashes, unsigned long runs)
{
    unsigned long found = 1;

    qsort(hashes, runs, sizeof *hashes, compare);
    for (unsigned long i = 1; i < runs; i++)
        found += hashes[i] != hashes[i - 1];
    return found;
}

/* A bad call must show more than one trace of the kind it is bad for; the other kind may vary too. */
static bool as_expected(enum expected expected, unsigned long code, unsigned long accesses)
{
    switch (expected) {
    case CONSTANT:
        return code == 1 && accesses == 1;
    case BAD_ACCESSES:
        return accesses > 1;
    default:
        return code > 1;
    }
}

/* Empty traces are all the same, so a run without the plugin must fail. */
static void report(enum expected expected)
{
    unsigned long code = distinct(traces.code, traces.runs), accesses = distinct(traces.accesses, traces.runs);
    bool recorded = page->code_length > 0 && page->access_length > 0;

    printf("%-32s%8lu%13lu%16lu%14llu%10llu\n", traces.name, traces.runs, code, accesses,
           (unsigned long long)page->code_length, (unsigned long long)page->access_length);
    tally_check(&tally, as_expected(expected, code, accesses) && recorded && traces.refused == 0, traces.name);
}

static void run_all(unsigned long runs)
{
    known_bad_prepare();
    printf("traces: distinct ones over all runs; instructions, accesses: how many are in the last trace\n\n");
    printf("%-32s%8s%13s%16s%14s%10s\n", "call", "runs", "code traces", "address traces", "instructions", "accesses");
    for (size_t i = 0; i < CALL_COUNT; i++) {
        record_call(&archive, &calls[i], calls[i].name, runs);
        report(CONSTANT);
    }
    record_call(&known_bad_lookup, &calls[0], "known bad: table lookup", runs);
    report(BAD_ACCESSES);
    record_call(&known_bad_branch, &calls[0], "known bad: branch on the secret", runs);
    report(BAD_CODE);
}

int main(int count, char **words)
{
    unsigned long runs = count > 2 ? strtoul(words[2], NULL, 10) : 1000;

    page = count > 1 ? page_map(words[1], sizeof *page, 0) : NULL;
    if (page == NULL || runs < FEWEST_RUNS || runs > MOST_RUNS) {
        fprintf(stderr, "run under qemu-user with trace_plugin.so, with %d to %d runs\n", FEWEST_RUNS, MOST_RUNS);
        return 1;
    }
    run_all(runs);
    return tally_report(&tally);
}
