/* Measures every call of the archive beside two plain versions of the same rules: executed guest
 * instructions and bytes of stack. All must give the same number and the same bytes each time.
 *
 * usage: qemu-x86_64 -plugin count_plugin.so,page=FILE bench FILE */
#define _XOPEN_SOURCE 700
#include "calls.h"
#include "page.h"
#include "plain.h"
#include "stack.h"
#include "tally.h"

#include <string.h>

/* The limit is that of an encryption under a key of 16 bytes. */
enum { RUNS = 20, LIMIT = 110000, VERSIONS = 3 };

static const struct library *const versions[VERSIONS] = {&archive, &plain_tables, &plain_computed};

struct cost {
    uint64_t instructions;
    size_t stack;
};

struct outcome {
    struct cost cost;
    uint32_t number;
    struct buffers after;
};

static volatile struct count_page *page;
static struct tally tally;

/* The call being measured is static: a job on the painted stack takes no arguments. */
static const struct library *library;
static const struct call *call;
static struct buffers buffers;
static uint32_t number;

static void job(void)
{
    number = calls_make(library, call, &buffers);
}

/* The buffers are filled twice, since a strip serves once. */
static void measure(struct outcome *outcome, const struct library *measured, unsigned long run)
{
    uint64_t before;

    library = measured;
    calls_fill(&buffers, call, run);
    outcome->cost.stack = stack_depth(job, run % 2 == 0 ? 0xa5 : 0x5a);
    calls_fill(&buffers, call, run);
    before = page->instructions;
    job();
    outcome->cost.instructions = page->instructions - before;
    outcome->number = number;
    outcome->after = buffers;
}

/* The greatest cost so far, less that of a library whose entries only return. */
static void keep_greatest(struct cost *greatest, const struct cost *cost, const struct cost *nothing)
{
    uint64_t instructions = cost->instructions - nothing->instructions;
    size_t stack = cost->stack - nothing->stack;

    if (instructions > greatest->instructions)
        greatest->instructions = instructions;
    if (stack > greatest->stack)
        greatest->stack = stack;
}

static bool same_answer(const struct outcome *one, const struct outcome *other)
{
    return one->number == SALCIVORN_DONE && other->number == SALCIVORN_DONE
           && memcmp(&one->after, &other->after, sizeof one->after) == 0;
}

/* The archive comes first, and the others must answer as it does. */
static void measure_call(struct cost costs[VERSIONS])
{
    static struct outcome nothing, outcomes[VERSIONS];

    for (unsigned long run = 0; run < RUNS; run++) {
        measure(&nothing, &empty, run);
        tally_check(&tally, nothing.cost.instructions > 0 && nothing.cost.stack > 0, "a cost is measured at all");
        for (size_t i = 0; i < VERSIONS; i++) {
            measure(&outcomes[i], versions[i], run);
            keep_greatest(&costs[i], &outcomes[i].cost, &nothing.cost);
            tally_check(&tally, same_answer(&outcomes[0], &outcomes[i]), call->name);
        }
    }
}

static void print_head(void)
{
    printf("executed guest instructions, counted by qemu-user, and bytes of stack: the greatest of %d runs\n", RUNS);
    printf("tables, computed: the same rules in plain C, with and without tables\n\n");
    printf("%-30s%15s%39s\n", "", "instructions", "stack");
    printf("%-30s%9s%10s%8s%10s%8s%9s%9s%10s\n", "call", "here", "tables", "ratio", "computed", "ratio", "here",
           "tables", "computed");
}

static void print_call(const struct cost costs[VERSIONS])
{
    printf("%-30s%9llu", call->name, (unsigned long long)costs[0].instructions);
    for (size_t i = 1; i < VERSIONS; i++)
        printf("%10llu%8.2f", (unsigned long long)costs[i].instructions,
               (double)costs[0].instructions / (double)costs[i].instructions);
    printf("%9zu%9zu%10zu\n", costs[0].stack, costs[1].stack, costs[2].stack);
}

int main(int count, char **words)
{
    page = count == 2 ? page_map(words[1], sizeof *page, 0) : NULL;
    if (page == NULL) {
        fprintf(stderr, "no page: run under qemu-user with count_plugin.so\n");
        return 1;
    }
    plain_tables_prepare();
    print_head();
    for (size_t i = 0; i < CALL_COUNT; i++) {
        struct cost costs[VERSIONS] = {{0, 0}};
        call = &calls[i];
        measure_call(costs);
        print_call(costs);
        if (call->kind == BLOCK && call->direction == SALCIVORN_ENCRYPT && call->key_len == 16)
            tally_check(&tally, costs[0].instructions <= LIMIT, "an encryption under a key of 16 keeps the limit");
    }
    return tally_report(&tally);
}
