#include "listing_table.h"

#include "symbols.h"

#include <math.h>
#include <stdio.h>
#include <stdlib.h>
#include <string.h>

enum { ROWS = 64, NAMED = 8 };

/* Over all pairs of secrets: the most steps and registers, the sum of the findings. */
struct row {
    const struct symbol *function;
    unsigned long steps, registers, round_keys;
    struct findings findings;
    double greatest;
};

static struct row rows[ROWS];
static size_t row_count, reached_count;
static const struct symbol *reached[ROWS];
static uint64_t comparisons;
static unsigned long named;

void table_begin(void)
{
    row_count = named = 0;
}

static const char *const kinds[KINDS] = {"value", "transition"};

/* A known-bad case need not name all. */
static void name_finding(const struct listing_case *listing, const uint8_t *secrets, const struct symbol *function,
                         const struct step *step, int place, int kind, struct figure figure)
{
    if (!listing_known_bad(listing) || named++ < NAMED)
        printf("  %02x against %02x: %s+0x%llx, step %u, %s: the %s depends, figure %.1f (%s)\n", secrets[0],
               secrets[1], function->name, (unsigned long long)(step->address - function->start), step->number,
               step_names[place], kinds[kind], figure.greatest, figure.of);
}

/* Round keys are bare operands: with a secret in the key they differ by design where they are added. A
 * register that goes from a round key to a value that neither secret nor mask touches tells the round
 * key again and nothing else. */
static bool is_round_key(const struct listing_case *listing, const struct symbol *function,
                         const struct watched *watched, int kind)
{
    bool adding = strcmp(function->name, "aes::add_round_key") == 0;
    bool left = kind == TRANSITION && watch_figure(&watched->samples[VALUE]).compared == 0;

    return listing->place == IN_KEY && (adding || left) && watch_unmasked(&watched->samples[kind]);
}

static void add_sample(struct row *row, const struct listing_case *listing, const uint8_t *secrets,
                       const struct step *step, int place, int kind)
{
    const struct watched *watched = step->registers[place];
    struct figure figure = watch_figure(&watched->samples[kind]);

    row->greatest = fmax(row->greatest, figure.greatest);
    comparisons += figure.compared;
    if (figure.greatest <= table_threshold)
        return;
    if (is_round_key(listing, row->function, watched, kind)) {
        row->round_keys++;
    } else {
        row->findings.depend[kind]++;
        name_finding(listing, secrets, row->function, step, place, kind, figure);
    }
}

static void add_step(struct row *row, const struct listing_case *listing, const uint8_t *secrets,
                     const struct step *step)
{
    row->steps++;
    for (int place = 0; place < REGISTER_COUNT; place++)
        if (step->registers[place] != NULL) {
            row->registers++;
            for (int kind = 0; kind < KINDS; kind++)
                add_sample(row, listing, secrets, step, place, kind);
        }
}

static struct row *find_row(const struct symbol *function)
{
    size_t i = 0;

    while (i < row_count && rows[i].function != function)
        i++;
    if (i == ROWS)
        abort();
    if (i == row_count)
        rows[row_count++] = (struct row){.function = function};
    return &rows[i];
}

static void merge(const struct row *row)
{
    struct row *into = find_row(row->function);

    into->steps = row->steps > into->steps ? row->steps : into->steps;
    into->registers = row->registers > into->registers ? row->registers : into->registers;
    for (int kind = 0; kind < KINDS; kind++)
        into->findings.depend[kind] += row->findings.depend[kind];
    into->round_keys += row->round_keys;
    into->greatest = fmax(into->greatest, row->greatest);
}

static void mark_reached(const struct symbol *function)
{
    for (size_t i = 0; i < reached_count; i++)
        if (reached[i] == function)
            return;
    if (reached_count == ROWS)
        abort();
    reached[reached_count++] = function;
}

void table_add(const struct listing_case *listing, const uint8_t *secrets)
{
    size_t count;
    const struct step *steps = watch_steps(&count);

    for (size_t i = 0; i < count;) {
        struct row row = {.function = symbols_at(steps[i].address)};

        for (; i < count && symbols_at(steps[i].address) == row.function; i++)
            add_step(&row, listing, secrets, &steps[i]);
        merge(&row);
        mark_reached(row.function);
    }
}

void table_print_head(void)
{
    printf("%-36s%-36s%8s%11s%8s%13s%12s%10s\n", "case", "function", "steps", "registers", "values", "transitions",
           "round keys", "greatest");
}

struct findings table_print(const struct listing_case *listing)
{
    struct findings all = {{0}};

    for (size_t i = 0; i < row_count; i++) {
        const struct row *row = &rows[i];

        printf("%-36s%-36s%8lu%11lu%8lu%13lu%12lu%10.1f\n", listing->name, row->function->name, row->steps,
               row->registers, row->findings.depend[VALUE], row->findings.depend[TRANSITION], row->round_keys,
               row->greatest);
        for (int kind = 0; kind < KINDS; kind++)
            all.depend[kind] += row->findings.depend[kind];
    }
    fflush(stdout);
    return all;
}

uint64_t table_comparisons(void)
{
    return comparisons;
}

static bool is_reached(const struct symbol *function)
{
    for (size_t i = 0; i < reached_count; i++)
        if (reached[i]->start == function->start)
            return true;
    return false;
}

/* No name in C has two colons, so such a function is a local one of the archive. */
bool table_reached(void)
{
    size_t count;
    const struct symbol *list = symbols_list(&count);
    bool bare_only = true;

    for (size_t i = 0; i < count; i++) {
        const char *name = list[i].name;
        bool bare = strcmp(name, "salcivorn_expand") == 0 || strcmp(name, "bare_sbox::substitute") == 0;

        if ((strstr(name, "::") == NULL && strncmp(name, "salcivorn_", 10) != 0) || is_reached(&list[i]))
            continue;
        printf("not reached: %s%s\n", name, bare ? " (key expansion, bare by design)" : "");
        bare_only = bare_only && bare;
    }
    return bare_only;
}
