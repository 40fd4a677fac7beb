#include "watch.h"

#include <math.h>
#include <stdio.h>
#include <stdlib.h>
#include <string.h>

enum { STEPS = 1 << 17, TOUCHES = 1 << 23 };

static struct step steps[STEPS];
static size_t step_count;
static uint32_t first_of[STEP_NUMBERS]; /* the index, plus 1, of the first step with a number */
static bool one_way;
static unsigned long pair;
static int sign;

/* The classes and the histograms that the pair has touched, so that its end need not look at all of them. */
static struct touch {
    struct histogram *histogram;
    struct class *class;
} touches[TOUCHES];
static struct histogram *touched[TOUCHES];
static size_t touch_count, touched_count;

static void *allocate(size_t size)
{
    void *memory = calloc(1, size);

    if (memory == NULL) {
        fprintf(stderr, "out of memory\n");
        exit(1);
    }
    return memory;
}

static void forget(struct watched *watched)
{
    if (watched == NULL)
        return;
    for (int kind = 0; kind < KINDS; kind++)
        for (int i = 0; i < HISTOGRAM_COUNT; i++)
            free(watched->samples[kind].histograms[i]);
    free(watched);
}

void watch_reset(void)
{
    for (size_t i = 0; i < step_count; i++)
        for (size_t j = 0; j < REGISTER_COUNT; j++)
            forget(steps[i].registers[j]);
    memset(steps, 0, step_count * sizeof *steps);
    memset(first_of, 0, sizeof first_of);
    step_count = touch_count = touched_count = 0;
    one_way = true;
    pair = 0;
}

void watch_secret(int which)
{
    sign = which == 0 ? 1 : -1;
}

static struct step *find(uint32_t number, uint64_t address)
{
    uint32_t *place = &first_of[number];

    while (*place != 0 && steps[*place - 1].address != address)
        place = &steps[*place - 1].next;
    if (*place == 0) {
        if (step_count == STEPS)
            abort();
        one_way = one_way && first_of[number] == 0;
        steps[step_count].number = number;
        steps[step_count].address = address;
        *place = (uint32_t)++step_count;
    }
    return &steps[*place - 1];
}

/* A class whose difference is not 0 has been touched by this pair already. */
static void add(struct histogram *histogram, uint32_t number)
{
    struct class *class = &histogram->classes[number];

    if (class->difference == 0) {
        if (touch_count == TOUCHES)
            abort();
        touches[touch_count++] = (struct touch){histogram, class};
    }
    if (!histogram->touched)
        touched[touched_count++] = histogram;
    histogram->touched = true;
    class->difference += sign;
}

/* The histogram, if it counts already; one that is to be begins with the next pair. */
static struct histogram *counting(struct sample *sample, int which, bool wanted)
{
    struct histogram **place = &sample->histograms[which];

    if (*place == NULL && wanted) {
        *place = allocate(sizeof **place);
        (*place)->from = pair + 1;
    }
    return *place != NULL && pair >= (*place)->from ? *place : NULL;
}

static uint8_t byte_of(const uint64_t half[2], int i)
{
    return (uint8_t)(half[i / 8] >> i % 8 * 8);
}

static uint8_t fold(const uint64_t half[2])
{
    uint64_t all = half[0] ^ half[1];

    all ^= all >> 32;
    all ^= all >> 16;
    return (uint8_t)(all ^ all >> 8);
}

/* The bytes of which at least one bit is set, a bit for each. */
static uint32_t bytes_set(const uint64_t half[2])
{
    uint32_t set = 0;

    for (int i = 0; i < 2; i++)
        for (uint64_t rest = half[i]; rest != 0;) {
            int byte = __builtin_ctzll(rest) / 8;

            set |= 1u << (8 * i + byte);
            rest &= ~(UINT64_C(0xff) << byte * 8);
        }
    return set;
}

static void count(struct sample *sample, const uint64_t half[2])
{
    struct histogram *histogram;

    if (!sample->seen)
        memcpy(sample->first, half, sizeof sample->first);
    sample->seen = true;
    sample->varying |= bytes_set((const uint64_t[2]){half[0] ^ sample->first[0], half[1] ^ sample->first[1]});
    for (uint32_t rest = sample->varying; rest != 0; rest &= rest - 1) {
        int i = __builtin_ctz(rest);

        if ((histogram = counting(sample, i, true)) != NULL)
            add(histogram, byte_of(half, i));
    }
    if ((histogram = counting(sample, FOLD, (sample->varying & (sample->varying - 1)) != 0)) != NULL)
        add(histogram, fold(half));
    if ((histogram = counting(sample, WEIGHT, sample->varying != 0)) != NULL) {
        int weight = __builtin_popcountll(half[0]) + __builtin_popcountll(half[1]);

        add(histogram, (uint32_t)weight);
        histogram->total_difference += sign * weight;
    }
}

static void observe(struct step *step, int place, const struct registers *before, const struct registers *after)
{
    const uint64_t *old = before->half[place], *new = after->half[place];
    const uint64_t change[2] = {old[0] ^ new[0], old[1] ^ new[1]};
    struct watched *watched = step->registers[place];

    if (watched == NULL) {
        step->registers[place] = allocate(sizeof *watched);
        step->registers[place]->from = pair + 1;
        step->watches |= 1u << place;
    } else if (pair >= watched->from) {
        count(&watched->samples[VALUE], new);
        count(&watched->samples[TRANSITION], change);
    }
}

/* Most steps leave all xmm registers alone, which is told first. */
static uint32_t changes(const struct registers *before, const struct registers *after)
{
    uint32_t changed = 0;
    uint64_t vectors = 0;

    for (int i = 0; i < XMM; i++)
        changed |= (uint32_t)(before->half[i][0] != after->half[i][0]) << i;
    for (int i = XMM; i < REGISTER_COUNT; i++)
        vectors |= (before->half[i][0] ^ after->half[i][0]) | (before->half[i][1] ^ after->half[i][1]);
    for (int i = XMM; vectors != 0 && i < REGISTER_COUNT; i++)
        changed |= (uint32_t)(memcmp(before->half[i], after->half[i], sizeof before->half[i]) != 0) << i;
    return changed;
}

void watch_observe(uint32_t number, uint64_t address, const struct registers *before, const struct registers *after)
{
    struct step *step = find(number, address);
    uint32_t rest = step->watches | changes(before, after);

    for (; rest != 0; rest &= rest - 1)
        observe(step, __builtin_ctz(rest), before, after);
}

static void end_class(struct histogram *histogram, struct class *class)
{
    int64_t difference = class->difference;

    histogram->growth += difference * class->sum;
    class->sum += class->difference;
    class->squares += (uint32_t)(difference * difference);
    class->difference = 0;
}

static void end_histogram(struct histogram *histogram)
{
    histogram->growth_sum += histogram->growth;
    histogram->growth_squares += (uint64_t)(histogram->growth * histogram->growth);
    histogram->growth = 0;
    histogram->total_sum += histogram->total_difference;
    histogram->total_squares += (uint64_t)(histogram->total_difference * histogram->total_difference);
    histogram->total_difference = 0;
    histogram->touched = false;
}

/* A class may stand twice among those touched; the second time its difference is 0. */
void watch_end_pair(void)
{
    for (size_t i = 0; i < touch_count; i++)
        end_class(touches[i].histogram, touches[i].class);
    for (size_t i = 0; i < touched_count; i++)
        end_histogram(touched[i]);
    touch_count = touched_count = 0;
    pair++;
}

static int compare(const void *one, const void *other)
{
    const struct step *left = one, *right = other;

    if (left->address != right->address)
        return left->address > right->address ? 1 : -1;
    return (left->number > right->number) - (left->number < right->number);
}

/* The numbers lead to other steps after this, so only watch_reset may follow. */
const struct step *watch_steps(size_t *number)
{
    qsort(steps, step_count, sizeof *steps, compare);
    *number = step_count;
    return steps;
}

bool watch_one_way(void)
{
    return one_way;
}

/* The square of a sum is as great as that only if all that is summed is equal. */
bool watch_unmasked(const struct sample *sample)
{
    for (int i = 0; i < HISTOGRAM_COUNT; i++) {
        const struct histogram *histogram = sample->histograms[i];

        for (int class = 0; histogram != NULL && class < CLASS_COUNT; class++) {
            int64_t sum = histogram->classes[class].sum;

            if ((uint64_t)(sum * sum) != histogram->classes[class].squares * (uint64_t)(pair - histogram->from))
                return false;
        }
    }
    return true;
}

static void take(struct figure *figure, double found, const char *of)
{
    figure->compared++;
    if (found > figure->greatest) {
        figure->greatest = found;
        figure->of = of;
    }
}

/* The second figure of watch.h, with v = 100: about what V is after a hundred pairs. */
static double growth_figure(const struct histogram *histogram)
{
    const double v = 100;
    double sum = fmax((double)histogram->growth_sum, 0), squares = (double)histogram->growth_squares + v;

    return sqrt(fmax(sum * sum / squares - log(squares / v), 0));
}

static void take_histogram(struct figure *figure, const struct histogram *histogram, const char *of)
{
    bool compared = false;

    for (int i = 0; i < CLASS_COUNT; i++) {
        const struct class *class = &histogram->classes[i];

        if (class->squares == 0)
            continue;
        compared = true;
        take(figure, fabs((double)class->sum) / sqrt((double)class->squares), of);
    }
    if (compared)
        take(figure, growth_figure(histogram), "a histogram");
    if (histogram->total_squares != 0)
        take(figure, fabs((double)histogram->total_sum) / sqrt((double)histogram->total_squares), "sum of weights");
}

struct figure watch_figure(const struct sample *sample)
{
    struct figure figure = {0, "", 0};

    for (int i = 0; i < HISTOGRAM_COUNT; i++)
        if (sample->histograms[i] != NULL)
            take_histogram(&figure, sample->histograms[i],
                           i < FOLD ? "a byte" : i == FOLD ? "bytes added" : "a weight");
    return figure;
}
