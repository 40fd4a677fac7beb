/* Tests of the wrapper: every pair of buffers of every call made to overlap in several ways, and to
 * touch without overlap; null pointers; and that a refused call leaves every byte as it was. */
#include "entries.h"
#include "tally.h"

#include <string.h>

enum { PLACE = 1 << 17, ARENA = ENTRY_BUFFERS * PLACE };

static uint8_t arena[ARENA];
static uint8_t before[ARENA];
static struct tally tally;

/* A buffer with which its call is served: its length and first bytes. The rest is 1, which makes good
 * records too. */
struct good {
    size_t length;
    uint8_t head[12];
    size_t head_len;
};

#define STRIP_HEAD {0x01, 0xe2, 1, 16}, 4

/* In the order of the table of entries. The pool's states: new and active; with one strip; the same; with
 * the addition of that strip outstanding; and new standbys, the message being an old taking. */
static const struct good good[ENTRY_COUNT][ENTRY_BUFFERS] = {
    {{1, {1}, 1}, {1, {1}, 1}, {SALCIVORN_RECORD_SIZE, {1}, 1}},
    {{1, {1}, 1}, {1, {1}, 1}, {SALCIVORN_RECORD_SIZE, {1}, 1}, {SALCIVORN_POINTS_SIZE, {1}, 1}},
    {{16, {1}, 1}, {SALCIVORN_ROUND_KEYS_SIZE_16, {1}, 1}},
    {{SALCIVORN_BLOCK_SIZE, {1}, 1}, {SALCIVORN_BLOCK_SIZE, {1}, 1}, {SALCIVORN_ROUND_KEYS_SIZE_16, {1}, 1},
     {SALCIVORN_STRIP_SIZE_16, STRIP_HEAD}},
    {{SALCIVORN_POOL_STATE_SIZE, {0}, 9}, {SALCIVORN_POOL_ROOMS_SIZE, {1}, 1}, {SALCIVORN_STRIP_SIZE_16, STRIP_HEAD}},
    {{SALCIVORN_POOL_STATE_SIZE, {0, 0, 0, 0, 1}, 9}, {SALCIVORN_POOL_ROOMS_SIZE, {1}, 1},
     {SALCIVORN_POOL_NUMBER_SIZE, {1}, 1}, {SALCIVORN_POOL_STRIP_SIZE, {1}, 1}},
    {{SALCIVORN_POOL_STATE_SIZE, {0, 0, 0, 0, 1}, 9}, {SALCIVORN_POOL_ROOMS_SIZE, {1}, 1},
     {SALCIVORN_POOL_MESSAGE_SIZE, {1}, 1}},
    {{SALCIVORN_POOL_STATE_SIZE, {1, 0, 0, 0, 1}, 9}, {SALCIVORN_POOL_ROOMS_SIZE, {1}, 1},
     {SALCIVORN_POOL_ACKNOWLEDGEMENT_SIZE, {0, 6, 1, 3, 0, 0, 0, 1}, 8}, {SALCIVORN_POOL_NUMBER_SIZE, {1}, 1},
     {SALCIVORN_POOL_STRIP_SIZE, {1}, 1}},
    {{SALCIVORN_POOL_STATE_SIZE, {3}, 9}, {SALCIVORN_POOL_ROOMS_SIZE, {1}, 1}, {12, {0, 10, 1, 2}, 12},
     {SALCIVORN_POOL_ACKNOWLEDGEMENT_SIZE, {1}, 1}},
    {{SALCIVORN_POOL_STATE_SIZE, {3}, 9}},
};

static void fill(size_t call, const struct loans *loans)
{
    memset(arena, 1, ARENA);
    for (size_t i = 0; i < entries[call].buffers; i++)
        if (loans->length[i] > 0)
            memcpy(loans->start[i], good[call][i].head, good[call][i].head_len);
    memcpy(before, arena, ARENA);
}

/* Buffers in places of their own, in the middle, so that there is space on both sides. */
static struct loans apart(size_t call)
{
    struct loans loans = {.direction = SALCIVORN_ENCRYPT};

    for (size_t i = 0; i < ENTRY_BUFFERS; i++) {
        loans.start[i] = arena + i * PLACE + PLACE / 2;
        loans.length[i] = good[call][i].length;
    }
    return loans;
}

static bool unchanged(void)
{
    return memcmp(arena, before, ARENA) == 0;
}

static void expect(size_t call, const struct loans *loans, uint32_t expected, const char *what)
{
    uint32_t number = entries[call].checked(loans);
    bool changes = expected == SALCIVORN_DONE;
    char name[120];

    snprintf(name, sizeof name, "%s: %s gives %u, not %u", entries[call].name, what,
             (unsigned)number, (unsigned)expected);
    tally_check(&tally, number == expected && unchanged() != changes, name);
}

/* Puts buffer `moved` so far behind the start of buffer `fixed`, or before it. */
static void place(size_t call, size_t fixed, size_t moved, ptrdiff_t offset, uint32_t expected)
{
    struct loans loans = apart(call);
    char what[60];

    loans.start[moved] = loans.start[fixed] + offset;
    fill(call, &loans);
    snprintf(what, sizeof what, "buffer %zu at %td of buffer %zu", moved, offset, fixed);
    expect(call, &loans, expected, what);
}

static void test_pair(size_t call, size_t fixed, size_t moved)
{
    ptrdiff_t length = (ptrdiff_t)good[call][fixed].length;
    ptrdiff_t other = (ptrdiff_t)good[call][moved].length;

    place(call, fixed, moved, 0, SALCIVORN_CHECKED_OVERLAP);
    place(call, fixed, moved, length / 2, SALCIVORN_CHECKED_OVERLAP);
    place(call, fixed, moved, length - 1, SALCIVORN_CHECKED_OVERLAP);
    place(call, fixed, moved, 1 - other, SALCIVORN_CHECKED_OVERLAP);
    place(call, fixed, moved, length, SALCIVORN_DONE);
    place(call, fixed, moved, -other, SALCIVORN_DONE);
}

static void test_null(size_t call, size_t index, uint32_t refusal_when_empty)
{
    struct loans loans = apart(call);

    fill(call, &loans);
    loans.start[index] = NULL;
    expect(call, &loans, SALCIVORN_CHECKED_NULL, "a null buffer");
    loans.start[(index + 1) % entries[call].buffers] = NULL;
    expect(call, &loans, SALCIVORN_CHECKED_NULL, "two null buffers");
    loans = apart(call);
    loans.start[index] = NULL;
    loans.length[index] = 0;
    expect(call, &loans, refusal_when_empty, "a null buffer of length 0");
}

/* An empty buffer inside another overlaps nothing, so the entry itself refuses. */
static void test_empty(size_t call, size_t index, uint32_t refusal)
{
    struct loans loans = apart(call);

    loans.start[index] = loans.start[(index + 1) % entries[call].buffers];
    loans.length[index] = 0;
    fill(call, &loans);
    expect(call, &loans, refusal, "an empty buffer inside another");
}

static void test_null_before_overlap(size_t call)
{
    struct loans loans = apart(call);

    if (entries[call].buffers < 3)
        return;
    loans.start[0] = loans.start[1];
    fill(call, &loans);
    loans.start[2] = NULL;
    expect(call, &loans, SALCIVORN_CHECKED_NULL, "null and overlap");
}

/* What each entry says to an empty buffer. */
static const uint32_t when_empty[ENTRY_COUNT][ENTRY_BUFFERS] = {
    {SALCIVORN_PART_LENGTH, SALCIVORN_PART_LENGTH, SALCIVORN_PART_LENGTH},
    {SALCIVORN_PART_LENGTH, SALCIVORN_PART_LENGTH, SALCIVORN_PART_LENGTH, SALCIVORN_POINTS_LENGTH},
    {SALCIVORN_KEY_LENGTH, SALCIVORN_ROUND_KEYS_LENGTH},
    {SALCIVORN_PART_LENGTH, SALCIVORN_PART_LENGTH, SALCIVORN_ROUND_KEYS_LENGTH, SALCIVORN_STRIP_FRAMING},
    {SALCIVORN_PART_LENGTH, SALCIVORN_PART_LENGTH, SALCIVORN_STRIP_FRAMING},
    {SALCIVORN_PART_LENGTH, SALCIVORN_PART_LENGTH, SALCIVORN_PART_LENGTH, SALCIVORN_PART_LENGTH},
    {SALCIVORN_PART_LENGTH, SALCIVORN_PART_LENGTH, SALCIVORN_PART_LENGTH},
    {SALCIVORN_PART_LENGTH, SALCIVORN_PART_LENGTH, SALCIVORN_MESSAGE, SALCIVORN_PART_LENGTH, SALCIVORN_PART_LENGTH},
    {SALCIVORN_PART_LENGTH, SALCIVORN_PART_LENGTH, SALCIVORN_MESSAGE, SALCIVORN_PART_LENGTH},
    {SALCIVORN_PART_LENGTH},
};

static void test_call(size_t call)
{
    struct loans loans = apart(call);

    fill(call, &loans);
    expect(call, &loans, SALCIVORN_DONE, "buffers apart");
    for (size_t i = 0; i < entries[call].buffers; i++) {
        for (size_t j = 0; j < entries[call].buffers; j++)
            if (i != j)
                test_pair(call, i, j);
        test_null(call, i, when_empty[call][i]);
        test_empty(call, i, when_empty[call][i]);
    }
    test_null_before_overlap(call);
}

int main(void)
{
    for (size_t call = 0; call < ENTRY_COUNT; call++)
        test_call(call);
    return tally_report(&tally);
}
