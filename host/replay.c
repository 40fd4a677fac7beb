/* Replays case files of the oracle against the library: the number and every byte of every buffer
 * must be as the file says, and guard bytes round each buffer must stand. docs/REPLAY.md has the form.
 *
 * usage: replay [--checked | --turns] [--every] FILE...      (- is standard input)
 * --checked goes through the wrapper, --turns for every other case only; --every demands that each
 * call in the files gave every number that it can give. */
#include "entries.h"
#include "tally.h"

#include <string.h>

enum {
    GUARD = 32,
    GUARD_BYTE = 0xc3,
    MAX_LENGTH = 1 << 18,
    SHIFTS = 8, /* buffers start at each of so many alignments in turn */
    LINES = 5, /* a case is told by what differs from the last one of its line */
    CALLS = ENTRY_COUNT + 2, /* the entries, and what a host does by itself: store and restart */
    NUMBERS = 26 /* 0 to 24, and one for all that is no refusal number */
};

struct expected {
    size_t call;
    uint32_t direction;
    uint32_t number;
    size_t length[ENTRY_BUFFERS];
    uint8_t before[ENTRY_BUFFERS][MAX_LENGTH];
    uint8_t after[ENTRY_BUFFERS][MAX_LENGTH];
};

/* The last case of each line. What lies behind a buffer's length is zero. */
static struct expected lines[LINES];
static struct expected *expected;
static uint8_t lent[ENTRY_BUFFERS][GUARD + SHIFTS + MAX_LENGTH + GUARD];
static unsigned long reached[CALLS][NUMBERS];
static struct tally tally;

/* The master of each line as its host has stored it last. */
static struct stored {
    uint8_t state[SALCIVORN_POOL_STATE_SIZE];
    uint8_t rooms[SALCIVORN_POOL_ROOMS_SIZE];
} stored[LINES];

static bool is_master(const struct loans *loans)
{
    return loans->length[0] == sizeof stored->state && loans->length[1] == sizeof stored->rooms;
}

static uint32_t store(const struct loans *loans)
{
    struct stored *master = &stored[expected - lines];

    if (!is_master(loans))
        return SALCIVORN_PART_LENGTH;
    memcpy(master->state, loans->start[0], sizeof master->state);
    memcpy(master->rooms, loans->start[1], sizeof master->rooms);
    return SALCIVORN_DONE;
}

static uint32_t restart(const struct loans *loans)
{
    const struct stored *master = &stored[expected - lines];

    if (!is_master(loans))
        return SALCIVORN_PART_LENGTH;
    memcpy(loans->start[0], master->state, sizeof master->state);
    memcpy(loans->start[1], master->rooms, sizeof master->rooms);
    return SALCIVORN_DONE;
}

static const struct entry host_steps[CALLS - ENTRY_COUNT] = {
    {"store", 2, store, store, {0}},
    {"restart", 2, restart, restart, {0}},
};

static const struct entry *entry_of(size_t call)
{
    return call < ENTRY_COUNT ? &entries[call] : &host_steps[call - ENTRY_COUNT];
}

static bool read_number(FILE *file, size_t bytes, uint64_t *number)
{
    *number = 0;
    for (size_t i = 0; i < bytes; i++) {
        int byte = getc(file);
        if (byte == EOF)
            return false;
        *number = *number << 8 | (uint64_t)byte;
    }
    return true;
}

/* Reads the part of a buffer that differs, over what is there. */
static bool read_part(FILE *file, uint8_t *buffer, size_t length)
{
    uint64_t offset, count;

    if (!read_number(file, 4, &offset) || !read_number(file, 4, &count))
        return false;
    return offset + count <= length && fread(buffer + offset, 1, (size_t)count, file) == count;
}

static bool read_buffer(FILE *file, size_t index)
{
    uint64_t length;
    size_t last = expected->length[index], reach;
    uint8_t *before = expected->before[index], *after = expected->after[index];

    if (!read_number(file, 4, &length) || length > MAX_LENGTH)
        return false;
    expected->length[index] = (size_t)length;
    reach = last > length ? last : (size_t)length;
    memcpy(before, after, reach);
    memset(before + length, 0, reach - (size_t)length);
    if (!read_part(file, before, (size_t)length))
        return false;
    memcpy(after, before, reach);
    return read_part(file, after, (size_t)length);
}

static bool read_case(FILE *file)
{
    uint64_t call, line, direction, number;

    if (!read_number(file, 1, &call) || call < 1 || call > CALLS)
        return false;
    if (!read_number(file, 1, &line) || line >= LINES)
        return false;
    if (!read_number(file, 4, &direction) || !read_number(file, 4, &number))
        return false;
    expected = &lines[line];
    expected->call = (size_t)call - 1;
    expected->direction = (uint32_t)direction;
    expected->number = (uint32_t)number;
    for (size_t i = 0; i < entry_of(expected->call)->buffers; i++)
        if (!read_buffer(file, i))
            return false;
    return true;
}

static struct loans lend(unsigned long turn)
{
    struct loans loans = {.direction = expected->direction};

    for (size_t i = 0; i < entry_of(expected->call)->buffers; i++) {
        size_t length = expected->length[i];
        uint8_t *start = lent[i] + GUARD + (turn + i) % SHIFTS;
        memset(start - GUARD, GUARD_BYTE, GUARD);
        memcpy(start, expected->before[i], length);
        memset(start + length, GUARD_BYTE, GUARD);
        loans.start[i] = start;
        loans.length[i] = length;
    }
    return loans;
}

static bool guard_stands(const uint8_t *guard)
{
    for (size_t i = 0; i < GUARD; i++)
        if (guard[i] != GUARD_BYTE)
            return false;
    return true;
}

static bool as_expected(const struct loans *loans)
{
    for (size_t i = 0; i < entry_of(expected->call)->buffers; i++) {
        const uint8_t *start = loans->start[i];
        size_t length = loans->length[i];
        if (memcmp(start, expected->after[i], length) != 0)
            return false;
        if (!guard_stands(start - GUARD) || !guard_stands(start + length))
            return false;
    }
    return true;
}

/* The ways a case can go: straight to the entry, through the wrapper, or both in turn. */
enum way { DIRECT, CHECKED, TURNS };

static void run_case(unsigned long turn, enum way way)
{
    const struct entry *entry = entry_of(expected->call);
    struct loans loans = lend(turn);
    bool checked = way == CHECKED || (way == TURNS && turn % 2 == 1);
    uint32_t number = checked ? entry->checked(&loans) : entry->direct(&loans);
    char name[120];

    snprintf(name, sizeof name, "case %lu, %s: number %u, expected %u, or a byte differs", turn,
             entry->name, (unsigned)number, (unsigned)expected->number);
    reached[expected->call][number < NUMBERS ? number : NUMBERS - 1]++;
    tally_check(&tally, number == expected->number && as_expected(&loans), name);
}

/* A file that is cut, or has more than it says, is a failure. */
static bool run_file(FILE *file, enum way way)
{
    char magic[8];
    uint64_t count;

    if (fread(magic, 1, sizeof magic, file) != sizeof magic || memcmp(magic, "SALCASE2", sizeof magic) != 0)
        return false;
    if (!read_number(file, 8, &count))
        return false;
    memset(lines, 0, sizeof lines);
    memset(stored, 0, sizeof stored);
    for (uint64_t turn = 0; turn < count; turn++) {
        if (!read_case(file))
            return false;
        run_case((unsigned long)turn, way);
    }
    return getc(file) == EOF;
}

static void run_name(const char *name, enum way way)
{
    FILE *file = strcmp(name, "-") == 0 ? stdin : fopen(name, "rb");
    bool whole = file != NULL && run_file(file, way);

    if (!whole) {
        printf("%s: ", name);
        tally_check(&tally, false, "not a whole case file");
    }
    if (file != NULL && file != stdin)
        fclose(file);
}

static bool was_called(size_t call)
{
    for (size_t number = 0; number < NUMBERS; number++)
        if (reached[call][number] > 0)
            return true;
    return false;
}

static void print_count(size_t number, unsigned long count)
{
    if (number == NUMBERS - 1)
        printf("  other: %lu", count);
    else
        printf("  %zu: %lu", number, count);
}

/* One line for each call: how often it gave which number. */
static void print_reached(void)
{
    for (size_t call = 0; call < CALLS; call++) {
        if (!was_called(call))
            continue;
        printf("%-16s", entry_of(call)->name);
        for (size_t number = 0; number < NUMBERS; number++)
            if (reached[call][number] > 0)
                print_count(number, reached[call][number]);
        printf("\n");
    }
}

static void demand_number(size_t call, uint32_t number)
{
    char name[80];

    snprintf(name, sizeof name, "%s never gave %u", entry_of(call)->name, (unsigned)number);
    tally_check(&tally, reached[call][number] > 0, name);
}

static void demand_every_number(size_t call)
{
    demand_number(call, SALCIVORN_DONE);
    for (size_t i = 0; i < ENTRY_REFUSALS && entry_of(call)->refusals[i] != 0; i++)
        demand_number(call, entry_of(call)->refusals[i]);
}

int main(int count, char **words)
{
    enum way way = DIRECT;
    bool every = false;

    for (int i = 1; i < count; i++) {
        if (strcmp(words[i], "--checked") == 0)
            way = CHECKED;
        else if (strcmp(words[i], "--turns") == 0)
            way = TURNS;
        else if (strcmp(words[i], "--every") == 0)
            every = true;
        else
            run_name(words[i], way);
    }
    print_reached();
    for (size_t call = 0; every && call < CALLS; call++)
        if (was_called(call))
            demand_every_number(call);
    return tally_report(&tally);
}
