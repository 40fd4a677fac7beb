/* The entries as a table, so that a test can go over calls and buffers by index. */
#ifndef HOST_ENTRIES_H
#define HOST_ENTRIES_H

#include "wrapper.h"

enum { ENTRY_COUNT = 10, ENTRY_BUFFERS = 5, ENTRY_REFUSALS = 10 };

/* One call's loans, in the order of the C parameters. */
struct loans {
    uint32_t direction;
    uint8_t *start[ENTRY_BUFFERS];
    size_t length[ENTRY_BUFFERS];
};

/* The refusals are all that the entry gives, in their order; zeros fill up. */
struct entry {
    const char *name;
    size_t buffers;
    uint32_t (*direct)(const struct loans *);
    uint32_t (*checked)(const struct loans *);
    uint32_t refusals[ENTRY_REFUSALS];
};

extern const struct entry entries[ENTRY_COUNT];

#endif
