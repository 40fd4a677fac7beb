/* Each entry, direct and through the wrapper, with its loans taken from a table. */
#include "entries.h"

#define LOAN(i) loans->start[i], loans->length[i]

#define BOTH_WAYS(name, ...)                                     \
    static uint32_t direct_##name(const struct loans *loans)     \
    {                                                            \
        return salcivorn_##name(__VA_ARGS__);                    \
    }                                                            \
    static uint32_t checked_##name(const struct loans *loans)    \
    {                                                            \
        return salcivorn_checked_##name(__VA_ARGS__);            \
    }

BOTH_WAYS(sbox, loans->direction, LOAN(0), LOAN(1), LOAN(2))
BOTH_WAYS(sbox_points, loans->direction, LOAN(0), LOAN(1), LOAN(2), LOAN(3))
BOTH_WAYS(expand, LOAN(0), LOAN(1))
BOTH_WAYS(block, loans->direction, LOAN(0), LOAN(1), LOAN(2), LOAN(3))
BOTH_WAYS(pool_add, LOAN(0), LOAN(1), LOAN(2))
BOTH_WAYS(pool_take, LOAN(0), LOAN(1), LOAN(2), LOAN(3))
BOTH_WAYS(pool_outstanding, LOAN(0), LOAN(1), LOAN(2))
BOTH_WAYS(pool_acknowledge, LOAN(0), LOAN(1), LOAN(2), LOAN(3), LOAN(4))
BOTH_WAYS(pool_apply, LOAN(0), LOAN(1), LOAN(2), LOAN(3))
BOTH_WAYS(pool_go_alone, LOAN(0))

const struct entry entries[ENTRY_COUNT] = {
    {"sbox", 3, direct_sbox, checked_sbox, {13, 6, 2}},
    {"sbox_points", 4, direct_sbox_points, checked_sbox_points, {13, 6, 3, 2}},
    {"expand", 2, direct_expand, checked_expand, {4, 5}},
    {"block", 4, direct_block, checked_block, {13, 6, 5, 7, 11, 8, 9, 12, 10}},
    {"pool_add", 3, direct_pool_add, checked_pool_add, {6, 23, 24, 7, 11, 8, 9, 12, 10, 14}},
    {"pool_take", 4, direct_pool_take, checked_pool_take, {6, 23, 24, 15}},
    {"pool_outstanding", 3, direct_pool_outstanding, checked_pool_outstanding, {6}},
    {"pool_acknowledge", 5, direct_pool_acknowledge, checked_pool_acknowledge, {6, 16}},
    {"pool_apply", 4, direct_pool_apply, checked_pool_apply, {6, 16}},
    {"pool_go_alone", 1, direct_pool_go_alone, checked_pool_go_alone, {6}},
};
