/* The wrapper: looks at all loans of a call pairwise, then calls the entry. */
#include "wrapper.h"

#include <stdbool.h>

struct loan {
    const uint8_t *start;
    size_t length;
};

/* Compares addresses as numbers and by difference: comparing pointers into different objects has no
 * defined answer in C, and an end address could run over. */
static bool overlap(struct loan a, struct loan b)
{
    uintptr_t at_a = (uintptr_t)a.start;
    uintptr_t at_b = (uintptr_t)b.start;

    if (a.length == 0 || b.length == 0)
        return false;
    return at_a <= at_b ? at_b - at_a < a.length : at_a - at_b < b.length;
}

static uint32_t test_loans(const struct loan *loans, size_t count)
{
    for (size_t i = 0; i < count; i++)
        if (loans[i].start == NULL && loans[i].length > 0)
            return SALCIVORN_CHECKED_NULL;
    for (size_t i = 0; i < count; i++)
        for (size_t j = i + 1; j < count; j++)
            if (overlap(loans[i], loans[j]))
                return SALCIVORN_CHECKED_OVERLAP;
    return SALCIVORN_DONE;
}

/* What an entry gets instead of a null pointer of length 0; no byte of it is read or written. */
static uint8_t nothing[1];

static uint8_t *lend(uint8_t *start)
{
    return start != NULL ? start : nothing;
}

static const uint8_t *lend_const(const uint8_t *start)
{
    return start != NULL ? start : nothing;
}

uint32_t salcivorn_checked_sbox(uint32_t direction,
                                uint8_t *data, size_t data_len,
                                uint8_t *mask, size_t mask_len,
                                const uint8_t *record, size_t record_len)
{
    const struct loan loans[] = {{data, data_len}, {mask, mask_len}, {record, record_len}};
    uint32_t refused = test_loans(loans, 3);

    return refused != SALCIVORN_DONE
        ? refused
        : salcivorn_sbox(direction, lend(data), data_len, lend(mask), mask_len, lend_const(record),
                         record_len);
}

uint32_t salcivorn_checked_sbox_points(uint32_t direction,
                                       uint8_t *data, size_t data_len,
                                       uint8_t *mask, size_t mask_len,
                                       const uint8_t *record, size_t record_len,
                                       uint8_t *points, size_t points_len)
{
    const struct loan loans[] = {
        {data, data_len}, {mask, mask_len}, {record, record_len}, {points, points_len}};
    uint32_t refused = test_loans(loans, 4);

    return refused != SALCIVORN_DONE
        ? refused
        : salcivorn_sbox_points(direction, lend(data), data_len, lend(mask), mask_len,
                                lend_const(record), record_len, lend(points), points_len);
}

uint32_t salcivorn_checked_expand(const uint8_t *key, size_t key_len,
                                  uint8_t *round_keys, size_t round_keys_len)
{
    const struct loan loans[] = {{key, key_len}, {round_keys, round_keys_len}};
    uint32_t refused = test_loans(loans, 2);

    return refused != SALCIVORN_DONE
        ? refused
        : salcivorn_expand(lend_const(key), key_len, lend(round_keys), round_keys_len);
}

uint32_t salcivorn_checked_block(uint32_t direction,
                                 uint8_t *block, size_t block_len,
                                 uint8_t *mask, size_t mask_len,
                                 const uint8_t *round_keys, size_t round_keys_len,
                                 uint8_t *strip, size_t strip_len)
{
    const struct loan loans[] = {
        {block, block_len}, {mask, mask_len}, {round_keys, round_keys_len}, {strip, strip_len}};
    uint32_t refused = test_loans(loans, 4);

    return refused != SALCIVORN_DONE
        ? refused
        : salcivorn_block(direction, lend(block), block_len, lend(mask), mask_len,
                          lend_const(round_keys), round_keys_len, lend(strip), strip_len);
}

uint32_t salcivorn_checked_pool_add(uint8_t *state, size_t state_len,
                                    uint8_t *rooms, size_t rooms_len,
                                    const uint8_t *strip, size_t strip_len)
{
    const struct loan loans[] = {{state, state_len}, {rooms, rooms_len}, {strip, strip_len}};
    uint32_t refused = test_loans(loans, 3);

    return refused != SALCIVORN_DONE
        ? refused
        : salcivorn_pool_add(lend(state), state_len, lend(rooms), rooms_len, lend_const(strip), strip_len);
}

uint32_t salcivorn_checked_pool_take(uint8_t *state, size_t state_len,
                                     uint8_t *rooms, size_t rooms_len,
                                     uint8_t *number, size_t number_len,
                                     uint8_t *strip, size_t strip_len)
{
    const struct loan loans[] = {
        {state, state_len}, {rooms, rooms_len}, {number, number_len}, {strip, strip_len}};
    uint32_t refused = test_loans(loans, 4);

    return refused != SALCIVORN_DONE
        ? refused
        : salcivorn_pool_take(lend(state), state_len, lend(rooms), rooms_len, lend(number), number_len,
                              lend(strip), strip_len);
}

uint32_t salcivorn_checked_pool_outstanding(const uint8_t *state, size_t state_len,
                                            const uint8_t *rooms, size_t rooms_len,
                                            uint8_t *message, size_t message_len)
{
    const struct loan loans[] = {{state, state_len}, {rooms, rooms_len}, {message, message_len}};
    uint32_t refused = test_loans(loans, 3);

    return refused != SALCIVORN_DONE
        ? refused
        : salcivorn_pool_outstanding(lend_const(state), state_len, lend_const(rooms), rooms_len,
                                     lend(message), message_len);
}

uint32_t salcivorn_checked_pool_acknowledge(uint8_t *state, size_t state_len,
                                            uint8_t *rooms, size_t rooms_len,
                                            const uint8_t *acknowledgement, size_t acknowledgement_len,
                                            uint8_t *number, size_t number_len,
                                            uint8_t *strip, size_t strip_len)
{
    const struct loan loans[] = {{state, state_len}, {rooms, rooms_len}, {acknowledgement, acknowledgement_len},
                                 {number, number_len}, {strip, strip_len}};
    uint32_t refused = test_loans(loans, 5);

    return refused != SALCIVORN_DONE
        ? refused
        : salcivorn_pool_acknowledge(lend(state), state_len, lend(rooms), rooms_len,
                                     lend_const(acknowledgement), acknowledgement_len, lend(number),
                                     number_len, lend(strip), strip_len);
}

uint32_t salcivorn_checked_pool_apply(uint8_t *state, size_t state_len,
                                      uint8_t *rooms, size_t rooms_len,
                                      const uint8_t *message, size_t message_len,
                                      uint8_t *acknowledgement, size_t acknowledgement_len)
{
    const struct loan loans[] = {{state, state_len}, {rooms, rooms_len}, {message, message_len},
                                 {acknowledgement, acknowledgement_len}};
    uint32_t refused = test_loans(loans, 4);

    return refused != SALCIVORN_DONE
        ? refused
        : salcivorn_pool_apply(lend(state), state_len, lend(rooms), rooms_len, lend_const(message),
                               message_len, lend(acknowledgement), acknowledgement_len);
}

uint32_t salcivorn_checked_pool_go_alone(uint8_t *state, size_t state_len)
{
    const struct loan loans[] = {{state, state_len}};
    uint32_t refused = test_loans(loans, 1);

    return refused != SALCIVORN_DONE ? refused : salcivorn_pool_go_alone(lend(state), state_len);
}
