#include "listing_bad.h"

/* The product of two nibbles, bit by bit; any product would do. The empty assembly keeps the compiler
 * from drawing products together or adding in another order. */
static uint8_t product(uint8_t left, uint8_t right)
{
    uint8_t both = left & right & 15;

    __asm__ volatile("" : "+r"(both));
    return both;
}

static uint32_t last_sbox(uint32_t direction, uint8_t *data, size_t data_len, uint8_t *mask, size_t mask_len,
                          const uint8_t *record, size_t record_len)
{
    uint8_t high = *data >> 4, low = *data, high_mask = *mask >> 4, low_mask = *mask;
    uint8_t sum = product(high, low) ^ product(high_mask, low_mask);

    (void)direction, (void)data_len, (void)mask_len, (void)record_len;
    sum ^= product(high, low_mask);
    sum ^= product(high_mask, low);
    __asm__ volatile("" : "+r"(sum));
    *data = sum ^ record[0];
    *mask = record[0];
    return SALCIVORN_DONE;
}

/* Bit 3 of the fresh mask is a copy of its bit 0. */
static uint32_t bits_sbox(uint32_t direction, uint8_t *data, size_t data_len, uint8_t *mask, size_t mask_len,
                          const uint8_t *record, size_t record_len)
{
    uint8_t fresh = (record[1] & 0xf7) | (record[1] & 1) << 3;
    uint8_t both = *mask ^ fresh, value = *data;

    (void)direction, (void)data_len, (void)mask_len, (void)record_len;
    __asm__ volatile("" : "+r"(both), "+r"(value));
    value ^= both;
    __asm__ volatile("" : "+r"(value));
    *data = value;
    *mask = fresh;
    return SALCIVORN_DONE;
}

/* The loads stand in assembly, so that both go to one register. */
static uint32_t over_sbox(uint32_t direction, uint8_t *data, size_t data_len, uint8_t *mask, size_t mask_len,
                          const uint8_t *record, size_t record_len)
{
    uint64_t part;

    (void)direction, (void)data_len, (void)mask_len, (void)record, (void)record_len;
    __asm__ volatile("movzbl (%1), %k0\n\tmovzbl (%2), %k0" : "=&r"(part) : "r"(data), "r"(mask) : "memory");
    return SALCIVORN_DONE;
}

/* The mask byte is another position's, but in turn 64. */
static uint32_t turn_block(uint32_t direction, uint8_t *data, size_t data_len, uint8_t *mask, size_t mask_len,
                           const uint8_t *round_keys, size_t round_keys_len, uint8_t *strip, size_t strip_len)
{
    (void)direction, (void)data_len, (void)mask_len, (void)round_keys, (void)round_keys_len, (void)strip_len;
    for (unsigned turn = 0; turn < 144; turn++) {
        uint8_t value = data[turn % 16], other = mask[(turn + (turn != 64)) % 16];

        __asm__ volatile("" : "+r"(value), "+r"(other));
        value ^= other;
        __asm__ volatile("" : "+r"(value));
        strip[turn] = value;
    }
    return SALCIVORN_DONE;
}

const struct library listing_bad_last = {.sbox = last_sbox};
const struct library listing_bad_bits = {.sbox = bits_sbox};
const struct library listing_bad_over = {.sbox = over_sbox};
const struct library listing_bad_turn = {.block = turn_block};
