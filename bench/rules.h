/* The arithmetic of the tower and the linear maps in plain C, computed without a table or a branch on
 * an operand. */
#ifndef BENCH_RULES_H
#define BENCH_RULES_H

#include <stdint.h>

/* Bits 7 to 0 of a byte stand for these, added. */
static const uint8_t rule_tower_columns[8] = {0x98, 0xf3, 0xf2, 0x48, 0x09, 0x81, 0xa9, 0xff};
static const uint8_t rule_aes_columns[8] = {0x64, 0x78, 0x6e, 0x8c, 0x68, 0x29, 0xde, 0x60};

static inline uint8_t rule_combine(const uint8_t columns[8], uint8_t byte)
{
    uint8_t sum = 0;

    for (unsigned i = 0; i < 8; i++)
        sum ^= columns[i] & (uint8_t)(0 - (byte >> (7 - i) & 1));
    return sum;
}

static inline uint8_t rule_to_tower(uint8_t byte)
{
    return rule_combine(rule_tower_columns, byte);
}

static inline uint8_t rule_from_tower(uint8_t byte)
{
    return rule_combine(rule_aes_columns, byte);
}

static inline uint8_t rule_exchange(uint8_t pair)
{
    return (uint8_t)((pair & 1) << 1 | pair >> 1);
}

/* One is W^2 + W, so the product of both sums of bits goes to either half. */
static inline uint8_t rule_pair_product(uint8_t x, uint8_t y)
{
    uint8_t both = (x ^ x >> 1) & (y ^ y >> 1) & 1;

    return (uint8_t)((x & y) ^ (both << 1 | both));
}

/* n times a pair. */
static inline uint8_t rule_pair_times_n(uint8_t x)
{
    return (uint8_t)((x & 1) << 1 | ((x ^ x >> 1) & 1));
}

/* n times the square. */
static inline uint8_t rule_pair_scaled(uint8_t x)
{
    return x ^ x >> 1;
}

static inline uint8_t rule_nibble_product(uint8_t x, uint8_t y)
{
    uint8_t x1 = x >> 2, x0 = x & 3, y1 = y >> 2, y0 = y & 3;
    uint8_t k = rule_pair_times_n(rule_pair_product(x1 ^ x0, y1 ^ y0));

    return (uint8_t)((rule_pair_product(x1, y1) ^ k) << 2 | (rule_pair_product(x0, y0) ^ k));
}

/* N times the square, N being W times Z: the cross terms of a square cancel, so operations on pairs are enough. */
static inline uint8_t rule_nibble_scaled(uint8_t x)
{
    uint8_t square1 = rule_exchange(x >> 2), square0 = rule_exchange(x & 3);
    uint8_t k = rule_pair_times_n(square1 ^ square0);
    uint8_t low = rule_pair_product(1, square0 ^ k);
    uint8_t all = rule_pair_times_n(rule_pair_product(1, square1 ^ square0));

    return (uint8_t)(all << 2 | (low ^ all));
}

static inline uint8_t rule_rotate(uint8_t byte, unsigned by)
{
    return (uint8_t)(byte << by | byte >> (8 - by));
}

/* The linear parts of the affine steps. */
static inline uint8_t rule_affine(uint8_t byte)
{
    return byte ^ rule_rotate(byte, 1) ^ rule_rotate(byte, 2) ^ rule_rotate(byte, 3) ^ rule_rotate(byte, 4);
}

static inline uint8_t rule_inverse_affine(uint8_t byte)
{
    return rule_rotate(byte, 1) ^ rule_rotate(byte, 3) ^ rule_rotate(byte, 6);
}

static inline uint8_t rule_twice(uint8_t byte)
{
    return (uint8_t)(byte << 1 ^ (byte >> 7) * 0x1b);
}

static inline uint8_t rule_nibble_inverse(uint8_t x)
{
    uint8_t x1 = x >> 2, x0 = x & 3;
    uint8_t inverse = rule_exchange(rule_pair_product(x1, x0) ^ rule_pair_scaled(x1 ^ x0));

    return (uint8_t)(rule_pair_product(x0, inverse) << 2 | rule_pair_product(x1, inverse));
}

/* For expansion, where the key is bare. */
static inline uint8_t rule_bare_sbox(uint8_t byte)
{
    uint8_t a = rule_to_tower(byte), a1 = a >> 4, a0 = a & 15;
    uint8_t inverse = rule_nibble_inverse(rule_nibble_product(a1, a0) ^ rule_nibble_scaled(a1 ^ a0));
    uint8_t tower = (uint8_t)(rule_nibble_product(a0, inverse) << 4 | rule_nibble_product(a1, inverse));

    return rule_affine(rule_from_tower(tower)) ^ 0x63;
}

#endif
