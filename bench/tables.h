/* The operations of rules.h, read from tables that are filled from them once. */
#ifndef BENCH_TABLES_H
#define BENCH_TABLES_H

#include "rules.h"

static struct {
    uint8_t pair_product[16], nibble_product[256]; /* found at both operands joined */
    uint8_t pair_scaled[4], nibble_scaled[16];
    uint8_t to_tower[256], from_tower[256], affine[256], inverse_affine[256], twice[256], bare_sbox[256];
} tables;

static inline uint8_t table_pair_product(uint8_t x, uint8_t y)
{
    return tables.pair_product[x << 2 | y];
}

static inline uint8_t table_nibble_product(uint8_t x, uint8_t y)
{
    return tables.nibble_product[x << 4 | y];
}

#define TABLE_OF_ONE(name)                             \
    static inline uint8_t table_##name(uint8_t x)      \
    {                                                  \
        return tables.name[x];                         \
    }

TABLE_OF_ONE(pair_scaled)
TABLE_OF_ONE(nibble_scaled)
TABLE_OF_ONE(to_tower)
TABLE_OF_ONE(from_tower)
TABLE_OF_ONE(affine)
TABLE_OF_ONE(inverse_affine)
TABLE_OF_ONE(twice)
TABLE_OF_ONE(bare_sbox)

static inline void table_fill_tower(void)
{
    for (uint8_t i = 0; i < 4; i++)
        tables.pair_scaled[i] = rule_pair_scaled(i);
    for (uint8_t i = 0; i < 16; i++) {
        tables.pair_product[i] = rule_pair_product(i >> 2, i & 3);
        tables.nibble_scaled[i] = rule_nibble_scaled(i);
    }
    for (unsigned i = 0; i < 256; i++)
        tables.nibble_product[i] = rule_nibble_product((uint8_t)(i >> 4), (uint8_t)(i & 15));
}

static inline void table_fill_bytes(void)
{
    for (unsigned i = 0; i < 256; i++) {
        uint8_t byte = (uint8_t)i;
        tables.to_tower[i] = rule_to_tower(byte);
        tables.from_tower[i] = rule_from_tower(byte);
        tables.affine[i] = rule_affine(byte);
        tables.inverse_affine[i] = rule_inverse_affine(byte);
        tables.twice[i] = rule_twice(byte);
        tables.bare_sbox[i] = rule_bare_sbox(byte);
    }
}

#endif
