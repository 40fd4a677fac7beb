#include "plain.h"

#include <string.h>

#ifdef PLAIN_TABLES
#include "tables.h"
#define OP(name) table_##name
#else
#include "rules.h"
#define OP(name) rule_##name
#endif

enum { POINTS = SALCIVORN_POINTS_SIZE, BLOCK_BYTES = SALCIVORN_BLOCK_SIZE, RECORD = SALCIVORN_RECORD_SIZE };

/* A level of the tower. */
struct level {
    uint8_t (*product)(uint8_t, uint8_t);
    uint8_t (*scaled)(uint8_t);
    unsigned bits;
};

static const struct level pairs = {OP(pair_product), OP(pair_scaled), 2};
static const struct level nibbles = {OP(nibble_product), OP(nibble_scaled), 4};

/* Points 1 to 14 of a level: a and m hold two halves each, and the sums run from start. */
static inline void fourteen(const struct level *level, uint8_t *points, uint8_t a, uint8_t m, uint8_t start)
{
    unsigned low = (1U << level->bits) - 1;
    uint8_t a1 = (uint8_t)(a >> level->bits), a0 = a & (uint8_t)low;
    uint8_t m1 = (uint8_t)(m >> level->bits), m0 = m & (uint8_t)low;

    points[0] = a1 ^ a0;
    points[1] = level->scaled(points[0]);
    points[2] = m1 ^ m0;
    points[3] = level->scaled(points[2]);
    points[4] = level->product(a1, a0);
    points[5] = level->product(a1, m0);
    points[6] = level->product(a0, m1);
    points[7] = level->product(m1, m0);
    points[8] = start ^ points[1];
    points[9] = points[8] ^ points[3];
    points[10] = points[9] ^ points[4];
    points[11] = points[10] ^ points[5];
    points[12] = points[11] ^ points[6];
    points[13] = points[12] ^ points[7];
}

/* Four products of a masked half with a masked inverse, and their sums from start. */
static inline uint8_t eight(const struct level *level, uint8_t *points, uint8_t a, uint8_t m, uint8_t inverse,
                            uint8_t inverse_mask, uint8_t start)
{
    points[0] = level->product(a, inverse);
    points[1] = level->product(a, inverse_mask);
    points[2] = level->product(m, inverse);
    points[3] = level->product(m, inverse_mask);
    points[4] = start ^ points[0];
    points[5] = points[4] ^ points[1];
    points[6] = points[5] ^ points[2];
    points[7] = points[6] ^ points[3];
    return points[7];
}

/* The masked inverse of a tower byte; its mask is the record's S. */
static inline uint8_t invert(uint8_t a, uint8_t m, const uint8_t *record, uint8_t *points)
{
    uint8_t q = record[0] >> 4, t = record[0] & 15, s = record[1], r = record[2];
    uint8_t b, e, high, low;

    fourteen(&nibbles, points, a, m, q);
    b = points[13];
    fourteen(&pairs, points + 14, b, q, r);
    points[28] = rule_exchange(points[27]);
    points[29] = rule_exchange(r);
    high = eight(&pairs, points + 30, b & 3, q & 3, points[28], points[29], t >> 2);
    low = eight(&pairs, points + 38, b >> 2, q >> 2, points[28], points[29], t & 3);
    e = (uint8_t)(high << 2 | low);
    high = eight(&nibbles, points + 46, a & 15, m & 15, e, t, s >> 4);
    low = eight(&nibbles, points + 54, a >> 4, m >> 4, e, t, s & 15);
    return (uint8_t)(high << 4 | low);
}

static inline void substitute(uint32_t direction, uint8_t *data, uint8_t *mask, const uint8_t *record, uint8_t *points)
{
    uint8_t a, m;

    if (direction == SALCIVORN_ENCRYPT) {
        a = OP(to_tower)(*data);
        m = OP(to_tower)(*mask);
        *data = OP(affine)(OP(from_tower)(invert(a, m, record, points))) ^ 0x63;
        *mask = OP(affine)(OP(from_tower)(record[1]));
    } else {
        a = OP(to_tower)(OP(inverse_affine)(*data) ^ 0x05);
        m = OP(to_tower)(OP(inverse_affine)(*mask));
        *data = OP(from_tower)(invert(a, m, record, points));
        *mask = OP(from_tower)(record[1]);
    }
}

static uint32_t plain_sbox_points(uint32_t direction, uint8_t *data, size_t data_len, uint8_t *mask, size_t mask_len,
                                  const uint8_t *record, size_t record_len, uint8_t *points, size_t points_len)
{
    if (direction > SALCIVORN_DECRYPT)
        return SALCIVORN_DIRECTION;
    if (data_len != 1 || mask_len != 1 || record_len != RECORD)
        return SALCIVORN_PART_LENGTH;
    if (points_len != POINTS)
        return SALCIVORN_POINTS_LENGTH;
    if (record[2] > 3)
        return SALCIVORN_RECORD_BYTE;
    substitute(direction, data, mask, record, points);
    return SALCIVORN_DONE;
}

static uint32_t plain_sbox(uint32_t direction, uint8_t *data, size_t data_len, uint8_t *mask, size_t mask_len,
                           const uint8_t *record, size_t record_len)
{
    uint8_t points[POINTS];

    return plain_sbox_points(direction, data, data_len, mask, mask_len, record, record_len, points, sizeof points);
}

static uint32_t plain_expand(const uint8_t *key, size_t key_len, uint8_t *round_keys, size_t round_keys_len)
{
    uint8_t constant = 1;

    if (key_len != 16 && key_len != 24 && key_len != 32)
        return SALCIVORN_KEY_LENGTH;
    if (round_keys_len != 4 * key_len + 112)
        return SALCIVORN_ROUND_KEYS_LENGTH;
    memcpy(round_keys, key, key_len);
    for (size_t at = key_len; at < round_keys_len; at += 4) {
        const uint8_t *last = round_keys + at - 4, *before = round_keys + at - key_len;
        uint8_t word[4] = {last[0], last[1], last[2], last[3]};
        if (at % key_len == 0) {
            word[0] = OP(bare_sbox)(last[1]) ^ constant;
            word[1] = OP(bare_sbox)(last[2]);
            word[2] = OP(bare_sbox)(last[3]);
            word[3] = OP(bare_sbox)(last[0]);
            constant = OP(twice)(constant);
        } else if (key_len == 32 && at % key_len == 16) {
            for (size_t i = 0; i < 4; i++)
                word[i] = OP(bare_sbox)(last[i]);
        }
        for (size_t i = 0; i < 4; i++)
            round_keys[at + i] = before[i] ^ word[i];
    }
    return SALCIVORN_DONE;
}

static void add_round_key(uint8_t *data, const uint8_t *words)
{
    for (size_t i = 0; i < BLOCK_BYTES; i++)
        data[i] ^= words[i];
}

/* Row i moves to the left by i steps; a step of 3 columns is one to the right. */
static inline void shift_rows(uint8_t *part, unsigned step)
{
    uint8_t old[BLOCK_BYTES];

    memcpy(old, part, sizeof old);
    for (unsigned column = 0; column < 4; column++)
        for (unsigned row = 1; row < 4; row++)
            part[4 * column + row] = old[4 * ((column + step * row) % 4) + row];
}

static inline void mix_column(uint8_t *column)
{
    uint8_t first = column[0], all = column[0] ^ column[1] ^ column[2] ^ column[3];

    column[0] ^= all ^ OP(twice)(column[0] ^ column[1]);
    column[1] ^= all ^ OP(twice)(column[1] ^ column[2]);
    column[2] ^= all ^ OP(twice)(column[2] ^ column[3]);
    column[3] ^= all ^ OP(twice)(column[3] ^ first);
}

/* The inverse mix is the mix of a column to which these sums, times four, were added. */
static inline void prepare_column(uint8_t *column)
{
    uint8_t even = OP(twice)(OP(twice)(column[0] ^ column[2])), odd = OP(twice)(OP(twice)(column[1] ^ column[3]));

    column[0] ^= even;
    column[1] ^= odd;
    column[2] ^= even;
    column[3] ^= odd;
}

static void mix(uint8_t *part)
{
    for (size_t i = 0; i < BLOCK_BYTES; i += 4)
        mix_column(part + i);
}

static void unmix(uint8_t *part)
{
    for (size_t i = 0; i < BLOCK_BYTES; i += 4) {
        prepare_column(part + i);
        mix_column(part + i);
    }
}

static inline void substitute_bytes(uint32_t direction, uint8_t *block, uint8_t *mask, const uint8_t *records)
{
    uint8_t points[POINTS];

    for (size_t i = 0; i < BLOCK_BYTES; i++)
        substitute(direction, block + i, mask + i, records + RECORD * i, points);
}

static void encrypt(uint8_t *block, uint8_t *mask, const uint8_t *words, size_t rounds, const uint8_t *records)
{
    add_round_key(block, words);
    for (size_t round = 1; round <= rounds; round++) {
        substitute_bytes(SALCIVORN_ENCRYPT, block, mask, records + RECORD * BLOCK_BYTES * (round - 1));
        shift_rows(block, 1);
        shift_rows(mask, 1);
        if (round < rounds) {
            mix(block);
            mix(mask);
        }
        add_round_key(block, words + BLOCK_BYTES * round);
    }
}

static void decrypt(uint8_t *block, uint8_t *mask, const uint8_t *words, size_t rounds, const uint8_t *records)
{
    add_round_key(block, words + BLOCK_BYTES * rounds);
    for (size_t round = rounds; round-- > 0;) {
        shift_rows(block, 3);
        shift_rows(mask, 3);
        substitute_bytes(SALCIVORN_DECRYPT, block, mask, records + RECORD * BLOCK_BYTES * (rounds - 1 - round));
        add_round_key(block, words + BLOCK_BYTES * round);
        if (round > 0) {
            unmix(block);
            unmix(mask);
        }
    }
}

/* The refusals of a strip, in their order, for round keys of a key of this length. */
static uint32_t refuse_strip(const uint8_t *strip, size_t strip_len, size_t key_len)
{
    if (strip_len < 4 || (size_t)(strip[0] << 8 | strip[1]) != strip_len - 2)
        return SALCIVORN_STRIP_FRAMING;
    if (strip[2] == 0)
        return SALCIVORN_STRIP_SPENT;
    if (strip[2] != 1)
        return SALCIVORN_STRIP_VERSION;
    if (strip[3] != key_len)
        return SALCIVORN_STRIP_KEY_SIZE;
    if (strip_len != 12 * key_len + 292)
        return SALCIVORN_STRIP_COUNT;
    for (size_t third = 6; third < strip_len; third += RECORD)
        if (strip[third] > 3)
            return SALCIVORN_STRIP_RECORD_BYTE;
    return SALCIVORN_DONE;
}

static uint32_t plain_block(uint32_t direction, uint8_t *block, size_t block_len, uint8_t *mask, size_t mask_len,
                            const uint8_t *round_keys, size_t round_keys_len, uint8_t *strip, size_t strip_len)
{
    size_t rounds = round_keys_len / BLOCK_BYTES - 1;
    uint32_t number;

    if (direction > SALCIVORN_DECRYPT)
        return SALCIVORN_DIRECTION;
    if (block_len != BLOCK_BYTES || mask_len != BLOCK_BYTES)
        return SALCIVORN_PART_LENGTH;
    if (round_keys_len != 176 && round_keys_len != 208 && round_keys_len != 240)
        return SALCIVORN_ROUND_KEYS_LENGTH;
    number = refuse_strip(strip, strip_len, 4 * (rounds - 6));
    if (number != SALCIVORN_DONE)
        return number;
    if (direction == SALCIVORN_ENCRYPT)
        encrypt(block, mask, round_keys, rounds, strip + 4);
    else
        decrypt(block, mask, round_keys, rounds, strip + 4);
    strip[2] = 0;
    memset(strip + 4, 0, strip_len - 4);
    return SALCIVORN_DONE;
}

#ifdef PLAIN_TABLES
const struct library plain_tables = {plain_sbox, plain_sbox_points, plain_expand, plain_block};

void plain_tables_prepare(void)
{
    table_fill_tower();
    table_fill_bytes();
}
#else
const struct library plain_computed = {plain_sbox, plain_sbox_points, plain_expand, plain_block};
#endif
