#include "known_bad.h"

static uint8_t table[256];

/* The product in the AES field; it stops at the highest bit of y. */
static uint8_t multiply(uint8_t x, uint8_t y)
{
    uint8_t product = 0;

    for (; y != 0; y >>= 1) {
        if (y & 1)
            product ^= x;
        x = (uint8_t)(x << 1 ^ (x >> 7) * 0x1b);
    }
    return product;
}

/* The inverse is the power 254. */
static uint8_t invert(uint8_t byte)
{
    uint8_t power = byte;

    for (int i = 0; i < 6; i++)
        power = multiply(multiply(power, power), byte);
    return multiply(power, power);
}

static uint8_t affine(uint8_t byte)
{
    unsigned twice = byte * 257U;

    return (uint8_t)(twice ^ twice >> 4 ^ twice >> 5 ^ twice >> 6 ^ twice >> 7 ^ 0x63);
}

/* Both take the mask off, and put it on again. */
static uint32_t lookup_sbox(uint32_t direction, uint8_t *data, size_t data_len, uint8_t *mask, size_t mask_len,
                            const uint8_t *record, size_t record_len)
{
    (void)direction, (void)data_len, (void)mask_len, (void)record, (void)record_len;
    *data = table[*data ^ *mask] ^ *mask;
    return SALCIVORN_DONE;
}

static uint32_t branch_sbox(uint32_t direction, uint8_t *data, size_t data_len, uint8_t *mask, size_t mask_len,
                            const uint8_t *record, size_t record_len)
{
    (void)direction, (void)data_len, (void)mask_len, (void)record, (void)record_len;
    *data = affine(invert(*data ^ *mask)) ^ *mask;
    return SALCIVORN_DONE;
}

void known_bad_prepare(void)
{
    for (unsigned i = 0; i < 256; i++)
        table[i] = affine(invert((uint8_t)i));
}

const struct library known_bad_lookup = {.sbox = lookup_sbox};
const struct library known_bad_branch = {.sbox = branch_sbox};
