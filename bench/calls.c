#include "calls.h"

#include <stdlib.h>
#include <string.h>

const struct library archive = {salcivorn_sbox, salcivorn_sbox_points, salcivorn_expand, salcivorn_block};

const struct call calls[CALL_COUNT] = {
    {"S-box, encrypting", SBOX, SALCIVORN_ENCRYPT, 0},
    {"S-box, decrypting", SBOX, SALCIVORN_DECRYPT, 0},
    {"S-box with points, encrypting", SBOX_POINTS, SALCIVORN_ENCRYPT, 0},
    {"S-box with points, decrypting", SBOX_POINTS, SALCIVORN_DECRYPT, 0},
    {"expansion, key of 16", EXPAND, 0, 16},
    {"expansion, key of 24", EXPAND, 0, 24},
    {"expansion, key of 32", EXPAND, 0, 32},
    {"block, key of 16, encrypting", BLOCK, SALCIVORN_ENCRYPT, 16},
    {"block, key of 16, decrypting", BLOCK, SALCIVORN_DECRYPT, 16},
    {"block, key of 24, encrypting", BLOCK, SALCIVORN_ENCRYPT, 24},
    {"block, key of 24, decrypting", BLOCK, SALCIVORN_DECRYPT, 24},
    {"block, key of 32, encrypting", BLOCK, SALCIVORN_ENCRYPT, 32},
    {"block, key of 32, decrypting", BLOCK, SALCIVORN_DECRYPT, 32},
};

static uint32_t empty_sbox(uint32_t direction, uint8_t *data, size_t data_len, uint8_t *mask, size_t mask_len,
                           const uint8_t *record, size_t record_len)
{
    (void)direction, (void)data, (void)data_len, (void)mask, (void)mask_len, (void)record, (void)record_len;
    return SALCIVORN_DONE;
}

static uint32_t empty_four(uint32_t direction, uint8_t *data, size_t data_len, uint8_t *mask, size_t mask_len,
                           const uint8_t *third, size_t third_len, uint8_t *fourth, size_t fourth_len)
{
    (void)direction, (void)data, (void)data_len, (void)mask, (void)mask_len, (void)third, (void)third_len;
    (void)fourth, (void)fourth_len;
    return SALCIVORN_DONE;
}

static uint32_t empty_expand(const uint8_t *key, size_t key_len, uint8_t *round_keys, size_t round_keys_len)
{
    (void)key, (void)key_len, (void)round_keys, (void)round_keys_len;
    return SALCIVORN_DONE;
}

const struct library empty = {empty_sbox, empty_four, empty_expand, empty_four};

static size_t rounds(size_t key_len)
{
    return key_len / 4 + 6;
}

size_t calls_round_keys_len(size_t key_len)
{
    return SALCIVORN_BLOCK_SIZE * (rounds(key_len) + 1);
}

size_t calls_strip_len(size_t key_len)
{
    return 4 + SALCIVORN_RECORD_SIZE * SALCIVORN_BLOCK_SIZE * rounds(key_len);
}

/* splitmix64 */
static uint64_t next(uint64_t *state)
{
    uint64_t z = *state += UINT64_C(0x9e3779b97f4a7c15);

    z = (z ^ z >> 30) * UINT64_C(0xbf58476d1ce4e5b9);
    z = (z ^ z >> 27) * UINT64_C(0x94d049bb133111eb);
    return z ^ z >> 31;
}

static void fill_bytes(struct buffers *buffers, unsigned long run)
{
    uint8_t *bytes = (uint8_t *)buffers;
    uint64_t state = run;

    if (run < 2) {
        memset(bytes, run == 0 ? 0 : 0xff, sizeof *buffers);
        return;
    }
    for (size_t i = 0; i < sizeof *buffers; i++)
        bytes[i] = (uint8_t)next(&state);
}

static void frame_strip(uint8_t *strip, size_t key_len)
{
    size_t length = calls_strip_len(key_len);

    strip[0] = (uint8_t)((length - 2) >> 8);
    strip[1] = (uint8_t)(length - 2);
    strip[2] = 1;
    strip[3] = (uint8_t)key_len;
    for (size_t third = 6; third < length; third += SALCIVORN_RECORD_SIZE)
        strip[third] &= 3;
}

void calls_expand(struct buffers *buffers, size_t key_len)
{
    if (salcivorn_expand(buffers->key, key_len, buffers->round_keys, calls_round_keys_len(key_len)) != SALCIVORN_DONE)
        abort();
}

void calls_fill(struct buffers *buffers, const struct call *call, unsigned long run)
{
    fill_bytes(buffers, run);
    buffers->record[2] &= 3;
    if (call->kind != BLOCK)
        return;
    frame_strip(buffers->strip, call->key_len);
    calls_expand(buffers, call->key_len);
}

uint32_t calls_make(const struct library *library, const struct call *call, struct buffers *buffers)
{
    uint32_t direction = call->direction;
    size_t key_len = call->key_len;

    switch (call->kind) {
    case SBOX:
        return library->sbox(direction, buffers->data, 1, buffers->mask, 1, buffers->record, sizeof buffers->record);
    case SBOX_POINTS:
        return library->sbox_points(direction, buffers->data, 1, buffers->mask, 1, buffers->record,
                                    sizeof buffers->record, buffers->points, sizeof buffers->points);
    case EXPAND:
        return library->expand(buffers->key, key_len, buffers->round_keys, calls_round_keys_len(key_len));
    default:
        return library->block(direction, buffers->data, sizeof buffers->data, buffers->mask, sizeof buffers->mask,
                              buffers->round_keys, calls_round_keys_len(key_len), buffers->strip,
                              calls_strip_len(key_len));
    }
}
