/* The calls that are measured, their fixed buffers, and the libraries that can stand behind them. */
#ifndef BENCH_CALLS_H
#define BENCH_CALLS_H

#include "salcivorn.h"

/* The four entries, so that the archive, the plain version, a known-bad one and an empty one go
 * through the same machine code up to the call itself. */
struct library {
    uint32_t (*sbox)(uint32_t, uint8_t *, size_t, uint8_t *, size_t, const uint8_t *, size_t);
    uint32_t (*sbox_points)(uint32_t, uint8_t *, size_t, uint8_t *, size_t, const uint8_t *, size_t, uint8_t *,
                            size_t);
    uint32_t (*expand)(const uint8_t *, size_t, uint8_t *, size_t);
    uint32_t (*block)(uint32_t, uint8_t *, size_t, uint8_t *, size_t, const uint8_t *, size_t, uint8_t *, size_t);
};

extern const struct library archive;
extern const struct library empty;

enum kind { SBOX, SBOX_POINTS, EXPAND, BLOCK };

/* A key length of 0 stands at calls that take neither key nor round keys. */
struct call {
    const char *name;
    enum kind kind;
    uint32_t direction;
    size_t key_len;
};

enum { CALL_COUNT = 13 };
extern const struct call calls[CALL_COUNT];

/* One set for all calls: static in each program, so that the addresses are the same in every run. */
struct buffers {
    uint8_t data[SALCIVORN_BLOCK_SIZE];
    uint8_t mask[SALCIVORN_BLOCK_SIZE];
    uint8_t record[SALCIVORN_RECORD_SIZE];
    uint8_t points[SALCIVORN_POINTS_SIZE];
    uint8_t key[32];
    uint8_t round_keys[SALCIVORN_ROUND_KEYS_SIZE_32];
    uint8_t strip[SALCIVORN_STRIP_SIZE_32];
};

/* How many bytes a block call takes with a key of this length. */
size_t calls_round_keys_len(size_t key_len);
size_t calls_strip_len(size_t key_len);

/* Run 0 has all bits zero and run 1 all bits set, where an inversion or a product could have a short
 * way; the others are pseudo-random. The round keys are those of the key. */
void calls_fill(struct buffers *buffers, const struct call *call, unsigned long run);

/* The round keys of the key; without them nothing that follows would mean anything, so a refusal ends the program. */
void calls_expand(struct buffers *buffers, size_t key_len);

uint32_t calls_make(const struct library *library, const struct call *call, struct buffers *buffers);

#endif
