/* The entries of salcivorn.h behind a test of what is lent: no buffer may be null unless its length
 * is 0, and no two may overlap. A buffer of length 0 overlaps nothing.
 *
 * Parameters and results are those of the entries, and two results more. The test comes before the
 * call, null before overlap; when it fails the entry is not called and no byte changes. */
#ifndef SALCIVORN_WRAPPER_H
#define SALCIVORN_WRAPPER_H

#include "salcivorn.h"

#ifdef __cplusplus
extern "C" {
#endif

/* Outside the refusal numbers, so that a result tells which side refused. */
enum salcivorn_checked {
    SALCIVORN_CHECKED_OVERLAP = 100, /* two lent buffers share a byte */
    SALCIVORN_CHECKED_NULL = 101     /* a null pointer was lent with a length above 0 */
};

uint32_t salcivorn_checked_sbox(uint32_t direction,
                                uint8_t *data, size_t data_len,
                                uint8_t *mask, size_t mask_len,
                                const uint8_t *record, size_t record_len);

uint32_t salcivorn_checked_sbox_points(uint32_t direction,
                                       uint8_t *data, size_t data_len,
                                       uint8_t *mask, size_t mask_len,
                                       const uint8_t *record, size_t record_len,
                                       uint8_t *points, size_t points_len);

uint32_t salcivorn_checked_expand(const uint8_t *key, size_t key_len,
                                  uint8_t *round_keys, size_t round_keys_len);

uint32_t salcivorn_checked_block(uint32_t direction,
                                 uint8_t *block, size_t block_len,
                                 uint8_t *mask, size_t mask_len,
                                 const uint8_t *round_keys, size_t round_keys_len,
                                 uint8_t *strip, size_t strip_len);

uint32_t salcivorn_checked_pool_add(uint8_t *state, size_t state_len,
                                    uint8_t *rooms, size_t rooms_len,
                                    const uint8_t *strip, size_t strip_len);

uint32_t salcivorn_checked_pool_take(uint8_t *state, size_t state_len,
                                     uint8_t *rooms, size_t rooms_len,
                                     uint8_t *number, size_t number_len,
                                     uint8_t *strip, size_t strip_len);

uint32_t salcivorn_checked_pool_outstanding(const uint8_t *state, size_t state_len,
                                            const uint8_t *rooms, size_t rooms_len,
                                            uint8_t *message, size_t message_len);

uint32_t salcivorn_checked_pool_acknowledge(uint8_t *state, size_t state_len,
                                            uint8_t *rooms, size_t rooms_len,
                                            const uint8_t *acknowledgement, size_t acknowledgement_len,
                                            uint8_t *number, size_t number_len,
                                            uint8_t *strip, size_t strip_len);

uint32_t salcivorn_checked_pool_apply(uint8_t *state, size_t state_len,
                                      uint8_t *rooms, size_t rooms_len,
                                      const uint8_t *message, size_t message_len,
                                      uint8_t *acknowledgement, size_t acknowledgement_len);

uint32_t salcivorn_checked_pool_go_alone(uint8_t *state, size_t state_len);

#ifdef __cplusplus
}
#endif

#endif
