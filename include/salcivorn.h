/* Masked AES (FIPS 197): the entries of libsalcivorn.a. The mirrored pool of strips: the entries of
 * libsalcivorn_pool.a, which all start with salcivorn_pool. A host links the archives it calls.
 *
 * A masked byte is two bytes that travel apart: the data, which is the secret plus its mask
 * (exclusive or), and the mask. No entry takes the mask off. Key and round keys are bare as yet.
 *
 * All entries keep these rules:
 * - A buffer is lent for the length of the call, as a pointer and a length in bytes.
 * - The result is 0 when the call is done, else the number of the first refusal that applies, in
 *   the order written at the entry. A refusal changes no byte of any buffer.
 * - Buffers must not overlap, and a pointer must not be null, not even for a length of 0. The
 *   entries do not test this; host/wrapper.h has calls that do.
 */
#ifndef SALCIVORN_H
#define SALCIVORN_H

#include <stddef.h>
#include <stdint.h>

#ifdef __cplusplus
extern "C" {
#endif

/* The results. A number says what was refused; it carries no value. */
enum salcivorn_refusal {
    SALCIVORN_DONE = 0,               /* no refusal: the call did its work */
    SALCIVORN_OPERAND = 1,            /* a field operand is above its range; no entry here gives it */
    SALCIVORN_RECORD_BYTE = 2,        /* S-box: the record's third byte is above 3 */
    SALCIVORN_POINTS_LENGTH = 3,      /* the points buffer is not 62 bytes */
    SALCIVORN_KEY_LENGTH = 4,         /* the key is not 16, 24 or 32 bytes */
    SALCIVORN_ROUND_KEYS_LENGTH = 5,  /* the round-key buffer has not the length for the key, or for any */
    SALCIVORN_PART_LENGTH = 6,        /* block or mask not 16 bytes; S-box: data, mask or record not 1, 1, 3;
                                         pool: a buffer of another length than its size below, a state that no
                                         run of calls makes, or a call that is not for this role */
    SALCIVORN_STRIP_FRAMING = 7,      /* the strip is below 4 bytes, or its length field is not its size less 2 */
    SALCIVORN_STRIP_VERSION = 8,      /* the strip's version is neither 0 nor 1 */
    SALCIVORN_STRIP_KEY_SIZE = 9,     /* the strip is for another key size than the round keys; pool: for none
                                         of 16, 24 and 32 */
    SALCIVORN_STRIP_RECORD_BYTE = 10, /* some record's third byte is above 3 */
    SALCIVORN_STRIP_SPENT = 11,       /* the strip has version 0: it has served already */
    SALCIVORN_STRIP_COUNT = 12,       /* the strip's number of record bytes is wrong for its key size */
    SALCIVORN_DIRECTION = 13,         /* the direction is neither 0 nor 1 */
    SALCIVORN_POOL_FULL = 14,         /* 64 strips are held, or strip numbers are used up */
    SALCIVORN_POOL_EMPTY = 15,        /* no strip is held */
    SALCIVORN_MESSAGE = 16,           /* the bytes are no such message, or it does not fit here and now */
    SALCIVORN_POOL_WAITING = 23,      /* a message is outstanding: its acknowledgement must come first */
    SALCIVORN_POOL_NUMBERS = 24       /* sequence numbers are used up */
};

/* The two directions. */
enum salcivorn_direction {
    SALCIVORN_ENCRYPT = 0,
    SALCIVORN_DECRYPT = 1
};

/* Sizes in bytes. */
enum salcivorn_size {
    SALCIVORN_BLOCK_SIZE = 16,
    SALCIVORN_RECORD_SIZE = 3,
    SALCIVORN_POINTS_SIZE = 62,
    SALCIVORN_ROUND_KEYS_SIZE_16 = 176, /* for a key of 16 bytes */
    SALCIVORN_ROUND_KEYS_SIZE_24 = 208, /* of 24 */
    SALCIVORN_ROUND_KEYS_SIZE_32 = 240, /* of 32 */
    SALCIVORN_STRIP_SIZE_16 = 484,
    SALCIVORN_STRIP_SIZE_24 = 580,
    SALCIVORN_STRIP_SIZE_32 = 676,
    SALCIVORN_POOL_STATE_SIZE = 9,
    SALCIVORN_POOL_ROOMS_SIZE = 43264,  /* 64 rooms of 676 */
    SALCIVORN_POOL_NUMBER_SIZE = 4,
    SALCIVORN_POOL_STRIP_SIZE = 676,    /* a strip handed out, zeros behind it */
    SALCIVORN_POOL_MESSAGE_SIZE = 688,  /* the longest message */
    SALCIVORN_POOL_ACKNOWLEDGEMENT_SIZE = 8
};

/* What the first byte of a pool's state says. */
enum salcivorn_pool_role {
    SALCIVORN_POOL_ACTIVE = 0,  /* the active master, nothing outstanding */
    SALCIVORN_POOL_ADDING = 1,  /* the active master, an addition outstanding */
    SALCIVORN_POOL_TAKING = 2,  /* the active master, a taking outstanding */
    SALCIVORN_POOL_STANDBY = 3, /* the standby */
    SALCIVORN_POOL_ALONE = 4    /* a standby that goes on alone */
};

/* The fresh masks that the host makes.
 *
 * The mask of a byte or block that goes in is the host's own: every bit of it must be uniform, drawn
 * afresh for this call, and never used a second time. A mask that came out of a call serves once too:
 * with the data it came with.
 *
 * A record is three bytes for one S-box: Q in the high nibble and T in the low nibble; S; and r,
 * which is 0 to 3. All its bits must be uniform and fresh, and no record may serve twice.
 *
 * A strip is the records of one block: two bytes of length, high byte first, counting all that
 * follows; a version byte, 1; a key-size byte, 16, 24 or 32; then 160, 192 or 224 records.
 */

/* One masked S-box (encrypting) or inverse S-box (decrypting).
 * Lent: data, 1 byte; mask, 1 byte, uniform, fresh and never used before; record, 3 bytes. Written when done: data and mask, with the
 * substituted byte under its new mask. Refusals in order: 13, 6, 2. */
uint32_t salcivorn_sbox(uint32_t direction,
                        uint8_t *data, size_t data_len,
                        uint8_t *mask, size_t mask_len,
                        const uint8_t *record, size_t record_len);

/* The same, and it also writes the 62 points of the masked inversion, point 1 first. The mask must be
 * uniform, fresh and never used before here too. Refusals in order: 13, 6, 3, 2. */
uint32_t salcivorn_sbox_points(uint32_t direction,
                               uint8_t *data, size_t data_len,
                               uint8_t *mask, size_t mask_len,
                               const uint8_t *record, size_t record_len,
                               uint8_t *points, size_t points_len);

/* Key expansion, bare: neither key nor round keys are masked, so whoever can probe this call can read the key.
 * Lent: key, 16, 24 or 32 bytes; round_keys, 176, 208 or 240 bytes. Written when done: all of
 * round_keys. Refusals in order: 4, 5. */
uint32_t salcivorn_expand(const uint8_t *key, size_t key_len,
                          uint8_t *round_keys, size_t round_keys_len);

/* One masked block, encrypting or decrypting.
 * Lent: block and mask, 16 bytes each, every bit of the mask uniform, fresh and never used before;
 * round_keys, as expansion gives them, bare; strip, for the same key size. Written when done: block and mask, with the answer under its new mask; and the strip,
 * which is wiped (version 0, all record bytes zero), so that it cannot serve again.
 * Refusals in order: 13, 6, 5, 7, 11, 8, 9, 12, 10. */
uint32_t salcivorn_block(uint32_t direction,
                         uint8_t *block, size_t block_len,
                         uint8_t *mask, size_t mask_len,
                         const uint8_t *round_keys, size_t round_keys_len,
                         uint8_t *strip, size_t strip_len);

/* The mirrored pool of strips, in libsalcivorn_pool.a. The rules at the top hold here too: no two buffers
 * of a call may overlap, and a refusal changes no byte.
 *
 * Two masters hold the same unspent strips, up to 64. Strips are numbered from 1. The active adds
 * strips and takes the lowest number; each is a message to the standby, one at a time, and a taken
 * strip is handed out only when the standby's acknowledgement has come. So when the active's power is
 * cut at any moment, the standby goes on alone and never hands out a number a second time. A strip may
 * be lost.
 *
 * Each master keeps two buffers that only these entries write:
 * - state, 9 bytes: the role; strips ever added, 4 bytes; strips ever taken, 4 bytes. All numbers are
 *   written high byte first. A new active is nine zero bytes, a new standby has 3 as its first byte.
 * - rooms, 43264 bytes, all zero for a new pool. Strip n lies in room (n - 1) mod 64, zeros behind it,
 *   and its room is zeroed when it leaves.
 *
 * Keep state and rooms once for each master, and never put an old copy back: a pool that forgot a
 * taking hands the same strip out again, and no strip may serve twice.
 *
 * Nothing leaves a cabinet before it is stored. A message, an acknowledgement or a strip may go out, or
 * be used for something that goes out, only once the state and rooms that the call left are stored
 * where a power failure leaves them; and a cabinet that starts again starts from what it stored last.
 *
 * A strip was handed out exactly when a take or an acknowledge is done and number is not 0. Its own
 * first two bytes say how long it is: salcivorn_block is lent that length + 2 bytes of the 676.
 *
 * A message starts with two bytes of length, counting all that follows. Send length + 2 bytes, without
 * the zeros behind them, and lend just these at the other side. A message may be lost, repeated or late
 * without harm; that its bytes are not changed on the way is up to the host.
 */

/* Adds a strip. At the active its message is outstanding from then on, to be sent once state and rooms
 * are stored.
 * Lent: state; rooms; strip, for any of the three key sizes. Written when done: state; and the strip's
 * room, with the strip and zeros. The strip itself is only read: the host wipes its copy.
 * Refusals in order: 6 (also at a standby that is not alone), 23, 24, 7, 11, 8, 9, 12, 10, 14. A master
 * that goes on alone gets neither 23 nor 24. */
uint32_t salcivorn_pool_add(uint8_t *state, size_t state_len,
                            uint8_t *rooms, size_t rooms_len,
                            const uint8_t *strip, size_t strip_len);

/* Takes the strip with the lowest number.
 * Lent: state; rooms; number, 4 bytes; strip, 676 bytes. Written when done, at the active: state, and 0
 * in number; the strip stays in its room until acknowledge hands it out. Written when done, alone:
 * state, number and strip, which is handed out at once, and its room, which is zeroed: store state and
 * rooms before the strip is used.
 * Refusals in order: 6 (also at a standby that is not alone), 23, 24, 15. A master that goes on alone
 * gets neither 23 nor 24. */
uint32_t salcivorn_pool_take(uint8_t *state, size_t state_len,
                             uint8_t *rooms, size_t rooms_len,
                             uint8_t *number, size_t number_len,
                             uint8_t *strip, size_t strip_len);

/* The outstanding message, to be sent once the state and rooms it is made from are stored; the same
 * bytes as often as it is asked for, until acknowledged.
 * Lent: state; rooms; message, 688 bytes. Written when done: message, with zeros behind it. Where
 * nothing is outstanding all of it is zero, so its length is 0. Refusal: 6. */
uint32_t salcivorn_pool_outstanding(const uint8_t *state, size_t state_len,
                                    const uint8_t *rooms, size_t rooms_len,
                                    uint8_t *message, size_t message_len);

/* The standby's answer, at the active. Only the one to the outstanding message counts; after it nothing
 * is outstanding.
 * Lent: state; rooms; acknowledgement, the bytes that came; number, 4 bytes; strip, 676 bytes. Written
 * when done: 0 in number; where the answer counts, state; and where it counts for a taking, the taken
 * strip is handed out: number and strip are written and its room is zeroed. Store state and rooms
 * before the strip is used.
 * Refusals in order: 6, 16 (the bytes are no acknowledgement). */
uint32_t salcivorn_pool_acknowledge(uint8_t *state, size_t state_len,
                                    uint8_t *rooms, size_t rooms_len,
                                    const uint8_t *acknowledgement, size_t acknowledgement_len,
                                    uint8_t *number, size_t number_len,
                                    uint8_t *strip, size_t strip_len);

/* Applies the active's message, at the standby. One that was applied before changes nothing and is
 * acknowledged again.
 * Lent: state; rooms; message, the bytes that came; acknowledgement, 8 bytes. Written when done:
 * acknowledgement, to be sent back once state and rooms are stored; and for the next message state and
 * the strip's room.
 * Refusals in order: 6, 16 (the bytes are no addition and no taking; the message is beyond the next, or
 * it is the next and does not fit; any message at a master that is no standby or goes on alone). */
uint32_t salcivorn_pool_apply(uint8_t *state, size_t state_len,
                              uint8_t *rooms, size_t rooms_len,
                              const uint8_t *message, size_t message_len,
                              uint8_t *acknowledgement, size_t acknowledgement_len);

/* The standby goes on alone, once the active is dead for good. There is no way back, and alone already
 * nothing changes.
 * Lent: state. Written when done: state. Refusal: 6 (also at the active). */
uint32_t salcivorn_pool_go_alone(uint8_t *state, size_t state_len);

#ifdef __cplusplus
}
#endif

#endif
