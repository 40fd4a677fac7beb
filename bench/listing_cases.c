#include "listing_cases.h"

#include "known_bad.h"
#include "listing_bad.h"

#include <string.h>

/* In pairs, so that each direction has the byte that its inversion maps from 0: 00 and 63. That pair
 * comes first, for a run that has time for one alone. */
#define SBOX_SECRETS {{0x00, 0x53}, {0x00, 0xff}, {0x63, 0x00}, {0x63, 0xc5}}, 4, 0
#define INVERSE_SECRETS {{0x63, 0xc5}, {0x63, 0x00}, {0x00, 0xff}, {0x00, 0x53}}, 4, 0
#define BLOCK_SECRETS {{0x2b, 0x78}}, 1, 0
#define BAD_SECRETS {{0x00, 0x53}}, 1, 200

const struct listing_case listing_cases[LISTING_CASES] = {
    {"S-box, encrypting", &archive, &calls[0], IN_DATA, INDEPENDENT, false, SBOX_SECRETS},
    {"S-box, decrypting", &archive, &calls[1], IN_DATA, INDEPENDENT, false, INVERSE_SECRETS},
    {"S-box with points, encrypting", &archive, &calls[2], IN_DATA, INDEPENDENT, false, SBOX_SECRETS},
    {"S-box with points, decrypting", &archive, &calls[3], IN_DATA, INDEPENDENT, false, INVERSE_SECRETS},
    {"block byte, key of 16, encrypting", &archive, &calls[7], IN_DATA, INDEPENDENT, false, BLOCK_SECRETS},
    {"block byte, key of 16, decrypting", &archive, &calls[8], IN_DATA, INDEPENDENT, false, BLOCK_SECRETS},
    {"block byte, key of 24, encrypting", &archive, &calls[9], IN_DATA, INDEPENDENT, false, BLOCK_SECRETS},
    {"block byte, key of 24, decrypting", &archive, &calls[10], IN_DATA, INDEPENDENT, false, BLOCK_SECRETS},
    {"block byte, key of 32, encrypting", &archive, &calls[11], IN_DATA, INDEPENDENT, false, BLOCK_SECRETS},
    {"block byte, key of 32, decrypting", &archive, &calls[12], IN_DATA, INDEPENDENT, false, BLOCK_SECRETS},
    {"key byte, key of 16, encrypting", &archive, &calls[7], IN_KEY, INDEPENDENT, false, BLOCK_SECRETS},
    {"key byte, key of 16, decrypting", &archive, &calls[8], IN_KEY, INDEPENDENT, false, BLOCK_SECRETS},
    {"key byte, key of 24, encrypting", &archive, &calls[9], IN_KEY, INDEPENDENT, false, BLOCK_SECRETS},
    {"key byte, key of 24, decrypting", &archive, &calls[10], IN_KEY, INDEPENDENT, false, BLOCK_SECRETS},
    {"key byte, key of 32, encrypting", &archive, &calls[11], IN_KEY, INDEPENDENT, false, BLOCK_SECRETS},
    {"key byte, key of 32, decrypting", &archive, &calls[12], IN_KEY, INDEPENDENT, false, BLOCK_SECRETS},
    {"known bad: mask added last", &listing_bad_last, &calls[0], IN_DATA, VALUES_FOUND, false, {{0x00, 0xff}}, 1, 200},
    {"known bad: mask with equal bits", &listing_bad_bits, &calls[0], IN_DATA, VALUES_FOUND, false, {{0x00, 0x01}}, 1,
     200},
    {"known bad: bare table lookup", &known_bad_lookup, &calls[0], IN_DATA, VALUES_FOUND, false, BAD_SECRETS},
    {"known bad: bare inversion", &known_bad_branch, &calls[0], IN_DATA, VALUES_FOUND, false, BAD_SECRETS},
    {"known bad: the archive unmasked", &archive, &calls[0], IN_DATA, VALUES_FOUND, true, BAD_SECRETS},
    {"known bad: mask over the byte", &listing_bad_over, &calls[0], IN_DATA, TRANSITIONS_FOUND, false, BAD_SECRETS},
    {"known bad: one turn of a loop", &listing_bad_turn, &calls[7], IN_DATA, VALUES_FOUND, false, {{0x2b, 0x78}}, 1,
     70},
};

bool listing_known_bad(const struct listing_case *listing)
{
    return listing->bad_pairs != 0;
}

/* All but the secret byte is the same in every call: the example of FIPS 197, appendix B, its key
 * followed by sixteen bytes for the longer ones. */
static const uint8_t key[32] = {0x2b, 0x7e, 0x15, 0x16, 0x28, 0xae, 0xd2, 0xa6, 0xab, 0xf7, 0x15,
                                0x88, 0x09, 0xcf, 0x4f, 0x3c, 0x1f, 0x35, 0x2c, 0x07, 0x3b, 0x61,
                                0x08, 0xd7, 0x2d, 0x98, 0x10, 0xa3, 0x09, 0x14, 0xdf, 0xf4};
static const uint8_t block[SALCIVORN_BLOCK_SIZE] = {0x32, 0x43, 0xf6, 0xa8, 0x88, 0x5a, 0x30, 0x8d,
                                                    0x31, 0x31, 0x98, 0xa2, 0xe0, 0x37, 0x07, 0x34};
static struct buffers buffers;

void listing_prepare(void)
{
    known_bad_prepare();
}

/* The secret is put under its mask here, before the steps begin. */
static void fill_secret(const struct listing_case *listing, uint8_t secret)
{
    uint8_t bare[SALCIVORN_BLOCK_SIZE];

    memcpy(bare, block, sizeof bare);
    memcpy(buffers.key, key, sizeof key);
    *(listing->place == IN_DATA ? bare : buffers.key) = secret;
    if (listing->call->kind == BLOCK)
        calls_expand(&buffers, listing->call->key_len);
    if (listing->unmasked)
        memset(buffers.mask, 0, sizeof buffers.mask);
    for (size_t i = 0; i < sizeof bare; i++)
        buffers.data[i] = bare[i] ^ buffers.mask[i];
}

static void put(struct stepped_call *stepped, int at, const void *buffer, size_t length)
{
    stepped->words[at] = (uint64_t)(uintptr_t)buffer;
    stepped->words[at + 1] = length;
}

static void fill_words(const struct listing_case *listing, struct stepped_call *stepped)
{
    enum kind kind = listing->call->kind;
    size_t length = kind == BLOCK ? SALCIVORN_BLOCK_SIZE : 1;

    stepped->words[0] = listing->call->direction;
    put(stepped, 1, buffers.data, length);
    put(stepped, 3, buffers.mask, length);
    if (kind == BLOCK) {
        stepped->function = (uint64_t)(uintptr_t)listing->library->block;
        put(stepped, 5, buffers.round_keys, calls_round_keys_len(listing->call->key_len));
        put(stepped, 7, buffers.strip, calls_strip_len(listing->call->key_len));
        return;
    }
    stepped->function = kind == SBOX ? (uint64_t)(uintptr_t)listing->library->sbox
                                     : (uint64_t)(uintptr_t)listing->library->sbox_points;
    put(stepped, 5, buffers.record, sizeof buffers.record);
    put(stepped, 7, buffers.points, sizeof buffers.points);
}

void listing_fill(const struct listing_case *listing, uint8_t secret, unsigned long run, struct stepped_call *stepped)
{
    calls_fill(&buffers, listing->call, run);
    fill_secret(listing, secret);
    fill_words(listing, stepped);
}

bool listing_same(const struct listing_case *listing, uint8_t secret, unsigned long run)
{
    struct stepped_call stepped;
    struct buffers expected;

    listing_fill(listing, secret, run, &stepped);
    calls_make(listing->library, listing->call, &buffers);
    expected = buffers;
    listing_fill(listing, secret, run, &stepped);
    step_make(&stepped);
    return memcmp(&expected, &buffers, sizeof expected) == 0;
}
