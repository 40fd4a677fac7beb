/* How a host uses the library: fresh strips from the system's random source, one block encrypted
 * under a random mask, the strip refused a second time, and the block brought back. The key and the
 * block are those of FIPS 197, appendix C.1, so that the answer can be compared. */
#include "fresh_strip.h"
#include "tally.h"
#include "wrapper.h"

static struct tally tally;

struct masked {
    uint8_t data[SALCIVORN_BLOCK_SIZE];
    uint8_t mask[SALCIVORN_BLOCK_SIZE];
};

/* Takes the mask off, or puts it on: both are an addition. */
static void add(uint8_t *block, const uint8_t *mask)
{
    for (size_t i = 0; i < SALCIVORN_BLOCK_SIZE; i++)
        block[i] ^= mask[i];
}

static void show(const char *what, const uint8_t *block)
{
    printf("  %-20s", what);
    for (size_t i = 0; i < SALCIVORN_BLOCK_SIZE; i++)
        printf("%02x", block[i]);
    printf("\n");
}

static void show_and_compare(const struct masked *block, const uint8_t *expected)
{
    uint8_t bare[SALCIVORN_BLOCK_SIZE];

    memcpy(bare, block->data, sizeof bare);
    add(bare, block->mask);
    show("data", block->data);
    show("mask", block->mask);
    show("mask taken off", bare);
    show("FIPS 197, C.1", expected);
    tally_check(&tally, memcmp(bare, expected, sizeof bare) == 0, "the block is that of FIPS 197");
}

static void expect(const char *what, uint32_t number, uint32_t expected)
{
    printf("%s: number %u\n", what, (unsigned)number);
    tally_check(&tally, number == expected, what);
}

static uint32_t run(uint32_t direction, struct masked *block, const uint8_t *round_keys, uint8_t *strip)
{
    return salcivorn_checked_block(direction, block->data, sizeof block->data, block->mask, sizeof block->mask,
                                   round_keys, SALCIVORN_ROUND_KEYS_SIZE_16, strip, SALCIVORN_STRIP_SIZE_16);
}

int main(void)
{
    static const uint8_t key[16] = {0, 1, 2, 3, 4, 5, 6, 7, 8, 9, 10, 11, 12, 13, 14, 15};
    static const uint8_t plain[SALCIVORN_BLOCK_SIZE] = {
        0x00, 0x11, 0x22, 0x33, 0x44, 0x55, 0x66, 0x77, 0x88, 0x99, 0xaa, 0xbb, 0xcc, 0xdd, 0xee, 0xff};
    static const uint8_t cipher[SALCIVORN_BLOCK_SIZE] = {
        0x69, 0xc4, 0xe0, 0xd8, 0x6a, 0x7b, 0x04, 0x30, 0xd8, 0xcd, 0xb7, 0x80, 0x70, 0xb4, 0xc5, 0x5a};
    uint8_t round_keys[SALCIVORN_ROUND_KEYS_SIZE_16];
    uint8_t strip[SALCIVORN_STRIP_SIZE_16];
    struct masked block;

    expect("expand", salcivorn_checked_expand(key, sizeof key, round_keys, sizeof round_keys), SALCIVORN_DONE);

    random_bytes(block.mask, sizeof block.mask);
    memcpy(block.data, plain, sizeof block.data);
    add(block.data, block.mask);
    fresh_strip(strip);
    expect("encrypt", run(SALCIVORN_ENCRYPT, &block, round_keys, strip), SALCIVORN_DONE);
    show_and_compare(&block, cipher);
    expect("the same strip again", run(SALCIVORN_ENCRYPT, &block, round_keys, strip), SALCIVORN_STRIP_SPENT);

    fresh_strip(strip);
    expect("decrypt, fresh strip", run(SALCIVORN_DECRYPT, &block, round_keys, strip), SALCIVORN_DONE);
    show_and_compare(&block, plain);
    return tally_report(&tally);
}
