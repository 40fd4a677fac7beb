/* The wipe test: after a block call the strip's memory holds no record byte any more.
 *
 * The call is made in a child process that ends without looking at the strip, and the parent looks,
 * through memory that both share: so no compiler finds a reader after the wipe, and still none may
 * have removed it. A refused call must leave every byte, which also shows that the look can fail. */
#define _DEFAULT_SOURCE
#include "salcivorn.h"
#include "tally.h"

#include <stdlib.h>
#include <string.h>
#include <sys/mman.h>
#include <sys/wait.h>
#include <unistd.h>

enum { SHARED_SIZE = 4096, HEAD = 4, REFUSED_DIRECTION = 2 };

static struct tally tally;
static volatile uint8_t *strip;

static size_t strip_len(size_t key_len)
{
    return HEAD + SALCIVORN_RECORD_SIZE * SALCIVORN_BLOCK_SIZE * (key_len / 4 + 6);
}

/* No byte of a record is 0, so that each one shows whether it was wiped. */
static uint8_t record_byte(size_t at)
{
    return at % SALCIVORN_RECORD_SIZE == 0 ? 3 : (uint8_t)(1 + at % 255);
}

static void fill_strip(size_t key_len)
{
    size_t length = strip_len(key_len);

    memset((void *)(uintptr_t)strip, 0xa5, SHARED_SIZE);
    strip[0] = (uint8_t)((length - 2) >> 8);
    strip[1] = (uint8_t)(length - 2);
    strip[2] = 1;
    strip[3] = (uint8_t)key_len;
    for (size_t at = HEAD; at < length; at++)
        strip[at] = record_byte(at);
}

/* The result of the call, made in a child; no result that salcivorn.h knows if there was no child. */
static int call_in_child(uint32_t direction, size_t key_len)
{
    uint8_t block[SALCIVORN_BLOCK_SIZE] = {1}, mask[SALCIVORN_BLOCK_SIZE] = {2};
    uint8_t key[32] = {3}, round_keys[SALCIVORN_ROUND_KEYS_SIZE_32];
    size_t round_keys_len = SALCIVORN_BLOCK_SIZE * (key_len / 4 + 7);
    int status;
    pid_t child = fork();

    if (child == 0) {
        if (salcivorn_expand(key, key_len, round_keys, round_keys_len) != SALCIVORN_DONE)
            abort();
        _exit((int)salcivorn_block(direction, block, sizeof block, mask, sizeof mask, round_keys, round_keys_len,
                                   (uint8_t *)(uintptr_t)strip, strip_len(key_len)));
    }
    if (child < 0 || waitpid(child, &status, 0) != child || !WIFEXITED(status))
        return -1;
    return WEXITSTATUS(status);
}

/* How many record bytes are not as they should be: 0 when wiped, else as they were filled. */
static unsigned long wrong_records(size_t key_len, bool wiped)
{
    unsigned long wrong = 0;

    for (size_t at = HEAD; at < strip_len(key_len); at++)
        wrong += strip[at] != (wiped ? 0 : record_byte(at));
    return wrong;
}

/* Length and key size stay in either case, and so does all that follows the strip. */
static bool surroundings_kept(size_t key_len)
{
    size_t length = strip_len(key_len);
    bool kept = strip[0] == (length - 2) >> 8 && strip[1] == ((length - 2) & 255) && strip[3] == key_len;

    for (size_t at = length; at < SHARED_SIZE; at++)
        kept = kept && strip[at] == 0xa5;
    return kept;
}

static void test_wiped(uint32_t direction, size_t key_len)
{
    fill_strip(key_len);
    tally_check(&tally, call_in_child(direction, key_len) == SALCIVORN_DONE, "block call done");
    tally_check(&tally, strip[2] == 0, "version is 0 after the call");
    tally_check(&tally, wrong_records(key_len, true) == 0, "record bytes are 0 after the call");
    tally_check(&tally, surroundings_kept(key_len), "length, key size and what follows are kept");
}

static void test_refused(size_t key_len)
{
    fill_strip(key_len);
    tally_check(&tally, call_in_child(REFUSED_DIRECTION, key_len) == SALCIVORN_DIRECTION, "block call refused");
    tally_check(&tally, strip[2] == 1 && wrong_records(key_len, false) == 0, "refused: the strip is as it was");
    tally_check(&tally, wrong_records(key_len, true) == strip_len(key_len) - HEAD, "refused: seen as not wiped");
    tally_check(&tally, surroundings_kept(key_len), "refused: length, key size and what follows are kept");
}

int main(void)
{
    void *memory = mmap(NULL, SHARED_SIZE, PROT_READ | PROT_WRITE, MAP_SHARED | MAP_ANONYMOUS, -1, 0);

    if (memory == MAP_FAILED) {
        fprintf(stderr, "no shared memory\n");
        return 1;
    }
    strip = memory;
    for (size_t key_len = 16; key_len <= 32; key_len += 8) {
        test_wiped(SALCIVORN_ENCRYPT, key_len);
        test_wiped(SALCIVORN_DECRYPT, key_len);
        test_refused(key_len);
    }
    return tally_report(&tally);
}
