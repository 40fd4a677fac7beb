/* How a host makes a strip: all of it from the system's random source, but its first four bytes. */
#ifndef HOST_FRESH_STRIP_H
#define HOST_FRESH_STRIP_H

#include "salcivorn.h"

#include <errno.h>
#include <stdio.h>
#include <stdlib.h>
#include <string.h>
#include <sys/random.h>

/* Straight from the system into the lent bytes: a buffered stream leaves a copy of the strip in memory that it frees.
 * Without random bytes there is no masking, so there is nothing to go on with. */
static inline void random_bytes(uint8_t *bytes, size_t count)
{
    while (count > 0) {
        ssize_t got = getrandom(bytes, count, 0);

        if (got < 0 && errno == EINTR)
            continue;
        if (got <= 0) {
            fprintf(stderr, "no random source\n");
            exit(1);
        }
        bytes += got;
        count -= (size_t)got;
    }
}

/* A strip for a 16-byte key: length 482, version 1, key size 16, then records with r from 0 to 3. */
static inline void fresh_strip(uint8_t strip[SALCIVORN_STRIP_SIZE_16])
{
    static const uint8_t header[] = {0x01, 0xe2, 1, 16};

    random_bytes(strip, SALCIVORN_STRIP_SIZE_16);
    memcpy(strip, header, sizeof header);
    for (size_t third = sizeof header + 2; third < SALCIVORN_STRIP_SIZE_16; third += SALCIVORN_RECORD_SIZE)
        strip[third] &= 3;
}

#endif
