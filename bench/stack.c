#define _XOPEN_SOURCE 700
#include "stack.h"

#include <stdint.h>
#include <string.h>
#include <ucontext.h>

static _Alignas(64) uint8_t painted[1 << 16];
static ucontext_t here, there;

size_t stack_depth(void (*job)(void), int paint)
{
    size_t untouched = 0;

    if (getcontext(&there) != 0)
        return 0;
    memset(painted, paint, sizeof painted);
    there.uc_stack.ss_sp = painted;
    there.uc_stack.ss_size = sizeof painted;
    there.uc_link = &here;
    makecontext(&there, job, 0);
    if (swapcontext(&here, &there) != 0)
        return 0;
    while (untouched < sizeof painted && painted[untouched] == paint)
        untouched++;
    return sizeof painted - untouched;
}
