#define _GNU_SOURCE
#include "step.h"

#include <signal.h>
#include <stdbool.h>
#include <stdlib.h>
#include <string.h>
#include <ucontext.h>

enum { TRAP_FLAG = 0x100, ARITHMETIC_FLAGS = 0x8d5, STACK_SIZE = 1 << 16 };

const char *const step_names[REGISTER_COUNT] = {
    "rax",  "rbx",  "rcx",  "rdx",  "rsi",  "rdi",  "rbp",   "flags", "r8",    "r9",    "r10",
    "r11",  "r12",  "r13",  "r14",  "r15",  "xmm0", "xmm1",  "xmm2",  "xmm3",  "xmm4",  "xmm5",
    "xmm6", "xmm7", "xmm8", "xmm9", "xmm10", "xmm11", "xmm12", "xmm13", "xmm14", "xmm15",
};

static const int places[16] = {REG_RAX, REG_RBX, REG_RCX, REG_RDX, REG_RSI, REG_RDI, REG_RBP, REG_EFL,
                               REG_R8,  REG_R9,  REG_R10, REG_R11, REG_R12, REG_R13, REG_R14, REG_R15};

/* Assembly, because no register may keep anything of the host while the call runs. The stepping
 * begins with the call itself and ends after the return. step_resume stands in for the return
 * address of a call that ran at full speed, and goes on to the real one in steps. */
uint32_t step_enter(const struct stepped_call *call);
extern const char step_resume[], step_end[];
uint64_t step_function, step_return;
__asm__(".text\n.globl step_enter\n.globl step_resume\n.globl step_end\n"
        "step_enter:\n push %rbx\n push %rbp\n push %r12\n push %r13\n push %r14\n push %r15\n sub $24, %rsp\n"
        " mov %rdi, %rax\n mov 0(%rax), %rcx\n mov %rcx, step_function(%rip)\n"
        " mov 56(%rax), %rcx\n mov %rcx, 0(%rsp)\n mov 64(%rax), %rcx\n mov %rcx, 8(%rsp)\n"
        " mov 72(%rax), %rcx\n mov %rcx, 16(%rsp)\n"
        " mov 8(%rax), %rdi\n mov 16(%rax), %rsi\n mov 24(%rax), %rdx\n mov 32(%rax), %rcx\n"
        " mov 40(%rax), %r8\n mov 48(%rax), %r9\n"
        " xor %eax, %eax\n xor %ebx, %ebx\n xor %ebp, %ebp\n xor %r10d, %r10d\n xor %r11d, %r11d\n"
        " xor %r12d, %r12d\n xor %r13d, %r13d\n xor %r14d, %r14d\n xor %r15d, %r15d\n"
        " .irp n, 0, 1, 2, 3, 4, 5, 6, 7, 8, 9, 10, 11, 12, 13, 14, 15\n pxor %xmm\\n, %xmm\\n\n .endr\n"
        " pushfq\n orq $0x100, (%rsp)\n popfq\n call *step_function(%rip)\n"
        " pushfq\n andq $~0x100, (%rsp)\n popfq\n"
        " add $24, %rsp\n pop %r15\n pop %r14\n pop %r13\n pop %r12\n pop %rbp\n pop %rbx\n ret\n"
        "step_resume:\n pushq step_return(%rip)\n pushfq\n orq $0x100, (%rsp)\n popfq\n ret\n"
        "step_end:\n");

static step_observer *observe;
static struct registers two[2], *before = &two[0], *after = &two[1];
static uint64_t address; /* of the instruction that runs next; 0 when its registers are not known */
static uint64_t thinned, draws;
static unsigned thinned_every = 1;
static uint32_t outer, inner, entered; /* steps outside the thinned function, steps since its entry, its calls */
static uint64_t inner_top;             /* where the return address of its call stands; 0 outside */

static void read_registers(struct registers *registers, const mcontext_t *context)
{
    for (int i = 0; i < 16; i++)
        registers->half[i][0] = (uint64_t)context->gregs[places[i]];
    registers->half[FLAGS][0] &= ARITHMETIC_FLAGS;
    memcpy(registers->half[XMM], context->fpregs->_xmm, sizeof context->fpregs->_xmm);
}

static void swap(void)
{
    struct registers *old = before;

    before = after;
    after = old;
}

static bool in_host(uint64_t place)
{
    return place >= (uint64_t)(uintptr_t)step_enter && place < (uint64_t)(uintptr_t)step_end;
}

/* The high bits of a congruential generator decide: they repeat late. */
static bool draw_full_speed(void)
{
    draws = draws * UINT64_C(6364136223846793005) + UINT64_C(1442695040888963407);
    return (draws >> 33) % thinned_every != 0;
}

/* Lets the call that has just been entered run on unstepped, up to its return. */
static void run_on(mcontext_t *context)
{
    uint64_t *top = (uint64_t *)(uintptr_t)context->gregs[REG_RSP];

    step_return = *top;
    *top = (uint64_t)(uintptr_t)step_resume;
    context->gregs[REG_EFL] &= ~(greg_t)TRAP_FLAG;
    address = 0;
}

static uint32_t next_number(void)
{
    uint32_t number = inner_top == 0 ? outer++ : STEP_INNER + entered % STEP_PLACES * STEP_ROW + inner++;

    if (outer > STEP_INNER || inner > STEP_ROW)
        abort();
    return number;
}

static void enter_thinned(mcontext_t *context)
{
    entered++;
    if (draw_full_speed()) {
        run_on(context);
    } else {
        inner_top = (uint64_t)context->gregs[REG_RSP];
        inner = 0;
    }
}

/* The emulator does not align the handler's stack as a function's; the attribute does. */
__attribute__((force_align_arg_pointer)) static void on_step(int number, siginfo_t *info, void *context)
{
    mcontext_t *machine = &((ucontext_t *)context)->uc_mcontext;

    (void)number, (void)info;
    read_registers(after, machine);
    if (address != 0 && !in_host(address))
        observe(next_number(), address, before, after);
    swap();
    address = (uint64_t)machine->gregs[REG_RIP];
    if ((uint64_t)machine->gregs[REG_RSP] > inner_top)
        inner_top = 0;
    if (address == thinned)
        enter_thinned(machine);
}

/* The handler has its own stack, so that the call's stack holds nothing of it. */
void step_prepare(step_observer *observer)
{
    static uint8_t stack[STACK_SIZE];
    stack_t place = {.ss_sp = stack, .ss_size = sizeof stack};
    struct sigaction action = {.sa_sigaction = on_step, .sa_flags = SA_SIGINFO | SA_ONSTACK};

    observe = observer;
    if (sigaltstack(&place, NULL) != 0 || sigaction(SIGTRAP, &action, NULL) != 0)
        abort();
}

void step_thin(uint64_t function, unsigned every, uint64_t seed)
{
    thinned = function;
    thinned_every = every;
    draws = seed * UINT64_C(0x9e3779b97f4a7c15);
}

uint32_t step_make(const struct stepped_call *call)
{
    address = 0;
    outer = inner = entered = 0;
    inner_top = 0;
    return step_enter(call);
}
