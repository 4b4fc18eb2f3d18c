/* One call, stopped after each instruction that stores into the book. The book's pages may not be written; a store
 * faults, is let through with the processor's trap flag set, and the trap after it looks at the book. What a process
 * leaves in a mapped file when it is ended in the middle of the call is one of these books, and each of them can be. */
#include <signal.h>
#include <sys/mman.h>
#include <ucontext.h>

enum { TRAP_FLAG = 0x100, DIRECTION_FLAG = 0x400 };

/* The mapped file, and in it the book that the call is lent. */
static uint8_t *mapped, *lent;
static size_t mapped_length;

static const plan *looked_for;
static unsigned long stores, faults, first_fault;

static greg_t *registers_of(void *context)
{
    return ((ucontext_t *)context)->uc_mcontext.gregs;
}

static void look(void)
{
    stores++;
    if (!may_be_seen(lent, looked_for) && faults++ == 0)
        first_fault = stores;
}

/* The copying instruction `rep movsb` can be stopped between any two bytes. It is made here, since a trap for each byte
 * takes too long; whether it was that instruction. */
static int copied(greg_t *r)
{
    const uint8_t *code = (const uint8_t *)(uintptr_t)r[REG_RIP], *from = (const uint8_t *)(uintptr_t)r[REG_RSI];
    uint8_t *to = (uint8_t *)(uintptr_t)r[REG_RDI];
    size_t i, length = (size_t)r[REG_RCX];
    if (code[0] != 0xF3 || code[1] != 0xA4 || (r[REG_EFL] & DIRECTION_FLAG) != 0)
        return 0;
    for (i = 0; i < length; i++) {
        if (to[i] == from[i])
            continue;
        to[i] = from[i];
        look();
    }
    r[REG_RSI] += (greg_t)length;
    r[REG_RDI] += (greg_t)length;
    r[REG_RCX] = 0;
    r[REG_RIP] += 2;
    return 1;
}

static void before_store(int number, siginfo_t *about, void *context)
{
    const uint8_t *at = (const uint8_t *)about->si_addr;
    if (at < mapped || at >= mapped + mapped_length) {
        signal(number, SIG_DFL); /* no store into the book: the fault comes again and ends the test */
        return;
    }
    mprotect(mapped, mapped_length, PROT_READ | PROT_WRITE);
    if (copied(registers_of(context)))
        mprotect(mapped, mapped_length, PROT_READ);
    else
        registers_of(context)[REG_EFL] |= TRAP_FLAG;
}

static void after_store(int number, siginfo_t *about, void *context)
{
    (void)number;
    (void)about;
    mprotect(mapped, mapped_length, PROT_READ);
    registers_of(context)[REG_EFL] &= ~(greg_t)TRAP_FLAG;
    look();
}

static void on_signal(int number, void (*handler)(int, siginfo_t *, void *))
{
    struct sigaction action;
    memset(&action, 0, sizeof action);
    action.sa_sigaction = handler;
    action.sa_flags = SA_SIGINFO;
    sigaction(number, &action, NULL);
}

/* The call's cause; `faults` is how many of the books on the way were neither the one before nor the one after. */
static uint32_t stepped(caller *make, const plan *p)
{
    uint32_t cause;
    looked_for = p;
    stores = faults = first_fault = 0;
    on_signal(SIGSEGV, before_store);
    on_signal(SIGTRAP, after_store);
    mprotect(mapped, mapped_length, PROT_READ);
    cause = make(&p->todo, lent, p->length);
    mprotect(mapped, mapped_length, PROT_READ | PROT_WRITE);
    signal(SIGSEGV, SIG_DFL);
    signal(SIGTRAP, SIG_DFL);
    return cause;
}
