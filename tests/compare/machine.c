/* What the comparison needs of the machine: memory between pages that nobody may touch, in two views, one of them read-only; a stack of
 * 64 KiB for a call, whose depth is measured; and an end that says what happened where the library touches what it may not. */
#define _GNU_SOURCE
#include <pthread.h>
#include <sched.h>
#include <signal.h>
#include <stdatomic.h>
#include <stdint.h>
#include <stdlib.h>
#include <string.h>
#include <sys/mman.h>
#include <ucontext.h>
#include <unistd.h>

enum { PAGE = 4096, STACK = 65536, BELOW_STACK = 1 << 20, MOST_REGIONS = 4096, NAME = 512 };

/* ---- what may not be touched, and what it means where it is */

static struct region {
    uint8_t *from, *to;
    const char *means;
} regions[MOST_REGIONS];
static size_t region_count;
static pthread_mutex_t regions_lock = PTHREAD_MUTEX_INITIALIZER;
static char doing[NAME] = "a run";

static void must(int holds)
{
    if (!holds)
        abort();
}

static void forbid(uint8_t *from, size_t length, const char *means)
{
    pthread_mutex_lock(&regions_lock);
    size_t i = 0;
    while (i < region_count && regions[i].from != NULL)
        i++;
    must(i < MOST_REGIONS);
    regions[i] = (struct region){ from, from + length, means };
    region_count = i == region_count ? i + 1 : region_count;
    pthread_mutex_unlock(&regions_lock);
}

static void forget(uint8_t *from, size_t length)
{
    pthread_mutex_lock(&regions_lock);
    for (size_t i = 0; i < region_count; i++)
        if (regions[i].from >= from && regions[i].to <= from + length)
            regions[i] = (struct region){ NULL, NULL, NULL };
    pthread_mutex_unlock(&regions_lock);
}

static void say(const char *text)
{
    must(write(STDOUT_FILENO, text, strlen(text)) >= 0);
}

/* ---- a call held up: it waits where it first touches a page, until it is told to go on */

static uint8_t *held[2];
static atomic_int is_held, goes_on;

void machine_hold_at(uint8_t *const pages[2])
{
    atomic_store(&is_held, 0);
    atomic_store(&goes_on, 0);
    for (int i = 0; i < 2; i++) {
        held[i] = pages[i];
        must(mprotect(held[i], PAGE, PROT_NONE) == 0);
    }
}

static void allow_held(void)
{
    must(mprotect(held[0], PAGE, PROT_READ | PROT_WRITE) == 0 && mprotect(held[1], PAGE, PROT_READ) == 0);
}

/* Another thread waits here until the call is held up. */
void machine_wait_for_held(void)
{
    while (!atomic_load(&is_held))
        sched_yield();
}

void machine_let_go_on(void)
{
    atomic_store(&goes_on, 1);
}

/* After the call: whether it was held up. Where it was not, nobody needs to wait for that any more. */
int machine_was_held(void)
{
    if (atomic_exchange(&is_held, 1))
        return 1;
    allow_held();
    return 0;
}

static int hold_up(const uint8_t *at)
{
    if (!((at >= held[0] && at < held[0] + PAGE) || (at >= held[1] && at < held[1] + PAGE)) || atomic_load(&is_held))
        return 0;
    allow_held();
    atomic_store(&is_held, 1);
    while (!atomic_load(&goes_on))
        sched_yield();
    return 1;
}

static void touched(int signal, siginfo_t *info, void *context)
{
    const char *means = "the library touches memory that is nobody's";
    (void)signal, (void)context;
    if (hold_up(info->si_addr))
        return;
    for (size_t i = 0; i < region_count; i++)
        if (regions[i].from != NULL && (uint8_t *)info->si_addr >= regions[i].from && (uint8_t *)info->si_addr < regions[i].to)
            means = regions[i].means;
    say("FAILED: ");
    say(doing);
    say(": ");
    say(means);
    say("\n0 passed, 1 failed\n");
    _exit(1);
}

/* The name of the check that is made from now on. */
void machine_doing(const char *name)
{
    strncpy(doing, name, NAME - 1);
}

/* ---- lent memory */

/* So many bytes, rounded up to pages, between two pages without access, twice: where it can be written, and where it can only be read. */
void machine_lend(size_t pages, uint8_t *views[2])
{
    int file = memfd_create("lent", MFD_CLOEXEC);
    must(file >= 0 && ftruncate(file, (off_t)(pages * PAGE)) == 0);
    for (int i = 0; i < 2; i++) {
        uint8_t *all = mmap(NULL, (pages + 2) * PAGE, PROT_NONE, MAP_PRIVATE | MAP_ANONYMOUS | MAP_NORESERVE, -1, 0);
        must(all != MAP_FAILED);
        views[i] = mmap(all + PAGE, pages * PAGE, i == 0 ? PROT_READ | PROT_WRITE : PROT_READ, MAP_SHARED | MAP_FIXED, file, 0);
        must(views[i] == all + PAGE);
        forbid(all, PAGE, "the library touches memory before a lent part");
        forbid(views[i] + pages * PAGE, PAGE, "the library touches memory after a lent part");
    }
    forbid(views[1], pages * PAGE, "the library writes a part that is const");
    close(file);
}

void machine_return(size_t pages, uint8_t *const views[2])
{
    for (int i = 0; i < 2; i++) {
        forget(views[i] - PAGE, (pages + 2) * PAGE);
        munmap(views[i] - PAGE, (pages + 2) * PAGE);
    }
}

/* ---- the stack of a call */

enum { PAINT = 0xB7 };

struct stack {
    uint8_t *bottom, *left; /* below `left` nothing has been used, and all is paint */
    ucontext_t caller, callee;
    void (*what)(void *);
    void *with;
};

static _Thread_local struct stack *running;

/* The thread's own handler needs a stack that has not overflowed. */
static void watch(void)
{
    static _Thread_local int watches;
    struct sigaction action = { .sa_sigaction = touched, .sa_flags = SA_SIGINFO | SA_ONSTACK };
    if (watches)
        return;
    watches = 1;
    stack_t aside = { .ss_sp = malloc(STACK), .ss_size = STACK };
    must(aside.ss_sp != NULL && sigaltstack(&aside, NULL) == 0);
    must(sigaction(SIGSEGV, &action, NULL) == 0 && sigaction(SIGBUS, &action, NULL) == 0);
}

struct stack *machine_stack(void)
{
    struct stack *stack = calloc(1, sizeof *stack);
    uint8_t *all = mmap(NULL, BELOW_STACK + STACK, PROT_NONE, MAP_PRIVATE | MAP_ANONYMOUS | MAP_NORESERVE, -1, 0);
    must(stack != NULL && all != MAP_FAILED && mprotect(all + BELOW_STACK, STACK, PROT_READ | PROT_WRITE) == 0);
    forbid(all, BELOW_STACK, "the library takes more than 64 KiB of stack");
    stack->bottom = all + BELOW_STACK;
    stack->left = stack->bottom + STACK;
    memset(stack->bottom, PAINT, STACK);
    return stack;
}

void machine_stack_return(struct stack *stack)
{
    forget(stack->bottom - BELOW_STACK, BELOW_STACK);
    munmap(stack->bottom - BELOW_STACK, BELOW_STACK + STACK);
    free(stack);
}

static void enter(void)
{
    running->what(running->with);
}

/* A page of paint, to compare with. */
static const uint8_t *painted(void)
{
    static _Thread_local uint8_t page[PAGE];
    if (page[0] != PAINT)
        memset(page, PAINT, PAGE);
    return page;
}

/* Runs a function on the stack, in the caller's thread. Returns how many bytes of the stack it took. */
size_t machine_call(struct stack *stack, void (*what)(void *), void *with)
{
    watch();
    memset(stack->left, PAINT, (size_t)(stack->bottom + STACK - stack->left));
    stack->what = what;
    stack->with = with;
    running = stack;
    must(getcontext(&stack->callee) == 0);
    stack->callee.uc_stack.ss_sp = stack->bottom;
    stack->callee.uc_stack.ss_size = STACK;
    stack->callee.uc_link = &stack->caller;
    makecontext(&stack->callee, enter, 0);
    must(swapcontext(&stack->caller, &stack->callee) == 0);
    uint8_t *used = stack->bottom;
    while (used < stack->bottom + STACK && memcmp(used, painted(), PAGE) == 0)
        used += PAGE;
    while (used < stack->bottom + STACK && *used == PAINT)
        used++;
    stack->left = used;
    return (size_t)(stack->bottom + STACK - used);
}
