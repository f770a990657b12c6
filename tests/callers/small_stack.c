/* The library on a small stack: about each block of standard input it is asked on a stack of its own, whose lower end adjoins memory that
 * can be neither read nor written, and on the ordinary stack: for the whole answer, for the speed, and for the index from that speed and
 * from another. Both answers have to be the same. Bytes at the end that make no whole block are left out.
 * It prints how many blocks there were and how much of the small stack each call used at most; or it ends with 1 and names the block. */
#define _DEFAULT_SOURCE
#include <signal.h>
#include <stdio.h>
#include <stdlib.h>
#include <string.h>
#include <sys/mman.h>
#include <ucontext.h>
#include <unistd.h>

#include "yagmurzol.h"

/* The bytes of the small stack: near twice what a call uses, and over a third less than it needed with every root
   of a power on the stack. */
#define SMALL ((size_t)3072)
/* The closed memory below: a multiple of every size of page, and more than a function's own part of the stack would reach across. */
#define CLOSED ((size_t)65536)
#define PAINT 0xa5
/* The byte of a block that has the speed method, and how many methods there are. */
#define METHOD 3
#define METHODS 4

/* What a call gives. Whatever it doesn't have stays as it was. */
struct given {
    struct yagmurzol_answer answer;
    struct yagmurzol_speed_answer speed;
};

static uint8_t block[YAGMURZOL_BLOCK];
static unsigned long number;
static struct given given;
/* The speed that is handed in. */
static struct yagmurzol_knots most, least;
static uint8_t *stack;
static ucontext_t ordinary, small;
/* What there would be to say of this block: where memory was touched wrongly only ready bytes may be written. */
static char too_deep[80], astray[80];

static void hold(int kept, const char *promise)
{
    if (!kept) {
        fprintf(stderr, "small stack: block %lu: %s\n", number, promise);
        exit(1);
    }
}

/* Called on a stack of its own, when memory was touched that can't be. */
static void touched(int cause, siginfo_t *where, void *context)
{
    const uint8_t *place = where->si_addr;
    const char *line = place >= stack - CLOSED && place < stack ? too_deep : astray;
    (void)cause;
    (void)context;
    _exit(write(STDERR_FILENO, line, strlen(line)) < 0 ? 2 : 1);
}

static void watch(void)
{
    static uint8_t room[CLOSED];
    stack_t own = {.ss_sp = room, .ss_size = sizeof room};
    struct sigaction action = {.sa_sigaction = touched, .sa_flags = SA_SIGINFO | SA_ONSTACK};
    hold(sigaltstack(&own, NULL) == 0, "there is another stack for what is touched wrongly");
    hold(sigemptyset(&action.sa_mask) == 0 && sigaction(SIGSEGV, &action, NULL) == 0, "what is touched wrongly is told");
}

static void make_stack(void)
{
    uint8_t *rooms = mmap(NULL, 2 * CLOSED, PROT_NONE, MAP_PRIVATE | MAP_ANONYMOUS, -1, 0);
    hold(rooms != MAP_FAILED, "there is memory to protect");
    stack = rooms + CLOSED;
    hold(mprotect(stack, CLOSED, PROT_READ | PROT_WRITE) == 0, "memory can be opened");
}

static void make_words(void)
{
    snprintf(too_deep, sizeof too_deep, "small stack: block %lu needs more than %zu bytes\n", number, SMALL);
    snprintf(astray, sizeof astray, "small stack: block %lu: memory is touched that is not the stack's\n", number);
}

/* Nothing else runs on the small stack, so that nearly all of it is the library's. */
static void ask(void)
{
    given.answer = yagmurzol_ask(block, sizeof block);
}

static void ask_speed(void)
{
    given.speed = yagmurzol_speeds(block, sizeof block);
}

static void ask_index(void)
{
    given.answer = yagmurzol_index(block, sizeof block, most, least);
}

static void take_small_stack(void (*call)(void))
{
    memset(stack, PAINT, SMALL);
    hold(getcontext(&small) == 0, "there can be two stacks");
    small.uc_stack.ss_sp = stack;
    small.uc_stack.ss_size = SMALL;
    small.uc_link = &ordinary;
    makecontext(&small, call, 0);
    hold(swapcontext(&ordinary, &small) == 0, "the small stack can be taken");
}

/* How far down the paint is gone. */
static size_t used(void)
{
    size_t unused = 0;
    while (unused < SMALL && stack[unused] == PAINT)
        unused++;
    return SMALL - unused;
}

static uint64_t bits(double figure)
{
    uint64_t all;
    memcpy(&all, &figure, sizeof all);
    return all;
}

static void hold_same(struct yagmurzol_answer one, struct yagmurzol_answer other)
{
    hold(one.refusal == other.refusal, "the refusal is the same on both stacks");
    hold(one.lower == other.lower, "the lower bound is the same on both stacks");
    hold(one.upper == other.upper, "the upper bound is the same on both stacks");
    hold(bits(one.pair.lower) == bits(other.pair.lower), "the lower double is the same on both stacks");
    hold(bits(one.pair.upper) == bits(other.pair.upper), "the upper double is the same on both stacks");
}

static void hold_same_speed(struct yagmurzol_speed_answer one, struct yagmurzol_speed_answer other)
{
    hold(one.refusal == other.refusal, "the speed's refusal is the same on both stacks");
    hold(one.most.lower == other.most.lower && one.most.upper == other.most.upper, "the most favourable speed is the same on both stacks");
    hold(one.least.lower == other.least.lower && one.least.upper == other.least.upper,
         "the least favourable speed is the same on both stacks");
}

/* One call on both stacks; the most of the small one that it has used so far. */
static void call_on_both(void (*call)(void), size_t *deepest)
{
    call();
    struct given right = given;
    take_small_stack(call);
    size_t deep = used();
    *deepest = deep > *deepest ? deep : *deepest;
    hold_same(given.answer, right.answer);
    hold_same_speed(given.speed, right.speed);
}

/* The methods take different powers, so that a block of each has to be asked about. */
static void hold_methods(const unsigned long *by_method)
{
    for (int method = 1; method <= METHODS; method++) {
        if (by_method[method] == 0) {
            fprintf(stderr, "small stack: no block with bounds has speed method %d\n", method);
            exit(1);
        }
    }
}

/* All calls about the block: the last one is refused with 13, if with nothing else before. */
static void call_all(size_t *asked, size_t *speed, size_t *later)
{
    call_on_both(ask, asked);
    call_on_both(ask_speed, speed);
    most = given.speed.most;
    least = given.speed.least;
    call_on_both(ask_index, later);
    least.upper++;
    call_on_both(ask_index, later);
}

int main(void)
{
    unsigned long bounded = 0, by_method[256] = {0};
    size_t asked = 0, speed = 0, later = 0;
    watch();
    make_stack();
    for (; fread(block, 1, sizeof block, stdin) == sizeof block; number++) {
        make_words();
        call_all(&asked, &speed, &later);
        if (given.speed.refusal == YAGMURZOL_NONE) {
            bounded++;
            by_method[block[METHOD]]++;
        }
    }
    hold_methods(by_method);
    printf("small stack: %lu blocks, %lu with bounds; of %zu bytes used at most %zu, ", number, bounded, SMALL, asked);
    printf("by the speed alone %zu and by the index from it %zu\n", speed, later);
    return 0;
}
