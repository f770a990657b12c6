/* The library with one fault, to see that the callers notice it. The environment's FAULT names the fault, of yagmurzol_speeds and of
 * yagmurzol_index with 'speeds: ' or 'index: ' before it; with none the answers are those of the library itself, whose calls bear names
 * with right_ in place of yagmurzol_ here. */
#define _DEFAULT_SOURCE
#include <fenv.h>
#include <pthread.h>
#include <stdlib.h>
#include <string.h>
#include <time.h>
#include <unistd.h>

#include "yagmurzol.h"

struct yagmurzol_answer right_ask(const uint8_t *block, size_t length);
struct yagmurzol_speed_answer right_speeds(const uint8_t *block, size_t length);
struct yagmurzol_answer right_index(const uint8_t *block, size_t length, struct yagmurzol_knots most, struct yagmurzol_knots least);

/* The calls that have faults of their own; those that give a part of the answer have ASK's too. */
enum call { ASK, SPEEDS, INDEX };

/* A call with what is handed in and what comes back. Whatever it doesn't have is 0. */
struct asked {
    enum call call;
    const uint8_t *block;
    size_t length;
    struct yagmurzol_knots most, least;
    struct yagmurzol_answer answer;
    struct yagmurzol_speed_answer speed;
};

static int fault_of(enum call call, const char *name)
{
    static const char *const calls[] = {"", "speeds: ", "index: "};
    static const char *chosen;
    if (chosen == NULL)
        chosen = getenv("FAULT");
    size_t before = strlen(calls[call]);
    return chosen != NULL && strncmp(chosen, calls[call], before) == 0 && strcmp(chosen + before, name) == 0;
}

static int fault(const char *name)
{
    return fault_of(ASK, name);
}

static struct yagmurzol_answer refused(uint8_t number)
{
    struct yagmurzol_answer answer = {number, 0, 0, {0, 0}};
    return answer;
}

static struct yagmurzol_answer bounds(uint64_t lower, uint64_t upper)
{
    struct yagmurzol_answer answer = {0, lower, upper, {(double)lower, (double)upper}};
    return answer;
}

static struct yagmurzol_speed_answer no_speed(uint8_t number)
{
    struct yagmurzol_speed_answer speed = {number, {0, 0}, {0, 0}};
    return speed;
}

static int same_knots(struct yagmurzol_knots one, struct yagmurzol_knots other)
{
    return one.lower == other.lower && one.upper == other.upper;
}

static int same_pairs(const struct asked *asked, struct yagmurzol_knots most, struct yagmurzol_knots least)
{
    return same_knots(asked->most, most) && same_knots(asked->least, least);
}

static struct yagmurzol_knots exchanged(struct yagmurzol_knots knots)
{
    struct yagmurzol_knots other = {knots.upper, knots.lower};
    return other;
}

/* A block without its last byte, as if that were there. */
static const uint8_t *completed(const uint8_t *piece)
{
    static uint8_t block[YAGMURZOL_BLOCK];
    memcpy(block, piece, YAGMURZOL_BLOCK - 1);
    for (int last = 0; last < 256; last++) {
        block[YAGMURZOL_BLOCK - 1] = (uint8_t)last;
        if (right_ask(block, YAGMURZOL_BLOCK).refusal == 0)
            break;
    }
    return block;
}

/* Faults in how many bytes are taken for a block. */
static void measured_wrongly(struct asked *asked)
{
    if (fault_of(asked->call, "takes 511 bytes") && asked->length == YAGMURZOL_BLOCK - 1) {
        asked->block = completed(asked->block);
        asked->length = YAGMURZOL_BLOCK;
    }
    if (fault_of(asked->call, "takes more than 512 bytes") && asked->length > YAGMURZOL_BLOCK && asked->length <= 2 * YAGMURZOL_BLOCK)
        asked->length = YAGMURZOL_BLOCK;
    if (fault_of(asked->call, "length in 16 bits"))
        asked->length = (uint16_t)asked->length;
    if (fault_of(asked->call, "length in 32 bits"))
        asked->length = (uint32_t)asked->length;
}

/* Faults in what is done to the lent bytes and to those beside them. */
static void touched_wrongly(enum call call, const uint8_t *block, size_t length)
{
    volatile uint8_t *lent = (volatile uint8_t *)block;
    if (fault_of(call, "reads a null pointer") && length == 0)
        (void)lent[0];
    if (length == 0)
        return;
    if (fault_of(call, "reads a byte behind"))
        (void)lent[length];
    if (fault_of(call, "reads a byte before"))
        (void)lent[-1];
    if (fault_of(call, "changes a byte of a block") && length == YAGMURZOL_BLOCK)
        lent[length - 1]++;
    if (fault_of(call, "changes a byte of another length") && length < YAGMURZOL_BLOCK)
        lent[length - 1]++;
    if (fault_of(call, "changes a byte and puts it back")) {
        lent[length - 1]++;
        lent[length - 1]--;
    }
}

static int same_answers(const struct asked *one, const struct asked *other)
{
    struct yagmurzol_answer answer = one->answer, another = other->answer;
    return answer.refusal == another.refusal && answer.lower == another.lower && answer.upper == another.upper
        && one->speed.refusal == other->speed.refusal && same_knots(one->speed.most, other->speed.most)
        && same_knots(one->speed.least, other->speed.least);
}

/* Whether ten seconds have gone by since this was first asked. */
static int waited_enough(void)
{
    static time_t begun;
    time_t none = 0;
    struct timespec now;
    clock_gettime(CLOCK_MONOTONIC, &now);
    __atomic_compare_exchange_n(&begun, &none, now.tv_sec, 0, __ATOMIC_SEQ_CST, __ATOMIC_SEQ_CST);
    return now.tv_sec - __atomic_load_n(&begun, __ATOMIC_SEQ_CST) > 10;
}

/* The fault of a library with one place for what it answers. Calls that overlap would find each other there by chance alone, so a call
 * of another thread than the first one stays until a second call has been there, until a wrong answer has gone out, or until ten seconds
 * have gone by since one first stayed: a caller that never asks from two threads at once still can't notice. */
static void placed_wrongly(struct asked *asked)
{
    static struct asked place;
    static unsigned calls, gone_out;
    static pthread_t first;
    const struct asked right = *asked;
    place = right;
    unsigned call = __atomic_add_fetch(&calls, 1, __ATOMIC_SEQ_CST);
    if (call == 1)
        first = pthread_self();
    while (!pthread_equal(pthread_self(), first) && __atomic_load_n(&calls, __ATOMIC_SEQ_CST) == call
           && !__atomic_load_n(&gone_out, __ATOMIC_SEQ_CST) && !waited_enough())
        usleep(1000);
    *asked = place;
    if (!same_answers(asked, &right))
        __atomic_store_n(&gone_out, 1, __ATOMIC_SEQ_CST);
}

/* Faults of a library that keeps something until the next call. */
static void kept_wrongly(struct asked *asked)
{
    static struct asked before;
    static int calls;
    int always = fault_of(asked->call, "previous answer"), by_address = fault_of(asked->call, "previous answer at the same address");
    if (fault_of(asked->call, "one place for all threads")) {
        placed_wrongly(asked);
    } else if (always || by_address) {
        struct asked now = *asked, previous = calls++ > 0 ? before : now;
        int same_place = now.block == previous.block && now.length == previous.length;
        if (always || same_place)
            *asked = previous;
        if (always || !same_place)
            before = now;
    }
}

/* Faults in a refusal. Of another length than 512 it stays 1: that refusal is held before the lines are. */
static struct yagmurzol_answer refused_wrongly(enum call call, struct yagmurzol_answer answer)
{
    struct yagmurzol_answer other = answer;
    if (fault_of(call, "bounds beside a refusal")) {
        other = bounds(5170857, 5170858);
        other.refusal = answer.refusal;
    }
    if (fault_of(call, "minus zero"))
        other.pair.upper = -0.0;
    if (fault_of(call, "minus zero when rounding down") && fegetround() == FE_DOWNWARD)
        other.pair.lower = -0.0;
    if (fault_of(call, "another refusal") && answer.refusal != 1)
        other.refusal = answer.refusal == 19 ? 18 : 19;
    if (fault_of(call, "neither bounds nor refusal") && answer.refusal != 1)
        other.refusal = 0;
    return other;
}

/* Faults in the bounds. */
static struct yagmurzol_answer bounded_wrongly(enum call call, struct yagmurzol_answer answer)
{
    struct yagmurzol_answer other = answer;
    if (fault_of(call, "refuses all"))
        return refused(2);
    if (fault_of(call, "refuses all with 1"))
        return refused(1);
    if (fault_of(call, "refuses all with 13"))
        return refused(13);
    if (fault_of(call, "exchanges the bounds"))
        return bounds(answer.upper, answer.lower);
    if (fault_of(call, "lower bound one less"))
        return bounds(answer.lower - 1, answer.upper);
    if (fault_of(call, "constant bounds"))
        return bounds(5170857, 5170858);
    if (fault_of(call, "upper double one more"))
        other.pair.upper += 1;
    if (fault_of(call, "lower double half more"))
        other.pair.lower += 0.5;
    if (fault_of(call, "doubles in grams")) {
        other.pair.lower /= 1e6;
        other.pair.upper /= 1e6;
    }
    return other;
}

/* Faults in a refused ship's speed. */
static struct yagmurzol_speed_answer stopped_wrongly(struct yagmurzol_speed_answer speed)
{
    struct yagmurzol_speed_answer other = speed;
    if (fault("speeds: a speed beside a refusal"))
        other.least.lower = other.least.upper = 14000000;
    if (fault("speeds: another refusal") && speed.refusal != 1)
        other.refusal = speed.refusal == 19 ? 18 : 19;
    if (fault("speeds: neither speed nor refusal") && speed.refusal != 1)
        other.refusal = 0;
    return other;
}

/* Faults in one of the four figures. */
static void moved_wrongly(struct yagmurzol_speed_answer *speed)
{
    if (fault("speeds: most favourable lower bound one less"))
        speed->most.lower--;
    if (fault("speeds: most favourable upper bound one more"))
        speed->most.upper++;
    if (fault("speeds: least favourable lower bound one less"))
        speed->least.lower--;
    if (fault("speeds: least favourable upper bound one more"))
        speed->least.upper++;
}

/* Faults in a speed. */
static struct yagmurzol_speed_answer settled_wrongly(struct yagmurzol_speed_answer speed)
{
    struct yagmurzol_knots most = speed.most, least = speed.least;
    struct yagmurzol_knots fourteen = {14000000, 14000000};
    if (fault("speeds: refuses all"))
        return no_speed(13);
    if (fault("speeds: exchanges the ships") || fault("speeds: least favourable ship twice"))
        speed.most = least;
    if (fault("speeds: exchanges the ships") || fault("speeds: most favourable ship twice"))
        speed.least = most;
    if (fault("speeds: exchanges the bounds")) {
        speed.most = exchanged(most);
        speed.least = exchanged(least);
    }
    if (fault("speeds: lower bounds as upper ones")) {
        speed.most.upper = most.lower;
        speed.least.upper = least.lower;
    }
    if (fault("speeds: upper bounds as lower ones")) {
        speed.most.lower = most.upper;
        speed.least.lower = least.upper;
    }
    if (fault("speeds: constant"))
        speed.most = speed.least = fourteen;
    if (fault("speeds: in hundredths")) {
        speed.most.lower = speed.most.upper = most.upper / 10000;
        speed.least.lower = speed.least.upper = least.upper / 10000;
    }
    moved_wrongly(&speed);
    return speed;
}

/* A single figure of those handed in is left out of the comparison, or one pair, or the upper halves of all. */
static void overlooked(struct asked *asked, struct yagmurzol_speed_answer own)
{
    if (fault("index: ignores the most favourable ship") || fault("index: ignores the most favourable lower bound"))
        asked->most.lower = own.most.lower;
    if (fault("index: ignores the most favourable ship") || fault("index: ignores the most favourable upper bound"))
        asked->most.upper = own.most.upper;
    if (fault("index: ignores the least favourable ship") || fault("index: ignores the least favourable lower bound"))
        asked->least.lower = own.least.lower;
    if (fault("index: ignores the least favourable ship") || fault("index: ignores the least favourable upper bound"))
        asked->least.upper = own.least.upper;
    if (fault("index: compares 32 bits")) {
        asked->most.lower = (uint32_t)asked->most.lower;
        asked->most.upper = (uint32_t)asked->most.upper;
        asked->least.lower = (uint32_t)asked->least.lower;
        asked->least.upper = (uint32_t)asked->least.upper;
    }
}

/* Whether pairs are taken for the ship's own that aren't. */
static int taken_wrongly(const struct asked *asked, struct yagmurzol_speed_answer own, struct yagmurzol_speed_answer last)
{
    static const struct yagmurzol_knots none = {0, 0}, greatest = {UINT64_MAX, UINT64_MAX};
    return fault("index: ignores the speed")
        || (fault("index: takes the ships exchanged") && same_pairs(asked, own.least, own.most))
        || (fault("index: takes the bounds exchanged") && same_pairs(asked, exchanged(own.most), exchanged(own.least)))
        || (fault("index: takes no speed") && same_pairs(asked, none, none))
        || (fault("index: takes the greatest") && same_pairs(asked, greatest, greatest))
        || (fault("index: takes the last ship's speed") && same_pairs(asked, last.most, last.least));
}

/* Faults in the order of the refusals. 1 stays: there is no ship in such bytes. */
static uint8_t refused_too_early(const struct asked *asked, uint8_t refusal)
{
    static const struct yagmurzol_knots none = {0, 0};
    int speed = !same_pairs(asked, none, none);
    if (refusal > 1 && ((fault("index: 13 before any refusal") && speed) || (fault("index: 13 for no speed before any refusal") && !speed)
                        || (fault("index: 13 before refusal 14") && speed && refusal > 13)))
        return 13;
    return refusal;
}

/* The index by way of any fault in how the speed that is handed in is taken. */
static struct yagmurzol_answer concluded(struct asked *asked, struct yagmurzol_speed_answer last)
{
    struct yagmurzol_speed_answer own = right_speeds(asked->block, asked->length), said = settled_wrongly(own), taken = no_speed(0);
    struct yagmurzol_answer answer;
    overlooked(asked, own);
    taken.most = asked->most;
    taken.least = asked->least;
    if (fault("index: takes the last ship's speed alone"))
        taken = same_pairs(asked, last.most, last.least) ? own : no_speed(0);
    else if (same_pairs(asked, said.most, said.least) || taken_wrongly(asked, own, last))
        taken = own;
    /* A wrong speed has been taken as it was given, and the right one is refused, so that only the line of a speed can tell. */
    else if (same_pairs(asked, own.most, own.least))
        taken = said;
    answer = right_index(asked->block, asked->length, taken.most, taken.least);
    if (own.refusal != 0)
        answer.refusal = refused_too_early(asked, answer.refusal);
    return answer;
}

/* The answer by way of any fault in what is handed in, or in a speed. */
static void answered(struct asked *asked)
{
    static struct yagmurzol_speed_answer last;
    measured_wrongly(asked);
    if (asked->call == SPEEDS) {
        asked->speed = right_speeds(asked->block, asked->length);
        asked->speed = asked->speed.refusal == 0 ? settled_wrongly(asked->speed) : stopped_wrongly(asked->speed);
        last = asked->speed.refusal == 0 ? asked->speed : last;
    } else {
        asked->answer = asked->call == INDEX ? concluded(asked, last) : right_ask(asked->block, asked->length);
    }
}

/* The fault of a library that keeps a pair of numbers on the stack for each step down, until the right answer comes back. */
static void answered_below(struct asked *asked, int steps)
{
    volatile size_t kept[2] = {asked->length, asked->length};
    if (steps > 1)
        answered_below(asked, steps - 1);
    else
        answered(asked);
    if (kept[0] != kept[1])
        asked->answer = refused(1);
}

static void ask_wrongly(struct asked *asked)
{
    const uint8_t *block = asked->block;
    size_t length = asked->length;
    answered_below(asked, fault_of(asked->call, "keeps pairs on the stack") ? 96 : 1);
    touched_wrongly(asked->call, block, length);
    asked->answer = asked->answer.refusal == 0 ? bounded_wrongly(asked->call, asked->answer) : refused_wrongly(asked->call, asked->answer);
    kept_wrongly(asked);
}

struct yagmurzol_answer yagmurzol_ask(const uint8_t *block, size_t length)
{
    struct asked asked = {.call = ASK, .block = block, .length = length};
    ask_wrongly(&asked);
    return asked.answer;
}

struct yagmurzol_speed_answer yagmurzol_speeds(const uint8_t *block, size_t length)
{
    struct asked asked = {.call = SPEEDS, .block = block, .length = length};
    ask_wrongly(&asked);
    return asked.speed;
}

struct yagmurzol_answer yagmurzol_index(const uint8_t *block, size_t length, struct yagmurzol_knots most, struct yagmurzol_knots least)
{
    struct asked asked = {.call = INDEX, .block = block, .length = length, .most = most, .least = least};
    ask_wrongly(&asked);
    return asked.answer;
}

uint8_t yagmurzol_refusal(const uint8_t *block, size_t length)
{
    struct yagmurzol_answer answer = yagmurzol_ask(block, length);
    return fault("single refusal differs") && answer.refusal == 10 ? 9 : answer.refusal;
}

uint64_t yagmurzol_lower(const uint8_t *block, size_t length)
{
    struct yagmurzol_answer answer = yagmurzol_ask(block, length);
    return fault("single lower bound differs") ? answer.upper : answer.lower;
}

uint64_t yagmurzol_upper(const uint8_t *block, size_t length)
{
    struct yagmurzol_answer answer = yagmurzol_ask(block, length);
    return fault("single upper bound differs") && answer.upper > 0 ? answer.upper + 1 : answer.upper;
}

struct yagmurzol_pair yagmurzol_doubles(const uint8_t *block, size_t length)
{
    struct yagmurzol_pair pair = yagmurzol_ask(block, length).pair;
    if (fault("single doubles differ"))
        pair.lower = pair.upper;
    return pair;
}
