/* The library called from C: for every piece of a file it holds the seven calls to each other and to the promises of the header, and
 * prints the line that `fleet` prints for such a block, then the one that `speeds` prints.
 *   caller FILE   pieces one after another, each its length in four bytes, the lowest first, and then so many bytes
 *   caller        prints size and alignment of each struct and the places of its parts
 * It ends with 1 at the first promise that is broken. */
#define _DEFAULT_SOURCE
#include <fenv.h>
#include <inttypes.h>
#include <stdio.h>
#include <stdlib.h>
#include <string.h>
#include <sys/mman.h>

#include "yagmurzol.h"

/* A part of memory that is protected as a whole: a multiple of every size of page, with room for two of the longest pieces. */
#define ROOM ((size_t)262144)
#define TWO_TO_THE_53RD ((uint64_t)1 << 53)
/* The bounds of a speed: the most favourable ship's lower and upper one, then the least favourable's. */
#define FIGURES 4
/* How many other speeds are handed in, and of how many pieces all of them: each later piece has one, in turn. */
#define OTHERS 17
#define FEW 256

/* What the library says of a piece: its index and its speed. */
struct answers {
    struct yagmurzol_answer index;
    struct yagmurzol_speed_answer speed;
};

static unsigned long number;
/* The ship before, to be asked about in between. */
static uint8_t other_block[YAGMURZOL_BLOCK];
static struct yagmurzol_speed_answer other_speed;

static void hold(int kept, const char *promise)
{
    if (!kept) {
        fprintf(stderr, "piece %lu: %s\n", number, promise);
        exit(1);
    }
}

static uint64_t bits(double figure)
{
    uint64_t all;
    memcpy(&all, &figure, sizeof all);
    return all;
}

static int same_pair(struct yagmurzol_pair one, struct yagmurzol_pair other)
{
    return bits(one.lower) == bits(other.lower) && bits(one.upper) == bits(other.upper);
}

static int same_index(struct yagmurzol_answer one, struct yagmurzol_answer other)
{
    return one.refusal == other.refusal && one.lower == other.lower && one.upper == other.upper && same_pair(one.pair, other.pair);
}

static int same_knots(struct yagmurzol_knots one, struct yagmurzol_knots other)
{
    return one.lower == other.lower && one.upper == other.upper;
}

static int same_speed(struct yagmurzol_speed_answer one, struct yagmurzol_speed_answer other)
{
    return one.refusal == other.refusal && same_knots(one.most, other.most) && same_knots(one.least, other.least);
}

static int same(struct answers one, struct answers other)
{
    return same_index(one.index, other.index) && same_speed(one.speed, other.speed);
}

/* To a whole number and back: nothing is lost on the way, not even a sign of zero. */
static void hold_double(double figure, uint64_t whole)
{
    hold(figure >= 0 && figure < (double)TWO_TO_THE_53RD, "a double lies between 0 and 2 to the 53rd");
    hold((uint64_t)figure == whole, "a double is the whole bound");
    hold(bits((double)whole) == bits(figure), "a double is the whole bound bit for bit");
}

static void hold_promises(struct yagmurzol_answer answer, size_t length)
{
    hold((answer.refusal == YAGMURZOL_LENGTH) == (length != YAGMURZOL_BLOCK), "refusal 1 goes with every length but 512");
    hold((answer.refusal == YAGMURZOL_NONE) == (answer.upper > 0), "there are bounds exactly where there is no refusal");
    hold(answer.refusal == YAGMURZOL_NONE || answer.lower == 0, "no lower bound goes with a refusal");
    hold(answer.lower <= answer.upper, "the lower bound is at most the upper one");
    hold(answer.upper < TWO_TO_THE_53RD, "the bounds are below 2 to the 53rd");
    hold_double(answer.pair.lower, answer.lower);
    hold_double(answer.pair.upper, answer.upper);
}

static void hold_knots(struct yagmurzol_knots knots, uint8_t refusal)
{
    hold((refusal == YAGMURZOL_NONE) == (knots.upper > 0), "there is a speed exactly where there is no refusal");
    hold(knots.lower <= knots.upper, "a speed's lower bound is at most its upper one");
    hold(knots.upper < TWO_TO_THE_53RD, "a speed's bounds are below 2 to the 53rd");
    hold(knots.upper - knots.lower <= knots.upper / 1000000 + 2, "a speed's bounds are a millionth and 2 apart, or less");
}

/* The index from these figures: pairs that aren't the ship's own are refusal 13, after every refusal of the block itself. */
static void hold_index(const uint8_t *block, size_t length, const uint64_t *figures, struct answers right)
{
    struct yagmurzol_knots most = {figures[0], figures[1]}, least = {figures[2], figures[3]};
    struct yagmurzol_answer answer = right.index, refused = {YAGMURZOL_SPEED, 0, 0, {0, 0}};
    if (answer.refusal == YAGMURZOL_NONE && !(same_knots(most, right.speed.most) && same_knots(least, right.speed.least)))
        answer = refused;
    hold(same_index(yagmurzol_index(block, length, most, least), answer), "any other speed is refusal 13, after the block's own");
}

/* Speeds that aren't the ship's own: the ships exchanged, the bounds exchanged, the other ship's, none, the greatest, and each figure a
   little and far off. */
static void make_others(const uint64_t *own, uint64_t others[OTHERS][FIGURES])
{
    static const uint64_t moves[] = {1, UINT64_MAX, (uint64_t)1 << 32};
    struct yagmurzol_knots most = other_speed.most, least = other_speed.least;
    const uint64_t whole[][FIGURES] = {{own[2], own[3], own[0], own[1]},
                                       {own[1], own[0], own[3], own[2]},
                                       {most.lower, most.upper, least.lower, least.upper},
                                       {0, 0, 0, 0},
                                       {UINT64_MAX, UINT64_MAX, UINT64_MAX, UINT64_MAX}};
    const size_t wholes = sizeof whole / sizeof *whole;
    memcpy(others, whole, sizeof whole);
    for (size_t each = wholes; each < OTHERS; each++) {
        memcpy(others[each], own, FIGURES * sizeof *own);
        others[each][each % FIGURES] += moves[(each - wholes) / FIGURES];
    }
}

/* After another ship's speed the ship's own still gives her index: nothing is kept from one call to the next. Then the other speeds. */
static void ask_with_others(const uint8_t *block, size_t length, struct answers right)
{
    struct yagmurzol_knots most = right.speed.most, least = right.speed.least;
    const uint64_t own[FIGURES] = {most.lower, most.upper, least.lower, least.upper};
    uint64_t others[OTHERS][FIGURES];
    int all = number < FEW;
    make_others(own, others);
    hold(same_speed(yagmurzol_speeds(other_block, sizeof other_block), other_speed), "another ship's speed is what it was");
    hold_index(block, length, own, right);
    for (size_t each = all ? 0 : number % OTHERS; each < OTHERS; each += all ? 1 : OTHERS)
        hold_index(block, length, others[each], right);
}

static struct yagmurzol_speed_answer ask_in_two_steps(const uint8_t *block, size_t length, struct yagmurzol_answer answer)
{
    struct yagmurzol_speed_answer speed = yagmurzol_speeds(block, length);
    hold(speed.refusal == answer.refusal, "yagmurzol_speeds gives the answer's refusal");
    hold_knots(speed.most, speed.refusal);
    hold_knots(speed.least, speed.refusal);
    hold(same_index(yagmurzol_index(block, length, speed.most, speed.least), answer), "the index from the ship's own speed is the answer");
    return speed;
}

/* All seven calls, and the first one again. */
static struct answers ask(const uint8_t *block, size_t length)
{
    struct yagmurzol_answer answer = yagmurzol_ask(block, length);
    hold_promises(answer, length);
    hold(yagmurzol_refusal(block, length) == answer.refusal, "yagmurzol_refusal gives the answer's refusal");
    hold(yagmurzol_lower(block, length) == answer.lower, "yagmurzol_lower gives the answer's lower bound");
    hold(yagmurzol_upper(block, length) == answer.upper, "yagmurzol_upper gives the answer's upper bound");
    hold(same_pair(yagmurzol_doubles(block, length), answer.pair), "yagmurzol_doubles gives the answer's pair");
    struct answers both = {answer, ask_in_two_steps(block, length, answer)};
    hold(same_index(yagmurzol_ask(block, length), answer), "asked again it answers the same");
    return both;
}

static void *room_for(size_t size)
{
    void *room = calloc(size > 0 ? size : 1, 1);
    hold(room != NULL, "there is memory");
    return room;
}

/* In memory of just that size, `before` bytes after its start, so that its address can be an odd one. Other speeds are tried there. */
static struct answers ask_in_heap(const uint8_t *piece, size_t length, size_t before)
{
    uint8_t *lent = room_for(before + length);
    if (length > 0)
        memcpy(lent + before, piece, length);
    struct answers answer = ask(lent + before, length);
    if (before > 0)
        ask_with_others(lent + before, length, answer);
    hold(length == 0 || memcmp(lent + before, piece, length) == 0, "the lent bytes are unchanged");
    free(lent);
    return answer;
}

/* In memory that can't be written, first its last bytes and then its first ones beside memory that can't even be read. */
static void ask_read_only(const uint8_t *piece, size_t length, struct answers right)
{
    static uint8_t *rooms;
    if (rooms == NULL) {
        rooms = mmap(NULL, 3 * ROOM, PROT_NONE, MAP_PRIVATE | MAP_ANONYMOUS, -1, 0);
        hold(rooms != MAP_FAILED, "there is memory to protect");
    }
    uint8_t *first = rooms + ROOM, *last = rooms + 2 * ROOM - length;
    hold(length <= ROOM / 2, "the piece is not too long for this caller");
    hold(mprotect(first, ROOM, PROT_READ | PROT_WRITE) == 0, "memory can be opened");
    if (length > 0) {
        memcpy(first, piece, length);
        memcpy(last, piece, length);
    }
    hold(mprotect(first, ROOM, PROT_READ) == 0, "memory can be closed");
    hold(same(ask(last, length), right), "the answer is the same at the end of readable memory");
    hold(same(ask(first, length), right), "the answer is the same at the start of readable memory");
}

/* The answer doesn't depend on how the caller rounds its own doubles, and leaves that as it was. */
static void ask_in_every_rounding(const uint8_t *piece, size_t length, struct answers right)
{
    static const int ways[] = {FE_DOWNWARD, FE_UPWARD, FE_TOWARDZERO};
    for (size_t way = 0; way < sizeof ways / sizeof *ways; way++) {
        fesetround(ways[way]);
        struct yagmurzol_answer answer = yagmurzol_ask(piece, length);
        struct yagmurzol_pair pair = yagmurzol_doubles(piece, length);
        struct yagmurzol_speed_answer speed = yagmurzol_speeds(piece, length);
        struct yagmurzol_answer later = yagmurzol_index(piece, length, right.speed.most, right.speed.least);
        int after = fegetround();
        fesetround(FE_TONEAREST);
        hold(after == ways[way], "the way of rounding is the caller's own");
        hold(same_index(answer, right.index) && same_pair(pair, right.index.pair), "the answer is the same in every way of rounding");
        hold(same_speed(speed, right.speed) && same_index(later, right.index), "both steps are the same in every way of rounding");
    }
}

/* Any single byte changed on the way is refusal 2, at the same address too; put right again, the answer is the old one. */
static void ask_changed(uint8_t *piece, size_t length, struct answers right)
{
    if (length != YAGMURZOL_BLOCK || right.index.refusal == YAGMURZOL_CHECK)
        return;
    piece[number % YAGMURZOL_BLOCK] ^= 1;
    hold(ask(piece, length).index.refusal == YAGMURZOL_CHECK, "a changed byte is refusal 2");
    piece[number % YAGMURZOL_BLOCK] ^= 1;
    hold(same(ask(piece, length), right), "the byte put right, the answer is the old one");
}

/* More than four gigabytes that begin with a block: a length cut to 32 bits would be 512. Only its first page is ever written. */
static void ask_four_gigabytes(const uint8_t *block)
{
    size_t length = ((size_t)1 << 32) + YAGMURZOL_BLOCK;
    uint8_t *lent = mmap(NULL, length, PROT_READ, MAP_PRIVATE | MAP_ANONYMOUS | MAP_NORESERVE, -1, 0);
    hold(lent != MAP_FAILED && mprotect(lent, ROOM, PROT_READ | PROT_WRITE) == 0, "there is room for so many addresses");
    memcpy(lent, block, YAGMURZOL_BLOCK);
    ask(lent, length);
    munmap(lent, length);
}

static void print_lines(const uint8_t *piece, struct answers answer)
{
    if (answer.index.refusal != YAGMURZOL_NONE) {
        printf("%lu refused %u\n%lu refused %u\n", number, answer.index.refusal, number, answer.speed.refusal);
        return;
    }
    uint32_t imo = piece[4] | (uint32_t)piece[5] << 8 | (uint32_t)piece[6] << 16 | (uint32_t)piece[7] << 24;
    struct yagmurzol_knots most = answer.speed.most, least = answer.speed.least;
    printf("%lu %" PRIu32 " %" PRIu64 " %" PRIu64 "\n", number, imo, answer.index.lower, answer.index.upper);
    printf("%lu %" PRIu32 " %" PRIu64 " %" PRIu64, number, imo, most.lower, most.upper);
    printf(" %" PRIu64 " %" PRIu64 "\n", least.lower, least.upper);
}

static void answer_piece(uint8_t *piece, size_t length)
{
    static int asked_of_many;
    struct answers answer = ask_in_heap(piece, length, 0);
    hold(same(ask_in_heap(piece, length, 1 + number % 15), answer), "the answer is the same at every address");
    hold(length > 0 || same(ask(NULL, 0), answer), "the answer is the same of no bytes at a null pointer");
    ask_read_only(piece, length, answer);
    ask_in_every_rounding(piece, length, answer);
    ask_changed(piece, length, answer);
    print_lines(piece, answer);
    if (answer.index.refusal != YAGMURZOL_NONE)
        return;
    memcpy(other_block, piece, sizeof other_block);
    other_speed = answer.speed;
    if (!asked_of_many)
        ask_four_gigabytes(piece);
    asked_of_many = 1;
}

/* A struct behind a single byte stands as far on as its alignment says. */
#define BESIDE(name) offsetof(struct { uint8_t byte; struct yagmurzol_##name its; }, its)
#define PLACE(name, part) offsetof(struct yagmurzol_##name, part)

static void print_shape(const char *name, size_t size, size_t aligned, const size_t *parts, size_t count)
{
    printf("%s %zu by %zu:", name, size, aligned);
    for (size_t part = 0; part < count; part++)
        printf(" %zu", parts[part]);
    putchar('\n');
}

static void print_shapes(void)
{
    const size_t answer[] = {PLACE(answer, refusal), PLACE(answer, lower), PLACE(answer, upper), PLACE(answer, pair)};
    const size_t pair[] = {PLACE(pair, lower), PLACE(pair, upper)};
    const size_t speed[] = {PLACE(speed_answer, refusal), PLACE(speed_answer, most), PLACE(speed_answer, least)};
    const size_t knots[] = {PLACE(knots, lower), PLACE(knots, upper)};
    print_shape("answer", sizeof(struct yagmurzol_answer), BESIDE(answer), answer, 4);
    print_shape("pair", sizeof(struct yagmurzol_pair), BESIDE(pair), pair, 2);
    print_shape("speed_answer", sizeof(struct yagmurzol_speed_answer), BESIDE(speed_answer), speed, 3);
    print_shape("knots", sizeof(struct yagmurzol_knots), BESIDE(knots), knots, 2);
}

int main(int count, char **arguments)
{
    if (count < 2) {
        print_shapes();
        return 0;
    }
    FILE *file = fopen(arguments[1], "rb");
    hold(file != NULL, "the file of pieces can be read");
    other_speed = yagmurzol_speeds(other_block, sizeof other_block);
    uint8_t head[4];
    for (number = 0; fread(head, 1, sizeof head, file) == sizeof head; number++) {
        size_t length = head[0] | (size_t)head[1] << 8 | (size_t)head[2] << 16 | (size_t)head[3] << 24;
        uint8_t *piece = room_for(length);
        hold(fread(piece, 1, length, file) == length, "the piece is whole");
        answer_piece(piece, length);
        free(piece);
    }
    fclose(file);
    return 0;
}
