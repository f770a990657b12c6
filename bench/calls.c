/* Asks the library about each block of a file, all of which is in memory: in one call of yagmurzol_ask, and in two steps,
 * yagmurzol_speeds and yagmurzol_index with what that gave.
 *   calls FILE   prints a line for each way: the nanoseconds that all calls took, and the sums of the refusals, of the lower and of the
 *                upper bounds, by which the benchmark sees that the answers were right */
#define _POSIX_C_SOURCE 200112L
#include <inttypes.h>
#include <stdio.h>
#include <stdlib.h>
#include <time.h>

#include "yagmurzol.h"

/* As many blocks as `fleet` reads. */
#define MOST ((size_t)65536)

static int64_t nanoseconds(void)
{
    struct timespec now;
    clock_gettime(CLOCK_MONOTONIC, &now);
    return (int64_t)now.tv_sec * 1000000000 + now.tv_nsec;
}

static struct yagmurzol_answer in_one_call(const uint8_t *block)
{
    return yagmurzol_ask(block, YAGMURZOL_BLOCK);
}

static struct yagmurzol_answer in_two_steps(const uint8_t *block)
{
    struct yagmurzol_speed_answer speeds = yagmurzol_speeds(block, YAGMURZOL_BLOCK);
    return yagmurzol_index(block, YAGMURZOL_BLOCK, speeds.most, speeds.least);
}

static void ask_all(struct yagmurzol_answer ask(const uint8_t *), const uint8_t *bytes, size_t blocks)
{
    uint64_t refusals = 0, lower = 0, upper = 0;
    int64_t begun = nanoseconds();
    for (size_t block = 0; block < blocks; block++) {
        struct yagmurzol_answer answer = ask(bytes + block * YAGMURZOL_BLOCK);
        refusals += answer.refusal;
        lower += answer.lower;
        upper += answer.upper;
    }
    int64_t took = nanoseconds() - begun;
    printf("%" PRId64 " %" PRIu64 " %" PRIu64 " %" PRIu64 "\n", took, refusals, lower, upper);
}

int main(int count, char **arguments)
{
    FILE *file = count == 2 ? fopen(arguments[1], "rb") : NULL;
    uint8_t *bytes = calloc(MOST, YAGMURZOL_BLOCK);
    if (file == NULL || bytes == NULL)
        return 1;
    size_t blocks = fread(bytes, YAGMURZOL_BLOCK, MOST, file);
    ask_all(in_one_call, bytes, blocks);
    ask_all(in_two_steps, bytes, blocks);
    fclose(file);
    free(bytes);
    return 0;
}
