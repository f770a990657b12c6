/* The desk in two steps. The first settles the speed: it prints the four bounds of the block in a file, those of the most favourable ship
   and of the least favourable, in millionths of a knot. The second, at any time later, is given them and prints the index.
     settled FILE
     settled FILE LOWER UPPER LOWER UPPER
   Ends with 0 where there are bounds, 1 where there is a refusal, 2 where the file can't be read or a figure is none. */
#include "yagmurzol.h"

#include <errno.h>
#include <inttypes.h>
#include <stdio.h>
#include <stdlib.h>
#include <string.h>

/* The block; one byte more, so that a longer file is refused, not cut. Returns 0 where the file can't be read. */
static int read_block(const char *name, uint8_t *block, size_t *length)
{
    FILE *file = fopen(name, "rb");
    int right = 0;
    if (file != NULL) {
        *length = fread(block, 1, YAGMURZOL_BLOCK + 1, file);
        right = !ferror(file);
        fclose(file);
    }
    if (!right)
        perror(name);
    return right;
}

/* A whole number of 64 bits: digits and nothing else. */
static int read_figure(const char *word, uint64_t *figure)
{
    char *end;
    errno = 0;
    *figure = strtoumax(word, &end, 10);
    if (*word != '\0' && strspn(word, "0123456789") == strlen(word) && errno == 0)
        return 1;
    fprintf(stderr, "settled: '%s' is no figure\n", word);
    return 0;
}

static int refused(unsigned refusal)
{
    printf("refused %u\n", refusal);
    return 1;
}

static int settle(const uint8_t *block, size_t length)
{
    struct yagmurzol_speed_answer speeds = yagmurzol_speeds(block, length);
    if (speeds.refusal != YAGMURZOL_NONE)
        return refused(speeds.refusal);
    printf("%" PRIu64 " %" PRIu64 " %" PRIu64 " %" PRIu64 "\n", speeds.most.lower, speeds.most.upper, speeds.least.lower, speeds.least.upper);
    return 0;
}

static int attain(const uint8_t *block, size_t length, struct yagmurzol_knots most, struct yagmurzol_knots least)
{
    struct yagmurzol_answer answer = yagmurzol_index(block, length, most, least);
    if (answer.refusal != YAGMURZOL_NONE)
        return refused(answer.refusal);
    printf("at least %" PRIu64 ".%06" PRIu64 ", at most %" PRIu64 ".%06" PRIu64 " g CO2/(t nm)\n", answer.lower / 1000000,
           answer.lower % 1000000, answer.upper / 1000000, answer.upper % 1000000);
    return 0;
}

int main(int count, char **words)
{
    uint8_t block[YAGMURZOL_BLOCK + 1];
    size_t length;
    struct yagmurzol_knots most, least;
    if (count != 2 && count != 6) {
        fprintf(stderr, "usage: settled FILE [LOWER UPPER LOWER UPPER]\n");
        return 2;
    }
    if (count == 6 && !(read_figure(words[2], &most.lower) && read_figure(words[3], &most.upper) && read_figure(words[4], &least.lower)
                        && read_figure(words[5], &least.upper)))
        return 2;
    if (!read_block(words[1], block, &length))
        return 2;
    return count == 2 ? settle(block, length) : attain(block, length, most, least);
}
