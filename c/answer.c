/* Prints the desk's answer to the block in a file.
   Ends with 0 where there are bounds, 1 where the block is refused, 2 where the file can't be read.   answer FILE */
#include "yagmurzol.h"

#include <inttypes.h>
#include <stdio.h>

int main(int count, char **words)
{
    if (count != 2) {
        fprintf(stderr, "usage: answer FILE\n");
        return 2;
    }
    FILE *file = fopen(words[1], "rb");
    if (file == NULL) {
        perror(words[1]);
        return 2;
    }
    /* One byte more than a block, so that a longer file is refused, not cut. */
    uint8_t block[YAGMURZOL_BLOCK + 1];
    size_t length = fread(block, 1, sizeof block, file);
    if (ferror(file)) {
        perror(words[1]);
        return 2;
    }
    fclose(file);

    struct yagmurzol_answer answer = yagmurzol_ask(block, length);
    if (answer.refusal != YAGMURZOL_NONE) {
        printf("refused %u\n", (unsigned)answer.refusal);
        return 1;
    }
    printf("at least %" PRIu64 ".%06" PRIu64 ", at most %" PRIu64 ".%06" PRIu64 " g CO2/(t nm)\n", answer.lower / 1000000,
           answer.lower % 1000000, answer.upper / 1000000, answer.upper % 1000000);
    return 0;
}
