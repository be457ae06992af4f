/* count: reads a handler table from standard input, and prints `rounds` with the number of rounds in which its model is
 * worked out, or `refused` with a number. Exit status: 0 counted, 2 refused, 3 trouble. It is the shortest caller of
 * the archive libanalysis.a, and what ./vangpear --rounds counts by. */
#include "vangpear.h"

#include <stdio.h>

/* One byte more than the largest table: what is longer is refused, whatever comes after. */
#define TABLE_LIMIT 4164u

enum { COUNTED = 0, REFUSED = 2, TROUBLE = 3 };

int main(void)
{
    static uint8_t table[TABLE_LIMIT], model[VANGPEAR_MODEL];
    size_t length = fread(table, 1, sizeof table, stdin);
    if (ferror(stdin)) {
        perror("count: standard input");
        return TROUBLE;
    }
    uint32_t answer = vangpear_rounds(table, length, model, sizeof model);
    if (answer < VANGPEAR_ROUNDS)
        printf("refused %u\n", (unsigned)answer);
    else
        printf("rounds %u\n", (unsigned)VANGPEAR_ROUNDS_NUMBER(answer));
    if (fflush(stdout) != 0) {
        perror("count: standard output");
        return TROUBLE;
    }
    return answer < VANGPEAR_ROUNDS ? REFUSED : COUNTED;
}
