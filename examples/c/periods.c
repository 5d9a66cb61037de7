/*
 * The smallest program: prints the Abelian periods of a word, head and period. It asks how many there are, allocates places for them, and
 * then lists them.
 */
#include <stdio.h>
#include <stdlib.h>

#include "luffbutton.h"

int main(void)
{
    static const uint8_t word[] = {'a', 'b', 'b', 'a'};
    struct luff_counted counted = luff_count_plain(word, sizeof word);
    if (counted.refusal != LUFF_ACCEPTED) {
        return 1;
    }
    /* One place more than needed: the pointer may not be NULL, also where there is nothing to list. */
    uint32_t *out = (uint32_t *)malloc((counted.words + 1) * sizeof *out);
    if (out == NULL) {
        return 1;
    }
    /* This is not refused: the count was accepted, and there are as many places as it said. */
    struct luff_listed listed = luff_list_plain(word, sizeof word, out, counted.words);
    for (size_t i = 0; i < listed.written; i++) {
        printf("(%u, %u)\n", (unsigned)LUFF_WORD_LOWER(out[i]), (unsigned)LUFF_WORD_UPPER(out[i]));
    }
    free(out);
    return 0;
}
