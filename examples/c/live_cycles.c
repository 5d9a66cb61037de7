/*
 * Tracks a stream of upstream events, takes some of them back and prints after each how many cycles are live and how many have ended, and
 * the live ones: the Abelian periods (h, p) of the events so far, a head of h events and blocks of p events with the same mix of letters. In
 * the stream - takes back the last event and ! starts anew.
 */
#include <stdio.h>

#include "luffbutton.h"

static struct luff_tracker tracker;
static uint32_t cycles[LUFF_MOST_PERIODS];

/* Prints the letters held, the totals that the tracker keeps, and the live cycles, head first. */
static void print_live(void)
{
    struct luff_wrote list = luff_tracker_list(&tracker, cycles, LUFF_MOST_PERIODS);
    if (list.refusal != LUFF_ACCEPTED) {
        printf("not listed\n");
        return;
    }
    printf("%.*s: %zu live, %zu ended:", (int)tracker.length, (const char *)tracker.bytes, tracker.live, tracker.ended);
    for (size_t i = 0; i < list.written; i++) {
        printf(" (%u,%u)", (unsigned)LUFF_WORD_LOWER(cycles[i]), (unsigned)LUFF_WORD_UPPER(cycles[i]));
    }
    printf("\n");
}

/* Takes one event of the stream. */
static struct luff_outcome take(uint8_t event)
{
    if (event == '-') {
        return luff_tracker_take_back(&tracker);
    }
    if (event == '!') {
        return luff_tracker_clear(&tracker);
    }
    return luff_tracker_add(&tracker, event);
}

int main(void)
{
    static const char stream[] = "-abb-ba?!abaababa";
    luff_tracker_fresh(&tracker);
    for (size_t i = 0; stream[i] != '\0'; i++) {
        struct luff_outcome outcome = take((uint8_t)stream[i]);
        printf("%c ", stream[i]);
        if (outcome.refusal != LUFF_ACCEPTED) {
            printf("refused %zu %zu, ", outcome.refusal, outcome.value);
        }
        print_live();
    }
    return 0;
}
