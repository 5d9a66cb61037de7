/*
 * How much stack each call takes, held against the header's limit. A call is made on a stack of its own that was painted before: the lowest
 * byte that is no longer painted is the lowest that was used, and from that comes off what is used there without a call. Each call is made
 * in several ways, on words and records of the greatest length, on trackers that hold as many letters as the call can take, and for the
 * longest square-free words, a list, an add and a take-back also refused; the one that takes most counts. A record and a tracker are lent by
 * the caller and are not part of it.
 * Prints for each call whether it is within its limit; with an argument it prints the bytes too. The exit status is 1 where a call is above
 * its limit.
 */
#define _XOPEN_SOURCE 600
#include <stdio.h>
#include <stdlib.h>
#include <string.h>
#include <ucontext.h>

#include "luffbutton.h"

#define STACK (1u << 20)
#define PAINT 0xa5
#define NOT_A_LETTER '?'

/*
 * The words and the records: each is one of these blocks of letters, over and over; the last is all letters, written at the start. The word
 * is also the pattern that is looked for in the record, which has room for one letter too many.
 */
static char all_letters[LUFF_LETTERS + 1];
static const char *const blocks[] = {"ab", "a", "ab", "abaababa", all_letters};
static uint8_t word[LUFF_LONGEST];
static uint8_t record[LUFF_LONGEST_RECORD + 1];

/* How many places a list of windows, or of square-free words, gets: enough for every list, as many as it needs, or one fewer. */
enum lent {
    ENOUGH,
    NEEDED,
    TOO_FEW
};

/*
 * What the calls are made with: how many places, how many letters the tracker holds, whether the byte added is a letter, for windows how
 * many letters of the record, for square-free words their alphabet and their length, and for both how many places.
 */
struct way {
    size_t places;
    size_t held;
    uint8_t letter;
    size_t record_letters;
    struct luff_alphabet alphabet;
    struct luff_length length;
    enum lent lent;
};
static const struct way ways[] = {
    {LUFF_MOST_REPORT, LUFF_LONGEST - 1, 'a', LUFF_LONGEST_RECORD, {LUFF_LARGEST_ALPHABET}, {LUFF_LONGEST_SQUARE_FREE}, ENOUGH},
    {LUFF_MOST_REPORT - 1, LUFF_LONGEST, 'a', LUFF_LONGEST_RECORD, {LUFF_LARGEST_ALPHABET}, {LUFF_LONGEST_SQUARE_FREE}, NEEDED},
    {LUFF_MOST_REPORT, LUFF_LONGEST - 1, 'b', LUFF_LONGEST_RECORD, {LUFF_LARGEST_ALPHABET}, {LUFF_LONGEST_SQUARE_FREE}, TOO_FEW},
    {0, LUFF_LONGEST - 1, NOT_A_LETTER, LUFF_LONGEST_RECORD + 1, {LUFF_LARGEST_ALPHABET + 1}, {LUFF_LONGEST_SQUARE_FREE}, ENOUGH},
    {0, 0, NOT_A_LETTER, LUFF_LONGEST - 1, {LUFF_LARGEST_ALPHABET}, {LUFF_LONGEST_SQUARE_FREE + 1}, ENOUGH},
};
static struct way way;

/* The places that the way lends to a list of windows, and to one of square-free words, in number. */
static size_t window_places, square_free_places;

/* Room for the longest list, which is that of windows. */
static uint32_t out[LUFF_MOST_WINDOWS];
static struct luff_tracker tracker;

static void none(void)
{
}

static void judge(void)
{
    struct luff_head head = {3};
    struct luff_period period = {8};
    luff_judge(word, LUFF_LONGEST, head, period);
}

static void list_plain(void)
{
    luff_list_plain(word, LUFF_LONGEST, out, way.places);
}

static void list_skipping(void)
{
    luff_list_skipping(word, LUFF_LONGEST, out, way.places);
}

static void list_full(void)
{
    luff_list_full(word, LUFF_LONGEST, out, way.places);
}

static void list_full_scaled(void)
{
    luff_list_full_scaled(word, LUFF_LONGEST, out, way.places);
}

static void list_squares(void)
{
    luff_list_squares(word, LUFF_LONGEST, out, way.places);
}

static void list_runs(void)
{
    luff_list_runs(word, LUFF_LONGEST, out, way.places);
}

static void list_windows(void)
{
    luff_list_windows(word, LUFF_LONGEST, record, way.record_letters, out, window_places);
}

static void list_square_free(void)
{
    luff_list_square_free(way.alphabet, way.length, out, square_free_places);
}

static void count_plain(void)
{
    luff_count_plain(word, LUFF_LONGEST);
}

static void count_skipping(void)
{
    luff_count_skipping(word, LUFF_LONGEST);
}

static void count_full(void)
{
    luff_count_full(word, LUFF_LONGEST);
}

static void count_full_scaled(void)
{
    luff_count_full_scaled(word, LUFF_LONGEST);
}

static void count_squares(void)
{
    luff_count_squares(word, LUFF_LONGEST);
}

static void count_runs(void)
{
    luff_count_runs(word, LUFF_LONGEST);
}

static void count_windows(void)
{
    luff_count_windows(word, LUFF_LONGEST, record, way.record_letters);
}

static void count_square_free(void)
{
    luff_count_square_free(way.alphabet, way.length);
}

static void count_report(void)
{
    luff_count_report(word, LUFF_LONGEST);
}

static void find_cover(void)
{
    luff_find_cover(word, LUFF_LONGEST);
}

static void report(void)
{
    luff_report(word, LUFF_LONGEST, out, way.places);
}

static void fresh(void)
{
    luff_tracker_fresh(&tracker);
}

static void add(void)
{
    luff_tracker_add(&tracker, way.letter);
}

static void take_back(void)
{
    luff_tracker_take_back(&tracker);
}

static void clear(void)
{
    luff_tracker_clear(&tracker);
}

static void list(void)
{
    luff_tracker_list(&tracker, out, way.places);
}

static void count(void)
{
    luff_tracker_count(&tracker);
}

/* The letters of the word, then a take-back, a byte that may be refused, a letter and one more, which is refused. */
static void replay(void)
{
    static uint8_t calls[LUFF_LONGEST + 4];
    memcpy(calls, word, LUFF_LONGEST);
    calls[LUFF_LONGEST] = LUFF_CALL_TAKE_BACK;
    calls[LUFF_LONGEST + 1] = way.letter;
    calls[LUFF_LONGEST + 2] = word[0];
    calls[LUFF_LONGEST + 3] = word[0];
    luff_tracker_replay(&tracker, calls, sizeof calls, out, way.places);
}

/* Each call, and the stack that the header says it takes at most. */
static const struct {
    const char *name;
    void (*make)(void);
    size_t limit;
} calls[] = {
    {"judge", judge, LUFF_STACK_JUDGE},
    {"list_plain", list_plain, LUFF_STACK_LIST_PLAIN},
    {"list_skipping", list_skipping, LUFF_STACK_LIST_SKIPPING},
    {"list_full", list_full, LUFF_STACK_LIST_FULL},
    {"list_full_scaled", list_full_scaled, LUFF_STACK_LIST_FULL_SCALED},
    {"list_squares", list_squares, LUFF_STACK_LIST_SQUARES},
    {"list_runs", list_runs, LUFF_STACK_LIST_RUNS},
    {"list_windows", list_windows, LUFF_STACK_LIST_WINDOWS},
    {"list_square_free", list_square_free, LUFF_STACK_LIST_SQUARE_FREE},
    {"find_cover", find_cover, LUFF_STACK_FIND_COVER},
    {"report", report, LUFF_STACK_REPORT},
    {"count_plain", count_plain, LUFF_STACK_LIST_PLAIN},
    {"count_skipping", count_skipping, LUFF_STACK_LIST_SKIPPING},
    {"count_full", count_full, LUFF_STACK_LIST_FULL},
    {"count_full_scaled", count_full_scaled, LUFF_STACK_LIST_FULL_SCALED},
    {"count_squares", count_squares, LUFF_STACK_LIST_SQUARES},
    {"count_runs", count_runs, LUFF_STACK_LIST_RUNS},
    {"count_windows", count_windows, LUFF_STACK_LIST_WINDOWS},
    {"count_square_free", count_square_free, LUFF_STACK_LIST_SQUARE_FREE},
    {"count_report", count_report, LUFF_STACK_REPORT},
    {"fresh", fresh, LUFF_STACK_TRACKER},
    {"add", add, LUFF_STACK_TRACKER},
    {"take_back", take_back, LUFF_STACK_TRACKER},
    {"clear", clear, LUFF_STACK_TRACKER},
    {"list", list, LUFF_STACK_TRACKER},
    {"count", count, LUFF_STACK_TRACKER},
    {"replay", replay, LUFF_STACK_TRACKER},
};

/* The bytes used of a stack of its own on which the function runs. */
static size_t used(void (*make)(void), uint8_t *stack)
{
    ucontext_t here, there;
    size_t untouched = 0;
    memset(stack, PAINT, STACK);
    if (getcontext(&there) != 0) {
        exit(1);
    }
    there.uc_stack.ss_sp = stack;
    there.uc_stack.ss_size = STACK;
    there.uc_link = &here;
    makecontext(&there, make, 0);
    if (swapcontext(&here, &there) != 0) {
        exit(1);
    }
    while (untouched < STACK && stack[untouched] == PAINT) {
        untouched++;
    }
    return STACK - untouched;
}

/* The places that the way lends to a list that needs so many: where it is one place too few, the list needs one or more. */
static size_t lent_places(size_t needed)
{
    return way.lent == ENOUGH ? sizeof out / sizeof out[0] : way.lent == NEEDED ? needed : needed - 1;
}

/*
 * The word and the record are the block over and over, and the tracker holds the first letters of the word. The record begins with the word,
 * so that a record of the greatest length has one window or more.
 */
static void prepare(const char *block)
{
    size_t letters = strlen(block);
    for (size_t i = 0; i < sizeof record; i++) {
        record[i] = (uint8_t)block[i % letters];
    }
    memcpy(word, record, LUFF_LONGEST);
    window_places = lent_places(luff_count_windows(word, LUFF_LONGEST, record, way.record_letters).words);
    square_free_places = lent_places(luff_count_square_free(way.alphabet, way.length).words);
    luff_tracker_fresh(&tracker);
    for (size_t i = 0; i < way.held; i++) {
        luff_tracker_add(&tracker, word[i]);
    }
}

/*
 * The most that a call takes, over all words and ways, beyond what the stack has on it by itself. The first word does not count: where the
 * program is linked with a shared C library, a function of that is looked up at its first call, and that takes stack too.
 */
static size_t most_used(void (*make)(void), uint8_t *stack)
{
    size_t most = 0, alone = used(none, stack);
    for (size_t i = 0; i < sizeof blocks / sizeof blocks[0]; i++) {
        for (size_t j = 0; j < sizeof ways / sizeof ways[0]; j++) {
            way = ways[j];
            prepare(blocks[i]);
            size_t bytes = used(make, stack) - alone;
            most = i > 0 && bytes > most ? bytes : most;
        }
    }
    return most;
}

int main(int count, char **arguments)
{
    int status = 0;
    uint8_t *stack = malloc(STACK);
    (void)arguments;
    if (stack == NULL) {
        return 1;
    }
    for (int i = 0; i < LUFF_LETTERS; i++) {
        all_letters[i] = (char)(LUFF_FIRST_LETTER + i);
    }
    for (size_t i = 0; i < sizeof calls / sizeof calls[0]; i++) {
        size_t bytes = most_used(calls[i].make, stack);
        printf("%s: %s %zu bytes", calls[i].name, bytes <= calls[i].limit ? "within" : "above", calls[i].limit);
        if (count > 1) {
            printf(", takes %zu", bytes);
        }
        printf("\n");
        status = bytes <= calls[i].limit ? status : 1;
    }
    free(stack);
    return status;
}
