/* Each call, with the words of documents 01 and 02: its refusal, the value of that, its other numbers and what it writes. */
#include <stdio.h>
#include <string.h>

#include "luffbutton.h"

#define PLACES 20

static uint32_t out[PLACES];
static struct luff_tracker tracker;

static const uint8_t *bytes(const char *word)
{
    return (const uint8_t *)word;
}

/*
 * Prints the numbers of an output word: kind, upper and lower number; of a run's second word kind, end, left and right hand; of a window's
 * word kind and start; of a square-free word's kind and number.
 */
static void print_word(uint32_t word)
{
    printf(" %u", (unsigned)LUFF_WORD_KIND(word));
    if (LUFF_WORD_KIND(word) == LUFF_KIND_HANDS) {
        printf("/%u/%u/%u", (unsigned)LUFF_RUN_END(word), (unsigned)LUFF_RUN_LEFT(word), (unsigned)LUFF_RUN_RIGHT(word));
    } else if (LUFF_WORD_KIND(word) == LUFF_KIND_WINDOW) {
        printf("/%u", (unsigned)LUFF_WINDOW_START(word));
    } else if (LUFF_WORD_KIND(word) == LUFF_KIND_SQUARE_FREE) {
        printf("/%u", (unsigned)LUFF_SQUARE_FREE_NUMBER(word));
    } else {
        printf("/%u/%u", (unsigned)LUFF_WORD_UPPER(word), (unsigned)LUFF_WORD_LOWER(word));
    }
}

/* Prints the words of a list. */
static void print_words(size_t written)
{
    for (size_t i = 0; i < written; i++) {
        print_word(out[i]);
    }
    printf("\n");
}

static void judge(const char *word, size_t h, size_t p)
{
    struct luff_head head = {h};
    struct luff_period period = {p};
    struct luff_verdict x = luff_judge(bytes(word), strlen(word), head, period);
    printf("judge %s (%zu,%zu): %zu %zu, yes %zu block %zu letter %zu\n", word, h, p, x.refusal, x.value, x.yes, x.block, x.letter);
}

static void list_periods(const char *word)
{
    struct luff_listed x = luff_list_plain(bytes(word), strlen(word), out, PLACES);
    printf("plain %s: %zu %zu, trials %zu:", word, x.refusal, x.value, x.trials);
    print_words(x.written);
    x = luff_list_skipping(bytes(word), strlen(word), out, PLACES);
    printf("skipping %s: %zu %zu, trials %zu:", word, x.refusal, x.value, x.trials);
    print_words(x.written);
}

/* Prints a list's answer, behind what was printed of the line before. */
static void print_list(struct luff_wrote x)
{
    printf("%zu %zu:", x.refusal, x.value);
    print_words(x.written);
}

static void list_full(const char *word)
{
    printf("full %s: ", word);
    print_list(luff_list_full(bytes(word), strlen(word), out, PLACES));
    struct luff_scaled x = luff_list_full_scaled(bytes(word), strlen(word), out, PLACES);
    printf("scaled %s: %zu %zu, s %zu T %zu:", word, x.refusal, x.value, x.s, x.t);
    print_words(x.written);
}

static void list_squares(const char *word)
{
    printf("squares %s: ", word);
    print_list(luff_list_squares(bytes(word), strlen(word), out, PLACES));
}

static void list_runs(const char *word, size_t places)
{
    printf("runs %s, %zu places: ", word, places);
    print_list(luff_list_runs(bytes(word), strlen(word), out, places));
}

static void find_cover(const char *word)
{
    struct luff_cover x = luff_find_cover(bytes(word), strlen(word));
    printf("cover %s: %zu %zu, yes %zu length %zu\n", word, x.refusal, x.value, x.yes, x.length);
}

static void report(const char *word, size_t places)
{
    printf("report %s, %zu places: ", word, places);
    print_list(luff_report(bytes(word), strlen(word), out, places));
}

/* Prints a count's answer, behind what was printed of the line before. */
static void print_counted(const char *name, struct luff_counted x)
{
    printf(", %s %zu %zu %zu", name, x.refusal, x.value, x.words);
}

static void count(const char *word)
{
    const uint8_t *letters = bytes(word);
    size_t n = strlen(word);
    printf("counts %s", word);
    print_counted("plain", luff_count_plain(letters, n));
    print_counted("skipping", luff_count_skipping(letters, n));
    print_counted("full", luff_count_full(letters, n));
    print_counted("scaled", luff_count_full_scaled(letters, n));
    print_counted("squares", luff_count_squares(letters, n));
    print_counted("runs", luff_count_runs(letters, n));
    print_counted("report", luff_count_report(letters, n));
    printf("\n");
}

static void list_windows(const char *pattern, const char *record, size_t places)
{
    printf("windows %s in %s, %zu places: ", pattern, record, places);
    print_list(luff_list_windows(bytes(pattern), strlen(pattern), bytes(record), strlen(record), out, places));
}

static void count_windows(const char *pattern, const char *record)
{
    printf("counts %s in %s", pattern, record);
    print_counted("windows", luff_count_windows(bytes(pattern), strlen(pattern), bytes(record), strlen(record)));
    printf("\n");
}

/* The longest record, of a and at its end b: a start that takes more than 14 bits. The pattern is a part of the record. */
static void list_last_window(void)
{
    static uint8_t record[LUFF_LONGEST_RECORD];
    const uint8_t *last = record + LUFF_LONGEST_RECORD - 1;
    memset(record, 'a', LUFF_LONGEST_RECORD);
    record[LUFF_LONGEST_RECORD - 1] = 'b';
    printf("windows b in the longest record, %d places: ", PLACES);
    print_list(luff_list_windows(last, 1, record, LUFF_LONGEST_RECORD, out, PLACES));
}

/* Prints the n letters of a square-free word over the first k letters, from its output word. */
static void print_letters(uint32_t word, size_t k, size_t n)
{
    char letters[LUFF_LONGEST_SQUARE_FREE + 1] = {0};
    size_t number = LUFF_SQUARE_FREE_NUMBER(word);
    for (size_t i = n; i > 0; i--) {
        letters[i - 1] = (char)(LUFF_FIRST_LETTER + number % k);
        number /= k;
    }
    printf(" \"%s\"", letters);
}

static void list_square_free(size_t k, size_t n, size_t places)
{
    struct luff_alphabet alphabet = {k};
    struct luff_length length = {n};
    struct luff_wrote x = luff_list_square_free(alphabet, length, out, places);
    printf("square-free %zu %zu, %zu places: ", k, n, places);
    print_list(x);
    if (x.written > 0) {
        printf("letters:");
        for (size_t i = 0; i < x.written; i++) {
            print_letters(out[i], k, n);
        }
        printf("\n");
    }
}

static void count_square_free(size_t k, size_t n)
{
    struct luff_alphabet alphabet = {k};
    struct luff_length length = {n};
    printf("counts %zu %zu", k, n);
    print_counted("square-free", luff_count_square_free(alphabet, length));
    printf("\n");
}

static void list_tracker(const char *name)
{
    printf("%s %.*s: list ", name, (int)tracker.length, (const char *)tracker.bytes);
    print_list(luff_tracker_list(&tracker, out, PLACES));
    printf("%s %.*s", name, (int)tracker.length, (const char *)tracker.bytes);
    print_counted("count", luff_tracker_count(&tracker));
    printf(", live %zu, ended %zu\n", tracker.live, tracker.ended);
}

static void print_outcome(const char *name, struct luff_outcome x)
{
    printf("%s: %zu %zu\n", name, x.refusal, x.value);
}

static void track(void)
{
    luff_tracker_fresh(&tracker);
    list_tracker("fresh");
    print_outcome("add a", luff_tracker_add(&tracker, 'a'));
    print_outcome("add b", luff_tracker_add(&tracker, 'b'));
    print_outcome("add b", luff_tracker_add(&tracker, 'b'));
    print_outcome("add A", luff_tracker_add(&tracker, 'A'));
    list_tracker("tracker");
    print_outcome("take-back", luff_tracker_take_back(&tracker));
    list_tracker("tracker");
    print_outcome("clear", luff_tracker_clear(&tracker));
    print_outcome("take-back", luff_tracker_take_back(&tracker));
}

static void replay(const char *calls, size_t places)
{
    struct luff_replayed x = luff_tracker_replay(&tracker, bytes(calls), strlen(calls), out, places);
    printf("replay %s, %zu places: %zu %zu, refused %zu, holds %.*s, live %zu, ended %zu:", calls, places, x.refusal, x.value, x.refused,
           (int)tracker.length, (const char *)tracker.bytes, tracker.live, tracker.ended);
    print_words(x.written);
}

int main(void)
{
    judge("abaababa", 1, 2);
    judge("abaababa", 0, 4);
    judge("aa", 1, 1);
    judge("zya", 1, 2);
    list_periods("abba");
    list_periods("aqa");
    list_full("abba");
    list_full("aabb");
    list_squares("abba");
    list_runs("abaababa", PLACES);
    list_runs("abaababa", 9);
    find_cover("abba");
    find_cover("aaab");
    find_cover("aBc");
    find_cover("az{");
    report("abb", PLACES);
    report("abb", 3);
    report("abba", PLACES);
    report("a", PLACES);
    report("aa", PLACES);
    count("abaababa");
    count("aa");
    count("aBc");
    list_windows("ab", "abbaab", PLACES);
    list_windows("ab", "abbaab", 2);
    list_windows("", "abbaab", PLACES);
    list_last_window();
    count_windows("ab", "abbaab");
    count_windows("ab", "abB");
    list_square_free(2, 3, PLACES);
    list_square_free(2, 3, 1);
    list_square_free(3, 3, PLACES);
    list_square_free(4, 0, PLACES);
    list_square_free(2, 4, PLACES);
    list_square_free(5, 13, PLACES);
    count_square_free(2, 3);
    count_square_free(LUFF_LARGEST_ALPHABET, LUFF_LONGEST_SQUARE_FREE);
    count_square_free(LUFF_LARGEST_ALPHABET, LUFF_LONGEST_SQUARE_FREE + 1);
    track();
    replay("-ab!?abb-", PLACES);
    replay("aaaa", 5);
    replay("qz`q{", PLACES);
    return 0;
}
