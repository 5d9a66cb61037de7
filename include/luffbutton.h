/*
 * Luffbutton: cycles in event words. It finds the Abelian periods, the full periods, the Abelian squares, the Abelian runs and the covers
 * of a word, the anagrams of a short pattern in a long record, and all words of one length that have no Abelian square, and has a tracker
 * that knows the periods of a word while letters join its end and are taken back.
 *
 * HOW TO LINK. `bin/install PREFIX` puts this header, lib/libluffbutton.a and lib/pkgconfig/luffbutton.pc under PREFIX. With
 * PREFIX/lib/pkgconfig in PKG_CONFIG_PATH:
 *
 *     cc program.c $(pkg-config --cflags --libs luffbutton)
 *
 * The archive is for x86-64 Linux (System V calls, 64-bit size_t). It has twenty-seven functions that can be linked, all with the prefix
 * luff_, and needs two of the C library: memcpy and memset. This header is for C99 or later and for C++.
 *
 * TERMS. A word is n bytes, each a letter: LUFF_FIRST_LETTER and the bytes behind it, LUFF_LETTERS in all, a to z. It has LUFF_LONGEST
 * letters at most and may have none. Positions count from 1. A stretch is letters of the word that stand side by side, or no letters; its
 * counts are the number of a's in it, the number of b's, and so on to z. A stretch is contained in another when none of its counts exceeds
 * the other's count of the same letter, and it has fewer letters.
 *
 * A pair (h, p), the length of a head and the length of a period, is in range for n when p >= 1, h < p and h + p <= n. A pair in range is
 * an Abelian period of the word when the word is a head of h letters, one or more whole blocks of p letters with equal counts, and a tail
 * of the (n - h) mod p letters that are left, head and tail both contained in a block. One block is enough. Of abaababa, (1, 2) is one:
 * a, then ba, ab, ab, then a. Lists of pairs go by rising p, and for one p by rising h.
 *
 * A full period is an Abelian period with h = 0, p dividing n and p < n, so that the word has two blocks or more and nothing else. The pair
 * (0, n) is an Abelian period of every word but the empty one, and n is no full period.
 *
 * A head length h is ruled out when some letter's count in the first h letters, doubled, exceeds its count in the word. Of the others, L(h)
 * is the largest of: h + 1; for each letter that stands in the head, c times, the position of its occurrence number 2c, less h; and half
 * of G + 1, rounded down, where G is the greatest distance between two neighbouring occurrences of one letter, both after position h, or
 * 0. No Abelian period has a head that is ruled out, or a p below L(h).
 *
 * Let g be the greatest common divisor of the letters' counts in the word, and s = n / g. A position k from 0 to n is scaled when s divides
 * k and each letter's count in the first k letters is k / s times its count in the word divided by g. T is the greatest distance between
 * neighbouring scaled positions, divided by s. Of the empty word, s and T are 0.
 *
 * An Abelian square is a start i and a half length q >= 1 with i + 2q - 1 <= n and equal counts of the q letters from i on and of the q
 * letters behind them. A cover is a set of one or more intervals of the word, none the whole word, with equal counts, that together hold
 * every position; a word of fewer than 2 letters has none.
 *
 * A maximal repetition is a stretch i to j of two or more whole blocks of d letters, d >= 1, with equal counts, where the block of d letters
 * before i lies outside the word or differs in its counts, and so does the one after j. Its left and right hands are the longest stretches
 * of the word that end at i - 1 and begin at j + 1 and are contained in a block; a hand may have no letters. An Abelian run is a maximal
 * repetition with its hands. Of abaababa, the run with d = 3 and i = 1 has j = 6, left 0, right 2: aba, aba, then ba.
 *
 * A record is n bytes, each one of the same letters. It has LUFF_LONGEST_RECORD letters at most and may have none; it is no word, and may
 * be longer than one. A pattern is a word of one letter or more that is looked for in a record. A window of it is a stretch of the record
 * that is as long as the pattern and has the same counts, and so is an anagram of it: the pattern with its letters in some order. Its start
 * is the position of its first letter in the record. Windows may overlap. In abbaab, the pattern ab has the windows ab, ba and ab, with the
 * starts 1, 3 and 5.
 *
 * A word is square-free when it has no Abelian square, as the empty word has none. It is a word over the first k letters when it has no
 * other letter than these: aba is one over the first 2, a and b, and so over the first 3 too. The square-free words of 3 letters over the
 * first 2 are aba and bab, and of 4 letters there is none over these. Lists of square-free words are in alphabetical order.
 *
 * The ended length of a pair is the smallest m from h + p to n at which the pair is no Abelian period of the first m letters, or 0 where
 * there is none. A pair that has ended does not become an Abelian period again by more letters.
 *
 * ANSWERS. Each call takes any bytes, any numbers and any number of places, and returns a struct of numbers. `refusal` is 0 where the call
 * is accepted (luff_tracker_fresh, which returns nothing, always is), else one of enum luff_refusal; `value` is the refusal's value, 0
 * where it has none and where the call is accepted. Of a refused call all other numbers are 0, and neither the places nor the tracker are
 * changed. There is one exception: a luff_tracker_replay whose list is refused with 3 has still made its calls. Its tracker is as they
 * leave it, and `refused` says how many of them were refused.
 *
 * COUNTS. Each list call but luff_tracker_replay has a count beside it, luff_count_plain for luff_list_plain and so on, which says how many
 * words that call writes. It goes the same way as the list, but takes no places and writes nothing. It meets every refusal of the list but
 * 3. Where it is accepted, the list is accepted with as many places as it says or more, and with fewer it is refused with 3. So a caller
 * that allocates asks for the count and then makes the list. The list finds its words again, and a luff_report with just as many places
 * counts again too, and so does a luff_list_windows of more than 2,048 words with fewer places than the record has letters, and every
 * luff_list_square_free. Who can spare places enough (LUFF_MOST_.., LUFF_BOUND_RUNS) need not ask.
 *
 * WHAT A CALLER OWES. No pointer is NULL, also not that of an empty word or record or of no places: pass any address of the program's, such
 * as that of a variable of the pointer's type. A pointer leads to as many bytes or places as are said, aligned as its type asks. What a
 * call may write, which is the places and, but for a list or a count, the tracker, overlaps nothing else that is passed to the same call.
 * What is only read may overlap: a pattern may be a part of its record. What stands in the places before a call does not matter.
 *
 * AT THE SAME TIME. The library allocates nothing, keeps nothing between calls and takes no lock. Calls may run at the same time where
 * none writes what another reads or writes: calls on different places and trackers, and also several lists and counts of one tracker,
 * which only read it. An interrupt or a signal handler may make any call, on data that the interrupted program is not using in a call; it
 * needs the stack given below, and the processor's SSE registers, as other code of its platform does. The functions use the 128 bytes below
 * the stack pointer, as System V allows: a signal spares them, and an interrupt handler without an operating system needs a stack of its
 * own.
 *
 * STACK AND TIME. The macros LUFF_STACK_.. below limit the bytes of stack that a call takes beyond the word, the record, the places and the
 * tracker that it is lent. They are measured and not proved: examples/c/stack_use.c makes each call in several ways and fails above them.
 * How the time grows was measured from 120 to 240 letters on words of seven kinds, that of luff_list_runs also on abba repeated, that of
 * luff_report on the six that are not of equal letters, and that of luff_list_windows on records of 1,024 to 65,536 letters, as n to the
 * power (docs/PERFORMANCE.md, which has the times too):
 *
 *     luff_list_plain, luff_list_skipping           1.8 to 2.2
 *     luff_list_squares, luff_report                1.8 to 2.0
 *     luff_list_runs                                1.9 to 2.7
 *     luff_tracker_add, n being the letters held    1.9 to 2.3
 *     luff_list_full                                0.6 to 1.6
 *     luff_find_cover                               1.0
 *     luff_list_windows, n places or more           1.0
 *     luff_list_full_scaled, luff_judge             0.4 to 1.0
 *
 * A count took 0.1 to 1.2 times as long as its list on these words and records. A luff_tracker_list and a luff_tracker_count go through
 * the entries of the pairs in range for the letters held, about n * n / 4 of them. A luff_tracker_take_back goes through the whole board
 * and then through these entries, and a luff_tracker_fresh or luff_tracker_clear writes the whole tracker, whatever n is. The time of a luff_tracker_replay grows with the
 * number of its calls, each of which takes as long as an add at 240 letters at most, and one list comes behind them; that number has no
 * bound. A luff_count_square_free tries each of the k letters behind each square-free word of fewer than n letters, of which there are
 * 58,637 at most, for k = 4 and n = 12. A luff_list_square_free does so twice, to count and then to write.
 */
#ifndef LUFFBUTTON_H
#define LUFFBUTTON_H

#include <stddef.h>
#include <stdint.h>

#ifdef __cplusplus
#define LUFF_RESTRICT __restrict
extern "C" {
#else
#define LUFF_RESTRICT restrict
#endif

/* The version of this interface. It rises with each change of an answer or of a layout, and with each function that joins. */
#define LUFF_VERSION 11

/* The byte of the first letter, a, and how many letters there are. */
#define LUFF_FIRST_LETTER 97
#define LUFF_LETTERS 26

/* The longest word, and so the longest pattern, and a board's entries: one for each pair in range for it. */
#define LUFF_LONGEST 240
#define LUFF_BOARD 14520

/* The longest record. */
#define LUFF_LONGEST_RECORD 65536

/* Square-free words are listed over this many letters at most, and up to this length. */
#define LUFF_LARGEST_ALPHABET 4
#define LUFF_LONGEST_SQUARE_FREE 12

/*
 * The most words that a list can have: periods, 58,080 bytes; squares, 57,600 bytes; full periods, 76 bytes; windows, 262,144 bytes, which a
 * pattern of one letter has in the longest record of that letter alone; square-free words, 204,480 bytes, which are those of the greatest
 * length over the first 4 letters. With so many places no list is too long. For windows as many places as the record has letters are also
 * enough.
 */
#define LUFF_MOST_PERIODS 14520
#define LUFF_MOST_SQUARES 14400
#define LUFF_MOST_FULL 19
#define LUFF_MOST_WINDOWS 65536
#define LUFF_MOST_SQUARE_FREE 51120

/*
 * Places enough for the report of every word, 115,760 bytes: one word, and the most periods, squares and full periods. It is a bound that no
 * report reaches, since only a word whose letters are all equal has so many periods, and that is refused with 10. The longest report is not
 * known.
 */
#define LUFF_MOST_REPORT 28940

/*
 * Places enough for the runs of every word, 70,728 bytes: no two runs of one d start d letters apart, and each is two words. It is a
 * bound and not the longest list, which is not known.
 */
#define LUFF_BOUND_RUNS 17682

/*
 * The limits on stack, in bytes. That of a list or of the report is also its count's, LUFF_STACK_TRACKER is for each of a tracker's calls,
 * and LUFF_STACK is the greatest.
 */
#define LUFF_STACK_JUDGE 4096
#define LUFF_STACK_LIST_PLAIN 24576
#define LUFF_STACK_LIST_SKIPPING 32768
#define LUFF_STACK_LIST_FULL 4096
#define LUFF_STACK_LIST_FULL_SCALED 4096
#define LUFF_STACK_LIST_SQUARES 24576
#define LUFF_STACK_LIST_RUNS 24576
#define LUFF_STACK_LIST_WINDOWS 12288
#define LUFF_STACK_LIST_SQUARE_FREE 2048
#define LUFF_STACK_FIND_COVER 4096
#define LUFF_STACK_REPORT 40960
#define LUFF_STACK_TRACKER 12288
#define LUFF_STACK LUFF_STACK_REPORT

/*
 * What `refusal` is. Where several apply, the first counts: of a word in the order 1, 2, 7, 10, 3, of a tracker in the order 6, 2, 4, 5, 3,
 * of a pattern and a record in the order 1 and 2 of the pattern, 8, 9, 2 of the record, 3, and of an alphabet and a length in the order 11,
 * 12, 3.
 */
enum luff_refusal {
    LUFF_ACCEPTED = 0,
    /* The word or the pattern has more than LUFF_LONGEST letters. */
    LUFF_TOO_LONG = 1,
    /* A byte is no letter. Value: the first such position, in the word, the pattern or the record; 1 for an add. */
    LUFF_NOT_A_LETTER = 2,
    /* The list is longer than the places. Value: the words needed. */
    LUFF_SLICE_TOO_SHORT = 3,
    /* An add at LUFF_LONGEST letters. */
    LUFF_TRACKER_FULL = 4,
    /* A take-back at length 0. */
    LUFF_TRACKER_EMPTY = 5,
    /* The tracker's length is above LUFF_LONGEST, or a byte within its length is no letter. */
    LUFF_TRACKER_DAMAGED = 6,
    /* The judge's pair is out of range for the word. */
    LUFF_PAIR_OUT_OF_RANGE = 7,
    /* The pattern has no letters. */
    LUFF_PATTERN_EMPTY = 8,
    /* The record has more than LUFF_LONGEST_RECORD bytes. */
    LUFF_RECORD_TOO_LONG = 9,
    /* A report, or its count, of a word of two or more letters that are all equal. Every other call takes such a word. */
    LUFF_ONE_LETTER = 10,
    /* Square-free words over no letters, or over more than LUFF_LARGEST_ALPHABET. */
    LUFF_SQUARE_FREE_ALPHABET = 11,
    /* Square-free words of more than LUFF_LONGEST_SQUARE_FREE letters. */
    LUFF_SQUARE_FREE_LENGTH = 12
};

/*
 * An output word has its kind in the top 4 bits, then, but for LUFF_KIND_HANDS, LUFF_KIND_WINDOW and LUFF_KIND_SQUARE_FREE, an upper and a
 * lower number of 14 bits each.
 *   LUFF_KIND_PERIOD   upper: period p       lower: head h
 *   LUFF_KIND_SQUARE   upper: half length    lower: start
 *   LUFF_KIND_FULL     upper: full period p  lower: n / p
 *   LUFF_KIND_RUN      upper: d              lower: i
 *   LUFF_KIND_REPORT   upper: n              lower: the length that luff_find_cover answers, 0 where there is no cover
 *
 * A run is two words, one of LUFF_KIND_RUN and behind it one of LUFF_KIND_HANDS. The second has three numbers below its kind: j in 12 bits,
 * then the lengths of the left hand and of the right hand in 8 bits each. LUFF_WORD_KIND and the three macros LUFF_RUN_.. read it;
 * LUFF_WORD_UPPER and LUFF_WORD_LOWER do not. So a list of runs is read two words at a time: d and i are LUFF_WORD_UPPER and
 * LUFF_WORD_LOWER of out[k], and j and the hands are LUFF_RUN_END, LUFF_RUN_LEFT and LUFF_RUN_RIGHT of out[k + 1].
 *
 * A word of LUFF_KIND_WINDOW has one number below its kind, the start in 28 bits, since a record may have more letters than 14 bits can
 * count. LUFF_WORD_KIND and LUFF_WINDOW_START read it; LUFF_WORD_UPPER and LUFF_WORD_LOWER do not.
 *
 * A word of LUFF_KIND_SQUARE_FREE has one number below its kind too, in 28 bits: a square-free word over the first k letters, read as a
 * number in base k. Each letter is a digit, a is 0, b is 1 and so on, and the first letter is the highest digit. LUFF_WORD_KIND and
 * LUFF_SQUARE_FREE_NUMBER read it; LUFF_WORD_UPPER and LUFF_WORD_LOWER do not. Neither k nor the length n stands in the output word: they
 * are those of the call. The letters are read from the last to the first: the last one is LUFF_FIRST_LETTER + number % k, and number / k
 * is the number of the n - 1 letters before it. With k = 2 and n = 3 the number 5 is bab. The empty word has the number 0, and so has a.
 */
#define LUFF_KIND_PERIOD 1u
#define LUFF_KIND_SQUARE 2u
#define LUFF_KIND_FULL 3u
#define LUFF_KIND_RUN 5u
#define LUFF_KIND_HANDS 6u
#define LUFF_KIND_WINDOW 7u
#define LUFF_KIND_REPORT 8u
#define LUFF_KIND_SQUARE_FREE 9u
#define LUFF_WORD_KIND(word) ((uint32_t)(word) >> 28)
#define LUFF_WORD_UPPER(word) (((uint32_t)(word) >> 14) & 0x3fffu)
#define LUFF_WORD_LOWER(word) ((uint32_t)(word) & 0x3fffu)
#define LUFF_RUN_END(word) (((uint32_t)(word) >> 16) & 0xfffu)
#define LUFF_RUN_LEFT(word) (((uint32_t)(word) >> 8) & 0xffu)
#define LUFF_RUN_RIGHT(word) ((uint32_t)(word) & 0xffu)
#define LUFF_WINDOW_START(word) ((uint32_t)(word) & 0xfffffffu)
#define LUFF_SQUARE_FREE_NUMBER(word) ((uint32_t)(word) & 0xfffffffu)

/* The length of a head, and that of a period: two types, so that neither is taken for the other. */
struct luff_head {
    size_t letters;
};
struct luff_period {
    size_t letters;
};

/* Over how many letters square-free words are listed, the first so many, and how many letters each has: two types as well. */
struct luff_alphabet {
    size_t letters;
};
struct luff_length {
    size_t letters;
};

/* The answer of a call that has no numbers of its own. */
struct luff_outcome {
    size_t refusal;
    size_t value;
};

/* The answer of a list. written: how many words it has written. */
struct luff_wrote {
    size_t refusal;
    size_t value;
    size_t written;
};

/* The answer of a count. words: how many words the list has, and so how many places it needs. */
struct luff_counted {
    size_t refusal;
    size_t value;
    size_t words;
};

/* The answer of a lister of periods. trials: how many pairs it has tried. */
struct luff_listed {
    size_t refusal;
    size_t value;
    size_t written;
    size_t trials;
};

/* The answer of the list by scaled positions, with s and T. */
struct luff_scaled {
    size_t refusal;
    size_t value;
    size_t written;
    size_t s;
    size_t t;
};

/*
 * The judge's answer. yes: 1 where the pair is an Abelian period. Else 0, and then block is the first that breaks the rule against block 1
 * (0 is the head, and the tail comes behind the last whole block), and letter the first in it, in letter order, as its byte: of a whole
 * block the first with another count, of head and tail the first with a larger one.
 */
struct luff_verdict {
    size_t refusal;
    size_t value;
    size_t yes;
    size_t block;
    size_t letter;
};

/*
 * The answer of the search for a cover. yes: 1 where there is one, and then length m, m < n and 2m >= n, is the smallest at which the first
 * m and the last m letters have equal counts. 0 where no set of intervals is a cover; length is 0 then.
 */
struct luff_cover {
    size_t refusal;
    size_t value;
    size_t yes;
    size_t length;
};

/* A replay's answer. refused: how many of its calls were refused, also where the list is. The other three are the list's. */
struct luff_replayed {
    size_t refusal;
    size_t value;
    size_t refused;
    size_t written;
};

/* Judges the pair (head, period) of a word. Refusals 1, 2, 7. */
struct luff_verdict luff_judge(const uint8_t *word, size_t n, struct luff_head head, struct luff_period period);

/*
 * The list calls write their words to the first of `places` places at `out` and leave the places behind them as they are. Refusals 1, 2, 3;
 * luff_report and luff_list_windows, given below, have more, and luff_list_square_free, which takes no word, has others.
 */

/* All Abelian periods. trials: the pairs in range, which are all tried. */
struct luff_listed luff_list_plain(const uint8_t *LUFF_RESTRICT word, size_t n, uint32_t *LUFF_RESTRICT out, size_t places);

/* The same list. trials: the pairs in range whose head is not ruled out and whose p is at least L(h), which alone are tried. */
struct luff_listed luff_list_skipping(const uint8_t *LUFF_RESTRICT word, size_t n, uint32_t *LUFF_RESTRICT out, size_t places);

/* The full periods, by rising p. */
struct luff_wrote luff_list_full(const uint8_t *LUFF_RESTRICT word, size_t n, uint32_t *LUFF_RESTRICT out, size_t places);

/* The same list by scaled positions, with s and T. */
struct luff_scaled luff_list_full_scaled(const uint8_t *LUFF_RESTRICT word, size_t n, uint32_t *LUFF_RESTRICT out, size_t places);

/* All Abelian squares, by rising half length, and for one half length by rising start. */
struct luff_wrote luff_list_squares(const uint8_t *LUFF_RESTRICT word, size_t n, uint32_t *LUFF_RESTRICT out, size_t places);

/* All Abelian runs, by rising d, and for one d by rising i. Each is two words; `written` and the value of refusal 3 count words. */
struct luff_wrote luff_list_runs(const uint8_t *LUFF_RESTRICT word, size_t n, uint32_t *LUFF_RESTRICT out, size_t places);

/*
 * A report: one word of LUFF_KIND_REPORT, then the full periods, the periods and the squares. With fewer than LUFF_MOST_REPORT places the
 * whole is counted before it is written, which takes time; with as many or more that is spared. Of two or more letters that are all equal
 * every pair in range is a period, and there is no report. Refusals, in this order: 1, 2, 10, 3.
 */
struct luff_wrote luff_report(const uint8_t *LUFF_RESTRICT word, size_t n, uint32_t *LUFF_RESTRICT out, size_t places);

/* The counts: how many words each of these calls writes, a run's two included. Refusals 1, 2; of luff_count_report 10 behind them. */
struct luff_counted luff_count_plain(const uint8_t *word, size_t n);
struct luff_counted luff_count_skipping(const uint8_t *word, size_t n);
struct luff_counted luff_count_full(const uint8_t *word, size_t n);
struct luff_counted luff_count_full_scaled(const uint8_t *word, size_t n);
struct luff_counted luff_count_squares(const uint8_t *word, size_t n);
struct luff_counted luff_count_runs(const uint8_t *word, size_t n);
struct luff_counted luff_count_report(const uint8_t *word, size_t n);

/*
 * All windows of a pattern of m letters in a record of n, by rising start. A record with fewer letters than the pattern, the empty one too,
 * has none. From one start to the next one letter leaves and one joins, so that the time grows as m + n does. With fewer than n places the
 * windows are counted before they are written, and where there are more than 2,048 the record is gone through twice; with n places or more,
 * as LUFF_MOST_WINDOWS always are, once.
 * Refusals, in this order: 1 and 2 of the pattern, 8, 9, 2 of the record, 3. Refusal 1 is never the record's. Whether a refusal 2 is the
 * pattern's, a call with 0 letters of the record tells: it meets the pattern's refusals alone.
 */
struct luff_wrote luff_list_windows(const uint8_t *pattern, size_t m, const uint8_t *record, size_t n, uint32_t *LUFF_RESTRICT out,
                                    size_t places);

/* How many words luff_list_windows writes. Its refusals but 3, in the same order. */
struct luff_counted luff_count_windows(const uint8_t *pattern, size_t m, const uint8_t *record, size_t n);

/*
 * All square-free words of n letters over the first k, where k is alphabet.letters and n is length.letters, in alphabetical order, each
 * once. Of no letters there is one, the empty word. They are counted before they are written, whatever the places, so that a list takes
 * about as long as two counts. Refusals, in this order: 11 where k is outside 1 to LUFF_LARGEST_ALPHABET, 12 where n is above
 * LUFF_LONGEST_SQUARE_FREE, 3.
 */
struct luff_wrote luff_list_square_free(struct luff_alphabet alphabet, struct luff_length length, uint32_t *out, size_t places);

/* How many words luff_list_square_free writes. Its refusals but 3, in the same order. */
struct luff_counted luff_count_square_free(struct luff_alphabet alphabet, struct luff_length length);

/* Looks for a cover. Refusals 1, 2. */
struct luff_cover luff_find_cover(const uint8_t *word, size_t n);

/*
 * A tracker: a word that grows and shrinks at its end. bytes holds the letters and 0 beyond the length. board has an entry for each pair
 * in range for LUFF_LONGEST, by p and then h: the ended length of the pair. live and ended are totals for a screen: how many pairs in range
 * for the length have the entry 0, which are as many as a list writes, and how many have another. With n for the length, their sum is the
 * number of pairs in range, (n + 1) / 2 times (n + 2) / 2, both rounded down. A tracker takes 14,784 bytes. Make one by luff_tracker_fresh or
 * luff_tracker_replay and change it by its calls alone, given below.
 *
 * A fresh tracker has 0 and 0. Each accepted add, take-back and clear, also one of a luff_tracker_replay, sets live and ended from the board
 * that it leaves, whatever stood there. No call reads them: no answer depends on them, and a tracker is not damaged by them. An add and a
 * take-back that are refused, a list and a count leave them as they are.
 *
 * A copy of it is a tracker too. But what is kept for long or sent elsewhere should be the letters (bytes, as many as length says), and the
 * tracker be made from them by luff_tracker_replay: a call checks length and letters and not the board, so that a byte of the board that
 * was changed in storage is not seen and lists are wrong from then on; and size_t has another width and order of bytes on other machines.
 * The letters must not be those inside the tracker that is made, since it is made fresh first: copy them out before. With 0 places the
 * answer is refusal 3 unless the list is empty, and the tracker is made all the same.
 */
struct luff_tracker {
    size_t length;
    uint8_t bytes[LUFF_LONGEST];
    uint8_t board[LUFF_BOARD];
    size_t live;
    size_t ended;
};

/* In a list of calls for luff_tracker_replay: the byte that takes back the last letter, and the byte that clears. */
#define LUFF_CALL_TAKE_BACK 45
#define LUFF_CALL_CLEAR 33

/*
 * The tracker's calls by its fields, for languages that cannot use the inline functions below: length, live and ended lead to one number
 * each, bytes to LUFF_LONGEST bytes and board to LUFF_BOARD. A list and a count take neither live nor ended. A program in C uses the
 * functions below, which take the tracker whole.
 */
void luff_tracker_fresh_fields(size_t *LUFF_RESTRICT length, uint8_t *LUFF_RESTRICT bytes, uint8_t *LUFF_RESTRICT board,
                               size_t *LUFF_RESTRICT live, size_t *LUFF_RESTRICT ended);
struct luff_outcome luff_tracker_add_fields(size_t *LUFF_RESTRICT length, uint8_t *LUFF_RESTRICT bytes, uint8_t *LUFF_RESTRICT board,
                                            size_t *LUFF_RESTRICT live, size_t *LUFF_RESTRICT ended, uint8_t letter);
struct luff_outcome luff_tracker_take_back_fields(size_t *LUFF_RESTRICT length, uint8_t *LUFF_RESTRICT bytes, uint8_t *LUFF_RESTRICT board,
                                                  size_t *LUFF_RESTRICT live, size_t *LUFF_RESTRICT ended);
struct luff_outcome luff_tracker_clear_fields(size_t *LUFF_RESTRICT length, uint8_t *LUFF_RESTRICT bytes, uint8_t *LUFF_RESTRICT board,
                                              size_t *LUFF_RESTRICT live, size_t *LUFF_RESTRICT ended);
struct luff_wrote luff_tracker_list_fields(size_t length, const uint8_t *LUFF_RESTRICT bytes, const uint8_t *LUFF_RESTRICT board,
                                           uint32_t *LUFF_RESTRICT out, size_t places);
struct luff_counted luff_tracker_count_fields(size_t length, const uint8_t *LUFF_RESTRICT bytes, const uint8_t *LUFF_RESTRICT board);
struct luff_replayed luff_tracker_replay_fields(const uint8_t *LUFF_RESTRICT calls, size_t n, uint32_t *LUFF_RESTRICT out, size_t places,
                                                size_t *LUFF_RESTRICT length, uint8_t *LUFF_RESTRICT bytes, uint8_t *LUFF_RESTRICT board,
                                                size_t *LUFF_RESTRICT live, size_t *LUFF_RESTRICT ended);

/* Makes the tracker fresh, all zero, whatever stood there: it holds the empty word. */
static inline void luff_tracker_fresh(struct luff_tracker *tracker)
{
    luff_tracker_fresh_fields(&tracker->length, tracker->bytes, tracker->board, &tracker->live, &tracker->ended);
}

/* The letter joins the end, and each pair with entry 0 that is then in range and no Abelian period is ended. Refusals 6, 2, 4. */
static inline struct luff_outcome luff_tracker_add(struct luff_tracker *tracker, uint8_t letter)
{
    return luff_tracker_add_fields(&tracker->length, tracker->bytes, tracker->board, &tracker->live, &tracker->ended, letter);
}

/* The last letter goes, and each pair that ended with it has entry 0 again. Refusals 6, 5. */
static inline struct luff_outcome luff_tracker_take_back(struct luff_tracker *tracker)
{
    return luff_tracker_take_back_fields(&tracker->length, tracker->bytes, tracker->board, &tracker->live, &tracker->ended);
}

/* Makes any tracker fresh, also a damaged one. It is always accepted. */
static inline struct luff_outcome luff_tracker_clear(struct luff_tracker *tracker)
{
    return luff_tracker_clear_fields(&tracker->length, tracker->bytes, tracker->board, &tracker->live, &tracker->ended);
}

/*
 * Lists the Abelian periods of the letters held, as luff_list_plain does of a word. Of a tracker that no calls have made, it gives the
 * pairs in range whose entry is 0. Refusals 6, 3.
 */
static inline struct luff_wrote luff_tracker_list(const struct luff_tracker *tracker, uint32_t *LUFF_RESTRICT out, size_t places)
{
    return luff_tracker_list_fields(tracker->length, tracker->bytes, tracker->board, out, places);
}

/* How many words a list would write. The tracker is as it was. Refusal 6. */
static inline struct luff_counted luff_tracker_count(const struct luff_tracker *tracker)
{
    return luff_tracker_count_fields(tracker->length, tracker->bytes, tracker->board);
}

/*
 * Makes the tracker fresh, whatever stood there, makes n calls on it, a byte each (LUFF_CALL_TAKE_BACK takes back, LUFF_CALL_CLEAR clears,
 * any other byte is added), and lists once. Refusal 3, which is the list's: the tracker is as the calls leave it all the same.
 */
static inline struct luff_replayed luff_tracker_replay(struct luff_tracker *tracker, const uint8_t *LUFF_RESTRICT calls, size_t n,
                                                       uint32_t *LUFF_RESTRICT out, size_t places)
{
    return luff_tracker_replay_fields(calls, n, out, places, &tracker->length, tracker->bytes, tracker->board, &tracker->live,
                                      &tracker->ended);
}

#ifdef __cplusplus
}
#endif

#endif
