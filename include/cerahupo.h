/* Cerahupo from C: the check of a book, the scored decision, the score itself, compiling, the rod's reading, a whole traverse, the
 * choice check and the comparison.
 *
 * Link libexports.a, which `tools/build.sh exports` writes for x86-64 Linux. It uses memcpy and memset of the C library and
 * nothing else, keeps no state and allocates nothing, so calls may run side by side, if nobody else touches what was lent to one, or
 * writes what it reads, until it returns.
 *
 * A book is bytes, a listing is 32-bit words, four a record; docs/OFFICE.md and docs/LISTING.md say what both mean. An excluded
 * pair is two signals that never occur together, as a line `x A B` of the book says; listings carry it as a record of kind 5.
 * A policy whose default is left out (`p OP`) has 100 for min and mul, 0 for sum and max; in a book whose first line is `o`, 0
 * for all four. A library from before change request 2 has 0 for all four in every book, and refuses an `o` (2, line 1): see
 * docs/FIRMWARE.md before a logger is brought up to date.
 *
 * Books, listings, sets and answers are handed over as a pointer and a number of elements; with 0 elements the pointer may be
 * anything, NULL too, and otherwise there are so many, aligned as C wants them. Every content has an answer: none has to be checked
 * before a call. Nothing is written but the words lent to cerahupo_compile, the number lent to cerahupo_score and the answers lent to
 * cerahupo_traverse.
 *
 * A call returns one number, which tells its whole answer, but for the remainder of a score and the answers of a traverse:
 *
 *     bits 0 to 4    the code: 0 where the call was accepted, else the refusal's number, for which 1 to 20 are kept (today's
 *                    calls have 1 to 11: ten of document 01, and 11 of change request 6); 25 and 26 are the refusals 9 and 10 of
 *                    the second listing of a comparison
 *     bits 5 to 63   the value: on a refusal the line or the record beside it (0 beside 7, 8, 9 and 11), otherwise the result
 *
 * The functions at the end take it apart; docs/FIRMWARE.md has the values of all results in one table. */

#ifndef CERAHUPO_H
#define CERAHUPO_H

#include <stdbool.h>
#include <stddef.h>
#include <stdint.h>

#ifdef __cplusplus
extern "C" {
#endif

/* ---- the calls */

/* The check of a book. Result: how many policies and conditions it has (excluded pairs are not counted). Refusals: 1 to 6 with
 * the line, which counts from 1 and is 0 for the whole book. */
uint64_t cerahupo_check(const uint8_t *book, size_t book_length);

/* The scored decision, for loggers: a condition of the book, counted from 0, on a signal set (signal S is bit S). Every set is
 * decided, one with an excluded pair too. Result: yes or no. Refusals: those of the book, then 7. */
uint64_t cerahupo_decide(const uint8_t *book, size_t book_length, uint32_t condition, uint16_t set);

/* The score by which cerahupo_decide decides, for loggers: E of the condition's line `c T < E` or `c T >= E` on the set, exact.
 * Result: its hundredths, rounded toward minus infinity, -10,000 to 160,000. The rest, counted in parts of which a hundredth has 10
 * to the 14, 0 to 99,999,999,999,999, is written to *remainder, which is never NULL and which the book must not overlap. T is less
 * than E exactly when the hundredths exceed T, or equal it with a remainder above 0. Refusals: those of cerahupo_decide; on a
 * refusal *remainder is not written. */
uint64_t cerahupo_score(const uint8_t *book, size_t book_length, uint32_t condition, uint16_t set, uint64_t *remainder);

/* Compiling a condition of the book into the lent words, which the book must not overlap. Result: the number of records, those
 * of the book's excluded pairs among them; the first four words for each are the listing, and the words beyond them are not
 * written. Refusals: those of the book, then 7, then 8; on a refusal no word is written. */
uint64_t cerahupo_compile(const uint8_t *book, size_t book_length, uint32_t condition, uint32_t *words, size_t words_length);

/* The rod's reading of a listing on a signal set; excluded pairs change no answer. Result: yes or no. Refusals: 9, or 10 with
 * the record, which counts from 1. */
uint64_t cerahupo_read(const uint32_t *words, size_t words_length, uint16_t set);

/* A whole traverse by one listing: for each of the sets, in their order, 1 or 0 is written among the answers, as cerahupo_read
 * would say yes or no of it. The listing is examined once, also where there are no sets. The answers must not overlap the words or
 * the sets. Result: the number of answers, which is that of the sets (modulo 2 to the 59, and no machine has so much memory).
 * Refusals: 11, 0 where answers_length, the exact number and not the room there is, differs from sets_length, before the listing is
 * examined; then those of cerahupo_read. On a refusal no answer is written. */
uint64_t cerahupo_traverse(const uint32_t *words, size_t words_length, const uint16_t *sets, size_t sets_length, uint8_t *answers,
                           size_t answers_length);

/* The choice check of a listing over all signal sets that hold no excluded pair of it (without such pairs all 65,536): one pass
 * in rising order, which ends when it has a yes and a no. Result: always, never or both, for both also the lowest yes set and the
 * lowest no set; and how many sets were judged: all of those, or for both the ones up to the higher of the two, itself included.
 * Refusals: those of cerahupo_read. */
uint64_t cerahupo_choice(const uint32_t *words, size_t words_length);

/* The comparison of two listings, which may overlap, over all signal sets that hold no excluded pair of either. Result: alike,
 * or the lowest set where they differ and which says yes there. Refusals: those of cerahupo_read, of the first listing, then of
 * the second. Listings of one policy each that this library compiled, without excluded pairs and with equal kind and mask, are
 * alike exactly if they have the same lines, in whatever order; otherwise the set is the lowest line that only one has. */
uint64_t cerahupo_compare(const uint32_t *one, size_t one_length, const uint32_t *two, size_t two_length);

/* ---- the number taken apart */

/* Bits 0 to 4: 0 where the call was accepted, 1 to 20 for a refusal, 25 and 26 for refusals 9 and 10 of a second listing. */
static inline unsigned cerahupo_code(uint64_t answer) { return (unsigned)(answer & 31); }

/* 0 where the call was accepted, else the refusal's number: 9 and 10 for the second listing of a comparison too. */
static inline unsigned cerahupo_number(uint64_t answer)
{
    unsigned code = cerahupo_code(answer);
    return code > 20 ? code - 16 : code;
}

static inline bool cerahupo_accepted(uint64_t answer) { return cerahupo_code(answer) == 0; }

/* On a refusal: the line or the record; otherwise the result, which the functions below take apart. */
static inline uint64_t cerahupo_value(uint64_t answer) { return answer >> 5; }

/* On a refusal by cerahupo_compare: 1 or 2, the listing that was declined. */
static inline unsigned cerahupo_declined_listing(uint64_t answer) { return cerahupo_code(answer) > 20 ? 2 : 1; }

/* cerahupo_check, accepted. */
static inline unsigned cerahupo_policies(uint64_t answer) { return (unsigned)(answer >> 5 & 2047); }
static inline unsigned cerahupo_conditions(uint64_t answer) { return (unsigned)(answer >> 16); }

/* cerahupo_decide and cerahupo_read: accepted, and yes. A refusal is no yes. Never ask it of a traverse, where 32 is one answer. */
static inline bool cerahupo_yes(uint64_t answer) { return answer == 32; }

/* cerahupo_score, accepted: the hundredths. The value counts from -10,000, the lowest score that there is. */
static inline int32_t cerahupo_hundredths(uint64_t answer) { return (int32_t)((int64_t)(answer >> 5) - 10000); }

/* cerahupo_compile: the number of records, 0 on a refusal. A listing has at least one. */
static inline size_t cerahupo_records(uint64_t answer) { return cerahupo_accepted(answer) ? (size_t)(answer >> 5) : 0; }

/* cerahupo_traverse: the number of answers written. 0 on a refusal, and also for an accepted traverse of no sets: cerahupo_accepted
 * tells them apart. */
static inline size_t cerahupo_answers(uint64_t answer) { return cerahupo_accepted(answer) ? (size_t)(answer >> 5) : 0; }

/* cerahupo_choice, accepted: which it is; how many sets were judged, 2 to 65,536; and, only for both, the two sets. */
enum { CERAHUPO_ALWAYS = 0, CERAHUPO_NEVER = 1, CERAHUPO_BOTH = 2 };
static inline unsigned cerahupo_choice_kind(uint64_t answer) { return (unsigned)(answer >> 5 & 2047); }
static inline uint16_t cerahupo_lowest_yes(uint64_t answer) { return (uint16_t)(answer >> 16); }
static inline uint16_t cerahupo_lowest_no(uint64_t answer) { return (uint16_t)(answer >> 32); }
static inline uint32_t cerahupo_judged(uint64_t answer) { return (uint32_t)(answer >> 48) + 1; }

/* cerahupo_compare: accepted, and alike; where they are not, the set, and 1 or 2, the listing that says yes there. The value
 * itself is 0 for alike; otherwise its lowest eleven bits are 3 where the first listing says yes and 1 where the second does. */
static inline bool cerahupo_alike(uint64_t answer) { return answer == 0; }
static inline uint16_t cerahupo_lowest_difference(uint64_t answer) { return (uint16_t)(answer >> 16); }
static inline unsigned cerahupo_yes_listing(uint64_t answer) { return (answer >> 5 & 2047) == 3 ? 1 : 2; }

#ifdef __cplusplus
}
#endif

#endif
