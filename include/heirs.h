/* The register of families, for programs in C: functions of the static library libexports.a, which `rt lib` writes in crates/exports.
 *
 * A register lies in memory that the caller lends: words for its family, bytes for its answers. Nothing is allocated, nothing is kept
 * elsewhere, and no function calls back. docs/RULES.md says what each call does and when it is refused; docs/NUMBERS.md has the bytes of
 * calls and answers, the refusals, and the words.
 *
 * What the caller owes, to every function:
 *   - each pointer is to as many items as the length behind it says, and is not null, also where the length is 0;
 *   - memory is aligned as uint32_t is;
 *   - memory, row and answer do not overlap, and no other thread uses them meanwhile.
 * Nothing is asked of what the memory holds: whatever the words are, a function reads and writes only what is lent, and returns.
 *
 * Each function gives one number: 0 or more, or less than 0 for a refusal, which is -(refusal * 2^32 + place).
 */
#ifndef HEIRS_H
#define HEIRS_H

#include <stddef.h>
#include <stdint.h>

#ifdef __cplusplus
extern "C" {
#endif

/* The most persons that a register can have room for. */
#define HEIRS_MOST_PERSONS 4096u

/* How many words a register for so many persons asks for, and how many bytes for its answers. */
#define HEIRS_WORDS(persons) (24576u + 16u * (size_t)(persons))
#define HEIRS_BYTES(persons) (8u + 20u * (size_t)(persons) > 49160u ? 8u + 20u * (size_t)(persons) : (size_t)49160u)

/* The refusals. */
#define HEIRS_UNREADABLE 1   /* the bytes are no call; the place is that of the first byte that doesn't fit */
#define HEIRS_TOO_SMALL 3    /* at 0: more than 4,096 persons; at 1: too few words or bytes are lent */
#define HEIRS_NOT_THERE 4    /* somebody who is named is not there; a mother who is the father */
#define HEIRS_NOT_ALLOWED 5  /* marriage or death don't allow it */
#define HEIRS_BEYOND_LIMIT 6 /* more persons than the limit; an estate beyond the limits */
#define HEIRS_NO_REGISTER 7  /* words that are no register's */

/* The refusal and the place of a result that is less than 0. */
static inline uint32_t heirs_refusal(int64_t result) { return (uint32_t)((uint64_t)-result >> 32); }
static inline uint32_t heirs_place(int64_t result) { return (uint32_t)(uint64_t)-result; }

/* Opens a register for at most `limit` persons, without any. The words that it asks for are written; words behind them and all bytes stay as they were.
 * Gives 0, or refusal 3 with nothing changed. */
int64_t heirs_open(uint32_t *memory, size_t words, uint8_t *answer, size_t bytes, uint32_t limit);

/* Answers a call, given as its bytes. A call that is taken changes the register's words, and its answer is written from the start of the bytes on; those behind it
 * stay as they were. Gives how many bytes the answer has. A call that is turned away leaves every word and every byte as it was, and gives its refusal.
 *
 * This is proved of words that a register was opened in, or to which heirs_check gave 0 or more, and which nobody but heirs_call has changed since.
 * Of other words: if the header (the limit and the number of persons) does not fit them, refusal 7 with nothing changed, and 3 at 1 if the bytes are too few.
 * If they were tampered with behind a header that fits, the call is safe, a length that it gives is within the bytes, and nothing is said of the answer or the words. */
int64_t heirs_call(uint32_t *memory, size_t words, const uint8_t *row, size_t length, uint8_t *answer, size_t bytes);

/* Takes a register up again from its words, as after they were stored and read back: gives how many persons there are, exactly if every word is as heirs_call would have
 * left it for an allowed family, and the bytes suffice for its answers. Else refusal 7, or 3 at 1 for too few bytes. Nothing is written.
 * It compares every word, and takes much longer than a call. */
int64_t heirs_check(const uint32_t *memory, size_t words, const uint8_t *answer, size_t bytes);

#ifdef __cplusplus
}
#endif

#endif
