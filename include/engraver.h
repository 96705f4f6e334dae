/* The engraver for C: a score in memory that the caller lends, and calls on it.
 *
 * A score lies in words of 32 bits, and answers are written over the front of bytes; both belong to the caller, and nothing else is kept or allocated.
 * Every function returns one signed number: 0 or more where it was done, and below 0 where it was refused: -(refusal * 2^32 + place), which
 * engraver_refusal and engraver_place take apart. The refusals, and the bytes of calls and answers, are in docs/NUMBERS.md; docs/RULES.md says what
 * they mean. */
#ifndef ENGRAVER_H
#define ENGRAVER_H

#include <stddef.h>
#include <stdint.h>

#ifdef __cplusplus
extern "C" {
#endif

/* How many words a score asks for that is opened so: a key from 0 to 14, a bar of 3 to 768 ticks that is a multiple of 3, 1 to 64 voices, and up to
 * 65,536 events in all voices together. Refused by 3 at 1 where a number is out of range. */
int64_t engraver_words(uint32_t key, uint32_t bar, uint32_t voices, uint32_t events);

/* How many bytes it asks for. Refused as engraver_words is. */
int64_t engraver_bytes(uint32_t key, uint32_t bar, uint32_t voices, uint32_t events);

/* Opens a score without events and returns 0. Refused by 3 at 1 where a number is out of range, and by 3 at 0 where there are fewer words or bytes than
 * are asked for; then nothing has changed. What lies past the words and bytes that are asked for is never touched.
 *
 * Asked of the caller, here, in engraver_call and in engraver_put_records: a pointer is that of so many words, bytes or numbers, and not null even if they
 * are none; words, bytes, input, records and refusal share no memory. */
int64_t engraver_open(uint32_t *words, size_t word_count, uint8_t *bytes, size_t byte_count, uint32_t key, uint32_t bar, uint32_t voices,
                      uint32_t events);

/* Does the call that the input is, writes its answer over the front of the bytes, and returns how many bytes the answer has. A refused call returns the
 * refusal, which stands in the first six bytes, too, and has changed no word. The input may be any bytes at all: what is no call is refused by 1 at the
 * first byte that does not fit.
 *
 * Memory whose header cannot be that of a score with room there (its first four words are out of range, or ask for more words or bytes than there are)
 * is refused by 3 at 0, and neither words nor bytes have changed. Asked of the caller: memory whose header can be is as one of these functions left it,
 * with the first words and bytes that the score asks for where they were. That is not looked at again with each call. */
int64_t engraver_call(uint32_t *words, size_t word_count, uint8_t *bytes, size_t byte_count, const uint8_t *input, size_t input_count);

/* Puts events last in their voices, one after the other, until one cannot be, and returns how many were put. An event is four numbers of the records: its
 * voice, its place or 70 for a silence, its alteration, which is not read of a silence, and its length. The refusal becomes that of the next event, as a
 * number below 0, or 0 where all were put: 2 at 0 where a number is out of range (a place above 70, too), 4 at the number of a voice that is not there, and 6
 * at 0, as the call put is refused. Numbers that are over behind the last four are an event that ends too early, refused by 1 at how many numbers there are.
 * The words are then as so many calls leave them; the bytes are not needed.
 *
 * Memory is refused, and asked of the caller, as in engraver_call, as far as words go; then neither words nor the refusal have changed. The refusal points to
 * a number of the caller's that is not among the words nor the records. */
int64_t engraver_put_records(uint32_t *words, size_t word_count, const uint32_t *records, size_t number_count, int64_t *refusal);

/* Of a number below 0, the refusal, 1 to 6. */
static inline uint32_t engraver_refusal(int64_t number) { return (uint32_t)((uint64_t)-number >> 32); }

/* Of a number below 0, the place of the refusal. */
static inline uint32_t engraver_place(int64_t number) { return (uint32_t)((uint64_t)-number & 0xffffffffu); }

#ifdef __cplusplus
}
#endif

#endif
