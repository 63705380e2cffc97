/* The circuit key engine for a marking station.
 *
 * Pointers: a pointer may be null only where its length is 0. `cards` is only read. `buffer` and `cards` do not overlap.
 * Nothing is kept after a call returns.
 * Lengths: in bytes, at most PTRDIFF_MAX. No text ends in a zero byte; its length is what counts.
 * Threads: the calls share no state. Any number may run at a time, each with its own buffer. None may be made from a
 * signal handler, or in the forked child of a process with threads, since memory is taken by malloc and given back.
 * malloc aligns a block to each power of two up to 16 that divides its size, as that of glibc does.
 * Stack: a call takes some tens of kilobytes.
 */
#ifndef COVSHURII_H
#define COVSHURII_H

#include <stddef.h>
#include <stdint.h>

#ifdef __cplusplus
extern "C" {
#endif

/* What covshurii_key answers for want of memory. The buffer is then as it was. */
#define COVSHURII_NO_MEMORY SIZE_MAX

/* The whole key of a card file (docs/PRINTED_KEY.md). Answers the length that the key needs. If the buffer has at
 * least that length, the key stands at its front and the rest of it is as it was; a shorter buffer is left alone. */
size_t covshurii_key(const uint8_t *cards, size_t cards_length, uint8_t *buffer, size_t buffer_length);

/* The number of the refusal that ends the key of a card file before its steps (25, one of the card rules or of the
 * sheet, 12 or 13); 0 where there is none. docs/REFUSALS.md has the numbers. */
uint32_t covshurii_mark(const uint8_t *cards, size_t cards_length);

#ifdef __cplusplus
}
#endif

#endif
