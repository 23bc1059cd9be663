/* The plain way: for each start every next is tried, O(n * M) with M the words of a line. No queue, no moves. */
#ifndef PLAIN_H
#define PLAIN_H

#include "../include/hathurmo.h"

/* The same sums, best, next and answer as the library; no refusal but NONE is checked, and every strip has the room that hathurmo.h
 * asks for. Moves is 0. */
HathurmoTold plain_set_paragraph(HathurmoLimits limits, const uint32_t *lengths, size_t n, uint32_t *sums, uint64_t *best,
                                 uint32_t *next, uint32_t *breaks);
HathurmoTold plain_set_index(HathurmoPageLimits limits, const uint32_t *lengths, size_t n, uint32_t *sums, uint64_t *best,
                             uint32_t *next, uint32_t *boundaries);

#endif
