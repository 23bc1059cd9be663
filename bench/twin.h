/* The twin of the library, see twin.c. The interface is the library's. */
#ifndef TWIN_H
#define TWIN_H

#include "../include/hathurmo.h"

HathurmoTold twin_set_paragraph(HathurmoLimits limits, const uint32_t *lengths, size_t n, uint32_t *sums, size_t sums_len,
                                uint64_t *best, size_t best_len, uint32_t *next, size_t next_len, uint32_t *queue, size_t queue_len,
                                uint32_t *moves, size_t moves_len, uint32_t *breaks, size_t breaks_len);
HathurmoTold twin_set_index(HathurmoPageLimits limits, const uint32_t *lengths, size_t n, uint32_t *sums, size_t sums_len,
                            uint64_t *best, size_t best_len, uint32_t *next, size_t next_len, uint32_t *left, size_t left_len,
                            uint32_t *right, size_t right_len, uint32_t *moves, size_t moves_len, uint32_t *boundaries,
                            size_t boundaries_len);

#endif
