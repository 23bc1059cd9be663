/* An older library behind today's interface: -DLIMITS=5 for one from before W-205, whose limits end with the space, -DLIMITS=4 for one from
 * before W-202, where they end with a. Neither has edition 2, which no row asks of an older library.
 *
 * Without a space of its own a library takes limits that are raised by it, which do the same. A measure that is raised above 4,095 is
 * refused: no row of the bench has one. */
#include "../include/hathurmo.h"

typedef struct {
    uint32_t number[LIMITS];
} Older;

#if LIMITS == 5
static Older older(HathurmoLimits l) {
    return (Older){{l.lmin, l.lopt, l.lmax, l.a, l.space}};
}
#else
static Older older(HathurmoLimits l) {
    return (Older){{l.lmin + l.space, l.lopt + l.space, l.lmax + l.space, l.a}};
}
#endif

HathurmoTold older_set_paragraph(Older, const uint32_t *, size_t, uint32_t *, size_t, uint64_t *, size_t, uint32_t *, size_t, uint32_t *,
                                 size_t, uint32_t *, size_t, uint32_t *, size_t);

HathurmoTold hathurmo_set_paragraph(HathurmoLimits l, const uint32_t *lengths, size_t n, uint32_t *sums, size_t sums_len, uint64_t *best,
                                    size_t best_len, uint32_t *next, size_t next_len, uint32_t *queue, size_t queue_len, uint32_t *moves,
                                    size_t moves_len, uint32_t *breaks, size_t breaks_len) {
    return older_set_paragraph(older(l), lengths, n, sums, sums_len, best, best_len, next, next_len, queue, queue_len, moves, moves_len,
                               breaks, breaks_len);
}
