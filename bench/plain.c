#include "plain.h"

#define NO_SETTING HATHURMO_NO_SETTING

static void fill_sums(const uint32_t *lengths, size_t n, uint32_t *sums) {
    sums[0] = 0;
    for (size_t k = 0; k < n; k++)
        sums[k + 1] = sums[k] + lengths[k];
}

/* What is told where the least total of the whole is `total`; lines are counted by the caller. */
static HathurmoTold told(uint64_t total) {
    HathurmoTold t = {0};
    if (total == NO_SETTING)
        t.number = HATHURMO_NONE;
    else
        t.total = total;
    return t;
}

/* Line(i, j) for i < j: the words i to j-1 less the space after the last of them. */
static uint32_t line(HathurmoLimits l, const uint32_t *sums, size_t i, size_t j) {
    return sums[j - 1] - sums[i - 1] - l.space;
}

/* Best and next of start i, where the lines to the end are not free: they are above lopt, so not below the least last length. */
static void try_lines(HathurmoLimits l, const uint32_t *sums, size_t n, uint64_t *best, uint32_t *next, size_t i) {
    uint64_t least = NO_SETTING;
    uint32_t chosen = 0;
    for (size_t j = i + 1; j <= n + 1; j++) {
        uint32_t x = line(l, sums, i, j);
        if (x > l.lmax)
            break;
        if (x < l.lmin || best[j - 1] == NO_SETTING)
            continue;
        int32_t off = (int32_t)x - (int32_t)l.lopt;
        uint64_t total = best[j - 1] + l.a * (uint32_t)(off * off);
        if (total < least) {
            least = total;
            chosen = (uint32_t)j;
        }
    }
    best[i - 1] = least;
    next[i - 1] = chosen;
}

HathurmoTold plain_set_paragraph(HathurmoLimits l, const uint32_t *lengths, size_t n, uint32_t *sums, uint64_t *best, uint32_t *next,
                                 uint32_t *breaks) {
    fill_sums(lengths, n, sums);
    best[n] = 0;
    next[n] = 0;
    for (size_t i = n; i >= 1; i--) {
        uint32_t rest = line(l, sums, i, n + 1);
        if (rest < l.lastmin) { /* 0 under edition 1 */
            best[i - 1] = NO_SETTING;
            next[i - 1] = 0;
        } else if (rest <= l.lopt) {
            best[i - 1] = 0;
            next[i - 1] = (uint32_t)n + 1;
        } else {
            try_lines(l, sums, n, best, next, i);
        }
    }
    HathurmoTold t = told(best[0]);
    for (size_t i = 1; !t.number && i <= n; i = next[i - 1])
        breaks[t.lines++] = (uint32_t)i;
    return t;
}

/* Best and next of start i; of equal choices the largest next. */
static void try_pages(HathurmoPageLimits l, const uint32_t *sums, size_t n, uint64_t *best, uint32_t *next, size_t i) {
    uint64_t least = NO_SETTING;
    uint32_t chosen = 0;
    for (size_t j = i + 1; j <= n + 1; j++) {
        uint32_t page = sums[j - 1] - sums[i];
        if (page > l.lmax)
            break;
        if (page >= l.lmin && best[j] != NO_SETTING && best[j] <= least) {
            least = best[j];
            chosen = (uint32_t)j;
        }
    }
    uint64_t own = i ? sums[i] - sums[i - 1] : 0;
    best[i] = least == NO_SETTING ? least : least + own;
    next[i] = chosen;
}

HathurmoTold plain_set_index(HathurmoPageLimits l, const uint32_t *lengths, size_t n, uint32_t *sums, uint64_t *best, uint32_t *next,
                             uint32_t *boundaries) {
    fill_sums(lengths, n, sums);
    best[n + 1] = 0;
    next[n + 1] = 0;
    for (size_t i = n + 1; i-- > 0;)
        try_pages(l, sums, n, best, next, i);
    HathurmoTold t = told(best[0]);
    for (size_t b = next[0]; !t.number && b <= n; b = next[b])
        boundaries[t.lines++] = (uint32_t)b;
    return t;
}
