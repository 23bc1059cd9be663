/* The twin: document 01's rules written by hand in C, with the library's interface under names that begin with twin_.
 *
 * The bench compares the library's speed with it. Built with -DTWIN_NAME(name)=hathurmo_##name it stands in for the library, so that
 * the outside tests can be tried without one. */
#include "../include/hathurmo.h"

#include <string.h>

#ifndef TWIN_NAME
#define TWIN_NAME(name) twin_##name
#endif

#define NO_SETTING HATHURMO_NO_SETTING

static HathurmoTold refused(uint32_t number, uint64_t place) {
    return (HathurmoTold){.number = number, .place = place};
}

/* ---- refusals 1 to 5 ---- */

/* The editions of the last-line rule: the first has no least last length. */
static int edition_holds(HathurmoLimits l) {
    return (l.edition == 1 && l.lastmin == 0) || (l.edition == 2 && l.lastmin <= l.lopt);
}

static int limits_hold(HathurmoLimits l) {
    return 1 <= l.lmin && l.lmin <= l.lopt && l.lopt <= l.lmax && l.lmax <= 4095 && l.lmin < l.lmax && 1 <= l.a && l.a <= 15 &&
           l.space <= 255 && edition_holds(l);
}

static int page_limits_hold(HathurmoPageLimits l) {
    return l.lmin < l.lmax && l.lmax <= 65535;
}

/* The first word whose length is not above the space (0 too, then) or above 4,095, or 0. */
static size_t first_bad(uint32_t space, const uint32_t *lengths, size_t n) {
    for (size_t k = 0; k < n; k++)
        if (lengths[k] - space - 1 >= 4095 - space) /* a length not above the space wraps round to the top */
            return k + 1;
    return 0;
}

/* An index has no space: 0. */
static HathurmoTold check(int limits_good, uint32_t space, const uint32_t *lengths, size_t n, size_t strips, const size_t *needed,
                          const size_t *lent) {
    if (n == 0)
        return refused(HATHURMO_EMPTY, 0);
    if (n > 4096)
        return refused(HATHURMO_MANY, 0);
    if (!limits_good)
        return refused(HATHURMO_LIMITS, 0);
    size_t bad = first_bad(space, lengths, n);
    if (bad)
        return refused(HATHURMO_LENGTH, bad);
    for (size_t k = 0; k < strips; k++)
        if (lent[k] < needed[k])
            return refused(HATHURMO_ROOM, k + 1);
    return refused(HATHURMO_SET, 0);
}

static void fill_sums(const uint32_t *lengths, size_t n, uint32_t *sums) {
    uint32_t total = 0;
    sums[0] = 0;
    for (size_t k = 0; k < n; k++) {
        total += lengths[k];
        sums[k + 1] = total;
    }
}

/* ---- the paragraph: queue rules ---- */

typedef struct {
    HathurmoLimits limits;
    const uint32_t *sums;
    uint64_t *best; /* best[i - 1] is start i's */
    uint32_t *queue, *moves;
    size_t front, end; /* the queue stands at front..end of its strip */
    size_t candidate, count;
} Queue;

/* The words i to j-1 with the space after each. */
static inline uint32_t apart(const Queue *q, size_t i, size_t j) {
    return q->sums[j - 1] - q->sums[i - 1];
}

/* Line(i, j) for i < j: less the space after its last word. */
static inline uint32_t line(const Queue *q, size_t i, size_t j) {
    return apart(q, i, j) - q->limits.space;
}

/* Whether Line(i, j) is lmin or more, for i <= j: at j = i there is no space to take off, so it is put on the other side. */
static inline int reaches(const Queue *q, size_t i, size_t j) {
    return apart(q, i, j) >= q->limits.lmin + q->limits.space;
}

/* Inside the measure, so 32 bits hold the product (W-206). */
static inline uint64_t penalty(HathurmoLimits l, uint32_t x) {
    int32_t d = (int32_t)x - (int32_t)l.lopt;
    return l.a * (uint32_t)(d * d);
}

static inline uint64_t through(const Queue *q, size_t i, size_t j) {
    return q->best[j - 1] + penalty(q->limits, line(q, i, j));
}

static inline void move(Queue *q, uint32_t kind, size_t index) {
    q->moves[q->count++] = 8 * (uint32_t)index + kind;
}

/* Between two break points the space cancels, so these are plain sums (W-202). */
static inline int bridged(const Queue *q, size_t j, size_t k, size_t l) {
    HathurmoLimits m = q->limits;
    uint64_t jk = apart(q, j, k), kl = apart(q, k, l), jl = apart(q, j, l);
    uint64_t bj = q->best[j - 1], bk = q->best[k - 1], bl = q->best[l - 1];
    return bk + penalty(m, m.lmax - (uint32_t)kl) >= bj + penalty(m, m.lmax - (uint32_t)jl) &&
           jl * bk >= jk * bl + kl * bj + m.a * jk * jl * kl;
}

static inline void drop_long(Queue *q, size_t i) {
    while (q->front < q->end && line(q, i, q->queue[q->front]) > q->limits.lmax)
        move(q, HATHURMO_DROP, q->queue[q->front++]);
}

static inline void add(Queue *q, size_t i) {
    size_t j = q->candidate;
    uint64_t f = through(q, i, j);
    while (q->front < q->end && f <= through(q, i, q->queue[q->end - 1]))
        move(q, HATHURMO_POP, q->queue[--q->end]);
    while (q->front + 2 <= q->end && bridged(q, j, q->queue[q->end - 1], q->queue[q->end - 2]))
        move(q, HATHURMO_POP, q->queue[--q->end]);
    q->queue[q->end++] = (uint32_t)j;
    move(q, HATHURMO_ADD, j);
}

static inline void consider(Queue *q, size_t i) {
    for (; reaches(q, i, q->candidate); q->candidate--) {
        if (line(q, i, q->candidate) > q->limits.lmax || q->best[q->candidate - 1] == NO_SETTING)
            move(q, HATHURMO_PASS, q->candidate);
        else
            add(q, i);
    }
}

static inline void drop_worse(Queue *q, size_t i) {
    while (q->front + 2 <= q->end && through(q, i, q->queue[q->front + 1]) <= through(q, i, q->queue[q->front]))
        move(q, HATHURMO_DROP, q->queue[q->front++]);
}

/* The least last length is lastmin under both editions: limits that hold have 0 there under the first. Where the rest is shorter, the
 * front, if one stands, is no chooser. */
static inline void take(Queue *q, size_t i, size_t n, uint32_t *next) {
    uint64_t best = NO_SETTING;
    uint32_t chosen = 0, rest = line(q, i, n + 1);
    if (rest <= q->limits.lopt) {
        if (rest >= q->limits.lastmin) {
            best = 0;
            chosen = (uint32_t)n + 1;
        }
    } else if (q->front < q->end) {
        chosen = q->queue[q->front];
        best = through(q, i, chosen);
    }
    q->best[i - 1] = best;
    next[i - 1] = chosen;
}

static size_t follow_breaks(const uint32_t *next, size_t n, uint32_t *breaks) {
    size_t lines = 0;
    for (size_t i = 1; i <= n; i = next[i - 1])
        breaks[lines++] = (uint32_t)i;
    return lines;
}

HathurmoTold TWIN_NAME(set_paragraph)(HathurmoLimits limits, const uint32_t *lengths, size_t n, uint32_t *sums, size_t sums_len,
                                      uint64_t *best, size_t best_len, uint32_t *next, size_t next_len, uint32_t *queue,
                                      size_t queue_len, uint32_t *moves, size_t moves_len, uint32_t *breaks, size_t breaks_len) {
    const size_t needed[] = {n + 1, n + 1, n + 1, n, 2 * n, n};
    const size_t lent[] = {sums_len, best_len, next_len, queue_len, moves_len, breaks_len};
    HathurmoTold told = check(limits_hold(limits), limits.space, lengths, n, 6, needed, lent);
    if (told.number)
        return told;
    fill_sums(lengths, n, sums);
    best[n] = 0;
    next[n] = 0;
    Queue q = {.limits = limits, .sums = sums, .best = best, .queue = queue, .moves = moves, .candidate = n + 1};
    for (size_t i = n; i >= 1; i--) {
        drop_long(&q, i);
        consider(&q, i);
        drop_worse(&q, i);
        take(&q, i, n, next);
    }
    memset(queue, 0, n * sizeof *queue);
    told.moves = q.count;
    if (best[0] == NO_SETTING) {
        told.number = HATHURMO_NONE;
        return told;
    }
    told.total = best[0];
    told.lines = follow_breaks(next, n, breaks);
    return told;
}

/* The length is the line's own: the space is already off. Which line it is nobody says, so lastmin asks nothing of it. */
HathurmoTold TWIN_NAME(penalty)(HathurmoLimits limits, uint32_t length) {
    if (!limits_hold(limits))
        return refused(HATHURMO_LIMITS, 0);
    if (length > 16773120)
        return refused(HATHURMO_LENGTH, 0);
    HathurmoTold told = refused(HATHURMO_SET, 0);
    told.total = limits.lmin <= length && length <= limits.lmax ? penalty(limits, length) : HATHURMO_OUTSIDE;
    return told;
}

/* ---- the index: pointer rules ---- */

typedef struct {
    HathurmoPageLimits limits;
    const uint32_t *lengths, *sums;
    uint64_t *best;
    uint32_t *next, *left, *right, *moves;
    size_t r, count;
} Pointer;

static inline uint32_t gap(const Pointer *p, size_t a, size_t b) {
    return p->sums[b - 1] - p->sums[a];
}

static inline void record(Pointer *p, uint32_t kind, size_t index) {
    p->moves[p->count++] = 8 * (uint32_t)index + kind;
}

static inline void step(Pointer *p, size_t i) {
    while (gap(p, i, p->r) > p->limits.lmax)
        record(p, HATHURMO_STEP, --p->r);
}

static inline void jump(Pointer *p, size_t i) {
    while (p->left[p->r] && gap(p, i, p->left[p->r]) >= p->limits.lmin) {
        p->r = p->left[p->r];
        record(p, HATHURMO_JUMP, p->r);
    }
}

static inline void point(Pointer *p, size_t i) {
    uint32_t page = gap(p, i, p->r);
    int chooses = p->limits.lmin <= page && page <= p->limits.lmax && p->best[p->r] != NO_SETTING;
    p->next[i] = chooses ? (uint32_t)p->r : 0;
    p->best[i] = chooses ? p->best[p->r] + (i ? p->lengths[i - 1] : 0) : NO_SETTING;
}

static inline void link_back(Pointer *p, size_t i) {
    size_t k = i + 1;
    while (p->best[k] > p->best[i]) {
        p->left[k] = (uint32_t)i;
        record(p, HATHURMO_LINK, k);
        k = p->right[k];
    }
    p->right[i] = (uint32_t)k;
}

static size_t follow_boundaries(const uint32_t *next, size_t n, uint32_t *boundaries) {
    size_t found = 0;
    for (size_t b = next[0]; b <= n; b = next[b])
        boundaries[found++] = (uint32_t)b;
    return found;
}

HathurmoTold TWIN_NAME(set_index)(HathurmoPageLimits limits, const uint32_t *lengths, size_t n, uint32_t *sums, size_t sums_len,
                                  uint64_t *best, size_t best_len, uint32_t *next, size_t next_len, uint32_t *left, size_t left_len,
                                  uint32_t *right, size_t right_len, uint32_t *moves, size_t moves_len, uint32_t *boundaries,
                                  size_t boundaries_len) {
    const size_t needed[] = {n + 1, n + 2, n + 2, n + 2, n + 2, 2 * n, n};
    const size_t lent[] = {sums_len, best_len, next_len, left_len, right_len, moves_len, boundaries_len};
    HathurmoTold told = check(page_limits_hold(limits), 0, lengths, n, 7, needed, lent);
    if (told.number)
        return told;
    fill_sums(lengths, n, sums);
    memset(left, 0, (n + 2) * sizeof *left);
    right[0] = right[n + 1] = next[n + 1] = 0;
    best[n + 1] = 0;
    Pointer p = {limits, lengths, sums, best, next, left, right, moves, n + 1, 0};
    for (size_t i = n; i >= 1; i--) {
        step(&p, i);
        jump(&p, i);
        point(&p, i);
        link_back(&p, i);
    }
    step(&p, 0);
    jump(&p, 0);
    point(&p, 0);
    told.moves = p.count;
    if (best[0] == NO_SETTING) {
        told.number = HATHURMO_NONE;
        return told;
    }
    told.total = best[0];
    told.lines = follow_boundaries(next, n, boundaries);
    return told;
}

/* ---- the job reader ---- */

typedef struct {
    const uint8_t *bytes;
    size_t len, at; /* at is the first byte not yet read */
    int cut;        /* the number at `at` is incomplete */
} Reader;

/* The number at a byte offset, low byte first; four of its bytes stand there. */
static uint32_t number_at(const uint8_t *bytes, size_t at) {
    return bytes[at] | (uint32_t)bytes[at + 1] << 8 | (uint32_t)bytes[at + 2] << 16 | (uint32_t)bytes[at + 3] << 24;
}

/* The next number, or 0 and cut; once cut, nothing more is read. */
static uint32_t number(Reader *r) {
    if (r->cut || r->len - r->at < 4) {
        r->cut = 1;
        return 0;
    }
    r->at += 4;
    return number_at(r->bytes, r->at - 4);
}

static HathurmoJob job_refused(uint32_t number, uint64_t place) {
    return (HathurmoJob){.number = number, .place = place};
}

/* The lengths are counted before any is written, so that a refused read leaves the strip as it was. */
static HathurmoJob read_lengths(Reader r, HathurmoJob job, uint32_t *lengths) {
    size_t begin = r.at;
    for (uint64_t k = 0; k < job.n; k++)
        number(&r);
    if (r.cut || r.at < r.len)
        return job_refused(HATHURMO_JOB, r.at);
    for (uint64_t k = 0; k < job.n; k++)
        lengths[k] = number_at(r.bytes, begin + 4 * k);
    return job;
}

HathurmoJob TWIN_NAME(read_job)(const uint8_t *bytes, size_t len, uint32_t *lengths, size_t lengths_len) {
    Reader r = {bytes, len, 0, 0};
    HathurmoJob job = job_refused(HATHURMO_SET, 0);
    job.count = number(&r);
    if (r.cut || (job.count != 5 && job.count != 4 && job.count != 2))
        return job_refused(HATHURMO_JOB, 0);
    job.lmin = number(&r);
    if (job.count != 2)
        job.lopt = number(&r);
    job.lmax = number(&r);
    if (job.count != 2)
        job.a = number(&r);
    if (job.count == 5)
        job.space = number(&r);
    job.n = number(&r);
    if (r.cut)
        return job_refused(HATHURMO_JOB, r.at);
    if (job.n > 4096)
        return job_refused(HATHURMO_MANY, 0);
    if (job.n > lengths_len)
        return job_refused(HATHURMO_ROOM, 1);
    return read_lengths(r, job, lengths);
}
