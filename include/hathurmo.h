/* Hathurmo: paragraph breaking at least penalty and paging at least key total, in linear time, over memory that the caller lends.
 *
 * The library is target/staticlib/libcapi.a (`tests/archive`). It allocates nothing, keeps nothing between calls and takes any
 * number of calls at once, as long as no two lend the same memory. Within one call no strip may overlap another, nor the input.
 *
 * A strip is a pointer with its count of entries. Every strip may be longer than asked for; entries past the part used never
 * change. Inputs never change. No pointer may be null; one whose count is 0 is not followed.
 *
 * What the numbers mean is in document 01; words, items and places count from 1.
 */
#ifndef HATHURMO_H
#define HATHURMO_H

#include <stddef.h>
#include <stdint.h>

#ifdef __cplusplus
extern "C" {
#endif

/* The refusals. A call checks in this order and gives the first that applies. */
enum {
    HATHURMO_SET = 0,    /* no refusal */
    HATHURMO_EMPTY = 1,  /* n is 0 */
    HATHURMO_MANY = 2,   /* n is above 4,096 */
    HATHURMO_LIMITS = 3, /* the limits break their rules */
    HATHURMO_LENGTH = 4, /* a length is 0, above 4,095 or, in a paragraph, not above the space; place: the first such word or item */
    HATHURMO_ROOM = 5,   /* a strip is too short; place: the first such strip's number, from 1, in parameter order */
    HATHURMO_NONE = 6,   /* no admissible setting exists; under edition 2 a last line that cannot reach lastmin is enough */
    HATHURMO_JOB = 7     /* the job file is malformed; place: byte offset, from 0 */
};

/* The kinds of moves. In the moves strip a move is 8 * index + kind. */
enum {
    HATHURMO_ADD = 1,
    HATHURMO_PASS = 2,
    HATHURMO_DROP = 3,
    HATHURMO_POP = 4,
    HATHURMO_STEP = 5,
    HATHURMO_JUMP = 6,
    HATHURMO_LINK = 7
};

/* The best of a start that has no setting. */
#define HATHURMO_NO_SETTING UINT64_MAX

/* The total that is told of the penalty of a line outside the measure: above every penalty. */
#define HATHURMO_OUTSIDE UINT64_MAX

/* Limits of a paragraph: 1 <= lmin <= lopt <= lmax <= 4,095, lmin < lmax, a from 1 to 15, space at most 255; edition 1 with lastmin 0,
 * or edition 2 with lastmin at most lopt.
 *
 * space is the width of the space after a word. A line is as long as its words together less one such space, for nothing stands
 * after its last word; that goes for the last line too. Every length must be above it. With 0 the space at the end of a line counts.
 *
 * edition is that of the last-line rule. Under edition 1 the last line may be as short as one word, and lastmin must be 0. Under
 * edition 2 a last line shorter than lastmin is not admissible: lastmin is the least last length, measured like every line, the space
 * off. Edition 2 with lastmin 0 is the same as edition 1. There is no other edition, so 0 is refused as LIMITS: limits whose last two
 * fields nobody wrote are not set by a rule that nobody chose. The macros below write both fields. */
typedef struct {
    uint32_t lmin, lopt, lmax, a, space, edition, lastmin;
} HathurmoLimits;

/* Limits under edition 1: a last line of any length up to lmax. It initialises a HathurmoLimits where that is declared, a static one too:
 *   static const HathurmoLimits limits = HATHURMO_EDITION_1(52, 60, 62, 3, 1);
 * In C++ a number that is no constant must be a uint32_t already. */
#define HATHURMO_EDITION_1(lmin, lopt, lmax, a, space) {(lmin), (lopt), (lmax), (a), (space), 1, 0}

/* Limits under edition 2: a last line of lastmin to lmax units. It stands where HATHURMO_EDITION_1 does. */
#define HATHURMO_EDITION_2(lmin, lopt, lmax, a, space, lastmin) {(lmin), (lopt), (lmax), (a), (space), 2, (lastmin)}

/* Limits of an index: 0 <= lmin < lmax <= 65,535. */
typedef struct {
    uint32_t lmin, lmax;
} HathurmoPageLimits;

/* What a caller is told. number is 0 or a refusal; place is 0 where the refusal says nothing else. Where it is refused, total and
 * lines are 0, and so is moves, but for NONE. */
typedef struct {
    uint32_t number;
    uint64_t place;
    uint64_t total; /* the least penalty, the least key total, or the penalty of one line */
    uint64_t lines; /* breaks or boundaries written to the answer strip */
    uint64_t moves; /* moves written to the moves strip, at most 2n */
} HathurmoTold;

/* Breaks a paragraph of n words. A word's length includes the space after it, that of the last word too.
 *
 * Room needed, in entries:
 *   sums    n+1   sums[k] is the total of the first k lengths, every space included
 *   best    n+1   best[i-1] is the least total of words i to n, HATHURMO_NO_SETTING where there is none (under edition 2 also at the
 *                 last starts, where all words to the end, as one line, are shorter than lastmin); best[n] is 0
 *   next    n+1   next[i-1] is the start after i that gives it, 0 where there is none; next[n] is 0
 *   queue   n     0 afterwards
 *   moves   2n    the moves taken
 *   breaks  n     the answer: the first word of each line
 *
 * Refusals 1 to 5 change no strip. NONE writes every strip but breaks. */
HathurmoTold hathurmo_set_paragraph(HathurmoLimits limits, const uint32_t *lengths, size_t n,
                                    uint32_t *sums, size_t sums_len, uint64_t *best, size_t best_len,
                                    uint32_t *next, size_t next_len, uint32_t *queue, size_t queue_len,
                                    uint32_t *moves, size_t moves_len, uint32_t *breaks, size_t breaks_len);

/* Pages a list of n items: chooses boundary items so that what stands between two neighbours, and before the first and after the
 * last, sums to lmin..lmax, and the boundaries' own lengths sum to the least.
 *
 * Room needed, in entries:
 *   sums        n+1   sums[k] is the total of the first k lengths
 *   best        n+2   best[i] is the least key total from i on, i from 0 to n+1; HATHURMO_NO_SETTING where there is none
 *   next        n+2   next[i] is the boundary after i that gives it, 0 where there is none; next[n+1] is 0
 *   left        n+2   left[j] is the largest k with 1 <= k < j whose best is smaller, or 0; left[0] is 0
 *   right       n+2   right[j] is the smallest k > j whose best is not larger; right[0] and right[n+1] are 0
 *   moves       2n    the moves taken
 *   boundaries  n     the answer: the boundary items between 0 and n+1, possibly none
 *
 * Refusals 1 to 5 change no strip. NONE writes every strip but boundaries. */
HathurmoTold hathurmo_set_index(HathurmoPageLimits limits, const uint32_t *lengths, size_t n,
                                uint32_t *sums, size_t sums_len, uint64_t *best, size_t best_len,
                                uint32_t *next, size_t next_len, uint32_t *left, size_t left_len,
                                uint32_t *right, size_t right_len, uint32_t *moves, size_t moves_len,
                                uint32_t *boundaries, size_t boundaries_len);

/* The penalty a * (length - lopt)^2 of one line as the total. The length is the line's own, as limits measure it: the space after its
 * last word is already off, and the limits' space takes nothing off here. A line shorter than lmin or longer than lmax has no penalty:
 * number and place are 0 and the total is HATHURMO_OUTSIDE. Lines and moves are 0. What holds of the last line is not looked at here: that
 * one of at most lopt costs nothing, and that under edition 2 one below lastmin is not admissible.
 * Refusals: LIMITS; then LENGTH, place 0, where the length is above 16,773,120. */
HathurmoTold hathurmo_penalty(HathurmoLimits limits, uint32_t length);

/* A job as read. count is the file's first: 5 for a paragraph that gives its space, 4 for one that does not (space is then 0), 2 for an
 * index (lopt, a and space are then 0). It is 0 where the job is refused; a refused read returns 0 for the limits and n too.
 * A job file says nothing of the last line: a paragraph's limits are HATHURMO_EDITION_1 of the five numbers. */
typedef struct {
    uint32_t number;
    uint64_t place;
    uint32_t count;
    uint32_t lmin, lopt, lmax, a, space;
    uint64_t n; /* lengths written to the lengths strip */
} HathurmoJob;

/* Reads a job file of job_len bytes to its end and writes its n lengths to the lengths strip. It judges the file and neither limits
 * nor lengths, which the setters judge: n = 0 is read.
 *
 * Room needed: as many entries as the job has lengths, at most 4,096.
 * Refusals, in file order: JOB at the first byte of an incomplete number; JOB at 0 where the first count is none of 5, 4 and 2; MANY;
 * ROOM 1; JOB at the first of the bytes left over. A refused read leaves the lengths strip unchanged. */
HathurmoJob hathurmo_read_job(const uint8_t *job, size_t job_len, uint32_t *lengths, size_t lengths_len);

#ifdef __cplusplus
}
#endif

#endif
