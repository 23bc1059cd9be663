/* Times the library, its twin in C and the plain way in one process, on the same inputs.
 *
 * A row is a kind of list at one n. It has many different inputs, so that the branch predictor cannot learn them; each round sets
 * all of them in a new order with each engine in turn, and the turn rotates. The medians of the rounds are printed: of each engine's
 * time, and of the library's time by each other's in the same round, so that a machine that slows down for a while slows down both.
 * Before a row is timed, the engines' answers are compared. The strips are the same for all engines and are not cleared between
 * settings. */
#define _POSIX_C_SOURCE 199309L
#include "plain.h"
#include "twin.h"

#include <stdio.h>
#include <stdlib.h>
#include <string.h>
#include <time.h>

enum { MOST = 4096, WORDS = 1 << 18, ROUNDS = 41, PLAIN_SHARE = 8 };
enum { ENGINE, TWIN, PLAIN, TEXTWRAP, ENGINES };

#ifdef WITH_TEXTWRAP
/* Lines of textwrap's optimal fit, its own penalties. */
uint64_t textwrap_lines(const uint32_t *lengths, size_t n, uint32_t width);
#endif

/* ---- random numbers ---- */

static uint64_t state = 19870001;

static uint64_t bits(void) {
    uint64_t z = (state += 0x9e3779b97f4a7c15u);
    z = (z ^ z >> 30) * 0xbf58476d1ce4e5b9u;
    z = (z ^ z >> 27) * 0x94d049bb133111ebu;
    return z ^ z >> 31;
}

static uint32_t within(uint32_t low, uint32_t high) {
    return low + (uint32_t)(bits() % ((uint64_t)high - low + 1));
}

/* ---- rows ---- */

typedef struct {
    const char *name;
    int paged;
    uint32_t shortest, longest; /* lengths at random between these; both 0: as in English text */
    uint32_t lmin, lopt_low, lopt_high, lmax_low, lmax; /* lopt and lmax at random too: alike words differ by nothing else */
    uint32_t space;                                     /* below every length; 0 counts the space at the end of a line */
    uint32_t lastmin;                                   /* above 0 under edition 2, 0 under edition 1 */
} Row;

static const Row rows[] = {
    {"words of English, 12 a line", 0, 0, 0, 50, 60, 70, 71, 73, 0, 0},
    {"words of English, 600 a line", 0, 0, 0, 2700, 3000, 3500, 3500, 3600, 0, 0},
    {"one-unit words, lmax 4095", 0, 1, 1, 1, 1000, 4095, 4095, 4095, 0, 0},
    {"lengths 1..64, 12 a line", 0, 1, 64, 250, 330, 390, 390, 410, 0, 0},
    {"lengths 1..4095, lmax 4095", 0, 1, 4095, 1, 2000, 4095, 4095, 4095, 0, 0},
    {"index, 75 items a page", 1, 1, 20, 600, 0, 0, 880, 920, 0, 0},
    {"index, limits 0..65535", 1, 1, 64, 0, 0, 0, 65535, 65535, 0, 0},
    /* The first row's text and measure. These stand last, so that the rows above have the inputs that they had before they came. */
    {"words of English, space off", 0, 0, 0, 50, 60, 70, 71, 73, 1, 0},
#ifndef EDITION_1_ALONE
    {"words of English, last line 30", 0, 0, 0, 50, 60, 70, 71, 73, 1, 30},
#endif
};

static const size_t sizes[] = {64, 256, 1024, 4096};

typedef struct {
    HathurmoLimits limits; /* of an index only lmin and lmax count */
    const uint32_t *lengths;
    HathurmoTold told; /* by the library */
} Input;

static uint32_t memory[WORDS];
static Input inputs[WORDS / 64];

/* Letters of English words by how often they occur, and one for the space. */
static uint32_t english(void) {
    static const uint8_t letters[] = {1, 2, 2, 2, 2, 3, 3, 3, 3, 3, 4, 4, 4, 4, 5, 5, 5, 6, 6, 7, 7, 8, 8, 9, 10, 12};
    return letters[within(0, sizeof letters - 1)] + 1u;
}

static HathurmoLimits make_limits(const Row *row) {
    uint32_t lmax = within(row->lmax_low, row->lmax);
    uint32_t any = row->paged ? 0 : within(row->lopt_low, row->lopt_high);
    uint32_t lopt = any < lmax ? any : lmax, a = within(1, 15);
    HathurmoLimits first = HATHURMO_EDITION_1(row->lmin, lopt, lmax, a, row->space);
    HathurmoLimits second = HATHURMO_EDITION_2(row->lmin, lopt, lmax, a, row->space, row->lastmin);
    return row->lastmin ? second : first;
}

static void make_inputs(const Row *row, size_t n) {
    for (size_t k = 0; k < WORDS; k++)
        memory[k] = row->longest ? within(row->shortest, row->longest) : english();
    for (size_t k = 0; k < WORDS / n; k++) {
        inputs[k].limits = make_limits(row);
        inputs[k].lengths = memory + k * n;
    }
}

static void shuffle(uint32_t *order, size_t count) {
    for (size_t k = count; k > 1; k--) {
        size_t other = bits() % k;
        uint32_t last = order[k - 1];
        order[k - 1] = order[other];
        order[other] = last;
    }
}

/* ---- one setting ---- */

static uint32_t sums[MOST + 1], next[MOST + 2], queue[MOST], left[MOST + 2], right[MOST + 2], moves[2 * MOST], answer[MOST];
static uint64_t best[MOST + 2];

#define PARAGRAPH_STRIPS sums, MOST + 1, best, MOST + 1, next, MOST + 1, queue, MOST, moves, 2 * MOST, answer, MOST
#define INDEX_STRIPS \
    sums, MOST + 1, best, MOST + 2, next, MOST + 2, left, MOST + 2, right, MOST + 2, moves, 2 * MOST, answer, MOST

static HathurmoTold set_paragraph(int engine, const Input *in, size_t n) {
    switch (engine) {
    case ENGINE: return hathurmo_set_paragraph(in->limits, in->lengths, n, PARAGRAPH_STRIPS);
    case TWIN: return twin_set_paragraph(in->limits, in->lengths, n, PARAGRAPH_STRIPS);
#ifdef WITH_TEXTWRAP
    case TEXTWRAP: return (HathurmoTold){.lines = textwrap_lines(in->lengths, n, in->limits.lopt)};
#endif
    default: return plain_set_paragraph(in->limits, in->lengths, n, sums, best, next, answer);
    }
}

static HathurmoTold set_index(int engine, const Input *in, size_t n) {
    HathurmoPageLimits limits = {in->limits.lmin, in->limits.lmax};
    switch (engine) {
    case ENGINE: return hathurmo_set_index(limits, in->lengths, n, INDEX_STRIPS);
    case TWIN: return twin_set_index(limits, in->lengths, n, INDEX_STRIPS);
    default: return plain_set_index(limits, in->lengths, n, sums, best, next, answer);
    }
}

static HathurmoTold set(const Row *row, int engine, const Input *in, size_t n) {
    return row->paged ? set_index(engine, in, n) : set_paragraph(engine, in, n);
}

/* ---- answers compared ---- */

static void differ(const Row *row, size_t n, size_t k, const char *with) {
    fprintf(stderr, "%s, n %zu, input %zu: the library differs from %s\n", row->name, n, k, with);
    exit(1);
}

static void compare(const Row *row, size_t n) {
    static uint32_t library_answer[MOST];
    for (size_t k = 0; k < WORDS / n; k++) {
        HathurmoTold e = inputs[k].told = set(row, ENGINE, &inputs[k], n);
        memcpy(library_answer, answer, sizeof answer);
        HathurmoTold t = set(row, TWIN, &inputs[k], n);
        int same = e.number == t.number && e.place == t.place && e.total == t.total && e.lines == t.lines && e.moves == t.moves;
        if (!same || memcmp(answer, library_answer, e.lines * sizeof *answer))
            differ(row, n, k, "its twin");
        HathurmoTold p = set(row, PLAIN, &inputs[k], n);
        same = e.number == p.number && e.total == p.total && e.lines == p.lines;
        if (!same || memcmp(answer, library_answer, e.lines * sizeof *answer))
            differ(row, n, k, "the plain way");
    }
}

/* ---- times ---- */

/* The process's own time: what else the machine does counts less. */
static double now(void) {
    struct timespec t;
    clock_gettime(CLOCK_PROCESS_CPUTIME_ID, &t);
    return (double)t.tv_sec * 1e9 + (double)t.tv_nsec;
}

/* What is told goes here, so that no setting can be left out. */
static volatile uint64_t sink;

/* ns a word over the first `count` inputs of an order. */
static double timed(const Row *row, int engine, size_t n, const uint32_t *order, size_t count) {
    double begin = now();
    for (size_t k = 0; k < count; k++)
        sink += set(row, engine, &inputs[order[k]], n).lines;
    return (now() - begin) / (double)(count * n);
}

static int by_size(const void *a, const void *b) {
    double x = *(const double *)a, y = *(const double *)b;
    return (x > y) - (x < y);
}

static double median(double *times, size_t count) {
    qsort(times, count, sizeof *times, by_size);
    return times[count / 2];
}

static int takes_part(const Row *row, int engine) {
#ifdef WITH_TEXTWRAP
    if (engine == TEXTWRAP)
        return !row->paged && !row->longest;
#endif
    (void)row;
    return engine != TEXTWRAP;
}

typedef struct {
    double ns[ENGINES];    /* a word, 0 where an engine takes no part */
    double ratio[ENGINES]; /* the library's time by this engine's */
} Medians;

static Medians run_rounds(const Row *row, size_t n) {
    static double times[ENGINES][ROUNDS];
    static uint32_t order[WORDS / 64];
    size_t count = WORDS / n;
    for (size_t k = 0; k < count; k++)
        order[k] = (uint32_t)k;
    for (int round = 0; round < ROUNDS; round++) {
        for (int turn = 0; turn < ENGINES; turn++) {
            int engine = (turn + round) % ENGINES;
            if (!takes_part(row, engine))
                continue;
            shuffle(order, count);
            /* The slow ones set a share of the inputs, another one each round. */
            times[engine][round] = timed(row, engine, n, order, engine == PLAIN || engine == TEXTWRAP ? count / PLAIN_SHARE : count);
        }
    }
    Medians medians = {0};
    for (int engine = ENGINES - 1; engine >= 0; engine--) { /* the library last: taking a median sorts its times */
        if (!takes_part(row, engine))
            continue;
        double ratios[ROUNDS];
        for (int round = 0; round < ROUNDS; round++)
            ratios[round] = times[ENGINE][round] / times[engine][round];
        medians.ratio[engine] = median(ratios, ROUNDS);
        medians.ns[engine] = median(times[engine], ROUNDS);
    }
    return medians;
}

static size_t nones(size_t n) {
    size_t found = 0;
    for (size_t k = 0; k < WORDS / n; k++)
        found += inputs[k].told.number == HATHURMO_NONE;
    return found;
}

static void print_head(void) {
    printf("ns a word; medians of %d rounds; strips not cleared between settings\n", ROUNDS);
    printf("%-30s %5s %6s %5s | %8s %8s %9s | %12s %13s\n", "row", "n", "inputs", "none", "engine", "twin", "plain", "engine/twin",
           "engine/plain");
}

static void run_row(const Row *row, size_t n) {
    make_inputs(row, n);
    compare(row, n);
    Medians m = run_rounds(row, n);
    printf("%-30s %5zu %6zu %5zu | %8.2f %8.2f %9.2f | %12.2f %13.3f\n", row->name, n, WORDS / n, nones(n), m.ns[ENGINE], m.ns[TWIN],
           m.ns[PLAIN], m.ratio[TWIN], m.ratio[PLAIN]);
    if (m.ns[TEXTWRAP] > 0)
        printf("%-30s %5zu %6s %5s | %8s textwrap %9.2f | engine/textwrap %10.3f\n", "  textwrap's optimal fit", n, "", "", "",
               m.ns[TEXTWRAP], m.ratio[TEXTWRAP]);
    fflush(stdout);
}

/* ---- for bench/count ---- */

enum { ROWS = sizeof rows / sizeof *rows };

/* A line for each row: its number, the function that sets it, the words of all its inputs, its name. */
static void print_rows(size_t n) {
    for (size_t row = 0; row < ROWS; row++)
        printf("%zu\t%s\t%zu\t%s\n", row, rows[row].paged ? "set_index" : "set_paragraph", WORDS / n * n, rows[row].name);
}

/* Sets each input of a row once. */
static void set_once(int engine, const Row *row, size_t n) {
    make_inputs(row, n);
    for (size_t k = 0; k < WORDS / n; k++)
        sink += set(row, engine, &inputs[k], n).lines;
}

static void print_table(void) {
    print_head();
    for (size_t row = 0; row < ROWS; row++)
        for (size_t size = 0; size < sizeof sizes / sizeof *sizes; size++)
            run_row(&rows[row], sizes[size]);
}

/* With no words the table; `rows N` and `library|twin ROW N` are what bench/count asks. */
int main(int count, char **words) {
    size_t n = count > 1 ? strtoul(words[count - 1], NULL, 10) : MOST;
    size_t row = count == 4 ? strtoul(words[2], NULL, 10) : 0;
    if (n < 64 || n > MOST || row >= ROWS) {
        fprintf(stderr, "bench: n is 64 to %d, a row is below %d\n", MOST, ROWS);
        return 2;
    }
    if (count == 1)
        print_table();
    else if (count == 3)
        print_rows(n);
    else
        set_once(strcmp(words[1], "twin") ? ENGINE : TWIN, &rows[row], n);
    return 0;
}
