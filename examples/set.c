/* Sets P1 of the compositor's table from C and prints its lines.
 *
 *   tests/archive
 *   cc -I include examples/set.c target/staticlib/libcapi.a -o set && ./set
 *
 * It prints 01's listing of P1 without the heads: first word, length and penalty of each line, then the total. */
#include <hathurmo.h>
#include <stdio.h>

enum { N = 4 };

int main(void) {
    /* lmin, lopt, lmax, a and the space. 01 counts the space after a line's last word: 0. With the width of a space here it is taken off
     * each line. Under edition 1 the last line may be as short as one word; HATHURMO_EDITION_2 takes its least length too. */
    const HathurmoLimits limits = HATHURMO_EDITION_1(1, 6, 6, 1, 0);
    const uint32_t lengths[N] = {3, 2, 2, 5};
    uint32_t sums[N + 1], next[N + 1], queue[N], moves[2 * N], breaks[N];
    uint64_t best[N + 1];

    HathurmoTold told = hathurmo_set_paragraph(limits, lengths, N, sums, N + 1, best, N + 1, next, N + 1, queue, N, moves, 2 * N,
                                               breaks, N);
    if (told.number) {
        printf("refused %u %llu\n", (unsigned)told.number, (unsigned long long)told.place);
        return 1;
    }
    for (uint64_t k = 0; k < told.lines; k++) {
        uint32_t first = breaks[k], after = next[first - 1];
        /* What a line costs is its start's best less the next start's: this holds for the free last line too. */
        printf("%u %u %llu\n", (unsigned)first, (unsigned)(sums[after - 1] - sums[first - 1] - limits.space),
               (unsigned long long)(best[first - 1] - best[after - 1]));
    }
    printf("total %llu\n", (unsigned long long)told.total);
    return 0;
}
