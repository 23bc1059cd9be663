/* The library's functions as the Arm C interface has them, over its code compiled for Arm.
 *
 * `rt lib` writes code for x86-64, where a struct of up to 16 bytes is passed in whole registers, a larger one as a copy among the
 * arguments on the stack, and a large result through a first pointer. The same code compiled for Arm keeps that form, under names that
 * begin with raw_; here each function gets its C form back.
 *
 * A paragraph's limits have 28 bytes, so they go by the stack (the module marks them byval). C for Arm passes such a struct by a pointer,
 * and has no word for a copy on the stack; but after eight arguments its registers are full, and the next ones stand on the stack in
 * order, eight bytes each. Limits come before all else that stands there: as four words behind the first eight arguments. */
#include "../../include/hathurmo.h"
#include <string.h>

typedef HathurmoTold *Told;
#define STRIP(type, name) type *name, size_t name##_len
#define PASS(name) name, name##_len

/* Paragraph limits as four words, the last half full. */
typedef struct {
    uint64_t word[4];
} Words;
#define WORDS uint64_t, uint64_t, uint64_t, uint64_t
#define PASS_WORDS(words) words.word[0], words.word[1], words.word[2], words.word[3]

static Words words_of(HathurmoLimits limits) {
    Words words = {{0, 0, 0, 0}};
    memcpy(&words, &limits, sizeof limits);
    return words;
}

/* The eighth argument is `next`; its length comes after the limits on the stack. */
Told raw_hathurmo_set_paragraph(Told, STRIP(const uint32_t, lengths), STRIP(uint32_t, sums), STRIP(uint64_t, best), uint32_t *next,
                                WORDS, size_t next_len, STRIP(uint32_t, queue), STRIP(uint32_t, moves), STRIP(uint32_t, breaks));
Told raw_hathurmo_set_index(Told, uint64_t, STRIP(const uint32_t, lengths), STRIP(uint32_t, sums), STRIP(uint64_t, best),
                            STRIP(uint32_t, next), STRIP(uint32_t, left), STRIP(uint32_t, right), STRIP(uint32_t, moves),
                            STRIP(uint32_t, boundaries));
/* Six arguments that nobody reads fill the registers. */
Told raw_hathurmo_penalty(Told, uint32_t length, uint64_t, uint64_t, uint64_t, uint64_t, uint64_t, uint64_t, WORDS);
HathurmoJob *raw_hathurmo_read_job(HathurmoJob *, STRIP(const uint8_t, job), STRIP(uint32_t, lengths));

HathurmoTold hathurmo_set_paragraph(HathurmoLimits limits, STRIP(const uint32_t, lengths), STRIP(uint32_t, sums), STRIP(uint64_t, best),
                                    STRIP(uint32_t, next), STRIP(uint32_t, queue), STRIP(uint32_t, moves), STRIP(uint32_t, breaks)) {
    HathurmoTold told;
    Words words = words_of(limits);
    raw_hathurmo_set_paragraph(&told, PASS(lengths), PASS(sums), PASS(best), next, PASS_WORDS(words), next_len, PASS(queue),
                               PASS(moves), PASS(breaks));
    return told;
}

HathurmoTold hathurmo_set_index(HathurmoPageLimits limits, STRIP(const uint32_t, lengths), STRIP(uint32_t, sums), STRIP(uint64_t, best),
                                STRIP(uint32_t, next), STRIP(uint32_t, left), STRIP(uint32_t, right), STRIP(uint32_t, moves),
                                STRIP(uint32_t, boundaries)) {
    HathurmoTold told;
    uint64_t word;
    memcpy(&word, &limits, sizeof limits);
    raw_hathurmo_set_index(&told, word, PASS(lengths), PASS(sums), PASS(best), PASS(next), PASS(left), PASS(right), PASS(moves),
                           PASS(boundaries));
    return told;
}

HathurmoTold hathurmo_penalty(HathurmoLimits limits, uint32_t length) {
    HathurmoTold told;
    Words words = words_of(limits);
    raw_hathurmo_penalty(&told, length, 0, 0, 0, 0, 0, 0, PASS_WORDS(words));
    return told;
}

HathurmoJob hathurmo_read_job(STRIP(const uint8_t, job), STRIP(uint32_t, lengths)) {
    HathurmoJob read;
    raw_hathurmo_read_job(&read, PASS(job), PASS(lengths));
    return read;
}
