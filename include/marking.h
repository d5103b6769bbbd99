/*
 * Marking patterns: vet a pattern, mark an answer. For x86-64 (System V calls), in C99 or later, or C++11 or later.
 *
 * The calls keep no state and allocate nothing, and any number of threads may make them at once. Each returns one number, which the
 * function marking_.._unpack of the same name makes a struct. What is wrong with the bytes they are given they tell by a refusal.
 *
 * Patterns, answers and the texts shown are in ISO 8859-1, one byte a letter. Text in UTF-8 has to be converted first: an e with an
 * acute accent is two bytes there, and both pass as letters, so that no refusal tells it.
 *
 * What a caller has to see to:
 *   - A slice is a pointer and a length. The pointer is to that many elements; where the length is 0 it may be null.
 *   - What a call writes (evidence, scratch, *count) overlaps with nothing else that it is given. What it only reads may overlap.
 *   - There is stack for the call: MARKING_STACK bytes are enough for any input (measured, not proved).
 * Memory that a call writes may hold anything before. A refused call writes nothing, and count may be any pointer then, null too.
 */
#ifndef MARKING_H
#define MARKING_H

#include <stddef.h>
#include <stdint.h>

#ifdef __cplusplus
extern "C" {
#endif

/* The version, as a number to compare (two hexadecimal digits each for major, minor, patch) and as text. */
#define MARKING_VERSION 0x010000
#define MARKING_VERSION_TEXT "1.0.0"

/* The most that is taken. */
#define MARKING_PATTERN_MAX 512  /* bytes of a pattern, before intervals are written out */
#define MARKING_POSITIONS_MAX 60 /* positions of a pattern, in all copies that its intervals stand for */
#define MARKING_ANSWER_MAX 4096  /* bytes of an answer */

/* The least that is asked for. */
#define MARKING_EVIDENCE 4096       /* bytes of evidence */
#define MARKING_SCRATCH 4096        /* numbers of scratch */
#define MARKING_STACK (1536 * 1024) /* bytes of stack */

/* The count that means 'so many or more'. Every smaller one is exact. */
#define MARKING_COUNT_MAX (UINT64_C(1) << 63)

/*
 * Why a call declined: the first that applies, in this order, in which 11 is between 7 and 8. A letter is a byte from 32 to 126 or from
 * 160 to 255. An interval is {m}, {m,} or {m,n}; m is the upper bound of {m} too.
 */
enum marking_refusal {
    MARKING_ACCEPTED = 0,
    MARKING_EVIDENCE_TOO_SHORT = 1, /* vet: fewer than MARKING_EVIDENCE bytes */
    MARKING_SCRATCH_TOO_SHORT = 2,  /* marking_vet_in: fewer than MARKING_SCRATCH numbers */
    MARKING_PATTERN_TOO_LONG = 3,   /* more than MARKING_PATTERN_MAX bytes */
    MARKING_PATTERN_NO_LETTER = 4,  /* a byte of the pattern is no letter */
    MARKING_PATTERN_GRAMMAR = 5,    /* the pattern does not follow the grammar */
    MARKING_RANGE_REVERSED = 6,     /* a range's first letter has a higher code than its last */
    MARKING_CLASS_EMPTY = 7,        /* a class holds no letter */
    MARKING_INTERVAL_BOUNDS = 11,   /* an interval's upper bound is 0 or below the lower one, or a bound is above 255 */
    MARKING_TOO_MANY_POSITIONS = 8, /* more than MARKING_POSITIONS_MAX */
    MARKING_ANSWER_TOO_LONG = 9,    /* mark: more than MARKING_ANSWER_MAX bytes */
    MARKING_ANSWER_NO_LETTER = 10   /* mark: a byte of the answer is no letter */
};

/* What vet says of a pattern with p positions. */
enum marking_verdict {
    MARKING_SINGLE = 0,    /* no answer has two readings */
    MARKING_STEADY = 1,    /* some have; an answer of m letters has at most (m + 2)^(2p) */
    MARKING_RUNAWAY = 2,   /* x, then k times y, then z has at least 2^k readings, for every k */
    MARKING_NO_VERDICT = 3 /* the pattern was refused */
};

/*
 * What vetting gives. The text that shows the verdict stands at the start of the evidence; beyond it the evidence keeps its old
 * bytes. Steady: the text has two readings or more, and no shorter one has two. Runaway: it is x, y and z, one after the other, so
 * that y begins at evidence + x_len and z at evidence + x_len + y_len; x and y are never empty, and no text shorter than x leads to
 * where y begins. Every length that does not apply is 0.
 */
struct marking_vetted {
    enum marking_refusal refusal;
    enum marking_verdict verdict;
    unsigned positions;
    size_t text_len;            /* steady and runaway: of the whole text */
    size_t x_len, y_len, z_len; /* runaway: of its three parts */
};

/* What marking gives besides the count. */
struct marking_marked {
    enum marking_refusal refusal;
    int32_t mark; /* the most credit that one reading earns, which may be below zero; 0 where there is no reading */
    /*
     * Letters of the answer that were taken: up to and with the first at which no position is possible any more, all of them where
     * there is none. If they are fewer than the answer has, no answer that begins with them has a reading. 0 at a refusal.
     */
    size_t taken;
};

/*
 * Vets a pattern. The number returned, for marking_vet_unpack:
 *   bits 0 to 7    the refusal, 0 for none; at a refusal all other bits are 0
 *   bits 8 to 15   the verdict
 *   bits 16 to 23  the number of positions
 *   bits 24 to 35, 36 to 47, 48 to 59  the lengths: of x, y and z, or of a steady text, 0 and 0
 */
uint64_t marking_vet(const uint8_t *pattern, size_t pattern_len, uint8_t *evidence, size_t evidence_len);

/*
 * The same in scratch that the caller lends: after a verdict its first MARKING_SCRATCH numbers may hold anything, and those beyond are
 * not touched. marking_vet brings its own, on the stack.
 */
uint64_t marking_vet_in(const uint8_t *pattern, size_t pattern_len, uint8_t *evidence, size_t evidence_len, uint16_t *scratch,
                        size_t scratch_len);

/*
 * Marks an answer by a pattern. Without a refusal *count becomes the number of readings, MARKING_COUNT_MAX where it is that or
 * more.
 * The number returned, for marking_mark_unpack:
 *   bits 0 to 31   the mark, an int32_t as two's complement
 *   bits 32 to 39  the refusal, 0 for none; at a refusal all other bits are 0
 *   bits 40 to 55  the letters taken
 */
uint64_t marking_mark(const uint8_t *pattern, size_t pattern_len, const uint8_t *answer, size_t answer_len, uint64_t *count);

/* What marking_vet or marking_vet_in returned. */
static inline struct marking_vetted marking_vet_unpack(uint64_t bits) {
    const size_t first = (size_t)(bits >> 24 & 0xfff);
    struct marking_vetted v;
    v.refusal = (enum marking_refusal)(bits & 0xff);
    v.verdict = v.refusal == MARKING_ACCEPTED ? (enum marking_verdict)(bits >> 8 & 0xff) : MARKING_NO_VERDICT;
    v.positions = (unsigned)(bits >> 16 & 0xff);
    v.x_len = v.verdict == MARKING_RUNAWAY ? first : 0;
    v.y_len = (size_t)(bits >> 36 & 0xfff);
    v.z_len = (size_t)(bits >> 48 & 0xfff);
    v.text_len = first + v.y_len + v.z_len;
    return v;
}

/* What marking_mark returned. */
static inline struct marking_marked marking_mark_unpack(uint64_t bits) {
    const uint32_t low = (uint32_t)(bits & 0xffffffff);
    struct marking_marked m;
    m.refusal = (enum marking_refusal)(bits >> 32 & 0xff);
    m.mark = low <= INT32_MAX ? (int32_t)low : -(int32_t)(UINT32_MAX - low) - 1; /* an int32_t holds what is cast */
    m.taken = (size_t)(bits >> 40 & 0xffff);
    return m;
}

#ifdef __cplusplus
}
#endif

#endif
