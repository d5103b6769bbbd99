/*
 * The memory that the calls may not touch: null with length 0 for every slice, memory that cannot be written behind every refused
 * call, null and memory that cannot even be read behind the count of a refused mark, and slices that end where memory ends. Touching
 * it is a crash, which is told with the name of the test. Besides, the first and the last letters and the codes beside them, and
 * marks on both sides of 0 and at both ends and letters taken, bit by bit. The last line is 'N passed, M failed', and any failure
 * makes the exit status 1.
 */
#define _DEFAULT_SOURCE /* MAP_ANONYMOUS */
#include "marking.h"

#include <signal.h>
#include <stdio.h>
#include <stdlib.h>
#include <string.h>
#include <sys/mman.h>
#include <unistd.h>

enum { PAGE = 4096, SCRATCH_BYTES = 2 * MARKING_SCRATCH };

static int passed, failed;
static const char *running = "";

static void crashed(int signal_number) {
    (void)signal_number;
    (void)!write(STDOUT_FILENO, "FAILED: a crash: ", 17);
    (void)!write(STDOUT_FILENO, running, strlen(running));
    (void)!write(STDOUT_FILENO, "\n", 1);
    _exit(1);
}

static void check(int right) {
    if (right) {
        passed++;
    } else {
        printf("FAILED: %s\n", running);
        failed++;
    }
}

/* Memory of so many bytes, a multiple of a page, between two pages that cannot be touched; it is filled and then protected so. */
static void *memory(size_t bytes, int protection) {
    uint8_t *all = mmap(NULL, bytes + 2 * PAGE, PROT_NONE, MAP_PRIVATE | MAP_ANONYMOUS, -1, 0);
    if (all == MAP_FAILED || mprotect(all + PAGE, bytes, PROT_READ | PROT_WRITE) != 0)
        exit(2);
    memset(all + PAGE, 0x5a, bytes);
    if (mprotect(all + PAGE, bytes, protection) != 0)
        exit(2);
    return all + PAGE;
}

/* A text of n bytes whose last byte is the last before memory that cannot be read. */
static const uint8_t *at_the_end(const char *text, size_t n) {
    uint8_t *page = memory(2 * PAGE, PROT_READ | PROT_WRITE);
    memcpy(page + 2 * PAGE - n, text, n);
    return page + 2 * PAGE - n;
}

/* What is returned for mark 0 after so many letters. */
static uint64_t taken(uint64_t letters) { return letters << 40; }

struct refused {
    const char *name;
    const uint8_t *pattern;
    size_t pattern_len;
    const uint8_t *answer;
    size_t answer_len;
    enum marking_refusal want;
};

/* A count that is null, or cannot be touched, or cannot be written, or must be as before, behind every refusal that marking knows. */
static void refused_marks(const struct refused *cases, size_t n) {
    uint64_t *kept = memory(PAGE, PROT_READ | PROT_WRITE);
    uint64_t *counts[] = {NULL, memory(PAGE, PROT_NONE), memory(PAGE, PROT_READ), kept};
    for (size_t i = 0; i < n; i++)
        for (size_t k = 0; k < 4; k++) {
            const struct refused *c = &cases[i];
            running = c->name;
            uint64_t bits = marking_mark(c->pattern, c->pattern_len, c->answer, c->answer_len, counts[k]);
            struct marking_marked m = marking_mark_unpack(bits);
            check(bits == (uint64_t)c->want << 32 && m.refusal == c->want && m.mark == 0 && m.taken == 0 &&
                  *kept == UINT64_C(0x5a5a5a5a5a5a5a5a));
        }
}

/* Evidence and scratch that cannot be touched, behind every refusal that vetting knows. */
static void refused_vets(const struct refused *cases, size_t n) {
    uint8_t *evidence = memory(MARKING_EVIDENCE, PROT_NONE);
    uint16_t *scratch = memory(SCRATCH_BYTES, PROT_NONE);
    for (size_t i = 0; i < n; i++) {
        const uint8_t *pattern = cases[i].pattern;
        size_t len = cases[i].pattern_len;
        running = cases[i].name;
        check(marking_vet(pattern, len, evidence, MARKING_EVIDENCE) == (uint64_t)cases[i].want);
        check(marking_vet_in(pattern, len, evidence, MARKING_EVIDENCE, scratch, MARKING_SCRATCH) == (uint64_t)cases[i].want);
        check(marking_vet_in(pattern, len, evidence, MARKING_EVIDENCE, NULL, 0) == MARKING_SCRATCH_TOO_SHORT);
        check(marking_vet_in(pattern, len, evidence, MARKING_EVIDENCE, scratch, MARKING_SCRATCH - 1) == MARKING_SCRATCH_TOO_SHORT);
        check(marking_vet_in(pattern, len, NULL, 0, NULL, 0) == MARKING_EVIDENCE_TOO_SHORT);
        check(marking_vet_in(pattern, len, evidence, MARKING_EVIDENCE - 1, scratch, MARKING_SCRATCH) == MARKING_EVIDENCE_TOO_SHORT);
        check(marking_vet(pattern, len, NULL, 0) == MARKING_EVIDENCE_TOO_SHORT);
        check(marking_vet(pattern, len, evidence, MARKING_EVIDENCE - 1) == MARKING_EVIDENCE_TOO_SHORT);
    }
}

/* Null with length 0: the empty pattern, the empty answer. A pointer to memory that cannot be read is the same. */
static void empty_slices(void) {
    const uint8_t *nothing[] = {NULL, memory(PAGE, PROT_NONE)};
    uint8_t *evidence = memory(MARKING_EVIDENCE, PROT_READ | PROT_WRITE);
    uint16_t *scratch = memory(SCRATCH_BYTES, PROT_READ | PROT_WRITE);
    const uint8_t *optional = at_the_end("a?", 2);
    for (size_t i = 0; i < 2; i++) {
        uint64_t count = 7;
        running = "vet, the empty pattern";
        check(marking_vet(nothing[i], 0, evidence, MARKING_EVIDENCE) == MARKING_PATTERN_GRAMMAR);
        check(marking_vet_in(nothing[i], 0, evidence, MARKING_EVIDENCE, scratch, MARKING_SCRATCH) == MARKING_PATTERN_GRAMMAR);
        running = "mark, the empty pattern";
        check(marking_mark_unpack(marking_mark(nothing[i], 0, nothing[i], 0, NULL)).refusal == MARKING_PATTERN_GRAMMAR);
        running = "mark, the empty answer, one reading";
        check(marking_mark(optional, 2, nothing[i], 0, &count) == 0 && count == 1);
        running = "mark, the empty answer, no reading";
        check(marking_mark(optional, 1, nothing[i], 0, &count) == 0 && count == 0);
    }
}

/* Memory that ends where the slice ends: what is beyond is neither read nor written. */
static void whole_slices(void) {
    const char *runaway = "(a|b|ab)*c";
    const uint8_t *pattern = at_the_end(runaway, strlen(runaway));
    const uint8_t *answer = at_the_end("abababc", 7);
    uint8_t *evidence = memory(MARKING_EVIDENCE, PROT_READ | PROT_WRITE);
    uint16_t *scratch = memory(SCRATCH_BYTES, PROT_READ | PROT_WRITE);
    uint64_t *count = memory(PAGE, PROT_READ | PROT_WRITE);
    char widest[2 * MARKING_POSITIONS_MAX];
    count += PAGE / sizeof *count - 1;
    running = "vet, slices at the end of memory";
    check(marking_vet_unpack(marking_vet(pattern, strlen(runaway), evidence, MARKING_EVIDENCE)).verdict == MARKING_RUNAWAY);
    running = "vet_in, slices at the end of memory";
    check(marking_vet_unpack(marking_vet_in(pattern, strlen(runaway), evidence, MARKING_EVIDENCE, scratch, MARKING_SCRATCH)).verdict ==
          MARKING_RUNAWAY);
    running = "vet_in, more scratch is said to be lent, and memory ends where the numbers end that are used";
    check(marking_vet_unpack(marking_vet_in(pattern, strlen(runaway), evidence, MARKING_EVIDENCE, scratch, 2 * MARKING_SCRATCH))
              .verdict == MARKING_RUNAWAY);
    running = "vet_in, the widest search";
    for (size_t i = 0; i < sizeof widest; i++)
        widest[i] = "a?"[i % 2];
    pattern = at_the_end(widest, sizeof widest);
    check(marking_vet_unpack(marking_vet_in(pattern, sizeof widest, evidence, MARKING_EVIDENCE, scratch, MARKING_SCRATCH)).verdict ==
          MARKING_STEADY);
    running = "mark, slices at the end of memory";
    pattern = at_the_end(runaway, strlen(runaway));
    check(marking_mark(pattern, strlen(runaway), answer, 7, count) == taken(7) && *count == 8);
    running = "mark, links, slices at the end of memory";
    pattern = at_the_end("((a*b?)*)*", 10);
    answer = at_the_end("aab", 3);
    check(marking_mark(pattern, 10, answer, 3, count) == taken(3) && *count == 9);
    running = "vet, an interval at the end of memory";
    pattern = at_the_end("(a{1,2}|b=1){15}", 16);
    check(marking_vet_unpack(marking_vet(pattern, 16, evidence, MARKING_EVIDENCE)).positions == 45);
    running = "mark, sixty copies, slices at the end of memory";
    pattern = at_the_end("(a*){60}", 8);
    answer = at_the_end("aaa", 3);
    check(marking_mark(pattern, 8, answer, 3, count) == taken(3) && *count == 60 * 61 * 62 / 6);
    running = "mark, copies with links, slices at the end of memory";
    pattern = at_the_end("((a*)*){60}", 11);
    check(marking_mark(pattern, 11, answer, 3, count) == taken(3) && *count == 60 * 4 + 60 * 59 * 2 + 60 * 59 * 58 / 6);
    running = "mark, one text as pattern and as answer";
    pattern = at_the_end("abc", 3);
    check(marking_mark(pattern, 3, pattern, 3, count) == taken(3) && *count == 1);
    running = "mark, a wrong answer at the end of memory";
    answer = at_the_end("abx", 3);
    check(marking_mark(pattern, 3, answer, 3, count) == taken(3) && *count == 0);
    running = "mark, an answer at the end of memory that is wrong at its first letter";
    answer = at_the_end("xabc", 4);
    check(marking_mark(pattern, 3, answer, 4, count) == taken(1) && *count == 0);
    running = "mark, an answer at the end of memory that ends too soon";
    answer = at_the_end("ab", 2);
    check(marking_mark(pattern, 3, answer, 2, count) == taken(2) && *count == 0);
}

/* The codes at both ends of the letters and of the gap between them: alone, in a class and in a range, and as an answer. */
static void edge_codes(void) {
    static const struct {
        const char *name;
        uint8_t code;
        int letter;
    } codes[] = {{"code 31", 31, 0},   {"code 32", 32, 1},   {"code 126", 126, 1}, {"code 127", 127, 0}, {"code 128", 128, 0},
                 {"code 159", 159, 0}, {"code 160", 160, 1}, {"code 255", 255, 1}, {"code 0", 0, 0}};
    uint8_t *evidence = memory(MARKING_EVIDENCE, PROT_READ | PROT_WRITE);
    for (size_t i = 0; i < sizeof codes / sizeof codes[0]; i++) {
        char c = (char)codes[i].code;
        enum marking_refusal as_pattern = codes[i].letter ? MARKING_ACCEPTED : MARKING_PATTERN_NO_LETTER;
        enum marking_refusal as_answer = codes[i].letter ? MARKING_ACCEPTED : MARKING_ANSWER_NO_LETTER;
        const char class_of[] = {'[', c, ']'}, others[] = {'[', '^', c, ']'}, range[] = {'[', ' ', '-', c, ']'};
        const uint8_t *patterns[] = {at_the_end(&c, 1), at_the_end(class_of, 3), at_the_end(others, 4), at_the_end(range, 5)};
        const size_t lens[] = {1, 3, 4, 5};
        const uint8_t *dot = at_the_end(".", 1), *answer = patterns[0];
        running = codes[i].name;
        for (size_t k = 0; k < 4; k++) {
            uint64_t count = 7;
            uint64_t want = !codes[i].letter ? 7 : k == 2 ? 0 : 1; /* [^c] does not read it */
            struct marking_vetted v = marking_vet_unpack(marking_vet(patterns[k], lens[k], evidence, MARKING_EVIDENCE));
            struct marking_marked m = marking_mark_unpack(marking_mark(patterns[k], lens[k], answer, 1, &count));
            check(v.refusal == as_pattern && v.positions == (codes[i].letter ? 1u : 0u));
            check(m.refusal == as_pattern && count == want);
            check(m.taken == (codes[i].letter ? 1u : 0u));
        }
        uint64_t count = 7;
        struct marking_marked m = marking_mark_unpack(marking_mark(dot, 1, answer, 1, &count));
        check(m.refusal == as_answer && m.taken == (codes[i].letter ? 1u : 0u));
        check(count == (codes[i].letter ? 1 : 7));
    }
    running = "the texts shown, accented";
    const uint8_t *steady = at_the_end("(\xe9|[\xe0-\xff])b", 10);
    check(marking_vet_unpack(marking_vet(steady, 10, evidence, MARKING_EVIDENCE)).text_len == 2 && memcmp(evidence, "\xe9\x62", 2) == 0);
}

/* Marks as the bits that are returned, which have nothing but the mark and the letters taken in them, and unpacked. */
static void signed_marks(void) {
    static char long_text[MARKING_ANSWER_MAX];
    memset(long_text, 'a', sizeof long_text);
    const struct {
        const char *name, *pattern;
        size_t answer_len;
        uint64_t bits, count;
        int32_t mark;
        size_t taken;
    } cases[] = {
        {"mark -1", "a=-1", 1, 0x100ffffffff, 1, -1, 1},
        {"mark -2", "a=-2", 1, 0x100fffffffe, 1, -2, 1},
        {"mark 1", "a=1", 1, 0x10000000001, 1, 1, 1},
        {"mark 3", "a=3", 1, 0x10000000003, 1, 3, 1},
        {"mark -1, the better of two", "a=-2|a=-1", 1, 0x100ffffffff, 2, -1, 1},
        {"mark 0, one reading", "a=-1a=1", 2, 0x20000000000, 1, 0, 2},
        {"mark 0, the empty answer", "a=-5*", 0, 0, 1, 0, 0},
        {"mark 0, no reading", "a=-5", 2, 0x20000000000, 0, 0, 2},
        {"mark 0, no reading after the second letter", "a=-5", 3, 0x20000000000, 0, 0, 2},
        {"mark 0, no reading of the empty answer", "a=-5", 0, 0, 0, 0, 0},
        {"mark 0, no reading of the longest answer", "a=-9*b", MARKING_ANSWER_MAX, 0x10000000000000, 0, 0, MARKING_ANSWER_MAX},
        {"mark -36,864", "a=-9*", MARKING_ANSWER_MAX, 0x100000ffff7000, 1, -36864, MARKING_ANSWER_MAX},
        {"mark 36,864", "a=9*", MARKING_ANSWER_MAX, 0x10000000009000, 1, 36864, MARKING_ANSWER_MAX},
        {"mark -36,855", "a=-9*", MARKING_ANSWER_MAX - 1, 0x0fff00ffff7009, 1, -36855, MARKING_ANSWER_MAX - 1},
        {"mark -4,096 with the most readings", "(a=-1*)*", MARKING_ANSWER_MAX, 0x100000fffff000, MARKING_COUNT_MAX, -4096,
         MARKING_ANSWER_MAX},
        {"a hyphen after the credit", "a=-1-?", 1, 0x100ffffffff, 1, -1, 1},
        {"the longest answer, wrong at its first letter", "b=-9*", MARKING_ANSWER_MAX, 0x10000000000, 0, 0, 1},
        {"the longest answer, wrong at letter 10", "a{9}b", MARKING_ANSWER_MAX, 0xa0000000000, 0, 0, 10},
        {"the longest answer, wrong at letter 61", "a=-9{60}", MARKING_ANSWER_MAX, 0x3d0000000000, 0, 0, 61},
    };
    for (size_t i = 0; i < sizeof cases / sizeof cases[0]; i++) {
        size_t len = strlen(cases[i].pattern), n = cases[i].answer_len;
        uint64_t count = 7;
        running = cases[i].name;
        uint64_t bits = marking_mark(at_the_end(cases[i].pattern, len), len, at_the_end(long_text, n), n, &count);
        struct marking_marked m = marking_mark_unpack(bits);
        check(bits == cases[i].bits && count == cases[i].count);
        check(m.refusal == MARKING_ACCEPTED && m.mark == cases[i].mark && m.taken == cases[i].taken);
    }
}

/*
 * Numbers that no call returns, too: the lowest and the highest mark of 32 bits and those beside 0, with a refusal and without, and
 * from no letter taken to as many as 16 bits can tell.
 */
static void unpacked_marks(void) {
    static const struct {
        uint64_t bits;
        int32_t mark;
    } marks[] = {{0, 0},
                 {1, 1},
                 {0x9000, 36864},
                 {0x7ffffffe, INT32_MAX - 1},
                 {0x7fffffff, INT32_MAX},
                 {0x80000000, INT32_MIN},
                 {0x80000001, INT32_MIN + 1},
                 {0xffff7000, -36864},
                 {0xfffffffe, -2},
                 {0xffffffff, -1}};
    static const unsigned refusals[] = {0, 3, 10, 127, 128, 255};
    static const unsigned letters[] = {0, 1, 255, 256, 4095, 4096, 32768, 65535};
    running = "a mark unpacked";
    for (size_t i = 0; i < sizeof marks / sizeof marks[0]; i++)
        for (size_t k = 0; k < sizeof refusals / sizeof refusals[0]; k++)
            for (size_t n = 0; n < sizeof letters / sizeof letters[0]; n++) {
                struct marking_marked m = marking_mark_unpack((uint64_t)refusals[k] << 32 | taken(letters[n]) | marks[i].bits);
                check(m.mark == marks[i].mark && (unsigned)m.refusal == refusals[k] && m.taken == letters[n]);
            }
}

int main(void) {
    static char long_text[MARKING_ANSWER_MAX + 1];
    memset(long_text, 'a', sizeof long_text);
    const uint8_t *many = at_the_end(long_text, sizeof long_text);
    const uint8_t *a = at_the_end("a", 1);
    const struct refused cases[] = {
        {"refusal 3", many, MARKING_PATTERN_MAX + 1, NULL, 0, MARKING_PATTERN_TOO_LONG},
        {"refusal 4", at_the_end("a\t", 2), 2, a, 1, MARKING_PATTERN_NO_LETTER},
        {"refusal 5", at_the_end("(a", 2), 2, a, 1, MARKING_PATTERN_GRAMMAR},
        {"refusal 6", at_the_end("[z-a]", 5), 5, a, 1, MARKING_RANGE_REVERSED},
        {"refusal 7", at_the_end("[^ -\xff]", 6), 6, NULL, 0, MARKING_CLASS_EMPTY},
        {"refusal 8", many, MARKING_POSITIONS_MAX + 1, a, 1, MARKING_TOO_MANY_POSITIONS},
        {"refusal 4, code 127", at_the_end("a\x7f", 2), 2, a, 1, MARKING_PATTERN_NO_LETTER},
        {"refusal 4, code 159", at_the_end("[z-\x9f]", 5), 5, a, 1, MARKING_PATTERN_NO_LETTER},
        {"refusal 5, a pattern that ends with =", at_the_end("a=", 2), 2, a, 1, MARKING_PATTERN_GRAMMAR},
        {"refusal 5, a pattern that ends with =-", at_the_end("a=-", 3), 3, a, 1, MARKING_PATTERN_GRAMMAR},
        {"refusal 5, a digit past the pattern", at_the_end("a=-1", 4), 3, a, 1, MARKING_PATTERN_GRAMMAR},
        {"refusal 5, =-0", at_the_end("a=-0", 4), 4, a, 1, MARKING_PATTERN_GRAMMAR},
        {"refusal 5, a pattern that ends with {", at_the_end("a{", 2), 2, a, 1, MARKING_PATTERN_GRAMMAR},
        {"refusal 5, a pattern that ends with a lower bound", at_the_end("a{255", 5), 5, a, 1, MARKING_PATTERN_GRAMMAR},
        {"refusal 5, a pattern that ends with a comma", at_the_end("a{2,", 4), 4, a, 1, MARKING_PATTERN_GRAMMAR},
        {"refusal 5, a pattern that ends with an upper bound", at_the_end("(a){2,3", 7), 7, a, 1, MARKING_PATTERN_GRAMMAR},
        {"refusal 5, a brace past the pattern", at_the_end("a{2}", 4), 3, a, 1, MARKING_PATTERN_GRAMMAR},
        {"refusal 8, by copies", at_the_end("a{61}", 5), 5, a, 1, MARKING_TOO_MANY_POSITIONS},
        {"refusal 8, by copies of copies", at_the_end("((a{255}){255}){255}", 20), 20, a, 1, MARKING_TOO_MANY_POSITIONS},
        {"refusal 11", at_the_end("a{0}", 4), 4, a, 1, MARKING_INTERVAL_BOUNDS},
        {"refusal 11, reversed", at_the_end("(a|b){3,2}", 10), 10, a, 1, MARKING_INTERVAL_BOUNDS},
        {"refusal 11, 256", at_the_end("a{256,}", 7), 7, NULL, 0, MARKING_INTERVAL_BOUNDS},
        {"refusal 11, sixty copies before it", at_the_end("a{60}b{999,1}", 13), 13, a, 1, MARKING_INTERVAL_BOUNDS},
        {"refusal 11 before 9", at_the_end("a{2,256}", 8), 8, many, MARKING_ANSWER_MAX + 1, MARKING_INTERVAL_BOUNDS},
        {"refusal 9, points off", at_the_end("a=-1*", 5), 5, many, MARKING_ANSWER_MAX + 1, MARKING_ANSWER_TOO_LONG},
        {"refusal 10, points off", at_the_end("a=-1*", 5), 5, at_the_end("a\t", 2), 2, MARKING_ANSWER_NO_LETTER},
        {"refusal 9", a, 1, many, MARKING_ANSWER_MAX + 1, MARKING_ANSWER_TOO_LONG},
        {"refusal 10", a, 1, at_the_end("a\t", 2), 2, MARKING_ANSWER_NO_LETTER},
        {"refusal 10, code 127", a, 1, at_the_end("a\x7f", 2), 2, MARKING_ANSWER_NO_LETTER},
        {"refusal 10, code 159", a, 1, at_the_end("a\x9f", 2), 2, MARKING_ANSWER_NO_LETTER},
        {"refusal 9, wrong at the first letter", at_the_end("b", 1), 1, many, MARKING_ANSWER_MAX + 1, MARKING_ANSWER_TOO_LONG},
        {"refusal 10, wrong at the first letter", at_the_end("b", 1), 1, at_the_end("aaa\t", 4), 4, MARKING_ANSWER_NO_LETTER},
    };
    setvbuf(stdout, NULL, _IONBF, 0);
    signal(SIGSEGV, crashed);
    signal(SIGBUS, crashed);
    empty_slices();
    whole_slices();
    edge_codes();
    signed_marks();
    unpacked_marks();
    refused_vets(cases, 24); /* the last eight are of answers */
    refused_marks(cases, 32);
    printf("%d passed, %d failed\n", passed, failed);
    return failed != 0;
}
