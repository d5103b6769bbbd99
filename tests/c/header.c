/*
 * What the header says against what the calls do: each limit on both sides, each refusal by its name, each field of what is unpacked.
 * Good C and good C++. The last line is 'N passed, M failed', and any failure makes the exit status 1.
 */
#include "marking.h"

#include <stdio.h>
#include <string.h>

static int passed, failed;

static void check(const char *name, int right) {
    if (right) {
        passed++;
    } else {
        printf("FAILED: %s\n", name);
        failed++;
    }
}

static const uint8_t *bytes(const char *s) { return (const uint8_t *)s; }

static uint8_t evidence[MARKING_EVIDENCE];
static uint16_t scratch[MARKING_SCRATCH];

static struct marking_vetted vet(const char *pattern) {
    return marking_vet_unpack(marking_vet(bytes(pattern), strlen(pattern), evidence, sizeof evidence));
}

/* The pattern is refused for this reason, by vet and by mark. */
static void refused(const char *name, const char *pattern, enum marking_refusal want) {
    uint64_t count = 7;
    struct marking_vetted v = vet(pattern);
    struct marking_marked m = marking_mark_unpack(marking_mark(bytes(pattern), strlen(pattern), bytes("a"), 1, &count));
    check(name, v.refusal == want && v.verdict == MARKING_NO_VERDICT && v.positions == 0 && v.text_len == 0);
    check(name, m.refusal == want && m.mark == 0 && m.taken == 0 && count == 7);
}

/* So many letters a. */
static const char *letters(size_t n) {
    static char text[MARKING_ANSWER_MAX + 2];
    memset(text, 'a', n);
    text[n] = 0;
    return text;
}

/* How an answer of n letters a is marked by a pattern. */
static struct marking_marked mark(const char *pattern, size_t n, uint64_t *count) {
    return marking_mark_unpack(marking_mark(bytes(pattern), strlen(pattern), bytes(letters(n)), n, count));
}

static void limits(void) {
    char class_of[MARKING_PATTERN_MAX + 2];
    uint64_t count = 7;
    check("evidence", marking_vet_unpack(marking_vet(bytes("a"), 1, evidence, MARKING_EVIDENCE)).refusal == MARKING_ACCEPTED);
    check("evidence, one less",
          marking_vet_unpack(marking_vet(bytes("a"), 1, evidence, MARKING_EVIDENCE - 1)).refusal == MARKING_EVIDENCE_TOO_SHORT);
    check("scratch", marking_vet_unpack(marking_vet_in(bytes("a"), 1, evidence, sizeof evidence, scratch, MARKING_SCRATCH)).refusal ==
                         MARKING_ACCEPTED);
    check("scratch, one less",
          marking_vet_unpack(marking_vet_in(bytes("a"), 1, evidence, sizeof evidence, scratch, MARKING_SCRATCH - 1)).refusal ==
              MARKING_SCRATCH_TOO_SHORT);
    memset(class_of, 'a', sizeof class_of);
    class_of[0] = '[';
    class_of[MARKING_PATTERN_MAX - 1] = ']';
    class_of[MARKING_PATTERN_MAX] = 0;
    check("the longest pattern", vet(class_of).refusal == MARKING_ACCEPTED && vet(class_of).positions == 1);
    class_of[MARKING_PATTERN_MAX - 1] = 'a';
    class_of[MARKING_PATTERN_MAX] = ']';
    class_of[MARKING_PATTERN_MAX + 1] = 0;
    refused("a byte more", class_of, MARKING_PATTERN_TOO_LONG);
    check("the most positions", vet(letters(MARKING_POSITIONS_MAX)).positions == MARKING_POSITIONS_MAX);
    refused("a position more", letters(MARKING_POSITIONS_MAX + 1), MARKING_TOO_MANY_POSITIONS);
    check("the most copies", vet("a{60}").positions == MARKING_POSITIONS_MAX);
    refused("a copy more", "a{61}", MARKING_TOO_MANY_POSITIONS);
    refused("the greatest bound", "a{255}", MARKING_TOO_MANY_POSITIONS);
    refused("a greater bound", "a{256}", MARKING_INTERVAL_BOUNDS);
    check("the longest answer", mark("a=9*", MARKING_ANSWER_MAX, &count).mark == 9 * MARKING_ANSWER_MAX && count == 1);
    check("the lowest mark", mark("a=-9*", MARKING_ANSWER_MAX, &count).mark == -9 * MARKING_ANSWER_MAX && count == 1);
    check("a letter more", mark("a*", MARKING_ANSWER_MAX + 1, &count).refusal == MARKING_ANSWER_TOO_LONG && count == 1);
    check("2^62 readings", mark("(a|a)*", 62, &count).refusal == MARKING_ACCEPTED && count == MARKING_COUNT_MAX / 2);
    check("2^63 readings", mark("(a|a)*", 63, &count).refusal == MARKING_ACCEPTED && count == MARKING_COUNT_MAX);
    check("more readings", mark("(a|a)*", 64, &count).refusal == MARKING_ACCEPTED && count == MARKING_COUNT_MAX);
    check("2^63 - 1 readings by links", mark("(a+)+a*", 63, &count).refusal == MARKING_ACCEPTED && count == MARKING_COUNT_MAX - 1);
    check("2^63 readings by links", mark("(a*)*", 64, &count).refusal == MARKING_ACCEPTED && count == MARKING_COUNT_MAX);
    check("more readings by links", mark("((a*)*)*", 64, &count).refusal == MARKING_ACCEPTED && count == MARKING_COUNT_MAX);
}

static void refusals(void) {
    uint64_t count = 7;
    refused("a tab", "a\tb", MARKING_PATTERN_NO_LETTER);
    refused("the empty pattern", "", MARKING_PATTERN_GRAMMAR);
    refused("a closing bracket", "a)", MARKING_PATTERN_GRAMMAR);
    refused("a credit of -0", "a=-0", MARKING_PATTERN_GRAMMAR);
    refused("a credit without a digit", "a=-", MARKING_PATTERN_GRAMMAR);
    refused("an interval without bounds", "a{}", MARKING_PATTERN_GRAMMAR);
    refused("a bound of four digits", "a{1000}", MARKING_PATTERN_GRAMMAR);
    refused("an interval and a repeat", "a{2}*", MARKING_PATTERN_GRAMMAR);
    refused("no copy", "a{0}", MARKING_INTERVAL_BOUNDS);
    refused("bounds that are reversed", "a{3,2}", MARKING_INTERVAL_BOUNDS);
    refused("bounds before positions", "a{61}b{0}", MARKING_INTERVAL_BOUNDS);
    refused("a range before bounds", "[z-a]{0}", MARKING_RANGE_REVERSED);
    refused("[z-a]", "[z-a]", MARKING_RANGE_REVERSED);
    refused("a byte between the letters", "[z-\x9f]", MARKING_PATTERN_NO_LETTER);
    refused("a class of no letter", "[^ -\xff]", MARKING_CLASS_EMPTY);
    check("a tab in the answer", marking_mark_unpack(marking_mark(bytes("a"), 1, bytes("\t"), 1, &count)).refusal ==
                                         MARKING_ANSWER_NO_LETTER &&
                                     count == 7);
}

/* Letters of ISO 8859-1: an e with an accent in the pattern, in a class and in the answer. */
static void accents(void) {
    uint64_t count = 7;
    struct marking_vetted v = vet("caf\xe9");
    check("an accent", v.refusal == MARKING_ACCEPTED && v.verdict == MARKING_SINGLE && v.positions == 4);
    check("a class of the upper letters", vet("[^ -~]").refusal == MARKING_ACCEPTED && vet("[^ -~]").positions == 1);
    check("an accent in the answer",
          marking_mark(bytes("caf[\xe8-\xea]=1"), 10, bytes("caf\xe9"), 4, &count) == (UINT64_C(4) << 40 | 1) && count == 1);
    check("the accent left out", marking_mark(bytes("caf\xe9"), 4, bytes("cafe"), 4, &count) == UINT64_C(4) << 40 && count == 0);
    check("the first accent left out", marking_mark(bytes("\xe9t\xe9"), 3, bytes("et\xe9"), 3, &count) == UINT64_C(1) << 40 && count == 0);
}

/* Points taken off: the mark is that of the best reading, and 0 where there is none. */
static void points_off(void) {
    uint64_t count = 7;
    struct marking_marked m = mark("a=-2", 1, &count);
    check("two points off", m.refusal == MARKING_ACCEPTED && m.mark == -2 && m.mark < 0 && count == 1);
    check("one point off", mark("a=-1", 1, &count).mark == -1 && count == 1);
    check("the better of two readings", mark("a=-2|a=-1", 1, &count).mark == -1 && count == 2);
    check("off and earned", mark("a=-3a=2", 2, &count).mark == -1 && count == 1);
    check("as much off as earned", mark("a=-1a=1", 2, &count).mark == 0 && count == 1);
    check("off, and no reading", mark("a=-5", 2, &count).mark == 0 && count == 0);
}

/* Intervals: each copy has a position, and a credit, of its own. */
static void intervals(void) {
    uint64_t count = 7;
    struct marking_vetted v = vet("a{0,3}");
    check("optional copies", v.refusal == MARKING_ACCEPTED && v.verdict == MARKING_SINGLE && v.positions == 3);
    v = vet("(a{1,2}){2}");
    check("copies of copies", v.refusal == MARKING_ACCEPTED && v.verdict == MARKING_STEADY && v.positions == 4 && v.text_len == 3);
    v = vet("(a{1,2})*");
    check("copies in a repeat", v.refusal == MARKING_ACCEPTED && v.verdict == MARKING_RUNAWAY && v.positions == 2);
    check("three copies", mark("a=1{3}", 3, &count).mark == 3 && count == 1);
    check("two of three copies", mark("a=1{3}", 2, &count).mark == 0 && count == 0);
    check("two copies or more", mark("a=-1{2,}", 5, &count).mark == -5 && count == 1);
    check("two copies of a repeat", mark("(a*){2}", 2, &count).mark == 0 && count == 3);
}

/* An answer by its text, so many letters of which are taken, with so many readings; and the same as the bits that are returned. */
static void takes(const char *name, const char *pattern, const char *answer, size_t taken, uint64_t want, int32_t earned) {
    uint64_t count = 7;
    uint64_t bits = marking_mark(bytes(pattern), strlen(pattern), bytes(answer), strlen(answer), &count);
    struct marking_marked m = marking_mark_unpack(bits);
    check(name, m.refusal == MARKING_ACCEPTED && m.taken == taken && m.mark == earned && count == want);
    check(name, bits == ((uint64_t)taken << 40 | (uint32_t)earned));
}

/* Letters taken: up to and with the first at which no position is possible any more, all where there is none, none at a refusal. */
static void letters_taken(void) {
    char text[MARKING_ANSWER_MAX + 2];
    uint64_t count = 7;
    struct marking_marked m;
    takes("all letters", "ab", "ab", 2, 1, 0);
    takes("wrong at the first letter", "ab", "xab", 1, 0, 0);
    takes("wrong in the middle", "ab", "axb", 2, 0, 0);
    takes("wrong at the last letter", "ab", "ax", 2, 0, 0);
    takes("a letter too many", "ab", "abc", 3, 0, 0);
    takes("two letters too many", "ab", "abcd", 3, 0, 0);
    takes("a letter too few", "ab", "a", 1, 0, 0);
    takes("no letter, no reading", "ab", "", 0, 0, 0);
    takes("no letter, one reading", "a*", "", 0, 1, 0);
    takes("points off, all letters", "a=-2b=-3", "ab", 2, 1, -5);
    takes("points off, and wrong", "a=-2b=-3", "aab", 2, 0, 0);
    takes("links, and wrong", "(a*)*", "aabaa", 3, 0, 0);
    takes("an interval, and a letter too many", "a{2,4}", "aaaaaa", 5, 0, 0);
    takes("an accent, and wrong after it", "\xe9t\xe9", "\xe9te\xe9", 3, 0, 0);
    strcpy(text, letters(MARKING_POSITIONS_MAX));
    takes("sixty positions, a letter too many", text, letters(MARKING_POSITIONS_MAX + 2), MARKING_POSITIONS_MAX + 1, 0, 0);
    strcpy(text, letters(MARKING_ANSWER_MAX));
    takes("the longest answer, all letters", "a=9*", text, MARKING_ANSWER_MAX, 1, 9 * MARKING_ANSWER_MAX);
    takes("the longest answer, no reading", "a=9*b", text, MARKING_ANSWER_MAX, 0, 0);
    text[MARKING_ANSWER_MAX - 1] = 'b';
    takes("the longest answer, wrong at the last letter", "a=-9*", text, MARKING_ANSWER_MAX, 0, 0);
    text[MARKING_ANSWER_MAX - 2] = 'b';
    takes("the longest answer, wrong at the last but one", "a=-9*", text, MARKING_ANSWER_MAX - 1, 0, 0);
    text[9] = 'b';
    takes("the longest answer, wrong at letter 10", "a=-9*", text, 10, 0, 0);
    text[0] = 'b';
    takes("the longest answer, wrong at the first letter", "a=-9*", text, 1, 0, 0);
    m = mark("b", MARKING_ANSWER_MAX + 1, &count);
    check("wrong, and refused for its length", m.refusal == MARKING_ANSWER_TOO_LONG && m.taken == 0 && m.mark == 0 && count == 7);
    m = marking_mark_unpack(marking_mark(bytes("b"), 1, bytes("aa\t"), 3, &count));
    check("wrong, and refused for a byte after it", m.refusal == MARKING_ANSWER_NO_LETTER && m.taken == 0 && m.mark == 0 && count == 7);
}

static void verdicts(void) {
    struct marking_vetted v = vet("colou?r");
    check("single", v.verdict == MARKING_SINGLE && v.positions == 6 && v.text_len == 0 && v.x_len + v.y_len + v.z_len == 0);
    v = vet("(a|a)b");
    check("steady", v.verdict == MARKING_STEADY && v.positions == 3 && v.text_len == 2 && v.x_len + v.y_len + v.z_len == 0);
    check("the steady text", memcmp(evidence, "ab", 2) == 0);
    v = vet("(a*)*");
    check("runaway by links", v.verdict == MARKING_RUNAWAY && v.positions == 1 && v.x_len == 1 && v.y_len == 1 && v.z_len <= 1);
    v = vet("(a|b|ab)*c");
    check("runaway", v.verdict == MARKING_RUNAWAY && v.positions == 5 && v.text_len == v.x_len + v.y_len + v.z_len);
    check("x, y and z", v.x_len == 1 && v.y_len == 3 && v.z_len == 1 && memcmp(evidence, "aabac", 5) == 0);
}

/* The letters shown: of those that serve the first of a to z, A to Z and 0 to 9, and then of the others by code. */
static void letters_shown(void) {
    static const struct {
        const char *pattern, *text;
    } cases[] = {{".*.*", "a"},
                 {"[zA!]*.*", "z"},
                 {"[A-Z0-9]*.*", "A"},
                 {"[^a-z]*.*", "A"},
                 {"[Z9!]*.*", "Z"},
                 {"[0-9 ]*.*", "0"},
                 {"[!-9]*.*", "0"},
                 {"[9 ]*.*", "9"},
                 {"[ -/]*.*", " "},
                 {"[:-@]*.*", ":"},
                 {"[\xe9~]*.*", "~"},
                 {"[\xe9\xe8]*.*", "\xe8"},
                 {"[^ -~]*.*", "\xa0"},
                 {"[a-m ]*[n-z ]*", " "},
                 {"[^a-z](b|b)[0-9!]", "Ab0"},
                 {"(.*!)*", "a!a!"},
                 {"([A-m]|[ -Z])*", "aAa"},
                 {"[0-9 ](b|b)*[Z0]", "0bbbZ"}};
    for (size_t i = 0; i < sizeof cases / sizeof cases[0]; i++) {
        struct marking_vetted v = vet(cases[i].pattern);
        check(cases[i].pattern, v.text_len == strlen(cases[i].text) && memcmp(evidence, cases[i].text, v.text_len) == 0);
    }
}

/* The bits that docs/C-API.md gives to each field, all set, with those of its neighbours clear. */
static void fields(void) {
    struct marking_vetted v = marking_vet_unpack(0xff);
    struct marking_marked m = marking_mark_unpack(0xffffffff);
    check("bits 0 to 7", (unsigned)v.refusal == 255 && v.verdict == MARKING_NO_VERDICT && v.positions + v.text_len == 0);
    v = marking_vet_unpack(UINT64_C(2) << 8 | UINT64_C(0xff) << 16);
    check("bits 8 to 23", v.refusal == MARKING_ACCEPTED && v.verdict == MARKING_RUNAWAY && v.positions == 255 && v.text_len == 0);
    v = marking_vet_unpack(UINT64_C(2) << 8 | UINT64_C(0xfff) << 24);
    check("bits 24 to 35, x", v.positions == 0 && v.x_len == 4095 && v.y_len + v.z_len == 0 && v.text_len == 4095);
    v = marking_vet_unpack(UINT64_C(2) << 8 | UINT64_C(0xfff) << 36);
    check("bits 36 to 47, y", v.y_len == 4095 && v.x_len + v.z_len == 0 && v.text_len == 4095);
    v = marking_vet_unpack(UINT64_C(2) << 8 | UINT64_C(0xfff) << 48);
    check("bits 48 to 59, z", v.z_len == 4095 && v.x_len + v.y_len == 0 && v.text_len == 4095);
    v = marking_vet_unpack(UINT64_C(1) << 8 | UINT64_C(0xfff) << 24);
    check("bits 24 to 35, a steady text", v.verdict == MARKING_STEADY && v.x_len == 0 && v.text_len == 4095);
    check("bits 0 to 31, the mark", m.mark == -1 && m.refusal == MARKING_ACCEPTED && m.taken == 0);
    m = marking_mark_unpack(UINT64_C(1) << 31);
    check("bit 31, the lowest mark", m.mark == INT32_MIN && m.refusal == MARKING_ACCEPTED && m.taken == 0);
    m = marking_mark_unpack(0x7fffffff);
    check("bits 0 to 30, the highest mark", m.mark == INT32_MAX && m.refusal == MARKING_ACCEPTED && m.taken == 0);
    m = marking_mark_unpack(UINT64_C(0xff) << 32);
    check("bits 32 to 39, the mark's refusal", m.mark == 0 && (unsigned)m.refusal == 255 && m.taken == 0);
    m = marking_mark_unpack(UINT64_C(0xffffffffff));
    check("bits 0 to 39, the mark and its refusal", m.mark == -1 && (unsigned)m.refusal == 255 && m.taken == 0);
    m = marking_mark_unpack(UINT64_C(0xffff) << 40);
    check("bits 40 to 55, the letters taken", m.mark == 0 && m.refusal == MARKING_ACCEPTED && m.taken == 65535);
    m = marking_mark_unpack(UINT64_C(1) << 40);
    check("bit 40, one letter taken", m.mark == 0 && m.refusal == MARKING_ACCEPTED && m.taken == 1);
    m = marking_mark_unpack(UINT64_C(0xff) << 56);
    check("bits 56 to 63, nothing", m.mark == 0 && m.refusal == MARKING_ACCEPTED && m.taken == 0);
}

static void version(void) {
    char text[32];
    sprintf(text, "%d.%d.%d", MARKING_VERSION >> 16, MARKING_VERSION >> 8 & 0xff, MARKING_VERSION & 0xff);
    check("the version as a number and as text", strcmp(text, MARKING_VERSION_TEXT) == 0);
}

int main(void) {
    limits();
    refusals();
    accents();
    points_off();
    intervals();
    letters_taken();
    verdicts();
    letters_shown();
    fields();
    version();
    printf("%d passed, %d failed\n", passed, failed);
    return failed != 0;
}
