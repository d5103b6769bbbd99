/*
 * Both calls on the patterns that take the most stack, in the main thread: to be run under a limit of 1.5 MiB, which is what the
 * header asks for.
 */
#include "marking.h"

#include <stdio.h>
#include <string.h>
#include <sys/resource.h>

static int failed;

static void refusal_is(const char *name, const uint8_t *pattern, size_t len, enum marking_refusal want) {
    uint8_t evidence[MARKING_EVIDENCE];
    uint64_t count = 0;
    struct marking_vetted v = marking_vet_unpack(marking_vet(pattern, len, evidence, sizeof evidence));
    struct marking_marked m = marking_mark_unpack(marking_mark(pattern, len, (const uint8_t *)"a", 1, &count));
    if (v.refusal != want || m.refusal != want) {
        printf("%s: refusals %u and %u, want %u\n", name, v.refusal, m.refusal, want);
        failed = 1;
    }
    if (m.taken != (want == MARKING_ACCEPTED ? 1u : 0u)) {
        printf("%s: %u letters taken of 1\n", name, (unsigned)m.taken);
        failed = 1;
    }
}

/* A part in so many brackets, each with the same after it; the length. */
static size_t nested(uint8_t *pattern, size_t times, const char *part, const char *after) {
    size_t at = times;
    memset(pattern, '(', times);
    memcpy(pattern + at, part, strlen(part));
    at += strlen(part);
    for (size_t i = 0; i < times; i++, at += strlen(after))
        memcpy(pattern + at, after, strlen(after));
    return at;
}

int main(void) {
    uint8_t pattern[MARKING_PATTERN_MAX];
    struct rlimit limit;
    if (getrlimit(RLIMIT_STACK, &limit) != 0 || limit.rlim_cur != MARKING_STACK) {
        printf("the limit on the stack is not the header's %u bytes\n", MARKING_STACK);
        failed = 1;
    }
    memset(pattern, '(', 512);
    refusal_is("512 times (", pattern, 512, MARKING_PATTERN_GRAMMAR);
    pattern[255] = 'a';
    memset(pattern + 256, ')', 255);
    refusal_is("255 nested", pattern, 511, MARKING_ACCEPTED);
    memset(pattern, '(', 170);
    memcpy(pattern + 170, "a*", 2);
    for (size_t i = 172; i < 512; i++)
        pattern[i] = (uint8_t)")*"[i % 2];
    refusal_is("170 nested repeats", pattern, 512, MARKING_ACCEPTED);
    memset(pattern, 'a', 512);
    refusal_is("512 letters", pattern, 512, MARKING_TOO_MANY_POSITIONS);
    for (size_t i = 0; i < 510; i++)
        pattern[i] = (uint8_t)"(a|"[i % 3];
    refusal_is("170 times (a|", pattern, 510, MARKING_PATTERN_GRAMMAR);
    for (size_t i = 0; i < 512; i++)
        pattern[i] = (uint8_t)"a("[i % 2];
    refusal_is("256 times a(", pattern, 512, MARKING_PATTERN_GRAMMAR);
    refusal_is("101 nested intervals {1}", pattern, nested(pattern, 101, "a{1}", "){1}"), MARKING_ACCEPTED);
    refusal_is("84 nested intervals {1,}", pattern, nested(pattern, 84, "a{1,}", "){1,}"), MARKING_ACCEPTED);
    refusal_is("101 nested intervals {2}", pattern, nested(pattern, 101, "a{2}", "){2}"), MARKING_TOO_MANY_POSITIONS);
    refusal_is("72 nested intervals {255}", pattern, nested(pattern, 72, "a{255}", "){255}"), MARKING_TOO_MANY_POSITIONS);
    refusal_is("101 nested intervals {0}", pattern, nested(pattern, 101, "a{0}", "){0}"), MARKING_INTERVAL_BOUNDS);
    refusal_is("253 nested around a{60}", pattern, nested(pattern, 253, "a{60}", ")"), MARKING_ACCEPTED);
    pattern[0] = '(';
    memcpy(pattern + 1 + nested(pattern + 1, 168, "a*", ")*"), "){60}", 5);
    refusal_is("sixty copies of 168 nested repeats", pattern, 512, MARKING_ACCEPTED);
    refusal_is("508 times ( and a{1}", pattern, nested(pattern, 508, "a{1}", ""), MARKING_PATTERN_GRAMMAR);
    return failed;
}
