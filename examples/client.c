/*
 * A client in C: vets a pattern, shows what the verdict rests on, marks answers by the pattern, and says why one is not read: where it
 * goes wrong, or that it ends too soon. What is refused it tells with the reason, and with the place of a byte that is no letter.
 *
 *   client PATTERN [ANSWER ..]
 *   client --help
 *
 * The library takes ISO 8859-1, one byte a letter, and a terminal today writes UTF-8. If every argument is UTF-8, as plain ASCII is too,
 * all are converted to ISO 8859-1, and the texts that are printed are converted back; a character that ISO 8859-1 does not have is
 * told, and is bad usage. Otherwise all are taken byte for byte as ISO 8859-1, and the texts are printed so.
 *
 * Exit status: 2 for bad usage; else 1 if the pattern or an answer is refused; else 3 if the pattern is runaway; else 0, also for --help.
 */
#include "marking.h"

#include <stdio.h>
#include <string.h>

/* How many readings of an answer the schools' marking machine tries before it stops. */
#define TRIED 50000
#define TRIED_TEXT "50,000"

static const uint8_t *bytes(const char *s) { return (const uint8_t *)s; }

/* The code of the character that a text in UTF-8 begins with, and how many bytes it has; 0 bytes if the text is no UTF-8 there. */
static size_t character(const uint8_t *text, uint32_t *code) {
    static const uint32_t lowest[] = {0, 0x80, 0x800, 0x10000}; /* by the number of further bytes: a lower code has fewer */
    const uint8_t first = text[0];
    const size_t more = first < 0x80 ? 0 : first >> 5 == 6 ? 1 : first >> 4 == 14 ? 2 : first >> 3 == 30 ? 3 : 4;
    if (more == 4)
        return 0;
    *code = more == 0 ? first : first & (0x3fu >> more);
    for (size_t i = 1; i <= more; i++) {
        if (text[i] >> 6 != 2) /* nor does a text go on after its zero byte */
            return 0;
        *code = *code << 6 | (text[i] & 0x3f);
    }
    return *code < lowest[more] || (*code >= 0xd800 && *code <= 0xdfff) || *code > 0x10ffff ? 0 : more + 1;
}

static int is_utf8(const uint8_t *text) {
    uint32_t code;
    for (size_t len; *text != 0; text += len)
        if ((len = character(text, &code)) == 0)
            return 0;
    return 1;
}

/*
 * Converts a text that a zero byte ends from UTF-8 to ISO 8859-1, in place. Returns NULL, or where it had to stop: at the first
 * character that ISO 8859-1 does not have, or at the first byte that is no UTF-8.
 */
static const uint8_t *to_latin1(uint8_t *text) {
    const uint8_t *from = text;
    while (*from != 0) {
        if (*from < 0x80) { /* one byte, the same */
            *text++ = *from++;
        } else if ((*from == 0xc2 || *from == 0xc3) && from[1] >> 6 == 2) { /* two, for the codes 128 to 255 */
            *text++ = (uint8_t)((*from & 3) << 6 | (from[1] & 0x3f));
            from += 2;
        } else {
            return from;
        }
    }
    *text = 0;
    return NULL;
}

/* Whether the arguments came in UTF-8. Then texts are printed so. */
static int utf8;

static void show_text(const uint8_t *text, size_t len) {
    for (size_t i = 0; i < len; i++) {
        if (utf8 && text[i] >= 0x80) {
            putchar(0xc0 | text[i] >> 6);
            putchar(0x80 | (text[i] & 0x3f));
        } else {
            putchar(text[i]);
        }
    }
}

/* An argument as it was given, after a word that says what it is. */
static void show_argument(const char *word, const char *argument) {
    printf("%s \"", word);
    show_text(bytes(argument), strlen(argument));
    printf("\": ");
}

static const char *plural(uint64_t n) { return n == 1 ? "" : "s"; }

/* A count in words: "1 reading", "65,536 readings", "2^63 readings or more". The next call writes over them. */
static const char *readings(uint64_t count) {
    static char words[40];
    char *at = words + sizeof words - sizeof " readings";
    if (count == MARKING_COUNT_MAX)
        return "2^63 readings or more";
    sprintf(at, " reading%s", plural(count));
    for (int i = 0; i == 0 || count > 0; i++) {
        if (i > 0 && i % 3 == 0)
            *--at = ',';
        *--at = (char)('0' + count % 10);
        count /= 10;
    }
    return at;
}

/* The refusals that a pattern or an answer can meet here, but for a byte that is no letter; the evidence is large enough. */
static const char *reason(enum marking_refusal refusal) {
    switch (refusal) {
    case MARKING_PATTERN_TOO_LONG: return "the pattern has more than 512 bytes";
    case MARKING_PATTERN_GRAMMAR: return "the pattern does not follow the grammar; docs/VERDICTS.md, \"Refused\", says what to write";
    case MARKING_RANGE_REVERSED: return "a range's first letter has a higher code than its last";
    case MARKING_CLASS_EMPTY: return "a class holds no letter";
    case MARKING_INTERVAL_BOUNDS: return "an interval's upper bound is 0 or below the lower one, or a bound is above 255";
    case MARKING_TOO_MANY_POSITIONS: return "there are more than 60 positions";
    case MARKING_ANSWER_TOO_LONG: return "the answer has more than 4,096 bytes";
    default: return "no reason is known";
    }
}

static int is_letter(uint8_t byte) { return (byte >= 32 && byte <= 126) || byte >= 160; }

/* What people call the codes that most often get into a text unseen. */
static const char *called(uint8_t code) {
    switch (code) {
    case 9: return " (a tab)";
    case 10: return " (a newline)";
    case 13: return " (a carriage return)";
    default: return "";
    }
}

/*
 * Why an argument is refused. Of the bytes that are no letters it tells the first, by its place and its code. What came in UTF-8 is
 * converted by now, so that each byte is a character.
 */
static void show_refusal(enum marking_refusal refusal, const char *word, const char *argument) {
    const uint8_t *at = bytes(argument);
    if (refusal != MARKING_PATTERN_NO_LETTER && refusal != MARKING_ANSWER_NO_LETTER) {
        printf("refused, %u: %s\n", refusal, reason(refusal));
        return;
    }
    while (is_letter(*at)) /* the zero byte at the end is none */
        at++;
    printf("refused, %u: character %u of the %s is no letter, its code is %u%s\n", refusal, (unsigned)(at - bytes(argument)) + 1, word,
           (unsigned)*at, called(*at));
}

/* How many readings a text of the library's has. Its texts are short enough and have letters only, so there is no refusal. */
static uint64_t count_of(const char *pattern, const uint8_t *text, size_t len) {
    uint64_t count = 0;
    marking_mark(bytes(pattern), strlen(pattern), text, len, &count);
    return count;
}

/* The text in rows, with ^ under the letters from the one numbered begin up to the one before end. */
static void show_marked(const uint8_t *text, size_t len, size_t begin, size_t end) {
    const size_t row = 80;
    for (size_t at = 0; at < len; at += row) {
        size_t stop = at + row < len ? at + row : len;
        printf("    \"");
        show_text(text + at, stop - at);
        printf("\"\n");
        if (at >= end || stop <= begin)
            continue;
        printf("     ");
        for (size_t i = at; i < stop && i < end; i++)
            putchar(i < begin ? ' ' : '^');
        putchar('\n');
    }
}

/* x, y, z, and how the readings grow: y 0 to 4 times, and as often as it takes to pass what the marking machine tries. */
static void show_runaway(const char *pattern, const uint8_t *evidence, struct marking_vetted v) {
    const uint8_t *y = evidence + v.x_len;
    const uint8_t *z = y + v.y_len;
    uint8_t text[MARKING_ANSWER_MAX];
    size_t len = v.x_len; /* of x and each y so far */
    uint64_t count = 0;
    printf("  x, then y, which is marked, then z; with each further y the readings at least double:\n");
    show_marked(evidence, v.text_len, v.x_len, v.x_len + v.y_len);
    memcpy(text, evidence, v.x_len);
    for (unsigned k = 0; k <= 4 || count <= TRIED; k++) {
        if (k > 0) {
            if (len + v.y_len + v.z_len > MARKING_ANSWER_MAX) {
                printf("    y %u times has more than 4,096 letters, too many to mark; y 16 times has at least 65,536 readings\n", k);
                return;
            }
            memcpy(text + len, y, v.y_len);
            len += v.y_len;
        }
        memcpy(text + len, z, v.z_len);
        count = count_of(pattern, text, len + v.z_len);
        if (k <= 4 || count > TRIED)
            printf("    y %u time%s: %s%s\n", k, plural(k), readings(count),
                   count > TRIED ? ", past the " TRIED_TEXT " that the marking machine tries" : "");
    }
}

static struct marking_vetted vet(const char *pattern) {
    uint8_t evidence[MARKING_EVIDENCE];
    struct marking_vetted v = marking_vet_unpack(marking_vet(bytes(pattern), strlen(pattern), evidence, sizeof evidence));
    show_argument("pattern", pattern);
    if (v.refusal != MARKING_ACCEPTED) {
        show_refusal(v.refusal, "pattern", pattern);
        return v;
    }
    const char *const verdicts[] = {"single", "steady", "runaway"};
    printf("%s, %u position%s\n", verdicts[v.verdict], v.positions, plural(v.positions));
    if (v.verdict == MARKING_SINGLE) {
        printf("  no answer has two readings\n");
    } else if (v.verdict == MARKING_STEADY) {
        printf("  \"");
        show_text(evidence, v.text_len);
        printf("\" has %s, and no shorter answer has two; no answer of m letters has more than (m + 2)^%u\n",
               readings(count_of(pattern, evidence, v.text_len)), 2 * v.positions);
    } else {
        show_runaway(pattern, evidence, v);
    }
    return v;
}

/*
 * Whether an answer without a reading that was taken whole ends too soon; if not, it is wrong at its last letter. Marking takes letters up
 * to and with the first at which no position is possible any more. So one more letter behind the answer, whichever it is, is not taken if
 * no position was possible after the answer's last. If one was, the letter is taken, and some text that begins with the answer has a
 * reading. Before the first letter nothing is wrong: the empty answer ends too soon. The answer is shorter than MARKING_ANSWER_MAX.
 */
static int ends_too_soon(const char *pattern, const char *answer) {
    uint8_t longer[MARKING_ANSWER_MAX];
    const size_t len = strlen(answer);
    uint64_t count;
    memcpy(longer, answer, len);
    longer[len] = 'a';
    return marking_mark_unpack(marking_mark(bytes(pattern), strlen(pattern), longer, len + 1, &count)).taken > len;
}

/* Why an answer, of which so many letters were taken, is not read. */
static void show_not_read(const char *pattern, const char *answer, size_t taken) {
    printf("  not read: ");
    if (taken == MARKING_ANSWER_MAX) {
        printf("it goes wrong at its last letter or ends too soon; one more letter would tell which, but is too many to mark\n");
    } else if (taken == strlen(answer) && ends_too_soon(pattern, answer)) {
        printf("it ends too soon; some longer text that begins like this has a reading\n");
    } else {
        printf("it goes wrong at letter %u; no answer that begins like this has a reading:\n", (unsigned)taken);
        show_marked(bytes(answer), taken, taken - 1, taken);
    }
}

static struct marking_marked mark(const char *pattern, const char *answer) {
    uint64_t count = 0;
    struct marking_marked m =
        marking_mark_unpack(marking_mark(bytes(pattern), strlen(pattern), bytes(answer), strlen(answer), &count));
    show_argument("answer", answer);
    if (m.refusal != MARKING_ACCEPTED) {
        show_refusal(m.refusal, "answer", answer);
        return m;
    }
    printf("%s, mark %d\n", readings(count), (int)m.mark);
    if (count == 0)
        show_not_read(pattern, answer, m.taken);
    else
        printf("  %s\n", count > TRIED ? "past the " TRIED_TEXT " that the marking machine tries: its mark may be lower"
                                       : "within the " TRIED_TEXT " that the marking machine tries: it finds this mark");
    return m;
}

/* Converts the arguments where all are UTF-8. Returns 0 if one has a character that ISO 8859-1 does not have, and tells it. */
static int convert(int argc, char **argv) {
    utf8 = 1;
    for (int i = 1; i < argc; i++)
        utf8 &= is_utf8(bytes(argv[i]));
    for (int i = 1; utf8 && i < argc; i++) {
        const uint8_t *left = to_latin1((uint8_t *)argv[i]);
        if (left != NULL) {
            uint32_t code = 0;
            int len = (int)character(left, &code);
            fprintf(stderr, "client: \"%.*s\" (U+%04X) is not in ISO 8859-1\n", len, (const char *)left, (unsigned)code);
            return 0;
        }
    }
    return 1;
}

static void show_usage(FILE *to) {
    fputs("usage: client PATTERN [ANSWER ..]\n"
          "       client --help\n"
          "\n"
          "Vets a marking pattern and shows what the verdict rests on. Marks each answer by\n"
          "it: how many readings it has, its mark, and why it is not read if it is not.\n"
          "docs/VERDICTS.md says how to write a pattern and what a verdict means.\n"
          "\n"
          "  PATTERN  512 letters at most; to read the text --help, write (--help)\n"
          "  ANSWER   4,096 letters at most; '' is the empty answer\n"
          "\n"
          "All are in UTF-8, or else all are taken as ISO 8859-1. Put each in quotes:\n"
          "\n"
          "  client '(le|la=-1) chat=3' 'le chat' 'la chat'\n"
          "\n"
          "Exit status: 2 for a wrong call or a character that ISO 8859-1 does not have;\n"
          "else 1 if something is refused; else 3 if the pattern is runaway; else 0.\n",
          to);
}

int main(int argc, char **argv) {
    const int help = argc > 1 && strcmp(argv[1], "--help") == 0;
    if (argc < 2 || help) {
        show_usage(help ? stdout : stderr);
        return help ? 0 : 2;
    }
    if (!convert(argc, argv))
        return 2;
    struct marking_vetted v = vet(argv[1]);
    int refused = v.refusal != MARKING_ACCEPTED;
    if (!refused)
        for (int i = 2; i < argc; i++)
            refused |= mark(argv[1], argv[i]).refusal != MARKING_ACCEPTED;
    return refused ? 1 : v.verdict == MARKING_RUNAWAY ? 3 : 0;
}
