/* One call of `lubiksan_tape` for each file named, and one on a text of comments, sections and references that this program makes, for a count of instructions. Not in
 * the gate. In this folder, after `.ci/archive`:
 *     cc -O2 -I../../crates/lubiksan/include tape.c ../../target/staticlib/liblubiksan.a -o tape
 *     valgrind --tool=callgrind --toggle-collect=lubiksan_tape --callgrind-out-file=/dev/null ./tape FILE
 * `./tape -` is the text that it makes, and `./tape -time FILE..` prints the least time of 3,000 calls each. */
#define _POSIX_C_SOURCE 199309L
#include <stdint.h>
#include <stdio.h>
#include <string.h>
#include <time.h>

#include "lubiksan.h"

#define TEXT 65536
#define MARKS 16384
#define ROUNDS 3000

static char text[TEXT + 1];
static uint32_t marks[MARKS];
static uint32_t state = 42;

static uint32_t below(uint32_t n) {
    state = state * 1664525u + 1013904223u;
    return (state >> 16) % n;
}

static size_t put(size_t at, const char *s) {
    memcpy(text + at, s, strlen(s));
    return at + strlen(s);
}

static size_t words(size_t at, uint32_t n) {
    static const char *const word[] = {"the", "amount", "of", "a", "payment", "is", "given", "here", "by", "account", "and", "currency"};
    for (uint32_t k = 0; k < n; k++) {
        if (k > 0) at = put(at, " ");
        at = put(at, word[below(12)]);
    }
    return at;
}

/* About as many comments as sections and as elements with references, in one root. */
static size_t mixed(void) {
    size_t at = put(0, "<?xml version=\"1.0\" encoding=\"UTF-8\"?>\n<root>\n");
    while (at < 60000) {
        switch (below(3)) {
        case 0:
            at = put(words(put(at, "  <!-- "), 3 + below(27)), " -->\n");
            break;
        case 1:
            at = put(words(put(at, "  <a><![CDATA["), 3 + below(27)), "]]></a>\n");
            break;
        default:
            at = put(words(put(words(put(at, "  <b k=\""), 3), " &lt; &#38; &#x26; "), 2), "\">");
            at = put(words(put(words(put(at, ""), 4), " &amp; &#65; "), 2), " &gt;</b>\n");
        }
    }
    return put(at, "</root>\n");
}

static double seconds(void) {
    struct timespec t;
    clock_gettime(CLOCK_MONOTONIC, &t);
    return (double)t.tv_sec + (double)t.tv_nsec * 1e-9;
}

static void report(const char *name, size_t length, int rounds) {
    size_t place = 0;
    uint32_t number = 0;
    double least = 1e9;
    for (int k = 0; k < rounds; k++) {
        double start = seconds();
        number = lubiksan_tape((const uint8_t *)text, length, marks, MARKS, &place);
        double time = seconds() - start;
        if (time < least) least = time;
    }
    printf("%s: %zu bytes, %u, %zu marks", name, length, number, place);
    if (rounds > 1) printf(", %.1f us, %.2f ns a byte", least * 1e6, least * 1e9 / (double)length);
    printf("\n");
}

int main(int count, char **words_given) {
    int rounds = 1;
    for (int k = 1; k < count; k++) {
        if (strcmp(words_given[k], "-time") == 0) {
            rounds = ROUNDS;
            continue;
        }
        if (strcmp(words_given[k], "-") == 0) {
            report("comments, sections and references", mixed(), rounds);
            continue;
        }
        FILE *file = fopen(words_given[k], "rb");
        if (file == NULL) {
            fprintf(stderr, "tape: %s cannot be read\n", words_given[k]);
            return 1;
        }
        size_t length = fread(text, 1, TEXT, file);
        fclose(file);
        report(words_given[k], length, rounds);
    }
    return 0;
}
