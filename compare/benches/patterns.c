/* Benchmark of `lubiksan_pattern` against the same recursive descent in C, in one run; the least of nine times each. Not in the gate. In this folder, after `.ci/archive`:
 *     cc -O2 -I../../crates/lubiksan/include patterns.c ../../target/staticlib/liblubiksan.a -o patterns && ./patterns */
#define _POSIX_C_SOURCE 199309L
#include <stdint.h>
#include <stdio.h>
#include <string.h>
#include <time.h>

#include "lubiksan.h"

#define NONE ((size_t)-1)

static int is_mark(uint8_t b) { return b == '?' || b == '*' || b == '+'; }

static int is_char(uint8_t b) { return b >= 32 || b == 9 || b == 10 || b == 13; }

static int is_in_class(uint8_t b) { return is_char(b) && b != '\\' && b != '[' && b != ']'; }

static int is_plain(uint8_t b) { return is_in_class(b) && b != '(' && b != ')' && b != '|' && !is_mark(b); }

static int is_escaped(uint8_t b) { return b != 0 && strchr("?*+()|[\\]^{}-.nrtsSiIcCdDwW", b) != NULL; }

static size_t expression(const uint8_t *s, size_t n, size_t at);

static size_t class_end(const uint8_t *s, size_t n, size_t at) {
    size_t i = at;
    while (i < n) {
        if (s[i] == ']') return i == at ? NONE : i + 1;
        if (s[i] == '\\') {
            if (i + 1 >= n || !is_escaped(s[i + 1])) return NONE;
            i += 2;
        } else if (is_in_class(s[i])) {
            i += 1;
        } else {
            return NONE;
        }
    }
    return NONE;
}

static size_t atom(const uint8_t *s, size_t n, size_t at) {
    if (s[at] == '(') {
        size_t end = expression(s, n, at + 1);
        return end == NONE || end >= n ? NONE : end + 1;
    }
    if (s[at] == '[') return class_end(s, n, at + 1);
    if (s[at] == '\\') return at + 1 < n && is_escaped(s[at + 1]) ? at + 2 : NONE;
    return is_plain(s[at]) ? at + 1 : NONE;
}

static size_t piece(const uint8_t *s, size_t n, size_t at) {
    size_t end = atom(s, n, at);
    return end != NONE && end < n && is_mark(s[end]) ? end + 1 : end;
}

static size_t branch(const uint8_t *s, size_t n, size_t at) {
    while (at < n && s[at] != '|' && s[at] != ')') {
        at = piece(s, n, at);
        if (at == NONE) return NONE;
    }
    return at;
}

static size_t expression(const uint8_t *s, size_t n, size_t at) {
    for (;;) {
        size_t end = branch(s, n, at);
        if (end == NONE || end >= n || s[end] != '|') return end;
        at = end + 1;
    }
}

static int is_aside(const uint8_t *s, size_t n) {
    size_t opens = 0, i;
    uint8_t last = 0;
    int found = 0;
    for (i = 0; i < n; i++) {
        found |= (last == '\\' && (s[i] == 'p' || s[i] == 'P')) || (last == '-' && s[i] == '[');
        opens += s[i] == '(';
        last = s[i];
    }
    return found || opens > 32;
}

static int is_ascii(const uint8_t *s, size_t n) {
    uint8_t bits = 0;
    size_t i;
    for (i = 0; i < n; i++) bits |= s[i];
    return bits < 128;
}

static uint32_t in_c(const uint8_t *s, size_t n) {
    size_t end;
    if (n > 1024) return LUBIKSAN_LENGTHS;
    if (!is_ascii(s, n)) return LUBIKSAN_BYTE;
    if (is_aside(s, n)) return LUBIKSAN_PATTERN_ASIDE;
    end = expression(s, n, 0);
    return end != NONE && end >= n ? LUBIKSAN_ACCEPTED : LUBIKSAN_NO_PATTERN;
}

static uint32_t ours(const uint8_t *s, size_t n) {
    size_t place;
    return lubiksan_pattern(s, n, &place);
}

static double now(void) {
    struct timespec t;
    clock_gettime(CLOCK_MONOTONIC, &t);
    return (double)t.tv_sec * 1e9 + (double)t.tv_nsec;
}

/* The least time of a call, of nine rounds. */
static double least(uint32_t (*volatile call)(const uint8_t *, size_t), const uint8_t *s, size_t n, uint32_t *number) {
    long rounds = (long)(5000000 / (n + 20)), i;
    double best = 1e18;
    int round;
    for (round = 0; round < 9; round++) {
        double from = now(), took;
        for (i = 0; i < rounds; i++) *number = call(s, n);
        took = (now() - from) / (double)rounds;
        if (took < best) best = took;
    }
    return best;
}

int main(void) {
    static char text[6][1025];
    const char *units[] = {"[A-Z]{6,6}[A-Z2-9][A-NP-Z0-9]([A-Z0-9]{3,3}){0,1}", "a", "ab?c|de*[x-z]\\.", "(\\+?[0-9]{1,3}|-?\\d*)"};
    const size_t lengths[] = {1024, 1024, 1024, 672};
    size_t k;
    int differs = 0;
    for (k = 0; k < 4; k++)
        while (strlen(text[k]) + strlen(units[k]) <= lengths[k]) strcat(text[k], units[k]);
    strcpy(text[4], units[0]);
    strcpy(text[5], "[a-zA-Z0-9]{4}");
    for (k = 0; k < 6; k++) {
        const uint8_t *s = (const uint8_t *)text[k];
        size_t n = strlen(text[k]);
        uint32_t a, b;
        double mine = least(ours, s, n, &a), c = least(in_c, s, n, &b);
        differs |= a != b;
        printf("%4zu bytes of %-50s number %u: %7.1f ns, %.2f a byte; in C %u, %7.1f ns: ratio %.2f\n", n, k < 4 ? units[k] : text[k], a, mine, mine / (double)n, b, c, mine / c);
    }
    return differs;
}
