/* Measures how many bytes of stack each call takes: the call runs in a thread on a painted stack, and what is no longer painted
   below the frame that calls is counted. Prints a line `NAME BYTES` for each call.

   usage: stack FILE.xsd..    as lubiksan_tape takes them, at most LUBIKSAN_TEXT_MAX bytes each; the largest number over all files is printed */
#include <pthread.h>
#include <stdio.h>
#include <stdlib.h>
#include <string.h>

#include "lubiksan.h"

#define STACK ((size_t)1 << 20)
#define PAINT 0xA5

static uint8_t *stack;
static uint8_t *frame;

static uint8_t text[LUBIKSAN_TEXT_MAX];
static size_t text_length;
static uint32_t marks[LUBIKSAN_MARKS_MAX];
static size_t marks_used;
static uint32_t rows[LUBIKSAN_ROWS_MAX], graph_rows[LUBIKSAN_ROWS_MAX], scratch[LUBIKSAN_SCRATCH_MIN];
static uint8_t names[LUBIKSAN_NAMES_MAX], graph_names[LUBIKSAN_NAMES_MAX], out[2 * LUBIKSAN_TEXT_MAX];
static uint32_t reduced_rows[LUBIKSAN_ROWS_MAX];
static uint8_t reduced_names[LUBIKSAN_NAMES_MAX];
static size_t place;
static uint32_t number;

static const char words[] = "String\nbool\nDecimal\nDate\nDateTime\n";

static void tape(void) {
    number = lubiksan_tape(text, text_length, marks, LUBIKSAN_MARKS_MAX, &marks_used);
}

static void clear(void) {
    number = lubiksan_clear(rows, LUBIKSAN_ROWS_MAX, names, LUBIKSAN_NAMES_MAX, LUBIKSAN_BY_STANDARD, &place);
}

static void read_piece(void) {
    number = lubiksan_read(rows, LUBIKSAN_ROWS_MAX, names, LUBIKSAN_NAMES_MAX, text, text_length, marks, marks_used, &place);
}

static void lower(void) {
    number = lubiksan_lower(rows, LUBIKSAN_ROWS_MAX, names, LUBIKSAN_NAMES_MAX, graph_rows, LUBIKSAN_ROWS_MAX, graph_names,
                            LUBIKSAN_NAMES_MAX, scratch, LUBIKSAN_SCRATCH_MIN, &place);
}

static void write_back(void) {
    number = lubiksan_write(rows, LUBIKSAN_ROWS_MAX, names, LUBIKSAN_NAMES_MAX, out, LUBIKSAN_TEXT_MAX, &place);
}

static void reduce(void) {
    number = lubiksan_reduce(graph_rows, LUBIKSAN_ROWS_MAX, graph_names, LUBIKSAN_NAMES_MAX, reduced_rows, LUBIKSAN_ROWS_MAX,
                             reduced_names, LUBIKSAN_NAMES_MAX, &place);
}

/* Classes, escapes and quantifiers inside as many parentheses as are judged, and a pattern that is left open. */
static void pattern(void) {
    static const char deepest[] = "((((((((((((((((((((((((((((((((a|[b-d]*\\.+))))))))))))))))))))))))))))))){2})";
    lubiksan_pattern((const uint8_t *)deepest, LUBIKSAN_PATTERN_OPENS_MAX + 7, &place);
    number = lubiksan_pattern((const uint8_t *)deepest, sizeof deepest - 1, &place);
}

/* The label of every row, and the leaves on every part of the text that a mark may be the length of. */
static void others(void) {
    uint32_t in_words, narrow;
    uint64_t wide;
    size_t start, length;
    for (size_t row = 0; row < graph_rows[LUBIKSAN_ROWS_USED_AT]; row++) {
        lubiksan_label(graph_rows, LUBIKSAN_ROWS_MAX, graph_names, LUBIKSAN_NAMES_MAX, (const uint8_t *)words, sizeof words - 1,
                       row, &in_words, &start, &length);
        lubiksan_label_number(graph_rows, LUBIKSAN_ROWS_MAX, graph_names, LUBIKSAN_NAMES_MAX, (const uint8_t *)words,
                              sizeof words - 1, row);
    }
    for (size_t from = 0; from + 40 < text_length; from += 7) {
        const uint8_t *part = text + from;
        size_t size = 1 + from % 39;
        lubiksan_local_name(part, size);
        lubiksan_parse_u32(part, size, &narrow);
        lubiksan_parse_u64(part, size, &wide);
        lubiksan_map_builtin(part, size);
        lubiksan_normalize_type_name(part, size, out, sizeof out);
        lubiksan_xml_to_snake_case(part, size, out, sizeof out);
        lubiksan_code_to_pascal_case(part, size, out, sizeof out);
        lubiksan_same_normalized(part, size, text, size);
    }
    lubiksan_convert(rows, LUBIKSAN_ROWS_MAX, names, LUBIKSAN_NAMES_MAX, &place);
    lubiksan_graph_form(graph_rows, LUBIKSAN_ROWS_MAX, graph_names, LUBIKSAN_NAMES_MAX, &place);
    lubiksan_columns(graph_rows, LUBIKSAN_ROWS_MAX, rows, LUBIKSAN_ROWS_MAX, &place);
    lubiksan_rows(graph_rows, LUBIKSAN_ROWS_MAX, rows, LUBIKSAN_ROWS_MAX, &place);
    lubiksan_parse_u32((const uint8_t *)" +0042 ", 7, &narrow);
    lubiksan_parse_u64((const uint8_t *)" +0042 ", 7, &wide);
    lubiksan_map_builtin((const uint8_t *)"xs:dateTime", 11);
    number = lubiksan_version() == LUBIKSAN_VERSION ? LUBIKSAN_ACCEPTED : LUBIKSAN_LENGTHS;
}

static void *thread(void *call) {
    frame = (uint8_t *)__builtin_frame_address(0);
    /* What is below this frame was not used yet, but by the making of the thread. */
    volatile uint8_t *below = frame - 512;
    while ((uint8_t *)below > stack) {
        *--below = PAINT;
    }
    (*(void (**)(void))call)();
    return NULL;
}

/* The bytes that a call takes below the frame that calls. */
static size_t taken(void (*call)(void)) {
    pthread_attr_t attributes;
    pthread_t made;
    memset(stack, PAINT, STACK);
    if (pthread_attr_init(&attributes) != 0 || pthread_attr_setstack(&attributes, stack, STACK) != 0 ||
        pthread_create(&made, &attributes, thread, &call) != 0 || pthread_join(made, NULL) != 0) {
        fprintf(stderr, "a thread can't be made\n");
        exit(EXIT_FAILURE);
    }
    if (number != LUBIKSAN_ACCEPTED) {
        fprintf(stderr, "refused with %u\n", (unsigned)number);
        exit(EXIT_FAILURE);
    }
    size_t lowest = 0;
    while (stack[lowest] == PAINT) {
        lowest++;
    }
    return (size_t)(frame - stack) - lowest;
}

int main(int argc, char **argv) {
    static void (*const calls[])(void) = {tape, clear, read_piece, lower, reduce, write_back, pattern, others};
    static const char *const told[] = {"TAPE", "CLEAR", "READ", "LOWER", "REDUCE", "WRITE", "PATTERN", "OTHER"};
    enum { CALLS = sizeof calls / sizeof calls[0] };
    size_t most[CALLS] = {0};
    if (posix_memalign((void **)&stack, 4096, STACK) != 0) {
        return EXIT_FAILURE;
    }
    for (int i = 1; i < argc; i++) {
        FILE *file = fopen(argv[i], "rb");
        if (file == NULL) {
            fprintf(stderr, "%s: it can't be read\n", argv[i]);
            return EXIT_FAILURE;
        }
        text_length = fread(text, 1, sizeof text, file);
        fclose(file);
        for (size_t call = 0; call < CALLS; call++) {
            size_t bytes = taken(calls[call]);
            most[call] = bytes > most[call] ? bytes : most[call];
        }
    }
    for (size_t call = 0; call < CALLS; call++) {
        printf("%s %zu\n", told[call], most[call]);
    }
    return EXIT_SUCCESS;
}
